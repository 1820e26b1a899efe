//! A program that answers items: the port, or a plug-in.

use crate::answer::{next_answer, Answer};
use crate::item::{batch_of, Item};
use std::io::{self, BufReader, Write};
use std::process::{Child, ChildStdin, ChildStdout, Command, ExitStatus, Stdio};
use std::sync::mpsc::{channel, RecvTimeoutError};
use std::thread;
use std::time::Duration;

/// How long a program lives.
#[derive(Clone, Copy, PartialEq, Eq, Debug)]
pub enum Life {
    /// Through the whole run: it must write an answer out before it waits for the next item.
    Kept,
    /// For one block: it may read its input to the end first.
    OneBlock,
}

pub struct Program {
    pub name: String,
    command: String,
    life: Life,
    /// After so long without the answers to a block the run ends.
    patience: Duration,
    running: Option<Running>,
}

struct Running {
    child: Child,
    input: Option<ChildStdin>,
    output: BufReader<ChildStdout>,
}

impl Program {
    pub fn new(name: &str, command: &str, life: Life) -> Program {
        Program {
            name: name.to_string(),
            command: command.to_string(),
            life,
            patience: Duration::MAX,
            running: None,
        }
    }

    pub fn with_patience(mut self, patience: Duration) -> Program {
        self.patience = patience;
        self
    }

    /// An answer for each item, as it is written.
    pub fn answers(&mut self, items: &[Item]) -> Result<Vec<Vec<u8>>, String> {
        let kept = self.running.take();
        let in_words = |trouble: io::Error| self.trouble(&trouble.to_string());
        let running = kept.map_or_else(|| Running::started(&self.command), Ok);
        let mut running = running.map_err(in_words)?;
        let answers = self
            .watched(|| running.ask(items, self.life))
            .map_err(in_words)?;
        if answers.len() != items.len() {
            let (ended, _) = running.ended().map_err(in_words)?;
            let (got, asked) = (answers.len(), items.len());
            return Err(self.trouble(&format!("{got} answers to {asked} items; {ended}")));
        }
        match self.life {
            Life::Kept => self.running = Some(running),
            Life::OneBlock => self.check_end(running)?,
        }
        Ok(answers)
    }

    /// Does the work; ends the whole program with status 2 if that takes too long. The state of the last block stands.
    fn watched<T>(&self, work: impl FnOnce() -> T) -> T {
        let (done, waits) = channel::<()>();
        thread::scope(|scope| {
            scope.spawn(move || {
                if waits.recv_timeout(self.patience) == Err(RecvTimeoutError::Timeout) {
                    let seconds = self.patience.as_secs();
                    let words = format!("no answers for {seconds} seconds");
                    eprintln!("nightly: {}", self.trouble(&words));
                    std::process::exit(2);
                }
            });
            let result = work();
            drop(done);
            result
        })
    }

    /// A plug-in that fails or says more behind its last answer is not to be trusted.
    fn check_end(&self, running: Running) -> Result<(), String> {
        match running.ended() {
            Ok((status, 0)) if status.success() => Ok(()),
            Ok((status, 0)) => Err(self.trouble(&status.to_string())),
            Ok(_) => Err(self.trouble("more answers than items")),
            Err(trouble) => Err(self.trouble(&trouble.to_string())),
        }
    }

    /// One of its answers, read.
    pub fn read(&self, text: &[u8]) -> Result<Answer, String> {
        Answer::parsed(text).map_err(|words| self.trouble(&words))
    }

    fn trouble(&self, words: &str) -> String {
        format!("{} ({}): {words}", self.name, self.command)
    }
}

impl Running {
    fn started(command: &str) -> io::Result<Running> {
        let mut child = Command::new("sh")
            .arg("-c")
            .arg(format!("exec {command}"))
            .stdin(Stdio::piped())
            .stdout(Stdio::piped())
            .spawn()?;
        let input = child.stdin.take();
        let output = child.stdout.take().ok_or(io::ErrorKind::BrokenPipe)?;
        let output = BufReader::with_capacity(1 << 16, output);
        Ok(Running {
            child,
            input,
            output,
        })
    }

    /// Another thread feeds the items, so that neither side waits for the other with a full pipe.
    fn ask(&mut self, items: &[Item], life: Life) -> io::Result<Vec<Vec<u8>>> {
        let batch = batch_of(items);
        let mut input = self.input.take().ok_or(io::ErrorKind::BrokenPipe)?;
        let output = &mut self.output;
        let (answers, input) = thread::scope(|scope| {
            let feeder = scope.spawn(move || {
                // A program that died is known by its missing answers.
                let fed = input.write_all(&batch).and_then(|()| input.flush());
                fed.is_ok().then_some(input).filter(|_| life == Life::Kept)
            });
            let answers = read_answers(output, items.len());
            (answers, feeder.join().ok().flatten())
        });
        self.input = input;
        answers
    }

    /// Closes its input. How it ends then, and how many bytes it still writes.
    fn ended(mut self) -> io::Result<(ExitStatus, u64)> {
        self.input = None;
        let more = io::copy(&mut self.output, &mut io::sink())?;
        Ok((self.child.wait()?, more))
    }
}

impl Drop for Program {
    fn drop(&mut self) {
        if let Some(running) = self.running.take() {
            // The run is over: how the program takes its end of input says nothing about the answers.
            let _ = running.ended();
        }
    }
}

/// As many answers as were asked for, or those that came.
fn read_answers(output: &mut BufReader<ChildStdout>, count: usize) -> io::Result<Vec<Vec<u8>>> {
    let mut answers = Vec::with_capacity(count);
    while answers.len() < count {
        let Some(answer) = next_answer(output)? else {
            break;
        };
        answers.push(answer);
    }
    Ok(answers)
}

#[cfg(test)]
mod tests {
    use super::*;
    use crate::item::Reading;

    fn items(count: usize) -> Vec<Item> {
        let item = Item {
            reading: Reading::Run,
            bytes: vec![b'x'; 1_000],
        };
        vec![item; count]
    }

    #[test]
    fn a_program_of_one_block_is_started_again() {
        let mut program = Program::new(
            "p",
            "sh -c 'cat >/dev/null; echo no 4 0 0 0 0'",
            Life::OneBlock,
        );
        for _ in 0..2 {
            let answers = program.answers(&items(1)).unwrap();
            assert_eq!(answers, [b"no 4 0 0 0 0\n".to_vec()]);
        }
    }

    #[test]
    fn full_pipes_do_not_block() {
        let loud =
            "sh -c 'for i in $(seq 3000); do printf \"skip %0200d\\n\" $i; done; cat >/dev/null'";
        let mut program = Program::new("p", loud, Life::OneBlock);
        assert_eq!(program.answers(&items(3_000)).unwrap().len(), 3_000);
    }

    #[test]
    fn a_program_that_dies_or_fails_is_told() {
        for command in ["true", "false", "sh -c 'echo ok 0; exit 3'"] {
            let mut program = Program::new("p", command, Life::OneBlock);
            let count = if command.contains("exit 3") { 1 } else { 5_000 };
            assert!(program.answers(&items(count)).is_err(), "{command}");
        }
    }
}
