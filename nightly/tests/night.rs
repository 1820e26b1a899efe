//! Whole runs of the program, with the toy of examples/toy.rs for port and oracle.

use std::fs;
use std::path::{Path, PathBuf};
use std::process::{Command, Output};

const PROGRAM: &str = env!("CARGO_BIN_EXE_nightly");
const STAGES: &str = concat!(env!("CARGO_MANIFEST_DIR"), "/stages");
const KNOWN: &str = concat!(env!("CARGO_MANIFEST_DIR"), "/known.txt");

fn example(name: &str) -> String {
    let folder = Path::new(PROGRAM).parent().expect("the program's folder");
    folder.join("examples").join(name).display().to_string()
}

/// An empty folder of this test.
fn folder(test: &str) -> PathBuf {
    let folder = Path::new(env!("CARGO_TARGET_TMPDIR")).join(test);
    let _ = fs::remove_dir_all(&folder);
    fs::create_dir_all(&folder).expect("a folder for the test");
    folder
}

fn run(out: &Path, more: &[&str]) -> Output {
    let toy = example("toy");
    let out = out.display().to_string();
    let words = [
        "run", "--stages", STAGES, "--known", KNOWN, "--port", &toy, "--out", &out, "--block", "50",
    ];
    let mut command = Command::new(PROGRAM);
    command
        .args(words)
        .args(more)
        .output()
        .expect("the program runs")
}

fn text(bytes: &[u8]) -> String {
    String::from_utf8_lossy(bytes).into_owned()
}

fn right() -> String {
    format!("toy={}", example("toy"))
}

fn wrong() -> String {
    format!("wrong={} {}", example("wrong"), example("toy"))
}

#[test]
fn no_difference() {
    let done = run(
        &folder("no_difference"),
        &["--oracle", &right(), "--count", "120"],
    );
    assert_eq!(done.status.code(), Some(0), "{}", text(&done.stderr));
    assert!(text(&done.stdout).contains("120 of 120 items"));
    assert!(text(&done.stderr).contains("shard 0/1: 50 of 120 items"));
}

#[test]
fn a_wrong_oracle_is_found_and_shrunk() {
    let out = folder("wrong");
    let done = run(
        &out,
        &[
            "--oracle",
            &wrong(),
            "--oracle",
            &right(),
            "--count",
            "60",
            "--each",
            "2",
        ],
    );
    assert_eq!(done.status.code(), Some(1), "{}", text(&done.stderr));
    assert!(text(&done.stdout).contains("wrong: both accept, row of kind 14: depth differs"));
    let differences = fs::read_to_string(out.join("differences.txt")).expect("a list");
    assert_eq!(differences.lines().count(), 2);
    for line in differences.lines() {
        let file = line.split('\t').next_back().expect("the file's name");
        assert_eq!(text(&fs::read(out.join(file)).expect("the file")), "{...");
    }
}

/// What was counted and found, without how many items were asked for in which call.
fn state(file: &Path) -> Vec<String> {
    let text = fs::read_to_string(file).expect("a state file");
    text.lines().map(str::to_string).collect()
}

#[test]
fn a_resumed_run_equals_an_unbroken_one() {
    let (one, two) = (folder("unbroken"), folder("resumed"));
    let wrong = wrong();
    let words = |count| ["--oracle", &wrong, "--count", count, "--each", "1"];
    run(&one, &words("170"));
    run(&two, &words("70"));
    let mut stopped = state(&two.join("state.txt"));
    assert!(stopped.contains(&"done\t70".to_string()));
    run(&two, &words("170"));
    stopped = state(&two.join("state.txt"));
    assert_eq!(state(&one.join("state.txt")), stopped);
    let differences = |out: &Path| fs::read(out.join("differences.txt")).expect("a list");
    assert_eq!(differences(&one), differences(&two));
}

#[test]
fn shards_together_equal_the_whole() {
    let out = folder("shards");
    let right = right();
    let words = |shard| ["--oracle", &right, "--count", "151", "--shard", shard];
    for shard in ["0/1", "0/2", "1/2"] {
        run(&out, &words(shard));
    }
    let table = |files: &[&str]| {
        let files = files.iter().map(|file| out.join(file));
        let done = Command::new(PROGRAM).arg("summary").args(files).output();
        let done = done.expect("the program runs");
        assert_eq!(done.status.code(), Some(0), "{}", text(&done.stderr));
        text(&done.stdout)
            .split_once('\n')
            .map(|(_, rest)| rest.to_string())
    };
    let whole = table(&["state.txt"]);
    assert!(whole.is_some());
    assert_eq!(table(&["state-0-of-2.txt", "state-1-of-2.txt"]), whole);
}

#[test]
fn the_state_of_another_run_is_refused() {
    let out = folder("another");
    let right = right();
    run(&out, &["--oracle", &right, "--count", "10"]);
    let state = out.join("state.txt").display().to_string();
    for other in [
        ["--seed", "2"],
        ["--shard", "0/2"],
        ["--stages", env!("CARGO_MANIFEST_DIR")],
    ] {
        let words = [
            &["--oracle", &right, "--count", "10", "--state", &state][..],
            &other,
        ]
        .concat();
        let done = run(&out, &words);
        assert_eq!(done.status.code(), Some(2), "{other:?}");
        assert!(
            text(&done.stderr).contains("the state of another run"),
            "{other:?}"
        );
    }
}

#[test]
fn misuse_and_a_program_that_dies() {
    let out = folder("dies");
    let dying = format!("{} 5", example("toy"));
    let failing = format!("failing={dying}");
    for words in [
        ["--seed", "x"],
        ["--port", &dying],
        ["--oracle", &failing],
        ["--parser", "missing=/no/such/program"],
    ] {
        let done = run(
            &out,
            &[&words[..], &["--oracle", &right(), "--count", "10"]].concat(),
        );
        assert_eq!(done.status.code(), Some(2), "{words:?}");
    }
    assert!(!out.join("state.txt").exists());
}

#[test]
fn a_program_that_does_not_answer_is_given_up() {
    let words = [
        "--oracle",
        &right(),
        "--port",
        "sleep 3",
        "--patience",
        "1",
        "--count",
        "10",
    ];
    let done = run(&folder("silent"), &words);
    assert_eq!(done.status.code(), Some(2));
    assert!(text(&done.stderr).contains("port (sleep 3): no answers for 1 seconds"));
}
