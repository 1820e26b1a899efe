//! Every named input has the answer that was derived by hand.

use oracle::forms::program_form;
use oracle::{named, read, Limits};

#[test]
fn named_inputs_have_their_answers() {
    let mut wrong = Vec::new();
    for case in named::named().into_iter().chain(named::of_request_7()) {
        let answer = program_form(&read(&case.input, case.reading, Limits::default()));
        let first_line = answer.lines().next().unwrap_or("").to_string();
        if first_line != case.expected {
            let input = String::from_utf8_lossy(&case.input).to_string();
            wrong.push((case.source, case.reading, input, case.expected, first_line));
        }
    }
    assert!(wrong.is_empty(), "{wrong:#?}");
}
