//! The calls that the judge's program `cases` is held to in the gate, with their outcomes: for the first 1,700 a model that
//! shares nothing with the twin made them, and the 53 others are document 01's edges.

mod cases;

use twin::{lines::answer_line, on_large_stack};

/// The twin tells the outcome of each call, also where the line goes on with an arrow and the outcome.
#[test]
fn every_outcome_is_the_one_told() {
    let calls = cases::calls();
    assert_eq!(calls.len(), 1_753);
    on_large_stack(move || {
        for (number, (call, outcome)) in calls.iter().enumerate() {
            assert_eq!(answer_line(call.as_bytes()), *outcome, "line {}", number + 1);
            let line = format!("{call} -> {outcome}");
            assert_eq!(answer_line(line.as_bytes()), *outcome, "line {} with its arrow", number + 1);
        }
    });
}
