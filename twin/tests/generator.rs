//! The generator reaches every answer and every refusal number that a call can give often enough: at
//! least 1,000 times in 200,000 calls, held here on a twentieth of that.

use std::collections::BTreeMap;
use twin::lines::{answer_line, BAD_LINE};
use twin::{make, on_large_stack};

const CALLS: u64 = 10_000;
const LEAST: u64 = 1_000 * CALLS / 200_000;

/// The answers of each kind of call, rejections with their failing points, and its refusal numbers.
const OUTCOMES: [(&str, &[&str], &[u32]); 3] = [
    ("match", &["yes", "no"], &[1, 2, 3, 4, 5, 7, 8]),
    ("compare", &["same", "different"], &[1, 2, 3, 5, 6, 7, 8, 9, 10]),
    ("check", &["accepted", "rejected opening", "rejected marks", "rejected letter"], &[1, 2, 3, 5, 6, 7, 8, 11]),
];

/// The kind of a call and its answer, with the number of a refusal or the failing point of a
/// rejection.
fn outcome(line: &str) -> String {
    let told = answer_line(line.as_bytes());
    if told == BAD_LINE {
        return told;
    }
    let words: Vec<&str> = told.split(' ').map(|word| word.split_once('=').map_or(word, |(_, value)| value)).collect();
    let kind = line.split(' ').next().unwrap();
    match words[..] {
        ["refused", number, ..] => format!("{kind} refused {number}"),
        ["rejected", "opening", ..] => format!("{kind} rejected opening"),
        ["rejected", ..] if told.contains(" letter=") => format!("{kind} rejected letter"),
        ["rejected", ..] => format!("{kind} rejected marks"),
        _ => format!("{kind} {}", words[0]),
    }
}

#[test]
fn every_outcome_comes_often() {
    let mut counts = on_large_stack(|| {
        let mut counts: BTreeMap<String, u64> = BTreeMap::new();
        for number in 0..CALLS {
            *counts.entry(outcome(&make::line(2, number))).or_default() += 1;
        }
        counts
    });
    let mut came_often = |expected: String| {
        let count = counts.remove(&expected).unwrap_or(0);
        assert!(count >= LEAST, "{expected}: {count} in {CALLS} calls");
    };
    for (kind, answers, numbers) in OUTCOMES {
        answers.iter().for_each(|answer| came_often(format!("{kind} {answer}")));
        numbers.iter().for_each(|number| came_often(format!("{kind} refused {number}")));
    }
    came_often(BAD_LINE.to_string());
    assert!(counts.is_empty(), "no call gives {counts:?}");
}

/// No line is longer than a line may be, and a call made again alone is the same.
#[test]
fn lines_are_short_enough_and_can_be_made_again() {
    on_large_stack(|| {
        for number in 0..1_000 {
            let line = make::line(3, number);
            assert!(line.len() <= 400_000);
            assert_eq!(line, make::line(3, number));
        }
    });
}
