//! What the judge's program `cases` is held to in the gate: crates/cases/stdin, a line each, with the outcomes of
//! crates/cases/stdout. Its lines are calls and jobs; a test is about the ones or the others.
#![allow(dead_code)]

/// The calls with their outcomes.
pub fn calls() -> Vec<(String, String)> {
    lines().into_iter().filter(|(line, _)| !line.starts_with("job ")).collect()
}

/// The jobs with their answers, as the bytes that the program reads and the text that it writes.
pub fn jobs() -> Vec<(Vec<u8>, String)> {
    let jobs = lines().into_iter().filter_map(|(line, outcome)| {
        let (job, answer) = (line.strip_prefix("job text=")?, outcome.strip_prefix("text=").unwrap());
        Some((bytes(job), String::from_utf8(bytes(answer)).unwrap()))
    });
    jobs.collect()
}

/// The lines up to their arrow, with their outcomes.
fn lines() -> Vec<(String, String)> {
    let [lines, outcomes] = ["stdin", "stdout"].map(|file| {
        let path = format!("{}/../crates/cases/{file}", env!("CARGO_MANIFEST_DIR"));
        std::fs::read_to_string(path).unwrap()
    });
    assert_eq!(lines.lines().count(), outcomes.lines().count());
    let both = lines.lines().zip(outcomes.lines());
    both.map(|(line, outcome)| (before_arrow(line).to_string(), outcome.to_string())).collect()
}

/// The line up to ` ->`.
fn before_arrow(line: &str) -> &str {
    line.split(" ->").next().unwrap()
}

/// The bytes that stand in hex.
fn bytes(hex: &str) -> Vec<u8> {
    (0..hex.len()).step_by(2).map(|at| u8::from_str_radix(&hex[at..at + 2], 16).unwrap()).collect()
}
