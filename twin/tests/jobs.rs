//! The jobs that the judge's program `cases` is held to in the gate, with their answers. The twin knows calls and no jobs: a
//! job is the call that it asks for, in the rooms that document 01 has the program lend, and its answer what that call tells.

mod cases;

use twin::lines::{answer_line, BAD_LINE};
use twin::on_large_stack;

/// Number 12: a job has at most so many bytes.
const MOST_JOB: usize = 65_536;

/// Each answer is the text of what the job's call tells, or 12 where the job is not of the form.
#[test]
fn every_answer_is_the_one_told() {
    let jobs = cases::jobs();
    assert_eq!(jobs.len(), 414);
    on_large_stack(move || {
        for (number, (job, answer)) in jobs.iter().enumerate() {
            assert_eq!(answer_to(job), *answer, "job {}", number + 1);
        }
    });
}

/// The text that the program writes for a job.
fn answer_to(job: &[u8]) -> String {
    match call_of(job).map(|call| answer_line(call.as_bytes())) {
        Some(told) if told != BAD_LINE => text_of(&told),
        _ => "verdict=refused\nreason=12\n".to_string(),
    }
}

/// The line of a job's call; none where the job is too long or has not its five lines. What stands in a line is the call's to
/// refuse, but for a space, which would end a word there.
fn call_of(job: &[u8]) -> Option<String> {
    let text = std::str::from_utf8(job).ok().filter(|text| text.len() <= MOST_JOB && !text.contains(' '))?;
    let lines: Vec<&str> = text.split('\n').collect();
    let [asked, left, second, budget, ""] = lines[..] else { return None };
    let (left, budget) = (left.strip_prefix("left=")?, budget.strip_prefix("budget=")?);
    match asked {
        "job=compare" => {
            let right = second.strip_prefix("right=")?;
            Some(format!("compare left={left} right={right} work=32768 pairs=8192 word=1024 fill=00 budget={budget}"))
        }
        "job=match" => {
            let word = second.strip_prefix("word=")?;
            Some(format!("match card={left} word={word} work=32768 fill=00 budget={budget}"))
        }
        _ => None,
    }
}

/// What a call told, a line each: of a refusal the reason only, and of no room its bytes.
fn text_of(told: &str) -> String {
    let refused = told.starts_with("answer=refused");
    let said = told.split(' ').filter(|word| !word.starts_with("work=") && !word.starts_with("table="));
    let lines = said.take(if refused { 2 } else { usize::MAX });
    lines.map(|word| word.replace("answer=", "verdict=") + "\n").collect()
}
