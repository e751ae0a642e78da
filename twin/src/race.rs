//! Two programs that answer calls, such as two builds of `cases`, timed on the long comparisons.
//!
//! For each comparison the two run in turn, several times, and the shortest time of each counts. A
//! program reads the call and writes its outcome as lines, some times over, so that its start weighs
//! little; that reading and writing is in both times.

use crate::calls::judge;
use crate::lines::{write_call, write_told};
use crate::long::{calls, Long};
use crate::lookups::Lookups;
use std::io::{self, Read, Write};
use std::process::{Command, Stdio};
use std::time::{Duration, Instant};

/// The call is given to a program so many times in a run.
const CALLS: usize = 20;

/// The programs run so many times each.
const RUNS: usize = 25;

/// Writes, for each comparison, the records compared a lookup and the time that a call takes.
pub fn run(before: &str, after: &str, output: &mut impl Write) -> io::Result<()> {
    for long in calls() {
        let told = judge(&long.call);
        let outcome = write_told(&told);
        let answer = outcome.split(' ').next().expect("an outcome begins with its answer");
        writeln!(output, "{}: {answer} places={} visits={}", long.compared, told.places, told.visits)?;
        write_lookups(output, "all lookups", told.lookups.all)?;
        write_lookups(output, "lookups in 2,000 records and more", told.lookups.in_large_store)?;
        let (before, after) = times(&long, &outcome, before, after)?;
        write_ratio(output, "ms a call before, after", milliseconds(before), milliseconds(after))?;
        output.flush()?;
    }
    Ok(())
}

/// Writes how many records a lookup compares, from place 0 on and from above the children.
fn write_lookups(output: &mut impl Write, label: &str, lookups: Lookups) -> io::Result<()> {
    let a_lookup = |compared: u64| compared as f64 / lookups.made as f64;
    let label = format!("{label}, {}: compared a lookup from place 0, from above the children", lookups.made);
    write_ratio(output, &label, a_lookup(lookups.from_first), a_lookup(lookups.from_children))
}

/// Writes two figures and their ratio.
fn write_ratio(output: &mut impl Write, label: &str, before: f64, after: f64) -> io::Result<()> {
    writeln!(output, "    {label}: {before:.2}, {after:.2}; ratio {:.1}", before / after)
}

/// The milliseconds of one call of a run.
fn milliseconds(run: Duration) -> f64 {
    run.as_secs_f64() * 1_000.0 / CALLS as f64
}

/// The shortest times of the two programs, which run in turn.
fn times(long: &Long, outcome: &str, before: &str, after: &str) -> io::Result<(Duration, Duration)> {
    let input = format!("{}\n", write_call(&long.call)).repeat(CALLS);
    let expected = format!("{outcome}\n").repeat(CALLS);
    let mut shortest = (Duration::MAX, Duration::MAX);
    for _ in 0..RUNS {
        shortest.0 = shortest.0.min(time(before, &input, &expected)?);
        shortest.1 = shortest.1.min(time(after, &input, &expected)?);
    }
    Ok(shortest)
}

/// The time of one run; an error where the program does not answer as it should.
fn time(program: &str, input: &str, expected: &str) -> io::Result<Duration> {
    let begun = Instant::now();
    let mut child = Command::new(program)
        .stdin(Stdio::piped())
        .stdout(Stdio::piped())
        .spawn()
        .map_err(|error| io::Error::other(format!("{program} cannot be run: {error}")))?;
    let (mut to, mut from) = (child.stdin.take().expect("a pipe"), child.stdout.take().expect("a pipe"));
    let mut told = String::new();
    std::thread::scope(|scope| {
        scope.spawn(move || to.write_all(input.as_bytes()));
        from.read_to_string(&mut told)
    })?;
    child.wait()?;
    let time = begun.elapsed();
    if told != expected {
        return Err(io::Error::other(format!("{program} tells another outcome than the twin")));
    }
    Ok(time)
}
