//! The program: answers calls, or makes them.

use std::io::{self, BufRead, BufWriter, Write};
use std::process::ExitCode;
use twin::{larger, lines, make, on_large_stack, race, small};

const USAGE: &str = "\
twin                            read calls, a line each, and write what each tells
twin make SEED COUNT [FIRST]    write COUNT random calls of a seed, from number FIRST (or 0) on
twin all-small [COUNT [FIRST]]  write the calls about all small patterns and words, or a part of them
twin larger [calls]             write what the larger pairs come to, as a table, or their calls
twin race BEFORE AFTER          time two programs, in turn, on the long comparisons";

/// What the arguments ask for.
enum Wanted {
    Answers,
    Random { seed: u64, count: u64, first: u64 },
    Small { count: usize, first: usize },
    Larger,
    LargerCalls,
    Race { before: String, after: String },
}

fn main() -> ExitCode {
    let arguments: Vec<String> = std::env::args().skip(1).collect();
    let Some(wanted) = read_arguments(&arguments) else {
        eprintln!("{USAGE}");
        return ExitCode::from(2);
    };
    match on_large_stack(move || run(wanted)) {
        Ok(()) => ExitCode::SUCCESS,
        Err(error) => {
            eprintln!("twin: {error}");
            ExitCode::FAILURE
        }
    }
}

/// Reads the arguments; none where they are not of the form.
fn read_arguments(arguments: &[String]) -> Option<Wanted> {
    let words: Vec<&str> = arguments.iter().map(String::as_str).collect();
    let number = |word: &str| word.parse::<u64>().ok();
    match words[..] {
        [] => Some(Wanted::Answers),
        ["make", seed, count] => Some(Wanted::Random { seed: number(seed)?, count: number(count)?, first: 0 }),
        ["make", seed, count, first] => {
            Some(Wanted::Random { seed: number(seed)?, count: number(count)?, first: number(first)? })
        }
        ["all-small"] => Some(Wanted::Small { count: usize::MAX, first: 0 }),
        ["all-small", count] => Some(Wanted::Small { count: number(count)? as usize, first: 0 }),
        ["all-small", count, first] => {
            Some(Wanted::Small { count: number(count)? as usize, first: number(first)? as usize })
        }
        ["larger"] => Some(Wanted::Larger),
        ["larger", "calls"] => Some(Wanted::LargerCalls),
        ["race", before, after] => Some(Wanted::Race { before: before.to_string(), after: after.to_string() }),
        _ => None,
    }
}

/// Writes what is wanted to standard output, line by line.
fn run(wanted: Wanted) -> io::Result<()> {
    let mut output = BufWriter::new(io::stdout().lock());
    match wanted {
        Wanted::Answers => {
            for line in io::stdin().lock().split(b'\n') {
                writeln!(output, "{}", lines::answer_line(&line?))?;
            }
        }
        Wanted::Random { seed, count, first } => {
            for number in 0..count {
                writeln!(output, "{}", make::line(seed, first + number))?;
            }
        }
        Wanted::Small { count, first } => {
            let calls = small::SmallCalls::list();
            for line in (first..).take(count).map_while(|number| calls.line(number)) {
                writeln!(output, "{line}")?;
            }
        }
        Wanted::Larger => larger::write_table(&mut output)?,
        Wanted::LargerCalls => larger::write_calls(&mut output)?,
        Wanted::Race { before, after } => race::run(&before, &after, &mut output)?,
    }
    output.flush()
}
