//! Larger pairs of patterns: what a comparison comes to as two patterns grow. Each is lent the largest
//! rooms and the largest budget.
//!
//! A card holds the left part, the right part, then the operator, and no part is shared. Sequences and
//! choices are grouped to the left. The step `s1` is the letter with the byte 1, and so on.

use crate::calls::{judge, Answer, Asked, Call, Told};
use crate::cards::{PAIR_BYTES, PATTERN_RECORDS};
use crate::lines::write_call;
use crate::make::layout::unshared_card;
use crate::make::patterns::{any_of, choice, empty_word, grouped_left, letter, repeat, sequence, Pattern};
use crate::records::card_bytes;
use std::io::{self, Write};
use std::rc::Rc;

/// A larger pair, and in words what is compared.
pub struct Larger {
    pub compared: String,
    pub call: Call,
}

/// The larger pairs, by family and size.
pub fn calls() -> Vec<Larger> {
    let mut calls = vec![];
    calls.extend((2..=8).map(letter_before_the_last));
    calls.extend([4, 8, 13, 20, 26].map(any_letters));
    calls.extend([10, 40, 80, 120].map(optional_steps));
    calls.extend([10, 40, 80, 120].map(optional_step_again));
    calls.extend([5, 10, 20].map(handoff));
    calls
}

/// `a` stands just before the last so many letters: the letters before it are told in two ways.
fn letter_before_the_last(count: usize) -> Larger {
    let either = any_of(b"ab");
    let with = |before: Rc<Pattern>| {
        let parts = [before, letter(b'a')].into_iter();
        grouped_left(parts.chain(std::iter::repeat_n(either.clone(), count)))
    };
    let in_turns = sequence(&repeat(&letter(b'a')), &repeat(&letter(b'b')));
    let compared = format!("`(a+b)*·a·(a+b)^{count}` and `(a*·b*)*·a·(a+b)^{count}`");
    larger(compared, &with(repeat(&either)), &with(repeat(&in_turns)))
}

/// Any of so many letters again and again, and the same with each letter repeated in its turn.
fn any_letters(count: u8) -> Larger {
    let letters: Vec<u8> = (b'a'..b'a' + count).collect();
    let in_turns = grouped_left(letters.iter().map(|&own| repeat(&letter(own))));
    let last = letters[letters.len() - 1] as char;
    let compared = format!("`(a+..+{last})*` and `(a*·..·{last}*)*`, {count} letters");
    larger(compared, &repeat(&any_of(&letters)), &repeat(&in_turns))
}

/// So many steps, each of which may be left out, no two of one letter.
fn optional_steps(count: u8) -> Larger {
    let compared = format!("`(s1+1)·..·(s{count}+1)` and `(1+s1)·..·(1+s{count})`");
    optional(compared, (1..=count).map(letter).collect())
}

/// The same of one letter.
fn optional_step_again(count: u8) -> Larger {
    optional(format!("`(s+1)·..·(s+1)` and `(1+s)·..·(1+s)`, {count} times"), vec![letter(b's'); count as usize])
}

/// Steps that may be left out: the empty word stands last in each choice, or first.
fn optional(compared: String, steps: Vec<Rc<Pattern>>) -> Larger {
    let each = |one: fn(&Rc<Pattern>) -> Rc<Pattern>| grouped_left(steps.iter().map(one));
    let left = each(|step| choice(step, &empty_word()));
    let right = each(|step| choice(&empty_word(), step));
    larger(compared, &left, &right)
}

/// So many steps again and again, and the same where the middle step may come twice. Of an even number
/// of steps the middle one is the last of the first half.
fn handoff(count: u8) -> Larger {
    let middle = count.div_ceil(2);
    let twice_at_most = |step: Rc<Pattern>| choice(&step, &sequence(&step, &step));
    let left = grouped_left((1..=count).map(letter));
    let right = grouped_left((1..=count).map(|own| match own == middle {
        true => twice_at_most(letter(own)),
        false => letter(own),
    }));
    let compared = format!("`(s1·..·s{count})*` and the same with `s{middle}+s{middle}·s{middle}` for `s{middle}`");
    larger(compared, &repeat(&left), &repeat(&right))
}

/// The comparison of two patterns.
fn larger(compared: String, left: &Pattern, right: &Pattern) -> Larger {
    let card = |pattern| card_bytes(&unshared_card(pattern, PATTERN_RECORDS).expect("a card has 512 records at most"));
    let asked = Asked::Compare { left: card(left), right: card(right), pairs: 8_192, word: 1_024, had: None };
    Larger { compared, call: Call { asked, work: 32_768, fill: 0xa5, was: None, budget: u32::MAX } }
}

/// Writes the calls as lines, which `cases` can answer too.
pub fn write_calls(output: &mut impl Write) -> io::Result<()> {
    for larger in calls() {
        writeln!(output, "{}", write_call(&larger.call))?;
    }
    Ok(())
}

/// Writes the outcome and the counts of each pair, as the rows of a table.
pub fn write_table(output: &mut impl Write) -> io::Result<()> {
    writeln!(output, "| compared | outcome | pairs | places | visits |")?;
    writeln!(output, "|---|---|---|---|---|")?;
    for larger in calls() {
        let told = judge(&larger.call);
        let [pairs, places, visits] = counts(&told).map(in_thousands);
        writeln!(output, "| {} | {} | {pairs} | {places} | {visits} |", larger.compared, outcome(&told.answer))?;
    }
    Ok(())
}

/// The pairs, the places and the visits told.
fn counts(told: &Told) -> [usize; 3] {
    let pairs = told.table.as_ref().map_or(0, |table| table.len() / PAIR_BYTES);
    [pairs, told.places, told.visits as usize]
}

/// The outcome of a comparison in words.
fn outcome(answer: &Answer) -> String {
    match answer {
        Answer::Same => "same".to_string(),
        Answer::Different { word, .. } => format!("different, a word of {} letters", word.len()),
        Answer::Refused(refusal) => format!("refused by {}", refusal.number()),
        other => unreachable!("no comparison answers {other:?}"),
    }
}

/// A number with a comma after its thousands.
fn in_thousands(number: usize) -> String {
    match number {
        0..1_000 => number.to_string(),
        _ => format!("{},{:03}", in_thousands(number / 1_000), number % 1_000),
    }
}
