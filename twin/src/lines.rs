//! The line form of calls and of what they tell.
//!
//! A call is a line of keys and values in a fixed order, one space between them; what follows
//! ` ->` is ignored. Its outcome is the part that would stand after the arrow.

use crate::calls::{judge, Answer, Asked, Call, Told};
use crate::cards::{Refusal, PAIR_BYTES};
use crate::checker::Failing;
use crate::search::Side;

/// What stands for a line that is not of the form.
pub const BAD_LINE: &str = "bad line";

/// The largest room that a line may lend, in bytes.
pub const LARGEST_ROOM: u64 = 65_536;

/// Answers one line: the outcome of its call, or `bad line`.
pub fn answer_line(line: &[u8]) -> String {
    match read_call(before_arrow(line)) {
        Some(call) => write_told(&judge(&call)),
        None => BAD_LINE.to_string(),
    }
}

/// The line up to ` ->`.
fn before_arrow(line: &[u8]) -> &[u8] {
    let arrow = line.windows(3).position(|three| three == b" ->");
    &line[..arrow.unwrap_or(line.len())]
}

/// The words of a line, read from left to right.
struct Words<'a> {
    words: std::vec::IntoIter<&'a [u8]>,
}

impl<'a> Words<'a> {
    /// The words are what stands between single spaces.
    fn of(line: &'a [u8]) -> Words<'a> {
        let words: Vec<&[u8]> = line.split(|byte| *byte == b' ').collect();
        Words { words: words.into_iter() }
    }

    /// The value of the next word, if it has this key.
    fn value(&mut self, key: &str) -> Option<&'a [u8]> {
        let value = self.words.as_slice().first()?.strip_prefix(key.as_bytes())?.strip_prefix(b"=")?;
        self.words.next();
        Some(value)
    }

    /// A value in hex.
    fn bytes(&mut self, key: &str) -> Option<Vec<u8>> {
        read_hex(self.value(key)?)
    }

    /// A value in hex whose key may be left out; the outer none is a value that is not of the form.
    fn bytes_if_there(&mut self, key: &str) -> Option<Option<Vec<u8>>> {
        match self.value(key) {
            Some(value) => Some(Some(read_hex(value)?)),
            None => Some(None),
        }
    }

    /// A decimal value.
    fn number(&mut self, key: &str, most: u64) -> Option<u64> {
        read_number(self.value(key)?, most)
    }

    /// The size of a room.
    fn room(&mut self, key: &str) -> Option<usize> {
        Some(self.number(key, LARGEST_ROOM)? as usize)
    }
}

/// Reads a call; none where the line is not of the form.
pub fn read_call(line: &[u8]) -> Option<Call> {
    let mut words = Words::of(line);
    let kind = words.words.next()?;
    let (work, fill, was);
    let asked = match kind {
        b"match" => {
            let (card, word) = (words.bytes("card")?, words.bytes("word")?);
            (work, fill) = (words.room("work")?, read_fill(words.value("fill")?)?);
            was = words.bytes_if_there("was")?;
            Asked::Match { card, word }
        }
        b"compare" => {
            let (left, right) = (words.bytes("left")?, words.bytes("right")?);
            work = words.room("work")?;
            let (pairs, word) = (words.room("pairs")?, words.room("word")?);
            fill = read_fill(words.value("fill")?)?;
            was = words.bytes_if_there("was")?;
            let had = words.bytes_if_there("had")?;
            Asked::Compare { left, right, pairs, word, had }
        }
        b"check" => {
            let (left, right) = (words.bytes("left")?, words.bytes("right")?);
            let (proof, list) = (words.bytes("proof")?, words.bytes("list")?);
            (work, fill) = (words.room("work")?, read_fill(words.value("fill")?)?);
            was = words.bytes_if_there("was")?;
            Asked::Check { left, right, proof, list }
        }
        _ => return None,
    };
    let budget = words.number("budget", u32::MAX as u64)? as u32;
    words.words.next().is_none().then_some(Call { asked, work, fill, was, budget })
}

/// A decimal number without leading zeros, at most so much.
fn read_number(digits: &[u8], most: u64) -> Option<u64> {
    let too_long = digits.len() > 10;
    let leading_zero = digits.len() > 1 && digits[0] == b'0';
    if digits.is_empty() || too_long || leading_zero || !digits.iter().all(u8::is_ascii_digit) {
        return None;
    }
    let number = digits.iter().fold(0, |number, digit| number * 10 + (digit - b'0') as u64);
    (number <= most).then_some(number)
}

/// Bytes in lower-case hex: an even number of digits, or none.
fn read_hex(digits: &[u8]) -> Option<Vec<u8>> {
    if !digits.len().is_multiple_of(2) {
        return None;
    }
    digits.chunks(2).map(|two| Some(hex_digit(two[0])? << 4 | hex_digit(two[1])?)).collect()
}

/// The byte `fill`: two hex digits.
fn read_fill(digits: &[u8]) -> Option<u8> {
    match read_hex(digits)?[..] {
        [fill] => Some(fill),
        _ => None,
    }
}

/// The value of one lower-case hex digit.
fn hex_digit(digit: u8) -> Option<u8> {
    match digit {
        b'0'..=b'9' => Some(digit - b'0'),
        b'a'..=b'f' => Some(digit - b'a' + 10),
        _ => None,
    }
}

/// Bytes as lower-case hex.
pub fn hex(bytes: &[u8]) -> String {
    let mut digits = String::with_capacity(bytes.len() * 2);
    for byte in bytes {
        for half in [byte >> 4, byte & 15] {
            digits.push(b"0123456789abcdef"[half as usize] as char);
        }
    }
    digits
}

/// A call as a line, up to the arrow.
pub fn write_call(call: &Call) -> String {
    let (work, fill, was, budget) = (call.work, hex(&[call.fill]), if_there("was", &call.was), call.budget);
    match &call.asked {
        Asked::Match { card, word } => {
            let given = format!("card={} word={}", hex(card), hex(word));
            format!("match {given} work={work} fill={fill}{was} budget={budget}")
        }
        Asked::Compare { left, right, pairs, word, had } => {
            let (given, had) = (format!("left={} right={}", hex(left), hex(right)), if_there("had", had));
            format!("compare {given} work={work} pairs={pairs} word={word} fill={fill}{was}{had} budget={budget}")
        }
        Asked::Check { left, right, proof, list } => {
            let given = format!("left={} right={} proof={} list={}", hex(left), hex(right), hex(proof), hex(list));
            format!("check {given} work={work} fill={fill}{was} budget={budget}")
        }
    }
}

/// A key that may be left out, with the space before it.
fn if_there(key: &str, bytes: &Option<Vec<u8>>) -> String {
    match bytes {
        Some(bytes) => format!(" {key}={}", hex(bytes)),
        None => String::new(),
    }
}

/// What a call tells, as the part after the arrow; what is not told is left out.
pub fn write_told(told: &Told) -> String {
    let answer = write_answer(&told.answer);
    let (places, visits, work) = (told.places, told.visits, hex(&told.work));
    match &told.table {
        None => format!("{answer} places={places} visits={visits} work={work}"),
        Some(table) => {
            let (pairs, table) = (table.len() / PAIR_BYTES, hex(table));
            format!("{answer} pairs={pairs} places={places} visits={visits} work={work} table={table}")
        }
    }
}

/// The answer, with what it tells beside the counts.
fn write_answer(answer: &Answer) -> String {
    match answer {
        Answer::Yes => "answer=yes".to_string(),
        Answer::No => "answer=no".to_string(),
        Answer::Same => "answer=same".to_string(),
        Answer::Different { word, only: Side::Left } => format!("answer=different word={} only=left", hex(word)),
        Answer::Different { word, only: Side::Right } => format!("answer=different word={} only=right", hex(word)),
        Answer::Accepted => "answer=accepted".to_string(),
        Answer::Rejected(Failing::OpeningPair) => "answer=rejected at=opening".to_string(),
        Answer::Rejected(Failing::Marks(pair)) => format!("answer=rejected at={pair}"),
        Answer::Rejected(Failing::Letter(pair, letter)) => {
            format!("answer=rejected at={pair} letter={}", hex(&[*letter]))
        }
        Answer::Refused(Refusal::WordRoom(length)) => format!("answer=refused reason=10 length={length}"),
        Answer::Refused(refusal) => format!("answer=refused reason={}", refusal.number()),
    }
}
