//! Cards, and when the judge says no.
//!
//! Here are the numbers of the refusals and every check that comes before a call touches a room:
//! numbers 1 to 6 and 11.

use crate::records::{Place, Record, RECORD_BYTES};

/// A pattern card has 1 to 512 records.
pub const PATTERN_RECORDS: usize = 512;

/// A proof card has 1 to 4,096 records.
pub const PROOF_RECORDS: usize = 4_096;

/// A word has 0 to 65,535 bytes.
pub const WORD_BYTES: usize = 65_535;

/// A work room has 16 to 32,768 bytes.
pub const WORK_BYTES: std::ops::RangeInclusive<usize> = 16..=32_768;

/// A pair room has 1 to 8,192 bytes.
pub const PAIR_ROOM_BYTES: std::ops::RangeInclusive<usize> = 1..=8_192;

/// A pair record has 8 bytes.
pub const PAIR_BYTES: usize = 8;

/// The refusals, in the order of their numbers.
#[derive(Clone, Copy, Debug, PartialEq, Eq)]
pub enum Refusal {
    CardLength,
    BrokenRecord,
    WrongMark,
    WordTooLong,
    WorkRoom,
    PairRoom,
    NoFreePlace,
    NoBudget,
    NoPlaceForPair,
    /// Number 10 also tells the length wanted.
    WordRoom(usize),
    PairNamesNoRecord,
}

impl Refusal {
    /// The number in the table of document 01.
    pub fn number(self) -> u32 {
        match self {
            Refusal::CardLength => 1,
            Refusal::BrokenRecord => 2,
            Refusal::WrongMark => 3,
            Refusal::WordTooLong => 4,
            Refusal::WorkRoom => 5,
            Refusal::PairRoom => 6,
            Refusal::NoFreePlace => 7,
            Refusal::NoBudget => 8,
            Refusal::NoPlaceForPair => 9,
            Refusal::WordRoom(_) => 10,
            Refusal::PairNamesNoRecord => 11,
        }
    }
}

/// Reads a card of at most so many records: number 1 first, then record by record, 2 before 3.
pub fn read_card(bytes: &[u8], most: usize) -> Result<Vec<Record>, Refusal> {
    if bytes.is_empty() || !bytes.len().is_multiple_of(RECORD_BYTES) || bytes.len() > most * RECORD_BYTES {
        return Err(Refusal::CardLength);
    }
    let mut records = Vec::new();
    let mut marks = Vec::new();
    for bytes in bytes.chunks(RECORD_BYTES) {
        let record = read_record(bytes, records.len()).ok_or(Refusal::BrokenRecord)?;
        let mark = record.mark(&marks);
        if bytes[2] != mark as u8 {
            return Err(Refusal::WrongMark);
        }
        records.push(record);
        marks.push(mark);
    }
    Ok(records)
}

/// The record that 8 bytes hold, its mark left aside; none where it breaks the kind table, its
/// fourth byte isn't zero, or a child isn't lower than the record's own number.
fn read_record(bytes: &[u8], number: usize) -> Option<Record> {
    let (kind, letter, zero) = (bytes[0], bytes[1], bytes[3]);
    let (left, right) = (two_bytes(&bytes[4..6]), two_bytes(&bytes[6..8]));
    let lower = |child: Place| (child as usize) < number;
    let record = match kind {
        0 => Record::Nothing,
        1 => Record::EmptyWord,
        2 => Record::Letter(letter),
        3 if lower(left) && lower(right) => Record::Choice(left, right),
        4 if lower(left) && lower(right) => Record::Sequence(left, right),
        5 if lower(left) => Record::Repeat(left),
        _ => return None,
    };
    let letter_allowed = kind == 2 || letter == 0;
    let left_allowed = kind >= 3 || left == 0;
    let right_allowed = kind == 3 || kind == 4 || right == 0;
    (letter_allowed && left_allowed && right_allowed && zero == 0).then_some(record)
}

/// Two bytes, low byte first.
fn two_bytes(bytes: &[u8]) -> u16 {
    u16::from_le_bytes([bytes[0], bytes[1]])
}

/// Number 4: word too long.
pub fn check_word(word: &[u8]) -> Result<(), Refusal> {
    if word.len() > WORD_BYTES {
        return Err(Refusal::WordTooLong);
    }
    Ok(())
}

/// Number 5: work room under 16 bytes, over 32,768, or not a multiple of 8.
pub fn check_work_room(bytes: usize) -> Result<(), Refusal> {
    if !WORK_BYTES.contains(&bytes) || !bytes.is_multiple_of(RECORD_BYTES) {
        return Err(Refusal::WorkRoom);
    }
    Ok(())
}

/// Number 6: pair room empty, over 8,192 bytes, or not a multiple of 8. A pair list obeys it too.
pub fn check_pair_room(bytes: usize) -> Result<(), Refusal> {
    if !PAIR_ROOM_BYTES.contains(&bytes) || !bytes.is_multiple_of(PAIR_BYTES) {
        return Err(Refusal::PairRoom);
    }
    Ok(())
}

/// Reads the first two fields of each pair of a list; number 11 where one names no record of the
/// proof card.
pub fn read_pair_list(list: &[u8], proof_records: usize) -> Result<Vec<(Place, Place)>, Refusal> {
    let mut pairs = Vec::new();
    for pair in list.chunks(PAIR_BYTES) {
        let (left, right) = (two_bytes(&pair[0..2]), two_bytes(&pair[2..4]));
        if left as usize >= proof_records || right as usize >= proof_records {
            return Err(Refusal::PairNamesNoRecord);
        }
        pairs.push((left, right));
    }
    Ok(pairs)
}

/// The letters tried, ascending: those in a letter record of either pattern card.
pub fn letters(left: &[Record], right: &[Record]) -> Vec<u8> {
    let mut tried = [false; 256];
    for record in left.iter().chain(right) {
        if let Record::Letter(letter) = record {
            tried[*letter as usize] = true;
        }
    }
    (0..=255u8).filter(|letter| tried[*letter as usize]).collect()
}
