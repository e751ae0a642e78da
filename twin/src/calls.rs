//! The three calls offered to others, matching, comparing and checking: what each is lent, the
//! order of its refusals, and what it tells.

use crate::cards::{self, Refusal, PATTERN_RECORDS, PROOF_RECORDS};
use crate::checker::{checking, Failing};
use crate::derivative::Work;
use crate::lookups::CallLookups;
use crate::search::{comparing, Found, Side, Table};

/// A call. Of the lent rooms the twin needs the sizes only: what a lent room held before the call
/// plays no part in any answer. `fill`, `was` and `had` are kept for writing the call again.
#[derive(Clone, Debug, PartialEq, Eq)]
pub struct Call {
    pub asked: Asked,
    /// The work room, in bytes.
    pub work: usize,
    /// The byte that every room is lent full of.
    pub fill: u8,
    /// What the work room begins with.
    pub was: Option<Vec<u8>>,
    /// Visits that may be made.
    pub budget: u32,
}

/// What is asked, with what only this kind of call is given.
#[derive(Clone, Debug, PartialEq, Eq)]
pub enum Asked {
    Match { card: Vec<u8>, word: Vec<u8> },
    Compare { left: Vec<u8>, right: Vec<u8>, pairs: usize, word: usize, had: Option<Vec<u8>> },
    Check { left: Vec<u8>, right: Vec<u8>, proof: Vec<u8>, list: Vec<u8> },
}

/// The answers.
#[derive(Clone, Debug, PartialEq, Eq)]
pub enum Answer {
    Yes,
    No,
    Same,
    Different { word: Vec<u8>, only: Side },
    Accepted,
    Rejected(Failing),
    Refused(Refusal),
}

/// What a call tells: the answer, the counts, and the bytes written at the start of the rooms.
#[derive(Clone, Debug, PartialEq, Eq)]
pub struct Told {
    pub answer: Answer,
    pub places: usize,
    pub visits: u32,
    pub work: Vec<u8>,
    /// The pair table; a comparison alone has one.
    pub table: Option<Vec<u8>>,
    /// What finding took: not told by a call, but counted.
    pub lookups: CallLookups,
}

/// Judges a call.
pub fn judge(call: &Call) -> Told {
    match &call.asked {
        Asked::Match { card, word } => judge_match(call, card, word),
        Asked::Compare { left, right, pairs, word, .. } => judge_compare(call, left, right, *pairs, *word),
        Asked::Check { left, right, proof, list } => judge_check(call, left, right, proof, list),
    }
}

/// Matching: the card, then 4, then 5; then the word is judged.
fn judge_match(call: &Call, card: &[u8], word: &[u8]) -> Told {
    let read = || {
        let card = cards::read_card(card, PATTERN_RECORDS)?;
        cards::check_word(word)?;
        cards::check_work_room(call.work)?;
        Ok(card)
    };
    let card = match read() {
        Ok(card) => card,
        Err(refusal) => return untouched(refusal, None),
    };
    let mut work = Work::begin(call.work, call.budget);
    let answer = match work.matching(&card, word) {
        Ok(true) => Answer::Yes,
        Ok(false) => Answer::No,
        Err(refusal) => Answer::Refused(refusal),
    };
    told(answer, &work, None)
}

/// Comparing: left card, right card, then 5, then 6; then the fixed search, and number 10 where the
/// word room is shorter than the word.
fn judge_compare(call: &Call, left: &[u8], right: &[u8], pairs: usize, word_room: usize) -> Told {
    let read = || {
        let left = cards::read_card(left, PATTERN_RECORDS)?;
        let right = cards::read_card(right, PATTERN_RECORDS)?;
        cards::check_work_room(call.work)?;
        cards::check_pair_room(pairs)?;
        Ok((left, right))
    };
    let (left, right) = match read() {
        Ok(both) => both,
        Err(refusal) => return untouched(refusal, Some(vec![])),
    };
    let mut work = Work::begin(call.work, call.budget);
    let mut table = Table::empty(pairs);
    let answer = match comparing(&mut work, &mut table, &left, &right) {
        Ok(Found::Same) => Answer::Same,
        Ok(Found::Different { word, .. }) if word.len() > word_room => Answer::Refused(Refusal::WordRoom(word.len())),
        Ok(Found::Different { word, only }) => Answer::Different { word, only },
        Err(refusal) => Answer::Refused(refusal),
    };
    told(answer, &work, Some(table.bytes()))
}

/// Checking: left card, right card, proof card, then 5, 6, 11; then the pair list is judged.
fn judge_check(call: &Call, left: &[u8], right: &[u8], proof: &[u8], list: &[u8]) -> Told {
    let read = || {
        let left = cards::read_card(left, PATTERN_RECORDS)?;
        let right = cards::read_card(right, PATTERN_RECORDS)?;
        let proof = cards::read_card(proof, PROOF_RECORDS)?;
        cards::check_work_room(call.work)?;
        cards::check_pair_room(list.len())?;
        let list = cards::read_pair_list(list, proof.len())?;
        Ok((left, right, proof, list))
    };
    let (left, right, proof, list) = match read() {
        Ok(all) => all,
        Err(refusal) => return untouched(refusal, None),
    };
    let mut work = Work::begin(call.work, call.budget);
    let answer = match checking(&mut work, &left, &right, &proof, &list) {
        Ok(None) => Answer::Accepted,
        Ok(Some(failing)) => Answer::Rejected(failing),
        Err(refusal) => Answer::Refused(refusal),
    };
    told(answer, &work, None)
}

/// Numbers 1 to 6 and 11 leave all rooms untouched and report zero places, pairs and visits.
fn untouched(refusal: Refusal, table: Option<Vec<u8>>) -> Told {
    Told {
        answer: Answer::Refused(refusal),
        places: 0,
        visits: 0,
        work: vec![],
        table,
        lookups: CallLookups::default(),
    }
}

/// Every other outcome tells the counts, and what was placed by then stands.
fn told(answer: Answer, work: &Work, table: Option<Vec<u8>>) -> Told {
    let store = &work.store;
    let (places, lookups) = (store.places(), store.lookups);
    Told { answer, places, visits: work.visits, work: store.bytes(), table, lookups }
}
