//! The search and the proof table: comparing two patterns.

use crate::cards::{letters, Refusal, PAIR_BYTES};
use crate::derivative::{root, Work};
use crate::records::{Place, Record};
use std::collections::HashSet;

/// A pair record: two places, the number of the pair it came from, and the letter. The opening pair
/// has 0 for the last two.
#[derive(Clone, Copy, Debug, PartialEq, Eq)]
pub struct Pair {
    pub left: Place,
    pub right: Place,
    pub from: u16,
    pub letter: u8,
}

impl Pair {
    /// The pair's 8 bytes: left place, right place, pair it came from, letter, zero.
    pub fn bytes(self) -> [u8; PAIR_BYTES] {
        let ([a, b], [c, d], [e, f]) = (self.left.to_le_bytes(), self.right.to_le_bytes(), self.from.to_le_bytes());
        [a, b, c, d, e, f, self.letter, 0]
    }
}

/// The proof table: the pairs placed so far, in the places that the pair room has.
pub struct Table {
    pub pairs: Vec<Pair>,
    standing: HashSet<(Place, Place)>,
    room: usize,
}

/// One of the two patterns.
#[derive(Clone, Copy, Debug, PartialEq, Eq)]
pub enum Side {
    Left,
    Right,
}

/// What a search that ends tells: "same", or "different" with a word in exactly one language.
#[derive(Clone, Debug, PartialEq, Eq)]
pub enum Found {
    Same,
    Different { word: Vec<u8>, only: Side },
}

impl Table {
    /// An empty table in a pair room of so many bytes.
    pub fn empty(pair_room: usize) -> Table {
        Table { pairs: vec![], standing: HashSet::new(), room: pair_room / PAIR_BYTES }
    }

    /// The table's bytes, as they stand at the start of the pair room.
    pub fn bytes(&self) -> Vec<u8> {
        self.pairs.iter().flat_map(|pair| pair.bytes()).collect()
    }

    /// Looks at a reached pair whose marks agree: if it stands in the table nothing happens; else it
    /// is placed, or number 9.
    fn look(&mut self, pair: Pair) -> Result<(), Refusal> {
        if self.standing.contains(&(pair.left, pair.right)) {
            return Ok(());
        }
        if self.pairs.len() >= self.room {
            return Err(Refusal::NoPlaceForPair);
        }
        self.standing.insert((pair.left, pair.right));
        self.pairs.push(pair);
        Ok(())
    }

    /// The letters that lead from the opening pair, number 0, to the pair of this number.
    fn word_to(&self, number: usize) -> Vec<u8> {
        let mut word = vec![];
        let mut number = number;
        while number != 0 {
            word.push(self.pairs[number].letter);
            number = self.pairs[number].from as usize;
        }
        word.reverse();
        word
    }
}

/// The comparison: loads left, then right; looks at the opening pair first of all, then takes the
/// pairs in table order and derives each by every letter, left before right.
pub fn comparing(work: &mut Work, table: &mut Table, left: &[Record], right: &[Record]) -> Result<Found, Refusal> {
    let opening_left = root(&work.store.load(left)?);
    let opening_right = root(&work.store.load(right)?);
    if let Some(only) = side_with_mark(work, opening_left, opening_right) {
        return Ok(Found::Different { word: vec![], only });
    }
    table.look(Pair { left: opening_left, right: opening_right, from: 0, letter: 0 })?;
    let letters = letters(left, right);
    let mut taken = 0;
    while taken < table.pairs.len() {
        let pair = table.pairs[taken];
        for &letter in &letters {
            let left = work.derive(pair.left, letter)?;
            let right = work.derive(pair.right, letter)?;
            if let Some(only) = side_with_mark(work, left, right) {
                let mut word = table.word_to(taken);
                word.push(letter);
                return Ok(Found::Different { word, only });
            }
            table.look(Pair { left, right, from: taken as u16, letter })?;
        }
        taken += 1;
    }
    Ok(Found::Same)
}

/// Where two marks differ, the side whose mark is 1.
fn side_with_mark(work: &Work, left: Place, right: Place) -> Option<Side> {
    match (work.store.mark(left), work.store.mark(right)) {
        (true, false) => Some(Side::Left),
        (false, true) => Some(Side::Right),
        _ => None,
    }
}
