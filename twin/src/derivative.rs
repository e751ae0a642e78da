//! The derivative, in its fixed order, and matching, which derives by each byte in turn.

use crate::cards::Refusal;
use crate::records::{Place, Record, Store, EMPTY_WORD, NOTHING};

/// A call at work: its store, the visits made and the budget left. Visits made and budget left
/// always add up to the budget given.
pub struct Work {
    pub store: Store,
    pub visits: u32,
    left: u32,
}

impl Work {
    /// Work begins with a fresh store and no visit made.
    pub fn begin(work_room: usize, budget: u32) -> Work {
        Work { store: Store::fresh(work_room), visits: 0, left: budget }
    }

    /// Each visit costs one from the budget; with none left the call stops before the visit.
    fn visit(&mut self) -> Result<(), Refusal> {
        if self.left == 0 {
            return Err(Refusal::NoBudget);
        }
        self.left -= 1;
        self.visits += 1;
        Ok(())
    }

    /// The derivative of a place by a letter. It visits a record before its children and never
    /// visits a child that the rule does not need; shared records are visited again.
    pub fn derive(&mut self, place: Place, letter: u8) -> Result<Place, Refusal> {
        self.visit()?;
        match self.store.record(place) {
            Record::Nothing | Record::EmptyWord => Ok(NOTHING),
            Record::Letter(own) => Ok(if own == letter { EMPTY_WORD } else { NOTHING }),
            Record::Choice(left, right) => {
                let left = self.derive(left, letter)?;
                let right = self.derive(right, letter)?;
                self.store.make(Record::Choice(left, right))
            }
            Record::Sequence(first, second) => {
                let derived = self.derive(first, letter)?;
                let product = self.store.make(Record::Sequence(derived, second))?;
                if !self.store.mark(first) {
                    return Ok(product);
                }
                let passed = self.derive(second, letter)?;
                self.store.make(Record::Choice(product, passed))
            }
            Record::Repeat(child) => {
                let derived = self.derive(child, letter)?;
                self.store.make(Record::Sequence(derived, place))
            }
        }
    }

    /// Matching derives by each byte in turn and reads the last mark.
    pub fn matching(&mut self, card: &[Record], word: &[u8]) -> Result<bool, Refusal> {
        let mut place = root(&self.store.load(card)?);
        for &letter in word {
            place = self.derive(place, letter)?;
        }
        Ok(self.store.mark(place))
    }
}

/// Where the root of a loaded card came to: the last record is the root.
pub fn root(places: &[Place]) -> Place {
    places[places.len() - 1]
}
