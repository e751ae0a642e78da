//! The checker: whether a proof card and a pair list show two patterns to be the same.

use crate::cards::{letters, Refusal};
use crate::derivative::{root, Work};
use crate::records::{Place, Record};
use std::collections::HashSet;

/// The first failing point of a pair list.
#[derive(Clone, Copy, Debug, PartialEq, Eq)]
pub enum Failing {
    /// The opening pair is missing.
    OpeningPair,
    /// The marks of the pair of this number differ.
    Marks(usize),
    /// The pair of this number leads by this letter to a pair that is not in the list.
    Letter(usize, u8),
}

/// Loads left, right and the proof card, maps the listed pairs to where the records were loaded, and
/// tells the first failing point: opening pair missing; else, pair by pair in list order, marks
/// differ, then for each letter ascending, left derived before right, the pair reached is not in the
/// list, compared by place.
pub fn checking(
    work: &mut Work,
    left: &[Record],
    right: &[Record],
    proof: &[Record],
    list: &[(Place, Place)],
) -> Result<Option<Failing>, Refusal> {
    let opening_left = root(&work.store.load(left)?);
    let opening_right = root(&work.store.load(right)?);
    let loaded = work.store.load(proof)?;
    let pairs: Vec<(Place, Place)> =
        list.iter().map(|&(left, right)| (loaded[left as usize], loaded[right as usize])).collect();
    let listed: HashSet<(Place, Place)> = pairs.iter().copied().collect();
    if !listed.contains(&(opening_left, opening_right)) {
        return Ok(Some(Failing::OpeningPair));
    }
    let letters = letters(left, right);
    for (number, &(left, right)) in pairs.iter().enumerate() {
        if work.store.mark(left) != work.store.mark(right) {
            return Ok(Some(Failing::Marks(number)));
        }
        for &letter in &letters {
            let reached = (work.derive(left, letter)?, work.derive(right, letter)?);
            if !listed.contains(&reached) {
                return Ok(Some(Failing::Letter(number, letter)));
            }
        }
    }
    Ok(None)
}
