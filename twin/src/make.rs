//! The generator: random calls, each fixed by a seed and its number.
//!
//! A call is made in three steps: its cards (`families`), with a word or a proof (`proofs`); then
//! damage, for some (`damage`); then what it is lent, near what the twin finds that it needs (`lent`).
//! A few lines are spoiled. Budgets are capped, so that every call ends fast.

pub mod chance;
mod damage;
mod families;
pub mod layout;
mod lent;
pub mod patterns;
mod proofs;

use crate::calls::{judge, Asked, Call};
use crate::cards::{self, WORD_BYTES};
use crate::lines::write_call;
use crate::records::{card_bytes, Record};
use chance::Chance;
use proofs::Proof;

/// The line of the call of this number under this seed.
pub fn line(seed: u64, number: u64) -> String {
    let chance = &mut Chance::of(seed, number);
    let call = make_call(chance);
    let line = write_call(&call);
    match chance.below(100) {
        0 => damage::not_of_the_form(chance, line),
        1 => line + " ->",
        2 => line + " -> answer=yes bad line",
        _ => line,
    }
}

/// Makes a call of one of the three kinds, some of them so large that they reach the ends of the
/// largest rooms.
fn make_call(chance: &mut Chance) -> Call {
    let large = chance.below(1_000) < 12;
    let usual = chance.pick(&[300, 300, 1_500, 1_500, 1_500, 1_500, 4_000, 12_000]);
    let cap = if large { chance.pick(&[40_000, 40_000, 300_000]) } else { usual };
    let asked = match chance.weighted(&[28, 36, 36]) {
        0 => a_match(chance, large),
        1 => a_comparison(chance, large),
        _ => a_check(chance, large, cap),
    };
    let mut call = Call { asked, work: 32_768, fill: chance.byte(), was: None, budget: cap };
    if chance.percent(if large { 5 } else { 22 }) {
        damage::damage(chance, &mut call);
    }
    let told = judge(&call);
    if chance.percent(if large { 50 } else { 100 }) {
        lent::lend(chance, &mut call, &told);
    }
    if chance.percent(if large { 5 } else { 18 }) {
        for _ in 0..chance.between(1, 2) {
            lent::illegal_room(chance, &mut call);
        }
        call.budget = call.budget.min(cap);
    }
    if chance.percent(30) {
        lent::hold_earlier_bytes(chance, &mut call, &told);
    }
    call
}

/// A match: the word is of the language, near it, random, one letter again and again, empty, or too
/// long by as much as a byte.
fn a_match(chance: &mut Chance, large: bool) -> Asked {
    if large {
        return a_large_match(chance);
    }
    let card = families::one_card(chance);
    let mut letters = cards::letters(&card, &[]);
    letters.push(b'a');
    let mut word: Vec<u8> = match chance.weighted(&[10, 54, 20, 10, 6]) {
        0 => vec![chance.pick(&letters); chance.between(1, 12)],
        1 => layout::word_of(chance, &card).unwrap_or_default(),
        2 => (0..chance.below(20)).map(|_| chance.pick(&letters)).collect(),
        3 => vec![],
        _ => {
            let length = WORD_BYTES + chance.pick(&[0, 1, 1, 1, 1, 4_465]);
            (0..length).map(|_| chance.pick(&letters)).collect()
        }
    };
    if chance.percent(15) && !word.is_empty() {
        let spot = chance.below(word.len());
        word[spot] = chance.pick(&letters);
    }
    Asked::Match { card: card_bytes(&card), word }
}

/// A match that goes deep, fills the largest work room, or reads the longest word there is.
fn a_large_match(chance: &mut Chance) -> Asked {
    let (card, word) = match chance.weighted(&[40, 50, 10]) {
        0 => {
            let card = families::deep_card(chance);
            let letters = cards::letters(&card, &[]);
            (card, vec![chance.pick(&letters); chance.between(1, 12)])
        }
        1 => families::long_power(chance),
        _ => {
            let letters = &b"abc"[..chance.between(1, 3)];
            let takes_all = patterns::repeat(&patterns::any_of(letters));
            (layout::shared_card(&takes_all), (0..WORD_BYTES).map(|_| chance.pick(letters)).collect())
        }
    };
    Asked::Match { card: card_bytes(&card), word }
}

/// A comparison, in the largest rooms.
fn a_comparison(chance: &mut Chance, large: bool) -> Asked {
    let (left, right) = if large { families::two_large_cards(chance) } else { families::two_cards(chance) };
    comparison_of(&left, &right)
}

/// The comparison of two cards, in the largest rooms.
fn comparison_of(left: &[Record], right: &[Record]) -> Asked {
    Asked::Compare { left: card_bytes(left), right: card_bytes(right), pairs: 8_192, word: 1_024, had: None }
}

/// A check. Its proof card and pair list are the store and table of a comparison of the same cards,
/// often altered; where that placed no pair, and now and then, a proof that no search made.
fn a_check(chance: &mut Chance, large: bool, cap: u32) -> Asked {
    if large && chance.percent(60) {
        return a_deep_check(chance);
    }
    let (left, right) = if large { families::two_large_cards(chance) } else { families::two_cards(chance) };
    let asked = comparison_of(&left, &right);
    let told = judge(&Call { asked, work: 32_768, fill: 0, was: None, budget: cap });
    let found = if chance.percent(98) { proofs::left_by(&told) } else { None };
    let mut proof = found.unwrap_or_else(|| proofs::of_both_cards(&left, &right));
    for _ in 0..chance.weighted(&[36, 46, 13, 5]) {
        proofs::alter(chance, &mut proof);
    }
    check_of(&left, &right, &proof)
}

/// A check whose proof card fills the largest work room, or nearly, and whose derivative goes deep.
fn a_deep_check(chance: &mut Chance) -> Asked {
    let (left, right) = if chance.percent(50) { families::two_letters(chance) } else { families::two_cards(chance) };
    let mut proof = proofs::deep(chance, &left, &right);
    if chance.percent(10) {
        proofs::alter(chance, &mut proof);
    }
    check_of(&left, &right, &proof)
}

/// The check of two cards and a proof.
fn check_of(left: &[Record], right: &[Record], proof: &Proof) -> Asked {
    let (left, right) = (card_bytes(left), card_bytes(right));
    Asked::Check { left, right, proof: card_bytes(&proof.records), list: proof.pairs.concat() }
}
