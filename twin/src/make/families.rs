//! Cards by family: what the calls of the generator are about.

use super::chance::Chance;
use super::layout;
use super::patterns::{self, any_of, choice, empty_word, letter, near, random, repeat, sequence, times, Pattern};
use crate::cards::PATTERN_RECORDS;
use crate::records::{Place, Record};
use std::rc::Rc;

/// One card: of a pattern, a web of records, short or long, or a deep one.
pub fn one_card(chance: &mut Chance) -> Vec<Record> {
    let letters = alphabet(chance);
    match chance.weighted(&[68, 24, 5, 3]) {
        0 => {
            let pattern = any_pattern(chance, &letters);
            lay_out(chance, &pattern, &letters)
        }
        1 => {
            let records = chance.between(1, 20);
            layout::web(chance, &letters, records)
        }
        2 => {
            let records = chance.between(20, PATTERN_RECORDS);
            layout::web(chance, &letters, records)
        }
        _ => deep_card(chance),
    }
}

/// A long card that is two letters and a chain, so that the derivative goes deep.
pub fn deep_card(chance: &mut Chance) -> Vec<Record> {
    let letters = alphabet(chance);
    let size = chance.pick(&[PATTERN_RECORDS / 4, PATTERN_RECORDS - 1, PATTERN_RECORDS, PATTERN_RECORDS]);
    let chain = Chain::new(chance, size);
    let mut card = vec![Record::Letter(chance.pick(&letters)), Record::Letter(chance.pick(&letters))];
    while card.len() < size {
        card.push(chain.link(chance, card.len()));
    }
    card
}

/// A chain: records of one kind, each of which names the one before and, but for repeats, one of the
/// card's first two records. In a chain of choices every other record is a repeat: a choice of choices
/// is one set, and no deeper. A long set is a chain of sequences up to its turn, then choices that take
/// these records as members, from the last one backward.
pub struct Chain {
    kind: usize,
    turn: usize,
}

impl Chain {
    /// A chain of any kind, in a card of about so many records.
    pub fn new(chance: &mut Chance, size: usize) -> Chain {
        Chain { kind: chance.weighted(&[32, 16, 16, 16, 20]), turn: chance.between(size / 4, size) }
    }

    /// The record of the chain that has this number in the card.
    pub fn link(&self, chance: &mut Chance, number: usize) -> Record {
        let (before, first) = ((number - 1) as Place, chance.below(2) as Place);
        let is_even = number.is_multiple_of(2);
        match self.kind {
            1 if !is_even => Record::Choice(before, first),
            2 => Record::Sequence(before, first),
            3 if !is_even => Record::Choice(first, before),
            4 if number < self.turn => Record::Sequence(first, before),
            4 if number <= 2 * self.turn - 2 => Record::Choice((2 * self.turn - 2 - number) as Place, before),
            _ => Record::Repeat(before),
        }
    }
}

/// The card of a long power of a letter, and a word of that letter as long or shorter: matching it
/// fills the largest work room.
pub fn long_power(chance: &mut Chance) -> (Vec<Record>, Vec<u8>) {
    let own = chance.byte();
    let count = chance.between(1_500, 8_000);
    let length = chance.pick(&[count, count / 2, count + 1]);
    (layout::shared_card(&times(&letter(own), count)), vec![own; length])
}

/// Two cards to compare: equal by the laws, near-equal, or unlike.
pub fn two_cards(chance: &mut Chance) -> (Vec<Record>, Vec<Record>) {
    let letters = alphabet(chance);
    let (left, right) = match chance.weighted(&[28, 16, 6, 4, 15, 10, 3, 2, 8, 2, 7]) {
        0 => {
            let left = small_pattern(chance, &letters);
            let right = equal_pattern(chance, &left);
            (left, right)
        }
        1 => {
            let left = small_pattern(chance, &letters);
            let right = equal_pattern(chance, &left);
            let right = near(chance, &right, &letters);
            (left, right)
        }
        2 => (any_pattern(chance, &letters), any_pattern(chance, &letters)),
        3 => {
            let pattern = any_pattern(chance, &letters);
            (pattern.clone(), pattern)
        }
        4 => near_words(chance, &letters),
        5 => counters(chance, &letters),
        6 => {
            let count = chance.between(4, 30);
            many_letters(chance, count)
        }
        7 => return with_every_letter(chance),
        8 => {
            let (left, right) = (chance.between(1, 16), chance.between(1, 16));
            return (layout::web(chance, &letters, left), layout::web(chance, &letters, right));
        }
        9 => return (one_card(chance), one_card(chance)),
        _ => sets(chance, &letters),
    };
    lay_out_both(chance, &left, &right, &letters)
}

/// Two cards of a letter each, often the same.
pub fn two_letters(chance: &mut Chance) -> (Vec<Record>, Vec<Record>) {
    let letters = alphabet(chance);
    let left = chance.pick(&letters);
    let right = if chance.percent(60) { left } else { chance.pick(&letters) };
    (vec![Record::Letter(left)], vec![Record::Letter(right)])
}

/// Two cards that need nearly all the pairs, places or letters that there can be.
pub fn two_large_cards(chance: &mut Chance) -> (Vec<Record>, Vec<Record>) {
    let letters = alphabet(chance);
    let (left, right) = if chance.percent(75) { powers(chance, &letters) } else { many_letters(chance, 256) };
    lay_out_both(chance, &left, &right, &letters)
}

/// Lays two patterns out as cards, either one left.
fn lay_out_both(
    chance: &mut Chance,
    left: &Rc<Pattern>,
    right: &Rc<Pattern>,
    letters: &[u8],
) -> (Vec<Record>, Vec<Record>) {
    let (left, right) = (lay_out(chance, left, letters), lay_out(chance, right, letters));
    if chance.percent(50) {
        (left, right)
    } else {
        (right, left)
    }
}

/// The letters that a call's patterns are made of.
fn alphabet(chance: &mut Chance) -> Vec<u8> {
    match chance.weighted(&[45, 8, 15, 10, 16, 6]) {
        0 => b"ab".to_vec(),
        1 => b"a".to_vec(),
        2 => b"abc".to_vec(),
        3 => vec![0x00, 0xff],
        4 => (0..chance.between(1, 4)).map(|_| chance.byte()).collect(),
        _ => (0..=255).collect(),
    }
}

/// Lays a pattern out as a card: shared or not, in one order or another, with idle records or none,
/// now and then grown to just under, at or just over 512 records.
fn lay_out(chance: &mut Chance, pattern: &Rc<Pattern>, letters: &[u8]) -> Vec<Record> {
    let unshared = if chance.percent(50) { layout::unshared_card(pattern, PATTERN_RECORDS) } else { None };
    let mut card = unshared.unwrap_or_else(|| layout::shared_card(pattern));
    if chance.percent(20) {
        card = layout::other_order(chance, &card, true).0;
    }
    if chance.percent(8) {
        card = layout::with_idle_records(chance, &card, letters);
    }
    if chance.percent(2) {
        let size = chance.pick(&[511, 512, 512, 513]);
        card = layout::grown(chance, &card, size);
    }
    card
}

/// A pattern of one of many kinds, short or long.
fn any_pattern(chance: &mut Chance, letters: &[u8]) -> Rc<Pattern> {
    match chance.weighted(&[60, 15, 10, 5, 10]) {
        0 => small_pattern(chance, letters),
        1 => {
            let records = chance.between(12, 60);
            random(chance, letters, records)
        }
        2 => {
            let word = long_word(chance, letters);
            patterns::of_word(chance, &word)
        }
        3 => {
            let count = chance.between(10, 300);
            times(&random(chance, letters, 3), count)
        }
        _ => {
            let few = &letters[..letters.len().min(12)];
            sequence(&repeat(&any_of(few)), &small_pattern(chance, letters))
        }
    }
}

/// A random pattern of few records.
fn small_pattern(chance: &mut Chance, letters: &[u8]) -> Rc<Pattern> {
    let records = chance.between(1, 11);
    random(chance, letters, records)
}

/// An equal pattern, some laws away.
fn equal_pattern(chance: &mut Chance, pattern: &Rc<Pattern>) -> Rc<Pattern> {
    (0..chance.between(1, 5)).fold(pattern.clone(), |equal, _| patterns::equal(chance, &equal))
}

/// A word of 10 letters and more.
fn long_word(chance: &mut Chance, letters: &[u8]) -> Vec<u8> {
    (0..chance.between(10, 30)).map(|_| chance.pick(letters)).collect()
}

/// Patterns that hold one long word. Where they differ, it is mostly at words of 10 letters and more.
fn near_words(chance: &mut Chance, letters: &[u8]) -> (Rc<Pattern>, Rc<Pattern>) {
    let word = long_word(chance, letters);
    let mut other = word.clone();
    match chance.below(4) {
        0 => {}
        1 => other.push(chance.pick(letters)),
        2 => {
            let spot = chance.below(other.len());
            other[spot] = chance.pick(letters);
        }
        _ => {
            let last = other.len() - 1;
            other[last] = chance.pick(letters);
        }
    }
    let (left, right) = (patterns::of_word(chance, &word), patterns::of_word(chance, &other));
    let tail = small_pattern(chance, letters);
    match chance.below(6) {
        0 => (left, right),
        1 => (repeat(&left), repeat(&right)),
        2 => (left.clone(), choice(&left, &right)),
        3 => {
            let near_tail = near(chance, &tail, letters);
            (sequence(&left, &tail), sequence(&left, &near_tail))
        }
        4 => {
            let equal_tail = equal_pattern(chance, &tail);
            (sequence(&left, &tail), sequence(&right, &equal_tail))
        }
        _ => (choice(&tail, &left), choice(&right, &tail)),
    }
}

/// Patterns that count one part: a word that tells them apart is as long as the count.
fn counters(chance: &mut Chance, letters: &[u8]) -> (Rc<Pattern>, Rc<Pattern>) {
    let part = match chance.below(4) {
        0 => sequence(&letter(chance.pick(letters)), &letter(chance.pick(letters))),
        _ => letter(chance.pick(letters)),
    };
    let maybe = choice(&empty_word(), &part);
    let many = repeat(&part);
    let count = chance.between(2, 24);
    let other = if chance.percent(40) { count } else { chance.between(2, 24) };
    let (left, right) = (times(&part, count), times(&part, other));
    match chance.below(6) {
        0 => (repeat(&left), repeat(&right)),
        1 => (sequence(&left, &many), sequence(&right, &many)),
        2 => (sequence(&left, &many), sequence(&many, &right)),
        3 => (times(&maybe, count.min(9)), times(&maybe, other.min(9))),
        4 => (repeat(&left), choice(&empty_word(), &sequence(&right, &repeat(&right)))),
        _ => (sequence(&times(&maybe, count - 1), &repeat(&left)), many),
    }
}

/// Long powers of a letter: their tables have about the 1,024 pairs of the largest pair room, the
/// words that tell them apart about the letters of the job program's word room, and in two brackets
/// they need about the 4,096 places of the largest work room.
fn powers(chance: &mut Chance, letters: &[u8]) -> (Rc<Pattern>, Rc<Pattern>) {
    let part = letter(chance.pick(letters));
    let count = chance.pick(&[600, 1_000, 1_021, 1_022, 1_023, 1_024]);
    let other = chance.pick(&[count, count, count - 1, count + 1]);
    let right = if chance.percent(50) { times(&part, other) } else { patterns::times_backwards(&part, other) };
    (times(&part, count), right)
}

/// Patterns with so many different letters, or one fewer.
fn many_letters(chance: &mut Chance, count: usize) -> (Rc<Pattern>, Rc<Pattern>) {
    let mut all: Vec<u8> = (0..=255).collect();
    while all.len() > count {
        all.swap_remove(chance.below(all.len()));
    }
    let mut some = all.clone();
    if chance.percent(60) {
        some.remove(chance.below(count));
    }
    let (left, right) = (any_letter(chance, &all), any_letter(chance, &some));
    match chance.below(3) {
        0 => (left, right),
        1 => (repeat(&left), repeat(&right)),
        _ => (repeat(&left), choice(&empty_word(), &sequence(&right, &repeat(&left)))),
    }
}

/// The choice of some letters. Of many it is grouped to the right, which takes a place for each letter and
/// each choice; grouped to the left each further letter takes as many places as there are letters before.
fn any_letter(chance: &mut Chance, letters: &[u8]) -> Rc<Pattern> {
    if chance.percent(if letters.len() < 60 { 50 } else { 5 }) {
        return any_of(letters);
    }
    let parts = letters.iter().map(|&own| letter(own));
    parts.rev().reduce(|all, part| choice(&part, &all)).expect("there is a letter")
}

/// Choices of the same parts, or of nearly the same, in any order and grouping.
fn sets(chance: &mut Chance, letters: &[u8]) -> (Rc<Pattern>, Rc<Pattern>) {
    let count = chance.between(2, 9);
    let parts: Vec<Rc<Pattern>> = (0..count)
        .map(|_| {
            let records = chance.between(1, 5);
            random(chance, letters, records)
        })
        .collect();
    let mut others = parts.clone();
    if chance.percent(40) {
        let spot = chance.below(count);
        others[spot] = near(chance, &others[spot], letters);
    }
    let (left, right) = (joined(chance, parts), joined(chance, others));
    match chance.below(4) {
        0 => (left, right),
        1 => (repeat(&left), repeat(&right)),
        2 => (sequence(&left, &right), sequence(&right, &left)),
        _ => (repeat(&left), choice(&empty_word(), &sequence(&right, &repeat(&left)))),
    }
}

/// The choice of some parts, joined by chance; a part or two may come twice.
fn joined(chance: &mut Chance, mut parts: Vec<Rc<Pattern>>) -> Rc<Pattern> {
    for _ in 0..chance.below(3) {
        parts.push(parts[chance.below(parts.len())].clone());
    }
    while parts.len() > 1 {
        let left = parts.swap_remove(chance.below(parts.len()));
        let right = parts.swap_remove(chance.below(parts.len()));
        parts.push(choice(&left, &right));
    }
    parts.remove(0)
}

/// Two small cards, one of which has a letter record for every byte: few of them are reached, and all
/// of them are tried.
fn with_every_letter(chance: &mut Chance) -> (Vec<Record>, Vec<Record>) {
    let letters = [chance.byte(), chance.byte()];
    let records = chance.between(1, 6);
    let pattern = random(chance, &letters, records);
    let other = if chance.percent(50) { near(chance, &pattern, &letters) } else { patterns::equal(chance, &pattern) };
    let mut all: Vec<Record> = (0..=255).map(Record::Letter).collect();
    let small = layout::shared_card(&other);
    all.extend(small.iter().map(|record| record.renamed(|child| child + 256)));
    let card = layout::shared_card(&pattern);
    if chance.percent(50) {
        (card, all)
    } else {
        (all, card)
    }
}
