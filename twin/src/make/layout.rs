//! Cards for the generator: of patterns, shared or not, webs of records, other orders, idle records,
//! cards grown to a size, and words of a card's language.

use super::chance::Chance;
use super::patterns::Pattern;
use crate::records::{Place, Record};
use std::collections::HashMap;
use std::rc::Rc;

/// The card of a pattern without sharing: left part, right part, then the record itself. None where
/// it would have more than so many records.
pub fn unshared_card(pattern: &Pattern, most: usize) -> Option<Vec<Record>> {
    /// Writes the records of a part and tells the number of its root.
    fn write(pattern: &Pattern, most: usize, records: &mut Vec<Record>) -> Option<Place> {
        let record = match pattern {
            Pattern::Nothing => Record::Nothing,
            Pattern::EmptyWord => Record::EmptyWord,
            Pattern::Letter(letter) => Record::Letter(*letter),
            Pattern::Choice(left, right) => Record::Choice(write(left, most, records)?, write(right, most, records)?),
            Pattern::Sequence(left, right) => {
                Record::Sequence(write(left, most, records)?, write(right, most, records)?)
            }
            Pattern::Repeat(child) => Record::Repeat(write(child, most, records)?),
        };
        if records.len() >= most {
            return None;
        }
        records.push(record);
        Some((records.len() - 1) as Place)
    }
    let mut records = vec![];
    write(pattern, most, &mut records)?;
    Some(records)
}

/// The card of a pattern with each part written once.
pub fn shared_card(pattern: &Rc<Pattern>) -> Vec<Record> {
    #[derive(Default)]
    struct Written {
        records: Vec<Record>,
        parts: HashMap<*const Pattern, Place>,
        numbers: HashMap<Record, Place>,
    }
    /// Writes what is not written yet and tells the number of the part's root.
    fn write(pattern: &Rc<Pattern>, written: &mut Written) -> Place {
        if let Some(&number) = written.parts.get(&Rc::as_ptr(pattern)) {
            return number;
        }
        let record = match &**pattern {
            Pattern::Nothing => Record::Nothing,
            Pattern::EmptyWord => Record::EmptyWord,
            Pattern::Letter(letter) => Record::Letter(*letter),
            Pattern::Choice(left, right) => Record::Choice(write(left, written), write(right, written)),
            Pattern::Sequence(left, right) => Record::Sequence(write(left, written), write(right, written)),
            Pattern::Repeat(child) => Record::Repeat(write(child, written)),
        };
        let next = written.records.len() as Place;
        let number = *written.numbers.entry(record).or_insert(next);
        if number == next {
            written.records.push(record);
        }
        written.parts.insert(Rc::as_ptr(pattern), number);
        number
    }
    let mut written = Written::default();
    write(pattern, &mut written);
    written.records
}

/// A random card in which any record may name any lower one, mostly one of the last few.
pub fn web(chance: &mut Chance, letters: &[u8], records: usize) -> Vec<Record> {
    let mut web: Vec<Record> = vec![];
    while web.len() < records {
        let number = web.len();
        if number == 0 || chance.percent(30) {
            let leaf = match chance.below(12) {
                0 => Record::Nothing,
                1 => Record::EmptyWord,
                _ => Record::Letter(chance.pick(letters)),
            };
            web.push(leaf);
            continue;
        }
        let mut child = || match chance.percent(60) {
            true => (number - 1 - chance.below(number.min(3))) as Place,
            false => chance.below(number) as Place,
        };
        let (left, right) = (child(), child());
        web.push(match chance.below(5) {
            0 | 1 => Record::Choice(left, right),
            2 | 3 => Record::Sequence(left, right),
            _ => Record::Repeat(left),
        });
    }
    web
}

/// The same records in another order, children still before parents, and each one's new number. The
/// last record stays the last where it is the root.
pub fn other_order(chance: &mut Chance, records: &[Record], root_stays: bool) -> (Vec<Record>, Vec<Place>) {
    let mut waits_for: Vec<usize> = records.iter().map(|record| record.children().len()).collect();
    let mut parents: Vec<Vec<usize>> = vec![vec![]; records.len()];
    for (number, record) in records.iter().enumerate() {
        for child in record.children() {
            parents[child as usize].push(number);
        }
    }
    let last = records.len() - 1;
    let held = |number: usize| root_stays && number == last;
    let mut ready: Vec<usize> = (0..records.len()).filter(|&n| waits_for[n] == 0 && !held(n)).collect();
    let mut order = vec![];
    while !ready.is_empty() {
        let number = ready.swap_remove(chance.below(ready.len()));
        order.push(number);
        for &parent in &parents[number] {
            waits_for[parent] -= 1;
            if waits_for[parent] == 0 && !held(parent) {
                ready.push(parent);
            }
        }
    }
    if root_stays {
        order.push(last);
    }
    let mut new_number = vec![0; records.len()];
    for (new, &old) in order.iter().enumerate() {
        new_number[old] = new as Place;
    }
    let renamed = order.iter().map(|&old| records[old].renamed(|child| new_number[child as usize])).collect();
    (renamed, new_number)
}

/// A card with some records more that nothing reaches.
pub fn with_idle_records(chance: &mut Chance, records: &[Record], letters: &[u8]) -> Vec<Record> {
    let mut card = records.to_vec();
    for _ in 0..chance.between(1, 4) {
        let spot = chance.below(card.len());
        let idle = match chance.below(4) {
            0 if spot > 0 => Record::Repeat(chance.below(spot) as Place),
            1 if spot > 0 => Record::Sequence(chance.below(spot) as Place, chance.below(spot) as Place),
            2 if spot > 0 => Record::Choice(chance.below(spot) as Place, chance.below(spot) as Place),
            _ => Record::Letter(chance.pick(letters)),
        };
        for later in &mut card[spot..] {
            *later = later.renamed(|child| if (child as usize) < spot { child } else { child + 1 });
        }
        card.insert(spot, idle);
    }
    card
}

/// A card grown to so many records by choices between its root and itself: they load to the same
/// place.
pub fn grown(chance: &mut Chance, records: &[Record], size: usize) -> Vec<Record> {
    let mut card = records.to_vec();
    let first_root = (records.len() - 1) as Place;
    while card.len() < size {
        let root = (card.len() - 1) as Place;
        let other = if chance.percent(50) { root } else { first_root };
        card.push(if chance.percent(50) { Record::Choice(root, other) } else { Record::Choice(other, root) });
    }
    card
}

/// A word of a card's language, if it has one. A very long one is cut, and may not belong.
pub fn word_of(chance: &mut Chance, card: &[Record]) -> Option<Vec<u8>> {
    let mut has: Vec<bool> = vec![];
    for record in card {
        has.push(match *record {
            Record::Nothing => false,
            Record::Choice(left, right) => has[left as usize] || has[right as usize],
            Record::Sequence(left, right) => has[left as usize] && has[right as usize],
            _ => true,
        });
    }
    if !has[card.len() - 1] {
        return None;
    }
    let mut word = vec![];
    let mut waiting = vec![(card.len() - 1) as Place];
    let mut steps = 0;
    while let Some(number) = waiting.pop() {
        steps += 1;
        if steps > 2_000 || word.len() > 60 {
            break;
        }
        match card[number as usize] {
            Record::Nothing | Record::EmptyWord => {}
            Record::Letter(letter) => word.push(letter),
            Record::Choice(left, right) => {
                let go_left = has[left as usize] && (!has[right as usize] || chance.percent(50));
                waiting.push(if go_left { left } else { right });
            }
            Record::Sequence(left, right) => waiting.extend([right, left]),
            Record::Repeat(child) => {
                let count = if has[child as usize] { chance.below(4) } else { 0 };
                waiting.extend(std::iter::repeat_n(child, count));
            }
        }
    }
    Some(word)
}
