//! What a call is lent: rooms and budget near what it needs, rooms of illegal sizes, and rooms that
//! hold an earlier call's bytes.

use super::a_comparison;
use super::chance::Chance;
use crate::calls::{judge, Answer, Asked, Call, Told};
use crate::cards::{Refusal, PAIR_BYTES};
use crate::records::RECORD_BYTES;

/// Lends what the call was found to need: just enough, one less, anything below, or plenty.
pub fn lend(chance: &mut Chance, call: &mut Call, told: &Told) {
    let needs = needs(told);
    let kinds: &[Lent] = match told.answer {
        Answer::Different { .. } => &[Lent::Work, Lent::Budget, Lent::Pairs, Lent::Word, Lent::Word, Lent::Word],
        _ if told.table.is_some() => &[Lent::Work, Lent::Budget, Lent::Pairs, Lent::Pairs],
        _ => &[Lent::Work, Lent::Budget],
    };
    match chance.weighted(&[36, 14, 26, 8, 8, 8]) {
        0 => plenty(chance, call, told),
        1 => set(call, chance.pick(kinds), &needs, 0),
        2 => set(call, chance.pick(kinds), &needs, 1),
        3 => kinds.iter().for_each(|&kind| set(call, kind, &needs, 0)),
        4 => {
            kinds.iter().for_each(|&kind| set(call, kind, &needs, 0));
            set(call, chance.pick(kinds), &needs, 1);
        }
        _ => {
            for &kind in kinds {
                if chance.percent(50) {
                    let most = 1 + needs[kind as usize];
                    set(call, kind, &needs, chance.below(most));
                }
            }
        }
    }
}

/// What can be lent too little of.
#[derive(Clone, Copy)]
enum Lent {
    Work,
    Budget,
    Pairs,
    Word,
}

/// What a call was found to need, in places, visits, pairs and letters.
fn needs(told: &Told) -> [usize; 4] {
    let word = match &told.answer {
        Answer::Different { word, .. } => word.len(),
        _ => 0,
    };
    let pairs = told.table.as_ref().map_or(0, |table| table.len() / PAIR_BYTES);
    [told.places, told.visits as usize, pairs, word]
}

/// Lends so much less than is needed of one thing.
fn set(call: &mut Call, kind: Lent, needs: &[usize; 4], less: usize) {
    let amount = needs[kind as usize].saturating_sub(less);
    match (kind, &mut call.asked) {
        (Lent::Work, _) => call.work = (amount * RECORD_BYTES).max(16),
        (Lent::Budget, _) => call.budget = amount as u32,
        (Lent::Pairs, Asked::Compare { pairs, .. }) => *pairs = (amount * PAIR_BYTES).max(PAIR_BYTES),
        (Lent::Word, Asked::Compare { word, .. }) => *word = amount,
        _ => {}
    }
}

/// Lends more than enough, up to the most there is; the budget is left where it ran out.
fn plenty(chance: &mut Chance, call: &mut Call, told: &Told) {
    let more = chance.between(1, 40);
    if chance.percent(50) && told.places + more <= 4_096 {
        call.work = ((told.places + more) * RECORD_BYTES).max(16);
    }
    if told.answer != Answer::Refused(Refusal::NoBudget) {
        let most = if chance.percent(8) { u32::MAX } else { call.budget };
        call.budget = chance.pick(&[most, told.visits + more as u32]);
    }
    if let Asked::Compare { pairs, word, .. } = &mut call.asked {
        let placed = told.table.as_ref().map_or(0, Vec::len);
        *pairs = chance.pick(&[8_192, 8_184, (placed + 8 * more).min(8_192)]);
        *word = chance.pick(&[1_024, 65_535, 65_536, *word, 64 + more]);
    }
}

/// Lends a room of an illegal size, or of a legal one that is just so.
pub fn illegal_room(chance: &mut Chance, call: &mut Call) {
    let pair_sizes = [0, 1, 4, 7, 8, 9, 12, 8_184, 8_191, 8_192, 8_193, 8_200, 16_384, 65_536];
    let change_pairs = chance.percent(55);
    match &mut call.asked {
        Asked::Compare { pairs, .. } if change_pairs => *pairs = chance.pick(&pair_sizes),
        Asked::Check { list, .. } if change_pairs => {
            let mut size = chance.pick(&pair_sizes);
            if chance.percent(50) {
                size = (list.len() + 7).saturating_sub(chance.below(15));
            }
            let again = if list.is_empty() { vec![0] } else { list.clone() };
            *list = again.into_iter().cycle().take(size).collect();
        }
        _ => {
            let near = (call.work + 4).saturating_sub(chance.below(8));
            let sizes = [0, 7, 8, 15, 16, 17, 24, 32_760, 32_767, 32_768, 32_769, 32_776, 40_000, 65_536, near, near];
            call.work = chance.pick(&sizes);
        }
    }
}

/// Lends rooms that hold an earlier call's bytes: this call's own, another call's, a changed copy,
/// more than the room takes, or anything.
pub fn hold_earlier_bytes(chance: &mut Chance, call: &mut Call, told: &Told) {
    let (mut store, mut table) = (told.work.clone(), told.table.clone().unwrap_or_default());
    match chance.weighted(&[30, 35, 15, 5, 10, 5]) {
        0 => {}
        1 => {
            let asked = a_comparison(chance, false);
            let earlier = judge(&Call { asked, work: 32_768, fill: 0, was: None, budget: 500 });
            (store, table) = (earlier.work, earlier.table.unwrap_or_default());
        }
        2 => {
            for bytes in [&mut store, &mut table] {
                if !bytes.is_empty() {
                    let spot = chance.below(bytes.len());
                    bytes[spot] = chance.byte();
                }
            }
        }
        3 => {
            let (more, more_pairs) = (call.work + chance.below(20), 8_192 + chance.below(20));
            for (bytes, size) in [(&mut store, more), (&mut table, more_pairs)] {
                if !bytes.is_empty() {
                    *bytes = bytes.iter().copied().cycle().take(size).collect();
                }
            }
        }
        4 => {
            store = (0..chance.below(200)).map(|_| chance.byte()).collect();
            table = (0..chance.below(100)).map(|_| chance.byte()).collect();
        }
        _ => (store, table) = (vec![], vec![]),
    }
    if chance.percent(85) {
        call.was = Some(store);
    }
    if let Asked::Compare { had, .. } = &mut call.asked {
        *had = chance.percent(80).then_some(table);
    }
}
