//! Damage: to cards and to lines.

use super::chance::Chance;
use crate::calls::{Asked, Call};
use crate::cards::{PATTERN_RECORDS, PROOF_RECORDS};
use crate::records::RECORD_BYTES;

/// Damages one card, or more than one: the order of the refusals decides then.
pub fn damage(chance: &mut Chance, call: &mut Call) {
    let mut cards: Vec<(&mut Vec<u8>, usize)> = match &mut call.asked {
        Asked::Match { card, .. } => vec![(card, PATTERN_RECORDS)],
        Asked::Compare { left, right, .. } => vec![(left, PATTERN_RECORDS), (right, PATTERN_RECORDS)],
        Asked::Check { left, right, proof, .. } => {
            vec![(left, PATTERN_RECORDS), (right, PATTERN_RECORDS), (proof, PROOF_RECORDS)]
        }
    };
    let count = chance.weighted(&[0, 80, 15, 5]);
    for _ in 0..count {
        let which = chance.below(cards.len());
        let (card, most) = &mut cards[which];
        damage_card(chance, card, *most);
    }
}

/// Damages a card: its length, a field of one of its records, often the last, or a mark.
fn damage_card(chance: &mut Chance, card: &mut Vec<u8>, most: usize) {
    let records = card.len() / RECORD_BYTES;
    if records == 0 {
        return;
    }
    let number = if chance.percent(25) { records - 1 } else { chance.below(records) };
    let record = &mut card[number * RECORD_BYTES..(number + 1) * RECORD_BYTES];
    let not_lower = chance.pick(&[number, number, number + 1, number | 256, 65_535]).max(number) as u16;
    match chance.weighted(&[4, 6, 6, 4, 8, 6, 6, 8, 8, 6, 30, 8]) {
        0 => card.clear(),
        1 => card.truncate(card.len() - chance.between(1, 7)),
        2 => card.extend((0..chance.between(1, 7)).map(|_| chance.byte())),
        3 => {
            let size = (most + chance.pick(&[1, 1, 2, 40])) * RECORD_BYTES;
            *card = card.iter().copied().cycle().take(size).collect();
        }
        4 => record[0] = chance.pick(&[0, 1, 2, 3, 4, 5, 6, 7, 255]),
        5 => record[1] = chance.pick(&[0, 1, 255]),
        6 => record[3] = chance.pick(&[1, 128, 255]),
        7 => record[4..6].copy_from_slice(&not_lower.to_le_bytes()),
        8 => record[6..8].copy_from_slice(&not_lower.to_le_bytes()),
        9 => record[chance.between(4, 7)] = chance.pick(&[1, 2, 255]),
        10 => record[2] = chance.pick(&[1 - record[2].min(1), 1 - record[2].min(1), 2, 255]),
        _ => record[chance.below(RECORD_BYTES)] = chance.byte(),
    }
}

/// A line that is not of the form.
pub fn not_of_the_form(chance: &mut Chance, line: String) -> String {
    match chance.below(14) {
        0 => String::new(),
        1 => line.replacen(" budget=", " budget=0", 1),
        2 => with_value(&line, " budget=", "4294967296"),
        3 => with_value(&line, " budget=", ""),
        4 => line.replacen(" work=", " work=0", 1),
        5 => with_value(&line, " work=", "65537"),
        6 => line.replacen(" fill=", " fill=0", 1),
        7 => line.replacen(" fill=", "  fill=", 1),
        8 => line + " ",
        9 => line + "\r",
        10 => line.replacen(' ', "s ", 1),
        11 => line.replacen('=', "=A0", 1),
        12 => line.replacen('=', "=0", 1),
        _ => line[..line.rfind(' ').unwrap()].to_string(),
    }
}

/// A line with another value for a key.
fn with_value(line: &str, key: &str, value: &str) -> String {
    let start = line.find(key).unwrap() + key.len();
    let end = line[start..].find(' ').map_or(line.len(), |length| start + length);
    format!("{}{}{}", &line[..start], value, &line[end..])
}
