//! The twin against the usual set meaning of patterns, written without derivatives.

use twin::calls::{judge, Answer, Asked};
use twin::lines::read_call;
use twin::records::Record;
use twin::search::Side;
use twin::small::SmallCalls;

/// Whether a word belongs to the language of one record of a card.
fn belongs(card: &[Record], number: u16, word: &[u8]) -> bool {
    let cuts = 0..=word.len();
    match card[number as usize] {
        Record::Nothing => false,
        Record::EmptyWord => word.is_empty(),
        Record::Letter(letter) => word == [letter],
        Record::Choice(left, right) => belongs(card, left, word) || belongs(card, right, word),
        Record::Sequence(left, right) => {
            cuts.into_iter().any(|cut| belongs(card, left, &word[..cut]) && belongs(card, right, &word[cut..]))
        }
        Record::Repeat(child) => {
            let some = |cut: usize| belongs(card, child, &word[..cut]) && belongs(card, number, &word[cut..]);
            word.is_empty() || cuts.skip(1).any(some)
        }
    }
}

/// A pattern card's records.
fn records(bytes: &[u8]) -> Vec<Record> {
    twin::cards::read_card(bytes, 512).unwrap()
}

/// Every pattern of up to five records says yes to every word of up to six letters exactly when the
/// word belongs.
#[test]
fn matching_is_belonging() {
    let calls = SmallCalls::list();
    let (paired, _, words) = calls.counts();
    for number in paired * paired..paired * paired + paired * words {
        let call = read_call(calls.line(number).unwrap().as_bytes()).unwrap();
        let Asked::Match { card, word } = &call.asked else { panic!("a match") };
        let card = records(card);
        let expected = if belongs(&card, card.len() as u16 - 1, word) { Answer::Yes } else { Answer::No };
        assert_eq!(judge(&call).answer, expected, "call {number}");
    }
}

/// Every 97th pair of patterns of up to five records: "different" has the shortest word in exactly
/// one language, lowest in byte order, and "same" has none of up to six letters. No search needs more
/// than it is lent.
#[test]
fn comparing_finds_the_first_word() {
    let calls = SmallCalls::list();
    let (paired, _, words) = calls.counts();
    let word_of =
        |number: usize| match read_call(calls.line(paired * paired + number).unwrap().as_bytes()).unwrap().asked {
            Asked::Match { word, .. } => word,
            _ => panic!("a match"),
        };
    let words: Vec<Vec<u8>> = (0..words).map(word_of).collect();
    for number in (0..paired * paired).step_by(97) {
        let call = read_call(calls.line(number).unwrap().as_bytes()).unwrap();
        let Asked::Compare { left, right, .. } = &call.asked else { panic!("a comparison") };
        let (left, right) = (records(left), records(right));
        let in_left = |word: &[u8]| belongs(&left, left.len() as u16 - 1, word);
        let in_right = |word: &[u8]| belongs(&right, right.len() as u16 - 1, word);
        let first = words.iter().find(|word| in_left(word) != in_right(word));
        let expected = match first {
            None => Answer::Same,
            Some(word) => {
                let only = if in_left(word) { Side::Left } else { Side::Right };
                Answer::Different { word: word.clone(), only }
            }
        };
        assert_eq!(judge(&call).answer, expected, "call {number}");
    }
}

/// There are 4, 4, 36, 100 and 708 patterns of one to five records, 2,884 of six and 18,404 of seven.
#[test]
fn small_patterns_are_counted() {
    assert_eq!(SmallCalls::list().counts(), (852, 22_140, 127));
}
