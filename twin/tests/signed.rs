//! The signed cases of document 01 with their counts, its edges, and the job of its example.

use std::rc::Rc;
use twin::calls::{judge, Answer, Asked, Call, Told};
use twin::cards::Refusal;
use twin::checker::Failing;
use twin::lines::answer_line;
use twin::make::chance::Chance;
use twin::make::layout::{grown, shared_card};
use twin::make::patterns::{choice, empty_word, letter, repeat, sequence, Pattern};
use twin::on_large_stack;
use twin::records::{card_bytes, Record};
use twin::search::Side;

/// Nothing.
fn nothing() -> Rc<Pattern> {
    Rc::new(Pattern::Nothing)
}

/// The card that holds just the records needed, children first.
fn card(pattern: &Rc<Pattern>) -> Vec<u8> {
    card_bytes(&shared_card(pattern))
}

/// Lends the rooms of the job program.
fn call(asked: Asked, budget: u32) -> Call {
    Call { asked, work: 32_768, fill: 0, was: None, budget }
}

/// Compares two patterns.
fn compare(left: &Rc<Pattern>, right: &Rc<Pattern>, budget: u32) -> Told {
    let asked = Asked::Compare { left: card(left), right: card(right), pairs: 8_192, word: 1_024, had: None };
    judge(&call(asked, budget))
}

/// Matches a word.
fn matches(pattern: &Rc<Pattern>, word: &str, budget: u32) -> Told {
    judge(&call(Asked::Match { card: card(pattern), word: word.into() }, budget))
}

/// The number of pairs told.
fn pairs(told: &Told) -> usize {
    told.table.as_ref().unwrap().len() / 8
}

/// "Different", with its word and side.
fn different(word: &str, only: Side) -> Answer {
    Answer::Different { word: word.into(), only }
}

#[test]
fn the_job_of_the_example() {
    let line = "compare left=02610000000000000500010000000000 \
        right=01000100000000000261000000000000050001000100000004000000010002000300010000000300 \
        work=32768 pairs=8192 word=1024 fill=00 budget=100";
    let told = answer_line(line.as_bytes());
    assert!(told.starts_with("answer=same pairs=2 places=6 visits=10 work="), "{told}");
}

#[test]
fn h_against_h_or_hh() {
    let h = letter(b'h');
    let right = choice(&h, &sequence(&h, &h));
    let told = compare(&h, &right, 100);
    assert_eq!(told.answer, different("hh", Side::Right));
    assert_eq!((pairs(&told), told.places, told.visits), (2, 6, 9));
    assert_eq!(compare(&h, &right, 9).answer, different("hh", Side::Right));
    assert_eq!(compare(&h, &right, 8).answer, Answer::Refused(Refusal::NoBudget));
}

#[test]
fn repeated_repeat_then_b() {
    let pattern = sequence(&repeat(&repeat(&letter(b'a'))), &letter(b'b'));
    let told = matches(&pattern, "aa", 100);
    assert_eq!((told.answer, told.places, told.visits), (Answer::No, 9, 13));
    let told = matches(&pattern, "aab", 100);
    assert_eq!((told.answer, told.places, told.visits), (Answer::Yes, 9, 21));
}

#[test]
fn different_cases() {
    let (a, b, c) = (letter(b'a'), letter(b'b'), letter(b'c'));
    let answer = |left: &Rc<Pattern>, right: &Rc<Pattern>| compare(left, right, 10_000).answer;
    assert_eq!(answer(&sequence(&a, &a), &a), different("a", Side::Right));
    assert_eq!(answer(&sequence(&a, &nothing()), &a), different("a", Side::Right));
    assert_eq!(answer(&choice(&a, &empty_word()), &a), different("", Side::Left));
    assert_eq!(answer(&repeat(&nothing()), &nothing()), different("", Side::Left));
    let left = choice(&a, &sequence(&b, &c));
    let right = sequence(&choice(&a, &b), &choice(&a, &c));
    assert_eq!(answer(&left, &right), different("a", Side::Left));
}

#[test]
fn same_cases() {
    let (a, b, c) = (letter(b'a'), letter(b'b'), letter(b'c'));
    let same = |left: &Rc<Pattern>, right: &Rc<Pattern>| {
        assert_eq!(compare(left, right, 10_000).answer, Answer::Same);
    };
    same(&empty_word(), &repeat(&nothing()));
    same(&choice(&a, &b), &choice(&b, &a));
    same(&repeat(&choice(&a, &b)), &sequence(&repeat(&a), &repeat(&sequence(&b, &repeat(&a)))));
    let turned = sequence(&sequence(&a, &repeat(&sequence(&b, &a))), &b);
    same(&repeat(&sequence(&a, &b)), &choice(&empty_word(), &turned));
    same(&sequence(&c, &choice(&a, &b)), &choice(&sequence(&c, &a), &sequence(&c, &b)));
}

/// Request P3: choices no longer pile up in new orders, and a choice has one place in any order.
#[test]
fn a_choice_is_a_set() {
    let (a, b) = (letter(b'a'), letter(b'b'));
    let told = compare(&repeat(&choice(&a, &sequence(&a, &a))), &repeat(&a), 100);
    assert_eq!((pairs(&told), told.places, told.visits), (3, 10, 35));
    assert_eq!(told.answer, Answer::Same);
    let told = compare(&choice(&a, &b), &choice(&b, &a), 100);
    assert_eq!((told.answer, told.places), (Answer::Same, 5));
}

#[test]
fn edges() {
    let chance = &mut Chance::of(0, 0);
    let mut of_records = |records| {
        let card = card_bytes(&grown(chance, &[Record::Letter(b'a')], records));
        judge(&call(Asked::Match { card, word: b"a".to_vec() }, 10)).answer
    };
    assert_eq!(of_records(512), Answer::Yes);
    assert_eq!(of_records(513), Answer::Refused(Refusal::CardLength));

    let in_16_bytes = |pattern: &Rc<Pattern>| {
        judge(&Call { work: 16, ..call(Asked::Match { card: card(pattern), word: vec![] }, 0) }).answer
    };
    assert_eq!(in_16_bytes(&nothing()), Answer::No);
    assert_eq!(in_16_bytes(&letter(b'a')), Answer::Refused(Refusal::NoFreePlace));

    let a_star = card(&repeat(&letter(b'a')));
    let asked = Asked::Compare { left: a_star.clone(), right: a_star, pairs: 8, word: 0, had: None };
    assert_eq!(judge(&call(asked, 100)).answer, Answer::Same);
}

/// A chain of 4,092 repeats, which the derivative walks to its end on either side. It fills the store,
/// and its last record, loaded once more, is found at the last place.
#[test]
fn the_deepest_derivative() {
    let mut proof = vec![Record::Letter(b'a'), Record::Letter(b'b')];
    for before in 1..4_093 {
        proof.push(Record::Repeat(before));
    }
    proof.push(Record::Repeat(4_092));
    let list = vec![0xfd, 0x0f, 0xfd, 0x0f, 0, 0, 0, 0, 0, 0, 0, 0, 0, 0, 0, 0];
    let a = card(&letter(b'a'));
    let asked = Asked::Check { left: a.clone(), right: a, proof: card_bytes(&proof), list };
    let told = on_large_stack(move || judge(&call(asked, 100_000)));
    assert_eq!(told.answer, Answer::Rejected(Failing::Letter(0, b'a')));
    assert_eq!((told.places, told.visits), (4_096, 2 * (4_092 + 1)));
}
