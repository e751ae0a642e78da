//! Patterns for the generator: random ones, equal ones, near ones, words and powers.

use super::chance::Chance;
use std::rc::Rc;
use Pattern::{Choice, EmptyWord, Letter, Nothing, Repeat, Sequence};

/// A pattern as a tree; its parts may be shared.
#[derive(Clone, Debug, PartialEq, Eq)]
pub enum Pattern {
    Nothing,
    EmptyWord,
    Letter(u8),
    Choice(Rc<Pattern>, Rc<Pattern>),
    Sequence(Rc<Pattern>, Rc<Pattern>),
    Repeat(Rc<Pattern>),
}

/// The empty word.
pub fn empty_word() -> Rc<Pattern> {
    Rc::new(EmptyWord)
}

/// A letter.
pub fn letter(letter: u8) -> Rc<Pattern> {
    Rc::new(Letter(letter))
}

/// A choice.
pub fn choice(left: &Rc<Pattern>, right: &Rc<Pattern>) -> Rc<Pattern> {
    Rc::new(Choice(left.clone(), right.clone()))
}

/// A sequence.
pub fn sequence(left: &Rc<Pattern>, right: &Rc<Pattern>) -> Rc<Pattern> {
    Rc::new(Sequence(left.clone(), right.clone()))
}

/// A repeat.
pub fn repeat(child: &Rc<Pattern>) -> Rc<Pattern> {
    Rc::new(Repeat(child.clone()))
}

/// A pattern of one record.
fn leaf(chance: &mut Chance, letters: &[u8]) -> Rc<Pattern> {
    match chance.below(12) {
        0 => Rc::new(Nothing),
        1 | 2 => empty_word(),
        _ => letter(chance.pick(letters)),
    }
}

/// A random pattern of so many records.
pub fn random(chance: &mut Chance, letters: &[u8], records: usize) -> Rc<Pattern> {
    if records == 1 {
        return leaf(chance, letters);
    }
    if records == 2 || chance.percent(20) {
        return repeat(&random(chance, letters, records - 1));
    }
    let left_records = chance.between(1, records - 2);
    let left = random(chance, letters, left_records);
    let right = random(chance, letters, records - 1 - left_records);
    if chance.percent(50) {
        choice(&left, &right)
    } else {
        sequence(&left, &right)
    }
}

/// A pattern changed at one spot, chosen by chance.
fn changed(
    chance: &mut Chance,
    pattern: &Rc<Pattern>,
    change: &dyn Fn(&mut Chance, &Rc<Pattern>) -> Rc<Pattern>,
) -> Rc<Pattern> {
    if chance.percent(30) {
        return change(chance, pattern);
    }
    match &**pattern {
        Choice(left, right) if chance.percent(50) => choice(&changed(chance, left, change), right),
        Choice(left, right) => choice(left, &changed(chance, right, change)),
        Sequence(left, right) if chance.percent(50) => sequence(&changed(chance, left, change), right),
        Sequence(left, right) => sequence(left, &changed(chance, right, change)),
        Repeat(child) => repeat(&changed(chance, child, change)),
        _ => change(chance, pattern),
    }
}

/// An equal pattern: one law of equality used at one spot.
pub fn equal(chance: &mut Chance, pattern: &Rc<Pattern>) -> Rc<Pattern> {
    changed(chance, pattern, &|chance, spot| {
        let laws = laws(spot);
        laws[chance.below(laws.len())].clone()
    })
}

/// Everything that one law makes of a pattern. All of it has the same language.
fn laws(pattern: &Rc<Pattern>) -> Vec<Rc<Pattern>> {
    let one = empty_word();
    match &**pattern {
        Nothing => vec![sequence(&letter(b'a'), pattern), choice(pattern, pattern)],
        EmptyWord => vec![repeat(&Rc::new(Nothing)), repeat(pattern), sequence(pattern, pattern)],
        Letter(_) => vec![choice(pattern, pattern), sequence(&one, pattern), choice(&Rc::new(Nothing), pattern)],
        Choice(left, right) => {
            let mut equal = vec![choice(right, left), choice(left, pattern), choice(pattern, right)];
            if let Choice(a, b) = &**left {
                equal.push(choice(a, &choice(b, right)));
            }
            if let Choice(b, c) = &**right {
                equal.push(choice(&choice(left, b), c));
            }
            if let (Sequence(a, b), Sequence(c, d)) = (&**left, &**right) {
                if a == c {
                    equal.push(sequence(a, &choice(b, d)));
                }
                if b == d {
                    equal.push(sequence(&choice(a, c), b));
                }
            }
            equal
        }
        Sequence(left, right) => {
            let mut equal = vec![sequence(pattern, &one), sequence(left, &sequence(&one, right))];
            if let Sequence(a, b) = &**left {
                equal.push(sequence(a, &sequence(b, right)));
            }
            if let Sequence(b, c) = &**right {
                equal.push(sequence(&sequence(left, b), c));
            }
            if let Choice(a, b) = &**left {
                equal.push(choice(&sequence(a, right), &sequence(b, right)));
            }
            if let Choice(b, c) = &**right {
                equal.push(choice(&sequence(left, b), &sequence(left, c)));
            }
            equal
        }
        Repeat(child) => {
            let mut equal = vec![
                choice(&one, &sequence(child, pattern)),
                choice(&one, &sequence(pattern, child)),
                choice(&one, pattern),
                repeat(pattern),
                repeat(&choice(&one, child)),
                sequence(pattern, pattern),
            ];
            match &**child {
                Choice(a, b) => equal.push(sequence(&repeat(a), &repeat(&sequence(b, &repeat(a))))),
                Sequence(a, b) => {
                    let turned = repeat(&sequence(b, a));
                    equal.push(choice(&one, &sequence(&sequence(a, &turned), b)));
                }
                Repeat(_) => equal.push(child.clone()),
                _ => {}
            }
            equal
        }
    }
}

/// A near pattern: another leaf, another kind or a lost part at one spot. Mostly its language is
/// another one.
pub fn near(chance: &mut Chance, pattern: &Rc<Pattern>, letters: &[u8]) -> Rc<Pattern> {
    changed(chance, pattern, &|chance, spot| match &**spot {
        Choice(left, right) => match chance.below(4) {
            0 => left.clone(),
            1 => right.clone(),
            2 => sequence(left, right),
            _ => choice(left, &sequence(right, &leaf(chance, letters))),
        },
        Sequence(left, right) => match chance.below(4) {
            0 => sequence(right, left),
            1 => right.clone(),
            2 => choice(left, right),
            _ => sequence(left, &choice(right, &leaf(chance, letters))),
        },
        Repeat(child) => match chance.below(3) {
            0 => child.clone(),
            1 => repeat(&sequence(child, child)),
            _ => sequence(child, spot),
        },
        _ => leaf(chance, letters),
    })
}

/// The sequence of the letters of a word that is not empty, bracketed by chance.
pub fn of_word(chance: &mut Chance, word: &[u8]) -> Rc<Pattern> {
    if let [only] = word {
        return letter(*only);
    }
    let cut = match chance.below(3) {
        0 => 1,
        1 => word.len() - 1,
        _ => chance.between(1, word.len() - 1),
    };
    let left = of_word(chance, &word[..cut]);
    sequence(&left, &of_word(chance, &word[cut..]))
}

/// The sequence of one or more parts, grouped to the left.
pub fn grouped_left(parts: impl Iterator<Item = Rc<Pattern>>) -> Rc<Pattern> {
    parts.reduce(|all, part| sequence(&all, &part)).expect("there is a part")
}

/// The sequence of one or more parts, grouped to the right.
pub fn grouped_right(parts: impl DoubleEndedIterator<Item = Rc<Pattern>>) -> Rc<Pattern> {
    parts.rev().reduce(|all, part| sequence(&part, &all)).expect("there is a part")
}

/// The choice of one or more letters, grouped to the left.
pub fn any_of(letters: &[u8]) -> Rc<Pattern> {
    letters[1..].iter().fold(letter(letters[0]), |some, &next| choice(&some, &letter(next)))
}

/// A pattern so many times in sequence, by doubling: few records stand for many.
pub fn times(pattern: &Rc<Pattern>, count: usize) -> Rc<Pattern> {
    doubled(count, pattern, &|double| sequence(pattern, double))
}

/// The same language in other brackets: an odd one comes last.
pub fn times_backwards(pattern: &Rc<Pattern>, count: usize) -> Rc<Pattern> {
    doubled(count, pattern, &|double| sequence(double, pattern))
}

/// Twice half the count, and the odd one where there is one.
fn doubled(count: usize, once: &Rc<Pattern>, with_odd: &dyn Fn(&Rc<Pattern>) -> Rc<Pattern>) -> Rc<Pattern> {
    match count {
        0 => empty_word(),
        1 => once.clone(),
        _ => {
            let half = doubled(count / 2, once, with_odd);
            let double = sequence(&half, &half);
            if count.is_multiple_of(2) {
                double
            } else {
                with_odd(&double)
            }
        }
    }
}
