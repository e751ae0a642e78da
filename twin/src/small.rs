//! All small calls: every pair of small patterns, and every small pattern with every short word.
//!
//! The patterns are trees over the letters `a` and `b`: cards without sharing, each record but the
//! root used once as a child. The records of a card stand in this order: those of the left part,
//! those of the right part, the record itself. The patterns stand in this order: by number of
//! records; then nothing, empty word, `a`, `b`; or the repeats, the choices, the sequences, each by
//! the left part's number in the list, then the right's.

use crate::lines::hex;
use crate::records::{card_bytes, Place, Record};

/// Every pair of patterns of up to so many records is compared.
const PAIRED_RECORDS: usize = 5;

/// Every pattern of up to so many records is matched, and every 997th pair of them compared.
const MATCHED_RECORDS: usize = 7;

/// Of the pairs of patterns of up to seven records, one in so many is taken.
const STEP: usize = 997;

/// Every word of up to so many letters is matched.
const WORD_LETTERS: usize = 6;

/// Every call is lent the largest rooms, and a budget that ends it fast.
const ROOMS: &str = "work=32768 pairs=8192 word=1024 fill=a5 budget=3000";
const MATCH_ROOMS: &str = "work=32768 fill=a5 budget=3000";

/// The calls, each made when it is asked for.
pub struct SmallCalls {
    patterns: Vec<String>,
    paired: usize,
    words: Vec<String>,
}

impl SmallCalls {
    /// Lists the patterns and the words, in hex.
    pub fn list() -> SmallCalls {
        let by_size = trees(MATCHED_RECORDS);
        let paired = by_size[..=PAIRED_RECORDS].iter().map(Vec::len).sum();
        let patterns = by_size.iter().flatten().map(|card| hex(&card_bytes(card))).collect();
        SmallCalls { patterns, paired, words: words().iter().map(|word| hex(word)).collect() }
    }

    /// The number of patterns of up to five records, of patterns of up to seven, and of words.
    pub fn counts(&self) -> (usize, usize, usize) {
        (self.paired, self.patterns.len(), self.words.len())
    }

    /// The line of the call of this number: first the pairs of the smaller patterns, then every
    /// pattern with every word, then every 997th pair; none past the last.
    pub fn line(&self, number: usize) -> Option<String> {
        let all = self.patterns.len();
        let (pairs, matches) = (self.paired * self.paired, all * self.words.len());
        if number < pairs {
            return Some(self.comparison(number / self.paired, number % self.paired));
        }
        if number < pairs + matches {
            let (pattern, word) = ((number - pairs) / self.words.len(), (number - pairs) % self.words.len());
            return Some(format!("match card={} word={} {MATCH_ROOMS}", self.patterns[pattern], self.words[word]));
        }
        let pair = (number - pairs - matches) * STEP;
        (pair < all * all).then(|| self.comparison(pair / all, pair % all))
    }

    /// The comparison of two patterns of the list.
    fn comparison(&self, left: usize, right: usize) -> String {
        format!("compare left={} right={} {ROOMS}", self.patterns[left], self.patterns[right])
    }
}

/// The cards of all trees, by number of records.
fn trees(most: usize) -> Vec<Vec<Vec<Record>>> {
    let leaves = [Record::Nothing, Record::EmptyWord, Record::Letter(b'a'), Record::Letter(b'b')];
    let mut by_size = vec![vec![], leaves.iter().map(|&leaf| vec![leaf]).collect()];
    for size in 2..=most {
        let mut cards: Vec<Vec<Record>> = by_size[size - 1].iter().map(|child| repeated(child)).collect();
        for join in [Record::Choice as fn(Place, Place) -> Record, Record::Sequence] {
            for left_size in 1..size - 1 {
                for left in &by_size[left_size] {
                    cards.extend(by_size[size - 1 - left_size].iter().map(|right| joined(left, right, join)));
                }
            }
        }
        by_size.push(cards);
    }
    by_size
}

/// The card of a repeat.
fn repeated(child: &[Record]) -> Vec<Record> {
    let mut card = child.to_vec();
    card.push(Record::Repeat((child.len() - 1) as Place));
    card
}

/// The card of a choice or a sequence: left part, right part, the record itself.
fn joined(left: &[Record], right: &[Record], join: fn(Place, Place) -> Record) -> Vec<Record> {
    let shift = left.len() as Place;
    let mut card = left.to_vec();
    card.extend(right.iter().map(|record| record.renamed(|child| child + shift)));
    card.push(join(shift - 1, shift + right.len() as Place - 1));
    card
}

/// Every word over `a` and `b`, short before long.
fn words() -> Vec<Vec<u8>> {
    let mut words = vec![vec![]];
    let mut longest = words.clone();
    for _ in 0..WORD_LETTERS {
        longest = longest.iter().flat_map(|word| b"ab".map(|letter| [&word[..], &[letter]].concat())).collect();
        words.extend_from_slice(&longest);
    }
    words
}
