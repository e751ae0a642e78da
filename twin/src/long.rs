//! Long comparisons: each ends with a store of more than 2,000 records, and is lent the largest rooms
//! and the largest budget.

use crate::calls::{Asked, Call};
use crate::make::layout::shared_card;
use crate::make::patterns::{any_of, choice, empty_word, grouped_left, grouped_right};
use crate::make::patterns::{letter, repeat, sequence, times, times_backwards, Pattern};
use crate::records::card_bytes;
use std::rc::Rc;

/// A long comparison, and in words what is compared.
pub struct Long {
    pub compared: &'static str,
    pub call: Call,
}

/// The long comparisons.
pub fn calls() -> Vec<Long> {
    let (a, b, steps) = (letter(b'a'), letter(b'b'), || (0..80).map(letter));
    let optional = |step: fn(Rc<Pattern>) -> Rc<Pattern>| grouped_left((0..62).map(letter).map(step));
    let ninth_from_end =
        |before: &Rc<Pattern>| (0..8).fold(sequence(before, &a), |all, _| sequence(&all, &any_of(b"ab")));
    vec![
        long("1,000 times `a`, grouped in two ways", times(&a, 1_000), times_backwards(&a, 1_000)),
        long(
            "`(a+b)*·a·(a+b)^8` and `(a*·b*)*·a·(a+b)^8`",
            ninth_from_end(&repeat(&any_of(b"ab"))),
            ninth_from_end(&repeat(&sequence(&repeat(&a), &repeat(&b)))),
        ),
        long("`(s1·..·s80)*`, grouped left and right", repeat(&grouped_left(steps())), repeat(&grouped_right(steps()))),
        long(
            "`(s1+1)·..·(s62+1)` and `(1+s1)·..·(1+s62)`",
            optional(|step| choice(&step, &empty_word())),
            optional(|step| choice(&empty_word(), &step)),
        ),
    ]
}

/// The comparison of two patterns, each part of which is one record.
fn long(compared: &'static str, left: Rc<Pattern>, right: Rc<Pattern>) -> Long {
    let card = |pattern| card_bytes(&shared_card(pattern));
    let asked = Asked::Compare { left: card(&left), right: card(&right), pairs: 8_192, word: 1_024, had: None };
    Long { compared, call: Call { asked, work: 32_768, fill: 0xa5, was: None, budget: u32::MAX } }
}
