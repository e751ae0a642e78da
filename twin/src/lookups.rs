//! How many records finding compares: a count of the work, which no rule of document 01 is about.
//!
//! Finding compares the record wanted with the records of the store, one after the other, up to the
//! identical one or the last. It can begin at place 0, or just above the record's children, since a
//! record stands after both of them (document 02, P2). Of a set every choice counts as looked for
//! (document 02, P3); a judge that knows that the rest of a set stands already need not look for it.

use crate::records::Record;

/// Lookups made, and the records that they compare from place 0 on, or from above the children.
#[derive(Clone, Copy, Debug, Default, PartialEq, Eq)]
pub struct Lookups {
    pub made: u64,
    pub from_first: u64,
    pub from_children: u64,
}

impl Lookups {
    /// Counts a lookup that ends before place `end`.
    pub fn count(&mut self, record: Record, end: usize) {
        let above_children = record.children().iter().map(|&child| child as usize + 1).max().unwrap_or(0);
        self.made += 1;
        self.from_first += end as u64;
        self.from_children += (end - above_children) as u64;
    }
}

/// A store of so many records is large.
const LARGE_STORE: usize = 2_000;

/// The lookups of a call: all of them, and those in a large store.
#[derive(Clone, Copy, Debug, Default, PartialEq, Eq)]
pub struct CallLookups {
    pub all: Lookups,
    pub in_large_store: Lookups,
}

impl CallLookups {
    /// Counts a lookup in a store of so many records that finds the place, or none.
    pub fn count(&mut self, record: Record, records: usize, found: Option<usize>) {
        let end = found.map_or(records, |place| place + 1);
        self.all.count(record, end);
        if records >= LARGE_STORE {
            self.in_large_store.count(record, end);
        }
    }
}
