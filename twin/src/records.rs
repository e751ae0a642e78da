//! Records, the store and its making rules.
//!
//! A record is one of the six kinds of document 01. The store is the run of records that a call
//! writes into its work room: every call begins a fresh one, and records only ever join it. In it a
//! choice is a set (document 02, P3): its left child is no choice, its members down the right side have
//! strictly rising places, and nothing is no member.

use crate::cards::Refusal;
use crate::lookups::CallLookups;
use std::collections::HashMap;

/// The number of a record in a card, or of its place in the store.
pub type Place = u16;

/// Place 0 of every store: nothing.
pub const NOTHING: Place = 0;

/// Place 1 of every store: the empty word.
pub const EMPTY_WORD: Place = 1;

/// A record has 8 bytes.
pub const RECORD_BYTES: usize = 8;

/// A record; it names its children by number.
#[derive(Clone, Copy, Debug, PartialEq, Eq, Hash)]
pub enum Record {
    Nothing,
    EmptyWord,
    Letter(u8),
    Choice(Place, Place),
    Sequence(Place, Place),
    Repeat(Place),
}

impl Record {
    /// The mark: whether the record's language has the empty word. No for nothing and a letter, yes
    /// for the empty word and a repeat, either child for a choice, both for a sequence.
    pub fn mark(self, marks: &[bool]) -> bool {
        let of = |child: Place| marks[child as usize];
        match self {
            Record::Nothing | Record::Letter(_) => false,
            Record::EmptyWord | Record::Repeat(_) => true,
            Record::Choice(left, right) => of(left) || of(right),
            Record::Sequence(left, right) => of(left) && of(right),
        }
    }

    /// The same record with its children renamed.
    pub fn renamed(self, name: impl Fn(Place) -> Place) -> Record {
        match self {
            Record::Choice(left, right) => Record::Choice(name(left), name(right)),
            Record::Sequence(left, right) => Record::Sequence(name(left), name(right)),
            Record::Repeat(child) => Record::Repeat(name(child)),
            leaf => leaf,
        }
    }

    /// The children, left before right.
    pub fn children(self) -> Vec<Place> {
        match self {
            Record::Choice(left, right) | Record::Sequence(left, right) => vec![left, right],
            Record::Repeat(child) => vec![child],
            _ => vec![],
        }
    }

    /// The record in card form: kind, letter, mark, zero, left, right, low bytes first.
    pub fn bytes(self, mark: bool) -> [u8; RECORD_BYTES] {
        let (kind, letter, left, right) = match self {
            Record::Nothing => (0, 0, 0, 0),
            Record::EmptyWord => (1, 0, 0, 0),
            Record::Letter(letter) => (2, letter, 0, 0),
            Record::Choice(left, right) => (3, 0, left, right),
            Record::Sequence(left, right) => (4, 0, left, right),
            Record::Repeat(child) => (5, 0, child, 0),
        };
        let [left_low, left_high] = left.to_le_bytes();
        let [right_low, right_high] = right.to_le_bytes();
        [kind, letter, mark as u8, 0, left_low, left_high, right_low, right_high]
    }
}

/// The store: the records placed so far, in the places that the work room has.
pub struct Store {
    records: Vec<Record>,
    marks: Vec<bool>,
    found: HashMap<Record, Place>,
    room: usize,
    /// What finding took so far.
    pub lookups: CallLookups,
}

impl Store {
    /// A fresh store in a work room of so many bytes: place 0 is nothing, place 1 the empty word.
    pub fn fresh(work: usize) -> Store {
        let mut store = Store {
            records: vec![],
            marks: vec![],
            found: HashMap::new(),
            room: work / RECORD_BYTES,
            lookups: CallLookups::default(),
        };
        for first in [Record::Nothing, Record::EmptyWord] {
            store.place(first).expect("a work room has 16 bytes or more");
        }
        store
    }

    /// Makes a record: a choice is a set, and a sequence has its rules; otherwise the identical record
    /// already in the store is used, failing that a new one.
    pub fn make(&mut self, record: Record) -> Result<Place, Refusal> {
        match record {
            Record::Choice(left, right) => self.make_set([self.members(left), self.members(right)].concat()),
            Record::Sequence(NOTHING, _) | Record::Sequence(_, NOTHING) => Ok(NOTHING),
            Record::Sequence(EMPTY_WORD, right) => Ok(right),
            Record::Sequence(left, EMPTY_WORD) => Ok(left),
            other => self.use_or_place(other),
        }
    }

    /// The members of a place: a choice has its left child and the members of its right child, nothing
    /// has none, and any other place is its own only member.
    fn members(&self, place: Place) -> Vec<Place> {
        let mut members = vec![];
        let mut rest = place;
        while let Record::Choice(left, right) = self.record(rest) {
            members.push(left);
            rest = right;
        }
        if rest != NOTHING {
            members.push(rest);
        }
        members
    }

    /// Makes the choice of some members: by rising place, each once, built from the last member
    /// backward. No member gives nothing, one gives itself. At number 7 what was placed by then stands.
    fn make_set(&mut self, mut members: Vec<Place>) -> Result<Place, Refusal> {
        members.sort();
        members.dedup();
        let Some(mut set) = members.pop() else {
            return Ok(NOTHING);
        };
        for member in members.into_iter().rev() {
            set = self.use_or_place(Record::Choice(member, set))?;
        }
        Ok(set)
    }

    /// The place of the identical record, or the first free place, or number 7.
    fn use_or_place(&mut self, record: Record) -> Result<Place, Refusal> {
        let found = self.found.get(&record).copied();
        self.lookups.count(record, self.records.len(), found.map(usize::from));
        match found {
            Some(place) => Ok(place),
            None => self.place(record),
        }
    }

    /// Places a new record at the first free place, or number 7.
    fn place(&mut self, record: Record) -> Result<Place, Refusal> {
        if self.records.len() >= self.room {
            return Err(Refusal::NoFreePlace);
        }
        let place = self.records.len() as Place;
        self.marks.push(record.mark(&self.marks));
        self.records.push(record);
        self.found.insert(record, place);
        Ok(place)
    }

    /// Loading a card makes its records in order; told is the place that each came to.
    pub fn load(&mut self, card: &[Record]) -> Result<Vec<Place>, Refusal> {
        let mut places: Vec<Place> = Vec::with_capacity(card.len());
        for record in card {
            let place = self.make(record.renamed(|child| places[child as usize]))?;
            places.push(place);
        }
        Ok(places)
    }

    /// The record at a place.
    pub fn record(&self, place: Place) -> Record {
        self.records[place as usize]
    }

    /// The mark at a place.
    pub fn mark(&self, place: Place) -> bool {
        self.marks[place as usize]
    }

    /// The number of places taken.
    pub fn places(&self) -> usize {
        self.records.len()
    }

    /// The bytes written at the start of the work room.
    pub fn bytes(&self) -> Vec<u8> {
        card_bytes(&self.records)
    }
}

/// A run of records in card form, with the marks that are right.
pub fn card_bytes(records: &[Record]) -> Vec<u8> {
    let mut marks = Vec::with_capacity(records.len());
    let mut bytes = Vec::with_capacity(records.len() * RECORD_BYTES);
    for record in records {
        let mark = record.mark(&marks);
        marks.push(mark);
        bytes.extend(record.bytes(mark));
    }
    bytes
}
