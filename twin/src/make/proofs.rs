//! Proofs for checks: those that a comparison leaves, those that no search made, and altered ones.

use super::chance::Chance;
use super::{families, layout};
use crate::calls::Told;
use crate::cards::{self, PAIR_BYTES, PROOF_RECORDS, WORK_BYTES};
use crate::records::{Place, Record, Store};

/// A proof card's records, and the pairs that name them.
pub struct Proof {
    pub records: Vec<Record>,
    pub pairs: Vec<Listed>,
}

/// A pair of a list, in its 8 bytes.
type Listed = [u8; PAIR_BYTES];

/// A listed pair of two record numbers; the checker does not read its last four bytes.
fn listed(left: usize, right: usize) -> Listed {
    let ([a, b], [c, d]) = ((left as u16).to_le_bytes(), (right as u16).to_le_bytes());
    [a, b, c, d, 0, 0, 0, 0]
}

/// The store and the table that a comparison left; none where it placed no pair.
pub fn left_by(comparison: &Told) -> Option<Proof> {
    let table = comparison.table.as_ref().filter(|table| !table.is_empty())?;
    let records = cards::read_card(&comparison.work, PROOF_RECORDS).expect("a store is a proof card");
    Some(Proof { records, pairs: table.chunks(PAIR_BYTES).map(|pair| pair.try_into().unwrap()).collect() })
}

/// A proof that no search made: both cards one after the other, and the opening pair.
pub fn of_both_cards(left: &[Record], right: &[Record]) -> Proof {
    let mut records = left.to_vec();
    let shift = left.len() as Place;
    records.extend(right.iter().map(|record| record.renamed(|child| child + shift)));
    let opening = listed(left.len() - 1, records.len() - 1);
    Proof { records, pairs: vec![opening] }
}

/// A deep proof: both cards, and a chain that takes places up to the last one of the largest work
/// room, or nearly; then the chain's last record again, or the choice of it and itself, or of it and an
/// earlier one, which is mostly to be found where it stands. The chain's end is listed, mostly first: the
/// derivative goes as deep as it can.
pub fn deep(chance: &mut Chance, left: &[Record], right: &[Record]) -> Proof {
    let Proof { mut records, mut pairs } = of_both_cards(left, right);
    let mut store = Store::fresh(*WORK_BYTES.end());
    let loaded = [left, right, &records].map(|card| store.load(card));
    let [Ok(_), Ok(_), Ok(mut places)] = loaded else {
        return Proof { records, pairs };
    };
    let wanted = chance.pick(&[1_024, 4_095, 4_096, 4_096, 4_096]);
    let chain = families::Chain::new(chance, wanted);
    while store.places() < wanted && records.len() < PROOF_RECORDS {
        let link = chain.link(chance, records.len());
        records.push(link);
        match store.make(link.renamed(|child| places[child as usize])) {
            Ok(place) => places.push(place),
            Err(_) => break,
        }
    }
    let end = records.len() - 1;
    let again = chance.below(3).min(PROOF_RECORDS - records.len());
    for _ in 0..again {
        let (earlier, last) = (chance.below(end) as Place, end as Place);
        let links = [records[end], records[end], Record::Choice(last, last), Record::Choice(earlier, last)];
        records.push(chance.pick(&links));
    }
    pairs.insert(if chance.percent(75) { 0 } else { 1 }, listed(end, end + again));
    Proof { records, pairs }
}

/// Alters a proof: a pair dropped, exchanged, turned, listed twice, added, changed or out of range,
/// the whole list twice or turned round, the bytes that nobody reads, another record order, or other
/// records at the end.
pub fn alter(chance: &mut Chance, Proof { records, pairs }: &mut Proof) {
    if pairs.is_empty() || records.len() < 2 {
        return;
    }
    let (spot, other) = (chance.below(pairs.len()), chance.below(pairs.len()));
    let (left, right) = (chance.below(records.len()), chance.below(records.len()));
    match chance.weighted(&[12, 6, 5, 8, 4, 6, 10, 6, 5, 14, 12, 8, 4, 8]) {
        0 => drop(pairs.remove(spot)),
        1 => pairs.swap(spot, other),
        2 => pairs[spot][..4].rotate_left(2),
        3 => pairs.insert(other, pairs[spot]),
        4 => pairs.extend_from_within(..),
        5 => pairs.insert(spot, listed(left, right)),
        6 => pairs.insert(spot, if chance.percent(50) { listed(0, 1) } else { listed(1, 0) }),
        7 => pairs.insert(spot, listed(left, left)),
        8 => pairs[spot] = listed(left, right),
        9 => {
            let past = chance.pick(&[0, 0, 1, 4_096, 65_535]).max(records.len());
            pairs[spot] = if chance.percent(50) { listed(past, right) } else { listed(left, past) };
        }
        10 => put_in_other_order(chance, records, pairs),
        11 => pairs.iter_mut().for_each(|pair| pair[4..].fill_with(|| chance.byte())),
        12 => pairs.reverse(),
        _ if chance.percent(20) => {
            let size = chance.pick(&[4_095, 4_096, 4_096, 4_097]);
            *records = layout::grown(chance, records, size);
        }
        _ if chance.percent(50) => records.push(Record::Letter(chance.byte())),
        _ => drop(records.pop()),
    }
}

/// Puts a proof card's records in another order; the listed pairs name them by their new numbers.
fn put_in_other_order(chance: &mut Chance, records: &mut Vec<Record>, pairs: &mut [Listed]) {
    let (reordered, new_number) = layout::other_order(chance, records, false);
    for pair in pairs {
        for field in [0, 2] {
            let old = u16::from_le_bytes([pair[field], pair[field + 1]]);
            let new = new_number.get(old as usize).unwrap_or(&old);
            pair[field..field + 2].copy_from_slice(&new.to_le_bytes());
        }
    }
    *records = reordered;
}
