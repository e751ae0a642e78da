//! A choice is a set (request P3): one place in any order and grouping, the shape of its records, the
//! moment of number 7, and the proof that a "same" answer leaves.

mod cases;

use twin::calls::{judge, Answer, Asked, Call};
use twin::cards::{read_card, Refusal};
use twin::lines::read_call;
use twin::make::{self, chance::Chance};
use twin::on_large_stack;
use twin::records::{card_bytes, Place, Record, Store, EMPTY_WORD, NOTHING};

/// A store with five places that are no choice: the empty word, `a`, `b`, `a·b` and `a*`.
fn five_members(work: usize) -> (Store, [Place; 5]) {
    let mut store = Store::fresh(work);
    let [a, b] = [b'a', b'b'].map(|own| store.make(Record::Letter(own)).unwrap());
    let [ab, many] = [Record::Sequence(a, b), Record::Repeat(a)].map(|record| store.make(record).unwrap());
    (store, [EMPTY_WORD, a, b, ab, many])
}

/// The place of a choice of two, in a store with room.
fn choice(store: &mut Store, left: Place, right: Place) -> Place {
    store.make(Record::Choice(left, right)).unwrap()
}

/// (p + q) + r, p + (q + r) and r + (q + p) are one place, whatever p, q and r are. Of five members there
/// are 10 sets of two and 10 of three: no other choice is placed.
#[test]
fn one_place_in_any_order_and_grouping() {
    let (mut store, members) = five_members(32_768);
    let mut one_place = |p, q, r| {
        let [pq, qr, qp] = [(p, q), (q, r), (q, p)].map(|(left, right)| choice(&mut store, left, right));
        assert_eq!(pq, qp);
        let all = choice(&mut store, pq, r);
        for (left, right) in [(p, qr), (r, qp), (all, qr), (all, all), (all, NOTHING), (NOTHING, all)] {
            assert_eq!(choice(&mut store, left, right), all);
        }
    };
    for p in members {
        for q in members {
            members.iter().for_each(|&r| one_place(p, q, r));
        }
    }
    assert_eq!(store.places(), 6 + 10 + 10);
}

/// Sets of the same members, joined by chance in any order, grouping and number of times, are one place.
#[test]
fn one_place_however_it_is_joined() {
    let chance = &mut Chance::of(1, 0);
    let (mut store, members) = five_members(32_768);
    for chosen in 1..1 << members.len() {
        let own: Vec<Place> = (0..members.len()).filter(|n| chosen >> n & 1 == 1).map(|n| members[n]).collect();
        let places: Vec<Place> = (0..20).map(|_| joined(chance, &mut store, &own)).collect();
        assert!(places.iter().all(|place| *place == places[0]), "{own:?}: {places:?}");
    }
    assert_sets(&store.bytes());
}

/// Joins some places, each at least once, by choices taken by chance.
fn joined(chance: &mut Chance, store: &mut Store, members: &[Place]) -> Place {
    let mut parts = members.to_vec();
    parts.extend((0..chance.below(4)).map(|_| chance.pick(members)));
    parts.extend(std::iter::repeat_n(NOTHING, chance.below(2)));
    while parts.len() > 1 {
        let left = parts.swap_remove(chance.below(parts.len()));
        let right = parts.swap_remove(chance.below(parts.len()));
        parts.push(choice(store, left, right));
    }
    parts[0]
}

/// Of every choice the left child is no choice, the members down the right side have strictly rising
/// places, and nothing is no member.
fn assert_sets(store: &[u8]) {
    let records = read_card(store, 4_096).unwrap();
    let is_choice = |place: Place| matches!(records[place as usize], Record::Choice(..));
    for record in &records {
        if let Record::Choice(left, right) = *record {
            let next = match records[right as usize] {
                Record::Choice(next, _) => next,
                _ => right,
            };
            assert!(!is_choice(left) && left != NOTHING && left < next, "{record:?}");
        }
    }
}

/// The calls of `cases`, and some random ones.
fn all_calls() -> impl Iterator<Item = Call> {
    let cases = cases::calls().into_iter().map(|(line, _)| read_call(line.as_bytes()).unwrap());
    let random = (0..3_000).filter_map(|number| read_call(make::line(4, number).as_bytes()));
    cases.chain(random)
}

#[test]
fn every_store_holds_sets() {
    on_large_stack(|| {
        for call in all_calls() {
            let told = judge(&call);
            if told.places > 0 {
                assert_sets(&told.work);
            }
        }
    });
}

/// The store and table of a "same" answer pass the checker in the same rooms and budget, with the same
/// places and visits.
#[test]
fn a_same_answer_passes_the_checker() {
    on_large_stack(|| {
        let mut passed = 0;
        for call in all_calls() {
            let Asked::Compare { left, right, .. } = call.asked.clone() else { continue };
            let told = judge(&call);
            if told.answer == Answer::Same {
                let (proof, list) = (told.work.clone(), told.table.unwrap());
                let checked = judge(&Call { asked: Asked::Check { left, right, proof, list }, ..call });
                assert_eq!((checked.answer, checked.places), (Answer::Accepted, told.places));
                assert_eq!((checked.visits, checked.work), (told.visits, told.work));
                passed += 1;
            }
        }
        assert!(passed > 300, "{passed}");
    });
}

/// A set of four members has three records, placed from the last member backward. With too little room
/// number 7 comes at the first that is new, and those placed by then stand; what is found needs none.
#[test]
fn number_7_in_the_middle_of_a_set() {
    for free in 0..4 {
        let (mut store, [one, a, b, ab, _]) = five_members(8 * (6 + 2 + free));
        let (left, right) = (choice(&mut store, one, b), choice(&mut store, a, ab));
        let told = store.make(Record::Choice(left, right));
        assert_eq!(told, if free < 3 { Err(Refusal::NoFreePlace) } else { Ok(10) });
        let placed = [Record::Choice(b, ab), Record::Choice(a, 8), Record::Choice(one, 9)];
        assert_eq!(store.places(), 8 + free);
        for (place, record) in (8..).zip(&placed[..free]) {
            assert_eq!(store.record(place), *record);
            assert_eq!(store.make(*record), Ok(place));
        }
    }
}

/// The longest set there can be has 2,048 members: the empty word, `a`, `b`, `b*`, `b**` and so on. With
/// its 2,047 choices it fills the store; the derivative walks it to its end, and needs no place more.
#[test]
fn the_longest_set() {
    let mut proof = vec![Record::Nothing, Record::EmptyWord, Record::Letter(b'a'), Record::Letter(b'b')];
    proof.extend((3..2_048).map(Record::Repeat));
    proof.push(Record::Choice(2_047, 2_048));
    proof.extend((2_049..4_095).map(|later| Record::Choice(4_095 - later, later)));
    let list: Vec<u8> = [4_095, 2, 1, 0u16]
        .iter()
        .flat_map(|record| {
            let [low, high] = record.to_le_bytes();
            [low, high, low, high, 0, 0, 0, 0]
        })
        .collect();
    let a = card_bytes(&[Record::Letter(b'a')]);
    let asked = Asked::Check { left: a.clone(), right: a, proof: card_bytes(&proof), list };
    on_large_stack(move || {
        let told = judge(&Call { asked: asked.clone(), work: 32_768, fill: 0, was: None, budget: 5_000_000 });
        let repeats_and_b = 2_046 * 2_047 / 2;
        let set = 2_047 + 2 + repeats_and_b;
        assert_eq!((told.answer, told.places, told.visits), (Answer::Accepted, 4_096, 2 * (set + 3)));
        assert_sets(&told.work);
        let told = judge(&Call { asked, work: 32_760, fill: 0, was: None, budget: 5_000_000 });
        assert_eq!((told.answer, told.places), (Answer::Refused(Refusal::NoFreePlace), 4_095));
    });
}
