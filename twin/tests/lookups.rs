//! The count of records that finding compares, and the long comparisons that it is told of.

use twin::calls::{judge, Answer};
use twin::lines::read_call;
use twin::lookups::Lookups;
use twin::{long, on_large_stack};

/// `a*` against itself. Loading the left card looks for the letter in 2 records, then for the repeat in
/// 3, of which none stands above the letter; loading the right card finds the letter at place 2 and the
/// repeat at place 3, the first above the letter. Deriving makes no record that is looked for.
#[test]
fn lookups_of_a_small_comparison() {
    let card = "02610000000000000500010000000000";
    let line = format!("compare left={card} right={card} work=64 pairs=8 word=0 fill=a5 budget=9");
    let told = judge(&read_call(line.as_bytes()).unwrap());
    assert_eq!(told.answer, Answer::Same);
    assert_eq!(told.lookups.all, Lookups { made: 4, from_first: 2 + 3 + 3 + 4, from_children: 2 + 3 + 1 });
    assert_eq!(told.lookups.in_large_store, Lookups::default());
}

#[test]
fn long_comparisons_end_with_large_stores() {
    on_large_stack(|| {
        for long in long::calls() {
            let told = judge(&long.call);
            assert_eq!(told.answer, Answer::Same, "{}", long.compared);
            assert!(told.places > 2_000, "{}: {}", long.compared, told.places);
            assert!(told.lookups.in_large_store.made > 0, "{}", long.compared);
        }
    });
}
