//! The larger pairs: which of them are judged in the largest rooms, and how.

use twin::calls::{judge, Answer};
use twin::cards::Refusal;
use twin::larger;
use twin::lines::{read_call, write_call};
use twin::on_large_stack;

/// All are the same but the handoffs, which differ by a word one letter longer than the handoff, and the
/// 120 optional steps, whose store needs more places than there are.
#[test]
fn what_the_larger_pairs_come_to() {
    on_large_stack(|| {
        for pair in larger::calls() {
            assert_eq!(read_call(write_call(&pair.call).as_bytes()).as_ref(), Some(&pair.call));
            let told = judge(&pair.call);
            let steps: Option<usize> =
                pair.compared.strip_prefix("`(s1·..·s").map(|rest| rest.split(')').next().unwrap().parse().unwrap());
            match (told.answer, steps) {
                (Answer::Different { word, .. }, Some(steps)) => assert_eq!(word.len(), steps + 1),
                (Answer::Refused(Refusal::NoFreePlace), None) => assert!(pair.compared.contains("s120")),
                (answer, _) => assert_eq!(answer, Answer::Same, "{}", pair.compared),
            }
        }
    });
}
