//! The twin: a second judge of message orders, written from document 01 to be held against the
//! first. It proves nothing; it shares nothing with the judge but the document.
//!
//! `records`, `derivative`, `search`, `checker`, `cards` and `calls` are the rules; `lines` reads
//! and writes the line form; `make` is the generator of random calls, and `small` lists the calls
//! about all small patterns and words. `larger` tells what pairs that grow come to. `lookups` counts the
//! records that finding compares, and `race` times two programs on the comparisons of `long`.

pub mod calls;
pub mod cards;
pub mod checker;
pub mod derivative;
pub mod larger;
pub mod lines;
pub mod long;
pub mod lookups;
pub mod make;
pub mod race;
pub mod records;
pub mod search;
pub mod small;

/// The derivative can be 4,096 deep: what judges runs on a stack of so many bytes.
const STACK_BYTES: usize = 256 << 20;

/// Runs something on a large stack.
pub fn on_large_stack<T: Send + 'static>(work: impl FnOnce() -> T + Send + 'static) -> T {
    let thread = std::thread::Builder::new().stack_size(STACK_BYTES).spawn(work).expect("a thread starts");
    thread.join().expect("the work ends")
}
