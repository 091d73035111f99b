//! A second program of the calls that document 01 fixes, with document 02's
//! asks 1, 3, 4 and 5, written plainly from these documents and FIPS 180-4, and a
//! comparer that puts the same calls to another program and compares every answer
//! byte for byte.

pub mod answers;
pub mod block;
pub mod bytes;
pub mod cases;
pub mod command;
pub mod compare;
pub mod coverage;
pub mod filer;
pub mod frames;
pub mod gateway;
pub mod image;
pub mod joint;
pub mod metadata;
pub mod proof;
pub mod random;
pub mod refusal;
pub mod sha256;
pub mod store;
pub mod tree;
pub mod wrong;

/// Stack for the recursive tree of a row of 4,096 blocks.
const STACK: usize = 256 << 20;

/// Runs `work` on a thread whose stack is deep enough for every row.
pub fn on_a_deep_stack<T: Send + 'static>(work: impl FnOnce() -> T + Send + 'static) -> T {
    let thread = std::thread::Builder::new().stack_size(STACK);
    let running = thread.spawn(work).expect("a thread could not be started");
    match running.join() {
        Ok(value) => value,
        Err(panic) => std::panic::resume_unwind(panic),
    }
}
