//! The stack that a call takes.

use infer_image::parts::Table;
use std::thread;

/// What a call may take of the caller's stack: half of what a Rust thread has by default.
const OF_CALLER: usize = 1 << 20;
/// What a thread takes beside the call that it is for.
const OF_THREAD: usize = 1 << 18;

// Frames of the compiled library, as `objdump -d libinfer_types.a` shows them; another compiler may make others.

/// The check doesn't recurse: with `shapes_numbered`, `check_tables` and all between 819,600, rounded up.
const CHECK: usize = 13 << 16;
/// A level of `generate_function`, which takes 112, or of `apply_function`, which takes 128. The first took 432 while
/// the walk went by value.
const FUNCTION: usize = 480;
/// A level of the unifier: `try_resolve_type` 96, `get` 96, counted as 224, for two steps; `unify` and
/// `bind_variable_to` over a variable 80, for three. Every level is a step, and its node was entered by another step
/// when it was bound or made, but for those of the one type that a walk starts from: two steps a level.
const STEP: usize = 224 / 2;
/// The levels of that one type, at most: its 4,096 words, two a level, and a variable.
const TYPE: usize = 2_049 * STEP;
/// Each function beside these levels once: in `infer_batch` 1,648, in `infer_types` 1,552, in `infer_listing` 1,536,
/// rounded up: with the type 57 pages.
const RUN: usize = (57 << 12) - TYPE;

/// The stack bytes that a call of the library takes at most: 10 MiB with the longest image and the whole budget. A list
/// takes the most that one of its screens does, a listing no more than the run.
pub fn stack_bytes(image: &[u32], budget: u32) -> usize {
    let functions = image.get(Table::Functions.count_at()).map_or(0, |&count| count as usize);
    // a function in which another stands has 13 words that are in no other
    let nested = functions.min(image.len() / 13 + 1);
    CHECK.max(RUN + FUNCTION * nested + TYPE + STEP * budget as usize)
}

/// The call, here if it takes little stack, else on a stack of its own.
pub(crate) fn with_stack<T: Send>(bytes: usize, call: impl FnOnce() -> T + Send) -> T {
    if bytes <= OF_CALLER {
        return call();
    }
    thread::scope(|scope| {
        let thread = thread::Builder::new().stack_size(bytes + OF_THREAD).spawn_scoped(scope, call);
        thread.expect("a thread for a deep run").join().expect("a call that returns")
    })
}
