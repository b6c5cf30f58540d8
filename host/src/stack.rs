//! Tests on a stack of a known size.

use std::thread;

/// The stack of a test that calls the library directly, a usual main thread's; and one that is enough for every image.
pub const STACK: usize = 8 << 20;
pub const WHOLE_STACK: usize = 10 << 20;
/// The stack of a test that calls it through the binding's safe functions: what Rust gives a thread by default.
pub const DEFAULT_STACK: usize = 2 << 20;

/// A part of the tests on a stack of so many bytes.
pub fn on_stack(bytes: usize, folder: &str, part: fn(&str)) {
    let folder = folder.to_string();
    let thread = thread::Builder::new().stack_size(bytes).spawn(move || part(&folder));
    if thread.expect("a thread").join().is_err() {
        std::process::exit(1);
    }
}
