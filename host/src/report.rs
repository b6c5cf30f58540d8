//! What a test program says of a case that fails.

use crate::corpus;
use crate::image::{Case, Input};
use std::fmt::Debug;
use std::sync::Mutex;

extern "C" {
    fn signal(number: i32, handler: extern "C" fn(i32)) -> usize;
    fn alarm(seconds: u32) -> u32;
}

/// SIGILL, SIGBUS, SIGFPE, SIGSEGV, SIGALRM.
const FAULTS: [i32; 5] = [4, 7, 8, 11, 14];
/// No call is waited for longer than so many seconds.
const MOST_SECONDS: u32 = 60;
/// The file that a case is left in, beside the program.
const DIFFERENCE: &str = "difference";
/// At most so many words or bytes are printed.
const MOST_PRINTED: usize = 2_000;

/// A case of some kind.
pub trait Tested: Sync {
    fn name(&self) -> &str;
    /// What is lent, in a line or a few.
    fn describe(&self) -> String;
    /// How files of such cases end, and one that has this case alone.
    fn file(&self) -> (&'static str, Vec<u8>);
}

impl Tested for Case {
    fn name(&self) -> &str {
        &self.name
    }

    fn describe(&self) -> String {
        let Input { image, names, budget, work } = &self.input;
        let lengths = format!("{} words, {} name bytes", image.len(), names.len());
        let contents = if_short("image", image) + &if_short("names", names);
        format!("{lengths}, budget {budget}, work {work}{contents}")
    }

    fn file(&self) -> (&'static str, Vec<u8>) {
        let mut file = vec![];
        corpus::write(&mut file, self);
        ("corpus", file)
    }
}

/// Words or bytes on a line of their own, if they aren't many.
pub fn if_short<T: Debug>(what: &str, items: &[T]) -> String {
    if items.len() > MOST_PRINTED {
        return String::new();
    }
    format!("\n{what} {items:?}")
}

/// The case that is being tested, for the message of a fault.
static CURRENT: Mutex<Option<&dyn Tested>> = Mutex::new(None);

extern "C" fn on_fault(number: i32) {
    if let Ok(Some(case)) = CURRENT.try_lock().map(|current| *current) {
        fail(&format!("signal {number}"), case);
    }
    std::process::exit(2);
}

/// Has faults and calls that don't end reported.
pub fn watch() {
    for number in FAULTS {
        // SAFETY: the handler only reports and exits.
        unsafe { signal(number, on_fault) };
    }
}

/// A call for this case begins; the case has to live until the next one.
pub fn start(case: &dyn Tested) {
    // SAFETY: it lives while it is tested, and a fault meanwhile is all that looks at it.
    let current = unsafe { std::mem::transmute::<&dyn Tested, &'static dyn Tested>(case) };
    *CURRENT.lock().expect("no other holder") = Some(current);
    // SAFETY: asks for a signal, which is handled.
    unsafe { alarm(MOST_SECONDS) };
}

/// No call for a case is under way.
pub fn end() {
    *CURRENT.lock().expect("no other holder") = None;
    // SAFETY: no signal is asked for any more.
    unsafe { alarm(0) };
}

/// Prints the case, leaves it in a file and ends the program.
pub fn fail(what: &str, case: &dyn Tested) -> ! {
    println!("FAILED: {}: {what}", case.name());
    println!("{}", case.describe());
    let (ending, file) = case.file();
    let name = format!("{DIFFERENCE}.{ending}");
    let path = std::env::current_exe().unwrap_or_default().with_file_name(name);
    match std::fs::write(&path, file) {
        Ok(()) => println!("it is left in {}", path.display()),
        Err(error) => println!("{} can't be written: {error}", path.display()),
    }
    std::process::exit(1);
}

/// Ends the program if something that is to be tested never came up.
pub fn require(what: &str, count: u64) {
    if count == 0 {
        println!("FAILED: no {what}");
        std::process::exit(1);
    }
}

/// A row of numbers, one for each answer.
pub fn row<'a>(counts: impl IntoIterator<Item = &'a u64>) -> String {
    counts.into_iter().map(|count| format!("{count:>8}")).collect()
}
