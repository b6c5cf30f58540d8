//! Tests of the proved call for a listing: calls through the archive; answers, tables, listings and lent words against
//! those expected.
//!
//!     listing_tests FOLDER          every test; FOLDER has the stored calls, the corpus and its answers
//!     listing_tests --only FILE     the calls of a file alone
//!     listing_tests --write FILE    writes the calls that were made by hand, for another judge

use host::answers::{is_done, is_unrun, sum, Expected, CORPUS};
use host::hostile::{processor_time, MOST_TIME};
use host::image::{Case, Input};
use host::lent::{Memory, Side, Words};
use host::listed::Run;
use host::listings::{Asked, ListingCase};
use host::random::Random;
use host::report::{fail, require, row};
use host::stack::{on_stack, STACK, WHOLE_STACK};
use host::{answers, corpus, deep, hostile, hostile_listings, listed, listing_edges, listings, report};
use infer_types::{infer_listing_into, infer_types_into, ListingAnswer, Refusal, Slot, LIMIT};
use std::io::Write;
use std::ptr;
use std::sync::Arc;
use std::time::Duration;

const MOST_WORK: usize = 8 * 2 * LIMIT + 1_000_000;
const MOST_TABLES: usize = 1_000_000;
const MOST_LISTING: usize = 1_000_000;
/// Words lent beyond those that are asked for.
const MORE: usize = 1_000;
/// So often a call for a long listing is timed.
const TIMES: usize = 7;
/// Calls that take less say nothing of how much longer a listing takes.
const LEAST_TIME: Duration = Duration::from_micros(500);
/// A long listing takes at most so many times as long as its run.
const MOST_TIMES: f64 = 4.0;
/// The numbers that a call may end with.
const NUMBERS: [u32; 17] =
    [0, 1, 2, 3, 4, 5, 6, 7, 8, 9, 10, 11, 12, 13, 14, Refusal::SLOT, Refusal::LISTING_WORDS];

/// What work words, table words and listing words hold before a call: the first of each, and by how much each is more
/// than the one before it. Small work words might be taken for what a listing leaves there.
type Held = [(u32, u32); 3];
const HELD: [Held; 4] = [
    [(0xA5A5_A5A5, 0), (0x5A5A_5A5A, 0), (0xC3C3_C3C3, 0)],
    [(0, 0), (u32::MAX, 0), (0, 0)],
    [(1, 0), (0, 3), (u32::MAX, 0)],
    [(0, 1), (0, 0), (1, 0)],
];

fn held_at((first, by): (u32, u32), at: usize) -> u32 {
    first.wrapping_add(by.wrapping_mul(at as u32))
}

/// The words before those that are lent, and the lent ones.
fn hold(words: &mut Words, count: usize, held: (u32, u32)) -> (&mut [u32], &mut [u32]) {
    let (before, lent) = words.hold(count, held.0);
    if held.1 != 0 {
        lent.iter_mut().enumerate().for_each(|(at, word)| *word = held_at(held, at));
    }
    (before, lent)
}

/// From this word on all hold what they held.
fn is_kept(words: &[u32], from: usize, held: (u32, u32)) -> bool {
    words.iter().enumerate().skip(from).all(|(at, &word)| word == held_at(held, at))
}

/// Words that are lent and written to.
struct Lent<'a> {
    work: &'a mut [u32],
    tables: &'a mut [u32],
    listing: &'a mut [u32],
}

fn call(image: &[u32], names: &[u8], budget: u32, slot: u32, lent: &mut Lent) -> ListingAnswer {
    let Lent { work, tables, listing } = lent;
    infer_listing_into(image, names, budget, work, tables, Slot::from_number(slot), listing)
}

struct Tests {
    image: Memory,
    names: Memory,
    work: Words,
    tables: Words,
    listing: Words,
    calls: usize,
    counts: [u64; NUMBERS.len()],
    total: [u64; NUMBERS.len()],
}

impl Tests {
    fn new() -> Tests {
        Tests {
            image: Memory::new(4 * (LIMIT + 1)),
            names: Memory::new(LIMIT + 1),
            work: Words::new(MOST_WORK),
            tables: Words::new(MOST_TABLES),
            listing: Words::new(MOST_LISTING),
            calls: 0,
            counts: [0; NUMBERS.len()],
            total: [0; NUMBERS.len()],
        }
    }

    /// One call; all that it leaves has to be as expected.
    fn run(&mut self, case: &ListingCase, held: Held) {
        let (Input { image, names, budget, work }, asked) = (&*case.input, case.asked);
        let side = [Side::End, Side::Start][self.calls % 2];
        self.calls += 1;
        let image = self.image.lend_slice(image, side, 0xFF);
        let names = self.names.lend_slice(names, side, 0xFF);
        let (before_work, work) = hold(&mut self.work, *work, held[0]);
        let (before_tables, tables) = hold(&mut self.tables, asked.tables, held[1]);
        let (before_listing, listing) = hold(&mut self.listing, asked.listing, held[2]);
        report::start(case);
        let mut lent = Lent { work, tables, listing };
        let answer = call(image, names, *budget, asked.slot, &mut lent);
        if answer != case.left.answer() {
            fail(&format!("{answer:?}, not {:?}, if they hold {held:x?}", case.left.answer()), case);
        }
        compare_lent(case, &lent, held);
        for (words, held) in [before_work, before_tables, before_listing].into_iter().zip(held) {
            if words.iter().any(|&word| word != held.0) {
                fail("words before the lent ones", case);
            }
        }
        let number = NUMBERS.iter().position(|&number| number == answer.answer.number);
        self.counts[number.expect("a number of a call")] += 1;
        report::end();
    }

    /// The call, whatever its words hold.
    fn run_all(&mut self, case: &ListingCase) {
        HELD.into_iter().for_each(|held| self.run(case, held));
    }

    /// The same; and what is stored has to be what an own call leaves.
    fn run_stored(&mut self, case: &ListingCase) {
        self.run_all(case);
        let own = Run::of(&case.input).left(case.asked);
        if own != case.left {
            fail(&format!("{own:?} by an own call, not {:?}", case.left), case);
        }
    }

    /// One call over a run, whose words hold this or that.
    fn ask(&mut self, name: &str, input: &Arc<Input>, run: &Run, asked: Asked) {
        let name = format!("{name}, {asked:?}");
        let case = ListingCase { name, input: input.clone(), asked, left: run.left(asked) };
        self.run(&case, HELD[self.calls % HELD.len()]);
    }

    /// Calls for a slot of a run: just enough words; one too few; more of both; and no step over.
    fn ask_all(&mut self, name: &str, input: &Arc<Input>, run: &Run, slot: u32) {
        let (tables, words) = (run.answer.table_words as usize, run.listing(slot).len());
        let more = (tables + MORE, words + MORE);
        for (tables, listing) in [(tables, words), (tables, words - 1), (tables - 1, words), more] {
            self.ask(name, input, run, Asked { slot, tables, listing });
        }
        let least = Arc::new(with_least_steps(input, run));
        for listing in [words, words - 1] {
            self.ask(name, &least, run, Asked { slot, tables, listing });
        }
    }

    /// An input whose run has this answer: calls for some of its slots, and for one that isn't there.
    fn run_case(&mut self, case: &Case, expected: Expected) {
        let Case { name, input, .. } = case;
        let input = Arc::new(Input { work: input.work.min(MOST_WORK), ..input.clone() });
        report::start(case);
        let run = Run::of(&input);
        if expected.answer != run.answer {
            fail(&format!("{:?} by an own call, not {expected:?}", run.answer), case);
        }
        let tables = run.answer.table_words as usize;
        if is_done(&run.answer) {
            let slots = some_slots(&run);
            self.ask_all(name, &input, &run, slots[0]);
            for &slot in &slots[1..] {
                let listing = run.listing(slot).len();
                self.ask(name, &input, &run, Asked { slot, tables, listing });
            }
        }
        self.ask(name, &input, &run, Asked { slot: run.answer.slots, tables, listing: MORE });
    }

    /// Prints how often each number came up in a part, and gives it.
    fn part(&mut self, name: &str) -> [u64; NUMBERS.len()] {
        println!("{name:<10}{}", row(&self.counts));
        self.total.iter_mut().zip(&self.counts).for_each(|(total, count)| *total += count);
        std::mem::take(&mut self.counts)
    }
}

/// Tables and listing, the words past them, and the work words.
fn compare_lent(case: &ListingCase, lent: &Lent, held: Held) {
    let Lent { work, tables, listing } = lent;
    let (left, written) = (&case.left, case.left.run.written());
    let check = |holds: bool, what: &str| {
        if !holds {
            fail(&format!("{what}, if they hold {held:x?}"), case);
        }
    };
    check(sum(&tables[..written]) == left.run.sum, "other tables");
    check(is_kept(tables, written, held[1]), "table words past the tables");
    check(sum(&listing[..left.written()]) == left.listing, "another listing");
    check(is_kept(listing, left.written(), held[2]), "listing words past the listing");
    let holds = match is_unrun(&left.run.answer) {
        true => is_kept(work, 0, held[0]),
        false => work.iter().all(|&word| word == 0),
    };
    check(holds, "work words left");
}

/// The slot with the longest listing of a few, the first, the last, and some more.
fn some_slots(run: &Run) -> Vec<u32> {
    let (slots, bound) = (run.answer.slots, run.bound());
    let mut random = Random::new(slots as u64);
    let mut few: Vec<u32> =
        bound.iter().copied().take(4).chain(bound.iter().rev().copied().take(4)).collect();
    if !bound.is_empty() {
        few.extend((0..4).map(|_| random.pick(&bound)));
    }
    let longest = few.into_iter().max_by_key(|&slot| run.listing(slot).len());
    let mut all: Vec<u32> = longest.into_iter().collect();
    for slot in [slots - 1, random.below(slots), 0] {
        if !all.contains(&slot) {
            all.push(slot);
        }
    }
    all
}

/// The same with no step over, and no work word.
fn with_least_steps(input: &Input, run: &Run) -> Input {
    let mut input = Input { budget: run.answer.steps, ..input.clone() };
    input.lend_enough();
    input
}

fn require_numbers(part: &str, counts: &[u64; NUMBERS.len()]) {
    for (number, &count) in NUMBERS.iter().zip(counts) {
        require(&format!("call with number {number} among the {part}"), count);
    }
}

/// What there has to be among the stored calls that are done.
fn require_sorts(cases: &[ListingCase]) {
    let done: Vec<(&ListingCase, Vec<u32>)> = cases
        .iter()
        .filter(|case| is_done(&case.left.run.answer))
        .map(|case| (case, Run::of(&case.input).listing(case.asked.slot)))
        .collect();
    let rows = |listing: &[u32]| listed::row_slots(listing).len();
    type Sort<'a> = (&'a str, &'a dyn Fn(&ListingCase, &[u32]) -> bool);
    let sorts: [Sort; 6] = [
        ("one row", &|_, listing| rows(listing) == 1),
        ("over 4 rows", &|_, listing| rows(listing) > 4),
        ("over 15 rows", &|_, listing| rows(listing) > 15),
        ("an unbound slot", &|_, listing| listing.len() == 2 && listing[1] == u32::MAX),
        ("a made slot", &|case, _| case.asked.slot >= case.input.count(host::image::Table::Slots)),
        ("no step over", &|case, _| case.left.run.answer.steps == case.input.budget),
    ];
    let counts = sorts.map(|(what, is_one)| {
        let count = done.iter().filter(|(case, listing)| is_one(case, listing)).count();
        require(&format!("stored listing with {what}"), count as u64);
        format!("{what} {count}")
    });
    println!("  listings with {}", counts.join(", "));
}

fn run_stored(tests: &mut Tests, folder: &str) {
    let cases = listings::read("listing.calls", &answers::file(folder, "listing.calls"));
    cases.iter().for_each(|case| tests.run_stored(case));
    require_numbers("stored calls", &tests.part("stored"));
    require_sorts(&cases);
}

fn run_edges(tests: &mut Tests) {
    listing_edges::edges().iter().for_each(|case| tests.run_all(case));
    require_numbers("calls made by hand", &tests.part("by hand"));
    run_nothing_lent();
}

extern "C" {
    /// Each pointer with the count of what it points to; the binding's function has no null ones.
    fn infer_listing(
        image: *const u32,
        image_words: usize,
        names: *const u8,
        name_bytes: usize,
        budget: u32,
        work: *mut u32,
        work_words: usize,
        tables: *mut u32,
        table_words: usize,
        slot: u32,
        listing: *mut u32,
        listing_words: usize,
    ) -> ListingAnswer;
}

/// Null where nothing is lent.
fn run_nothing_lent() {
    let case = &listing_edges::edges()[0];
    let Input { image, budget, .. } = &*case.input;
    let mut work = vec![7; case.input.work];
    let (null, words) = (ptr::null_mut(), image.len());
    for (words, lent, number) in [(0, 0, 1), (words, 0, 4), (words, work.len(), 14)] {
        let at = if words == 0 { ptr::null() } else { image.as_ptr() };
        let work_at = if lent == 0 { null } else { work.as_mut_ptr() };
        report::start(case);
        // SAFETY: each pointer comes with the count of what is lent there, null with 0.
        let left =
            unsafe { infer_listing(at, words, null as _, 0, *budget, work_at, lent, null, 0, 0, null, 0) };
        if left.answer.number != number || left.listing_words != 0 {
            fail(&format!("{left:?}, not {number}, where nothing is lent"), case);
        }
        report::end();
    }
}

fn run_corpus(tests: &mut Tests, folder: &str) {
    for name in CORPUS {
        for (case, expected) in answers::of_corpus(folder, name) {
            tests.run_case(&case, expected);
        }
        tests.part(name);
    }
}

fn run_deep(tests: &mut Tests, folder: &str, wanted: fn(&Case) -> bool) {
    for (case, expected) in answers::of_deep(folder).into_iter().filter(|one| wanted(&one.0)) {
        // Said before the call: a stack that is too small ends the program.
        print!("  {}:", case.name);
        _ = std::io::stdout().flush();
        tests.run_case(&case, expected);
        println!(" {}", expected.answer.number);
    }
    tests.part("deep");
}

/// How long a call for a listing takes, and how long `infer_types` on the same words: each the middle of some times.
fn times(tests: &mut Tests, case: &ListingCase, count: usize) -> (Duration, Duration) {
    let (Input { image, names, budget, work }, asked) = (&*case.input, case.asked);
    let work = tests.work.hold(*work, 0).1;
    let tables = tests.tables.hold(asked.tables, 0).1;
    let listing = tests.listing.hold(asked.listing, 0).1;
    let mut taken = [const { vec![] }; 2];
    report::start(case);
    for _ in 0..count {
        let start = processor_time();
        infer_types_into(image, names, *budget, work, tables);
        let between = processor_time();
        call(image, names, *budget, asked.slot, &mut Lent { work, tables, listing });
        taken[0].push(between - start);
        taken[1].push(processor_time() - between);
    }
    let [alone, listed] = taken.map(|mut taken| {
        taken.sort();
        taken[count / 2]
    });
    (listed, alone)
}

/// A hostile image and the slot that is listed: the calls, their time, and how many times that of a run it is.
fn run_one_hostile(tests: &mut Tests, case: &Case, slot: u32, timed: usize) -> (Duration, f64) {
    report::start(case);
    let run = Run::of(&case.input);
    let is_listed = is_done(&run.answer);
    let words = if is_listed { run.listing(slot).len() } else { 0 };
    let asked = Asked { slot, tables: run.answer.table_words as usize, listing: words };
    let (input, left) = (Arc::new(case.input.clone()), run.left(asked));
    match is_listed {
        true => tests.ask_all(&case.name, &input, &run, slot),
        false => tests.ask(&case.name, &input, &run, asked),
    }
    let one = ListingCase { name: case.name.clone(), input, asked, left };
    let (time, alone) = times(tests, &one, timed);
    let ratio = if alone < LEAST_TIME { 0.0 } else { time.as_secs_f64() / alone.as_secs_f64() };
    // what was timed once may take longer by chance
    if time > MOST_TIME || timed > 1 && ratio > MOST_TIMES {
        fail(&format!("{time:?}, {ratio:.2} times that of infer_types"), &one);
    }
    report::end();
    (time, ratio)
}

/// Gives the longest time, and the most times that a listing took as long as its run.
fn run_hostile(tests: &mut Tests, cases: &[(Case, u32)], timed: usize) -> (Duration, f64) {
    let (mut longest, mut most) = (Duration::ZERO, 0.0);
    for (case, slot) in cases {
        let (time, ratio) = run_one_hostile(tests, case, *slot, timed);
        longest = longest.max(time);
        most = f64::max(most, ratio);
    }
    (longest, most)
}

fn run_long(tests: &mut Tests) {
    let (longest, most) = run_hostile(tests, &long_listings(), TIMES);
    tests.part("long");
    println!("  {longest:?} for the longest, {most:.2} times that of infer_types at most");
}

/// Images that are hard to check, timed once: a listing adds little there.
fn run_hard(tests: &mut Tests) {
    let cases: Vec<(Case, u32)> = hostile::hostile().into_iter().map(|case| (case, 0)).collect();
    let (longest, _) = run_hostile(tests, &cases, 1);
    tests.part("hostile");
    println!("  {longest:?} for the longest");
}

/// Images with long listings, which have to be done.
fn long_listings() -> Vec<(Case, u32)> {
    let cases = hostile_listings::hostile();
    for (case, slot) in &cases {
        report::start(case);
        let run = Run::of(&case.input);
        if !is_done(&run.answer) {
            fail(&format!("{:?}", run.answer), case);
        }
        let listing = run.listing(*slot);
        let rows = listed::row_slots(&listing).len();
        println!("  {}: {rows} rows, {} words, {} steps", case.name, listing.len(), run.answer.steps);
    }
    report::end();
    cases
}

fn run_all(folder: &str) {
    let mut tests = Tests::new();
    println!("{:<10}{}", "number", row(&NUMBERS.map(u64::from)));
    run_stored(&mut tests, folder);
    run_edges(&mut tests);
    run_corpus(&mut tests, folder);
    run_deep(&mut tests, folder, |case| !deep::is_deepest(case));
    run_long(&mut tests);
    run_hard(&mut tests);
    println!("{:<10}{}", "all", row(&tests.total));
}

fn run_deepest(folder: &str) {
    run_deep(&mut Tests::new(), folder, deep::is_deepest);
}

fn run_only(path: &str) {
    let mut tests = Tests::new();
    listings::read(path, &corpus::read_file(path)).iter().for_each(|case| tests.run_stored(case));
    tests.part("calls");
}

fn main() {
    let arguments: Vec<String> = std::env::args().skip(1).collect();
    report::watch();
    match arguments.iter().map(String::as_str).collect::<Vec<_>>()[..] {
        ["--write", path] => corpus::write_file(path, &listing_edges::edges(), listings::write),
        ["--only", path] => on_stack(WHOLE_STACK, path, run_only),
        [folder] => {
            on_stack(STACK, folder, run_all);
            on_stack(WHOLE_STACK, folder, run_deepest);
            println!("listing_tests: all passed");
        }
        _ => panic!("listing_tests FOLDER, listing_tests --only FILE or listing_tests --write FILE"),
    }
}
