//! Tests of the proved call over a list of screens: lists through the archive; answers, tables and lent words against
//! those expected, and against those of an own call for each screen.
//!
//!     batch_tests FOLDER          every test; FOLDER has the stored lists, the corpus and its answers
//!     batch_tests --only FILE     the lists of a file alone
//!     batch_tests --write FILE    writes the lists that were made by hand, for another judge

use host::answers::{is_unrun, sum, words, Expected, CORPUS};
use host::hostile::{processor_time, MOST_TIME};
use host::image::{Case, Input};
use host::lent::{Memory, Side, Words};
use host::lists::{List, ListCase};
use host::own_calls::{self, After};
use host::random::Random;
use host::report::{fail, if_short, require, row};
use host::stack::{on_stack, DEFAULT_STACK, STACK, WHOLE_STACK};
use host::together::{self, Together};
use host::{answers, corpus, deep, hostile, list_edges, lists, report};
use infer_types::{
    infer_batch_into, infer_types, Refusal, Runner, Screen, ANSWER_ROW, LIMIT, LIST_ROW, MOST_IMAGES,
};
use std::io::Write;
use std::time::{Duration, Instant};

const MOST_LIST: usize = LIST_ROW * 66_000;
const MOST_IMAGE_WORDS: usize = 5 << 20;
const MOST_NAMES: usize = 256 * (LIMIT + 2);
const MOST_WORK: usize = 8 * 2 * LIMIT + 1_000_000;
const MOST_TABLES: usize = 4_000_000;
const MOST_ANSWERS: usize = ANSWER_ROW * 66_000;
/// What work words, table words and answer words hold before a call.
const HELD: [u32; 3] = [0xA5A5_A5A5, 0x5A5A_5A5A, 0xC3C3_C3C3];
/// So many hostile images are in a list, and so many screens in one through the binding.
const HOSTILE: usize = 3;
const SAFE: usize = 1_000;

/// How often calls and rows ended with each number.
#[derive(Clone, Default)]
struct Counts {
    calls: [u64; 3],
    rows: [u64; 16],
}

impl Counts {
    const CALLS: [u32; 3] = [0, Refusal::LIST, Refusal::RANGES];

    fn add(&mut self, case: &ListCase) {
        let number = Counts::CALLS.iter().position(|&number| number == case.left.number);
        self.calls[number.expect("a number of a call")] += 1;
        for Expected { answer, .. } in &case.left.rows {
            self.rows[15.min(answer.number) as usize] += 1;
        }
    }

    fn all(&self) -> impl Iterator<Item = &u64> {
        self.calls.iter().chain(&self.rows)
    }

    /// What is counted, in the order of the counts.
    fn names() -> Vec<String> {
        let calls = Counts::CALLS.iter().map(|number| format!("list {number}"));
        calls.chain((0..15).map(|number| number.to_string())).chain(["not run".into()]).collect()
    }

    /// Fails if a number never came up.
    fn require_all(&self, part: &str) {
        for (name, &count) in Counts::names().iter().zip(self.all()) {
            require(&format!("{name} among the {part}"), count);
        }
    }
}

struct Tests {
    list: Memory,
    images: Memory,
    names: Memory,
    work: Words,
    tables: Words,
    answers: Words,
    counts: Counts,
    total: Counts,
}

impl Tests {
    fn new() -> Tests {
        Tests {
            list: Memory::new(4 * MOST_LIST),
            images: Memory::new(4 * MOST_IMAGE_WORDS),
            names: Memory::new(MOST_NAMES),
            work: Words::new(MOST_WORK),
            tables: Words::new(MOST_TABLES),
            answers: Words::new(MOST_ANSWERS),
            counts: Counts::default(),
            total: Counts::default(),
        }
    }

    /// One call; all that it leaves has to be as expected. Gives the time that it took.
    fn run(&mut self, case: &ListCase) -> Duration {
        let List { words, images, names, work, tables, answers } = &case.list;
        let words = self.list.lend_slice(words, Side::End, 0xFF);
        let images = self.images.lend_slice(images, Side::End, 0xFF);
        let names = self.names.lend_slice(names, Side::End, 0xFF);
        let (before_work, work) = self.work.hold(*work, HELD[0]);
        let (before_tables, tables) = self.tables.hold(*tables, HELD[1]);
        let (before_answers, answers) = self.answers.hold(*answers, HELD[2]);
        report::start(case);
        let start = processor_time();
        let number = infer_batch_into(words, images, names, work, tables, answers);
        let time = processor_time() - start;
        if number != case.left.number {
            fail(&format!("number {number}, not {}", case.left.number), case);
        }
        compare_rows(case, tables, answers);
        compare_work(case, work);
        for (words, held) in [before_work, before_tables, before_answers].into_iter().zip(HELD) {
            if words.iter().any(|&word| word != held) {
                fail("words before the lent ones", case);
            }
        }
        compare_own_calls(case, number, work, tables, answers);
        self.counts.add(case);
        time
    }

    /// Prints how often each number came up in a part, and gives it.
    fn part(&mut self, name: &str) -> Counts {
        println!("{name:<10}{}", row(self.counts.all()));
        let counts = std::mem::take(&mut self.counts);
        let total = self.total.calls.iter_mut().chain(&mut self.total.rows);
        total.zip(counts.all()).for_each(|(total, count)| *total += count);
        counts
    }
}

/// Each row's answer and tables, and the words past those that are written.
fn compare_rows(case: &ListCase, tables: &[u32], answers: &[u32]) {
    let (mut tables, rows) = (tables, &case.left.rows);
    for (at, (found, expected)) in answers.chunks(ANSWER_ROW).zip(rows).enumerate() {
        let right = words(&expected.answer);
        if found != right {
            fail(&format!("row {at} is {found:?}, not {right:?}"), case);
        }
        let (own, later) = tables.split_at(expected.written());
        if sum(own) != expected.sum {
            fail(&format!("row {at} has other tables{}", if_short("tables", own)), case);
        }
        tables = later;
    }
    if tables.iter().any(|&word| word != HELD[1]) {
        fail("table words past the tables", case);
    }
    if answers[ANSWER_ROW * rows.len()..].iter().any(|&word| word != HELD[2]) {
        fail("answer words past the rows", case);
    }
}

/// All zero if the check of a screen has passed, else untouched.
fn compare_work(case: &ListCase, work: &[u32]) {
    let has_run = case.left.rows.iter().any(|row| !is_unrun(&row.answer));
    let left = if has_run { 0 } else { HELD[0] };
    if let Some(at) = work.iter().position(|&word| word != left) {
        fail(&format!("work word {at} of {} is {:#x}, not {left:#x}", work.len(), work[at]), case);
    }
}

/// The number and every lent word once more, by an own call for each screen.
fn compare_own_calls(case: &ListCase, number: u32, work: &[u32], tables: &[u32], answers: &[u32]) {
    let After { number: own_number, work: own_work, tables: own_tables, answers: own_answers } =
        own_calls::after(&case.list, HELD);
    let check = |holds: bool, what: &str| {
        if !holds {
            fail(&format!("by own calls: {what}"), case);
        }
    };
    check(number == own_number, "another number");
    check(answers == own_answers, "other answers");
    check(tables == own_tables, "other tables");
    check(work.iter().all(|&word| word == own_work), "other work words");
}

/// What there has to be among the stored lists.
fn require_sorts(cases: &[ListCase]) {
    let ended = |case: &ListCase| {
        let at = case.left.rows.iter().position(|row| row.answer.number == Refusal::TABLE_WORDS);
        at.filter(|_| case.left.rows.len() > 2)
    };
    let is_refused = |rows: &[Expected]| !rows.is_empty() && rows.iter().all(|row| is_unrun(&row.answer));
    let sorts: [(&str, &dyn Fn(&ListCase) -> bool); 8] = [
        ("no row", &|case| case.list.count() == 0),
        ("one row", &|case| case.list.count() == 1),
        ("256 rows", &|case| case.list.count() == MOST_IMAGES),
        ("257 rows", &|case| case.list.count() == MOST_IMAGES + 1),
        ("14 first", &|case| ended(case) == Some(0)),
        ("14 between", &|case| ended(case).is_some_and(|at| at > 0 && at + 1 < case.list.count())),
        ("14 last", &|case| ended(case).is_some_and(|at| at + 1 == case.list.count())),
        ("every row refused by its check", &|case| is_refused(&case.left.rows)),
    ];
    let counts = sorts.map(|(what, is_one)| {
        let count = cases.iter().filter(|case| is_one(case)).count();
        require(&format!("stored list with {what}"), count as u64);
        format!("{what} {count}")
    });
    println!("  lists with {}", counts.join(", "));
}

fn run_stored(tests: &mut Tests, folder: &str) {
    let cases = lists::read("batch.lists", &answers::file(folder, "batch.lists"));
    cases.iter().for_each(|case| _ = tests.run(case));
    tests.part("stored").require_all("stored lists");
    require_sorts(&cases);
}

fn run_edges(tests: &mut Tests) {
    list_edges::edges().iter().for_each(|case| _ = tests.run(case));
    tests.part("edges").require_all("edges");
}

/// The screens of the corpus, but for those that were lent too few work words, which all screens of a list share.
fn stored_screens(folder: &str) -> Vec<(Case, Expected)> {
    let screens = CORPUS.iter().flat_map(|name| answers::of_corpus(folder, name));
    screens.filter(|one| one.1.answer.number != Refusal::WORK_WORDS).collect()
}

fn run_corpus(tests: &mut Tests, folder: &str) {
    together::lists(stored_screens(folder), |case| _ = tests.run(&case));
    tests.part("corpus");
}

/// Deep images in one list.
fn run_deep(tests: &mut Tests, folder: &str, stack: usize, wanted: fn(&Case) -> bool) {
    let screens: Vec<_> = answers::of_deep(folder).into_iter().filter(|one| wanted(&one.0)).collect();
    // Said before the call: a stack that is too small ends the program.
    print!("  {} deep images in a list, on {stack} bytes of stack:", screens.len());
    _ = std::io::stdout().flush();
    let start = Instant::now();
    let mut random = Random::new(1);
    let list = Together::new(&mut random, "deep".into(), &screens);
    list.cases(&mut random).iter().for_each(|case| _ = tests.run(case));
    println!(" {} ms", start.elapsed().as_millis());
    tests.part("deep");
}

/// A hostile image, with the answer of its own call; its number is known if its check refuses it.
fn answered(case: Case) -> (Case, Expected) {
    let Input { image, names, budget, .. } = &case.input;
    report::start(&case);
    let alone = Expected::of(infer_types(image, names, *budget).as_ref().map_err(|&refusal| refusal));
    let number = if is_unrun(&alone.answer) { alone.answer.number } else { 0 };
    if number != case.expected {
        fail(&format!("{alone:?}, expected {}", case.expected), &case);
    }
    (case, alone)
}

fn run_hostile(tests: &mut Tests) {
    let screens: Vec<_> = hostile::hostile().into_iter().map(answered).collect();
    let mut longest = Duration::ZERO;
    for (number, screens) in screens.chunks(HOSTILE).enumerate() {
        let list = Together::new(&mut Random::new(1), format!("hostile {number}"), screens);
        let case = list.just_enough();
        let time = tests.run(&case);
        if time > MOST_TIME * screens.len() as u32 {
            fail("over a second for each screen", &case);
        }
        longest = longest.max(time);
    }
    tests.part("hostile");
    println!("  {} ms for the longest list of {HOSTILE}", longest.as_millis());
}

fn run_all(folder: &str) {
    let mut tests = Tests::new();
    let names: String = Counts::names().iter().map(|name| format!("{name:>8}")).collect();
    println!("{:<10}{names}", "number");
    run_stored(&mut tests, folder);
    run_edges(&mut tests);
    run_corpus(&mut tests, folder);
    run_deep(&mut tests, folder, STACK, |case| !deep::is_deepest(case));
    run_hostile(&mut tests);
    println!("{:<10}{}", "all", row(tests.total.all()));
}

fn run_deepest(folder: &str) {
    run_deep(&mut Tests::new(), folder, WHOLE_STACK, |_| true);
}

/// Every stored screen through one Runner, in lists of any length; it lends work words and table words enough.
fn run_safe(folder: &str) {
    let screens: Vec<_> = stored_screens(folder).into_iter().chain(answers::of_deep(folder)).collect();
    let mut runner = Runner::new().table_words_at_most(MOST_TABLES);
    for screens in screens.chunks(SAFE) {
        let list: Vec<Screen> = screens.iter().map(|(case, _)| screen_of(&case.input)).collect();
        report::start(&screens[0].0);
        for ((case, expected), found) in screens.iter().zip(runner.infer_batch(&list)) {
            let found = Expected::of(found.as_ref().map_err(|refused| refused.refusal));
            if found != *expected {
                fail(&format!("{found:?} in a list through the binding, not {expected:?}"), case);
            }
        }
    }
    println!("{} screens through a Runner's lists, on {DEFAULT_STACK} bytes of stack", screens.len());
}

fn screen_of(input: &Input) -> Screen<'_> {
    Screen { image: &input.image, names: &input.names, budget: input.budget }
}

fn run_only(path: &str) {
    let mut tests = Tests::new();
    lists::read(path, &corpus::read_file(path)).iter().for_each(|case| _ = tests.run(case));
    tests.part("lists");
}

fn main() {
    let arguments: Vec<String> = std::env::args().skip(1).collect();
    report::watch();
    match arguments.iter().map(String::as_str).collect::<Vec<_>>()[..] {
        ["--write", path] => corpus::write_file(path, &list_edges::edges(), lists::write),
        ["--only", path] => on_stack(WHOLE_STACK, path, run_only),
        [folder] => {
            on_stack(STACK, folder, run_all);
            on_stack(WHOLE_STACK, folder, run_deepest);
            on_stack(DEFAULT_STACK, folder, run_safe);
            println!("batch_tests: all passed");
        }
        _ => panic!("batch_tests FOLDER, batch_tests --only FILE or batch_tests --write FILE"),
    }
}
