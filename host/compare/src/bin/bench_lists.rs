//! Times of lists: forty screens in one call, beside a call for each of them.
//!
//!     bench_lists [FIRST]     from the input of this number on
//!
//! The inputs and sizes of `bench`, each with the budget rounded up from the steps that its run takes. Before the clock
//! starts, the images of a list are put together and the words are lent: to a single call the work words that it asks
//! for, to a list the most that one of its screens asks for, and once 16 times as many. Last come a Runner's times, with
//! the whole budget as the limit of each screen, images put together, tables read and all. Each list is timed in every
//! way, some times in turn; times and ratios are medians over all of these.

use compare::times::{first_input, median, microseconds, timed, Timed, SIZES, WHOLE_BUDGET};
use infer_types::{infer_batch_into, infer_types_into, work_words, Runner, Screen, ANSWER_ROW};
use std::hint::black_box;
use std::time::{Duration, Instant};

const SCREENS: usize = 40;
const LISTS: usize = 8;
const TURNS: usize = 15;
/// How many times the work words are lent once.
const MORE_WORK: usize = 16;

/// Screens, put together, and what is lent for them.
struct List<'a> {
    screens: &'a [Timed],
    rows: Vec<u32>,
    images: Vec<u32>,
    names: Vec<u8>,
    work_words: usize,
    work: Vec<u32>,
    tables: Vec<u32>,
    answers: Vec<u32>,
}

fn work_words_of(screen: &Timed) -> usize {
    work_words(screen.input.image.len(), screen.fitting_budget())
}

impl List<'_> {
    fn new(screens: &[Timed]) -> List<'_> {
        let (mut rows, mut images, mut names) = (vec![], vec![], vec![]);
        for screen in screens {
            let (image, bytes) = (&screen.input.image, &screen.input.names);
            rows.extend([images.len(), image.len(), names.len(), bytes.len()].map(|word| word as u32));
            rows.push(screen.fitting_budget());
            images.extend(image);
            names.extend(bytes);
        }
        let work_words = screens.iter().map(work_words_of).max().expect("a screen");
        let tables = vec![0; screens.iter().map(|screen| screen.table_words).sum()];
        let (work, answers) = (vec![0; MORE_WORK * work_words], vec![0; ANSWER_ROW * screens.len()]);
        List { screens, rows, images, names, work_words, work, tables, answers }
    }

    /// A call for each screen.
    fn calls(&mut self) -> Duration {
        let start = Instant::now();
        let mut at = 0;
        for screen in self.screens {
            let (work, tables) = (&mut self.work[..work_words_of(screen)], &mut self.tables[at..]);
            let image = black_box(&screen.input.image);
            let answer = infer_types_into(image, &screen.input.names, screen.fitting_budget(), work, tables);
            assert_eq!(answer.number, 0);
            at += screen.table_words;
        }
        start.elapsed()
    }

    /// One call, with so many times the work words that it asks for.
    fn one_call(&mut self, more_work: usize) -> Duration {
        let List { rows, images, names, work_words, work, tables, answers, .. } = self;
        let work = &mut work[..more_work * *work_words];
        let start = Instant::now();
        infer_batch_into(black_box(rows), images, names, work, tables, answers);
        let time = start.elapsed();
        assert!(answers.chunks_exact(ANSWER_ROW).all(|row| row[0] == 0));
        time
    }

    /// A run of a Runner for each screen; its tables are kept, as those of a list are.
    fn runs(&self, runner: &mut Runner) -> Duration {
        let start = Instant::now();
        for Timed { input, .. } in self.screens {
            let tables = runner.infer_types(black_box(&input.image), &input.names, WHOLE_BUDGET);
            black_box(tables.expect("tables").clone());
        }
        start.elapsed()
    }

    /// A Runner's list.
    fn one_run(&self, runner: &mut Runner) -> Duration {
        let inputs = self.screens.iter().map(|screen| &screen.input);
        let start = Instant::now();
        let screens: Vec<Screen> = inputs
            .map(|input| Screen { image: &input.image, names: &input.names, budget: WHOLE_BUDGET })
            .collect();
        let results = black_box(runner.infer_batch(black_box(&screens)));
        let time = start.elapsed();
        assert!(results.iter().all(Result::is_ok));
        time
    }

    /// All of them, once.
    fn turn(&mut self, runner: &mut Runner) -> [f64; 5] {
        let library = [self.calls(), self.one_call(1), self.one_call(MORE_WORK)];
        let [calls, one_call, more_work] = library.map(microseconds);
        let [runs, one_run] = [self.runs(runner), self.one_run(runner)].map(microseconds);
        [calls, one_call, more_work, runs, one_run]
    }
}

fn main() {
    let first = first_input();
    println!(
        "words            lists   40 calls, us   one   ratio   16 x work   ratio   Runner: 40 runs, us   one   ratio"
    );
    for (size, sizes) in SIZES {
        let screens = timed(first, &sizes, LISTS * SCREENS);
        let mut runner = Runner::new();
        let lists = screens.chunks(SCREENS).map(List::new);
        let turns: Vec<[f64; 5]> =
            lists.flat_map(|mut list| [(); TURNS].map(|()| list.turn(&mut runner))).collect();
        let time = |way: usize| median(turns.iter().map(|turn| turn[way]).collect());
        let ratio = |way: usize, to: usize| median(turns.iter().map(|turn| turn[way] / turn[to]).collect());
        println!(
            "{size:<16}{LISTS:>6}{:>15.0}{:>6.0}{:>8.2}{:>12.0}{:>8.2}{:>22.0}{:>6.0}{:>8.2}",
            time(0),
            time(1),
            ratio(1, 0),
            time(2),
            ratio(2, 0),
            time(3),
            time(4),
            ratio(4, 3)
        );
    }
}
