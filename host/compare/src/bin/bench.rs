//! Times of the library and of the Rust, one beside the other.
//!
//!     bench [FIRST]       from the input of this number on
//!
//! Inputs whose tables are compared, so many of each size. Before the clock starts, the library's words are lent and the
//! Rust's input is built; what is timed is one call of each. The time of an image is the least of some calls, that of a
//! size the median of its images. The budget decides how many work words the library clears, so its times stand three
//! times: with the budget rounded up from the steps that the run takes, with the whole one, and with the whole one as
//! the limit of a Runner, tables read and all.

use compare::times::{first_input, median, microseconds, timed, SIZES, WHOLE_BUDGET};
use infer_image::parts::Input;
use infer_types::{infer_types_into, work_words, Runner};
use original::run::{Arena, Prepared};
use std::hint::black_box;
use std::time::{Duration, Instant};

const EACH: usize = 340;
const CALLS: usize = 7;

/// The least time of some calls, in microseconds.
fn least(mut call: impl FnMut() -> Duration) -> f64 {
    microseconds((0..CALLS).map(|_| call()).min().expect("a call"))
}

fn library(input: &Input, budget: u32, table_words: usize) -> f64 {
    let mut work = vec![0; work_words(input.image.len(), budget)];
    let mut tables = vec![0; table_words];
    least(|| {
        let start = Instant::now();
        let answer = infer_types_into(black_box(&input.image), &input.names, budget, &mut work, &mut tables);
        let time = start.elapsed();
        assert_eq!(answer.number, 0);
        time
    })
}

fn runner(input: &Input, runner: &mut Runner) -> f64 {
    least(|| {
        let start = Instant::now();
        let tables = runner.infer_types(black_box(&input.image), &input.names, WHOLE_BUDGET);
        let time = start.elapsed();
        assert!(tables.is_ok());
        time
    })
}

fn rust(input: &Input) -> f64 {
    least(|| {
        let arena = Arena::default();
        let mut prepared = Prepared::new(&input.image, &input.names, &arena).expect("names that are text");
        let start = Instant::now();
        prepared.run();
        start.elapsed()
    })
}

fn main() {
    let first = first_input();
    println!(
        "words            images   Rust, us   library, us   ratio   whole budget   ratio   Runner   ratio"
    );
    for (size, sizes) in SIZES {
        let found = timed(first, &sizes, EACH);
        let rust = median(found.iter().map(|one| rust(&one.input)).collect());
        let [fitting, whole] = [false, true].map(|whole| {
            let times = found.iter().map(|one| {
                let budget = if whole { WHOLE_BUDGET } else { one.fitting_budget() };
                library(&one.input, budget, one.table_words)
            });
            median(times.collect())
        });
        let mut kept = Runner::new();
        let kept = median(found.iter().map(|one| runner(&one.input, &mut kept)).collect());
        println!(
            "{size:<16}{:>7}{rust:>11.1}{fitting:>14.1}{:>8.2}{whole:>15.1}{:>8.2}{kept:>9.1}{:>8.2}",
            found.len(),
            fitting / rust,
            whole / rust,
            kept / rust
        );
    }
}
