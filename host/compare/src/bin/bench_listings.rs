//! Times of listings: a call of `infer_listing` beside one of `infer_types` on the same image.
//!
//!     bench_listings [FIRST]      from the input of this number on
//!
//! The inputs and sizes of `bench`, screens of nearly 65,536 words, and images of that length that are one chain of
//! variables or one deep type; each with the budget rounded up from the steps that its run takes. Before the clock
//! starts, the words are lent. Two slots of each image are asked for: the middle one, and of some that are spread over
//! all slots the one with the longest listing. The calls are timed in turn, and so are those of a Runner with the whole
//! budget as its limit, tables read and all. Times and ratios are medians over all images and turns.

use compare::linked::Linked;
use compare::times::{ended, first_input, largest, median, microseconds, timed, Timed, SIZES, WHOLE_BUDGET};
use host::deep;
use infer_types::{infer_listing_into, infer_types_into, work_words, Runner, Slot};
use std::hint::black_box;
use std::time::{Duration, Instant};

const EACH: usize = 100;
const LARGEST: usize = 20;
const TURNS: usize = 15;
/// Slots of an image that are tried for the longest listing.
const TRIED: u32 = 64;

/// An image, and what is lent for it.
struct Asked<'a> {
    image: &'a Timed,
    middle: Slot,
    longest: Slot,
    listing_words: usize,
    work: Vec<u32>,
    tables: Vec<u32>,
    listing: Vec<u32>,
}

impl Asked<'_> {
    fn new<'a>(image: &'a Timed, runner: &mut Runner) -> Asked<'a> {
        let mut words_of = |slot| {
            let listed = runner.infer_listing(&image.input.image, &image.input.names, WHOLE_BUDGET, slot);
            let (tables, listing) = listed.expect("a listing");
            (listing.words().len(), tables.slot_count() as u32)
        };
        let (_, slots) = words_of(Slot::from_number(0));
        let tried = (0..TRIED).map(|one| Slot::from_number(one * (slots - 1) / (TRIED - 1)));
        let (listing_words, longest) = tried.map(|slot| (words_of(slot).0, slot)).max().expect("a slot");
        let middle = Slot::from_number(slots / 2);
        let work = vec![0; work_words(image.input.image.len(), image.fitting_budget())];
        // the middle slot may be none of those that were tried
        let listing = vec![0; listing_words.max(words_of(middle).0)];
        Asked { image, middle, longest, listing_words, work, tables: vec![0; image.table_words], listing }
    }

    fn run(&mut self) -> Duration {
        let (input, budget) = (&self.image.input, self.image.fitting_budget());
        let start = Instant::now();
        let answer =
            infer_types_into(black_box(&input.image), &input.names, budget, &mut self.work, &mut self.tables);
        let time = start.elapsed();
        assert_eq!(answer.number, 0);
        time
    }

    fn list(&mut self, slot: Slot) -> Duration {
        let (input, budget) = (&self.image.input, self.image.fitting_budget());
        let start = Instant::now();
        let answer = infer_listing_into(
            black_box(&input.image),
            &input.names,
            budget,
            &mut self.work,
            &mut self.tables,
            slot,
            &mut self.listing,
        );
        let time = start.elapsed();
        assert_eq!(answer.answer.number, 0);
        time
    }

    /// A run of a Runner, and one with the longest listing.
    fn runs(&self, runner: &mut Runner) -> [Duration; 2] {
        let (image, names) = (black_box(&self.image.input.image), &self.image.input.names);
        let start = Instant::now();
        assert!(runner.infer_types(image, names, WHOLE_BUDGET).is_ok());
        let plain = start.elapsed();
        assert!(runner.infer_listing(image, names, WHOLE_BUDGET, self.longest).is_ok());
        [plain, start.elapsed() - plain]
    }

    /// All of them, once, after a run that brings the image near; every second time the other way round.
    fn turn(&mut self, number: usize, runner: &mut Runner) -> [f64; 5] {
        self.run();
        let [run, middle, longest] = match number % 2 {
            0 => [self.run(), self.list(self.middle), self.list(self.longest)],
            _ => {
                let [longest, middle] = [self.longest, self.middle].map(|slot| self.list(slot));
                [self.run(), middle, longest]
            }
        };
        let [plain, listed] = self.runs(runner);
        [run, middle, longest, plain, listed].map(microseconds)
    }
}

/// The times of some images, on one line.
fn print_times(size: &str, images: &[Timed]) {
    let mut runner = Runner::new();
    let mut asked: Vec<Asked> = images.iter().map(|image| Asked::new(image, &mut runner)).collect();
    let turns: Vec<[f64; 5]> = asked
        .iter_mut()
        .flat_map(|one| (0..TURNS).map(|number| one.turn(number, &mut runner)).collect::<Vec<_>>())
        .collect();
    let time = |way: usize| median(turns.iter().map(|turn| turn[way]).collect());
    let ratio = |way: usize, to: usize| median(turns.iter().map(|turn| turn[way] / turn[to]).collect());
    let words: Vec<usize> = asked.iter().map(|one| one.listing_words).collect();
    println!(
        "{size:<20}{:>6}{:>14.1}{:>9.2}{:>10.2}{:>11}{:>9}{:>12.1}{:>9.2}",
        images.len(),
        time(0),
        ratio(1, 0),
        ratio(2, 0),
        median(words.clone()),
        words.iter().max().expect("an image"),
        time(3),
        ratio(4, 3)
    );
}

fn main() {
    let first = first_input();
    println!(
        "words               images   one run, us   middle   longest   of words   at most   Runner, us   ratio"
    );
    for (size, sizes) in SIZES {
        print_times(size, &timed(first, &sizes, EACH));
    }
    print_times("over 60,000", &largest(first, LARGEST));
    // on a stack that the deepest of them fit
    let deepest = || {
        let mut asked = Linked::default();
        let images = deep::deep().into_iter().filter_map(|case| ended(case.input, &mut asked));
        print_times("deep, up to 65,536", &images.collect::<Vec<_>>());
    };
    let thread = std::thread::Builder::new().stack_size(16 << 20).spawn(deepest).expect("a thread");
    thread.join().expect("times");
}
