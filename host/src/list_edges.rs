//! Lists at the edges of each rule of a list, with the number of the call and of each row.

use crate::answers::{is_done, without_tables, Expected};
use crate::image::*;
use crate::known::{self, Screen};
use crate::lists::{Left, List, ListCase, Row};
use infer_types::{Answer, Refusal, ANSWER_ROW, LIMIT, LIST_ROW, MOST_IMAGES};

/// The number of a screen that is done, and of one that is not run.
const DONE: u32 = Answer::DONE;
const NOT_RUN: u32 = Refusal::NOT_RUN;

/// A list with the answer of each screen's own call.
#[derive(Clone, Default)]
struct Made {
    list: List,
    alone: Vec<Expected>,
}

impl Made {
    /// The screens one after another, and as many words as they take.
    fn of(screens: &[&Screen]) -> Made {
        let mut made = Made::default();
        for screen in screens {
            let row = made.list.place(&screen.input);
            made.push(row, screen);
        }
        made.with_enough()
    }

    /// One image, and so many rows for it.
    fn repeated(screen: &Screen, rows: usize) -> Made {
        let mut made = Made::default();
        let row = made.list.place(&screen.input);
        (0..rows).for_each(|_| made.push(row, screen));
        made.with_enough()
    }

    fn push(&mut self, row: Row, screen: &Screen) {
        self.list.push(row);
        self.alone.push(screen.alone);
    }

    fn with_enough(mut self) -> Made {
        self.list.lend_enough();
        self.list.tables = self.alone.iter().map(Expected::written).sum();
        self
    }

    fn with(&self, change: impl FnOnce(&mut List)) -> Made {
        let mut made = self.clone();
        change(&mut made.list);
        made
    }

    /// The words of a range: 0 and 1 are the row's image, 2 and 3 its names.
    fn with_range(&self, row: usize, at: usize, range: [u32; 2]) -> Made {
        self.with(|list| list.words[LIST_ROW * row + at..][..2].copy_from_slice(&range))
    }

    /// What a row has to have if it ends with this number.
    fn row(&self, at: usize, number: u32) -> Expected {
        let alone = self.alone[at];
        match number {
            _ if number == alone.answer.number => alone,
            Refusal::TABLE_WORDS if is_done(&alone.answer) => Expected::refused(without_tables(alone.answer)),
            NOT_RUN | 1..=10 => Expected::number(number),
            _ => panic!("row {at} can't be {number}"),
        }
    }
}

struct Cases(Vec<ListCase>);

impl Cases {
    fn refused(&mut self, name: impl Into<String>, number: u32, made: &Made) {
        let left = Left { number, rows: vec![] };
        self.0.push(ListCase { name: name.into(), list: made.list.clone(), left });
    }

    /// A list that is gone through, with these numbers in its rows.
    fn rows(&mut self, name: impl Into<String>, numbers: &[u32], made: &Made) {
        assert_eq!(numbers.len(), made.alone.len());
        let rows = numbers.iter().enumerate().map(|(at, &number)| made.row(at, number)).collect();
        let left = Left { number: 0, rows };
        self.0.push(ListCase { name: name.into(), list: made.list.clone(), left });
    }
}

pub fn edges() -> Vec<ListCase> {
    let mut cases = Cases(vec![]);
    lengths(&mut cases);
    both_refusals(&mut cases);
    ranges_outside(&mut cases);
    ranges_inside(&mut cases);
    nothing_lent(&mut cases);
    rows_over_rows(&mut cases);
    rows_refused(&mut cases);
    work(&mut cases);
    work_of_refused(&mut cases);
    tables(&mut cases);
    tables_of_most(&mut cases);
    image_lengths(&mut cases);
    name_lengths(&mut cases);
    budgets(&mut cases);
    cases.0
}

/// 15
fn lengths(cases: &mut Cases) {
    for rows in [0, 1, 3, 255, 256] {
        let made = Made::repeated(&known::short(), rows);
        let answers = made.list.answers;
        for more in [0, 1, 7, 9] {
            let name = format!("{rows} rows, {more} more answer words");
            cases.rows(name, &vec![DONE; rows], &made.with(|list| list.answers += more));
        }
        for over in 1..LIST_ROW {
            let longer = made.with(|list| list.words.extend(vec![0; over]));
            cases.refused(format!("{rows} rows and {over} words"), Refusal::LIST, &longer);
            let name = format!("{rows} rows and {over} words, answer words for one row more");
            cases.refused(name, Refusal::LIST, &longer.with(|list| list.answers += ANSWER_ROW));
        }
        for fewer in [1, 8, 9, answers].into_iter().filter(|fewer| (1..=answers).contains(fewer)) {
            let name = format!("{rows} rows, {fewer} answer words too few");
            cases.refused(name, Refusal::LIST, &made.with(|list| list.answers -= fewer));
        }
    }
    for rows in [257, 300, 512, 65_536, 65_536 + 256] {
        let made = Made::repeated(&known::short(), rows);
        cases.refused(format!("{rows} rows"), Refusal::LIST, &made);
        let name = format!("{rows} rows, answer words for 256");
        cases.refused(name, Refusal::LIST, &made.with(|list| list.answers = ANSWER_ROW * 256));
    }
}

/// 15 and 16 are both due.
fn both_refusals(cases: &mut Cases) {
    for at in [0, 2] {
        let [three, many] = [3, 257].map(|rows| Made::repeated(&known::short(), rows));
        let outside = three.with_range(2, at, [NONE, 0]);
        let many = many.with_range(2, at, [NONE, 0]);
        cases.refused("a range outside, and 257 rows", Refusal::LIST, &many);
        cases.refused(
            "a range outside, and a word over",
            Refusal::LIST,
            &outside.with(|list| list.words.push(0)),
        );
        let short = outside.with(|list| list.answers -= 1);
        cases.refused("a range outside, and an answer word too few", Refusal::LIST, &short);
    }
}

/// Three screens with words and bytes before, between and after them.
fn three_screens() -> Made {
    let mut made = Made::default();
    for screen in [known::short(), known::phi(), known::lookups()] {
        made.list.images.extend([NONE, 0, 1]);
        made.list.names.extend(b"use");
        let row = made.list.place(&screen.input);
        made.push(row, &screen);
    }
    made.list.images.extend([1; 30]);
    made.list.names.extend(b"*");
    made.with_enough()
}

/// Where the words of a range stand in a row, and how many words or bytes its list lends.
fn ranges(made: &Made) -> [(usize, u32); 2] {
    [(0, made.list.images.len() as u32), (2, made.list.names.len() as u32)]
}

/// 16, in each row and for images and names
fn ranges_outside(cases: &mut Cases) {
    let made = three_screens();
    for (at, total) in ranges(&made) {
        for row in 0..3 {
            let start = made.list.words[LIST_ROW * row + at];
            let to_end = total - start;
            for range in [
                [start, to_end + 1],
                [start + 1, to_end],
                [0, total + 1],
                [1, total],
                [total, 1],
                [total + 1, 0],
                [NONE, 0],
                [0, NONE],
                // the sum is inside if it wraps at 32 bits
                [NONE, 1],
                [1, NONE],
                [start, NONE],
                [NONE, NONE],
                [1 << 31, 1 << 31],
                [start, 0u32.wrapping_sub(start)],
                [0u32.wrapping_sub(20), 40],
            ] {
                let name = format!("row {row}: words {at} and {} are {range:?}", at + 1);
                cases.refused(name, Refusal::RANGES, &made.with_range(row, at, range));
            }
        }
        let most = Made::repeated(&known::short(), 256).with_range(255, at, [NONE, 0]);
        cases.refused(format!("the last of 256 rows: word {at}"), Refusal::RANGES, &most);
        let ended = made.with_range(2, at, [total + 1, 0]).with(|list| list.tables = 0);
        cases.refused(format!("a row that would not be run: word {at}"), Refusal::RANGES, &ended);
    }
}

/// Ranges that end with what is lent, or are empty there.
fn ranges_inside(cases: &mut Cases) {
    let made = three_screens().with(|list| list.work *= 2); // enough for a row over all words
    let [(image, words), (names, bytes)] = ranges(&made);
    let header = Refusal::HEADER; // by the length in the header, or by what stands there
    for (range, number) in [
        ([0, 0], Refusal::IMAGE_WORDS),
        ([words, 0], Refusal::IMAGE_WORDS),
        ([words - 1, 1], Refusal::IMAGE_WORDS),
        ([words - 19, 19], Refusal::IMAGE_WORDS),
        ([words - 20, 20], header),
        ([0, words], header),
        ([1, words - 1], header),
        ([3, words - 3], header),
    ] {
        cases.rows(format!("image {range:?}"), &[number, DONE, DONE], &made.with_range(0, image, range));
    }
    for range in [[0, 0], [bytes, 0], [bytes - 1, 1], [0, bytes], [1, bytes - 1]] {
        cases.rows(format!("names {range:?}"), &[DONE; 3], &made.with_range(0, names, range));
    }
    let (list, at) = (&made.list.words, 2 * LIST_ROW);
    for (what, word, by, number) in [
        ("image starts a word later", 0, 1, header),
        ("image starts a word earlier", 0, NONE, header),
        ("image is a word longer", 1, 1, header),
        ("image is a word shorter", 1, NONE, header),
        ("names are a byte shorter", 3, NONE, Refusal::REFERENCES),
        ("names are a byte longer", 3, 1, DONE),
    ] {
        let changed = list[at + word].wrapping_add(by);
        let made = made.with(|list| list.words[at + word] = changed);
        cases.rows(format!("the last {what}"), &[DONE, DONE, number], &made);
    }
}

fn nothing_lent(cases: &mut Cases) {
    let none = Made::default();
    cases.rows("nothing at all", &[], &none);
    let held = none.with(|list| (list.work, list.tables, list.answers) = (50, 50, 50));
    cases.rows("no rows, and words to write to", &[], &held);
    let mut one = Made::default();
    let row = one.list.place(&Input { image: vec![], names: vec![], budget: 0, work: 0 });
    one.push(row, &known::refused(Refusal::IMAGE_WORDS));
    let one = one.with_enough();
    cases.rows("a row, no image words and no names", &[Refusal::IMAGE_WORDS], &one);
    for at in [0, 2] {
        for range in [[0, 1], [1, 0]] {
            let made = one.with_range(0, at, range);
            cases.refused(
                format!("the same, words {at} and {} are {range:?}", at + 1),
                Refusal::RANGES,
                &made,
            );
        }
    }
}

/// Rows that repeat, overlap, or stand in another order than the images.
fn rows_over_rows(cases: &mut Cases) {
    let screens = [known::short(), known::phi(), known::lookups()];
    for screen in &screens {
        cases.rows("the same row five times", &[DONE; 5], &Made::repeated(screen, 5));
    }
    let mut made = Made::default();
    let rows = screens.each_ref().map(|screen| made.list.place(&screen.input));
    for at in [2, 0, 1, 2, 2, 0] {
        made.push(rows[at], &screens[at]);
    }
    cases.rows("rows in another order than the images", &[DONE; 6], &made.with_enough());
    cases.rows("an image inside another, and its names", &[DONE; 3], &inside_another());
}

/// The second image stands among words of the first that are in none of its tables; the names of all have bytes in
/// common.
fn inside_another() -> Made {
    let (inner, mut outer) = (known::phi(), known::lookups());
    let (at, words) = (outer.input.image.len() + 1, inner.input.image.len());
    outer.input.extend_to(at + words + 1);
    outer.input.image[at..][..words].copy_from_slice(&inner.input.image);
    let mut made = Made::default();
    made.list.names.extend(b"*");
    let row = made.list.place(&outer.input);
    made.list.names.extend(b"*");
    let [start, bytes] = row.names;
    made.push(row, &outer);
    made.push(Row { image: [at as u32, words as u32], names: [start - 1, 2], ..row }, &inner);
    made.push(Row { names: [start, bytes + 1], ..row }, &outer);
    made.with_enough()
}

/// Each number that a screen may be refused with, whatever it is lent.
fn rows_refused(cases: &mut Cases) {
    let phi = known::phi();
    let numbers: Vec<u32> = (1..=13).filter(|&number| number != Refusal::WORK_WORDS).collect();
    let refused: Vec<Screen> = numbers.iter().map(|&number| known::refused(number)).collect();
    for (&number, refused) in numbers.iter().zip(&refused) {
        let alone = Made::of(&[refused]);
        cases.rows(format!("{number} alone"), &[number], &alone);
        let more = alone.with(|list| list.work += 100);
        cases.rows(format!("{number} alone, and 100 work words more"), &[number], &more);
        cases.rows(format!("{number} first"), &[number, DONE], &Made::of(&[refused, &phi]));
        cases.rows(format!("{number} last"), &[DONE, number], &Made::of(&[&phi, refused]));
    }
    let all: Vec<&Screen> = refused.iter().collect();
    cases.rows("1 to 10, one after another", &numbers[..9], &Made::of(&all[..9]));
    cases.rows("1 to 13, one after another", &numbers, &Made::of(&all));
    let ended =
        Made::of(&[&all[..], &[&phi; 3]].concat()).with(|list| list.tables -= phi.alone.written() + 1);
    let numbers = [&numbers[..], &[DONE, Refusal::TABLE_WORDS, NOT_RUN]].concat();
    cases.rows("the same, then done, 14 and not run", &numbers, &ended);
}

/// 4, if the largest asks for more than is lent
fn work(cases: &mut Cases) {
    let (small, large) = (known::short(), known::phi().with_budget(2_000));
    let least = small.input.work;
    for at in 0..3 {
        let mut screens = [&small; 3];
        screens[at] = &large;
        let made = Made::of(&screens);
        let most = made.list.work;
        for work in [most, most + 1, most + 1_000_000] {
            let name = format!("{work} work words, the largest asks for {most}");
            cases.rows(name, &[DONE; 3], &made.with(|list| list.work = work));
        }
        let mut numbers = [DONE; 3];
        numbers[at] = Refusal::WORK_WORDS;
        for work in [most - 1, least + 1, least] {
            let name = format!("{work} work words, the largest asks for {most}");
            cases.rows(name, &numbers, &made.with(|list| list.work = work));
        }
        for work in [least - 1, 1, 0] {
            let name = format!("{work} work words, each asks for more");
            cases.rows(name, &[Refusal::WORK_WORDS; 3], &made.with(|list| list.work = work));
        }
    }
}

/// 4 beside other refusals of a check
fn work_of_refused(cases: &mut Cases) {
    let (header, work) = (Refusal::HEADER, Refusal::WORK_WORDS);
    let (small, mut large) = (known::short(), known::refused(header));
    large.input.budget = 3_000;
    for (screens, numbers, fewer) in [
        ([&large, &small], [header, DONE], [work, DONE]),
        ([&small, &large], [DONE, header], [DONE, work]),
        ([&large, &large], [header; 2], [work; 2]),
    ] {
        let made = Made::of(&screens);
        cases.rows("the largest is refused by its header", &numbers, &made);
        let more = made.with(|list| list.work += 1_000_000);
        cases.rows("the same with a million work words more", &numbers, &more);
        cases.rows("the same with one work word less", &fewer, &made.with(|list| list.work -= 1));
    }
    let refused = [1, 2, 3].map(known::refused);
    let made = Made::of(&refused.each_ref());
    cases.rows("no work words, and refused by lengths", &[1, 2, 3], &made.with(|list| list.work = 0));
}

/// 14: the three that are done take 2, 28 and 35 table words.
fn tables(cases: &mut Cases) {
    const SHORT: u32 = Refusal::TABLE_WORDS;
    let (short, phi, lookups) = (known::short(), known::phi(), known::lookups());
    let (empty_phi, unfit) = (known::refused(11), known::refused(6));
    let made = Made::of(&[&empty_phi, &short, &unfit, &phi, &lookups, &empty_phi, &unfit]);
    for (tables, numbers) in [
        (66, [11, DONE, 6, DONE, DONE, 11, 6]),
        (65, [11, DONE, 6, DONE, DONE, 11, 6]),
        (64, [11, DONE, 6, DONE, SHORT, NOT_RUN, NOT_RUN]),
        (30, [11, DONE, 6, DONE, SHORT, NOT_RUN, NOT_RUN]),
        (29, [11, DONE, 6, SHORT, NOT_RUN, NOT_RUN, NOT_RUN]),
        (2, [11, DONE, 6, SHORT, NOT_RUN, NOT_RUN, NOT_RUN]),
        (1, [11, SHORT, NOT_RUN, NOT_RUN, NOT_RUN, NOT_RUN, NOT_RUN]),
        (0, [11, SHORT, NOT_RUN, NOT_RUN, NOT_RUN, NOT_RUN, NOT_RUN]),
    ] {
        cases.rows(format!("{tables} table words"), &numbers, &made.with(|list| list.tables = tables));
    }
    let none = Made::of(&[&empty_phi, &known::refused(12), &known::refused(13), &unfit]);
    cases.rows("no table words, and none wanted", &[11, 12, 13, 6], &none.with(|list| list.tables = 0));
    for (name, screens, numbers) in [
        ("14 alone", vec![&phi], vec![SHORT]),
        ("14 before one that would fit", vec![&phi, &short], vec![SHORT, NOT_RUN]),
        ("14 before one that is refused", vec![&phi, &unfit], vec![SHORT, NOT_RUN]),
        ("14 after one that is refused", vec![&unfit, &phi], vec![6, SHORT]),
        ("14 after one that is refused in its run", vec![&empty_phi, &phi], vec![11, SHORT]),
    ] {
        let made = Made::of(&screens).with(|list| list.tables = 27);
        cases.rows(name, &numbers, &made);
        let more = made.with(|list| list.work += 100);
        cases.rows(format!("{name}, and 100 work words more"), &numbers, &more);
    }
}

/// 14 in a list of 256 rows
fn tables_of_most(cases: &mut Cases) {
    let phi = known::phi();
    let made = Made::repeated(&phi, MOST_IMAGES);
    for done in [0, 1, 127, 254, 255] {
        let later = MOST_IMAGES - 1 - done;
        let numbers = [vec![DONE; done], vec![Refusal::TABLE_WORDS], vec![NOT_RUN; later]].concat();
        let made = made.with(|list| list.tables = phi.alone.written() * (done + 1) - 1);
        cases.rows(format!("256 rows, 14 in row {done}"), &numbers, &made);
    }
}

/// Lengths around the most that a screen may have, and beyond 16 bits.
const AROUND: [u32; 4] = [65_536, 65_537, 131_072, 131_136];

/// 1, which is a row's and not the list's
fn image_lengths(cases: &mut Cases) {
    let (lookups, long) = (known::lookups(), known::short().extended_to(LIMIT));
    let mut made = Made::default();
    let row = made.list.place(&long.input);
    made.list.images.resize(AROUND[3] as usize, 0);
    AROUND.into_iter().for_each(|words| made.push(Row { image: [0, words], ..row }, &long));
    let after = made.list.place(&lookups.input);
    made.push(after, &lookups);
    cases.rows("images of 65,536 words and more", &[DONE, 1, 1, 1, DONE], &made.with_enough());
}

/// 2
fn name_lengths(cases: &mut Cases) {
    let lookups = known::lookups();
    let mut made = Made::default();
    let row = made.list.place(&lookups.input);
    made.list.names.resize(AROUND[3] as usize, b'a');
    AROUND.into_iter().for_each(|bytes| made.push(Row { names: [0, bytes], ..row }, &lookups));
    made.push(row, &lookups);
    cases.rows("names of 65,536 bytes and more", &[DONE, 2, 2, 2, DONE], &made.with_enough());
}

/// 3 and 13
fn budgets(cases: &mut Cases) {
    let (short, phi) = (known::short(), known::phi());
    let made = Made::of(&[&short.with_budget(65_536), &short, &phi]);
    for budget in [65_537, 1 << 31, NONE] {
        let made = made.with(|list| list.words[LIST_ROW + 4] = budget);
        cases.rows(format!("a budget of {budget}"), &[DONE, 3, DONE], &made);
    }
    let made = Made::of(&[&phi.with_steps(0), &phi.with_steps(32), &phi.with_budget(33)]);
    cases.rows("budgets around the steps", &[13, 13, DONE], &made);
}
