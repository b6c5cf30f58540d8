//! A list answers what a call for each of its screens answers, whatever the Runner ran before.

mod images;

use host::random::Random;
use host::{damage, generate};
use images::*;
use infer_types::parts::{Table, LENGTH};
use infer_types::*;

/// An answer, and the tables that go with it.
type Outcome = (Answer, Vec<u32>);

/// The screen's own call with so many table words. What is too large is refused before the work words are looked at.
fn own_call(screen: &Screen, table_words: usize) -> Outcome {
    let most = LIMIT + 1;
    let work = work_words(screen.image.len().min(most), screen.budget.min(most as u32));
    let (mut work, mut tables) = (vec![1; work], vec![0; table_words]);
    let answer = infer_types_into(screen.image, screen.names, screen.budget, &mut work, &mut tables);
    let written = if answer.number == Answer::DONE { answer.table_words as usize } else { 0 };
    (answer, tables[..written].to_vec())
}

/// Each screen by its own call, with the table words that remain; none after the first that is refused with 14.
fn own_calls(screens: &[Screen], table_words: usize) -> Vec<Outcome> {
    let mut outcomes: Vec<Outcome> = vec![];
    let mut left = table_words;
    for screen in screens {
        let ended = outcomes.last().is_some_and(|last| [14, u32::MAX].contains(&last.0.number));
        let outcome = match ended {
            true => (Answer { number: u32::MAX, ..Answer::default() }, vec![]),
            false => own_call(screen, left),
        };
        left -= outcome.1.len();
        outcomes.push(outcome);
    }
    outcomes
}

/// What is said of the screen of this number.
fn outcome(screen: usize, result: &Result<Tables, ScreenRefused>) -> Outcome {
    match result {
        Ok(tables) => {
            let Lookups { exact_name, star_entry, hook_rule, nothing } = tables.lookups();
            let counts = [tables.slot_count(), tables.binding_count(), tables.words().len()];
            let [slots, bindings, table_words] = counts.map(|count| count as u32);
            let lookups = [exact_name, star_entry, hook_rule, nothing];
            let row = [&[Answer::DONE, tables.steps, slots, bindings, table_words], &lookups[..]].concat();
            (Answer::of_row(&row), tables.words().to_vec())
        }
        Err(refused) => {
            assert_eq!(refused.screen, screen);
            let Refusal { number, steps, table_words } = refused.refusal;
            (Answer { number, steps, table_words, ..Answer::default() }, vec![])
        }
    }
}

/// Runs the list with so many table words; every screen has to have the outcome of its own call. Gives the numbers.
fn compare(runner: Runner, screens: &[Screen], table_words: usize) -> (Runner, Vec<u32>) {
    let mut runner = runner.table_words_at_most(table_words);
    let results = runner.infer_batch(screens);
    let outcomes: Vec<Outcome> = results.iter().enumerate().map(|(at, one)| outcome(at, one)).collect();
    assert_eq!(outcomes, own_calls(screens, table_words), "{table_words} table words");
    (runner, outcomes.iter().map(|(answer, _)| answer.number).collect())
}

/// Table words enough for every list here.
const MANY: usize = 4_000_000;

/// An image with one word changed.
fn changed(at: usize, word: u32) -> Image {
    let mut image = row_a(true);
    image.words[at] = word;
    image
}

/// So many words and name bytes that start as an image does.
fn of_size(words: usize, bytes: usize) -> Image {
    let mut image = row_a(true);
    image.words.resize(words, 0);
    image.names.resize(bytes, 0);
    image
}

/// Images and budgets of all sorts, with the numbers that they are answered with.
fn all_sorts() -> Vec<(Image, u32, u32)> {
    let first_of = |table: Table| row_a(true).words[table.offset_at()] as usize;
    let body = row_a(true).words[first_of(Table::Functions)] as usize;
    vec![
        (row_a(true), 1_024, 0),
        (cycle(), 1_024, Refusal::CYCLE),
        (row_a(false), 6, 0),
        (empty_phi(), 65_536, Refusal::EMPTY_PHI),
        (row_a(false), 5, Refusal::OUT_OF_STEPS),
        (row_a(false), 0, Refusal::OUT_OF_STEPS),
        (costly(9, 12), 65_536, 0),
        (costly(9, 12), 1_000, Refusal::OUT_OF_STEPS),
        (changed(LENGTH, 7), 1_024, Refusal::HEADER),
        (changed(first_of(Table::Slots), 7), 1_024, Refusal::REFERENCES),
        (changed(first_of(Table::Types), 8), 1_024, Refusal::TYPES),
        (changed(first_of(Table::Shapes), 2), 1_024, Refusal::SHAPES),
        (changed(body, 3), 1_024, Refusal::BODIES),
        (of_size(0, 0), 0, Refusal::IMAGE_WORDS),
        (of_size(19, 0), 1_024, Refusal::IMAGE_WORDS),
        (of_size(65_537, 65_537), u32::MAX, Refusal::IMAGE_WORDS),
        (of_size(300_000, 0), 1_024, Refusal::IMAGE_WORDS),
        (of_size(100, 65_537), u32::MAX, Refusal::NAME_BYTES),
        (of_size(100, 300_000), 1_024, Refusal::NAME_BYTES),
        (of_size(100, 65_536), 65_537, Refusal::BUDGET),
        (row_a(true), u32::MAX, Refusal::BUDGET),
        (costly(3, 2), 65_536, 0),
    ]
}

fn screens(images: &[(Image, u32, u32)]) -> Vec<Screen<'_>> {
    images.iter().map(|(image, budget, _)| Screen::new(image, *budget)).collect()
}

#[test]
fn each_screen_has_the_result_of_its_own_run() {
    let images = all_sorts();
    let screens = screens(&images);
    let (_, numbers) = compare(Runner::new(), &screens, MANY);
    assert_eq!(numbers, images.iter().map(|one| one.2).collect::<Vec<u32>>());
    for (screen, result) in screens.iter().zip(infer_batch(&screens)) {
        let once = infer_types(screen.image, screen.names, screen.budget);
        assert_eq!(result.map_err(|refused| refused.refusal), once);
    }
}

#[test]
fn lists_of_any_length() {
    let images = all_sorts();
    let some = screens(&images);
    assert_eq!(infer_batch(&[]), []);
    let mut runner = Runner::new();
    for length in [0, 1, 256, 257, 600] {
        let list: Vec<Screen> = some.iter().copied().cycle().skip(length % 5).take(length).collect();
        let numbers;
        (runner, numbers) = compare(runner, &list, MANY);
        assert!(numbers.len() == length && !numbers.contains(&Refusal::TABLE_WORDS));
    }
}

/// With ever more table words the list ends ever later.
#[test]
fn the_table_words_are_for_all_tables_together() {
    let images = [row_a(true), cycle(), costly(2, 3), row_a(false), costly(3, 40), row_a(true)];
    let screens: Vec<Screen> = images.iter().map(|image| Screen::new(image, 65_536)).collect();
    let own = own_calls(&screens, MANY);
    let total: usize = own.iter().map(|(_, tables)| tables.len()).sum();
    // one is run again for more steps when the one behind it has its tables already
    assert!(own[4].0.steps as usize > images[4].words.len());
    let mut runner = Runner::new();
    let mut ends = vec![];
    for table_words in 0..=total + 1 {
        let numbers;
        (runner, numbers) = compare(runner, &screens, table_words);
        ends.push(numbers.iter().position(|&number| number == Refusal::TABLE_WORDS));
    }
    assert_eq!(ends[0], Some(0));
    assert_eq!((ends[total - 1], ends[total], ends[total + 1]), (Some(5), None, None));
    ends.dedup();
    assert_eq!(ends, [Some(0), Some(2), Some(3), Some(4), Some(5), None]);
}

/// The same in the second part of a long list: neither the rest of the part nor the third is run.
#[test]
fn a_long_list_that_ends() {
    let (image, refused) = (row_a(true), cycle());
    let mut screens = vec![Screen::new(&image, 1_024); 600];
    screens[299] = Screen::new(&refused, 1_024);
    let each = own_call(&screens[0], MANY).1.len();
    let (runner, numbers) = compare(Runner::new(), &screens, 400 * each + each - 1);
    let count = |number| numbers.iter().filter(|&&one| one == number).count();
    assert_eq!([0, 12, 14, u32::MAX].map(count), [400, 1, 1, 198]);
    assert_eq!(numbers[401], Refusal::TABLE_WORDS);
    compare(runner, &screens, 599 * each);
}

/// Tables that are longer than their images: more table words are lent for the same list.
#[test]
fn tables_longer_than_most() {
    let (long, words) = long_tables(40);
    let small = row_a(true);
    let mut screens = vec![Screen::new(&long, 1_024); 30];
    screens.insert(7, Screen::new(&small, 1_024));
    assert!(words as usize > 8 * long.words.len());
    let (runner, numbers) = compare(Runner::new(), &screens, MANY);
    assert_eq!(numbers, [0; 31]);
    let (_, numbers) = compare(runner, &screens, 3 * words as usize);
    assert_eq!(numbers[..5], [0, 0, 0, 14, u32::MAX]);
}

#[test]
fn one_runner_for_lists_and_single_runs() {
    let images = all_sorts();
    let all = screens(&images);
    let mut runner = Runner::new();
    for (from, table_words) in [(0, MANY), (6, 5), (20, MANY), (3, MANY), (0, 30), (0, MANY)] {
        runner = compare(runner, &all[from..], table_words).0.table_words_at_most(MANY);
        for screen in &all[from..] {
            let once = infer_types(screen.image, screen.names, screen.budget);
            assert_eq!(runner.infer_types(screen.image, screen.names, screen.budget).cloned(), once);
        }
    }
}

/// An image that passes the check or has a word or two changed, of few words, and a budget.
fn any_screen(random: &mut Random) -> (Image, u32, u32) {
    let words = random.pick(&[60, 120, 300, 600]);
    let valid = generate::valid(random, words);
    let input = match random.below(4) {
        0 => damage::damaged(random, &valid),
        _ => valid.input,
    };
    let budget = random.pick(&[0, 10, 100, 1_000, 65_536, 65_536, 65_536, 65_537]);
    (of_words(input.image, input.names), budget, 0)
}

#[test]
fn random_lists() {
    let mut random = Random::new(2);
    let mut runner = Runner::new();
    let mut seen = vec![];
    for _ in 0..300 {
        let images: Vec<_> = (0..random.below(30)).map(|_| any_screen(&mut random)).collect();
        let table_words = random.pick(&[0, 100, 1_000, 10_000, MANY, MANY]);
        let numbers;
        (runner, numbers) = compare(runner, &screens(&images), table_words);
        seen.extend(numbers);
    }
    seen.sort();
    seen.dedup();
    assert_eq!(seen, [0, 1, 2, 3, 5, 6, 7, 8, 9, 10, 11, 12, 13, 14, u32::MAX]);
}

#[test]
fn a_refused_screen_says_which_it_is() {
    let (done, refused) = (row_a(true), cycle());
    let mut screens = vec![Screen::new(&done, 1_024); 300];
    screens[7] = Screen::new(&refused, 1_024);
    screens[280] = Screen::new(&done, 3);
    let said = |results: Vec<Result<Tables, ScreenRefused>>| -> Vec<String> {
        results.into_iter().filter_map(|one| one.err()).map(|refused| refused.to_string()).collect()
    };
    assert_eq!(
        said(infer_batch(&screens)),
        [
            "screen 7 refused with 12: A value would contain itself: look for a function that returns or calls itself through a variable.",
            "screen 280 refused with 13: The budget's steps are used up: allow more, or split the screen."
        ]
    );
    let results = Runner::new().table_words_at_most(0).infer_batch(&screens[..3]);
    let faults = results.iter().map(|one| one.as_ref().expect_err("a refusal").refusal.fault());
    assert_eq!(faults.collect::<Vec<_>>(), [Fault::Caller; 3]);
    assert_eq!(
        said(results),
        [
            "screen 0 refused with 14: The tables are longer than the words that may be lent: lend as many as are wanted, or let a Runner do so (table_words_at_most).",
            "screen 1 not run: The tables of a screen before it were longer than what remained of the table words, which ended the list: lend more, or run the rest as another list.",
            "screen 2 not run: The tables of a screen before it were longer than what remained of the table words, which ended the list: lend more, or run the rest as another list."
        ]
    );
}

/// A list of rows that all name one image, with what is lent for it. Every lent word holds 7 before the call.
struct Call {
    image: Image,
    list: Vec<u32>,
    work: Vec<u32>,
    tables: Vec<u32>,
    answers: Vec<u32>,
}

impl Call {
    fn new(rows: usize) -> Call {
        let image = row_a(true);
        let work = vec![7; work_words(image.words.len(), 100)];
        let row = [0, image.words.len() as u32, 0, 0, 100];
        Call { image, list: row.repeat(rows), work, tables: vec![7; 25], answers: vec![7; 9 * rows] }
    }

    fn number(&mut self) -> u32 {
        let Call { image, list, work, tables, answers } = self;
        infer_batch_into(list, &image.words, &image.names, work, tables, answers)
    }

    /// The call is refused with this number, and nothing is written.
    fn refused(mut self, number: u32) {
        assert_eq!(self.number(), number);
        let written = [&self.work, &self.tables, &self.answers].into_iter().flatten();
        assert!(written.copied().all(|word| word == 7));
    }
}

#[test]
fn a_list_that_does_not_fit() {
    Call::new(257).refused(Refusal::LIST);
    for words in 1..LIST_ROW {
        let mut call = Call::new(2);
        call.list.truncate(2 * LIST_ROW - words);
        call.refused(Refusal::LIST);
    }
    let mut call = Call::new(2);
    call.answers.pop();
    call.list[5] = 1; // a range as well: the list comes first
    call.refused(Refusal::LIST);
    for (word, number) in [(0, 1), (1, u32::MAX), (2, 1), (3, 1), (3, u32::MAX)] {
        let mut call = Call::new(2);
        call.list[LIST_ROW + word] += number.min(u32::MAX - call.list[LIST_ROW + word]);
        call.refused(Refusal::RANGES);
    }
}

#[test]
fn a_list_that_fits() {
    let mut call = Call::new(0);
    assert_eq!((call.number(), call.work[0], call.tables[0]), (Answer::DONE, 7, 7));
    assert_eq!(Call::new(MOST_IMAGES).number(), Answer::DONE);
    let mut call = Call::new(5);
    call.list[LIST_ROW + 4] = 3;
    call.answers.push(7);
    assert_eq!(call.number(), Answer::DONE);
    let rows = call.answers.chunks_exact(ANSWER_ROW).map(|row| Answer::of_row(row).number);
    assert_eq!(rows.collect::<Vec<_>>(), [0, 13, 0, 0, 0]);
    assert_eq!(call.answers.last(), Some(&7));
    let words = own_call(&Screen::new(&call.image, 100), MANY).1;
    assert_eq!(call.tables, [words.repeat(4), vec![7]].concat());
    assert!(call.work.iter().all(|&word| word == 0));
}
