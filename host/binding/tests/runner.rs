//! A Runner answers what one call with enough of everything answers, whatever it ran before.

mod images;

use images::{costly, long_tables};
use infer_types::*;

/// One call of the library with a million table words.
fn one_call(image: &Image, budget: u32) -> (Answer, Vec<u32>) {
    let (mut work, mut tables) = (vec![1; work_words(image.words.len(), budget)], vec![0; 1_000_000]);
    let answer = infer_types_into(&image.words, &image.names, budget, &mut work, &mut tables);
    tables.truncate(answer.table_words as usize);
    (answer, tables)
}

/// What the runner answers has to be what one call answers.
fn compare(runner: &mut Runner, image: &Image, budget: u32) {
    let (answer, tables) = one_call(image, budget);
    match runner.infer_types(&image.words, &image.names, budget) {
        Ok(read) => {
            assert_eq!((answer.number, answer.steps), (Answer::DONE, read.steps));
            assert_eq!(
                (answer.slots, answer.bindings),
                (read.slot_count() as u32, read.binding_count() as u32)
            );
            assert_eq!((answer.lookups(), &tables[..]), (read.lookups(), read.words()));
        }
        Err(refusal) => {
            assert_eq!((answer.number, answer.steps, 0), (refusal.number, refusal.steps, refusal.table_words))
        }
    }
}

#[test]
fn every_limit_gives_what_one_call_gives() {
    let mut runner = Runner::new();
    for image in [costly(0, 0), costly(3, 2), costly(9, 12)] {
        let (Answer { number, steps, .. }, _) = one_call(&image, 65_536);
        assert_eq!(number, Answer::DONE);
        let first = image.words.len() as u32 * 3 / 4;
        for limit in [0, 1, first - 1, first, first + 1, steps - 1, steps, steps + 1, 65_536] {
            compare(&mut runner, &image, limit);
        }
    }
    let (Answer { steps, .. }, _) = one_call(&costly(9, 12), 65_536);
    assert!(steps as usize > 8 * costly(9, 12).words.len(), "the budget grows twice");
}

#[test]
fn what_is_too_large_is_refused_in_the_order_of_the_numbers() {
    let image = costly(0, 0);
    let mut runner = Runner::new();
    let mut refused = |words: usize, bytes: usize, budget| {
        let mut words_lent = image.words.clone();
        words_lent.resize(words, 0);
        let refusal = runner.infer_types(&words_lent, &vec![0; bytes], budget).expect_err("a refusal");
        assert_eq!((refusal.steps, refusal.table_words), (0, 0));
        refusal.number
    };
    let words = image.words.len();
    for budget in [0, 1, 65_536, 65_537, u32::MAX] {
        assert_eq!(refused(0, 65_537, budget), Refusal::IMAGE_WORDS);
        assert_eq!(refused(19, 65_537, budget), Refusal::IMAGE_WORDS);
        assert_eq!(refused(65_537, 65_537, budget), Refusal::IMAGE_WORDS);
        assert_eq!(refused(words, 65_537, budget), Refusal::NAME_BYTES);
        assert_eq!(refused(65_536, 65_537, budget), Refusal::NAME_BYTES);
    }
    assert_eq!(refused(65_536, 65_536, 65_537), Refusal::BUDGET);
    assert_eq!(refused(words, 0, u32::MAX), Refusal::BUDGET);
    assert_eq!(refused(65_536, 65_536, 65_536), Refusal::HEADER);
    assert!(runner.infer_types(&image.words, &image.names, 65_536).is_ok());
}

#[test]
fn no_more_table_words_are_lent_than_allowed() {
    for (image, more_than_words) in [(costly(0, 0), false), (costly(9, 12), true)] {
        let (Answer { steps, table_words, .. }, _) = one_call(&image, 65_536);
        assert_eq!(table_words as usize > image.words.len(), more_than_words);
        for most in [0, 1, table_words - 1] {
            let mut runner = Runner::new().table_words_at_most(most as usize);
            let refusal = runner.infer_types(&image.words, &image.names, 65_536).expect_err("a refusal");
            assert_eq!(refusal, Refusal { number: Refusal::TABLE_WORDS, steps, table_words });
            compare(&mut runner.table_words_at_most(table_words as usize), &image, 65_536);
        }
    }
}

#[test]
fn tables_longer_than_most_are_lent() {
    let (image, wanted) = long_tables(100);
    let tables = infer_types(&image.words, &image.names, 1_024).expect("tables");
    assert_eq!(tables.words().len(), wanted as usize);
}

#[test]
fn a_long_table_is_refused_unless_it_is_asked_for() {
    let (image, wanted) = long_tables(1_400);
    let refusal = infer_types(&image.words, &image.names, 1_024).expect_err("a refusal");
    assert_eq!((refusal.number, refusal.table_words), (Refusal::TABLE_WORDS, wanted));
    let mut runner = Runner::new().table_words_at_most(wanted as usize);
    let tables = runner.infer_types(&image.words, &image.names, 1_024).expect("tables");
    assert_eq!(tables.words().len(), wanted as usize);
}
