//! The library through this crate: rows of document 01, refusals, edges.

mod images;

use images::{cycle, empty_phi, row_a};
use infer_types::*;

fn run(image: &Image, budget: u32) -> Result<Tables, Refusal> {
    infer_types(&image.words, &image.names, budget)
}

#[test]
fn row_a_and_b() {
    let tables = run(&row_a(false), 1_024).expect("tables");
    assert_eq!(tables.to_string(), "slot 0 primitive\nslot 1 var 1\nbind 0 primitive\n");
    assert_eq!((tables.steps, tables.slot_count(), tables.binding_count()), (6, 2, 1));
    assert_eq!(tables.words(), [1, 0, 1, 0, 1]);
    let tables = run(&row_a(true), 1_024).expect("tables");
    assert_eq!((tables.steps, tables.slot(Slot::from_number(1)).kind()), (12, TypeKind::Primitive));
}

#[test]
fn row_d_is_a_cycle() {
    let refusal = run(&cycle(), 1_024).expect_err("a cycle");
    assert_eq!((refusal.number, refusal.fault()), (Refusal::CYCLE, Fault::ScreenAuthor));
}

#[test]
fn row_e_is_a_phi_without_operands() {
    let refusal = run(&empty_phi(), 1_024).expect_err("an empty phi");
    assert_eq!((refusal.number, refusal.fault()), (Refusal::EMPTY_PHI, Fault::ScreenAuthor));
}

#[test]
fn edges_of_budget_work_and_tables() {
    let image = row_a(false);
    let refused = |budget| run(&image, budget).expect_err("a refusal").number;
    assert!(run(&image, 6).is_ok());
    assert!(run(&image, 65_536).is_ok());
    assert_eq!(refused(5), 13);
    assert_eq!(refused(65_537), 3);
    assert_eq!(infer_types(&[1; 19], &[], 1).expect_err("a refusal").number, 1);
    assert_eq!(infer_types(&vec![1; 65_537], &[], 1).expect_err("a refusal").number, 1);

    let mut work = vec![0; work_words(image.words.len(), 6)];
    let mut tables = [7; 6];
    let short = work.len() - 1;
    let answer = infer_types_into(&image.words, &image.names, 6, &mut work[..short], &mut tables);
    assert_eq!(answer, Answer { number: 4, ..Answer::default() });
    let answer = infer_types_into(&image.words, &image.names, 6, &mut work, &mut tables[..4]);
    assert_eq!(answer, Answer { number: 14, steps: 6, table_words: 5, ..Answer::default() });
    assert_eq!(tables, [7; 6]);
    work.fill(9);
    let answer = infer_types_into(&image.words, &image.names, 6, &mut work, &mut tables);
    assert_eq!(
        answer,
        Answer { number: 0, steps: 6, slots: 2, bindings: 1, table_words: 5, ..Answer::default() }
    );
    assert_eq!(tables, [1, 0, 1, 0, 1, 7]);
    assert!(work.iter().all(|&word| word == 0));
}

#[test]
fn every_refusal_has_its_own_help() {
    let help = |number| Refusal { number, steps: 0, table_words: 0 }.help();
    // one of them is that of a number that nobody knows
    let mut all: Vec<&str> = (1..=19).chain([Refusal::NOT_RUN]).map(help).collect();
    all.sort();
    all.dedup();
    assert_eq!(all.len(), 20);
}
