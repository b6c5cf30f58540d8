//! What a list has to leave, by the tests of a list and an own call of `infer_types` for each of its screens.

use crate::answers::{is_done, is_unrun, words};
use crate::lists::{List, Row};
use infer_types::{infer_types_into, Answer, Refusal, ANSWER_ROW, LIST_ROW, MOST_IMAGES};

/// Every lent word after the call.
pub struct After {
    pub number: u32,
    /// What every work word is.
    pub work: u32,
    pub tables: Vec<u32>,
    pub answers: Vec<u32>,
}

/// What is left if work words, table words and answer words hold these before the call.
pub fn after(list: &List, held: [u32; 3]) -> After {
    let mut after = After {
        number: refusal(list),
        work: held[0],
        tables: vec![held[1]; list.tables],
        answers: vec![held[2]; list.answers],
    };
    if after.number == 0 {
        run(list, &mut after);
    }
    after
}

/// 15 and 16, or 0.
fn refusal(list: &List) -> u32 {
    let (rows, over) = (list.words.len() / LIST_ROW, list.words.len() % LIST_ROW);
    if rows > MOST_IMAGES || over > 0 || list.answers < ANSWER_ROW * rows {
        return Refusal::LIST;
    }
    let leaves = |range: [u32; 2], lent: usize| range[0] as usize + range[1] as usize > lent;
    if list.rows().any(|row| leaves(row.image, list.images.len()) || leaves(row.names, list.names.len())) {
        return Refusal::RANGES;
    }
    0
}

fn run(list: &List, after: &mut After) {
    // More than a screen asks for changes nothing but the time.
    let mut work = vec![0; list.work.min(list.rows().map(|row| row.work()).max().unwrap_or(0))];
    let (mut used, mut ended) = (0, false);
    for (row, words_of_row) in list.rows().zip(after.answers.chunks_exact_mut(ANSWER_ROW)) {
        let lent = row.work().min(work.len());
        let answer = match ended {
            true => Answer { number: Refusal::NOT_RUN, ..Answer::default() },
            false => call(list, row, &mut work[..lent], &mut after.tables[used..]),
        };
        words_of_row.copy_from_slice(&words(&answer));
        if is_done(&answer) {
            used += answer.table_words as usize;
        }
        if !is_unrun(&answer) {
            after.work = 0;
        }
        ended |= answer.number == Refusal::TABLE_WORDS;
    }
}

fn call(list: &List, row: Row, work: &mut [u32], tables: &mut [u32]) -> Answer {
    let [image, names] = [row.image, row.names].map(|[start, length]| {
        let start = start as usize;
        start..start + length as usize
    });
    infer_types_into(&list.images[image], &list.names[names], row.budget, work, tables)
}
