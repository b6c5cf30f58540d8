//! Screens with known answers, put together to lists.

use crate::answers::{is_done, without_tables, Expected};
use crate::image::{Case, NONE};
use crate::lists::{Left, List, ListCase};
use crate::random::Random;
use infer_types::{Refusal, MOST_IMAGES};

/// Words or answer words beyond those that are asked for.
const MORE: usize = 1_000;
/// The most image words of a list, but for one with a single image.
const MOST_WORDS: usize = 1 << 22;

/// A list of screens, and the answer of each with words enough.
pub struct Together {
    name: String,
    list: List,
    alone: Vec<Expected>,
}

impl Together {
    /// The screens in this order; their images and names stand in another, some with words and bytes between them.
    pub fn new(random: &mut Random, name: String, screens: &[(Case, Expected)]) -> Together {
        let mut list = List::default();
        let mut order: Vec<usize> = (0..screens.len()).collect();
        random.shuffle(&mut order);
        let mut rows = vec![None; screens.len()];
        for at in order {
            rows[at] = Some(list.place(&screens[at].0.input));
            list.images.extend(vec![random.pick(&[0, NONE]); random.pick(&[0, 0, 3])]);
            list.names.extend(vec![random.pick(b"a*\xff"); random.pick(&[0, 0, 1])]);
        }
        rows.into_iter().flatten().for_each(|row| list.push(row));
        list.lend_enough();
        let alone: Vec<Expected> = screens.iter().map(|one| one.1).collect();
        list.tables = alone.iter().map(Expected::written).sum();
        Together { name, list, alone }
    }

    /// The list with so many work words and table words, and answer words beyond those asked for.
    fn lent(&self, what: &str, work: usize, tables: usize, more: usize) -> ListCase {
        let list = List { work, tables, answers: self.list.answers + more, ..self.list.clone() };
        let left = Left { number: 0, rows: self.rows(work, tables) };
        ListCase { name: format!("{}, {what}", self.name), list, left }
    }

    /// The answers of the rows if so many work words and table words are lent.
    fn rows(&self, work: usize, mut tables: usize) -> Vec<Expected> {
        let mut ended = false;
        let rows = self.list.rows().zip(&self.alone).map(|(row, alone)| {
            let expected = match alone.answer.number {
                _ if ended => Expected::number(Refusal::NOT_RUN),
                Refusal::IMAGE_WORDS..=Refusal::BUDGET => *alone,
                _ if row.work() > work => Expected::number(Refusal::WORK_WORDS),
                _ if alone.written() > tables => Expected::refused(without_tables(alone.answer)),
                _ => *alone,
            };
            tables -= expected.written();
            ended |= expected.answer.number == Refusal::TABLE_WORDS;
            expected
        });
        rows.collect()
    }

    pub fn just_enough(&self) -> ListCase {
        self.lent("just enough", self.list.work, self.list.tables, 0)
    }

    /// Just enough words; more of each; a table word too few for one of the screens, and a work word.
    pub fn cases(&self, random: &mut Random) -> Vec<ListCase> {
        let List { work, tables, .. } = self.list;
        let mut cases = vec![self.just_enough(), self.lent("more of each", work + MORE, tables + MORE, MORE)];
        let done: Vec<usize> = (0..self.alone.len()).filter(|&at| is_done(&self.alone[at].answer)).collect();
        if !done.is_empty() {
            let upto = random.pick(&done) + 1;
            let words: usize = self.alone[..upto].iter().map(Expected::written).sum();
            cases.push(self.lent("a table word too few", work, words - 1, 0));
        }
        let rows: Vec<usize> = self.list.rows().map(|row| row.work()).collect();
        let fewer = random.pick(&rows).saturating_sub(1);
        cases.push(self.lent("a work word too few", fewer, tables, 0));
        cases
    }
}

/// The screens, shuffled, in lists of different lengths, each list in its cases.
pub fn lists(mut screens: Vec<(Case, Expected)>, mut each: impl FnMut(ListCase)) {
    let mut random = Random::new(1);
    random.shuffle(&mut screens);
    let mut rest = &screens[..];
    for number in 0.. {
        let (now, later) = rest.split_at(length(&mut random, rest));
        let list = Together::new(&mut random, format!("list {number} of screens"), now);
        list.cases(&mut random).into_iter().for_each(&mut each);
        rest = later;
        if rest.is_empty() {
            break;
        }
    }
}

/// How many of the screens are in the next list.
fn length(random: &mut Random, screens: &[(Case, Expected)]) -> usize {
    let most = random.pick(&[1, 2, 3, 20, 100, MOST_IMAGES, MOST_IMAGES, MOST_IMAGES, MOST_IMAGES]);
    let mut words = 0;
    let fitting = screens.iter().take(most).take_while(|one| {
        words += one.0.input.image.len();
        words <= MOST_WORDS
    });
    fitting.count().max(1)
}
