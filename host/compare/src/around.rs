//! What lies around an answer: one step, one work word or one table word less, and the limits.

use crate::answer::Answer;
use crate::judge::MOST_BUDGET;
use crate::linked::Linked;
use infer_image::parts::Input;

/// The first of the calls around a finished run that answers otherwise than it has to.
pub fn around(library: &mut Linked, input: &Input, done: &Answer) -> Result<(), String> {
    let words = done.table_words as usize;
    let refused = |number, steps, table_words| Answer { number, steps, table_words, ..Answer::default() };
    let with_budget = |budget| {
        let mut input = input.clone();
        input.budget = budget;
        input.lend_enough();
        input
    };
    let mut expect = |what: &str, input: &Input, table_words: usize, expected: &Answer| {
        let answer = library.call(input, table_words);
        match answer == *expected {
            true => Ok(()),
            false => Err(format!("{what}: answer {} with {} steps", answer.number, answer.steps)),
        }
    };
    expect("table words just enough", input, words, done)?;
    if words > 0 {
        expect("one table word less", input, words - 1, &refused(14, done.steps, done.table_words))?;
    }
    expect("a budget of its steps", &with_budget(done.steps), words, done)?;
    if done.steps > 0 {
        let less = done.steps - 1;
        expect("one step less", &with_budget(less), words, &refused(13, less, 0))?;
    }
    expect("a budget of 65,537", &with_budget(MOST_BUDGET + 1), words, &refused(3, 0, 0))?;
    let mut less_work = input.clone();
    less_work.work = 8 * (input.image.len() + input.budget as usize) - 1;
    expect("one work word less", &less_work, words, &refused(4, 0, 0))
}
