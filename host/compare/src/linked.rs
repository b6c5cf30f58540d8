//! The library itself, with image and names in read-only memory between pages that it may not touch.

use crate::answer::{Answer, Library};
use host::lent::{Memory, Side};
use infer_image::parts::Input;
use infer_types::{infer_types_into, LIMIT};
use std::slice;

/// What lent words hold before a call, and words beside them, so that a write shows.
const FILL: u32 = 0xDEAD_BEEF;

/// Table words that are lent first.
const TABLE_WORDS: usize = 1 << 16;

pub struct Linked {
    words: Memory,
    bytes: Memory,
    side: Side,
    work: Vec<u32>,
    tables: Vec<u32>,
}

impl Default for Linked {
    fn default() -> Self {
        Linked {
            words: Memory::new(4 * (LIMIT + 1)),
            bytes: Memory::new(LIMIT + 1),
            side: Side::End,
            work: vec![0; 8 * 2 * (LIMIT + 1) + 1],
            tables: vec![FILL; TABLE_WORDS],
        }
    }
}

impl Linked {
    /// One call that lends so many table words. A refusal must leave them, and no call may write past its tables or
    /// its work words.
    pub fn call(&mut self, input: &Input, table_words: usize) -> Answer {
        if self.tables.len() <= table_words {
            self.tables.resize(table_words + 1, FILL);
        }
        self.side = if matches!(self.side, Side::End) { Side::Start } else { Side::End };
        let (image, names) = (&input.image, &input.names);
        // SAFETY: so many words and bytes stand there, and nothing changes them during the call.
        let (image, names) = unsafe {
            (
                slice::from_raw_parts(self.words.lend(image, self.side, 0xFF), image.len()),
                slice::from_raw_parts(self.bytes.lend(names, self.side, 0xFF), names.len()),
            )
        };
        self.work[input.work] = FILL;
        let (work, tables) = (&mut self.work[..input.work], &mut self.tables[..table_words]);
        let answer = infer_types_into(image, names, input.budget, work, tables);
        let written = if answer.number == 0 { answer.table_words as usize } else { 0 };
        let tables = self.tables[..written].to_vec();
        self.tables[..written].fill(FILL);
        assert!(self.tables.iter().all(|&word| word == FILL), "a table word was written past the tables");
        assert_eq!(self.work[input.work], FILL, "a work word was written past those lent");
        Answer {
            number: answer.number,
            steps: answer.steps,
            slots: answer.slots,
            bindings: answer.bindings,
            table_words: answer.table_words,
            lookups: [answer.exact, answer.star, answer.hook, answer.nothing],
            tables,
        }
    }
}

impl Library for Linked {
    fn answer(&mut self, input: &Input) -> Answer {
        let answer = self.call(input, TABLE_WORDS);
        match answer.number {
            14 => self.call(input, answer.table_words as usize),
            _ => answer,
        }
    }
}
