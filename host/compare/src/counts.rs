//! What was compared: by answer, and by what is in the images.

use crate::bodies::instructions;
use crate::inputs::Sort;
use crate::judge::Held;
use infer_image::parts::*;
use std::collections::BTreeMap;

#[derive(Default)]
pub struct Counts {
    /// By answer and what it was held to.
    answers: BTreeMap<(u32, Held), u64>,
    sorts: BTreeMap<(Sort, u32), u64>,
    /// Of images whose tables were compared: those with the kind, and instructions of it.
    kinds: BTreeMap<u32, (u64, u64)>,
    options: BTreeMap<(u32, bool), u64>,
    sizes: BTreeMap<&'static str, u64>,
    nested: BTreeMap<u32, u64>,
    tables: u64,
    pub differences: u64,
}

impl Counts {
    pub fn add(&mut self, sort: Option<Sort>, input: &Input, number: u32, held: Held) {
        *self.answers.entry((number, held)).or_default() += 1;
        if let Some(sort) = sort {
            *self.sorts.entry((sort, number)).or_default() += 1;
        }
        if matches!(held, Held::Tables | Held::TablesGuarded) {
            self.add_compared(input);
        }
    }

    fn add_compared(&mut self, input: &Input) {
        self.tables += 1;
        let mut in_image = BTreeMap::<u32, u64>::new();
        for function in 0..input.count(Table::Functions) {
            for instruction in instructions(input, function) {
                *in_image.entry(instruction.kind).or_default() += 1;
            }
        }
        for (kind, count) in in_image {
            let (images, instructions) = self.kinds.entry(kind).or_default();
            *images += 1;
            *instructions += count;
        }
        *self.options.entry((input.image[OPTIONS], input.image[HOOK] != NONE)).or_default() += 1;
        *self.sizes.entry(size(input.image.len())).or_default() += 1;
        *self.nested.entry(input.count(Table::Functions).min(20)).or_default() += 1;
    }

    pub fn difference(&mut self, what: &str) {
        self.differences += 1;
        println!("DIFFERENCE: {what}");
    }

    pub fn print(&self) {
        println!("answer  held to            images");
        for ((number, held), count) in &self.answers {
            println!("{number:>6}  {:<16}{count:>9}", format!("{held:?}"));
        }
        println!("total   {:>25}", self.answers.values().sum::<u64>());
        println!("\nsort and answers");
        for sort in [
            Sort::Row,
            Sort::Pattern,
            Sort::Screen,
            Sort::DamagedScreen,
            Sort::Hard,
            Sort::DamagedHard,
            Sort::Small,
        ] {
            let row = self.sorts.iter().filter(|one| one.0 .0 == sort);
            let row: Vec<String> = row.map(|((_, number), count)| format!("{number}: {count}")).collect();
            println!("{:<14} {}", format!("{sort:?}"), row.join(", "));
        }
        println!("\nimages whose tables were compared: {}", self.tables);
        println!("kind                          images  instructions");
        for &kind in Kind::ALL {
            let (images, instructions) = self.kinds.get(&(kind as u32)).copied().unwrap_or_default();
            println!("{:<26}{images:>10}{instructions:>14}", format!("{kind:?}"));
        }
        for ((options, hook), count) in &self.options {
            println!("options {options}, {} hook type: {count}", if *hook { "a" } else { "no" });
        }
        for (size, count) in &self.sizes {
            println!("{size} words: {count}");
        }
        let functions: Vec<String> =
            self.nested.iter().map(|(one, count)| format!("{one}: {count}")).collect();
        println!("functions in the image (20: or more): {}", functions.join(", "));
        println!("\n{} differences", self.differences);
    }

    /// Kinds, options and hook types that no compared image had.
    pub fn missing(&self) -> Vec<String> {
        let kinds = Kind::ALL.iter().filter(|kind| !self.kinds.contains_key(&(**kind as u32)));
        let options = (0..8).map(|one| (one / 2, one % 2 == 1)).filter(|one| !self.options.contains_key(one));
        kinds.map(|kind| format!("{kind:?}")).chain(options.map(|one| format!("options {one:?}"))).collect()
    }
}

fn size(words: usize) -> &'static str {
    match words {
        0..=255 => "under 256",
        256..=4_095 => "256 to 4,095",
        4_096..=19_999 => "4,096 to 19,999",
        _ => "20,000 to 65,536",
    }
}
