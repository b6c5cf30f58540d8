//! Random screens: images that pass the check and whose runs tell mistakes apart.
//!
//! `host::generate` writes images that are hard to check; these are hard to infer. Values are mostly defined before
//! they are used, as in real code, so that runs come to an end; some aren't.

mod functions;
mod idioms;
mod instructions;

use host::generate::{any_layout, Valid};
use host::random::Random;
use infer_image::parts::*;
use std::collections::HashMap;

/// Names of variables, at and around those that mean something.
const REFS: &[&str] = &["ref", "ref", "aRef", "$Ref", "_Ref", "fooRef", "ARef", "ZRef", "zRef", "a-Ref"];
const NEAR_REFS: &[&str] = &[
    "Ref", "Ref", "1Ref", "-Ref", "refs", "xref", "aref", "aRefs", "[Ref", "@Ref", "{Ref", "`Ref", "Refs",
    "éRef", "éaRef",
];
const SETTERS: &[&str] =
    &["setX", "set", "settle", "set_", "se", "Set", "SetX", "reset", "aset", "st", "sett", "ssetX"];
const PLAIN: &[&str] = &["x", "y", "useX", "current", "", "é", "state"];
const HOOKS: &[&str] = &["useTimer", "useX", "useA", "useZ", "use0", "use9"];
const NEAR_HOOKS: &[&str] = &[
    "use",
    "usex",
    "use_",
    "use@",
    "use[",
    "use/",
    "use:",
    "useTimers",
    "Usex",
    "uSeX",
    "muse9",
    "usea",
    "usez",
];
const NEAR_CURRENT: &[&str] = &["currents", "Current", "curren", "current0"];
const OTHERS: &[&str] = &["*", "**", "0", "1", "2", "3", "10", "01", "length", "map", "ref", "", "é", "x"];
const ATTRIBUTES: &[&str] = &["ref", "ref", "ref", "x", "refs", "re", "Ref", "", "current"];

/// An image of about so many words; what is too long is tried again shorter.
pub fn screen(random: &mut Random, words: u32) -> Valid {
    let mut writer = Writer::new(random, words);
    writer.write();
    let input = writer.lay_out();
    if input.image.len() > 65_536 {
        return screen(random, words - words / 8);
    }
    let roles = writer.image.roles(&input);
    Valid { input, roles }
}

/// What is known in the function that is being written.
#[derive(Clone, Default)]
struct Scope {
    /// Identifiers that have a value.
    defined: Vec<u32>,
    /// Operands of phis that a later instruction may define.
    pending: Vec<u32>,
    /// Identifiers that a phi may join.
    joins: Vec<Vec<u32>>,
    /// Identifiers that a load may have given a name.
    loaded: Vec<u32>,
    /// Functions around this one.
    depth: u32,
}

struct Writer<'a> {
    random: &'a mut Random,
    image: Image,
    names: HashMap<Vec<u8>, u32>,
    /// The length of each type, written out.
    lengths: Vec<u32>,
    /// Bodies by number; those that aren't finished are empty.
    bodies: Vec<Option<Body>>,
    /// The words that the image shall have.
    target: u32,
    /// Words of instructions and blocks so far.
    body_words: u32,
    /// Of a thousand operands and lvalues, so many are any at all.
    wild: u32,
    /// In large images, what ends a run early is as rare as this many in a thousand.
    rare: u32,
    /// No type is longer, written out.
    longest: u32,
    properties: Vec<&'static str>,
    /// A shape with array positions for names.
    positions: Option<u32>,
}

impl<'a> Writer<'a> {
    fn new(random: &'a mut Random, words: u32) -> Self {
        let rare = (600_000 / words.max(1)).min(1_000);
        let wild = random.pick(&[0, 0, 20, 50, 120]) * rare / 1_000;
        let longest = random.pick(&[12, 40, 40, 200]);
        let mut properties = vec!["current"];
        for list in [HOOKS, HOOKS, NEAR_HOOKS, NEAR_CURRENT, OTHERS, OTHERS, OTHERS] {
            properties.push(random.pick(list));
        }
        let mut image = Image::new();
        image.options = random.pick(&[0, 1, 2, 3, 3]);
        Writer {
            random,
            image,
            names: HashMap::new(),
            lengths: vec![],
            bodies: vec![],
            target: words,
            body_words: 0,
            wild,
            rare,
            longest,
            properties,
            positions: None,
        }
    }

    fn write(&mut self) {
        for number in 9..9 + self.random.pick(&[0, 0, 1, 3]) {
            self.image.set_shape(number, [0, 0, 0]);
        }
        for _ in 0..self.random.range(1, 4) {
            self.identifier();
        }
        self.shapes();
        if self.random.percent(60) {
            self.image.hook = self.any_type(3);
        }
        self.function(None);
        if self.random.percent(10) {
            // one that no body names
            self.target += 30;
            self.function(Some(&mut Scope::default()));
        }
        for body in std::mem::take(&mut self.bodies) {
            self.image.body(body.expect("a finished body"));
        }
    }

    /// Words that may still be written.
    fn left(&self) -> i64 {
        let rows: usize = Table::ALL[..7].iter().map(|&table| self.image.rows(table).len()).sum();
        self.target as i64 - (HEADER_WORDS + rows + 2 * self.bodies.len()) as i64 - self.body_words as i64
    }

    fn chance(&mut self, of_a_thousand: u32) -> bool {
        self.random.below(1_000) < of_a_thousand
    }

    // names

    fn name(&mut self, text: &str) -> u32 {
        // now and then the same bytes again, under another number
        match self.names.get(text.as_bytes()) {
            Some(&number) if !self.random.percent(8) => number,
            _ => {
                let number = self.image.name(text.as_bytes());
                self.names.insert(text.as_bytes().to_vec(), number);
                number
            }
        }
    }

    fn property_name(&mut self) -> u32 {
        let properties = std::mem::take(&mut self.properties);
        let text = self.random.pick(&properties);
        self.properties = properties;
        self.name(text)
    }

    fn variable_name(&mut self) -> u32 {
        let list = self.random.pick(&[REFS, NEAR_REFS, SETTERS, PLAIN]);
        let text = self.random.pick(list);
        self.name(text)
    }

    // types

    fn add_type(&mut self, row: [u32; 3], length: u32) -> u32 {
        self.lengths.push(length);
        self.image.row(Table::Types, &row)
    }

    fn var(&mut self, slot: u32) -> u32 {
        self.add_type([0, slot, 0], 2)
    }

    fn var_of_any_slot(&mut self) -> u32 {
        let slot = self.random.below(self.image.count(Table::Slots));
        self.var(slot)
    }

    fn primitive(&mut self) -> u32 {
        self.add_type([1, 0, 0], 1)
    }

    fn object(&mut self, shape: u32) -> u32 {
        self.add_type([4, shape, 0], 2)
    }

    fn function_type(&mut self, shape: u32, constructor: bool, returns: u32) -> u32 {
        let length = 2 + self.lengths[returns as usize];
        match length <= self.longest {
            true => self.add_type([5 + constructor as u32, shape, returns], length),
            false => returns,
        }
    }

    fn phi_type(&mut self, operands: &[u32]) -> u32 {
        let length = 2 + operands.iter().map(|&one| self.lengths[one as usize]).sum::<u32>();
        if length > self.longest {
            return self.primitive();
        }
        let first = self.image.list(operands);
        self.add_type([7, first, operands.len() as u32], length)
    }

    fn shape_number(&mut self) -> u32 {
        match self.random.percent(20) {
            true => NONE,
            false => self.random.below(self.image.count(Table::Shapes)),
        }
    }

    /// An earlier type, or a new one nested at most so deep.
    fn any_type(&mut self, depth: u32) -> u32 {
        let types = self.image.count(Table::Types);
        if types > 0 && self.random.percent(if depth > 0 { 30 } else { 60 }) {
            let number = self.random.below(types);
            let is_var = *self.image.cell(Table::Types, number, 0) == 0;
            if self.lengths[number as usize] <= self.longest && !is_var {
                return number;
            }
        }
        let most = if depth > 0 { 160 } else { 105 };
        match self.random.below(most) {
            0..=4 if self.image.count(Table::Slots) > 0 => self.var_of_any_slot(),
            0..=43 => self.primitive(),
            44..=47 => self.add_type([2, 0, 0], 1),
            48..=53 => self.add_type([3, 0, 0], 1),
            54..=104 => {
                let shape = self.shape_number();
                self.object(shape)
            }
            105..=144 => {
                let (shape, constructor) = (self.shape_number(), self.random.percent(25));
                let returns = self.any_type(depth - 1);
                self.function_type(shape, constructor, returns)
            }
            _ => {
                let empty = self.chance(self.rare / 25);
                let count = if empty { 0 } else { self.random.range(1, 3) };
                let operands: Vec<u32> = (0..count).map(|_| self.any_type(depth - 1)).collect();
                self.phi_type(&operands)
            }
        }
    }

    /// Registers most shapes, with a few properties each.
    fn shapes(&mut self) {
        let shapes = self.image.count(Table::Shapes);
        if self.left() > 150 && self.random.percent(50) {
            self.positions = Some(self.random.below(shapes));
        }
        for number in 0..shapes {
            let positions = self.positions == Some(number);
            if self.random.percent(30) && !positions {
                continue;
            }
            let most = if self.left() > 250 { 5 } else { 2 };
            let mut texts =
                if positions { vec!["0", "1", "2", "3", "10", "11"] } else { self.properties.clone() };
            self.random.shuffle(&mut texts);
            texts.truncate(if positions { 4 } else { self.random.below(most) as usize });
            if !texts.is_empty() && self.random.percent(45) && !positions {
                texts.push("*");
            }
            texts.sort();
            texts.dedup();
            self.random.shuffle(&mut texts);
            // what a ref's "current" is must not matter where a name makes it a ref
            let variable = if number == 1 { 50 } else { 10 };
            if number == 1 && self.random.percent(50) {
                texts = vec!["current"];
            }
            let mut rows = vec![];
            for text in texts {
                let of_type = match self.random.percent(variable) && self.image.count(Table::Slots) > 0 {
                    true => self.var_of_any_slot(),
                    false => self.any_type(2),
                };
                rows.push((self.name(text), of_type));
            }
            let first = self.image.count(Table::Properties);
            for (name, of_type) in rows {
                self.image.property(name, of_type);
            }
            self.image.set_shape(number, [1, first, self.image.count(Table::Properties) - first]);
        }
    }

    // identifiers

    /// A new identifier, named or not.
    fn identifier(&mut self) -> u32 {
        let name = if self.random.percent(40) { self.variable_name() } else { NONE };
        self.identifier_named(name)
    }

    fn identifier_named(&mut self, name: u32) -> u32 {
        let slots = self.image.count(Table::Slots);
        let slot = match self.random.below(1_000) {
            chance if slots > 0 && chance < 20 + self.wild => self.random.below(slots),
            920.. => {
                // a slot whose type isn't its own Var: whether it is visited shows in the tables
                let of_type = match slots > 0 && self.random.percent(60) {
                    true => self.var_of_any_slot(),
                    false => self.any_type(2),
                };
                self.image.slot(of_type)
            }
            _ => {
                let own = self.var(slots);
                self.image.slot(own)
            }
        };
        self.image.identifier(slot, name)
    }

    /// An operand.
    fn operand(&mut self, scope: &mut Scope) -> u32 {
        let identifiers = self.image.count(Table::Identifiers);
        if identifiers > 0 && self.chance(self.wild) {
            return self.random.below(identifiers);
        }
        if scope.defined.is_empty() {
            let new = self.identifier();
            scope.defined.push(new);
            return new;
        }
        if self.random.percent(6) {
            return self.unseen(scope);
        }
        let near = if self.random.percent(60) { 5 } else { scope.defined.len() };
        self.random.pick(&scope.defined[scope.defined.len().saturating_sub(near)..])
    }

    /// An operand that stands nowhere else, whose slot's type is the Var of a value: a visit resolves it.
    fn unseen(&mut self, scope: &mut Scope) -> u32 {
        let value = self.random.pick(&scope.defined);
        let slot = *self.image.cell(Table::Identifiers, value, 0);
        let of_type = self.var(slot);
        let slot = self.image.slot(of_type);
        self.image.identifier(slot, NONE)
    }

    /// What an instruction or a phi defines.
    fn lvalue(&mut self, scope: &mut Scope) -> u32 {
        let defined = if !scope.defined.is_empty() && self.chance(self.wild + 10 * self.rare / 1_000) {
            self.random.pick(&scope.defined)
        } else if !scope.pending.is_empty() && self.random.percent(35) {
            let at = self.random.below(scope.pending.len() as u32) as usize;
            scope.pending.swap_remove(at)
        } else {
            self.identifier()
        };
        scope.defined.push(defined);
        defined
    }

    // the words

    fn lay_out(&mut self) -> Input {
        let mut input = self.image.write_as(&any_layout(self.random, &self.image));
        input.budget = if self.random.percent(95) { 65_536 } else { self.random.below(300) };
        input.lend_enough();
        input
    }
}
