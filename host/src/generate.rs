//! Random images that pass the check.

use crate::image::*;
use crate::random::Random;
use std::collections::HashSet;

/// An image that passes the check, written, and the position and role of each word of its bodies.
pub struct Valid {
    pub input: Input,
    pub roles: Vec<(usize, Role)>,
}

/// An image of about so many words; what is too long is tried again shorter.
pub fn valid(random: &mut Random, words: u32) -> Valid {
    let mut writer = Writer { random, image: Image::new() };
    writer.parts(words.saturating_sub(80));
    let input = writer.lay_out();
    if input.image.len() > 65_536 {
        return valid(random, words / 2);
    }
    let roles = writer.image.roles(&input);
    Valid { input, roles }
}

/// Where an image's parts may stand: in or out of order, with or without gaps.
pub fn any_layout(random: &mut Random, image: &Image) -> Layout {
    let mut layout = image.layout();
    if random.percent(50) {
        random.shuffle(&mut layout.tables);
        random.shuffle(&mut layout.bodies);
    }
    if random.percent(30) {
        let gap = |random: &mut Random| vec![random.pick(&[0, 1, NONE]); random.pick(&[0, 0, 1, 3])];
        layout.gaps = (0..8 + layout.bodies.len()).map(|_| gap(random)).collect();
    }
    layout
}

struct Writer<'a> {
    random: &'a mut Random,
    image: Image,
}

impl Writer<'_> {
    fn parts(&mut self, words: u32) {
        // how the words are shared out: names, variables, types, shapes, properties, bodies
        let mut weights: [u32; 6] = std::array::from_fn(|_| self.random.pick(&[0, 1, 1, 2, 12]));
        weights[5] += 4;
        let total = weights.iter().sum::<u32>();
        let [names, variables, types, shapes, properties, bodies] = weights.map(|one| words * one / total);
        self.image.options = self.random.below(4);
        self.names(names / 2);
        self.variables(1 + variables / 3, 1 + types / 4);
        self.types(1 + types / 4, 9 + shapes / 3);
        self.properties(properties / 2);
        self.shapes(shapes / 3);
        self.image.hook = self.number_or_none(Table::Types);
        self.functions(bodies);
    }

    fn number(&mut self, table: Table) -> u32 {
        self.random.below(self.image.count(table))
    }

    fn number_or_none(&mut self, table: Table) -> u32 {
        if self.image.count(table) == 0 || self.random.percent(20) {
            NONE
        } else {
            self.number(table)
        }
    }

    fn names(&mut self, count: u32) {
        let letters = self.random.pick(&[1, 2, 3, 26, 256]);
        let bytes = self.random.below((4 * count + 20).min(65_537));
        self.image.bytes = (0..bytes).map(|_| (97 + self.random.below(letters)) as u8).collect();
        for _ in 0..count {
            let start = self.random.below(bytes + 1);
            let most = if self.random.percent(95) { 12 } else { bytes };
            let length = self.random.below((bytes - start).min(most) + 1);
            self.image.name_range(start as usize, length as usize);
        }
    }

    /// So many slots with types out of so many, and identifiers.
    fn variables(&mut self, count: u32, types: u32) {
        for _ in 0..count {
            let of_type = self.random.below(types);
            self.image.slot(of_type);
        }
        for _ in 0..self.random.range(1, count) {
            let (slot, name) = (self.number(Table::Slots), self.number_or_none(Table::Names));
            self.image.identifier(slot, name);
        }
    }

    /// So many types over so many shapes.
    fn types(&mut self, count: u32, shapes: u32) {
        let mut lengths = vec![];
        for number in 0..count {
            let (row, length) = self.type_row(number, shapes, &lengths);
            let (row, length) = if length > 4_096 { ([1, 0, 0], 1) } else { (row, length) };
            self.image.row(Table::Types, &row);
            lengths.push(length);
        }
        for _ in 0..self.random.below(4) {
            let in_no_phi = self.random.pick(&[0, 7, NONE]);
            self.image.list(&[in_no_phi]);
        }
    }

    /// A row of the type table, and the type's length written out.
    fn type_row(&mut self, number: u32, shapes: u32, lengths: &[u32]) -> ([u32; 3], u32) {
        let kind = self.random.below(if number == 0 { 5 } else { 8 });
        let shape = if self.random.percent(20) { NONE } else { self.random.below(shapes) };
        match kind {
            0 => ([0, self.number(Table::Slots), 0], 2),
            1..=3 => ([kind, 0, 0], 1),
            4 => ([4, shape, 0], 2),
            5 | 6 => {
                let returns = self.earlier(number);
                ([kind, shape, returns], 2 + lengths[returns as usize])
            }
            _ => {
                let (first, count) = self.operands(number);
                let operands = &self.image.rows(Table::Lists)[first as usize..][..count as usize];
                ([7, first, count], 2 + operands.iter().map(|&one| lengths[one as usize]).sum::<u32>())
            }
        }
    }

    fn earlier(&mut self, number: u32) -> u32 {
        let near = if self.random.percent(50) { number.min(3) } else { number };
        number - 1 - self.random.below(near)
    }

    /// First list word and count of a Phi: words of earlier ones, or new ones.
    fn operands(&mut self, number: u32) -> (u32, u32) {
        let old = self.image.count(Table::Lists);
        if self.random.percent(40) {
            let first = self.random.below(old + 1);
            return (first, self.random.below((old - first).min(6) + 1));
        }
        let count = self.random.below(5);
        for _ in 0..count {
            let operand = self.earlier(number);
            self.image.list(&[operand]);
        }
        (old, count)
    }

    fn properties(&mut self, count: u32) {
        if self.image.count(Table::Names) > 0 {
            for _ in 0..count {
                let (name, of_type) = (self.number(Table::Names), self.number(Table::Types));
                self.image.property(name, of_type);
            }
        }
    }

    /// Nine shapes and so many more; shapes may share properties.
    fn shapes(&mut self, more: u32) {
        let count = self.image.count(Table::Properties);
        let most = self.random.pick(&[3, 10, count]);
        for number in 0..9 + more {
            let first = self.random.below(count + 1);
            let row = match self.random.percent(30) {
                true => [0, first, 0],
                false => [1, first, self.random.below(self.distinct_from(first, most) + 1)],
            };
            self.image.set_shape(number, row);
        }
    }

    /// How many properties from one on have names of different bytes, at most so many.
    fn distinct_from(&self, first: u32, most: u32) -> u32 {
        let names = |property: &[u32]| {
            let range = &self.image.rows(Table::Names)[2 * property[0] as usize..];
            &self.image.bytes[range[0] as usize..][..range[1] as usize]
        };
        let mut seen = HashSet::new();
        let rows = self.image.rows(Table::Properties)[2 * first as usize..].chunks(2).take(most as usize);
        rows.take_while(|property| seen.insert(names(property))).count() as u32
    }

    /// Functions of about so many words in all; most of them are named by one of smaller number.
    fn functions(&mut self, words: u32) {
        let each = self.random.pick(&[8, 20, 60, 300, 2 * words]).max(8);
        let count = 1 + words / each;
        let chain = self.random.percent(20);
        let mut named = vec![vec![]; count as usize];
        for function in 1..count {
            if self.random.percent(85) {
                let by = if chain { function - 1 } else { self.random.below(function) };
                named[by as usize].push(function);
            }
        }
        for inner in named {
            let body = self.body(each, inner);
            self.image.body(body);
        }
    }

    fn identifier(&mut self) -> u32 {
        self.number(Table::Identifiers)
    }

    /// So many identifiers at most.
    fn identifiers(&mut self, most: u32) -> Vec<u32> {
        (0..self.random.below(most + 1)).map(|_| self.identifier()).collect()
    }

    /// A body of about so many words that names these functions.
    fn body(&mut self, words: u32, inner: Vec<u32>) -> Body {
        let mut instructions: Vec<Instruction> = (0..words / 9).map(|_| self.instruction()).collect();
        for function in inner {
            let kind = self.random.pick(&[Kind::FunctionExpression, Kind::ObjectMethod]);
            instructions.push(Instruction::new(kind, self.identifier(), function, vec![]));
        }
        self.random.shuffle(&mut instructions);
        let least = instructions.len().min(1) as u32;
        let blocks = self.random.range(least, least + instructions.len() as u32 / 2);
        let mut body = Body::new(self.identifier(), (0..blocks).map(|_| self.block()).collect());
        for instruction in instructions {
            let block = self.random.below(blocks) as usize;
            body.blocks[block].instructions.push(instruction);
        }
        body.fn_type = self.random.pick(FnType::ALL);
        body.params = self.identifiers(3).into_iter().map(|one| (self.random.percent(20), one)).collect();
        body.context = self.identifiers(3);
        body
    }

    /// A block without instructions.
    fn block(&mut self) -> Block {
        let phis = (0..self.random.pick(&[0, 0, 1, 2])).map(|_| (self.identifier(), self.identifiers(4)));
        let phis = phis.collect();
        let returned = if self.random.percent(40) { Some(self.identifier()) } else { None };
        Block { phis, instructions: vec![], returned }
    }

    /// An instruction that names no function.
    fn instruction(&mut self) -> Instruction {
        let kind = self.random.pick(Kind::ALL);
        let aux = match Instruction::aux_role(kind) {
            Role::Function => return self.instruction(),
            Role::Flag => self.random.below(2),
            Role::NameOrNone => self.number_or_none(Table::Names),
            Role::TypeOrNone => self.number_or_none(Table::Types),
            _ => 0,
        };
        let (places, tags) = Instruction::item_rule(kind, aux);
        let mut items: Vec<Item> = (0..places).map(|_| self.item(&[Tag::Place])).collect();
        if !tags.is_empty() {
            let most = if self.random.percent(2) { 40 } else { 3 };
            items.extend((0..self.random.below(most + 1)).map(|_| self.item(tags)));
        }
        if kind == Kind::Destructure {
            items.push(self.item(&[Tag::Place]));
        }
        Instruction::new(kind, self.identifier(), aux, items)
    }

    /// An item of one of these tags, of which one needs no name.
    fn item(&mut self, tags: &[Tag]) -> Item {
        let tag = self.random.pick(tags);
        let key = match tag.key_role() {
            Role::Name if self.image.count(Table::Names) == 0 => return self.item(tags),
            Role::Name => self.number(Table::Names),
            Role::Identifier => self.identifier(),
            _ => 0,
        };
        let identifier = if tag == Tag::Hole { 0 } else { self.identifier() };
        Item { tag, identifier, key }
    }

    fn lay_out(&mut self) -> Input {
        let mut input = self.image.write_as(&any_layout(self.random, &self.image));
        let length = input.image.len() as u32;
        if self.random.percent(20) {
            // an empty table stands anywhere; list words in no Phi may lie over anything
            for &table in Table::ALL.iter().filter(|table| self.image.count(**table) == 0) {
                input.image[table.offset_at()] = self.random.range(HEADER_WORDS as u32, length);
            }
            let room = length - input.image[Table::Lists.offset_at()];
            input.image[Table::Lists.count_at()] = self.random.range(input.count(Table::Lists), room);
        }
        input.budget = self.random.pick(&[0, 1, 1_024, 65_536]);
        input.lend_enough();
        input.work += self.random.pick(&[0, 1, 100_000]);
        input
    }
}
