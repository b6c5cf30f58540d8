//! The image check once more, plainly, from the text of document 01. It uses no other file of this folder.

use std::collections::HashSet;

const NONE: u32 = u32::MAX;

/// The header word of a table's count, which its offset follows, and the words of a row.
#[derive(Clone, Copy)]
struct Table(usize, usize);

const NAMES: Table = Table(3, 2);
const IDENTIFIERS: Table = Table(5, 2);
const SLOTS: Table = Table(7, 1);
const TYPES: Table = Table(9, 3);
const LISTS: Table = Table(11, 1);
const SHAPES: Table = Table(13, 3);
const PROPERTIES: Table = Table(15, 2);
const FUNCTIONS: Table = Table(17, 2);
const TABLES: [Table; 8] = [NAMES, IDENTIFIERS, SLOTS, TYPES, LISTS, SHAPES, PROPERTIES, FUNCTIONS];

struct Image<'a> {
    words: &'a [u32],
    bytes: &'a [u8],
}

/// A range lies in what it is a part of; an empty one starts there or at its end.
fn inside(start: u32, count: u32, total: u64) -> bool {
    start as u64 + count as u64 <= total
}

impl Image<'_> {
    fn count(&self, table: Table) -> u32 {
        self.words[table.0]
    }

    fn row(&self, table: Table, number: u32) -> &[u32] {
        let start = self.words[table.0 + 1] as usize + number as usize * table.1;
        &self.words[start..start + table.1]
    }

    fn rows(&self, table: Table) -> impl Iterator<Item = &[u32]> {
        (0..self.count(table)).map(move |number| self.row(table, number))
    }

    fn has(&self, table: Table, number: u32) -> bool {
        number < self.count(table)
    }

    fn has_or_none(&self, table: Table, number: u32) -> bool {
        number == NONE || self.has(table, number)
    }

    fn name(&self, number: u32) -> &[u8] {
        let range = self.row(NAMES, number);
        &self.bytes[range[0] as usize..][..range[1] as usize]
    }
}

/// The first of the refusals 1 to 10 that is due, or 0.
pub fn check(words: &[u32], bytes: &[u8], budget: u32, work: usize) -> u32 {
    if words.len() < 20 || words.len() > 65_536 {
        return 1;
    }
    if bytes.len() > 65_536 {
        return 2;
    }
    if budget > 65_536 {
        return 3;
    }
    if work < 8 * (words.len() + budget as usize) {
        return 4;
    }
    let image = Image { words, bytes };
    let sound: [fn(&Image) -> bool; 6] = [header, references, types, shapes, bodies, nesting];
    sound.iter().zip(5..).find(|(sound, _)| !sound(&image)).map_or(0, |(_, number)| number)
}

/// 5
fn header(image: &Image) -> bool {
    let length = image.words.len() as u64;
    let fits = |table: &Table| {
        let offset = image.words[table.0 + 1];
        offset >= 20 && offset as u64 + image.count(*table) as u64 * table.1 as u64 <= length
    };
    image.words[0] == 1
        && image.words[1] <= 3
        && image.count(FUNCTIONS) > 0
        && image.words[19] as u64 == length
        && TABLES.iter().all(fits)
}

/// 6
fn references(image: &Image) -> bool {
    let (words, bytes) = (image.words.len() as u64, image.bytes.len() as u64);
    image.rows(IDENTIFIERS).all(|row| image.has(SLOTS, row[0]) && image.has_or_none(NAMES, row[1]))
        && image.rows(SLOTS).all(|row| image.has(TYPES, row[0]))
        && image.rows(PROPERTIES).all(|row| image.has(NAMES, row[0]) && image.has(TYPES, row[1]))
        && image.has_or_none(TYPES, image.words[2])
        && image.rows(NAMES).all(|row| inside(row[0], row[1], bytes))
        && image.rows(FUNCTIONS).all(|row| inside(row[0], row[1], words))
}

/// 7
fn types(image: &Image) -> bool {
    let mut lengths = vec![];
    for row in image.rows(TYPES) {
        match type_length(image, &lengths, row) {
            Some(length) if length <= 4_096 => lengths.push(length),
            _ => return false,
        }
    }
    true
}

/// The words that a type takes written out, given those of the types before it; none if a rule is broken.
fn type_length(image: &Image, earlier: &[u64], row: &[u32]) -> Option<u64> {
    let (a, b) = (row[1], row[2]);
    let length = |number: u32| earlier.get(number as usize).copied();
    match row[0] {
        0 if image.has(SLOTS, a) && b == 0 => Some(2),
        1..=3 if a == 0 && b == 0 => Some(1),
        4 if image.has_or_none(SHAPES, a) && b == 0 => Some(2),
        5 | 6 if image.has_or_none(SHAPES, a) => Some(2 + length(b)?),
        7 if inside(a, b, image.count(LISTS) as u64) => {
            let mut sum = 2;
            for k in 0..b {
                sum += length(image.row(LISTS, a + k)[0])?;
            }
            Some(sum)
        }
        _ => None,
    }
}

/// 8
fn shapes(image: &Image) -> bool {
    image.count(SHAPES) >= 9 && image.rows(SHAPES).all(|row| shape(image, row[0], row[1], row[2]))
}

fn shape(image: &Image, present: u32, first: u32, count: u32) -> bool {
    if present > 1 || !inside(first, count, image.count(PROPERTIES) as u64) {
        return false;
    }
    if present == 0 && count > 0 {
        return false;
    }
    let mut seen = HashSet::new();
    (first..first + count).all(|number| seen.insert(image.name(image.row(PROPERTIES, number)[0])))
}

/// 9
fn bodies(image: &Image) -> bool {
    let ranges: Vec<(u32, u32)> = image.rows(FUNCTIONS).map(|row| (row[0], row[0] + row[1])).collect();
    let apart = |f: usize, g: usize| ranges[f].1 <= ranges[g].0 || ranges[g].1 <= ranges[f].0;
    (0..image.count(FUNCTIONS)).all(|number| body(image, number).is_some())
        && (0..ranges.len()).all(|g| (0..g).all(|f| apart(f, g)))
}

/// 10
fn nesting(image: &Image) -> bool {
    let mut named = HashSet::new();
    (0..image.count(FUNCTIONS))
        .all(|f| body(image, f).unwrap_or_default().iter().all(|&g| g > f && named.insert(g)))
}

enum Aux {
    Zero,
    Flag,
    Name,
    Type,
    Function,
}

const ARGUMENTS: &[u32] = &[0, 1];
const ELEMENTS: &[u32] = &[0, 1, 2];
const KEYS: &[u32] = &[1, 3, 4, 5];

/// Of each kind but Destructure: the aux word, the places that come first, the tags of the items after them.
const KINDS: [(Aux, u32, &[u32]); 42] = [
    (Aux::Zero, 1, &[]),        // LoadLocal
    (Aux::Zero, 1, &[]),        // LoadContext
    (Aux::Zero, 1, &[]),        // DeclareLocal
    (Aux::Zero, 1, &[]),        // DeclareContext
    (Aux::Zero, 2, &[]),        // StoreLocal
    (Aux::Flag, 2, &[]),        // StoreContext
    (Aux::Flag, 0, &[]),        // Destructure
    (Aux::Zero, 0, &[]),        // Primitive
    (Aux::Zero, 0, &[]),        // JSXText
    (Aux::Flag, 2, &[]),        // BinaryExpression
    (Aux::Zero, 1, ARGUMENTS),  // NewExpression
    (Aux::Zero, 1, ARGUMENTS),  // CallExpression
    (Aux::Zero, 2, ARGUMENTS),  // MethodCall
    (Aux::Zero, 1, &[]),        // UnaryExpression
    (Aux::Zero, 1, &[]),        // TypeCastExpression
    (Aux::Zero, 0, &[0, 1, 6]), // JsxExpression
    (Aux::Zero, 0, KEYS),       // ObjectExpression
    (Aux::Function, 0, &[]),    // ObjectMethod
    (Aux::Zero, 0, ELEMENTS),   // ArrayExpression
    (Aux::Zero, 0, &[0]),       // JsxFragment
    (Aux::Zero, 0, &[]),        // RegExpLiteral
    (Aux::Zero, 0, &[]),        // MetaProperty
    (Aux::Name, 2, &[]),        // PropertyStore
    (Aux::Name, 1, &[]),        // PropertyLoad
    (Aux::Zero, 1, &[]),        // PropertyDelete
    (Aux::Zero, 3, &[]),        // ComputedStore
    (Aux::Zero, 2, &[]),        // ComputedLoad
    (Aux::Zero, 2, &[]),        // ComputedDelete
    (Aux::Type, 0, &[]),        // LoadGlobal
    (Aux::Zero, 1, &[]),        // StoreGlobal
    (Aux::Function, 0, &[]),    // FunctionExpression
    (Aux::Zero, 1, &[0]),       // TaggedTemplateExpression
    (Aux::Zero, 0, &[0]),       // TemplateLiteral
    (Aux::Zero, 1, &[]),        // Await
    (Aux::Zero, 1, &[]),        // GetIterator
    (Aux::Zero, 2, &[]),        // IteratorNext
    (Aux::Zero, 1, &[]),        // NextPropertyOf
    (Aux::Zero, 2, &[]),        // PrefixUpdate
    (Aux::Zero, 2, &[]),        // PostfixUpdate
    (Aux::Zero, 0, &[]),        // Debugger
    (Aux::Zero, 0, &[0]),       // StartMemoize
    (Aux::Zero, 1, &[]),        // FinishMemoize
];
const DESTRUCTURE: u32 = 6;

/// What is left of a body's words, and the functions that were named so far.
struct Reader<'a> {
    image: &'a Image<'a>,
    words: std::slice::Iter<'a, u32>,
    named: Vec<u32>,
}

/// The functions that a body names in order; none if the body is broken.
fn body(image: &Image, number: u32) -> Option<Vec<u32>> {
    let range = image.row(FUNCTIONS, number);
    let words = image.words[range[0] as usize..][..range[1] as usize].iter();
    let mut reader = Reader { image, words, named: vec![] };
    reader.below(3)?;
    reader.identifier()?;
    for _ in 0..reader.word()? {
        reader.below(2)?;
        reader.identifier()?;
    }
    reader.identifiers()?;
    for _ in 0..reader.word()? {
        reader.block()?;
    }
    reader.words.as_slice().is_empty().then_some(reader.named)
}

impl Reader<'_> {
    fn word(&mut self) -> Option<u32> {
        self.words.next().copied()
    }

    fn below(&mut self, bound: u32) -> Option<u32> {
        self.word().filter(|&word| word < bound)
    }

    fn of(&mut self, table: Table) -> Option<u32> {
        self.below(self.image.count(table))
    }

    fn identifier(&mut self) -> Option<u32> {
        self.of(IDENTIFIERS)
    }

    /// A count, and so many identifiers.
    fn identifiers(&mut self) -> Option<()> {
        for _ in 0..self.word()? {
            self.identifier()?;
        }
        Some(())
    }

    fn block(&mut self) -> Option<()> {
        for _ in 0..self.word()? {
            self.identifier()?;
            self.identifiers()?;
        }
        for _ in 0..self.word()? {
            self.instruction()?;
        }
        if self.below(2)? == 1 {
            self.identifier()?
        } else {
            self.below(1)?
        };
        Some(())
    }

    fn instruction(&mut self) -> Option<()> {
        let kind = self.below(42)?;
        let (aux, places, tags) = &KINDS[kind as usize];
        self.identifier()?;
        let aux = self.aux(aux)?;
        let count = self.word()?;
        if kind == DESTRUCTURE {
            let tags = if aux == 0 { ELEMENTS } else { KEYS };
            for _ in 0..count.checked_sub(1)? {
                self.item(tags)?;
            }
            return self.item(&[0]);
        }
        let others = count.checked_sub(*places)?;
        for _ in 0..*places {
            self.item(&[0])?;
        }
        for _ in 0..others {
            self.item(tags)?;
        }
        Some(())
    }

    fn aux(&mut self, aux: &Aux) -> Option<u32> {
        let image = self.image;
        match aux {
            Aux::Zero => self.below(1),
            Aux::Flag => self.below(2),
            Aux::Name => self.word().filter(|&word| image.has_or_none(NAMES, word)),
            Aux::Type => self.word().filter(|&word| image.has_or_none(TYPES, word)),
            Aux::Function => {
                let function = self.of(FUNCTIONS)?;
                self.named.push(function);
                Some(function)
            }
        }
    }

    fn item(&mut self, tags: &[u32]) -> Option<()> {
        let tag = self.word().filter(|tag| tags.contains(tag))?;
        if tag == 2 {
            self.below(1)?
        } else {
            self.identifier()?
        };
        match tag {
            3 | 6 => self.of(NAMES)?,
            4 => self.identifier()?,
            _ => self.below(1)?,
        };
        Some(())
    }
}
