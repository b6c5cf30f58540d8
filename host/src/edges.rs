//! Cases at the edges of each rule, with the number that document 01 gives them; and inputs that differ
//! from a sample in one word or one instruction.

use crate::image::*;

/// The most image words, name bytes and steps.
const LIMIT: usize = 65_536;

/// The least image that passes: one unnamed variable, and a function without blocks.
pub fn least() -> Image {
    let mut image = Image::new();
    let returns = image.variable();
    image.body(Body::new(returns, vec![]));
    image
}

/// An item of the sample's identifiers and names.
fn item(tag: Tag) -> Item {
    let key = if tag.key_role() == Role::Zero { 0 } else { 1 };
    Item { tag, identifier: if tag == Tag::Hole { 0 } else { 1 }, key }
}

/// An instruction with one item of each tag that its kind allows.
fn instruction(kind: Kind, aux: u32) -> Instruction {
    let (places, tags) = Instruction::item_rule(kind, aux);
    let mut items = vec![Item::place(1); places as usize];
    items.extend(tags.iter().map(|&tag| item(tag)));
    if kind == Kind::Destructure {
        items.push(Item::place(1));
    }
    Instruction::new(kind, 0, aux, items)
}

/// A small image with each kind of type and instruction and each tag. Function 0 names 1 and 2, none names 3.
pub fn sample() -> Image {
    let mut image = Image::new();
    image.options = 3;
    for text in [&b"a"[..], b"ab", b"", b"b"] {
        image.name(text);
    }
    let (x, y) = (image.variable(), image.variable());
    let primitive = image.primitive();
    image.poly();
    image.method();
    let object = image.object(8);
    image.hook = image.function(NONE, object);
    let constructor = image.constructor(9, image.hook);
    let phi = image.phi(&[primitive, object, constructor]);
    image.phi_over(1, 1);
    image.phi_over(3, 0);
    let slot = image.slot(phi);
    image.identifier(slot, 1);
    for name in [0, 1, 2, 3, 0] {
        image.property(name, object);
    }
    image.set_shape(3, [1, 0, 4]);
    image.set_shape(4, [0, 5, 0]);
    image.shape(1, 4);

    let mut instructions: Vec<Instruction> = Kind::ALL.iter().map(|&kind| instruction(kind, 0)).collect();
    instructions.push(instruction(Kind::Destructure, 1));
    for (kind, aux) in [
        (Kind::FunctionExpression, 1),
        (Kind::ObjectMethod, 2),
        (Kind::BinaryExpression, 1),
        (Kind::PropertyStore, NONE),
        (Kind::LoadGlobal, phi),
    ] {
        instructions[kind as usize].aux = aux;
    }
    let phis = vec![(x, vec![x, y]), (y, vec![])];
    let mut outer = Body::new(x, vec![Block { phis, instructions, returned: Some(y) }, Block::default()]);
    outer.params = vec![(false, x), (true, y)];
    outer.context = vec![y];
    image.body(outer);
    for _ in 1..4 {
        image.body(Body::new(x, vec![Block::default()]));
    }
    image
}

struct Cases(Vec<Case>);

impl Cases {
    fn add(&mut self, name: impl Into<String>, expected: u32, input: Input) {
        self.0.push(Case { name: name.into(), input, expected });
    }

    /// The sample with a change.
    fn change(&mut self, name: impl Into<String>, expected: u32, change: impl FnOnce(&mut Input)) {
        let mut input = sample().write();
        change(&mut input);
        self.add(name, expected, input);
    }

    /// A cell of the sample with another word.
    fn set(&mut self, name: &str, expected: u32, table: Table, row: u32, field: usize, word: u32) {
        let name = format!("{name}: {word} in field {field} of row {row} of {table:?}");
        self.change(name, expected, |input| *input.cell(table, row, field) = word);
    }
}

pub fn edges() -> Vec<Case> {
    let mut cases = Cases(vec![]);
    cases.add("the least image", 0, least().write());
    cases.add("the sample", 0, sample().write());
    lengths(&mut cases);
    header(&mut cases);
    references(&mut cases);
    types(&mut cases);
    shapes(&mut cases);
    bodies(&mut cases);
    nesting(&mut cases);
    order(&mut cases);
    cases.0
}

/// 1 to 4
fn lengths(cases: &mut Cases) {
    for words in [0, 1, 19] {
        cases.change(format!("{words} words"), 1, |input| input.image.truncate(words));
    }
    cases.change("20 words", 5, |input| input.image.truncate(20));
    for (words, expected) in [(LIMIT, 0), (LIMIT + 1, 1)] {
        cases.change(format!("{words} words"), expected, |input| input.extend_to(words));
    }
    for (bytes, expected) in [(LIMIT, 0), (LIMIT + 1, 2)] {
        cases.change(format!("{bytes} name bytes"), expected, |input| input.names.resize(bytes, 0));
    }
    for (budget, expected) in [(0, 0), (65_536, 0), (65_537, 3), (NONE, 3)] {
        cases.change(format!("budget {budget}"), expected, |input| {
            input.budget = budget;
            input.lend_enough();
        });
    }
    cases.change("one work word too few", 4, |input| input.work -= 1);
    cases.change("no work words", 4, |input| input.work = 0);
    cases.change("the most work words", 0, |input| input.work = usize::MAX);
    cases.change("the longest of everything, and one work word too few", 4, |input| {
        input.budget = 65_536;
        input.extend_to(LIMIT);
        input.work -= 1;
    });
}

/// 5
fn header(cases: &mut Cases) {
    for (at, words) in [(VERSION, vec![0, 2, NONE]), (OPTIONS, vec![4, NONE])] {
        for word in words {
            cases.change(format!("header word {at} is {word}"), 5, |input| input.image[at] = word);
        }
    }
    for by in [1, NONE] {
        cases.change("word 19 is wrong by one", 5, |input| {
            input.image[LENGTH] = input.image[LENGTH].wrapping_add(by);
        });
    }
    cases.change("no function", 5, |input| input.image[Table::Functions.count_at()] = 0);
    for &table in Table::ALL {
        for offset in [0, 19, NONE] {
            cases
                .change(format!("{table:?} at {offset}"), 5, |input| input.image[table.offset_at()] = offset);
        }
        let wrapping = NONE / table.width() as u32 + u32::from(table.width() > 1);
        for count in [NONE, 1 << 31, wrapping] {
            cases.change(format!("{count} rows of {table:?}"), 5, |input| {
                input.image[table.count_at()] = count
            });
        }
        cases.change(format!("{table:?} leaves the image by a word"), 5, |input| {
            let room = input.image.len() as u32 - input.image[table.offset_at()];
            input.image[table.count_at()] = room / table.width() as u32 + 1;
        });
        for (past, expected) in [(0, 0), (1, 5)] {
            let name = format!("no rows of {table:?}, at {past} past the end");
            if [Table::Names, Table::Lists, Table::Properties].contains(&table) {
                let mut input = least().write();
                input.image[table.offset_at()] = input.image.len() as u32 + past;
                cases.add(name, expected, input);
            }
        }
    }
    cases.change("the list words reach to the end", 0, |input| {
        input.image[Table::Lists.count_at()] =
            input.image.len() as u32 - input.image[Table::Lists.offset_at()];
    });
    let mut layout = sample().layout();
    layout.bodies.reverse();
    layout.tables.reverse();
    layout.gaps = vec![vec![NONE; 3]; 12];
    cases.add("tables and bodies in reverse, with gaps", 0, sample().write_as(&layout));
}

/// 6
fn references(cases: &mut Cases) {
    let image = sample();
    let bounds = [
        (Table::Identifiers, 0, Table::Slots, 6),
        (Table::Identifiers, 1, Table::Names, 0),
        (Table::Slots, 0, Table::Types, 6),
        (Table::Properties, 0, Table::Names, 6),
        (Table::Properties, 1, Table::Types, 6),
    ];
    for (table, field, of, none) in bounds {
        for row in [0, image.count(table) - 1] {
            cases.set("past its table", 6, table, row, field, image.count(of));
            cases.set("none", none, table, row, field, NONE);
            cases.set("nearly none", 6, table, row, field, NONE - 1);
        }
    }
    for (hook, expected) in [(image.count(Table::Types), 6), (NONE - 1, 6), (NONE, 0), (0, 0)] {
        cases.change(format!("hook type {hook}"), expected, |input| input.image[HOOK] = hook);
    }
    let bytes = image.bytes.len() as u32;
    for (start, length, expected) in [
        (bytes, 0, 0),
        (bytes + 1, 0, 6),
        (0, bytes, 0),
        (1, bytes, 6),
        (NONE, 2, 6),
        (2, NONE, 6),
        (NONE, NONE, 6),
    ] {
        cases.change(format!("name at {start} of {length} bytes"), expected, |input| {
            *input.cell(Table::Names, 2, 0) = start;
            *input.cell(Table::Names, 2, 1) = length;
        });
    }
    let words = image.write().image.len() as u32;
    for (start, length, expected) in
        [(words, 0, 9), (words, 1, 6), (words + 1, 0, 6), (0, words, 9), (NONE, 2, 6), (2, NONE, 6)]
    {
        cases.change(format!("body at {start} of {length} words"), expected, |input| {
            *input.cell(Table::Functions, 3, 0) = start;
            *input.cell(Table::Functions, 3, 1) = length;
        });
    }
}

/// 7
fn types(cases: &mut Cases) {
    let image = sample();
    let (slots, shapes, lists) =
        (image.count(Table::Slots), image.count(Table::Shapes), image.count(Table::Lists));
    // a type of each kind as the last row, and its number
    let last = image.count(Table::Types);
    #[rustfmt::skip]
    let rows = [
        (0, 0, 0, 0), (0, slots - 1, 0, 0), (0, slots, 0, 7), (0, NONE, 0, 7), (0, 0, 1, 7),
        (1, 0, 0, 0), (1, 1, 0, 7), (1, 0, 1, 7), (2, 0, 0, 0), (2, 1, 0, 7), (2, 0, 1, 7),
        (3, 0, 0, 0), (3, 1, 0, 7), (3, 0, 1, 7), (3, NONE, 0, 7), (4, shapes - 1, 0, 0),
        (4, NONE, 0, 0), (4, shapes, 0, 7), (4, NONE - 1, 0, 7), (4, 0, 1, 7), (5, NONE, 0, 0),
        (5, shapes - 1, last - 1, 0), (5, shapes, 0, 7), (5, 0, last, 7), (5, 0, NONE, 7),
        (6, NONE, 0, 0), (6, shapes - 1, last - 1, 0), (6, shapes, 0, 7), (6, 0, last, 7),
        (6, 0, last + 1, 7), (7, 0, lists, 0), (7, lists, 0, 0), (7, lists + 1, 0, 7),
        (7, 0, lists + 1, 7), (7, 1, lists, 7), (7, NONE, 1, 7), (7, 1, NONE, 7), (7, NONE, 0, 7),
        (8, 0, 0, 7), (NONE, 0, 0, 7),
    ];
    for (kind, a, b, expected) in rows {
        let mut image = sample();
        image.row(Table::Types, &[kind, a, b]);
        cases.add(format!("last type ({kind}, {a}, {b})"), expected, image.write());
    }
    for (operand, expected) in [(last - 1, 0), (last, 7), (last + 1, 7), (NONE, 7)] {
        let mut image = sample();
        image.phi(&[0, operand]);
        cases.add(format!("last type {last} with operand {operand}"), expected, image.write());
        let mut image = sample();
        image.list(&[operand]);
        cases.add(format!("list word {operand} in no phi"), 0, image.write());
    }
    for (length, expected) in [(4_095, 0), (4_096, 0), (4_097, 7), (4_098, 7)] {
        let mut image = least();
        let primitive = image.primitive();
        let parts = [
            (2, image.var(0)),
            (1, image.poly()),
            (1, image.method()),
            (2, image.object(NONE)),
            (2, image.object(0)),
            (3, image.function(NONE, primitive)),
            (3, image.constructor(0, primitive)),
            (2, image.phi(&[])),
            (4, image.phi(&[primitive, primitive])),
        ];
        for (words, part) in parts {
            let mut image = image.clone();
            image.phi(&[vec![part; 10], vec![primitive; length - 2 - 10 * words]].concat());
            cases.add(format!("a phi of {length} words with ten of type {part}"), expected, image.write());
        }

        let mut image = least();
        let mut number = if length % 2 == 1 { image.primitive() } else { image.object(NONE) };
        for at in 0..(length - 1) / 2 {
            number = if at % 2 == 0 { image.function(0, number) } else { image.constructor(NONE, number) };
        }
        image.primitive();
        cases.add(format!("functions of {length} words"), expected, image.write());

        let mut image = least();
        let mut parts = vec![(1, image.primitive())];
        while let Some(&(words, number)) = parts.last().filter(|part| 2 * part.0 + 2 < length) {
            parts.push((2 * words + 2, image.phi(&[number, number])));
        }
        let (mut operands, mut left) = (vec![], length - 2);
        for &(words, number) in parts.iter().rev() {
            operands.extend(vec![number; left / words]);
            left %= words;
        }
        image.phi(&operands);
        cases.add(format!("phis of {length} words by doubling"), expected, image.write());
    }
}

/// 8
fn shapes(cases: &mut Cases) {
    let mut eight = least().write();
    eight.image[Table::Shapes.count_at()] = 8;
    cases.add("eight shapes", 8, eight);
    cases.change("eight shapes, and a type names another", 7, |input| {
        input.image[Table::Shapes.count_at()] = 8
    });
    let properties = sample().count(Table::Properties);
    #[rustfmt::skip]
    let rows = [
        (0, 0, 0, 0), (1, 0, 0, 0), (2, 0, 0, 8), (NONE, 0, 0, 8), (0, properties, 0, 0),
        (0, properties + 1, 0, 8), (0, 0, 1, 8), (0, NONE, 1, 8), (1, properties, 0, 0),
        (1, properties + 1, 0, 8), (1, properties - 1, 1, 0), (1, properties, 1, 8), (1, 1, 4, 0),
        (1, 2, 4, 8), (1, NONE, 2, 8), (1, 2, NONE, 8), (1, 0, 5, 8),
    ];
    for (present, first, count, expected) in rows {
        for number in [0, 8, 10] {
            let mut image = sample();
            image.set_shape(number, [present, first, count]);
            cases.add(format!("shape {number} is ({present}, {first}, {count})"), expected, image.write());
        }
    }
    #[rustfmt::skip]
    let pairs: [(&[u8], &[u8], u32); 7] = [
        (b"x", b"x", 8), (b"", b"", 8), (b"", b"x", 0), (b"x", b"xy", 0), (b"xy", b"xz", 0),
        (b"xy", b"zy", 0), (b"\xff\x00", b"\xff\x00", 8),
    ];
    for (one, other, expected) in pairs {
        for apart in [0, 3] {
            let mut image = sample();
            let first = image.count(Table::Properties);
            let names =
                [image.name(one), image.name(b"1"), image.name(b"2"), image.name(b"3"), image.name(other)];
            for &name in names[..1 + apart].iter().chain(&names[4..]) {
                image.property(name, 0);
            }
            image.shape(first, apart as u32 + 2);
            cases.add(format!("properties {one:?} and {other:?}"), expected, image.write());
        }
    }
}

/// 9
fn bodies(cases: &mut Cases) {
    let image = sample();
    let count = |table| image.count(table);
    for (at, role) in image.roles(&image.write()) {
        let words = match role {
            Role::FnType => vec![3, NONE],
            Role::Identifier => vec![count(Table::Identifiers), NONE],
            Role::Count => vec![NONE, 1 << 31, 0x5555_5556],
            Role::Flag => vec![2, NONE],
            Role::Kind => vec![42, NONE],
            Role::NameOrNone => vec![count(Table::Names), NONE - 1],
            Role::TypeOrNone => vec![count(Table::Types), NONE - 1],
            Role::Function => vec![count(Table::Functions), NONE],
            Role::Tag => vec![7, NONE],
            Role::Name => vec![count(Table::Names), NONE],
            Role::Zero => vec![1, NONE],
        };
        for word in words {
            let name = format!("{role:?} of word {at} is {word}");
            cases.change(name, 9, |input| input.image[at] = word);
        }
    }
    for function in 0..4 {
        for by in [1, NONE] {
            for field in [0, 1] {
                let name = format!("field {field} of body {function} is wrong by one");
                cases.change(name, if function == 3 && by == 1 { 6 } else { 9 }, |input| {
                    let word = input.cell(Table::Functions, function, field);
                    *word = word.wrapping_add(by);
                });
            }
        }
        cases.set("over the header", 9, Table::Functions, function, 0, 0);
        for words in 0..image.bodies[function as usize].words().len() as u32 {
            cases.set("ending early", 9, Table::Functions, function, 1, words);
        }
    }
    // five zeros are a body: a Component that returns identifier 0
    for (second, expected) in [(5, 0), (6, 0), (4, 9), (1, 9), (0, 9)] {
        for order in [[0, 1], [1, 0]] {
            let mut image = least();
            image.body(Body::new(0, vec![]));
            let mut input = image.write();
            let start = input.image.len() as u32;
            input.extend_to(start as usize + 11);
            input.image[start as usize..].fill(0);
            for (number, at) in order.into_iter().zip([start, start + second]) {
                *input.cell(Table::Functions, number, 0) = at;
                *input.cell(Table::Functions, number, 1) = 5;
            }
            cases.add(format!("two bodies of 5 words, {second} apart"), expected, input);
        }
    }
    let mut image = least();
    image.bodies[0].context = vec![0; 20];
    image.body(Body::new(0, vec![]));
    let mut input = image.write();
    *input.cell(Table::Functions, 1, 0) = input.image[input.at(Table::Functions, 0, 0)] + 8;
    cases.add("a body inside another", 9, input);
    let mut image = Image::new();
    image.body(Body::new(0, vec![]));
    cases.add("no identifiers", 9, image.write());
}

/// 10
fn nesting(cases: &mut Cases) {
    let names: [(&str, &[&[u32]], u32); 12] = [
        ("none named", &[&[], &[], &[]], 0),
        ("a chain", &[&[1], &[2], &[]], 0),
        ("both by the first", &[&[2, 1], &[], &[]], 0),
        ("by one that isn't reached", &[&[], &[2], &[]], 0),
        ("itself", &[&[0], &[], &[]], 10),
        ("the last itself", &[&[1], &[], &[2]], 10),
        ("the first by another", &[&[], &[0], &[]], 10),
        ("backwards", &[&[], &[], &[1]], 10),
        ("twice by one", &[&[1, 1], &[], &[]], 10),
        ("twice, not in a row", &[&[1, 2, 1], &[], &[]], 10),
        ("twice by two", &[&[2], &[2], &[]], 10),
        ("outside the table", &[&[3], &[], &[]], 9),
    ];
    for (name, named, expected) in names {
        for kinds in [[Kind::FunctionExpression; 2], [Kind::ObjectMethod, Kind::FunctionExpression]] {
            for many_blocks in [false, true] {
                let mut image = Image::new();
                let x = image.variable();
                for inner in named {
                    let kinds = kinds.iter().cycle();
                    let naming =
                        inner.iter().zip(kinds).map(|(&g, &kind)| Instruction::new(kind, x, g, vec![]));
                    image.body(match many_blocks {
                        false => Body::of(x, naming.collect()),
                        true => Body::new(x, naming.flat_map(|one| Body::of(x, vec![one]).blocks).collect()),
                    });
                }
                cases.add(format!("functions named: {name}"), expected, image.write());
            }
        }
    }
}

/// Each pair of refusals: the smaller number is answered.
fn order(cases: &mut Cases) {
    type Break = fn(&mut Input);
    let broken: [Break; 10] = [
        |input| input.image.resize(LIMIT + 1, 0),
        |input| input.names.resize(LIMIT + 1, 0),
        |input| input.budget = 65_537,
        |input| input.work = 8,
        |input| input.image[VERSION] = 2,
        |input| *input.cell(Table::Slots, 1, 0) = NONE,
        |input| *input.cell(Table::Types, 2, 0) = 8,
        |input| *input.cell(Table::Shapes, 3, 0) = 2,
        |input| *input.cell(Table::Functions, 3, 1) -= 1,
        |input| {
            let image = sample();
            let naming = image.roles(input).into_iter().find(|one| one.1 == Role::Function);
            input.image[naming.expect("a function is named").0] = 0;
        },
    ];
    for later in 0..10 {
        for first in 0..=later {
            let name = format!("{} and {}", first + 1, later + 1);
            cases.change(name, first as u32 + 1, |input| {
                input.work = usize::MAX;
                broken[later](input);
                broken[first](input);
            });
        }
    }
}

/// The sample with each word in turn replaced by words at which a test may turn.
pub fn words_replaced() -> Vec<Input> {
    let sample = sample().write();
    let mut words: Vec<u32> = Table::ALL.iter().map(|&table| sample.count(table)).collect();
    words.extend([0, 2, 7, 20, 42, 1 << 31, NONE, sample.image.len() as u32]);
    let mut inputs = vec![];
    for at in 0..sample.image.len() {
        let old = sample.image[at];
        let mut tried = vec![old];
        for word in
            words.iter().chain(&[old]).flat_map(|&word| [word.wrapping_sub(1), word, word.wrapping_add(1)])
        {
            if !tried.contains(&word) {
                tried.push(word);
                let mut input = sample.clone();
                input.image[at] = word;
                inputs.push(input);
            }
        }
    }
    inputs
}

/// An instruction of each kind with each list of at most three tags, and with each aux word near a bound.
pub fn instructions() -> Vec<Input> {
    let mut lists: Vec<Vec<Tag>> = vec![vec![]];
    for shorter in 0.. {
        if lists[shorter].len() == 3 {
            break;
        }
        lists.extend(Tag::ALL.iter().map(|&tag| [&lists[shorter][..], &[tag]].concat()).collect::<Vec<_>>());
    }
    let mut base = least();
    base.name(b"a");
    base.name(b"b");
    base.variable();
    base.body(Body::new(0, vec![]));
    let mut inputs = vec![];
    for &kind in Kind::ALL {
        let few = lists.iter().filter(|tags| tags.len() < 2);
        let auxes = few.flat_map(|tags| [2, 3, NONE - 1, NONE].map(|aux| (aux, tags)));
        for (aux, tags) in lists.iter().flat_map(|tags| [(0, tags), (1, tags)]).chain(auxes) {
            let items = tags.iter().map(|&tag| item(tag)).collect();
            let mut image = base.clone();
            image.bodies[0] = Body::of(0, vec![Instruction::new(kind, 0, aux, items)]);
            inputs.push(image.write());
        }
    }
    inputs
}
