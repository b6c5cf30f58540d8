//! Images of 65,536 words that cost a careless check seconds or hours.

use crate::image::*;
use crate::random::Random;
use std::time::Duration;

extern "C" {
    fn clock() -> i64;
}

const WORDS: usize = 65_536;
const BYTES: usize = 65_536;
/// Each may take the processor so long.
pub const MOST_TIME: Duration = Duration::from_secs(1);

/// What the program has taken of the processor.
pub fn processor_time() -> Duration {
    // SAFETY: gives a number of microseconds.
    Duration::from_micros(unsafe { clock() } as u64)
}

struct Cases(Vec<Case>);

impl Cases {
    fn add(&mut self, name: &str, expected: u32, image: &Image) {
        self.add_as(name, expected, image, &image.layout());
    }

    fn add_as(&mut self, name: &str, expected: u32, image: &Image, layout: &Layout) {
        self.add_input(name, expected, image.write_as(layout));
    }

    fn add_input(&mut self, name: &str, expected: u32, mut input: Input) {
        assert!(input.image.len() <= WORDS, "{name} has {} words", input.image.len());
        input.budget = 65_536;
        input.extend_to(WORDS);
        self.0.push(Case { name: name.into(), input, expected });
    }
}

pub fn hostile() -> Vec<Case> {
    let mut cases = Cases(vec![]);
    shared_properties(&mut cases);
    long_names(&mut cases);
    shared_tables(&mut cases);
    types(&mut cases);
    many_bodies(&mut cases);
    nested_functions(&mut cases);
    long_bodies(&mut cases);
    cases.0
}

/// One variable, number 0, and a primitive type.
fn start() -> (Image, u32) {
    let mut image = Image::new();
    image.variable();
    let primitive = image.primitive();
    (image, primitive)
}

/// The same with a function of one short body.
fn start_with_body() -> (Image, u32) {
    let (mut image, primitive) = start();
    image.body(Body::new(0, vec![]));
    (image, primitive)
}

/// Property rows of so many names, each of four bytes; row k has name k modulo the period.
fn numbered_properties(rows: u32, period: u32) -> Image {
    let (mut image, primitive) = start_with_body();
    for number in 0..period {
        image.name(&number.to_le_bytes());
    }
    for row in 0..rows {
        image.property(row % period, primitive);
    }
    image
}

fn shared_properties(cases: &mut Cases) {
    let mut image = numbered_properties(8_000, 8_000);
    for _ in 0..11_000 {
        image.shape(0, 8_000);
    }
    cases.add("11,000 shapes over the same 8,000 properties", 0, &image);
    *image.cell(Table::Properties, 7_999, 0) = 0;
    cases.add("the same, the last property named as the first", 8, &image);

    let mut image = numbered_properties(8_000, 8_000);
    for shape in 0..11_000 {
        image.shape(shape % 4_000, 4_000);
    }
    cases.add("11,000 shapes over 4,000 of 8,000 properties each", 0, &image);

    let mut image = numbered_properties(10_000, 5_000);
    for shape in 0..10_000 {
        image.shape(shape % 5_001, 5_000);
    }
    cases.add("10,000 shapes over 5,000 properties each, whose names come again after 5,000", 0, &image);
    image.shape(2_500, 5_001);
    cases.add("the same with a shape over 5,001", 8, &image);

    let mut image = numbered_properties(8_000, 7_999);
    for shape in 0..11_000 {
        image.shape(shape % 2, 7_999);
    }
    cases.add("11,000 shapes over all properties but the first or the last, which have one name", 0, &image);
    image.shape(0, 8_000);
    cases.add("the same with a shape over all", 8, &image);

    let (mut image, primitive) = start_with_body();
    image.bytes = vec![b'a'; BYTES];
    for start in shuffled(9_200) {
        let name = image.name_range(start, 49_000);
        let property = image.property(name, primitive);
        image.shape(property, 1);
    }
    cases.add("9,200 shapes of one property each, with equal long names", 0, &image);
    image.shape(9_000, 2);
    cases.add("the same with a shape of two", 8, &image);
}

/// The numbers below this one in some order.
fn shuffled(count: usize) -> Vec<usize> {
    let mut numbers: Vec<usize> = (0..count).collect();
    Random::new(1).shuffle(&mut numbers);
    numbers
}

/// One shape of 16,000 properties, whose names are these ranges of the bytes.
fn one_shape(bytes: Vec<u8>, range: impl Fn(usize) -> (usize, usize)) -> Image {
    let (mut image, primitive) = start_with_body();
    image.bytes = bytes;
    for number in shuffled(16_000) {
        let (start, length) = range(number);
        let name = image.name_range(start, length);
        image.property(name, primitive);
    }
    image.set_shape(3, [1, 0, 16_000]);
    image
}

fn long_names(cases: &mut Cases) {
    const LENGTH: usize = 49_000;
    let two = |at: usize| (0..BYTES).map(|k| if k < at { b'a' } else { b'b' }).collect::<Vec<u8>>();
    let one = |at: usize| (0..BYTES).map(|k| if k == at { b'b' } else { b'a' }).collect::<Vec<u8>>();
    let thue_morse: Vec<u8> = (0..BYTES as u32).map(|k| b'a' + (k.count_ones() % 2) as u8).collect();
    let kinds = [
        ("16,000 long names alike but for their last bytes", two(LENGTH - 1), LENGTH),
        ("16,000 long names alike but for their first bytes", two(16_000), LENGTH),
        ("16,000 long names alike but for one byte in the middle", one(24_000), LENGTH),
        ("16,000 long names of the Thue-Morse sequence", thue_morse, 49_152),
    ];
    for (name, bytes, length) in kinds {
        let mut image = one_shape(bytes, |number| (number, length));
        cases.add(name, 0, &image);
        *image.cell(Table::Names, 15_999, 0) = image.rows(Table::Names)[0];
        cases.add("the same, the last name equal to the first", 8, &image);
    }
    let mut image = one_shape(vec![b'a'; BYTES], |number| (number / 2, 40_000 + number));
    cases.add("16,000 long names alike but for their lengths", 0, &image);
    *image.cell(Table::Names, 15_999, 1) = image.rows(Table::Names)[1];
    cases.add("the same, the last name as long as the first", 8, &image);
}

/// Tables that lie over each other.
fn shared_tables(cases: &mut Cases) {
    // row k is a name, the two bytes from k on, and a property of name k and type 2
    let (mut image, _) = start_with_body();
    image.primitive();
    image.bytes = no_pair_twice(32_001);
    for start in 0..32_000 {
        image.name_range(start, 2);
    }
    image.set_shape(3, [1, 0, 32_000]);
    let mut input = image.write();
    input.image[Table::Properties.count_at()] = 32_000;
    input.image[Table::Properties.offset_at()] = input.image[Table::Names.offset_at()];
    cases.add_input("32,000 properties in the same words as their names", 0, input.clone());
    *input.cell(Table::Names, 31_999, 0) = 31_998;
    cases.add_input("the same, the last two alike", 8, input);

    let (mut image, _) = start_with_body();
    for _ in 0..21_000 {
        image.primitive();
    }
    let mut input = image.write();
    input.image[Table::Shapes.count_at()] = 21_000;
    input.image[Table::Shapes.offset_at()] = input.at(Table::Types, 1, 0) as u32;
    cases.add_input("21,000 shapes in the same words as types", 0, input);
}

/// So many bytes in which no two bytes in a row come twice.
fn no_pair_twice(length: usize) -> Vec<u8> {
    let from = |low: u8| std::iter::once(low).chain((low..255).flat_map(move |high| [low, high + 1]));
    (0..=255).flat_map(from).take(length).collect()
}

fn types(cases: &mut Cases) {
    let (mut image, mut last) = start_with_body();
    for _ in 0..13_000 {
        last = image.phi(&[last, last]);
    }
    cases.add("13,000 phis, each of the one before it twice", 7, &image);

    let (mut image, primitive) = start_with_body();
    for _ in 0..20_000 {
        image.function(NONE, primitive);
    }
    let mut last = image.count(Table::Types) - 1;
    for _ in 0..100 {
        last = image.phi(&[last, last]);
    }
    cases.add("20,000 functions, then 100 such phis", 7, &image);

    let (mut image, mut last) = start_with_body();
    for _ in 0..21_000 {
        last = image.function(NONE, last);
    }
    cases.add("21,000 functions, each returning the one before it", 7, &image);

    let (mut image, primitive) = start_with_body();
    let first = image.list(&vec![primitive; 4_094]);
    for _ in 0..20_000 {
        image.phi_over(first, 4_094);
    }
    cases.add("20,000 phis over the same 4,094 list words", 0, &image);
    let last = image.count(Table::Types);
    image.list(&[last]);
    image.phi_over(first + 1, 4_094);
    cases.add("the same with one that has itself as its last operand", 7, &image);

    let (mut image, primitive) = start_with_body();
    let first = image.list(&vec![primitive; 35_000]);
    for _ in 0..10_000 {
        image.phi_over(first, 35_000);
    }
    cases.add("10,000 phis over the same 35,000 list words", 7, &image);
}

fn many_bodies(cases: &mut Cases) {
    let (mut image, _) = start();
    for _ in 0..9_300 {
        image.body(Body::new(0, vec![]));
    }
    let mut layout = image.layout();
    cases.add_as("9,300 bodies", 0, &image, &layout);
    layout.bodies.reverse();
    cases.add_as("9,300 bodies in reverse", 0, &image, &layout);
    layout.bodies = shuffled(9_300);
    cases.add_as("9,300 bodies shuffled", 0, &image, &layout);

    // a Component that returns identifier 0 is five zeros, so it may start at any of their words
    for body in &mut image.bodies {
        body.fn_type = FnType::Component;
    }
    let [first, last] = [layout.bodies[0], layout.bodies[9_299]].map(|number| number as u32);
    let mut input = image.write_as(&layout);
    let end = input.image.len() as u32;
    input.image.extend([0; 5]);
    for (name, at, expected) in [
        ("the same, the first moved behind the last", end, 0),
        ("the same, the first moved to share a word with the last", end - 1, 9),
        ("the same, the first moved to the last", end - 5, 9),
    ] {
        *input.cell(Table::Functions, first, 0) = at;
        cases.add_input(name, expected, input.clone());
    }
    *input.cell(Table::Functions, last, 0) = end;
    cases.add_input("the same, and the last moved behind it", 0, input);
}

fn nested_functions(cases: &mut Cases) {
    const FUNCTIONS: u32 = 4_300;
    let (mut image, _) = start();
    for function in 1..FUNCTIONS {
        image.body(Body::of(0, vec![Instruction::naming(0, function)]));
    }
    image.body(Body::new(0, vec![]));
    let mut layout = image.layout();
    cases.add("4,300 functions nested in each other", 0, &image);
    layout.bodies.reverse();
    cases.add_as("4,300 functions nested in each other, bodies in reverse", 0, &image, &layout);
    for (name, inner) in [("the first", 0), ("itself", FUNCTIONS - 1), ("the one before it", FUNCTIONS - 2)] {
        let mut image = image.clone();
        image.bodies[FUNCTIONS as usize - 1] = Body::of(0, vec![Instruction::naming(0, inner)]);
        cases.add(&format!("the same, the last naming {name}"), 10, &image);
    }

    let (mut image, _) = start();
    let inner = 1..5_900;
    image.body(Body::of(0, inner.clone().rev().map(|function| Instruction::naming(0, function)).collect()));
    for _ in inner {
        image.body(Body::new(0, vec![]));
    }
    cases.add("5,899 functions named by the first", 0, &image);
    image.bodies[0].blocks[0].instructions[5_898].aux = 5_899;
    cases.add("the same, one named twice", 10, &image);
}

fn long_bodies(cases: &mut Cases) {
    let long = 60_000;
    let body = || Body::new(0, vec![]);
    let with_items = |kind, count| {
        let aux = if Instruction::aux_role(kind) == Role::NameOrNone { NONE } else { 0 };
        Instruction::new(kind, 0, aux, vec![Item::place(0); count])
    };
    let all_kinds = Kind::ALL.iter().filter(|&&kind| Instruction::aux_role(kind) != Role::Function);
    let each_kind = all_kinds.map(|&kind| {
        let places = Instruction::item_rule(kind, 0).0 as usize;
        with_items(kind, if kind == Kind::Destructure { 1 } else { places })
    });
    let phi = |operands| Block { phis: vec![(0, vec![0; operands])], ..Block::default() };
    let bodies = [
        ("30,000 parameters", Body { params: vec![(true, 0); long / 2], ..body() }),
        ("60,000 context identifiers", Body { context: vec![0; long], ..body() }),
        ("15,000 blocks", Body { blocks: vec![Block::default(); long / 4], ..body() }),
        ("a phi of 60,000 operands", Body { blocks: vec![phi(long)], ..body() }),
        (
            "30,000 phis",
            Body { blocks: vec![Block { phis: vec![(0, vec![]); long / 2], ..Block::default() }], ..body() },
        ),
        ("15,000 instructions", Body::of(0, vec![with_items(Kind::LoadGlobal, 0); long / 4])),
        ("7,000 instructions of all kinds", Body::of(0, each_kind.cycle().take(7_000).collect())),
        ("a call of 20,000 places", Body::of(0, vec![with_items(Kind::CallExpression, long / 3)])),
        ("a pattern of 20,000 places", Body::of(0, vec![with_items(Kind::Destructure, long / 3)])),
    ];
    for (name, body) in bodies {
        let (mut image, _) = start();
        image.body(body);
        cases.add(&format!("one body: {name}"), 0, &image);
        let mut input = image.write();
        *input.image.last_mut().expect("a word") = NONE;
        cases.add_input(&format!("one body: {name}, and its last word is wrong"), 9, input);
    }
    let (mut image, _) = start();
    image.body(Body { blocks: vec![Block::default(); long / 4], ..body() });
    let mut input = image.write();
    let blocks = image.roles(&input)[4].0;
    input.image[blocks] = NONE;
    cases.add_input("more blocks announced than there are words", 9, input);
}
