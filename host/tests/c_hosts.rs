//! What C hosts are told is what the writer writes: the constants of infer_types.h, and of docs/IMAGE.md the instructions, the numbers
//! of a list and of a listing, and the image and the listing that it has word by word.

use host::image::{
    option_bits, FnType, Instruction, Kind, Role, Table, Tag, HEADER_WORDS, HOOK, LENGTH, NONE, OPTIONS,
    VERSION,
};
use infer_image::shapes;
use infer_types::{Answer, ListingAnswer, ListingRows, Refusal, ANSWER_ROW, LIMIT, LIST_ROW, MOST_IMAGES};
use std::collections::HashMap;
use std::fmt::Debug;
use std::mem::{offset_of, size_of};

/// The example in Rust, whose screen is that of host/c/screen.c.
#[allow(dead_code)]
#[path = "../binding/examples/screen.rs"]
mod example;

fn read(path: &str) -> String {
    let path = format!("{}/{path}", env!("CARGO_MANIFEST_DIR"));
    std::fs::read_to_string(&path).unwrap_or_else(|error| panic!("{path}: {error}"))
}

/// The header's constants that are plain numbers, without their prefix.
fn constants() -> HashMap<String, u32> {
    let plain = |line: &str| {
        let (name, value) = match line.strip_prefix("#define ") {
            Some(rest) => rest.split_once(' ')?,
            None => line.trim().split_once(" = ")?,
        };
        let digits = value.trim_start_matches("UINT32_C(").trim_end_matches([',', ')']);
        Some((name.strip_prefix("INFER_TYPES_")?.to_string(), digits.parse().ok()?))
    };
    read("infer_types.h").lines().filter_map(plain).collect()
}

/// A name of a variant as C has it: JSXText is JSX_TEXT.
fn c_name(variant: impl Debug) -> String {
    let name: Vec<char> = format!("{variant:?}").chars().collect();
    let mut out = String::new();
    for (at, &letter) in name.iter().enumerate() {
        let starts = letter.is_uppercase()
            && at > 0
            && (name[at - 1].is_lowercase() || name.get(at + 1).is_some_and(|next| next.is_lowercase()));
        out.extend(starts.then_some('_'));
        out.extend(letter.to_uppercase());
    }
    out
}

#[test]
fn the_constants_are_the_writers() {
    let constants = constants();
    let has = |name: String, number: u32| assert_eq!(constants.get(&name), Some(&number), "{name}");
    has("NONE".into(), NONE);
    for (name, at) in [("VERSION", VERSION), ("OPTIONS", OPTIONS), ("HOOK", HOOK), ("LENGTH", LENGTH)] {
        has(format!("WORD_{name}"), at as u32);
    }
    has("HEADER_WORDS".into(), HEADER_WORDS as u32);
    has("OPTION_REFS".into(), option_bits::REFS);
    has("OPTION_SETTERS".into(), option_bits::SETTERS);
    Table::ALL.iter().for_each(|&one| has(format!("WORD_{}", c_name(one)), one.count_at() as u32));
    Kind::ALL.iter().for_each(|&one| has(format!("KIND_{}", c_name(one)), one as u32));
    Tag::ALL.iter().for_each(|&one| has(format!("TAG_{}", c_name(one)), one as u32));
    FnType::ALL.iter().for_each(|&one| has(format!("FN_{}", c_name(one)), one as u32));
    for (name, shape) in [
        ("PROPS", shapes::PROPS),
        ("USE_REF", shapes::USE_REF),
        ("SET_STATE", shapes::SET_STATE),
        ("OBJECT", shapes::OBJECT),
        ("ARRAY", shapes::ARRAY),
        ("FUNCTION", shapes::FUNCTION),
        ("JSX", shapes::JSX),
        ("REF_VALUE", shapes::REF_VALUE),
        ("MIXED_READONLY", shapes::MIXED_READONLY),
    ] {
        has(format!("SHAPE_{name}"), shape.number());
    }
    let count = |prefix: &str| constants.keys().filter(|name| name.starts_with(prefix)).count();
    assert_eq!(count("KIND_"), Kind::ALL.len());
    assert_eq!(count("TAG_"), Tag::ALL.len());
}

/// The refusals, in the order of their numbers.
#[test]
fn the_refusals_are_the_bindings() {
    let names = [
        ("IMAGE_WORDS", Refusal::IMAGE_WORDS),
        ("NAME_BYTES", Refusal::NAME_BYTES),
        ("BUDGET", Refusal::BUDGET),
        ("WORK_WORDS", Refusal::WORK_WORDS),
        ("HEADER", Refusal::HEADER),
        ("REFERENCES", Refusal::REFERENCES),
        ("TYPES", Refusal::TYPES),
        ("SHAPES", Refusal::SHAPES),
        ("BODIES", Refusal::BODIES),
        ("NESTING", Refusal::NESTING),
        ("EMPTY_PHI", Refusal::EMPTY_PHI),
        ("CYCLE", Refusal::CYCLE),
        ("OUT_OF_STEPS", Refusal::OUT_OF_STEPS),
        ("TABLE_WORDS", Refusal::TABLE_WORDS),
        ("LIST", Refusal::LIST),
        ("RANGES", Refusal::RANGES),
        ("SLOT", Refusal::SLOT),
        ("LISTING_WORDS", Refusal::LISTING_WORDS),
    ];
    let constants = constants();
    for (number, (name, bindings)) in (1..).zip(names) {
        assert_eq!((bindings, constants.get(&format!("REFUSED_{name}"))), (number, Some(&number)), "{name}");
    }
    assert_eq!(constants.keys().filter(|name| name.starts_with("REFUSED_")).count(), names.len());
    assert_eq!(constants.get("NOT_RUN"), Some(&Refusal::NOT_RUN));
    assert_eq!(constants.get("LIMIT"), Some(&(LIMIT as u32)));
}

/// The fields of one of the header's structs, each of which is a word.
fn fields(of: &str) -> Vec<String> {
    let header = read("infer_types.h");
    let start = format!("struct {of} {{");
    let lines = header.lines().skip_while(|line| *line != start).skip(1).take_while(|line| *line != "};");
    let field = |line: &str| Some(line.trim().strip_prefix("uint32_t ")?.split_once(';')?.0.to_string());
    lines.map(|line| field(line).expect(line)).collect()
}

#[test]
fn the_rows_of_a_list_are_the_bindings() {
    let constants = constants();
    for (name, number) in [("LIST_ROW", LIST_ROW), ("ANSWER_ROW", ANSWER_ROW), ("MOST_IMAGES", MOST_IMAGES)] {
        assert_eq!(constants.get(name), Some(&(number as u32)), "{name}");
    }
    let row = fields("infer_types_screen");
    assert_eq!(row, ["image_start", "image_words", "name_start", "name_bytes", "budget"]);
    assert_eq!((row.len(), fields("infer_types_answer").len()), (LIST_ROW, ANSWER_ROW));
}

/// That many words in this order are the binding's answer, and one that is read from a row.
#[test]
fn the_answer_is_the_bindings() {
    let fields = fields("infer_types_answer");
    let bindings = [
        ("number", offset_of!(Answer, number)),
        ("steps", offset_of!(Answer, steps)),
        ("slots", offset_of!(Answer, slots)),
        ("bindings", offset_of!(Answer, bindings)),
        ("table_words", offset_of!(Answer, table_words)),
        ("exact", offset_of!(Answer, exact)),
        ("star", offset_of!(Answer, star)),
        ("hook", offset_of!(Answer, hook)),
        ("nothing", offset_of!(Answer, nothing)),
    ];
    assert_eq!(fields, bindings.map(|(name, _)| name));
    for (word, (name, offset)) in bindings.into_iter().enumerate() {
        assert_eq!(offset, 4 * word, "{name}");
    }
    assert_eq!(size_of::<Answer>(), 4 * bindings.len());
    let Answer { number, steps, slots, bindings, table_words, exact, star, hook, nothing } =
        Answer::of_row(&[0, 1, 2, 3, 4, 5, 6, 7, 8]);
    let words = [number, steps, slots, bindings, table_words, exact, star, hook, nothing];
    assert_eq!(words, [0, 1, 2, 3, 4, 5, 6, 7, 8]);
}

/// An answer, and one word more.
#[test]
fn the_answer_of_a_listing_is_the_bindings() {
    let header = read("infer_types.h");
    let of_header =
        "struct infer_types_listing_answer {\n    struct infer_types_answer answer;\n    uint32_t listing_words;\n};";
    assert!(header.contains(of_header));
    let offsets = [offset_of!(ListingAnswer, answer), offset_of!(ListingAnswer, listing_words)];
    assert_eq!(offsets, [0, size_of::<Answer>()]);
    assert_eq!(size_of::<ListingAnswer>(), size_of::<Answer>() + 4);
}

/// A section of docs/IMAGE.md.
fn section(title: &str) -> String {
    let page = read("../docs/IMAGE.md");
    let lines = page.lines().skip_while(|line| *line != format!("## {title}")).skip(1);
    lines.take_while(|line| !line.starts_with("## ")).flat_map(|line| [line, "\n"]).collect()
}

/// Each number is a row of its section, and of no other.
#[test]
fn the_page_has_every_number_once() {
    for (title, first, last) in [
        ("Numbers", Refusal::IMAGE_WORDS, Refusal::TABLE_WORDS),
        ("Lists", Refusal::LIST, Refusal::RANGES),
        ("Listings", Refusal::SLOT, Refusal::LISTING_WORDS),
    ] {
        let section = section(title);
        let rows = section.lines().skip_while(|line| !line.starts_with("| number |")).skip(2);
        let cells = rows.map_while(|line| line.strip_prefix("| ")?.split_once(" |"));
        let numbers: Vec<u32> = cells.map(|cells| cells.0.parse().expect("a number")).collect();
        let done = numbers.first() == Some(&Answer::DONE);
        assert_eq!(numbers[done as usize..], (first..=last).collect::<Vec<_>>(), "{title}");
    }
}

/// The rows in docs/IMAGE.md are lines of what host/c/listing.c prints, and read as the binding reads them.
#[test]
fn the_listing_on_the_page_is_the_examples() {
    let (page, printed) = (section("Listings"), read("c/listing.out"));
    let lines = page.lines().skip_while(|line| *line != "<!-- host/c/listing.out -->").skip(2);
    let lines: Vec<&str> = lines.take_while(|line| *line != "```").collect();
    assert!(lines.len() > 2 && printed.contains(&(lines.join("\n") + "\n")));
    let mut words = vec![];
    let mut meanings = vec![];
    for line in lines {
        let (left, meaning) = line.split_once("list ").expect(line);
        let mut numbers = left.split_whitespace();
        assert_eq!(numbers.next(), Some(words.len().to_string().as_str()), "{line}");
        words.extend(numbers.map(|word| if word == "NONE" { NONE } else { word.parse().expect(line) }));
        meanings.push(meaning.to_string());
    }
    let rows = ListingRows::new(&words).map(|(slot, binding)| match binding {
        Some(binding) => format!("{} {binding}", slot.number()),
        None => format!("{} none", slot.number()),
    });
    assert_eq!(rows.collect::<Vec<_>>(), meanings);
}

/// A type of each kind, in the order of the kinds.
#[test]
fn the_type_kinds_are_the_writers() {
    let mut image = host::image::Image::new();
    let slot = image.slot(0);
    image.var(slot);
    image.primitive();
    image.poly();
    image.method();
    image.object(NONE);
    image.function(NONE, 0);
    image.constructor(NONE, 0);
    image.phi(&[]);
    let constants = constants();
    let names = ["VAR", "PRIMITIVE", "POLY", "OBJECT_METHOD", "OBJECT", "FUNCTION", "CONSTRUCTOR", "PHI"];
    for (name, row) in names.iter().zip(image.rows(Table::Types).chunks(3)) {
        assert_eq!(constants.get(&format!("TYPE_{name}")), Some(&row[0]), "{name}");
    }
}

/// The rows of the instructions in docs/IMAGE.md: number, name, aux, items.
fn instruction_rows() -> Vec<[String; 4]> {
    let page = read("../docs/IMAGE.md").replace("\\|", "");
    let rows = page.lines().skip_while(|line| !line.starts_with("| kind | name |")).skip(2);
    rows.take_while(|line| line.starts_with('|'))
        .map(|line| {
            let mut cells = line.split('|').skip(1).map(|cell| cell.trim().to_string());
            [(); 4].map(|()| cells.next().expect(line))
        })
        .collect()
}

/// How many places a cell of items names, and which tags.
fn items_of(cell: &str) -> (u32, Vec<u32>) {
    let places = cell.split([',', ';', ' ']).filter(|word| ["a", "b", "c"].contains(word)).count();
    let words: Vec<&str> = cell.split([',', ':', ' ']).filter(|word| !word.is_empty()).collect();
    (places as u32, words.iter().filter_map(|word| word.parse().ok()).collect())
}

fn aux_of(cell: &str) -> Role {
    match cell.split(' ').next() {
        Some("0" | "1") => Role::Flag,
        Some("name;") => Role::NameOrNone,
        Some("the") => Role::TypeOrNone,
        Some("function") => Role::Function,
        _ => Role::Zero,
    }
}

#[test]
fn the_listed_instructions_are_the_writers() {
    let rows = instruction_rows();
    let mut kinds = Kind::ALL.iter().flat_map(|&kind| match kind {
        Kind::Destructure => vec![(kind, 0), (kind, 1)],
        _ => vec![(kind, 0)],
    });
    for [number, name, aux, items] in rows {
        let (kind, pattern) = kinds.next().expect("a kind");
        if pattern == 0 {
            assert_eq!((number, name), ((kind as u32).to_string(), format!("{kind:?}")));
        }
        assert_eq!(aux_of(&aux), Instruction::aux_role(kind), "{kind:?}");
        let (places, tags) = Instruction::item_rule(kind, pattern);
        let value = (kind == Kind::Destructure) as u32;
        assert_eq!(
            items_of(&items),
            (places + value, tags.iter().map(|&tag| tag as u32).collect()),
            "{kind:?}"
        );
    }
    assert_eq!(kinds.next(), None);
}

/// The image's words in docs/IMAGE.md: lines of a position, words and, from a fixed column on, what they are.
fn listed() -> Vec<u32> {
    const MEANINGS: usize = 16;
    let page = read("../docs/IMAGE.md");
    let lines = page.lines().skip_while(|line| *line != "<!-- host/c/screen.out -->").skip(2);
    let mut words = vec![];
    for line in lines.take_while(|line| !line.starts_with("check")) {
        let mut numbers = line[..MEANINGS].split_whitespace();
        assert_eq!(numbers.next(), Some(words.len().to_string().as_str()), "{line}");
        words.extend(numbers.map(|word| if word == "NONE" { NONE } else { word.parse().expect(line) }));
    }
    words
}

#[test]
fn the_listed_image_is_the_writers() {
    assert_eq!(listed(), example::screen().expect("a body").words);
}
