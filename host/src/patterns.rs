//! Long array patterns of values that have entries for their positions.

use crate::image::{Case, Input};
use infer_image::{Block, Body, Builder, Element};

const BUDGET: u32 = 65_536;

/// Names and inputs, in the order of their stored answers.
pub fn patterns() -> Vec<Case> {
    let every = |length: usize| (0..length).map(|position| position.to_string());
    let edges = [0, 9, 10, 99, 100, 999, 1_000, 9_999, 10_000, 20_000];
    let near_an_edge = |position: usize| edges.iter().any(|&edge| position.abs_diff(edge) <= 1);
    let no_positions =
        ["", "00", "01", "09", "010", "0001", "00001", "+1", "-1", "1.0", "1e1", "1:", "/", "10_000"];
    vec![
        pattern("3,000 places, an entry for each", 3_000, |_| true, every(3_000)),
        pattern("1,000 holes and places, an entry for each", 1_000, |one| one % 2 == 1, every(1_000)),
        pattern("1,000 places, some by the \"*\" entry", 1_000, |_| true, every(500).chain(["*".into()])),
        pattern(
            "20,002 holes and places, entries where a digit is added, and such as are no position",
            20_002,
            near_an_edge,
            edges.map(|edge| edge.to_string()).into_iter().chain(no_positions.map(String::from)),
        ),
    ]
}

/// An array pattern of a global, whose shape has these entries, each of a type of its own.
fn pattern(
    name: &str,
    length: usize,
    is_place: impl Fn(usize) -> bool,
    entries: impl Iterator<Item = String>,
) -> Case {
    let mut image = Builder::new();
    let [out, value, pattern] = [(); 3].map(|()| image.identifier());
    let mut elements = vec![Element::Hole; length];
    for position in (0..length).filter(|&position| is_place(position)) {
        elements[position] = Element::Place(image.identifier());
    }
    let entries: Vec<String> = entries.collect();
    let mut own_type = || {
        let shape = image.absent_shape();
        image.object(shape)
    };
    let properties: Vec<_> = entries.iter().map(|text| (text.as_str(), own_type())).collect();
    let shape = image.shape(&properties);
    let of_value = image.object(shape);
    let mut block = Block::new();
    block.load_global(value, Some(of_value)).destructure_array(pattern, &elements, value);
    let function = image.function();
    image.body(function, Body::other(out).block(block));

    let image = image.finish().expect("a body");
    Case { name: name.into(), input: Input::new(image.words, image.names, BUDGET), expected: 0 }
}
