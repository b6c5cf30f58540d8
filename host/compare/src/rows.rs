//! Document 01's rows A to L and their variants as images.

use infer_image::parts::Input;
use infer_image::{shapes, Block, Body, Builder, Identifier, Type};

/// An image of one function that returns `out`, of blocks that are made with it.
fn image(make: impl FnOnce(&mut Builder) -> Vec<Block>) -> Input {
    let mut image = Builder::new();
    let function = image.function();
    let blocks = make(&mut image);
    let out = image.identifier();
    image.body(function, blocks.into_iter().fold(Body::other(out), Body::block));
    let image = image.finish().expect("one body");
    Input::new(image.words, image.names, 1_024)
}

fn identifiers<const N: usize>(image: &mut Builder) -> [Identifier; N] {
    [(); N].map(|()| image.identifier())
}

/// A phi of globals of these types.
fn phi_of(image: &mut Builder, types: [Type; 2]) -> Vec<Block> {
    let [x, y, joined] = identifiers(image);
    let loads = Block::new().load_global(x, Some(types[0])).load_global(y, Some(types[1])).take();
    vec![loads, Block::new().phi(joined, &[x, y]).take()]
}

/// "current" of a variable of this name, loaded; perhaps an unnamed load over it.
fn current_of(image: &mut Builder, name: &str, unnamed_too: bool) -> Vec<Block> {
    image.treat_ref_like_identifiers_as_refs();
    let (source, current) = (image.named(name), image.name("current"));
    let [loaded, value, unnamed] = identifiers(image);
    let mut block = Block::new();
    block.load_local(loaded, source);
    if unnamed_too {
        block.load_local(loaded, unnamed);
    }
    vec![block.property_load(value, loaded, Some(current)).take()]
}

/// A property of an object with a hook type at hand; the shape is absent, or there is none.
fn hook_of(image: &mut Builder, name: &str, absent: bool) -> Vec<Block> {
    let primitive = image.primitive();
    let hook = image.function_type(shapes::FUNCTION, primitive);
    let object = image.object(if absent { Some(shapes::PROPS) } else { None });
    let property = image.hook_type(hook).name(name);
    let [x, y] = identifiers(image);
    vec![Block::new().load_global(x, Some(object)).property_load(y, x, Some(property)).take()]
}

/// The rows, each with its letter.
pub fn rows() -> Vec<(String, Input)> {
    let mut rows: Vec<(String, Input)> = vec![];
    let mut row = |letter: &str, input| rows.push((letter.into(), input));
    let one = |image: &mut Builder| image.identifier();
    row("A", image(|image| vec![Block::new().primitive(one(image)).take()]));
    row(
        "B",
        image(|image| {
            let x = one(image);
            vec![Block::new().primitive(x).returns(x).take()]
        }),
    );
    row(
        "C",
        image(|image| {
            let [x0, x1, x2] = identifiers(image);
            vec![Block::new().phi(x1, &[x0, x2]).load_local(x2, x1).take()]
        }),
    );
    row(
        "D",
        image(|image| {
            let x = one(image);
            vec![Block::new().call(x, x, &[]).take()]
        }),
    );
    row("E, unbound", image(|image| vec![Block::new().phi(one(image), &[]).take()]));
    row(
        "E, bound",
        image(|image| {
            let x = one(image);
            vec![Block::new().primitive(x).take(), Block::new().phi(x, &[]).take()]
        }),
    );
    row(
        "F",
        image(|image| {
            let primitive = image.primitive();
            let types =
                [image.function_type(shapes::FUNCTION, primitive), image.constructor_type(None, primitive)];
            phi_of(image, types)
        }),
    );
    for turned in [false, true] {
        for array in [false, true] {
            row(
                "G",
                image(|image| {
                    let other = if array { image.object(shapes::ARRAY) } else { image.primitive() };
                    let readonly = image.object(shapes::MIXED_READONLY);
                    phi_of(image, if turned { [other, readonly] } else { [readonly, other] })
                }),
            );
        }
    }
    for name in ["useX", "use9", "use", "usex"] {
        row(&format!("H, {name}"), image(|image| hook_of(image, name, false)));
    }
    for name in ["ref", "aRef", "$Ref", "Ref", "1Ref"] {
        row(&format!("I, {name}"), image(|image| current_of(image, name, false)));
    }
    for absent in [true, false] {
        row("J", image(|image| hook_of(image, "useTimer", absent)));
    }
    row(
        "K",
        image(|image| {
            let poly = image.poly();
            vec![Block::new().load_global(one(image), Some(poly)).take()]
        }),
    );
    row("L", image(|image| current_of(image, "ref", true)));
    rows
}
