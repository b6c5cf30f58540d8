//! Images that several tests run.
#![allow(dead_code)]

use infer_types::*;

/// An image that is there in words alone.
pub fn of_words(words: Vec<u32>, names: Vec<u8>) -> Image {
    Image { words, names, shape_names: ShapeNames::new(), slot_names: SlotNames::new() }
}

/// One function of one block, over an identifier beside the one that it returns.
pub fn of_one_block(write: impl FnOnce(&mut Block, Identifier)) -> Image {
    let mut image = Builder::new();
    let (x, out) = (image.identifier(), image.identifier());
    let screen = image.function();
    let mut block = Block::new();
    write(&mut block, x);
    image.body(screen, Body::other(out).block(block));
    image.finish().expect("a body")
}

/// Row A: Primitive into the identifier; perhaps with a Return of it.
pub fn row_a(returned: bool) -> Image {
    of_one_block(|block, x| {
        block.primitive(x);
        if returned {
            block.returns(x);
        }
    })
}

/// Row D: refused with 12.
pub fn cycle() -> Image {
    of_one_block(|block, x| _ = block.call(x, x, &[]))
}

/// Row E: refused with 11.
pub fn empty_phi() -> Image {
    of_one_block(|block, x| _ = block.phi(x, &[]))
}

/// A small image whose run takes many steps: a phi of two equal phis, so many times, visited in so many loads.
pub fn costly(levels: u32, loads: u32) -> Image {
    let mut image = Builder::new();
    let (x, out) = (image.identifier(), image.identifier());
    let screen = image.function();
    let mut of = image.primitive();
    for _ in 0..levels {
        of = image.phi_type(&[of, of]);
    }
    let mut block = Block::new();
    block.load_global(x, Some(of));
    for _ in 0..loads {
        let loaded = image.identifier();
        block.load_local(loaded, x);
    }
    image.body(screen, Body::other(out).block(block));
    image.finish().expect("a body")
}

/// So many slots with a type of 3,070 words beside the first, and the table words of all.
pub fn long_tables(slots: u32) -> (Image, u32) {
    let mut image = Builder::new();
    let out = image.identifier();
    let screen = image.function();
    image.body(screen, Body::other(out));
    let mut long = image.primitive();
    for _ in 0..10 {
        long = image.phi_type(&[long, long]);
    }
    for _ in 0..slots {
        image.slot_with_type(long);
    }
    (image.finish().expect("a body"), 2 + slots * (3 * 1_024 - 2))
}
