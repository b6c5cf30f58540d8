//! Property lookups: which rule each is counted under, and what is said of them.

use infer_types::*;

/// A screen of one block.
fn screen(write: impl FnOnce(&mut Builder, &mut Block)) -> Image {
    let mut image = Builder::new();
    let (function, out) = (image.function(), image.identifier());
    let mut block = Block::new();
    write(&mut image, &mut block);
    image.body(function, Body::other(out).block(block));
    image.finish().expect("a body")
}

fn lookups(write: impl FnOnce(&mut Builder, &mut Block)) -> Lookups {
    let image = screen(write);
    infer_types(&image.words, &image.names, 1_024).expect("tables").lookups()
}

/// An identifier that holds a global of this type.
fn global(image: &mut Builder, block: &mut Block, of: Type) -> Identifier {
    let global = image.identifier();
    block.load_global(global, Some(of));
    global
}

fn load(image: &mut Builder, block: &mut Block, object: Identifier, property: Option<&str>) {
    let (value, name) = (image.identifier(), property.map(|text| image.name(text)));
    block.property_load(value, object, name);
}

fn hook(image: &mut Builder) {
    let primitive = image.primitive();
    let hook = image.function_type(shapes::FUNCTION, primitive);
    image.hook_type(hook);
}

/// An object with the property `title`.
fn titled(image: &mut Builder) -> Type {
    let primitive = image.primitive();
    let shape = image.shape(&[("title", primitive)]);
    image.object(shape)
}

/// The same with "*".
fn starred(image: &mut Builder) -> Type {
    let (primitive, poly) = (image.primitive(), image.poly());
    let shape = image.shape(&[("title", poly), ("*", primitive)]);
    image.object(shape)
}

fn shapeless(image: &mut Builder) -> Type {
    image.object(None)
}

fn unregistered(image: &mut Builder) -> Type {
    let shape = image.absent_shape();
    image.object(shape)
}

const NO_LOOKUPS: Lookups = Lookups { exact_name: 0, star_entry: 0, hook_rule: 0, nothing: 0 };
const EXACT: Lookups = Lookups { exact_name: 1, ..NO_LOOKUPS };
const STAR: Lookups = Lookups { star_entry: 1, ..NO_LOOKUPS };
const HOOK: Lookups = Lookups { hook_rule: 1, ..NO_LOOKUPS };
const NOTHING: Lookups = Lookups { nothing: 1, ..NO_LOOKUPS };

/// The lookup of a property of a global of this type, in an image with a hook type.
fn property_of(object: fn(&mut Builder) -> Type, property: Option<&str>) -> Lookups {
    lookups(|image, block| {
        hook(image);
        let of = object(image);
        let object = global(image, block, of);
        load(image, block, object, property);
    })
}

#[test]
fn each_lookup_is_counted_under_its_rule() {
    assert_eq!(property_of(titled, Some("title")), EXACT);
    assert_eq!(property_of(starred, Some("title")), EXACT, "Poly, which binds nothing");
    assert_eq!(property_of(starred, Some("*")), EXACT, "the entry's own name");
    assert_eq!(property_of(starred, Some("width")), STAR);
    assert_eq!(property_of(starred, Some("useTimer")), STAR, "before the hook rule");
    assert_eq!(property_of(starred, None), STAR, "a number");
    assert_eq!(property_of(titled, Some("useTimer")), HOOK);
    assert_eq!(property_of(shapeless, Some("useTimer")), HOOK);
    assert_eq!(property_of(Builder::primitive, Some("useTimer")), HOOK);
    assert_eq!(property_of(titled, Some("width")), NOTHING);
    assert_eq!(property_of(titled, None), NOTHING, "a number");
    assert_eq!(property_of(shapeless, Some("title")), NOTHING);
    assert_eq!(property_of(unregistered, Some("useTimer")), NOTHING);
}

#[test]
fn without_a_hook_type_the_hook_rule_gives_nothing() {
    let found = lookups(|image, block| {
        let of = titled(image);
        let object = global(image, block, of);
        load(image, block, object, Some("useTimer"));
    });
    assert_eq!(found, NOTHING);
}

/// Four loads, one for each rule.
fn write_all_four(image: &mut Builder, block: &mut Block) {
    hook(image);
    let (of_titled, of_starred) = (titled(image), starred(image));
    let (one, other) = (global(image, block, of_titled), global(image, block, of_starred));
    load(image, block, one, Some("title"));
    load(image, block, other, Some("useTimer"));
    load(image, block, one, Some("useTimer"));
    load(image, block, one, Some("width"));
}

#[test]
fn all_four_in_one_run() {
    let all = Lookups { exact_name: 1, star_entry: 1, hook_rule: 1, nothing: 1 };
    assert_eq!(lookups(write_all_four), all);
    assert_eq!(all.total(), 4);
}

#[test]
fn stores_computed_loads_and_patterns_are_lookups_too() {
    let found = lookups(|image, block| {
        let of = starred(image);
        let object = global(image, block, of);
        let [stored, computed, key, pattern, title, rest] = [(); 6].map(|()| image.identifier());
        let [list, first, last] = [(); 3].map(|()| image.identifier());
        let name = image.name("title");
        block
            .property_store(stored, object, Some(name), key)
            .computed_load(computed, object, key)
            .computed_store(stored, object, key, title)
            .destructure_object(pattern, &[Key::Named(name, title), Key::Spread(rest)], object)
            .destructure_array(list, &[Element::Place(first), Element::Hole, Element::Place(last)], object);
    });
    assert_eq!(found, Lookups { exact_name: 2, star_entry: 3, ..NO_LOOKUPS });
}

/// The lookups of an array pattern of so many places, of which each costs a few steps, on a global of this type.
fn pattern_of(object: fn(&mut Builder) -> Type, places: usize) -> Lookups {
    let image = screen(|image, block| {
        let of = object(image);
        let object = global(image, block, of);
        let (pattern, place) = (image.identifier(), image.identifier());
        block.destructure_array(pattern, &vec![Element::Place(place); places], object);
    });
    infer_types(&image.words, &image.names, LIMIT as u32).expect("tables").lookups()
}

#[test]
fn a_count_goes_as_far_as_the_steps() {
    assert_eq!(pattern_of(shapeless, 16_000), Lookups { nothing: 16_000, ..NO_LOOKUPS });
    assert_eq!(pattern_of(starred, 9_000), Lookups { star_entry: 9_000, ..NO_LOOKUPS });
}

/// `ref.current` and `fooRef.current`, loaded.
fn write_refs(image: &mut Builder, block: &mut Block) {
    for name in ["ref", "fooRef"] {
        let (named, loaded) = (image.named(name), image.identifier());
        block.load_local(loaded, named);
        load(image, block, loaded, Some("current"));
    }
}

#[test]
fn refs_make_no_lookup_under_their_option() {
    assert_eq!(lookups(write_refs), Lookups { nothing: 2, ..NO_LOOKUPS });
    let with_option = lookups(|image, block| {
        image.treat_ref_like_identifiers_as_refs();
        write_refs(image, block);
    });
    assert_eq!(with_option, NO_LOOKUPS);
}

#[test]
fn a_refused_run_has_no_lookups() {
    type Write = fn(&mut Builder, &mut Block);
    let empty_phi: Write = |image, block| {
        write_all_four(image, block);
        let empty = image.phi_type(&[]);
        global(image, block, empty);
    };
    let cycle: Write = |image, block| {
        write_all_four(image, block);
        let x = image.identifier();
        block.call(x, x, &[]);
    };
    let answer = |write: Write, budget, table_words| {
        let image = screen(write);
        let (mut work, mut tables) = (vec![0; work_words(image.words.len(), budget)], vec![0; table_words]);
        infer_types_into(&image.words, &image.names, budget, &mut work, &mut tables)
    };
    let done = answer(write_all_four, 1_024, 1_024);
    assert_eq!((done.number, done.lookups().total()), (Answer::DONE, 4));
    let table_words = done.table_words as usize;
    for (refused, number) in [
        (answer(empty_phi, 1_024, 1_024), Refusal::EMPTY_PHI),
        (answer(cycle, 1_024, 1_024), Refusal::CYCLE),
        (answer(write_all_four, done.steps - 1, 1_024), Refusal::OUT_OF_STEPS),
        (answer(write_all_four, 1_024, table_words - 1), Refusal::TABLE_WORDS),
    ] {
        assert_eq!((refused.number, refused.lookups()), (number, NO_LOOKUPS));
    }
}

#[test]
fn a_runner_has_those_of_its_last_run() {
    let mut runner = Runner::new();
    for (image, total) in [(screen(write_all_four), 4), (screen(|_, _| ()), 0), (screen(write_refs), 2)] {
        let tables = runner.infer_types(&image.words, &image.names, 1_024).expect("tables");
        assert_eq!(tables.lookups().total(), total);
    }
}

#[test]
fn lookups_are_said_in_a_sentence() {
    let said = |exact_name, star_entry, hook_rule, nothing| {
        Lookups { exact_name, star_entry, hook_rule, nothing }.to_string()
    };
    assert_eq!(said(0, 0, 0, 0), "No property was looked up.");
    assert_eq!(said(0, 1, 0, 0), "The one property lookup found a type by the \"*\" entry.");
    assert_eq!(said(0, 0, 0, 1), "The one property lookup found no type.");
    assert_eq!(said(0, 0, 2, 0), "All 2 property lookups found a type by the hook rule.");
    assert_eq!(said(0, 0, 0, 3), "All 3 property lookups found no type.");
    assert_eq!(
        said(1, 0, 1, 0),
        "Of 2 property lookups 1 found a type by the exact name and 1 by the hook rule."
    );
    assert_eq!(
        said(0, 12, 0, 1),
        "Of 13 property lookups 12 found a type by the \"*\" entry and 1 found none."
    );
    assert_eq!(
        said(4, 3, 2, 1),
        "Of 10 property lookups 4 found a type by the exact name, 3 by the \"*\" entry, 2 by the hook rule and 1 found none."
    );
    let most = u32::MAX;
    assert_eq!(Lookups { exact_name: most, star_entry: most, ..NO_LOOKUPS }.total(), 2 * u64::from(most));
}
