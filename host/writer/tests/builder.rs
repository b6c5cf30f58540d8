//! What the builder writes passes the check, and is what the parts write.

use host::image::{self as parts, Kind, Table, OPTIONS};
use host::plain;
use infer_image::*;

fn check(image: &Image) -> u32 {
    plain::check(&image.words, &image.names, 1_024, 8 * (image.words.len() + 1_024))
}

/// One function of one block.
fn with(write: impl FnOnce(&mut Builder, &mut Block, [Identifier; 3])) -> Image {
    let mut image = Builder::new();
    let identifiers = [(); 3].map(|()| image.identifier());
    let function = image.function();
    let mut block = Block::new();
    write(&mut image, &mut block, identifiers);
    image.body(function, Body::other(identifiers[2]).block(block));
    image.finish().expect("a body")
}

#[test]
fn row_a_is_what_the_parts_write() {
    let built = with(|_, block, [x, _, _]| _ = block.primitive(x));
    let mut image = parts::Image::new();
    let [x, _, out] = [(); 3].map(|()| image.variable());
    let primitive = parts::Instruction::new(Kind::Primitive, x, 0, vec![]);
    image.body(parts::Body::of(out, vec![primitive]));
    assert_eq!(built.words, image.write().image);
    assert_eq!(check(&built), 0);
}

#[test]
fn every_kind_passes_the_check_under_its_number() {
    let image = with(|image, block, [x, y, z]| {
        let name = image.name("current");
        let primitive = image.primitive();
        let (first, second) = (image.function(), image.function());
        for function in [first, second] {
            image.body(function, Body::hook(z).context(x).block(Block::new().returns(y).take()));
        }
        let elements = [Element::Place(x), Element::Spread(y), Element::Hole];
        let arguments = [Argument::Place(x), Argument::Spread(y)];
        let keys = [Key::Named(name, x), Key::Computed(y, x), Key::Other(z), Key::Spread(y)];
        let props = [Prop::Attribute(name, x), Prop::Spread(y), Prop::Child(z)];
        block.load_local(x, y).load_context(x, y).declare_local(x, y).declare_context(x, y);
        block.store_local(x, y, z).store_context(x, true, y, z);
        block.destructure_array(x, &elements, z).destructure_object(x, &keys, z);
        block.primitive(x).jsx_text(x).binary(x, true, y, z);
        block.new_object(x, y, &arguments).call(x, y, &arguments).method_call(x, y, z, &arguments);
        block.unary(x, y).type_cast(x, y).jsx(x, Some(y), &props).jsx(x, None, &props);
        block.object(x, &keys).object_method(x, first).array(x, &elements).jsx_fragment(x, &[y, z]);
        block.reg_exp(x).meta_property(x);
        block.property_store(x, y, Some(name), z).property_load(x, y, None).property_delete(x, y);
        block.computed_store(x, y, z, x).computed_load(x, y, z).computed_delete(x, y, z);
        block.load_global(x, Some(primitive)).load_global(x, None).store_global(x, y);
        block.function_expression(x, second).tagged_template(x, y, &[z]).template_literal(x, &[y]);
        block.await_value(x, y).get_iterator(x, y).iterator_next(x, y, z).next_property_of(x, y);
        block.prefix_update(x, y, z).postfix_update(x, y, z).debugger(x);
        block.start_memoize(x, &[y]).finish_memoize(x, y).phi(x, &[y, z]).returns(z);
    });
    assert_eq!(check(&image), 0);
    let start = image.words[image.words[Table::Functions.offset_at()] as usize] as usize;
    // the body's five words, then one phi of two operands and the count of instructions
    let mut at = start + 5 + 1 + 4 + 1;
    let mut kinds = vec![];
    for _ in 0..image.words[at - 1] {
        kinds.push(image.words[at]);
        at += 4 + 3 * image.words[at + 3] as usize;
    }
    kinds.dedup();
    assert_eq!(kinds, (0..42).collect::<Vec<u32>>());
}

#[test]
fn tables_of_every_sort_pass_the_check() {
    let mut image = Builder::new();
    image.treat_ref_like_identifiers_as_refs().treat_set_identifiers_as_state_setters();
    let screen = image.function();
    let (poly, method) = (image.poly(), image.object_method());
    let shape = image.shape(&[("*", poly), ("useTimer", method)]);
    let absent = image.absent_shape();
    let object = image.object(shape);
    let function = image.function_type(absent, object);
    let constructor = image.constructor_type(None, function);
    let phi = image.phi_type(&[constructor, object]);
    image.register(shapes::ARRAY, &[("0", phi)]).hook_type(phi);
    let slot = image.slot_with_type(phi);
    let name = image.name("aRef");
    assert_eq!(image.name("aRef"), name);
    let shared = image.identifier_of(slot, Some(name));
    assert_eq!(image.slot_of(shared), slot);
    let other = image.named("b");
    let body = Body::component(shared).param(other).spread_param(shared).block(Block::new());
    image.body(screen, body);
    let image = image.finish().expect("a body");
    assert_eq!(check(&image), 0);
    assert_eq!(image.words[OPTIONS], 3);
}

#[test]
fn a_function_without_a_body_is_named() {
    let mut image = Builder::new();
    let out = image.identifier();
    let (outer, inner) = (image.function(), image.function());
    image.body(outer, Body::other(out));
    assert_eq!(image.finish(), Err(Missing(inner)));
}

#[test]
fn identifiers_know_their_slots() {
    let mut image = Builder::new();
    let slot = image.slot();
    let own = image.identifier();
    let [one, other] = [(); 2].map(|()| image.identifier_of(slot, None));
    assert_eq!([one, other, own].map(|identifier| image.slot_of(identifier).number()), [0, 0, 1]);
    assert_eq!(Slot::from_number(0), slot);
}

#[test]
#[should_panic]
fn an_identifier_of_another_builder_has_no_slot() {
    Builder::new().slot_of(Builder::new().identifier());
}

#[test]
fn identifiers_have_their_slots_and_names() {
    let mut image = Builder::new();
    let (unnamed, named, described) = (image.identifier(), image.named("x"), image.described("x + 1"));
    let (slot, name) = (image.slot_of(named), image.name(b"\xFF"));
    let again = image.identifier_of(slot, Some(name));
    let slots = [unnamed, named, described, again].map(|one| image.slot_of(one));
    let screen = image.function();
    image.body(screen, Body::other(unnamed));
    let image = image.finish().expect("a body");
    assert_eq!([unnamed, named, described, again].map(|one| image.slot_of(one)), slots);
    let names: [Option<&[u8]>; 4] = [None, Some(b"x"), None, Some(b"\xFF")];
    assert!(image.identifiers().eq(slots.into_iter().zip(names)));
    assert_eq!(slots.map(|slot| image.slot_names.get(slot)), [None, None, Some("x + 1"), None]);
    assert_eq!(image.slot_names.iter().collect::<Vec<_>>(), [(slots[2], "x + 1")]);
}

#[test]
fn arguments_are_places_and_spreads() {
    let built = with(|_, block, [x, y, z]| _ = block.call(x, y, &[Argument::Place(z), Argument::Spread(x)]));
    let mut image = parts::Image::new();
    let [x, y, z] = [(); 3].map(|()| image.variable());
    let spread = parts::Item { tag: parts::Tag::Spread, identifier: x, key: 0 };
    let items = vec![parts::Item::place(y), parts::Item::place(z), spread];
    let call = parts::Instruction::new(Kind::CallExpression, x, 0, items);
    image.body(parts::Body::of(z, vec![call]));
    assert_eq!(built.words, image.write().image);
}

#[test]
fn shapes_have_the_names_that_they_were_given() {
    let mut image = Builder::new();
    let unnamed = image.shape(&[]);
    let named = image.shape_named("UseState", &[]);
    let out = image.identifier();
    let screen = image.function();
    image.body(screen, Body::other(out));
    let names = image.finish().expect("a body").shape_names;
    assert_eq!([unnamed, named].map(|shape| names.get(shape)), [None, Some("UseState")]);
    let built_in = [
        (shapes::PROPS, "Props"),
        (shapes::USE_REF, "UseRef"),
        (shapes::SET_STATE, "SetState"),
        (shapes::OBJECT, "Object"),
        (shapes::ARRAY, "Array"),
        (shapes::FUNCTION, "Function"),
        (shapes::JSX, "Jsx"),
        (shapes::REF_VALUE, "RefValue"),
        (shapes::MIXED_READONLY, "MixedReadonly"),
    ];
    for (shape, name) in built_in {
        assert_eq!(names.get(shape), Some(name));
    }
}

#[test]
#[should_panic(expected = "no shape 9")]
fn a_shape_that_is_not_there_is_not_registered() {
    Builder::new().register(Shape::from_number(9), &[]);
}
