//! Tables: slots and identifiers, types read and printed.

use infer_types::*;

/// A screen of one block; the identifiers are what the test names.
fn screen<const N: usize>(
    write: impl FnOnce(&mut Builder, &mut Block, [Identifier; N]),
) -> (Image, [Identifier; N]) {
    let mut image = Builder::new();
    let function = image.function();
    let identifiers = [(); N].map(|()| image.identifier());
    let out = image.identifier();
    let mut block = Block::new();
    write(&mut image, &mut block, identifiers);
    image.body(function, Body::other(out).block(block));
    (image.finish().expect("a body"), identifiers)
}

fn run(image: &Image) -> Tables {
    infer_types(&image.words, &image.names, 65_536).expect("tables")
}

/// function 5 (phi (object 4, constructor without shape of poly)), in a global that is loaded.
fn nested() -> (Image, Identifier) {
    let (image, [x]) = screen(|image, block, [x]| {
        let (poly, array) = (image.poly(), image.object(shapes::ARRAY));
        let constructor = image.constructor_type(None, poly);
        let phi = image.phi_type(&[array, constructor]);
        let function = image.function_type(shapes::FUNCTION, phi);
        block.load_global(x, Some(function));
    });
    (image, x)
}

#[test]
fn an_identifier_has_the_type_of_its_slot() {
    let mut image = Builder::new();
    let (first, slot) = (image.slot(), image.slot());
    let [one, other] = [(); 2].map(|()| image.identifier_of(slot, None));
    let out = image.identifier_of(first, None);
    let screen = image.function();
    image.body(screen, Body::other(out).block(Block::new().primitive(one).take()));
    let tables = run(&image.finish().expect("a body"));
    assert_eq!([one, other, out].map(|identifier| tables.slot_of(identifier)), [slot, slot, first]);
    assert_eq!(tables.of(one).kind(), TypeKind::Primitive);
    assert_eq!(tables.of(other), tables.of(one));
    assert_eq!(tables.of(out).kind(), TypeKind::Var(first));
    assert_eq!(tables.slots().map(|(slot, _)| slot).collect::<Vec<_>>(), [first, slot]);
    assert_eq!(tables.bindings().map(|(slot, _)| slot).collect::<Vec<_>>(), [slot]);
}

#[test]
fn slots_and_identifiers_of_other_images_panic() {
    let tables = run(&nested().0);
    let (slot, identifier) = (Slot::from_number(2), Identifier::from_number(2));
    let panics = |look: &dyn Fn()| {
        std::panic::catch_unwind(std::panic::AssertUnwindSafe(look)).expect_err("a panic");
    };
    panics(&|| _ = tables.slot(slot));
    panics(&|| _ = tables.binding(slot));
    panics(&|| _ = tables.slot_of(identifier));
    panics(&|| _ = tables.of(identifier));
}

#[test]
fn types_are_read_by_kind() {
    let (image, x) = nested();
    let tables = run(&image);
    let TypeKind::Function { shape, constructor, returns } = tables.of(x).kind() else {
        panic!("a function")
    };
    assert_eq!((shape, constructor), (Some(shapes::FUNCTION), false));
    let TypeKind::Phi(mut operands) = returns.kind() else { panic!("a phi") };
    assert_eq!(operands.len(), 2);
    assert_eq!(operands.next().map(Inferred::kind), Some(TypeKind::Object { shape: Some(shapes::ARRAY) }));
    let TypeKind::Function { shape, constructor, returns } = operands.next().expect("an operand").kind()
    else {
        panic!("a constructor")
    };
    assert_eq!((shape, constructor, returns.kind()), (None, true, TypeKind::Poly));
    assert_eq!((operands.len(), operands.next()), (0, None));
}

#[test]
fn types_are_printed_by_number_and_by_name() {
    let (image, x) = nested();
    let tables = run(&image);
    let of = tables.of(x);
    assert_eq!(of.to_string(), "function 5 phi 2 object 4 constructor none poly");
    assert_eq!(format!("{of:?}"), of.to_string());
    let named = of.display_with(&image.shape_names).to_string();
    assert_eq!(named, "function Function -> phi(object Array, constructor -> poly)");
}

#[test]
fn shapes_are_printed_by_the_names_that_they_have() {
    let (image, [x, y, z]) = screen(|image, block, [x, y, z]| {
        let (named, unnamed) = (image.shape_named("Pair", &[]), image.shape(&[]));
        let [named, unnamed, none] = [Some(named), Some(unnamed), None].map(|shape| image.object(shape));
        let empty = image.phi_type(&[]);
        let inner = image.phi_type(&[empty, unnamed]);
        let phi = image.phi_type(&[inner, none]);
        let (method, out) = (image.function(), image.identifier());
        image.body(method, Body::other(out));
        block.load_global(x, Some(named)).load_global(y, Some(phi)).object_method(z, method);
    });
    let tables = run(&image);
    let named = |identifier| tables.of(identifier).display_with(&image.shape_names).to_string();
    assert_eq!(named(x), "object Pair");
    assert_eq!(named(y), "phi(phi(phi(), object 10), object)");
    assert_eq!(named(z), "method");
    assert_eq!(tables.of(y).to_string(), "phi 2 phi 2 phi 0 object 10 object none");
}
