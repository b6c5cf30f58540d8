//! A whole screen: props, state, a ref and an event handler. Prints the type of each of its names; a `var` is a type that
//! nothing in the code tells.
//!
//! ```jsx
//! function Counter({items}) {
//!   const [count, setCount] = useState(0);
//!   const ref = useRef(null);
//!   const onClick = () => {
//!     setCount(count + 1);
//!     ref.current = count;
//!   };
//!   return <div onClick={onClick}>{count}</div>;
//! }
//! ```

use infer_types::*;

/// The types of the hooks that the screen calls.
struct Hooks {
    use_state: Type,
    use_ref: Type,
}

/// What the screen's names are bound to.
struct Names {
    items: Identifier,
    count: Identifier,
    set_count: Identifier,
    reference: Identifier,
    on_click: Identifier,
}

fn main() -> Result<(), Box<dyn std::error::Error>> {
    let mut image = Builder::new();
    let hooks = register_hooks(&mut image);
    let texts = ["items", "count", "setCount", "ref", "onClick"];
    let identifiers = texts.map(|text| image.named(text));
    let [items, count, set_count, reference, on_click] = identifiers;
    let names = Names { items, count, set_count, reference, on_click };
    let (counter, handler) = (image.function(), image.function());
    let returned = write_counter(&mut image, counter, handler, &names, &hooks);
    write_handler(&mut image, handler, &names);

    let image = image.finish()?;
    let tables = infer_types(&image.words, &image.names, 1_024)?;
    let print =
        |text, identifier| println!("{text}: {}", tables.of(identifier).display_with(&image.shape_names));
    texts.into_iter().zip(identifiers).for_each(|(text, identifier)| print(text, identifier));
    print("Counter returns", returned);
    Ok(())
}

/// `useState` gives a pair of a value and its setter, `useRef` an object with the property `current`.
fn register_hooks(image: &mut Builder) -> Hooks {
    let (primitive, poly) = (image.primitive(), image.poly());
    let ref_value = image.object(shapes::REF_VALUE);
    image.register(shapes::REF_VALUE, &[("*", ref_value)]);
    image.register(shapes::USE_REF, &[("current", ref_value)]);
    let reference = image.object(shapes::USE_REF);
    image.register(shapes::PROPS, &[("ref", reference)]);
    image.register(shapes::SET_STATE, &[]);
    let set_state = image.function_type(shapes::SET_STATE, primitive);
    let pair = image.shape_named("State", &[("0", poly), ("1", set_state)]);
    let pair = image.object(pair);
    let (use_state, use_ref) = (image.shape_named("useState", &[]), image.shape_named("useRef", &[]));
    Hooks {
        use_state: image.function_type(use_state, pair),
        use_ref: image.function_type(use_ref, reference),
    }
}

/// The component's body; gives what it returns.
fn write_counter(
    image: &mut Builder,
    counter: Function,
    handler: Function,
    names: &Names,
    hooks: &Hooks,
) -> Identifier {
    let (items, click) = (image.name("items"), image.name("onClick"));
    let [props, use_state, zero, pair, use_ref, null, made, closure] = [(); 8].map(|()| image.identifier());
    let [click_loaded, count_loaded, element, out] = [(); 4].map(|()| image.identifier());
    let [props_taken, pair_taken, ref_stored, click_stored] = [(); 4].map(|()| image.identifier());
    let mut block = Block::new();
    block
        .destructure_object(props_taken, &[Key::Named(items, names.items)], props)
        .load_global(use_state, Some(hooks.use_state))
        .primitive(zero)
        .call(pair, use_state, &[Argument::Place(zero)])
        .destructure_array(pair_taken, &[Element::Place(names.count), Element::Place(names.set_count)], pair)
        .load_global(use_ref, Some(hooks.use_ref))
        .primitive(null)
        .call(made, use_ref, &[Argument::Place(null)])
        .store_local(ref_stored, names.reference, made)
        .function_expression(closure, handler)
        .store_local(click_stored, names.on_click, closure)
        .load_local(click_loaded, names.on_click)
        .load_local(count_loaded, names.count)
        .jsx(element, None, &[Prop::Attribute(click, click_loaded), Prop::Child(count_loaded)])
        .returns(element);
    image.body(counter, Body::component(out).param(props).block(block));
    out
}

fn write_handler(image: &mut Builder, handler: Function, names: &Names) {
    let current = image.name("current");
    let [setter, count, one, sum, called] = [(); 5].map(|()| image.identifier());
    let [reference, count_again, stored, undefined, out] = [(); 5].map(|()| image.identifier());
    let mut block = Block::new();
    block
        .load_local(setter, names.set_count)
        .load_local(count, names.count)
        .primitive(one)
        .binary(sum, true, count, one)
        .call(called, setter, &[Argument::Place(sum)])
        .load_local(reference, names.reference)
        .load_local(count_again, names.count)
        .property_store(stored, reference, Some(current), count_again)
        .primitive(undefined)
        .returns(undefined);
    let body = Body::other(out).context(names.set_count).context(names.count).context(names.reference);
    image.body(handler, body.block(block));
}
