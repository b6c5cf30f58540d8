//! Why has a name its type? A screen with a cut list, state, a ref and an event handler, whose host asks for the
//! explanation of three of its names. The values without a name are called by what stands in the source.
//!
//! ```jsx
//! function Board({limit}) {
//!   const cuts = useCuts();
//!   const [chosen, setChosen] = useState(0);
//!   const saw = useRef(null);
//!   const widths = cuts.map(toWidth);
//!   const shown = chosen > 0 ? widths : limit;
//!   const caption = limit ?? shown;
//!   const onChoose = () => {
//!     setChosen(chosen + 1);
//!     saw.current = chosen;
//!     return caption;
//!   };
//!   return <ul onClick={onChoose}>{caption}</ul>;
//! }
//! ```

use infer_types::*;

/// The types of the hooks that the screen calls.
struct Hooks {
    use_cuts: Type,
    use_state: Type,
    use_ref: Type,
}

/// What the screen's names are bound to.
struct Names {
    limit: Identifier,
    cuts: Identifier,
    chosen: Identifier,
    set_chosen: Identifier,
    saw: Identifier,
    widths: Identifier,
    shown: Identifier,
    caption: Identifier,
    on_choose: Identifier,
}

fn main() -> Result<(), Box<dyn std::error::Error>> {
    print!("{}", explanations()?);
    Ok(())
}

/// The explanations of three names, one after another.
pub fn explanations() -> Result<String, Box<dyn std::error::Error>> {
    let mut image = Builder::new();
    let hooks = register_hooks(&mut image);
    let texts = ["limit", "cuts", "chosen", "setChosen", "saw", "widths", "shown", "caption", "onChoose"];
    let [limit, cuts, chosen, set_chosen, saw, widths, shown, caption, on_choose] =
        texts.map(|text| image.named(text));
    let names = Names { limit, cuts, chosen, set_chosen, saw, widths, shown, caption, on_choose };
    let (board, handler) = (image.function(), image.function());
    write_board(&mut image, board, handler, &names, &hooks);
    write_handler(&mut image, handler, &names);

    let image = image.finish()?;
    let mut runner = Runner::new();
    let mut texts = vec![];
    for name in [on_choose, set_chosen, limit] {
        let slot = image.slot_of(name);
        let (tables, listing) = runner.infer_listing(&image.words, &image.names, 1_024, slot)?;
        texts.push(listing.explain(tables, &image).to_string());
    }
    Ok(texts.join("\n"))
}

/// `useCuts` gives an array, `useState` a pair of a value and its setter, `useRef` an object with the property `current`.
fn register_hooks(image: &mut Builder) -> Hooks {
    let (primitive, poly) = (image.primitive(), image.poly());
    let array = image.object(shapes::ARRAY);
    let map = image.function_type(None, array);
    image.register(shapes::ARRAY, &[("length", primitive), ("map", map)]);
    let ref_value = image.object(shapes::REF_VALUE);
    image.register(shapes::REF_VALUE, &[("*", ref_value)]);
    image.register(shapes::USE_REF, &[("current", ref_value)]);
    let reference = image.object(shapes::USE_REF);
    image.register(shapes::PROPS, &[("ref", reference)]);
    image.register(shapes::SET_STATE, &[]);
    let set_state = image.function_type(shapes::SET_STATE, primitive);
    let pair = image.shape_named("State", &[("0", poly), ("1", set_state)]);
    let pair = image.object(pair);
    let [cuts, state, refs] = ["useCuts", "useState", "useRef"].map(|name| image.shape_named(name, &[]));
    Hooks {
        use_cuts: image.function_type(cuts, array),
        use_state: image.function_type(state, pair),
        use_ref: image.function_type(refs, reference),
    }
}

/// The component's body: what comes before its two choices, the operands of each, and what comes after them.
fn write_board(image: &mut Builder, board: Function, handler: Function, names: &Names, hooks: &Hooks) {
    let (props, out) = (image.described("the props"), image.described("what Board returns"));
    let first = write_hooks(image, props, names, hooks);
    let [widths, limit] = ["widths (line 6)", "limit (line 6)"].map(|text| image.described(text));
    let [limit_again, shown] = ["limit (line 7)", "shown (line 7)"].map(|text| image.described(text));
    let [choice, fallback] =
        ["the choice of line 6", "the choice of line 7"].map(|text| image.described(text));
    let [shown_stored, caption_stored, closure_stored] = [(); 3].map(|()| image.identifier());
    let (closure, element) = (image.described("the function of line 8"), image.described("<ul>"));
    let [click_loaded, caption_loaded] = [(); 2].map(|()| image.identifier());
    let click = image.name("onClick");
    let mut second = Block::new();
    second
        .phi(choice, &[widths, limit])
        .store_local(shown_stored, names.shown, choice)
        .load_local(limit_again, names.limit)
        .load_local(shown, names.shown);
    let mut last = Block::new();
    last.phi(fallback, &[limit_again, shown])
        .store_local(caption_stored, names.caption, fallback)
        .function_expression(closure, handler)
        .store_local(closure_stored, names.on_choose, closure)
        .load_local(click_loaded, names.on_choose)
        .load_local(caption_loaded, names.caption)
        .jsx(element, None, &[Prop::Attribute(click, click_loaded), Prop::Child(caption_loaded)])
        .returns(element);
    let [one, other] = [(widths, names.widths), (limit, names.limit)]
        .map(|(loaded, from)| Block::new().load_local(loaded, from).take());
    let blocks = [first, one, other, second, last];
    let body = Body::component(out).param(props);
    image.body(board, blocks.into_iter().fold(body, Body::block));
}

/// The lines before the first choice.
fn write_hooks(image: &mut Builder, props: Identifier, names: &Names, hooks: &Hooks) -> Block {
    let (limit, map) = (image.name("limit"), image.name("map"));
    let [use_cuts, use_state, use_ref, to_width] =
        ["useCuts", "useState", "useRef", "toWidth"].map(|text| image.described(text));
    let [all_cuts, pair, made, mapped] =
        ["useCuts()", "useState(0)", "useRef(null)", "cuts.map(toWidth)"].map(|text| image.described(text));
    let [props_taken, cuts_stored, pair_taken, saw_stored, widths_stored] =
        [(); 5].map(|()| image.identifier());
    let [cuts, method, zero, null] = [(); 4].map(|()| image.identifier());
    let mut block = Block::new();
    block
        .destructure_object(props_taken, &[Key::Named(limit, names.limit)], props)
        .load_global(use_cuts, Some(hooks.use_cuts))
        .call(all_cuts, use_cuts, &[])
        .store_local(cuts_stored, names.cuts, all_cuts)
        .load_global(use_state, Some(hooks.use_state))
        .primitive(zero)
        .call(pair, use_state, &[Argument::Place(zero)])
        .destructure_array(
            pair_taken,
            &[Element::Place(names.chosen), Element::Place(names.set_chosen)],
            pair,
        )
        .load_global(use_ref, Some(hooks.use_ref))
        .primitive(null)
        .call(made, use_ref, &[Argument::Place(null)])
        .store_local(saw_stored, names.saw, made)
        .load_local(cuts, names.cuts)
        .property_load(method, cuts, Some(map))
        .load_global(to_width, None)
        .method_call(mapped, cuts, method, &[Argument::Place(to_width)])
        .store_local(widths_stored, names.widths, mapped);
    block
}

fn write_handler(image: &mut Builder, handler: Function, names: &Names) {
    let current = image.name("current");
    let (sum, called) = (image.described("chosen + 1"), image.described("setChosen(chosen + 1)"));
    let (caption, out) = (image.described("caption (line 11)"), image.described("what onChoose returns"));
    let [setter, chosen, one, saw, chosen_again, stored] = [(); 6].map(|()| image.identifier());
    let mut block = Block::new();
    block
        .load_local(setter, names.set_chosen)
        .load_local(chosen, names.chosen)
        .primitive(one)
        .binary(sum, true, chosen, one)
        .call(called, setter, &[Argument::Place(sum)])
        .load_local(saw, names.saw)
        .load_local(chosen_again, names.chosen)
        .property_store(stored, saw, Some(current), chosen_again)
        .load_local(caption, names.caption)
        .returns(caption);
    let used = [names.set_chosen, names.chosen, names.saw, names.caption];
    let body = used.into_iter().fold(Body::other(out), Body::context);
    image.body(handler, body.block(block));
}
