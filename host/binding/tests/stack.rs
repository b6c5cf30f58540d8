//! On a thread of 2 MiB, which is what Rust gives one by default, no image overruns the stack, and no type that is read.
//! An overrun ends the test program. (`infer_tests` holds every stored input to its answer on such a thread.)

use host::deep;
use host::image::Input;
use infer_types::*;
use std::thread;

fn on_stack(bytes: usize, test: impl FnOnce() + Send) {
    thread::scope(|scope| {
        let thread = thread::Builder::new().stack_size(bytes).spawn_scoped(scope, test);
        thread.expect("a thread").join().expect("a test that passes");
    });
}

fn on_a_default_stack(test: impl FnOnce() + Send) {
    on_stack(2 << 20, test);
}

/// A global of so many functions in each other, for each of the identifiers, with the next one's variable at its end.
fn towers(identifiers: u32, functions: u32) -> (Image, Identifier) {
    let mut image = Builder::new();
    let screen = image.function();
    let mut block = Block::new();
    let mut last = image.identifier();
    for _ in 0..identifiers {
        let slot = image.slot_of(last);
        let mut tower = image.var(slot);
        for _ in 0..functions {
            tower = image.function_type(None, tower);
        }
        last = image.identifier();
        block.load_global(last, Some(tower));
    }
    let out = image.identifier();
    image.body(screen, Body::other(out).block(block));
    (image.finish().expect("a body"), last)
}

#[test]
fn five_globals_of_nested_functions() {
    on_a_default_stack(|| {
        let (image, first) = towers(5, 2_040);
        let expected = format!("{}var 0", "function none ".repeat(5 * 2_040));
        let tables = infer_types(&image.words, &image.names, 65_536).expect("tables");
        assert_eq!(tables.of(first).to_string(), expected);
        let mut runner = Runner::new();
        let tables = runner.infer_types(&image.words, &image.names, 65_536).expect("tables");
        assert_eq!(tables.of(first).to_string(), expected);
    });
}

#[test]
fn every_deep_image() {
    on_a_default_stack(|| {
        let mut runner = Runner::new();
        for case in deep::deep() {
            let (image, names) = (&case.input.image, &case.input.names);
            let once = infer_types(image, names, case.input.budget);
            assert_eq!(runner.infer_types(image, names, case.input.budget).cloned(), once, "{}", case.name);
        }
    });
}

/// Each between small ones: the stack is that of the screen that needs most.
#[test]
fn every_deep_image_in_one_list() {
    on_a_default_stack(|| {
        let (cases, (small, _)) = (deep::deep(), towers(1, 1));
        let mut screens = vec![Screen::new(&small, 1_024)];
        for Input { image, names, budget, .. } in cases.iter().map(|case| &case.input) {
            screens.extend([Screen { image, names, budget: *budget }, screens[0]]);
        }
        let runs = screens.iter().map(|screen| infer_types(screen.image, screen.names, screen.budget));
        let listed = infer_batch(&screens).into_iter().map(|one| one.map_err(|refused| refused.refusal));
        assert!(listed.eq(runs));
    });
}

/// The bytes that a call is said to take are enough for it, for a list of it and for the listing of a slot, with 16 KiB
/// for the thread itself.
#[test]
fn no_deep_image_takes_more_than_its_bound() {
    for case in deep::deep() {
        let (image, names) = (&case.input.image, &case.input.names);
        for budget in (10..=16).map(|bits| 1 << bits) {
            let (mut work, mut tables) = (vec![0; work_words(image.len(), budget)], vec![0; 1 << 20]);
            let mut listing = vec![0; 1 << 20];
            let list = [0, image.len() as u32, 0, names.len() as u32, budget];
            on_stack(stack_bytes(image, budget) + (16 << 10), || {
                let answer = infer_types_into(image, names, budget, &mut work, &mut tables);
                let mut row = [0; ANSWER_ROW];
                infer_batch_into(&list, image, names, &mut work, &mut tables, &mut row);
                assert_eq!(Answer::of_row(&row), answer);
                for slot in [0, 1, answer.slots / 2, answer.slots.saturating_sub(1)] {
                    let (slot, work) = (Slot::from_number(slot), &mut work);
                    let listed =
                        infer_listing_into(image, names, budget, work, &mut tables, slot, &mut listing);
                    assert_eq!(listed.answer, answer);
                }
            });
        }
    }
}

#[test]
fn the_deepest_type_is_printed_copied_compared_and_dropped() {
    on_a_default_stack(|| {
        let is_deepest = |case: &host::image::Case| case.name == "function types in each other";
        let case = deep::deep().into_iter().find(is_deepest).expect("the image");
        let tables = infer_types(&case.input.image, &case.input.names, 65_536).expect("tables");
        let of = tables.slot(Slot::from_number(0));
        let functions = of.to_string().matches("function").count();
        assert_eq!(functions, 20_470);
        assert_eq!(format!("{of:?}").len(), of.to_string().len());
        assert_eq!(
            of.display_with(&ShapeNames::new()).to_string().matches("function -> ").count(),
            functions
        );
        let copy = tables.clone();
        assert_eq!(of, copy.slot(Slot::from_number(0)));
        assert_eq!(of.kind(), copy.slot(Slot::from_number(0)).kind());
        assert!(format!("{tables:?}{tables}").len() > 2 * functions);
        drop((tables, copy));
    });
}
