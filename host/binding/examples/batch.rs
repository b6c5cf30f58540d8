//! Forty screens, spread over threads: each has a Runner, which lends words of its own, and runs a part of the list. The
//! calls share nothing, and what is printed is the same whatever the number of threads.
//!
//!     batch [THREADS]

use infer_types::*;
use std::thread;

/// A screen of the host: its name, its image, and two values in it.
struct Named {
    name: String,
    image: Image,
    value: Identifier,
    returned: Identifier,
}

fn main() -> Result<(), Box<dyn std::error::Error>> {
    let threads = match std::env::args().nth(1) {
        Some(text) => text.parse()?,
        None => thread::available_parallelism()?.get(),
    };
    let named: Vec<Named> = (0..40).map(screen).collect::<Result<_, _>>()?;
    let screens: Vec<Screen> = named.iter().map(|one| Screen::new(&one.image, 65_536)).collect();
    let results = infer_on_threads(&screens, threads);

    println!("{} of {} screens have types", results.iter().flatten().count(), results.len());
    for refused in results.iter().filter_map(|result| result.as_ref().err()) {
        println!("{}: {refused}", named[refused.screen].name);
    }
    let (dialog, tables) = (&named[39], results[39].as_ref().map_err(|refused| *refused)?);
    for (text, identifier) in [("setOpen", dialog.value), ("what it returns", dialog.returned)] {
        let of = tables.of(identifier).display_with(&dialog.image.shape_names).to_string();
        println!("{}, {text}: {of}", dialog.name);
    }
    Ok(())
}

/// Each thread runs a part of the list.
fn infer_on_threads(screens: &[Screen], threads: usize) -> Vec<Result<Tables, ScreenRefused>> {
    let part = screens.len().div_ceil(threads.max(1)).max(1);
    let parts: Vec<_> = thread::scope(|scope| {
        let run = |part| scope.spawn(move || Runner::new().infer_batch(part));
        let running: Vec<_> = screens.chunks(part).map(run).collect();
        running.into_iter().map(|thread| thread.join().expect("a part that is run")).collect()
    });
    // each part counts its screens from 0
    let all = parts.into_iter().flatten().enumerate();
    all.map(|(screen, result)| result.map_err(|refused| ScreenRefused { screen, ..refused })).collect()
}

/// The screen of this number: a list, a dialog, or one that is refused.
fn screen(number: usize) -> Result<Named, Missing> {
    let mut image = Builder::new();
    image.treat_set_identifiers_as_state_setters();
    let (function, returned) = (image.function(), image.identifier());
    let (kind, (block, value)) = match (number, number % 2) {
        (17, _) => ("tree", tree(&mut image)),
        (_, 0) => ("list", list(&mut image, number)),
        _ => ("dialog", dialog(&mut image)),
    };
    image.body(function, Body::component(returned).block(block));
    Ok(Named { name: format!("{kind} {number}"), image: image.finish()?, value, returned })
}

/// `return [1, 1, ...];`
fn list(image: &mut Builder, length: usize) -> (Block, Identifier) {
    let (one, array) = (image.identifier(), image.identifier());
    let mut block = Block::new();
    block.primitive(one).array(array, &vec![Element::Place(one); length]).returns(array);
    (block, one)
}

/// `setOpen(true); return <dialog/>;`
fn dialog(image: &mut Builder) -> (Block, Identifier) {
    let set_open = image.named("setOpen");
    let [loaded, yes, called, element] = [(); 4].map(|()| image.identifier());
    let mut block = Block::new();
    block
        .load_local(loaded, set_open)
        .primitive(yes)
        .call(called, loaded, &[Argument::Place(yes)])
        .jsx(element, None, &[])
        .returns(element);
    (block, set_open)
}

/// `tree = tree();`
fn tree(image: &mut Builder) -> (Block, Identifier) {
    let tree = image.identifier();
    (Block::new().call(tree, tree, &[]).take(), tree)
}
