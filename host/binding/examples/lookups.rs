//! Why has `timers.useTimer` a type at all? Prints the type of each property that a screen loads, and which rules gave
//! them; a `var` is a type that nothing tells.
//!
//! ```jsx
//! theme.title;       // an entry of the theme's shape
//! theme.useTimer;    // its "*" entry, which comes before the hook rule
//! timers.useTimer;   // the hook rule: a hook's name, on an object of which nothing is known
//! timers.title;      // nothing
//! ```

use infer_types::*;

fn main() -> Result<(), Box<dyn std::error::Error>> {
    let mut image = Builder::new();
    let (primitive, poly) = (image.primitive(), image.poly());
    let entries = image.shape_named("Theme", &[("title", primitive), ("*", primitive)]);
    let theme_type = image.object(entries);
    let hook = image.function_type(shapes::FUNCTION, poly);
    image.hook_type(hook);

    let [theme, timers, out] = [(); 3].map(|()| image.identifier());
    let mut block = Block::new();
    block.load_global(theme, Some(theme_type)).load_global(timers, None);
    let loads = [
        ("theme.title", theme, "title"),
        ("theme.useTimer", theme, "useTimer"),
        ("timers.useTimer", timers, "useTimer"),
        ("timers.title", timers, "title"),
    ];
    let loaded = loads.map(|(text, object, property)| {
        let (value, name) = (image.identifier(), image.name(property));
        block.property_load(value, object, Some(name));
        (text, value)
    });
    let screen = image.function();
    image.body(screen, Body::other(out).block(block));

    let image = image.finish()?;
    let tables = infer_types(&image.words, &image.names, 1_024)?;
    for (text, value) in loaded {
        println!("{text}: {}", tables.of(value).display_with(&image.shape_names));
    }
    println!("{}", tables.lookups());
    Ok(())
}
