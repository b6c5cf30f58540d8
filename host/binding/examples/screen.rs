//! A component that calls a setter: the ten lines a host needs.

use infer_types::{infer_types, Block, Body, Builder, Image, Missing};

pub fn screen() -> Result<Image, Missing> {
    let mut image = Builder::new();
    image.treat_set_identifiers_as_state_setters();
    let [props, loaded, result, out] = [(); 4].map(|()| image.identifier());
    let setter = image.named("setCount");
    let screen = image.function();
    let block = Block::new().load_local(loaded, setter).call(result, loaded, &[]).returns(result).take();
    image.body(screen, Body::component(out).param(props).block(block));
    image.finish()
}

fn main() -> Result<(), Box<dyn std::error::Error>> {
    let image = screen()?;
    print!("{}", infer_types(&image.words, &image.names, 1_024)?);
    Ok(())
}
