//! Puts the published text in front of the compiler: `infer_types.rs` and `react_compiler_hir/mod.rs` as they are,
//! and `is_hook_name` out of `environment.rs`.
//!
//! The text is read from the folder RUST_TEXT, by default `shared/docs/src` beside the repository, and stands only in
//! the build's output. What is added at its end: a line that names the stand-ins for the crates it imports and, to
//! `infer_types.rs`, one that declares a child module, which may read the private `Unifier`.

use std::env;
use std::fs;
use std::path::{Path, PathBuf};

const INFER_TYPES: &str = "src/react_compiler_typeinference/infer_types.rs";
const HIR: &str = "src/react_compiler_hir/mod.rs";
const ENVIRONMENT: &str = "src/react_compiler_hir/environment.rs";

/// The modules that `react_compiler_hir/mod.rs` declares; each is a stand-in of the same name.
const HIR_MODULES: [&str; 10] = [
    "default_module_type_provider",
    "dominator",
    "environment",
    "environment_config",
    "globals",
    "object_shape",
    "raw",
    "reactive",
    "type_config",
    "visitors",
];

fn main() {
    let package = PathBuf::from(env::var("CARGO_MANIFEST_DIR").expect("cargo sets it"));
    let out = PathBuf::from(env::var("OUT_DIR").expect("cargo sets it"));
    let text = Text { folder: text_folder(&package) };

    let beside = package.join("src/beside.rs");
    write(
        &out.join("infer_types.rs"),
        &format!(
            "{}\nuse crate::stand_ins::{{oxc_allocator, oxc_ast, oxc_diagnostics, oxc_index, oxc_span, oxc_str, \
             rustc_hash}};\n#[path = {beside:?}]\npub mod beside;\n",
            text.read(INFER_TYPES)
        ),
    );

    let hir = out.join("react_compiler_hir");
    fs::create_dir_all(&hir).expect("a folder in the build's output");
    write(
        &hir.join("mod.rs"),
        &format!(
            "{}\nuse crate::stand_ins::{{oxc_allocator, oxc_ast, oxc_index, oxc_str, oxc_syntax}};\n",
            text.read(HIR)
        ),
    );
    for module in HIR_MODULES {
        let mut source = format!("pub use crate::stand_ins::hir::{module}::*;\n");
        if module == "environment" {
            source += item(&text.read(ENVIRONMENT), "pub fn is_hook_name");
        }
        write(&hir.join(module).with_extension("rs"), &source);
    }

    let [infer_types, hir] = [out.join("infer_types.rs"), hir.join("mod.rs")];
    let modules =
        format!("#[path = {infer_types:?}]\nmod infer_types;\n#[path = {hir:?}]\nmod react_compiler_hir;\n");
    write(&out.join("modules.rs"), &modules);
}

fn text_folder(package: &Path) -> PathBuf {
    println!("cargo:rerun-if-env-changed=RUST_TEXT");
    match env::var("RUST_TEXT") {
        Ok(folder) => PathBuf::from(folder),
        Err(_) => package.join("../../../shared/docs/src"),
    }
}

struct Text {
    folder: PathBuf,
}

impl Text {
    /// A published file.
    fn read(&self, path: &str) -> String {
        let file = self.folder.join(path);
        println!("cargo:rerun-if-changed={}", file.display());
        fs::read_to_string(&file).unwrap_or_else(|error| {
            panic!("{}: {error}: set RUST_TEXT to the folder of the published source", file.display())
        })
    }
}

/// From this beginning of an item to the brace that closes it.
fn item<'a>(text: &'a str, begins: &str) -> &'a str {
    let start = text.find(begins).expect("the item in the text");
    let length = text[start..].find("\n}").expect("the item's end") + 2;
    &text[start..start + length]
}

fn write(path: &Path, source: &str) {
    fs::write(path, source).expect("a file in the build's output");
}
