//! What stands in for the crates and modules that the published text imports, no larger than the text needs it.

pub mod hir;
pub mod ordered_map;
pub mod oxc_allocator;
pub mod oxc_ast;
pub mod oxc_diagnostics;
pub mod oxc_index;
pub mod oxc_span;
pub mod oxc_str;
pub mod oxc_syntax;
pub mod rustc_hash;
