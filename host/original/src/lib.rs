//! The Rust itself: the published `infer_types.rs`, compiled unchanged over small stand-ins, run over images.
//!
//! `image::read` makes the Rust's input of an image, `run` runs the pass and gives its tables as document 01 writes
//! them, `worker` runs it in a child process, where endless recursion does no harm.

// what the text declares and nothing here uses
#![allow(dead_code, unused_imports, unused_macros, unused_variables)]

mod stand_ins;

mod diagnostics {
    pub use crate::stand_ins::oxc_diagnostics::ErrorCategory;
}
mod react_compiler_utils {
    pub use crate::stand_ins::ordered_map::OrderedMap;
    pub mod ordered_map {
        pub use crate::stand_ins::ordered_map::{ArenaOrderedMap, ArenaOrderedSet};
    }
}
mod react_compiler_ssa {
    pub mod enter_ssa {
        pub use crate::stand_ins::hir::placeholder_function;
    }
}

// `infer_types` and `react_compiler_hir`, from the published text
include!(concat!(env!("OUT_DIR"), "/modules.rs"));

pub mod looks;
pub mod run;
pub mod screen;
mod values;
pub mod worker;
