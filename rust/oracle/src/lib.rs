//! The originals of binsnake/cobra, compiled unchanged, and what it takes to ask them.
//!
//! The modules below stand where the originals look for one another: `crate::core`, `crate::passes`, `crate::simd`,
//! `crate::ir`. Their files are copied by build.rs from the folder that `COBRA_SRC` names. What the originals use but the
//! oracle does not take from the checkout is in `standins`. A caller needs only `access`: plain numbers in, plain numbers out;
//! and, to compare, the specification stated once more in `spec`, with `inputs` and what is `made` of them. `answers` and `differences`
//! are what the binary of rust/differential prints under these names. (`cargo fmt` does not find src/access, which build.rs declares:
//! format it by `rustfmt --edition 2021 src/access/mod.rs`.)

// The originals say `smallvec::SmallVec`: this crate is found under that name too, and hands out its stand-in.
extern crate self as smallvec;

pub mod answers;
pub mod differences;
pub mod digest;
pub mod inputs;
pub mod made;
pub mod spec;
mod standins;

pub use passes::template_decomposer::access;
pub use standins::smallvec::SmallVec;

pub mod core {
    include!(concat!(env!("OUT_DIR"), "/core_mods.rs"));
    pub use crate::standins::{classification, result, width};
}

pub mod passes {
    include!(concat!(env!("OUT_DIR"), "/passes_mods.rs"));
    pub use crate::standins::spot_check;
}

pub mod ir {
    pub use crate::standins::math_utils;
}

include!(concat!(env!("OUT_DIR"), "/root_mods.rs"));
