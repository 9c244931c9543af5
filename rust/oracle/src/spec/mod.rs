//! The specification stated once more in plain Rust, by other means than the originals: no trees, no masks, no filter; words
//! in u128. What the originals answer is held against it, and it answers where the originals are not to be asked.

pub mod bank;
pub mod formulas;
pub mod gates;
pub mod index;
pub mod lent;
pub mod listing;
pub mod load;
pub mod log;
pub mod product;
pub mod refusals;
pub mod residual;
pub mod rule;
pub mod texts;
