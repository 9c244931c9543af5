//! Small stand-ins of our own for what the originals use and the oracle does not take from the checkout.

pub mod classification;
pub mod math_utils;
pub mod result;
pub mod smallvec;
pub mod spot_check;
pub mod width;
