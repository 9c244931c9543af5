//! `crate::core::classification`: only named, in a struct of pass_contract.rs that nothing here makes.

/// Holds nothing.
#[derive(Clone, Debug)]
pub struct Classification;
