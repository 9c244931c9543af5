//! Inputs made at random: formulas of given shapes, points and targets of several styles, rows of few kinds, banks that no build made,
//! rules with records that make them fire and not, alone and in a closing log; and the indexes of rows.

pub mod banks;
pub mod formulas;
pub mod indexes;
pub mod lent;
pub mod logs;
pub mod rows;
pub mod rules;
