//! What the originals answer, as data files for the program that compares (crates/compare/data). The same sources give the same bytes.

mod banks;
mod data_file;
mod faults;
mod formulas;
mod indexes;
pub mod listings;
mod loads;
mod logs;
mod malformed;
mod probe;
mod residuals;
mod rules;
mod searched;
mod searches;

/// The names of the data files.
pub const NAMES: [&str; 10] = [
    "probe",
    "formulas",
    "banks",
    "indexes",
    "searches",
    "residuals",
    "listings",
    "loads",
    "rules",
    "logs",
];

/// The data file of that name, if there is one. The programs' texts hold bytes of any kind.
pub fn data_file(name: &str) -> Option<Vec<u8>> {
    match name {
        "probe" => Some(probe::data_file()),
        "formulas" => Some(formulas::data_file()),
        "banks" => Some(banks::data_file()),
        "indexes" => Some(indexes::data_file()),
        "searches" => Some(searches::data_file()),
        "residuals" => Some(residuals::data_file()),
        "listings" => Some(listings::data_file()),
        "loads" => Some(loads::data_file()),
        "rules" => Some(rules::data_file()),
        "logs" => Some(logs::data_file()),
        _ => None,
    }
}
