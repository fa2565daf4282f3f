//! The parts of the comparison: the cases, the calls into the C library, the groups, the report.
#![deny(warnings)]
#![deny(unsafe_code)]

pub mod damage;
pub mod draft;
pub mod families;
pub mod generate;
pub mod groups;
pub mod library;
pub mod random;
pub mod report;
pub mod rule;
pub mod runs;
pub mod wanted;
