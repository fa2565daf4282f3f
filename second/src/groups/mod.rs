//! The groups of comparisons, one module for each entry or family.
#![forbid(unsafe_code)]

#[cfg(feature = "judge")]
pub mod judge;
#[cfg(feature = "search")]
pub mod search;
pub mod state;
#[cfg(feature = "states")]
pub mod state_list;
