//! The second program's own bench, written apart: from 01 and the source documents alone.
#![forbid(unsafe_code)]
#![deny(warnings)]

pub mod brute;
pub mod judge;
mod lanes;
pub mod mistake;
pub mod nested;
pub mod product;
pub mod reader;
pub mod verdict;
