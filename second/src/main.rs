//! The comparison program: runs every group and ends with the line `N passed, M failed`.
#![forbid(unsafe_code)]
#![deny(warnings)]

use second::groups;
use second::report::Report;
use std::process::ExitCode;

fn main() -> ExitCode {
    let mut report = Report::default();
    groups::state::compare(&mut report);
    #[cfg(feature = "judge")]
    groups::judge::compare(&mut report);
    #[cfg(feature = "search")]
    groups::search::compare(&mut report);
    #[cfg(feature = "states")]
    groups::state_list::compare(&mut report);
    report.finish()
}
