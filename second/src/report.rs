//! Counts what was compared and prints it in short lines; says at the end what passed.
#![forbid(unsafe_code)]

use std::collections::BTreeMap;
use std::fmt::Debug;
use std::process::ExitCode;
use std::time::Instant;

/// At most so many differences of one group are printed.
const SHOWN: u64 = 5;

/// All groups together.
#[derive(Default)]
pub struct Report {
    passed: u64,
    failed: u64,
}

/// One named group of comparisons.
pub struct Group {
    name: String,
    same: u64,
    different: u64,
    began: Instant,
}

/// How often each answer number was given.
pub type Counts = BTreeMap<u64, u64>;

impl Group {
    pub fn new(name: &str) -> Group {
        Group {
            name: name.to_string(),
            same: 0,
            different: 0,
            began: Instant::now(),
        }
    }

    /// One comparison. `what` says what was asked, and is only made for a difference.
    pub fn compare<T: PartialEq + Debug>(
        &mut self,
        what: impl FnOnce() -> String,
        ours: T,
        theirs: T,
    ) {
        if ours == theirs {
            self.same += 1;
            return;
        }
        self.different += 1;
        if self.different <= SHOWN {
            println!("DIFFERENCE in {}", self.name);
            println!("  asked   {}", what());
            println!("  ours    {ours:?}");
            println!("  theirs  {theirs:?}");
        }
    }
}

impl Report {
    /// Prints a group's line and adds it; a group that compared nothing has failed.
    pub fn close(&mut self, group: Group) {
        let Group {
            name,
            same,
            different,
            began,
        } = group;
        let seconds = began.elapsed().as_secs_f64();
        println!("{name}: {same} same, {different} different, {seconds:.1} s");
        self.passed += same;
        self.failed += different;
        if same + different == 0 {
            println!("FAILED: {name} compared nothing");
            self.failed += 1;
        }
    }

    /// A number that must be reached, else the comparison is too weak and that is a failure.
    pub fn at_least(&mut self, what: &str, seen: u64, wanted: u64) {
        if seen >= wanted {
            println!("  {what}: {seen}");
            self.passed += 1;
        } else {
            println!("FAILED: {what}: {seen}, but {wanted} are wanted");
            self.failed += 1;
        }
    }

    /// How often each answer was given: each wanted one often enough.
    pub fn answers(&mut self, counts: &Counts, wanted: &[u64], at_least: u64) {
        for number in wanted {
            let seen = counts.get(number).copied().unwrap_or_default();
            self.at_least(&format!("answer {number}"), seen, at_least);
        }
    }

    /// The last line and the exit status.
    pub fn finish(self) -> ExitCode {
        println!("{} passed, {} failed", self.passed, self.failed);
        if self.failed == 0 {
            ExitCode::SUCCESS
        } else {
            ExitCode::FAILURE
        }
    }
}

/// An entry of lent memory that is not as it should be.
#[derive(Clone, Copy, PartialEq, Eq, Debug)]
pub struct Wrong<T> {
    pub entry: usize,
    pub should: T,
    pub is: T,
}

/// The first entry that is not as it should be; both lists are of one length.
pub fn first_wrong<T: PartialEq + Copy>(should: &[T], is: &[T]) -> Option<Wrong<T>> {
    let entry = should
        .iter()
        .zip(is)
        .position(|(should, is)| should != is)?;
    Some(Wrong {
        entry,
        should: should[entry],
        is: is[entry],
    })
}

/// Bytes as they are written in 01.
pub fn hex(bytes: &[u8]) -> String {
    let pairs: Vec<String> = bytes.iter().map(|byte| format!("{byte:02X}")).collect();
    pairs.join(" ")
}
