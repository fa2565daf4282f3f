//! Damaged cases: refused before anything lent is written.
#![forbid(unsafe_code)]

use super::{ask, Room};
use crate::families::{each_change, each_generated, each_prefix, examples, limits};
use crate::report::{Counts, Group, Report};

/// Longer cases are not changed byte by byte.
const CHANGED_LONGEST: usize = 400;
const DAMAGED: usize = 90_000;
const EACH_AT_LEAST: u64 = 1_000;

pub fn compare(report: &mut Report) {
    let mut group = Group::new("search: edges of 01's rules and prefixes of cases");
    for example in examples().into_iter().chain(limits()) {
        let answer = ask(&mut group, &example.bytes, Room::EXACT);
        if example.answer != (0, 0) {
            let what = || example.name.to_string();
            group.compare(what, example.answer, (answer.number, answer.place));
        }
    }
    each_prefix(|bytes| {
        ask(&mut group, bytes, Room::EXACT);
    });
    report.close(group);
    let mut group = Group::new("search: every change of one byte of some cases");
    each_change(CHANGED_LONGEST, |bytes| {
        ask(&mut group, bytes, Room::EXACT);
    });
    report.close(group);
    let mut group = Group::new("search: generated cases, damaged");
    let mut counts = Counts::new();
    each_generated(13, DAMAGED, |bytes, random| {
        let room = Room {
            workspace: random.pick(&[-1, 0, 20]),
            track: random.pick(&[-1, 0, 20]),
        };
        let answer = ask(&mut group, bytes, room);
        *counts.entry(answer.number).or_default() += 1;
    });
    report.close(group);
    let answers = [0, 1, 10, 11, 12, 13, 14, 20, 21, 22, 23, 30, 31, 32, 40, 41];
    report.answers(&counts, &answers, EACH_AT_LEAST);
}
