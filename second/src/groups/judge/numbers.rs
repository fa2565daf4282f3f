//! The judge's numbers: k and m at their limits, and all small tracks with all small k and m.
#![forbid(unsafe_code)]

use super::ask;
use crate::draft::Draft;
use crate::report::{Group, Report};
use crate::rule::{complete_table, nodes};
use bench::judge::Question;

pub fn compare(report: &mut Report) {
    let mut group = Group::new("judge: k and m at their limits");
    for length in [0, 1, 2, 5, 300] {
        limits(&mut group, length);
    }
    report.close(group);
    let mut group = Group::new("judge: all small tracks, k, m and scratches");
    for draft in [Draft::night_update(), two_states()] {
        for length in 0..4 {
            small(&mut group, &draft, length);
        }
    }
    report.close(group);
}

/// k and m at 0, 1, the track's length and the limits of 64 bits, also where k+m passes 2^64.
fn limits(group: &mut Group, length: u64) {
    let near = [0, 1, length, length + 1, length.max(1) - 1, length / 2];
    let far = [1 << 32, u64::MAX >> 1, 1 << 63, u64::MAX - length, u64::MAX];
    let numbers: Vec<u64> = near.into_iter().chain(far).collect();
    let bytes = complete_table(nodes("G F p")).bytes();
    for stem in &numbers {
        for r#loop in &numbers {
            for scratch in [0, length as usize, length as usize + 3] {
                let asked = Question {
                    bytes: bytes.clone(),
                    track: (0..length as u16).map(|entry| entry % 4).collect(),
                    stem: *stem,
                    r#loop: *r#loop,
                    scratch,
                };
                ask(group, &asked);
            }
        }
    }
}

/// Every track of entries 0 to 3, of which 3 is no state of these tables.
fn small(group: &mut Group, draft: &Draft, length: u32) {
    let bytes = draft.bytes();
    for code in 0..4u16.pow(length) {
        let track: Vec<u16> = (0..length).map(|entry| code >> (2 * entry) & 3).collect();
        for numbers in 0..125 {
            let asked = Question {
                bytes: bytes.clone(),
                track: track.clone(),
                stem: numbers % 5,
                r#loop: numbers / 5 % 5,
                scratch: (numbers / 25) as usize,
            };
            ask(group, &asked);
        }
    }
}

/// Only state 1 is initial; it cannot stand still.
fn two_states() -> Draft {
    Draft {
        states: 2,
        atoms: 1,
        records: vec![[1, 0, 0], [0, 0, 1]],
        edges: vec![[0, 0], [0, 1], [1, 0]],
        nodes: nodes("X U not p p"),
    }
}
