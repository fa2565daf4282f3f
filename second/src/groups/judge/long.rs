//! Long runs: up to 10,000 entries, far past one byte's and a table's sizes.
#![forbid(unsafe_code)]

use super::ask;
use crate::random::Random;
use crate::report::{Group, Report};
use crate::rule::{complete_table, nodes};
use bench::judge::Question;

const LENGTHS: [usize; 4] = [255, 256, 257, 1_000];
const LONGEST: usize = 10_000;
const RULES: [&str; 8] = [
    "G F p",
    "F G p",
    "G implies p F q",
    "U p q",
    "G W p q",
    "F R q p",
    "G F and p X q",
    "F U p G not q",
];

pub fn compare(report: &mut Report) {
    let mut group = Group::new("judge: long runs");
    let mut random = Random::new(5);
    for rule in RULES {
        let bytes = complete_table(nodes(rule)).bytes();
        for length in LENGTHS {
            for stem in [0, 1, length / 2, length - 1] {
                for track in [mixed(&mut random, length), waiting(length), seldom(length)] {
                    one(&mut group, &bytes, track, stem);
                }
            }
        }
        for stem in [0, 1, LONGEST / 2, LONGEST - 1] {
            one(&mut group, &bytes, mixed(&mut random, LONGEST), stem);
        }
        one(&mut group, &bytes, waiting(LONGEST), 0);
        one(&mut group, &bytes, seldom(LONGEST), 0);
    }
    report.close(group);
}

fn one(group: &mut Group, bytes: &[u8], track: Vec<u16>, stem: usize) {
    let asked = Question {
        bytes: bytes.to_vec(),
        stem: stem as u64,
        r#loop: (track.len() - stem) as u64,
        scratch: track.len() + 2,
        track,
    };
    ask(group, &asked);
}

fn mixed(random: &mut Random, length: usize) -> Vec<u16> {
    (0..length).map(|_| random.below(4) as u16).collect()
}

/// p all along, and one q at the end.
fn waiting(length: usize) -> Vec<u16> {
    let mut track = vec![1; length];
    track[length - 1] = 2;
    track
}

/// Nothing at all, but one pq in the middle.
fn seldom(length: usize) -> Vec<u16> {
    let mut track = vec![0; length];
    track[length / 2] = 3;
    track
}
