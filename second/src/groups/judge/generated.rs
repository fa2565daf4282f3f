//! Generated questions: right runs for both answers, spoiled ones for every refusal, and damaged
//! cases.
#![forbid(unsafe_code)]

use super::{ask, count};
use crate::families::each_generated;
use crate::generate::{draft, Shape};
use crate::random::Random;
use crate::report::{Counts, Group, Report};
use crate::runs::{question, spoiled};
use bench::judge::Question;

const RIGHT: usize = 100_000;
const SPOILED: usize = 100_000;
const DAMAGED: usize = 90_000;
const BOTH_AT_LEAST: u64 = 10_000;
const EACH_AT_LEAST: u64 = 1_000;

pub fn compare(report: &mut Report) {
    let mut random = Random::new(6);
    let mut group = Group::new("judge: generated runs");
    let mut counts = Counts::new();
    let (mut empty_stems, mut loops_of_one) = (0, 0);
    for _ in 0..RIGHT {
        let shape = Shape::any(&mut random);
        let mut draft = draft(&mut random, shape);
        let asked = question(&mut random, &mut draft);
        count(&mut counts, ask(&mut group, &asked));
        empty_stems += u64::from(asked.stem == 0);
        loops_of_one += u64::from(asked.r#loop == 1);
    }
    report.close(group);
    report.answers(&counts, &[0, 1], BOTH_AT_LEAST);
    report.at_least("empty stems", empty_stems, EACH_AT_LEAST);
    report.at_least("loops of one", loops_of_one, EACH_AT_LEAST);
    let mut group = Group::new("judge: generated runs, spoiled");
    let mut counts = Counts::new();
    for _ in 0..SPOILED {
        let shape = Shape::any(&mut random);
        let draft = draft(&mut random, shape);
        let asked = spoiled(&mut random, draft);
        count(&mut counts, ask(&mut group, &asked));
    }
    report.close(group);
    report.answers(&counts, &[0, 1, 40, 50, 51, 52, 53, 54], EACH_AT_LEAST);
    damaged_cases(report);
}

/// Any track at all: a damaged case is refused before anybody looks at it.
fn damaged_cases(report: &mut Report) {
    let mut group = Group::new("judge: generated cases, damaged");
    let mut counts = Counts::new();
    each_generated(7, DAMAGED, |bytes, random| {
        let asked = Question {
            bytes: bytes.to_vec(),
            track: (0..random.below(4))
                .map(|_| random.below(3) as u16)
                .collect(),
            stem: random.below(3) as u64,
            r#loop: random.below(4) as u64,
            scratch: random.below(4),
        };
        count(&mut counts, ask(&mut group, &asked));
    });
    report.close(group);
    let refusals = [10, 11, 12, 13, 14, 20, 21, 22, 23, 30, 31, 32];
    report.answers(&counts, &refusals, EACH_AT_LEAST);
}
