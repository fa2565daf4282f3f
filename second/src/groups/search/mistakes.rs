//! 01's "Ways this has been got wrong": an own engine with each mistake built in must differ from
//! the library, else these tests could not find the mistake.
#![forbid(unsafe_code)]

use super::small::{rules, small_table, tables};
use super::{Lent, Room, BEYOND};
use crate::generate::{draft, Shape};
use crate::library;
use crate::random::Random;
use crate::report::Report;
use crate::runs::{question, spoiled};
use crate::wanted::{wanted, wish};
use bench::brute::violating_run;
use bench::judge::judge;
use bench::mistake::Mistake;
use bench::nested;
use bench::reader::{read, Case};
use bench::verdict::verdict;

const SMALL: usize = 20_000;
const LARGE: usize = 5_000;
const QUESTIONS: usize = 20_000;

/// The first four can be told without trying runs one by one.
const MISTAKES: [Mistake; 6] = [
    Mistake::UntilWaits,
    Mistake::ReleaseOnlyBefore,
    Mistake::NoPromiseNoRun,
    Mistake::InnerOnEntering,
    Mistake::ClosingEdgeUntested,
    Mistake::NextFalseAtLast,
];

/// The mistakes that a judge can make.
const OF_JUDGES: [Mistake; 4] = [
    Mistake::UntilWaits,
    Mistake::ReleaseOnlyBefore,
    Mistake::ClosingEdgeUntested,
    Mistake::NextFalseAtLast,
];

pub fn compare(report: &mut Report) {
    println!("mistakes built in, and how often each was found out");
    let found_out = searches();
    for (mistake, times) in MISTAKES.into_iter().zip(found_out) {
        report.at_least(&format!("search, {mistake:?}"), times, 1);
    }
    let found_out = questions();
    for (mistake, times) in OF_JUDGES.into_iter().zip(found_out) {
        report.at_least(&format!("judge, {mistake:?}"), times, 1);
    }
}

/// Small tables for all mistakes, larger ones for those that need no brute force.
fn searches() -> [u64; 6] {
    let mut random = Random::new(14);
    let rules = rules();
    let mut found_out = [0; 6];
    for number in 0..SMALL {
        let states = 1 + number as u32 % 3;
        let nodes = &rules[random.below(rules.len())];
        let bytes = small_table(states, random.below(tables(states)), nodes).bytes();
        let case = read(&bytes).expect("small tables are right");
        count(&bytes, &case, &MISTAKES, &mut found_out);
    }
    for number in 0..LARGE {
        let temporal = number % 5;
        let found = wanted(&mut random, temporal, wish(number / 5, temporal));
        if found.case.states.len() > 3 {
            let (mistakes, times) = (&MISTAKES[..4], &mut found_out[..4]);
            count(&found.bytes, &found.case, mistakes, times);
        }
    }
    found_out
}

fn count(bytes: &[u8], case: &Case, mistakes: &[Mistake], times: &mut [u64]) {
    let mut lent = Lent::new(case.places(), Room::EXACT);
    let (workspace, track) = lent.parts();
    let answer = library::search(bytes, workspace, track).answer;
    for (mistake, times) in mistakes.iter().zip(times) {
        *times += u64::from(mistaken(case, *mistake) != (answer.number == 1));
    }
}

/// Violated or not, as the engine in which the mistake can be made sees it.
fn mistaken(case: &Case, mistake: Mistake) -> bool {
    match mistake {
        Mistake::ClosingEdgeUntested | Mistake::NextFalseAtLast => {
            violating_run(case, 5, Some(mistake)).is_some()
        }
        Mistake::InnerOnEntering => nested::search(case, Some(mistake)).is_some(),
        _ => verdict(case, Some(mistake)).violated,
    }
}

fn questions() -> [u64; 4] {
    let mut random = Random::new(15);
    let mut found_out = [0; 4];
    for number in 0..QUESTIONS {
        let shape = Shape::any(&mut random);
        let mut draft = draft(&mut random, shape);
        let asked = match number % 2 {
            0 => question(&mut random, &mut draft),
            _ => spoiled(&mut random, draft),
        };
        let mut scratch = vec![0; asked.scratch + BEYOND];
        let theirs = library::judge(&asked, &mut scratch[..asked.scratch]).answer;
        for (mistake, times) in OF_JUDGES.into_iter().zip(&mut found_out) {
            let (number, place) = match judge(&asked, Some(mistake)) {
                Ok(truth) => (u64::from(!truth), 0),
                Err(refusal) => (refusal.number, refusal.place),
            };
            *times += u64::from((number, place) != (theirs.number, theirs.place));
        }
    }
    found_out
}
