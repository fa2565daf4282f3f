//! mullodai_judge against the own judge.
#![forbid(unsafe_code)]

mod generated;
mod long;
mod marked;
mod numbers;
mod operators;

use crate::library::{self, Answer, Call};
use crate::report::{first_wrong, hex, Counts, Group, Report};
use bench::judge::{judge, Question};

/// Entries beyond the lent scratch, which nobody may touch.
const BEYOND: usize = 3;

pub fn compare(report: &mut Report) {
    println!("mullodai_judge");
    marked::compare(report);
    numbers::compare(report);
    operators::compare(report);
    long::compare(report);
    generated::compare(report);
}

/// One comparison of the answer and of every entry, lent or beyond; gives the own answer.
fn ask(group: &mut Group, asked: &Question) -> Answer {
    let answer = own(asked);
    let mut scratch = as_lent(asked.scratch + BEYOND);
    let theirs = library::judge(asked, &mut scratch[..asked.scratch]);
    let mut should = as_lent(asked.scratch + BEYOND);
    if answer.number <= 1 {
        should[..(asked.stem + asked.r#loop) as usize].fill(0);
    }
    let kept = true;
    group.compare(
        || describe(asked),
        (Call { answer, kept }, None),
        (theirs, first_wrong(&should, &scratch)),
    );
    answer
}

fn count(counts: &mut Counts, answer: Answer) {
    *counts.entry(answer.number).or_default() += 1;
}

/// What stands in the scratch before the call; no entry is 0.
fn as_lent(length: usize) -> Vec<u32> {
    let entry = |place: u32| place.wrapping_mul(0x9E37_79B1) | 1;
    (0..length as u32).map(entry).collect()
}

fn own(asked: &Question) -> Answer {
    let (number, place) = match judge(asked, None) {
        Ok(true) => (0, 0),
        Ok(false) => (1, 0),
        Err(refusal) => (refusal.number, refusal.place),
    };
    Answer {
        number,
        place,
        stem: 0,
        r#loop: 0,
    }
}

fn describe(asked: &Question) -> String {
    let shown = &asked.track[..asked.track.len().min(100)];
    format!(
        "k {}, m {}, track of {} {shown:?}, scratch of {}, case {}",
        asked.stem,
        asked.r#loop,
        asked.track.len(),
        asked.scratch,
        hex(&asked.bytes)
    )
}
