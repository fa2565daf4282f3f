//! mullodai_state against the own reader: one state at a time, over all families of cases.
#![forbid(unsafe_code)]

use crate::families::{self, Example};
use crate::library::{self, Call, StateAnswer, StateRecord};
use crate::random::Random;
use crate::report::{hex, Counts, Group, Report};
use bench::reader;

const GENERATED: usize = 300_000;
/// How often each answer must occur at the least.
const EACH_AT_LEAST: u64 = 1_000;
/// State numbers on both sides of the limits that 01 and the widths of numbers have.
const NUMBERS: [u64; 15] = [
    0,
    1,
    2,
    3,
    4,
    63,
    64,
    65,
    255,
    256,
    1 << 16,
    1 << 32,
    (1 << 32) + 1,
    1 << 63,
    u64::MAX,
];

pub fn compare(report: &mut Report) {
    println!("mullodai_state");
    examples(report, "state: examples of 01", families::examples());
    examples(
        report,
        "state: other edges of 01's rules",
        families::limits(),
    );
    let mut group = Group::new("state: every prefix of some cases");
    families::each_prefix(|bytes| {
        for number in [0, 2, 64] {
            ask(&mut group, bytes, number);
        }
    });
    report.close(group);
    let mut group = Group::new("state: every change of one byte of some cases");
    let mut turn = 0;
    families::each_change(families::LONGEST, |bytes| {
        ask(&mut group, bytes, turn % 9);
        turn += 1;
    });
    report.close(group);
    generated(report);
}

/// Both sides against the answer that 01 gives, and against each other for all numbers.
fn examples(report: &mut Report, name: &str, examples: Vec<Example>) {
    let mut group = Group::new(name);
    for example in examples {
        let theirs = library::state(&example.bytes, 0).answer;
        let ours = own(&example.bytes, 0);
        let name = || example.name.to_string();
        group.compare(name, example.answer, (theirs.number, theirs.place));
        group.compare(name, example.answer, (ours.number, ours.place));
        for number in NUMBERS {
            ask(&mut group, &example.bytes, number);
        }
    }
    report.close(group);
}

fn generated(report: &mut Report) {
    let mut group = Group::new("state: generated cases");
    let mut counts = Counts::new();
    families::each_generated(1, GENERATED, |bytes, random| {
        let number = any_number(bytes, random);
        let answer = ask(&mut group, bytes, number);
        *counts.entry(answer.number).or_default() += 1;
    });
    report.close(group);
    report.answers(&counts, &families::READING_ANSWERS, EACH_AT_LEAST);
}

/// Mostly a state that the case seems to have, else one just past it or far away.
fn any_number(bytes: &[u8], random: &mut Random) -> u64 {
    let states = bytes.get(3).copied().unwrap_or_default();
    match random.below(8) {
        0 => random.pick(&NUMBERS),
        1 => u64::from(states),
        _ => random.below(usize::from(states.max(1))) as u64,
    }
}

/// One comparison; gives the own answer.
fn ask(group: &mut Group, bytes: &[u8], number: u64) -> StateAnswer {
    let answer = own(bytes, number);
    let kept = true;
    group.compare(
        || format!("state {number} of case {}", hex(bytes)),
        Call { answer, kept },
        library::state(bytes, number),
    );
    answer
}

fn own(bytes: &[u8], number: u64) -> StateAnswer {
    match reader::read_state(bytes, number) {
        Ok(state) => StateAnswer {
            number: 0,
            place: 0,
            state: StateRecord {
                label: state.label,
                initial: u8::from(state.initial),
            },
        },
        Err(refusal) => StateAnswer {
            number: refusal.number,
            place: refusal.place,
            state: StateRecord::default(),
        },
    }
}
