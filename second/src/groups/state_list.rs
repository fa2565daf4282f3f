//! mullodai_states against the own reader: the records filled, and every record left alone.
#![forbid(unsafe_code)]

use crate::families::{self, Example};
use crate::library::{self, Answer, Call, StateRecord};
use crate::report::{first_wrong, hex, Counts, Group, Report};
use bench::reader::{self, State};

const GENERATED: usize = 200_000;
/// How often each answer must occur at the least.
const EACH_AT_LEAST: u64 = 1_000;
/// Records beyond the lent list, which nobody may touch.
const BEYOND: usize = 3;
/// What stands in a record before the call: no reading of a case gives this initial mark.
const AS_LENT: StateRecord = StateRecord {
    label: 0xA5C3,
    initial: 0x5A,
};

pub fn compare(report: &mut Report) {
    println!("mullodai_states");
    examples(report, "state list: examples of 01", families::examples());
    let name = "state list: other edges of 01's rules";
    examples(report, name, families::limits());
    let mut group = Group::new("state list: every prefix of some cases");
    families::each_prefix(|bytes| {
        for length in [0, 3, 64] {
            ask(&mut group, bytes, length);
        }
    });
    report.close(group);
    let mut group = Group::new("state list: every change of one byte of some cases");
    let mut turn = 0;
    families::each_change(families::LONGEST, |bytes| {
        ask(&mut group, bytes, [64, 9, 3, 66][turn % 4]);
        turn += 1;
    });
    report.close(group);
    generated(report);
}

/// Both sides against the answer that 01 gives, and against each other for lists of all lengths.
fn examples(report: &mut Report, name: &str, examples: Vec<Example>) {
    let mut group = Group::new(name);
    for example in examples {
        let answer = match example.answer {
            (0, 0) => (0, u64::from(example.bytes[3])),
            refusal => refusal,
        };
        let name = || example.name.to_string();
        let (ours, _) = own(&example.bytes, 64);
        group.compare(name, answer, (ours.answer.number, ours.answer.place));
        for length in 0..=66 {
            ask(&mut group, &example.bytes, length);
        }
    }
    report.close(group);
}

fn generated(report: &mut Report) {
    let mut group = Group::new("state list: generated cases");
    let mut counts = Counts::new();
    families::each_generated(2, GENERATED, |bytes, random| {
        let states = usize::from(bytes.get(3).copied().unwrap_or_default());
        let length = match random.below(5) {
            0 => random.from_to(0, 70),
            1 => states.max(1) - 1,
            2 => states + random.from_to(1, 5),
            _ => states,
        };
        let answer = ask(&mut group, bytes, length);
        *counts.entry(answer.number).or_default() += 1;
    });
    report.close(group);
    report.answers(&counts, &families::READING_ANSWERS, EACH_AT_LEAST);
}

/// One comparison of the answer and of every record, lent or beyond; gives the own answer.
fn ask(group: &mut Group, bytes: &[u8], length: usize) -> Answer {
    let (ours, own_list) = own(bytes, length);
    let mut list = vec![AS_LENT; length + BEYOND];
    let theirs = library::states(bytes, &mut list[..length]);
    group.compare(
        || format!("list of {length} for case {}", hex(bytes)),
        (ours, None),
        (theirs, first_wrong(&own_list, &list)),
    );
    ours.answer
}

fn own(bytes: &[u8], length: usize) -> (Call<Answer>, Vec<StateRecord>) {
    let nothing = State {
        label: 0,
        initial: false,
    };
    let mut states = vec![nothing; length];
    let mut list = vec![AS_LENT; length + BEYOND];
    let (number, place) = match reader::fill_states(bytes, &mut states) {
        Ok(filled) => {
            for (record, state) in list.iter_mut().zip(&states).take(filled as usize) {
                record.label = state.label;
                record.initial = u8::from(state.initial);
            }
            (0, filled)
        }
        Err(refusal) => (refusal.number, refusal.place),
    };
    let answer = Answer {
        number,
        place,
        stem: 0,
        r#loop: 0,
    };
    let kept = true;
    (Call { answer, kept }, list)
}
