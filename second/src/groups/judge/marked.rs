//! Runs with a known truth: 01's marked cases M1 to M12, and some of our own.
#![forbid(unsafe_code)]

use super::ask;
use crate::report::{Group, Report};
use crate::rule::{labels, nodes, table_of_run};
use bench::judge::Question;

/// Name, labels of the run, rule, truth at position 0.
type Marked = (&'static str, &'static str, &'static str, bool);

const MARKED: [Marked; 12] = [
    ("M1", "| p", "G p", true),
    ("M2", "p | none", "F p", true),
    ("M3", "p | none", "G p", false),
    ("M4", "none | p", "X p", true),
    ("M5", "p | q", "U p q", true),
    ("M6", "| p", "U p q", false),
    ("M7", "| p", "W p q", true),
    ("M8", "| p", "R q p", true),
    ("M9", "p | q", "R q p", false),
    ("M10", "p, pq | none", "R q p", true),
    ("M11", "| p, none", "G F p", true),
    ("M12", "| p, none", "F G p", false),
];

const MORE: [Marked; 31] = [
    ("p in the stem only", "p | none", "G F p", false),
    ("p in the stem only", "p | none", "F G not p", true),
    (
        "p in a long stem only",
        "p, p, p | none, none",
        "G F p",
        false,
    ),
    ("q in the stem only", "q, p | p", "F G p", true),
    ("p once in the loop", "none | none, p, none", "G F p", true),
    ("p in the loop", "none | none, p", "F G p", false),
    ("X in the last entry", "| p, none", "X X p", true),
    ("X in the last entry", "| p, none", "X p", false),
    ("X back to entry k", "p | q", "X X p", false),
    ("X back to entry k", "p | q", "X X q", true),
    ("X four times", "none, none | p, none", "X X X X p", true),
    ("X four times", "none, none | none, p", "X X X X p", false),
    ("X in a loop of one", "| p", "G X p", true),
    ("true", "| none", "true", true),
    ("not true", "| none", "not true", false),
    ("implies, none", "| none", "implies p q", true),
    ("implies, p", "| p", "implies p q", false),
    ("implies, q", "| q", "implies p q", true),
    ("implies, pq", "| pq", "implies p q", true),
    ("until at once", "q | none", "U p q", true),
    ("until too late", "p, none | q", "U p q", false),
    ("until round the loop", "| p, p, q", "G U p q", true),
    ("until, not at the gap", "| p, none, q", "G U p q", false),
    ("weak until too late", "p, none | q", "W p q", false),
    ("weak until for ever", "p | p, p", "W p q", true),
    ("weak until, broken", "p | none", "W p q", false),
    ("release at once", "pq | none", "R q p", true),
    ("release without b", "| q", "R q p", false),
    ("release after a gap", "p, none, pq | p", "R q p", false),
    ("release for ever", "p | p, p", "R q p", true),
    ("release late", "p, p | p, pq, none", "R q p", true),
];

pub fn compare(report: &mut Report) {
    all(report, "judge: marked cases M1 to M12", &MARKED);
    all(report, "judge: runs of known truth", &MORE);
}

/// Both judges against the known truth, with the scratch exact, longer and one short.
fn all(report: &mut Report, name: &str, marked: &[Marked]) {
    let mut group = Group::new(name);
    for (name, run, rule, truth) in marked {
        let (labels, stem) = labels(run);
        let length = labels.len();
        for scratch in [length, length + 5, length - 1] {
            let asked = Question {
                bytes: table_of_run(&labels, stem, nodes(rule)).bytes(),
                track: (0..length as u16).collect(),
                stem: stem as u64,
                r#loop: (length - stem) as u64,
                scratch,
            };
            let answer = ask(&mut group, &asked);
            let known = match scratch < length {
                true => (40, length as u64),
                false => (u64::from(!truth), 0),
            };
            let what = || format!("{name}, run {run}, rule {rule}");
            group.compare(what, known, (answer.number, answer.place));
        }
    }
    report.close(group);
}
