//! Cases with a known verdict: 01's own, and each way in which it has been got wrong.
#![forbid(unsafe_code)]

use super::{ask, Room};
use crate::draft::Draft;
use crate::families::NIGHT_UPDATE;
use crate::report::{Group, Report};
use crate::rule::{labels, nodes, table_of_run};

/// Name, run of a table that has just this run, rule, and whether it is violated.
const OF_ONE_RUN: [(&str, &str, &str, bool); 24] = [
    ("until by waiting for ever", "| p", "not U p q", false),
    ("until that never comes", "| p", "U p q", true),
    ("release at q alone", "p | q", "R q p", true),
    ("release at q alone, denied", "p | q", "not R q p", false),
    ("X in a loop of one", "| p", "X p", false),
    ("X back to entry k", "| p, none", "X X p", false),
    ("X back to entry k, denied", "| p, none", "X X not p", true),
    ("no promise, T 0", "| p", "not p", true),
    ("no promise, T 0, true", "| p", "p", false),
    ("no promise, T 1", "| p", "X not p", true),
    ("no promise, T 2", "p | none", "X X p", true),
    ("no promise, T 3", "p, p | none", "X X X p", true),
    ("no promise, T 4", "p, p | p, none", "X X X X not p", true),
    ("inner search on entering", "p | p, p", "not p", true),
    ("dead initial places, F", "| p", "F p", false),
    ("dead initial places, G", "| none", "not G p", false),
    ("dead initial places, X", "none | p", "X p", false),
    ("X before F, kept", "p | none, p", "G X F p", false),
    ("X before F, broken", "p | none", "or X X p F q", true),
    ("X before U", "p | p, q", "and X p X U p q", false),
    ("X before R, broken", "p | q", "and X q R q p", true),
    (
        "three promises",
        "| p, q, none",
        "and G F p and G F q F p",
        false,
    ),
    (
        "three promises, broken",
        "q | p, none",
        "or G F q F G p",
        true,
    ),
    ("closing edge needed", "none | p", "F G p", false),
];

pub fn compare(report: &mut Report) {
    let mut group = Group::new("search: the night update");
    night_update(&mut group);
    report.close(group);
    let mut group = Group::new("search: known verdicts");
    for (name, draft, violated) in known() {
        let bytes = draft.bytes();
        let answer = ask(&mut group, &bytes, Room::EXACT);
        let what = || format!("{name}: violated");
        group.compare(what, violated, answer.number == 1);
        for (workspace, track) in [(-1, 0), (0, -1), (-1, -1), (5, 0), (0, 5), (9, 9)] {
            ask(&mut group, &bytes, Room { workspace, track });
        }
    }
    report.close(group);
}

/// 01's numbers: workspace 72, track 24; 71 entries give 40 and 72, a track of 23 gives 41 and 24.
fn night_update(group: &mut Group) {
    let mut holding = Draft::night_update();
    holding.edges.remove(1);
    for (bytes, verdict) in [(NIGHT_UPDATE.to_vec(), 1), (holding.bytes(), 0)] {
        for (workspace, track, number, place) in [
            (0, 0, verdict, 0),
            (7, 8, verdict, 0),
            (-1, 0, 40, 72),
            (0, -1, 41, 24),
            (-1, -1, 40, 72),
        ] {
            let answer = ask(group, &bytes, Room { workspace, track });
            let what = || format!("night update with {workspace} and {track} beside 72 and 24");
            group.compare(what, (number, place), (answer.number, answer.place));
        }
        for workspace in -72..3 {
            ask(
                group,
                &bytes,
                Room {
                    workspace,
                    track: 0,
                },
            );
        }
        for track in -24..3 {
            ask(
                group,
                &bytes,
                Room {
                    workspace: 0,
                    track,
                },
            );
        }
    }
}

/// The tables of one run, and two tables that differ in having an initial state.
fn known() -> Vec<(&'static str, Draft, bool)> {
    let mut known = Vec::new();
    for (name, run, rule, violated) in OF_ONE_RUN {
        let (labels, stem) = labels(run);
        known.push((name, table_of_run(&labels, stem, nodes(rule)), violated));
    }
    for initial in [0, 1] {
        let mut draft = Draft::standing_still(2);
        draft.nodes = nodes("not F true");
        draft.records[0][2] = initial;
        known.push(("an initial state or none", draft, initial == 1));
    }
    known
}
