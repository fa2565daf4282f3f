//! All tables of up to three states with one atom: of one and two states with all rules that have
//! each operator in each place, of three with some of them. Brute force tries them too.
#![forbid(unsafe_code)]

use super::{ask, Room};
use crate::draft::Draft;
use crate::random::Random;
use crate::report::{Group, Report};
use crate::rule::operands;
use bench::brute::violating_run;
use bench::reader::read;

/// Runs up to this length are tried; for these tables and rules that is enough for any verdict.
const MOST: usize = 5;
/// How many rules are drawn for each table of three states.
const RULES_OF_THREE: usize = 40;

pub fn compare(report: &mut Report) {
    let rules = rules();
    let mut group = Group::new("search: all tables of one and two states");
    for states in [1, 2] {
        for table in 0..tables(states) {
            for nodes in &rules {
                one(&mut group, small_table(states, table, nodes));
            }
        }
    }
    report.close(group);
    let mut group = Group::new("search: tables of three states");
    let mut random = Random::new(11);
    for table in 0..tables(3) {
        for _ in 0..RULES_OF_THREE {
            let nodes = &rules[random.below(rules.len())];
            one(&mut group, small_table(3, table, nodes));
        }
    }
    report.close(group);
}

/// The search, and the brute force against it.
fn one(group: &mut Group, draft: Draft) {
    let bytes = draft.bytes();
    let answer = ask(group, &bytes, Room::EXACT);
    let case = read(&bytes).expect("small tables are right");
    let tried = violating_run(&case, MOST, None);
    let what = || format!("brute force, {draft:?}, found {tried:?}");
    group.compare(what, tried.is_some(), answer.number == 1);
}

/// How many tables there are: per state a label, an initial mark, and ends for its edges.
pub fn tables(states: u32) -> usize {
    (4 * ends(states)).pow(states)
}

/// The choices of ends for one state: all but none.
fn ends(states: u32) -> usize {
    (1 << states) - 1
}

/// The table of this number.
pub fn small_table(states: u32, table: usize, nodes: &[[u8; 3]]) -> Draft {
    let mut left = table;
    let mut draft = Draft {
        states: states as u8,
        atoms: 1,
        nodes: nodes.to_vec(),
        ..Draft::default()
    };
    for from in 0..states as u8 {
        draft
            .records
            .push([(left & 1) as u8, 0, (left >> 1 & 1) as u8]);
        left /= 4;
        let chosen = left % ends(states) + 1;
        left /= ends(states);
        let to = (0..states as u8).filter(|to| chosen >> to & 1 == 1);
        draft.edges.extend(to.map(|to| [from, to]));
    }
    draft
}

/// p, not p, an inner node over them, an outer node with it in each place; each also denied.
pub fn rules() -> Vec<Vec<[u8; 3]>> {
    let mut rules = Vec::new();
    for inner in 0..12 {
        let inner_nodes = match operands(inner) {
            0 => vec![[inner, 0, 0]],
            1 => vec![[inner, 0, 0], [inner, 1, 0]],
            _ => vec![[inner, 0, 1], [inner, 1, 0]],
        };
        for inner_node in inner_nodes {
            for outer_node in (2..12).flat_map(outer_nodes) {
                let rule = vec![[1, 0, 0], [2, 0, 0], inner_node, outer_node];
                rules.push([rule.clone(), vec![[2, 3, 0]]].concat());
                rules.push(rule);
            }
        }
    }
    rules
}

fn outer_nodes(outer: u8) -> Vec<[u8; 3]> {
    match operands(outer) {
        1 => vec![[outer, 2, 0]],
        _ => vec![[outer, 2, 0], [outer, 2, 1], [outer, 0, 2], [outer, 1, 2]],
    }
}
