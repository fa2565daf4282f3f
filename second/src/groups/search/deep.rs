//! Tables with every edge and rules that leave the guesses free: a depth-first search goes down
//! through almost all places before it comes back, so its paths and its runs get long.
#![forbid(unsafe_code)]

use super::{ask, Room};
use crate::draft::Draft;
use crate::generate::with_operands;
use crate::random::Random;
use crate::report::{Group, Report};
use crate::rule::{nodes, table_of_run};

const TABLES: usize = 1_500;

/// A ring of 64 states with q at state 20 and p at state 40: rule, and whether it is violated.
const RING: [(&str, bool); 8] = [
    ("not and G F p G F q", true),
    ("not and G F p F G q", false),
    ("implies G F p G F q", false),
    ("G implies p F q", false),
    ("G implies p X U not p q", false),
    ("G implies p X U not q p", true),
    ("G W not p q", true),
    ("G F R q not p", false),
];

pub fn compare(report: &mut Report) {
    let mut random = Random::new(17);
    let mut group = Group::new("search: long paths");
    let mut longest = 0;
    for number in 0..TABLES {
        let free = number % 5;
        let bytes = table(&mut random, false_rule(free)).bytes();
        let answer = ask(&mut group, &bytes, Room::EXACT);
        group.compare(|| "the rule not true".to_string(), 1, answer.number);
        longest = longest.max(answer.stem.saturating_add(answer.r#loop));
        let nodes = valid_rule(&mut random, number % 3);
        let bytes = table(&mut random, nodes).bytes();
        let answer = ask(&mut group, &bytes, Room::EXACT);
        group.compare(|| "a valid rule".to_string(), 0, answer.number);
    }
    report.close(group);
    println!("  longest run shown: {longest}");
    let mut group = Group::new("search: a ring of 64 states");
    for (rule, violated) in RING {
        let answer = ask(&mut group, &ring(rule).bytes(), Room::EXACT);
        let what = || format!("rule {rule}");
        group.compare(what, u64::from(violated), answer.number);
    }
    report.close(group);
}

fn ring(rule: &str) -> Draft {
    let mut labels = [0; 64];
    (labels[40], labels[20]) = (1, 2);
    table_of_run(&labels, 0, nodes(rule))
}

/// Up to 22 states, all initial, with every edge. p, atom 0, is nowhere true.
fn table(random: &mut Random, nodes: Vec<[u8; 3]>) -> Draft {
    let states = random.from_to(12, 22) as u8;
    let label = |_| [2 * random.below(16) as u8, 0, 1];
    let records = (0..states).map(label).collect();
    let edges = (0..states).flat_map(|from| (0..states).map(move |to| [from, to]));
    Draft {
        states,
        atoms: 5,
        records,
        edges: edges.collect(),
        nodes,
    }
}

/// The atoms p, q, r, s, t as nodes 0 to 4.
fn atoms() -> Vec<[u8; 3]> {
    (0..5).map(|atom| [1, atom, 0]).collect()
}

/// Nodes X q, X r, X s, X t that the rule has nothing to do with; the rule is not true.
fn false_rule(free: usize) -> Vec<[u8; 3]> {
    let mut nodes = atoms();
    nodes.extend((1..5).take(free).map(|atom| [6, atom, 0]));
    nodes.push([0, 0, 0]);
    nodes.push([2, nodes.len() as u8 - 1, 0]);
    nodes
}

/// F p or not F p, with two nodes F p; or the same with G not p. Up to two more temporal nodes
/// have nothing to do with the rule.
fn valid_rule(random: &mut Random, free: usize) -> Vec<[u8; 3]> {
    let mut nodes = atoms();
    nodes.push([2, 0, 0]);
    let twice = random.pick(&[[7, 0, 0], [8, 5, 0], [9, 1, 0], [11, 5, 0]]);
    nodes.extend([twice, twice, [2, 7, 0], [4, 6, 8]]);
    let rule = nodes.len() as u8 - 1;
    for _ in 0..free {
        let operator = random.pick(&[6, 6, 7, 8, 9, 10, 11]);
        nodes.push(with_operands(random, operator, 5));
    }
    nodes.push([3, rule, rule]);
    nodes
}
