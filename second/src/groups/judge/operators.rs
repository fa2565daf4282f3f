//! Every operator inside every operator on every small run, and rules with shared nodes.
#![forbid(unsafe_code)]

use super::ask;
use crate::report::{Group, Report};
use crate::rule::{complete_table, operands};
use bench::judge::Question;

pub fn compare(report: &mut Report) {
    let mut group = Group::new("judge: every operator inside every operator");
    for nodes in nested_rules() {
        all_runs(&mut group, &nodes, 4);
    }
    report.close(group);
    let mut group = Group::new("judge: shared nodes");
    for nodes in shared_rules() {
        all_runs(&mut group, &nodes, 4);
    }
    report.close(group);
}

/// The outer operator's operands are p, q and the inner node, with the inner node in each place.
fn nested_rules() -> Vec<Vec<[u8; 3]>> {
    let mut rules = Vec::new();
    for inner in 0..12 {
        let inner_node = match operands(inner) {
            0 => [inner, 0, 0],
            1 => [inner, 1, 0],
            _ => [inner, 0, 1],
        };
        for outer in 2..12 {
            let outer_nodes = match operands(outer) {
                1 => vec![[outer, 2, 0]],
                _ => vec![[outer, 2, 1], [outer, 0, 2], [outer, 2, 2]],
            };
            for outer_node in outer_nodes {
                rules.push(vec![[1, 0, 0], [1, 1, 0], inner_node, outer_node]);
            }
        }
    }
    rules
}

/// Each binary operator with one shared operand, and 30 doublings of a temporal node: a judge
/// that walks a shared node again would take a thousand million steps.
fn shared_rules() -> Vec<Vec<[u8; 3]>> {
    let two_operands = [3, 4, 5, 9, 10, 11];
    let twice = |operator: u8| vec![[1, 0, 0], [7, 0, 0], [operator, 1, 1], [operator, 2, 0]];
    let mut rules: Vec<Vec<[u8; 3]>> = two_operands.map(twice).to_vec();
    for operator in [3, 4, 5] {
        let mut doubled = vec![[1, 0, 0], [9, 0, 0]];
        while doubled.len() < 32 {
            let last = doubled.len() as u8 - 1;
            doubled.push([operator, last, last]);
        }
        rules.push(doubled);
    }
    rules
}

/// Every run of at most so many entries over the labels none, p, q and pq.
fn all_runs(group: &mut Group, nodes: &[[u8; 3]], most: u32) {
    let bytes = complete_table(nodes.to_vec()).bytes();
    for length in 1..=most {
        for code in 0..4u16.pow(length) {
            for stem in 0..u64::from(length) {
                let asked = Question {
                    bytes: bytes.clone(),
                    track: (0..length).map(|entry| code >> (2 * entry) & 3).collect(),
                    stem,
                    r#loop: u64::from(length) - stem,
                    scratch: length as usize + 1,
                };
                ask(group, &asked);
            }
        }
    }
}
