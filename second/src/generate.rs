//! Makes cases from random numbers: right ones of a wished shape.
#![forbid(unsafe_code)]

use crate::draft::Draft;
use crate::random::Random;
use std::collections::BTreeSet;

/// The sizes of a case to be made.
#[derive(Clone, Copy, Debug)]
pub struct Shape {
    pub states: usize,
    pub atoms: usize,
    /// Edges beyond the one that each state starts; fewer are made where there is no room.
    pub more_edges: usize,
    /// More than `temporal`.
    pub nodes: usize,
    pub temporal: usize,
}

impl Shape {
    /// Any shape that 01 allows, small ones more often than an even choice would give.
    pub fn any(random: &mut Random) -> Shape {
        let most_states = random.pick(&[3, 6, 64]);
        let most_edges = random.pick(&[4, 20, 512]);
        let most_nodes = random.pick(&[8, 32]);
        let temporal = random.from_to(0, 4);
        Shape {
            states: random.from_to(1, most_states),
            atoms: random.from_to(0, 16),
            more_edges: random.from_to(0, most_edges),
            nodes: random.from_to(temporal + 1, most_nodes),
            temporal,
        }
    }
}

/// A case that is read without a refusal.
pub fn draft(random: &mut Random, shape: Shape) -> Draft {
    Draft {
        states: shape.states as u8,
        atoms: shape.atoms as u8,
        records: records(random, shape),
        edges: edges(random, shape),
        nodes: nodes(random, shape),
    }
}

/// Random labels; each state is initial once in a number of times drawn for the whole case.
fn records(random: &mut Random, shape: Shape) -> Vec<[u8; 3]> {
    let below = 1 << shape.atoms;
    let times = random.from_to(1, shape.states + 1);
    let record = |_| {
        let [low, high] = (random.below(below) as u16).to_le_bytes();
        [low, high, u8::from(random.once_in(times))]
    };
    (0..shape.states).map(record).collect()
}

fn edges(random: &mut Random, shape: Shape) -> Vec<[u8; 2]> {
    let most = (shape.states + shape.more_edges)
        .min(512)
        .min(shape.states * shape.states);
    let mut end = || random.below(shape.states) as u8;
    let mut edges: BTreeSet<[u8; 2]> = (0..shape.states).map(|from| [from as u8, end()]).collect();
    while edges.len() < most {
        edges.insert([end(), end()]);
    }
    edges.into_iter().collect()
}

fn nodes(random: &mut Random, shape: Shape) -> Vec<[u8; 3]> {
    let mut temporal_left = shape.temporal;
    let mut nodes = vec![leaf(random, shape.atoms)];
    for number in 1..shape.nodes {
        let left = shape.nodes - number;
        if random.below(left) < temporal_left {
            temporal_left -= 1;
            let operator = random.from_to(6, 11) as u8;
            nodes.push(with_operands(random, operator, number));
        } else if random.once_in(4) {
            nodes.push(leaf(random, shape.atoms));
        } else {
            let operator = random.from_to(2, 5) as u8;
            nodes.push(with_operands(random, operator, number));
        }
    }
    nodes
}

/// An atom, or now and then (and without atoms always) true.
fn leaf(random: &mut Random, atoms: usize) -> [u8; 3] {
    if atoms == 0 || random.once_in(8) {
        [0, 0, 0]
    } else {
        [1, random.below(atoms) as u8, 0]
    }
}

/// A node with operands among the lower ones.
pub fn with_operands(random: &mut Random, operator: u8, number: usize) -> [u8; 3] {
    let first = operand(random, number);
    match operator {
        2 | 6 | 7 | 8 => [operator, first, 0],
        _ => [operator, first, operand(random, number)],
    }
}

/// A lower node, mostly one of the last three, so that rules grow deep.
fn operand(random: &mut Random, number: usize) -> u8 {
    let lowest = if random.once_in(3) {
        0
    } else {
        number.saturating_sub(3)
    };
    random.from_to(lowest, number - 1) as u8
}
