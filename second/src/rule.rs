//! Rules, labels and runs as short texts, to write tests down the way 01 writes them.
#![forbid(unsafe_code)]

use crate::draft::Draft;

const OPERATORS: [&str; 12] = [
    "true", "atom", "not", "and", "or", "implies", "X", "F", "G", "U", "R", "W",
];

/// How many operands an operator has.
pub fn operands(operator: u8) -> usize {
    match operator {
        0 | 1 => 0,
        2 | 6 | 7 | 8 => 1,
        _ => 2,
    }
}

/// The nodes of a rule whose operators stand before their operands: `G implies p F q`.
/// The atoms are p, q, r, from 0 on.
pub fn nodes(text: &str) -> Vec<[u8; 3]> {
    let mut nodes = Vec::new();
    let mut words = text.split_whitespace();
    add(&mut words, &mut nodes);
    assert!(words.next().is_none(), "words left after the rule {text}");
    nodes
}

fn add<'a>(words: &mut impl Iterator<Item = &'a str>, nodes: &mut Vec<[u8; 3]>) -> u8 {
    let word = words.next().expect("a rule that ends too early");
    let node = match OPERATORS.iter().position(|operator| *operator == word) {
        None => [1, atom(word), 0],
        Some(operator) => {
            let mut node = [operator as u8, 0, 0];
            for operand in 1..=operands(node[0]) {
                node[operand] = add(words, nodes);
            }
            node
        }
    };
    nodes.push(node);
    nodes.len() as u8 - 1
}

fn atom(word: &str) -> u8 {
    let place = "pqr".find(word).expect("an atom is p, q or r");
    place as u8
}

/// The labels of a run written as `p, pq | none`, and how many of them are the stem's.
pub fn labels(run: &str) -> (Vec<u8>, usize) {
    let (stem, r#loop) = run.split_once('|').expect("a run has a bar");
    let mut all = list(stem);
    let k = all.len();
    all.extend(list(r#loop));
    (all, k)
}

fn list(text: &str) -> Vec<u8> {
    let labels = text
        .split(',')
        .map(str::trim)
        .filter(|word| !word.is_empty());
    labels.map(label).collect()
}

fn label(word: &str) -> u8 {
    if word == "none" {
        return 0;
    }
    let letters = word.chars().map(|letter| letter.to_string());
    letters.map(|letter| 1 << atom(&letter)).sum()
}

/// The table that has just this run: one state for each entry, its edges the run's own.
pub fn table_of_run(labels: &[u8], stem: usize, nodes: Vec<[u8; 3]>) -> Draft {
    let count = labels.len() as u8;
    let record = |(number, label): (usize, &u8)| [*label, 0, u8::from(number == 0)];
    let mut edges: Vec<[u8; 2]> = (1..count).map(|state| [state - 1, state]).collect();
    edges.push([count - 1, stem as u8]);
    Draft {
        states: count,
        atoms: 3,
        records: labels.iter().enumerate().map(record).collect(),
        edges,
        nodes,
    }
}

/// The table of four states labelled none, p, q and pq, all initial, with every edge: any list of
/// numbers below 4 is a run of it, with any stem.
pub fn complete_table(nodes: Vec<[u8; 3]>) -> Draft {
    let edges = (0..4).flat_map(|from| (0..4).map(move |to| [from, to]));
    Draft {
        states: 4,
        atoms: 2,
        records: (0..4).map(|label| [label, 0, 1]).collect(),
        edges: edges.collect(),
        nodes,
    }
}
