//! Makes cases of a wanted verdict, over the whole range of sizes. A case of the other verdict is
//! changed little by little until it turns over, so that many cases stand close to the border.
#![forbid(unsafe_code)]

use crate::draft::Draft;
use crate::generate::{draft, with_operands, Shape};
use crate::random::Random;
use bench::reader::{read, Case};
use bench::verdict::{verdict, Verdict};

/// Changes tried on one table, and tables tried, before any verdict is taken.
const CHANGES: usize = 25;
const TABLES: usize = 12;

pub struct Found {
    pub bytes: Vec<u8>,
    pub case: Case,
    pub verdict: Verdict,
}

#[derive(Clone, Copy, PartialEq, Eq)]
pub enum Wish {
    Violated,
    Holds,
    /// Holds only because each loop of the product leaves a promise open.
    HoldsByPromise,
}

impl Wish {
    fn granted(self, verdict: Verdict) -> bool {
        match self {
            Wish::Violated => verdict.violated,
            Wish::Holds => !verdict.violated,
            Wish::HoldsByPromise => verdict.holds_by_promise,
        }
    }
}

/// The wishes in turn; without temporal nodes there is no promise.
pub fn wish(turn: usize, temporal: usize) -> Wish {
    match turn % 4 {
        0 | 2 => Wish::Violated,
        3 if temporal > 0 => Wish::HoldsByPromise,
        _ => Wish::Holds,
    }
}

/// A case with so many temporal nodes, mostly as wished.
pub fn wanted(random: &mut Random, temporal: usize, wish: Wish) -> Found {
    let mut found = None;
    for _ in 0..TABLES {
        let shape = shape(random, temporal);
        let mut draft = draft(random, shape);
        let deep = shape.states > 2 && random.once_in(3);
        if deep {
            deepen(random, &mut draft);
        }
        if wish != Wish::HoldsByPromise && random.once_in(8) {
            leave_only_next(&mut draft);
        }
        if !random.once_in(50) {
            make_one_initial(random, &mut draft);
        }
        let last = turned(random, draft, wish, deep);
        let granted = wish.granted(last.verdict);
        found = Some(last);
        if granted {
            break;
        }
    }
    found.expect("at least one table was tried")
}

/// A case of a given shape, as wished.
pub fn wanted_of_shape(random: &mut Random, shape: Shape, wish: Wish) -> Found {
    loop {
        let mut draft = draft(random, shape);
        make_one_initial(random, &mut draft);
        let found = turned(random, draft, wish, false);
        if wish.granted(found.verdict) {
            return found;
        }
    }
}

/// The draft, changed until it is as wished or enough was tried.
fn turned(random: &mut Random, mut draft: Draft, wish: Wish, deep: bool) -> Found {
    let mut found = judged(&draft);
    for _ in 0..CHANGES {
        if wish.granted(found.verdict) {
            break;
        }
        change(random, &mut draft, deep);
        found = judged(&draft);
    }
    found
}

fn make_one_initial(random: &mut Random, draft: &mut Draft) {
    if draft.records.iter().all(|record| record[2] == 0) {
        let state = random.below(draft.records.len());
        draft.records[state][2] = 1;
    }
}

fn judged(draft: &Draft) -> Found {
    let bytes = draft.bytes();
    let case = read(&bytes).expect("drafts made here are right");
    let verdict = verdict(&case, None);
    Found {
        bytes,
        case,
        verdict,
    }
}

fn shape(random: &mut Random, temporal: usize) -> Shape {
    let most_states = random.pick(&[3, 6, 12, 64]);
    let most_edges = random.pick(&[2, 6, 20, 512]);
    let most_nodes = random.pick(&[temporal + 3, 12, 32]);
    let most_atoms = random.pick(&[2, 4, 16]);
    Shape {
        states: random.from_to(1, most_states),
        atoms: random.from_to(0, most_atoms),
        more_edges: random.from_to(0, most_edges),
        nodes: random.from_to(temporal + 1, most_nodes),
        temporal,
    }
}

/// Only state 0 is initial, no edge leads to it, and no state has an edge to itself: each run has
/// a stem and a loop above one.
fn deepen(random: &mut Random, draft: &mut Draft) {
    for (state, record) in draft.records.iter_mut().enumerate() {
        record[2] = u8::from(state == 0);
    }
    draft
        .edges
        .retain(|edge| edge[1] != 0 && edge[0] != edge[1]);
    for state in 0..draft.states {
        if draft.edges.iter().all(|edge| edge[0] != state) {
            let others: Vec<u8> = (1..draft.states).filter(|other| *other != state).collect();
            draft.edges.push([state, random.pick(&others)]);
        }
    }
    draft.edges.sort();
}

/// Makes every temporal node an X, so that E is 0.
fn leave_only_next(draft: &mut Draft) {
    for node in draft.nodes.iter_mut().filter(|node| node[0] > 6) {
        *node = [6, node[1], 0];
    }
}

/// One small change that keeps T, E = 0, and a deep table deep.
fn change(random: &mut Random, draft: &mut Draft, deep: bool) {
    match random.below(if deep { 4 } else { 8 }) {
        0 => change_label(random, draft),
        1 | 2 => change_node(random, draft),
        3 => remove_edge(random, draft),
        4 => add_edge(random, draft),
        5 => change_initial(random, draft),
        _ if draft.nodes.len() < 32 => draft.nodes.push([2, draft.nodes.len() as u8 - 1, 0]),
        _ => {}
    }
}

fn add_edge(random: &mut Random, draft: &mut Draft) {
    let mut end = || random.below(usize::from(draft.states)) as u8;
    let edge = [end(), end()];
    if let (Err(place), 0..512) = (draft.edges.binary_search(&edge), draft.edges.len()) {
        draft.edges.insert(place, edge);
    }
}

/// Another mark for one state, but the last initial state stays so.
fn change_initial(random: &mut Random, draft: &mut Draft) {
    let initial = draft.records.iter().filter(|record| record[2] == 1).count();
    let state = random.below(draft.records.len());
    let record = &mut draft.records[state];
    if record[2] == 0 || initial > 1 {
        record[2] ^= 1;
    }
}

fn change_label(random: &mut Random, draft: &mut Draft) {
    if draft.atoms > 0 {
        let atom = random.below(usize::from(draft.atoms));
        let state = random.below(draft.records.len());
        draft.records[state][atom / 8] ^= 1 << (atom % 8);
    }
}

/// Another node of the same kind: temporal or not, with a promise or not.
fn change_node(random: &mut Random, draft: &mut Draft) {
    let number = random.below(draft.nodes.len());
    let operator = match draft.nodes[number][0] {
        0 | 1 => return,
        2..=5 => random.from_to(2, 5),
        6 => 6,
        _ => random.from_to(7, 11),
    };
    draft.nodes[number] = with_operands(random, operator as u8, number);
}

fn remove_edge(random: &mut Random, draft: &mut Draft) {
    let place = random.below(draft.edges.len());
    let from = draft.edges[place][0];
    if draft.edges.iter().filter(|edge| edge[0] == from).count() > 1 {
        draft.edges.remove(place);
    }
}
