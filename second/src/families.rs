//! The families of cases for reading: 01's examples and limits, prefixes, changes, generated ones.
#![forbid(unsafe_code)]

use crate::damage::damaged;
use crate::draft::Draft;
use crate::generate::{draft, Shape};
use crate::random::Random;

/// Every answer that a reading of states can give.
pub const READING_ANSWERS: [u64; 14] = [0, 10, 11, 12, 13, 14, 20, 21, 22, 23, 30, 31, 32, 42];

/// A case with the answer that 01 gives for its reading, 0 and 0 where it is read.
pub struct Example {
    pub name: &'static str,
    pub bytes: Vec<u8>,
    pub answer: (u64, u64),
}

fn example(name: &'static str, bytes: Vec<u8>, number: u64, place: u64) -> Example {
    let answer = (number, place);
    Example {
        name,
        bytes,
        answer,
    }
}

/// 01's night update as its bytes stand there.
pub const NIGHT_UPDATE: [u8; 43] = [
    0x01, 0x02, 0x00, 0x03, 0x03, //
    0x02, 0x09, 0x00, 0x00, 0x00, 0x01, 0x03, 0x00, 0x00, 0x02, 0x00, 0x00, //
    0x03, 0x08, 0x00, 0x00, 0x01, 0x00, 0x02, 0x01, 0x01, 0x02, 0x02, //
    0x04, 0x0C, 0x00, 0x01, 0x01, 0x00, 0x01, 0x00, 0x00, 0x05, 0x00, 0x01, 0x08, 0x02, 0x00,
];

/// 01's night update, its holding variant, and one that gives 01's `refused 23 at 2`.
pub fn examples() -> Vec<Example> {
    let mut holding = Draft::night_update();
    holding.edges.remove(1);
    let mut dead_end = Draft::night_update();
    dead_end.edges.pop();
    vec![
        example("night update", NIGHT_UPDATE.to_vec(), 0, 0),
        example("night update, drafted", Draft::night_update().bytes(), 0, 0),
        example("night update without edge 0 to 2", holding.bytes(), 0, 0),
        example("night update without edge 2 to 2", dead_end.bytes(), 23, 2),
    ]
}

/// 01's "Other edges of the rules", each at the limit and one past it, and its two case lengths.
pub fn limits() -> Vec<Example> {
    let still = Draft::standing_still;
    let mut past_longest = longest().bytes();
    past_longest.resize(LONGEST + 1, 0);
    let mut far_past_longest = longest().bytes();
    far_past_longest.resize(70_000, 1);
    vec![
        example("empty input", vec![], 10, 0),
        example("S 1, the shortest case", still(1).bytes(), 0, 0),
        example("S 0", still(0).bytes(), 13, 0),
        example("S 64", still(64).bytes(), 0, 0),
        example("S 65", still(65).bytes(), 13, 0),
        example("A 0", with_atoms(0).bytes(), 0, 0),
        example("A 16", with_atoms(16).bytes(), 0, 0),
        example("A 17", with_atoms(17).bytes(), 13, 0),
        example("512 edges", with_edges(512).bytes(), 0, 0),
        example("513 edges", with_edges(513).bytes(), 12, 200),
        example("no edge", with_edges(0).bytes(), 12, 200),
        example("32 nodes", with_nodes(32, 0).bytes(), 0, 0),
        example("33 nodes", with_nodes(33, 0).bytes(), 12, 16),
        example("no node", with_nodes(0, 0).bytes(), 12, 16),
        example("T 4", with_nodes(5, 4).bytes(), 0, 0),
        example("T 5", with_nodes(6, 5).bytes(), 32, 5),
        example("T 31", with_nodes(32, 31).bytes(), 32, 31),
        example("the longest case", longest().bytes(), 0, 0),
        example("one byte past it", past_longest, 14, LONGEST as u64),
        example("far past it", far_past_longest, 14, LONGEST as u64),
    ]
}

fn with_atoms(atoms: u8) -> Draft {
    let mut draft = Draft::standing_still(1);
    draft.atoms = atoms;
    draft
}

/// 64 states; the edges are the pairs in order, and the last ones stand still.
fn with_edges(count: usize) -> Draft {
    let mut draft = Draft::standing_still(64);
    let pairs = (0..64u8).flat_map(|from| (0..64).map(move |to| [from, to]));
    let more = pairs.filter(|edge| edge[0] != edge[1]);
    draft.edges.extend(more.take(count.saturating_sub(64)));
    draft.edges.truncate(count);
    draft.edges.sort();
    draft
}

/// `true` nodes, and at the end as many nodes F as asked.
fn with_nodes(count: usize, temporal: usize) -> Draft {
    let mut draft = Draft::standing_still(1);
    draft.nodes = vec![[0, 0, 0]; count];
    for node in draft.nodes.iter_mut().rev().take(temporal) {
        *node = [7, 0, 0];
    }
    draft
}

/// The length of the longest case.
pub const LONGEST: usize = 1326;

/// 64 states, 16 atoms, 512 edges, 32 nodes, T 4.
fn longest() -> Draft {
    let shape = Shape {
        states: 64,
        atoms: 16,
        more_edges: 512,
        nodes: 32,
        temporal: 4,
    };
    draft(&mut Random::new(1326), shape)
}

/// Cases of small, middle and greatest size, whose every prefix and change is looked at.
fn of_several_sizes() -> Vec<Draft> {
    let middle = Shape {
        states: 9,
        atoms: 5,
        more_edges: 30,
        nodes: 14,
        temporal: 3,
    };
    vec![
        Draft::standing_still(1),
        Draft::night_update(),
        draft(&mut Random::new(9), middle),
        longest(),
    ]
}

/// Every prefix of some cases, the whole case too.
pub fn each_prefix(mut visit: impl FnMut(&[u8])) {
    for draft in of_several_sizes() {
        let bytes = draft.bytes();
        for length in 0..=bytes.len() {
            visit(&bytes[..length]);
        }
    }
}

/// Some cases of at most so many bytes, with each byte changed to each of 256 values.
pub fn each_change(longest: usize, mut visit: impl FnMut(&[u8])) {
    let cases = of_several_sizes().into_iter().map(|draft| draft.bytes());
    for mut bytes in cases.filter(|bytes| bytes.len() <= longest) {
        for at in 0..bytes.len() {
            let before = bytes[at];
            for value in 0..=255 {
                bytes[at] = value;
                visit(&bytes);
            }
            bytes[at] = before;
        }
    }
}

/// Cases from random numbers, one in four undamaged.
pub fn each_generated(seed: u64, count: usize, mut visit: impl FnMut(&[u8], &mut Random)) {
    let mut random = Random::new(seed);
    for _ in 0..count {
        let shape = Shape::any(&mut random);
        let right = draft(&mut random, shape);
        let bytes = if random.once_in(4) {
            right.bytes()
        } else {
            damaged(&mut random, right)
        };
        visit(&bytes, &mut random);
    }
}
