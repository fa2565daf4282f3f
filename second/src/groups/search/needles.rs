//! Large tables in which one edge, one label bit or one initial mark decides, so that the verdict
//! is known without any engine.
#![forbid(unsafe_code)]

use super::{ask, Room};
use crate::draft::Draft;
use crate::random::Random;
use crate::report::{Group, Report};
use crate::rule::nodes;

const TABLES_FOR_EACH_RULE: usize = 200;

/// Violated where p can come once, after position 0 or at it.
const ONCE: [&str; 6] = [
    "G not p",
    "not F p",
    "not U true p",
    "R p not p",
    "W not p not true",
    "and G not p and not F p and not U true p R p not p",
];
/// Violated where p can come again and again, and not at position 0.
const AGAIN: [&str; 8] = [
    "not X F p",
    "G X not p",
    "F G not p",
    "not G F p",
    "not F and p X F p",
    "G implies p X G not p",
    "G implies p X not F p",
    "and F G not p not G F p",
];

/// What decides.
#[derive(Clone, Copy, PartialEq, Eq, Debug)]
enum Needle {
    Edge,
    Label,
    Initial,
}

pub fn compare(report: &mut Report) {
    let mut random = Random::new(16);
    let mut group = Group::new("search: one edge, label bit or initial mark decides");
    for rule in ONCE {
        all(&mut group, &mut random, rule, Needle::Initial);
    }
    for rule in ONCE.into_iter().chain(AGAIN) {
        all(&mut group, &mut random, rule, Needle::Edge);
        all(&mut group, &mut random, rule, Needle::Label);
    }
    report.close(group);
}

fn all(group: &mut Group, random: &mut Random, rule: &str, needle: Needle) {
    for _ in 0..TABLES_FOR_EACH_RULE {
        let haystack = Haystack::new(random, rule);
        for there in [true, false] {
            let bytes = haystack.with(needle, there).bytes();
            let answer = ask(group, &bytes, Room::EXACT);
            let what = || format!("rule {rule}, needle {needle:?}, there {there}");
            group.compare(what, u64::from(there), answer.number);
        }
    }
}

/// A table whose states but one are all reached from each other, none of them with p. The one has
/// no edge to it, and edges to some of the others.
struct Haystack {
    draft: Draft,
    one: u8,
    /// Where an edge to the one may start.
    from: u8,
    /// p as a bit of a record's two label bytes.
    p: (usize, u8),
}

impl Haystack {
    fn new(random: &mut Random, rule: &str) -> Haystack {
        let states = random.from_to(2, 64);
        let atoms = random.from_to(1, 16);
        let p = random.below(atoms);
        let one = random.below(states) as u8;
        let ring: Vec<u8> = (0..states as u8).filter(|state| *state != one).collect();
        let from = random.pick(&ring);
        let mut nodes = nodes(rule);
        for node in nodes.iter_mut().filter(|node| node[0] == 1) {
            node[1] = p as u8;
        }
        let mut haystack = Haystack {
            draft: Draft {
                states: states as u8,
                atoms: atoms as u8,
                records: Vec::new(),
                edges: edges(random, &ring, one, from),
                nodes,
            },
            one,
            from,
            p: (p / 8, 1 << (p % 8)),
        };
        haystack.label(random, atoms);
        let first = random.pick(&ring);
        haystack.draft.records[usize::from(first)][2] = 1;
        haystack
    }

    /// Any labels, but without p.
    fn label(&mut self, random: &mut Random, atoms: usize) {
        for _ in 0..self.draft.states {
            let [low, high] = (random.below(1 << atoms) as u16).to_le_bytes();
            let mut record = [low, high, 0];
            record[self.p.0] &= !self.p.1;
            self.draft.records.push(record);
        }
    }

    /// The table in which all is there that leads to p, or the needle alone is missing.
    fn with(&self, needle: Needle, there: bool) -> Draft {
        let mut draft = self.draft.clone();
        let one = &mut draft.records[usize::from(self.one)];
        if needle != Needle::Label || there {
            one[self.p.0] |= self.p.1;
        }
        if needle == Needle::Initial {
            one[2] = u8::from(there);
        } else if needle == Needle::Label || there {
            draft.edges.push([self.from, self.one]);
            draft.edges.sort();
        }
        draft
    }
}

/// A ring through all states but the one, and more edges to them: sometimes few, sometimes as many
/// as there is room for beside the needle, many of them from where the needle starts.
fn edges(random: &mut Random, ring: &[u8], one: u8, crowded: u8) -> Vec<[u8; 2]> {
    let mut edges: Vec<[u8; 2]> = ring.windows(2).map(|pair| [pair[0], pair[1]]).collect();
    edges.push([ring[ring.len() - 1], ring[0]]);
    edges.push([one, random.pick(ring)]);
    let most = random.pick(&[4, 60, 2000]);
    for _ in 0..random.below(most) {
        let anywhere = random.pick(ring);
        let from = random.pick(&[anywhere, one, crowded]);
        let edge = [from, random.pick(ring)];
        if edges.len() < 511 && !edges.contains(&edge) {
            edges.push(edge);
        }
    }
    edges.sort();
    edges
}
