//! The product for the nested search: truths for all guesses of one state stand in the bits
//! ("lanes") of a 16-bit word, bit g for guess g.
#![forbid(unsafe_code)]

use crate::reader::{Case, Node};

/// Bit g of word t is bit t of g: the guess for the t-th temporal node.
const GUESSES: [u16; 4] = [0xAAAA, 0xCCCC, 0xF0F0, 0xFF00];

/// All that the steps need to know, by state.
pub struct Lanes {
    pub temporal: usize,
    pub promises: usize,
    pub states: Vec<StateLanes>,
    /// The ends of all edges; each state has a range of them.
    pub ends: Vec<usize>,
}

#[derive(Default)]
pub struct StateLanes {
    /// Guesses at which the rule is false.
    pub rule_false: u16,
    /// Guesses that no law forbids.
    pub lawful: u16,
    /// By temporal node: guesses whose truth must be the `now` of the next place.
    pub passed_on: [u16; 4],
    /// By temporal node: X's operand, or the guess itself.
    pub now: [u16; 4],
    /// By promise: guesses at which it is not open.
    pub kept: [u16; 4],
    pub first_end: usize,
    pub last_end: usize,
}

impl Lanes {
    pub fn new(case: &Case) -> Lanes {
        let mut lanes = Lanes {
            temporal: case.temporal(),
            promises: case.promises(),
            states: Vec::new(),
            ends: case.edges.iter().map(|edge| edge.1).collect(),
        };
        for (number, state) in case.states.iter().enumerate() {
            lanes.states.push(StateLanes {
                first_end: case.edges.partition_point(|edge| edge.0 < number),
                last_end: case.edges.partition_point(|edge| edge.0 <= number),
                ..StateLanes::new(&case.nodes, state.label)
            });
        }
        lanes
    }

    pub fn number(&self, state: usize, guess: usize, waiting: usize) -> usize {
        ((state << self.temporal) + guess) * (self.promises + 1) + waiting
    }

    pub fn state_of(&self, place: usize) -> usize {
        (place / (self.promises + 1)) >> self.temporal
    }

    pub fn starts(&self, case: &Case) -> Vec<usize> {
        let mut starts = Vec::new();
        for (number, lanes) in self.states.iter().enumerate() {
            for guess in 0..1 << self.temporal {
                if case.states[number].initial && lanes.rule_false >> guess & 1 == 1 {
                    starts.push(self.number(number, guess, 0));
                }
            }
        }
        starts
    }
}

impl StateLanes {
    fn new(nodes: &[Node], label: u16) -> StateLanes {
        let mut lanes = StateLanes {
            lawful: u16::MAX,
            ..StateLanes::default()
        };
        let mut truths: Vec<u16> = Vec::with_capacity(nodes.len());
        let (mut temporal, mut promise) = (0, 0);
        for node in nodes {
            let at = |node: usize| truths[node];
            let guess = GUESSES[temporal.min(3)];
            let truth = match *node {
                Node::True => u16::MAX,
                Node::Atom(atom) => (label >> atom & 1) * u16::MAX,
                Node::Not(a) => !at(a),
                Node::And(a, b) => at(a) & at(b),
                Node::Or(a, b) => at(a) | at(b),
                Node::Implies(a, b) => !at(a) | at(b),
                _ => guess,
            };
            if let Some(law) = Law::of(*node, guess, at) {
                lanes.passed_on[temporal] = law.passed_on;
                lanes.now[temporal] = law.now;
                lanes.lawful &= law.passed_on | !(law.otherwise ^ guess);
                temporal += 1;
            }
            if node.has_promise() {
                lanes.kept[promise] = kept(*node, guess, at);
                promise += 1;
            }
            truths.push(truth);
        }
        lanes.rule_false = !truths[nodes.len() - 1];
        lanes
    }
}

/// A temporal node's expansion law at one state, for all guesses at once.
struct Law {
    /// Where the node's truth is that of `now` one step on.
    passed_on: u16,
    /// Its truth elsewhere.
    otherwise: u16,
    now: u16,
}

impl Law {
    fn of(node: Node, guess: u16, at: impl Fn(usize) -> u16) -> Option<Law> {
        let law = |passed_on, otherwise, now| Law {
            passed_on,
            otherwise,
            now,
        };
        match node {
            Node::Next(a) => Some(law(u16::MAX, 0, at(a))),
            Node::Eventually(a) => Some(law(!at(a), at(a), guess)),
            Node::Always(a) => Some(law(at(a), 0, guess)),
            Node::Until(a, b) | Node::WeakUntil(a, b) => Some(law(!at(b) & at(a), at(b), guess)),
            Node::Release(a, b) => Some(law(at(b) & !at(a), at(b), guess)),
            _ => None,
        }
    }
}

/// Where a promise is not open: true ones want their moment, false ones the end of waiting.
fn kept(node: Node, guess: u16, at: impl Fn(usize) -> u16) -> u16 {
    match node {
        Node::Eventually(a) => !guess | at(a),
        Node::Until(_, b) => !guess | at(b),
        Node::Always(a) | Node::WeakUntil(a, _) => guess | !at(a),
        Node::Release(_, b) => guess | !at(b),
        _ => u16::MAX,
    }
}
