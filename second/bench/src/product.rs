//! The table taken together with guesses: a place is a state and a guess of truth for each
//! temporal node. Steps follow the table's edges and the expansion laws; a path of places has
//! guessed right if it also keeps each promise again and again (source document 004, widened from
//! next and until to all temporal operators).
#![forbid(unsafe_code)]

use crate::mistake::Mistake;
use crate::reader::{Case, Node};

pub struct Product<'a> {
    case: &'a Case,
    mistake: Option<Mistake>,
    /// The numbers of the temporal nodes; bit t of a guess is for the t-th of them.
    temporal: Vec<usize>,
    /// By state: the states it has an edge to.
    after: Vec<Vec<usize>>,
    places: Vec<Place>,
}

struct Place {
    /// Bit n is the truth of node n.
    truths: u32,
    /// Bit t is what the t-th law of the place before speaks of: for X its operand's truth here,
    /// for the others the node's own.
    now: u32,
    /// What the laws ask of the next place's `now`; nothing fits if the guess is against a law.
    demand: Option<Demand>,
}

struct Demand {
    mask: u32,
    want: u32,
}

impl<'a> Product<'a> {
    pub fn new(case: &'a Case, mistake: Option<Mistake>) -> Product<'a> {
        let is_temporal = |node: &usize| case.nodes[*node].is_temporal();
        let temporal = (0..case.nodes.len()).filter(is_temporal).collect();
        let mut after = vec![Vec::new(); case.states.len()];
        for (from, to) in &case.edges {
            after[*from].push(*to);
        }
        let mut product = Product {
            case,
            mistake,
            temporal,
            after,
            places: Vec::new(),
        };
        for state in 0..case.states.len() {
            for guess in 0..product.guesses() {
                let place = product.place(state, guess);
                product.places.push(place);
            }
        }
        product
    }

    /// How many places there are; place number = state · guesses + guess.
    pub fn count(&self) -> usize {
        self.places.len()
    }

    fn guesses(&self) -> usize {
        1 << self.temporal.len()
    }

    /// The places of initial states at which the rule is guessed to be false.
    pub fn starts(&self) -> Vec<usize> {
        let rule = self.case.nodes.len() - 1;
        let is_start = |place: &usize| {
            let state = self.case.states[place / self.guesses()];
            state.initial && self.places[*place].truths >> rule & 1 == 0
        };
        (0..self.count()).filter(is_start).collect()
    }

    /// The places one step on.
    pub fn steps(&self, place: usize) -> Vec<usize> {
        let Some(demand) = &self.places[place].demand else {
            return Vec::new();
        };
        let guesses = self.guesses();
        let after = self.after[place / guesses].iter();
        let places = after.flat_map(|state| state * guesses..(state + 1) * guesses);
        let fits = |next: &usize| (self.places[*next].now ^ demand.want) & demand.mask == 0;
        places.filter(fits).collect()
    }

    /// Bit t says that the t-th temporal node has no promise open at this place. X never has one.
    pub fn kept(&self, place: usize) -> u32 {
        let truths = self.places[place].truths;
        let at = |node: usize| truths >> node & 1 == 1;
        let mut kept = 0;
        for (bit, node) in self.temporal.iter().enumerate() {
            let guessed = at(*node);
            let fine = match self.case.nodes[*node] {
                Node::Eventually(a) => !guessed || at(a),
                Node::Until(_, b) => !guessed || at(b) || self.mistake == Some(Mistake::UntilWaits),
                // What would be true if nothing ever happened: its falsehood is the promise.
                Node::Always(a) | Node::WeakUntil(a, _) => guessed || !at(a),
                Node::Release(_, b) => guessed || !at(b),
                _ => true,
            };
            kept |= u32::from(fine) << bit;
        }
        kept
    }

    /// All of the bits that `kept` can give.
    pub fn all_kept(&self) -> u32 {
        (1 << self.temporal.len()) - 1
    }

    fn place(&self, state: usize, guess: usize) -> Place {
        let truths = self.truths(state, guess);
        let mut now = 0;
        let mut demand = Some(Demand { mask: 0, want: 0 });
        for (bit, node) in self.temporal.iter().enumerate() {
            let looked_at = match self.case.nodes[*node] {
                Node::Next(a) => a,
                _ => *node,
            };
            now |= (truths >> looked_at & 1) << bit;
            let guessed = truths >> node & 1 == 1;
            let fits = |next| self.law(*node, truths, next) == guessed;
            demand = match (demand, fits(false), fits(true)) {
                (_, false, false) | (None, _, _) => None,
                (demand, true, true) => demand,
                (Some(Demand { mask, want }), _, next) => Some(Demand {
                    mask: mask | 1 << bit,
                    want: want | u32::from(next) << bit,
                }),
            };
        }
        Place {
            truths,
            now,
            demand,
        }
    }

    /// The truth of every node, given the guess for the temporal ones.
    fn truths(&self, state: usize, guess: usize) -> u32 {
        let label = self.case.states[state].label;
        let mut truths = 0;
        let mut guess = guess;
        for (number, node) in self.case.nodes.iter().enumerate() {
            let at = |node: usize| truths >> node & 1 == 1;
            let truth = match *node {
                Node::True => true,
                Node::Atom(atom) => label >> atom & 1 == 1,
                Node::Not(a) => !at(a),
                Node::And(a, b) => at(a) && at(b),
                Node::Or(a, b) => at(a) || at(b),
                Node::Implies(a, b) => !at(a) || at(b),
                _ => {
                    let guessed = guess & 1 == 1;
                    guess >>= 1;
                    guessed
                }
            };
            truths |= u32::from(truth) << number;
        }
        truths
    }

    /// The expansion laws: a temporal node's truth from the truths here and one step on.
    fn law(&self, node: usize, truths: u32, next: bool) -> bool {
        let at = |node: usize| truths >> node & 1 == 1;
        match self.case.nodes[node] {
            Node::Eventually(a) => at(a) || next,
            Node::Always(a) => at(a) && next,
            Node::Until(a, b) | Node::WeakUntil(a, b) => at(b) || at(a) && next,
            Node::Release(a, b) if self.mistake == Some(Mistake::ReleaseOnlyBefore) => {
                at(a) || at(b) && next
            }
            Node::Release(a, b) => at(b) && (at(a) || next),
            _ => next,
        }
    }
}
