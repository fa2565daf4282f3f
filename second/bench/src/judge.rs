//! Judges a looping run by the definitions of source document 000, section 2.2, word for word.
#![forbid(unsafe_code)]

use crate::mistake::Mistake;
use crate::reader::{read, refuse, Case, Node, Refusal};
use std::cell::Cell;
use std::ops::Range;

/// A looping run: the stem's states, then the loop's.
#[derive(Clone, PartialEq, Eq, Debug)]
pub struct Run {
    pub states: Vec<usize>,
    /// How many of the states are the stem: k of 01.
    pub stem: usize,
}

impl Run {
    /// The entry that stands at a position of the endless path.
    pub fn entry(&self, position: usize) -> usize {
        if position < self.states.len() {
            position
        } else {
            let m = self.states.len() - self.stem;
            self.stem + (position - self.stem) % m
        }
    }

    /// The entry after this one; after the last comes entry k.
    pub fn next(&self, entry: usize) -> usize {
        self.entry(entry + 1)
    }
}

/// What is put to the judge.
#[derive(Clone, Debug)]
pub struct Question {
    pub bytes: Vec<u8>,
    pub track: Vec<u16>,
    pub stem: u64,
    pub r#loop: u64,
    pub scratch: usize,
}

/// Whether the run satisfies the rule, or the first refusal; no mistake is the right judge.
pub fn judge(asked: &Question, mistake: Option<Mistake>) -> Result<bool, Refusal> {
    let case = read(&asked.bytes)?;
    let run = read_run(&case, asked, mistake)?;
    if asked.scratch < run.states.len() {
        return refuse(40, run.states.len());
    }
    Ok(satisfies(&case, &run, mistake))
}

/// The run, or the first refusal of 50 to 54.
fn read_run(case: &Case, asked: &Question, mistake: Option<Mistake>) -> Result<Run, Refusal> {
    let track = &asked.track;
    if asked.r#loop == 0 {
        return refuse(50, 0);
    }
    let length = u128::from(asked.stem) + u128::from(asked.r#loop);
    if length > track.len() as u128 {
        return refuse(51, track.len());
    }
    let states = &track[..length as usize];
    let states: Vec<usize> = states.iter().map(|entry| usize::from(*entry)).collect();
    let stem = asked.stem as usize;
    let run = Run { states, stem };
    if let Some(entry) = (run.states.iter()).position(|state| *state >= case.states.len()) {
        return refuse(52, entry);
    }
    if !case.states[run.states[0]].initial {
        return refuse(53, 0);
    }
    let tested = match mistake {
        Some(Mistake::ClosingEdgeUntested) => run.states.len() - 1,
        _ => run.states.len(),
    };
    let goes_on = |entry: &usize| case.has_edge(run.states[*entry], run.states[run.next(*entry)]);
    match (0..tested).find(|entry| !goes_on(entry)) {
        Some(entry) => refuse(54, entry),
        None => Ok(run),
    }
}

/// Whether the rule is true at position 0 of the run's endless path.
pub fn satisfies(case: &Case, run: &Run, mistake: Option<Mistake>) -> bool {
    let known = vec![Cell::new(None); case.nodes.len() * run.states.len()];
    let meaning = Meaning {
        case,
        run,
        mistake,
        known,
    };
    meaning.truth(case.nodes.len() - 1, 0)
}

struct Meaning<'a> {
    case: &'a Case,
    run: &'a Run,
    mistake: Option<Mistake>,
    /// Truth by node and entry, where it was already asked for.
    known: Vec<Cell<Option<bool>>>,
}

impl Meaning<'_> {
    /// Truth of a node at a position. It is that at the position's entry, because the endless
    /// paths from there on have the same states.
    fn truth(&self, node: usize, position: usize) -> bool {
        let entry = self.run.entry(position);
        let known = &self.known[node * self.run.states.len() + entry];
        match known.get() {
            Some(truth) => truth,
            None => {
                let truth = self.define(self.case.nodes[node], entry);
                known.set(Some(truth));
                truth
            }
        }
    }

    /// The definitions, with i a position below k+m.
    fn define(&self, node: Node, i: usize) -> bool {
        let at = |node: usize, position: usize| self.truth(node, position);
        let later = || self.positions_from(i);
        let until = |a, b| later().any(|k| at(b, k) && (i..k).all(|j| at(a, j)));
        match node {
            Node::True => true,
            Node::Atom(atom) => self.label(i) >> atom & 1 == 1,
            Node::Not(a) => !at(a, i),
            Node::And(a, b) => at(a, i) && at(b, i),
            Node::Or(a, b) => at(a, i) || at(b, i),
            Node::Implies(a, b) => !at(a, i) || at(b, i),
            Node::Next(a) => !self.cut_off(i) && at(a, i + 1),
            Node::Eventually(a) => later().any(|j| at(a, j)),
            Node::Always(a) => later().all(|j| at(a, j)),
            Node::Until(a, b) => until(a, b) || self.waits() && later().all(|j| at(a, j)),
            Node::Release(a, b) => {
                let released = |k| (i..self.release_end(k)).all(|j| at(b, j));
                later().all(|j| at(b, j)) || later().any(|k| at(a, k) && released(k))
            }
            Node::WeakUntil(a, b) => later().all(|j| at(a, j)) || until(a, b),
        }
    }

    /// "From i on", cut where nothing new comes. From k on the endless path repeats itself every
    /// m positions, and truth with it. So with b = max(i, k), each position from b+m on has the
    /// truth of one in b .. b+m, and "some j" and "all j" need not look further. Nor does "some k
    /// with a at every j before it": if k is b+m or more, k-m will do as well, since it is at
    /// least b, has the same truth, and fewer positions lie before it.
    fn positions_from(&self, i: usize) -> Range<usize> {
        let m = self.run.states.len() - self.run.stem;
        i..i.max(self.run.stem) + m
    }

    fn label(&self, entry: usize) -> u16 {
        self.case.states[self.run.states[entry]].label
    }

    fn cut_off(&self, entry: usize) -> bool {
        self.mistake == Some(Mistake::NextFalseAtLast) && entry + 1 == self.run.states.len()
    }

    fn waits(&self) -> bool {
        self.mistake == Some(Mistake::UntilWaits)
    }

    /// b is needed up to the releasing moment k and at it.
    fn release_end(&self, k: usize) -> usize {
        match self.mistake {
            Some(Mistake::ReleaseOnlyBefore) => k,
            _ => k + 1,
        }
    }
}
