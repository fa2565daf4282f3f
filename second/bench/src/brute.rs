//! The verdict by trying: every looping run of a table up to a length is put to the judge.
#![forbid(unsafe_code)]

use crate::judge::{satisfies, Run};
use crate::mistake::Mistake;
use crate::reader::Case;

/// A violating run of at most so many entries, if there is one.
pub fn violating_run(case: &Case, most: usize, mistake: Option<Mistake>) -> Option<Run> {
    let initial = |state: &usize| case.states[*state].initial;
    let starts = (0..case.states.len()).filter(initial);
    let mut trial = Trial {
        case,
        most,
        mistake,
        states: Vec::new(),
    };
    starts.into_iter().find_map(|state| trial.enter(state))
}

struct Trial<'a> {
    case: &'a Case,
    most: usize,
    mistake: Option<Mistake>,
    states: Vec<usize>,
}

impl Trial<'_> {
    /// Tries all runs that begin with the states so far and this one.
    fn enter(&mut self, state: usize) -> Option<Run> {
        self.states.push(state);
        let mut found = self.close(state);
        if found.is_none() && self.states.len() < self.most {
            let case = self.case;
            let mut leaving = case.edges.iter().filter(|edge| edge.0 == state);
            found = leaving.find_map(|edge| self.enter(edge.1));
        }
        self.states.pop();
        found
    }

    /// Tries all stems for the states so far.
    fn close(&self, last: usize) -> Option<Run> {
        let untested = self.mistake == Some(Mistake::ClosingEdgeUntested);
        let closes = |stem: &usize| untested || self.case.has_edge(last, self.states[*stem]);
        let run = |stem| Run {
            states: self.states.clone(),
            stem,
        };
        let stems = (0..self.states.len()).filter(closes);
        let mut runs = stems.map(run);
        runs.find(|run| !satisfies(self.case, run, self.mistake))
    }
}
