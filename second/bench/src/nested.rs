//! The verdict by an ordinary nested depth-first search, with a waiting number that goes through
//! the promises one by one. It is the yardstick for speed, and carries the mistake of the inner
//! search.
#![forbid(unsafe_code)]

use crate::judge::Run;
use crate::lanes::Lanes;
use crate::mistake::Mistake;
use crate::reader::Case;

/// A violating run, or none where the rule holds.
pub fn search(case: &Case, mistake: Option<Mistake>) -> Option<Run> {
    let lanes = Lanes::new(case);
    let count = case.places();
    let mut search = Search {
        lanes: &lanes,
        on_entering: mistake == Some(Mistake::InnerOnEntering),
        outer_seen: vec![false; count],
        inner_seen: vec![false; count],
        outer: Vec::new(),
        inner: Vec::new(),
    };
    let starts = lanes.starts(case);
    let found = starts.into_iter().any(|start| search.outer(start));
    found.then(|| search.run())
}

/// A place on a search's path, with the steps not yet taken from it.
struct Frame {
    place: usize,
    guess: usize,
    /// The waiting number of every place one step on.
    waiting: usize,
    passed_on: [u16; 4],
    next_end: usize,
    last_end: usize,
    /// The state one step on, and its guesses not yet taken.
    state: usize,
    guesses: u16,
}

impl Frame {
    fn new(lanes: &Lanes, place: usize) -> Frame {
        let (rest, waiting) = (place / (lanes.promises + 1), place % (lanes.promises + 1));
        let guess = rest & ((1 << lanes.temporal) - 1);
        let own = &lanes.states[rest >> lanes.temporal];
        let waiting = if waiting == lanes.promises {
            0
        } else {
            waiting
        };
        let kept = waiting < lanes.promises && own.kept[waiting] >> guess & 1 == 1;
        let lawful = own.lawful >> guess & 1 == 1;
        Frame {
            place,
            guess,
            waiting: waiting + usize::from(kept),
            passed_on: own.passed_on,
            next_end: own.first_end,
            last_end: if lawful { own.last_end } else { own.first_end },
            state: 0,
            guesses: 0,
        }
    }

    fn step(&mut self, lanes: &Lanes) -> Option<usize> {
        while self.guesses == 0 {
            if self.next_end == self.last_end {
                return None;
            }
            self.state = lanes.ends[self.next_end];
            self.next_end += 1;
            self.guesses = self.fitting(lanes);
        }
        let guess = self.guesses.trailing_zeros() as usize;
        self.guesses &= self.guesses - 1;
        Some(lanes.number(self.state, guess, self.waiting))
    }

    /// The guesses that fit at the state one step on.
    fn fitting(&self, lanes: &Lanes) -> u16 {
        let now = lanes.states[self.state].now;
        let mut fitting = u16::MAX >> (16 - (1 << lanes.temporal));
        for (bit, (now, passed_on)) in now.into_iter().zip(self.passed_on).enumerate() {
            if passed_on >> self.guess & 1 == 1 {
                let guessed = self.guess >> bit & 1 == 1;
                fitting &= if guessed { now } else { !now };
            }
        }
        fitting
    }
}

struct Search<'a> {
    lanes: &'a Lanes,
    on_entering: bool,
    outer_seen: Vec<bool>,
    inner_seen: Vec<bool>,
    outer: Vec<Frame>,
    inner: Vec<Frame>,
}

impl Search<'_> {
    /// The outer search from one start; true as soon as a loop is found.
    fn outer(&mut self, start: usize) -> bool {
        let mut entered = Some(start);
        loop {
            if let Some(place) = entered.filter(|place| !self.outer_seen[*place]) {
                self.outer_seen[place] = true;
                self.outer.push(Frame::new(self.lanes, place));
                if self.on_entering && self.inner(place) {
                    return true;
                }
            }
            let Some(frame) = self.outer.last_mut() else {
                return false;
            };
            entered = frame.step(self.lanes);
            if entered.is_none() {
                let place = frame.place;
                if !self.on_entering && self.inner(place) {
                    return true;
                }
                self.outer.pop();
            }
        }
    }

    /// The inner search: from a place where all promises are through, back to it.
    fn inner(&mut self, seed: usize) -> bool {
        if seed % (self.lanes.promises + 1) != self.lanes.promises {
            return false;
        }
        self.inner.push(Frame::new(self.lanes, seed));
        while let Some(frame) = self.inner.last_mut() {
            match frame.step(self.lanes) {
                Some(place) if place == seed => return true,
                Some(place) if self.inner_seen[place] => {}
                Some(place) => {
                    self.inner_seen[place] = true;
                    self.inner.push(Frame::new(self.lanes, place));
                }
                None => drop(self.inner.pop()),
            }
        }
        false
    }

    /// The run found: the outer path up to the seed, then the inner path from it.
    fn run(&self) -> Run {
        let stem = self.outer.len() - 1;
        let frames = self.outer[..stem].iter().chain(&self.inner);
        let states = frames.map(|frame| self.lanes.state_of(frame.place));
        Run {
            states: states.collect(),
            stem,
        }
    }
}
