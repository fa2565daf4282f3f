//! The verdict by strongly connected components: the rule is violated where a start reaches a
//! component that has a step inside and keeps every promise somewhere inside.
#![forbid(unsafe_code)]

use crate::mistake::Mistake;
use crate::product::Product;
use crate::reader::Case;

#[derive(Clone, Copy, PartialEq, Eq, Debug, Default)]
pub struct Verdict {
    pub violated: bool,
    /// Violated, but by no run with an empty stem.
    pub needs_stem: bool,
    /// Violated, but by no run with a loop of one.
    pub needs_longer_loop: bool,
    /// Holds, but only because each loop that the starts reach leaves a promise open.
    pub holds_by_promise: bool,
}

/// The verdict on a case; no mistake is the right one.
pub fn verdict(case: &Case, mistake: Option<Mistake>) -> Verdict {
    if mistake == Some(Mistake::NoPromiseNoRun) && case.promises() == 0 {
        return Verdict::default();
    }
    let product = Product::new(case, mistake);
    let reached = Reached::new(&product);
    let component = reached.components();
    let fair = reached.fair(&product, &component);
    // Truth at a position is truth one loop later. So a run with an empty stem goes round through
    // its own start place, and a run with a loop of one stays at one place for ever.
    let starts = product.starts();
    let round_start = starts.iter().any(|start| fair[component[*start]]);
    let stays = |place: &usize| {
        reached.steps[*place].contains(place) && product.kept(*place) == product.all_kept()
    };
    let violated = fair.contains(&true);
    Verdict {
        violated,
        needs_stem: violated && !round_start,
        needs_longer_loop: violated && !reached.left.iter().any(stays),
        holds_by_promise: !violated && reached.has_loop(&component),
    }
}

/// The places that the starts reach.
struct Reached {
    /// By place: its steps, if it was reached.
    steps: Vec<Vec<usize>>,
    /// In the order in which a depth-first walk left them.
    left: Vec<usize>,
}

impl Reached {
    fn new(product: &Product) -> Reached {
        let mut reached = Reached {
            steps: vec![Vec::new(); product.count()],
            left: Vec::new(),
        };
        let mut seen = vec![false; product.count()];
        for start in product.starts() {
            let mut path = Vec::new();
            let mut entered = Some(start).filter(|start| !seen[*start]);
            loop {
                if let Some(place) = entered {
                    seen[place] = true;
                    reached.steps[place] = product.steps(place);
                    path.push((place, 0));
                }
                let Some((place, taken)) = path.last_mut() else {
                    break;
                };
                let step = reached.steps[*place].get(*taken).copied();
                *taken += 1;
                entered = step.filter(|step| !seen[*step]);
                if step.is_none() {
                    reached.left.push(*place);
                    path.pop();
                }
            }
        }
        reached
    }

    /// By place: the number of its component (0 for all that were not reached). Kosaraju's way:
    /// flood along the steps backwards, from the places left last.
    fn components(&self) -> Vec<usize> {
        let mut before = vec![Vec::new(); self.steps.len()];
        for (place, steps) in self.steps.iter().enumerate() {
            for step in steps {
                before[*step].push(place);
            }
        }
        let mut component = vec![0; self.steps.len()];
        let mut count = 0;
        for first in self.left.iter().rev().copied() {
            let mut flood = Vec::new();
            if component[first] == 0 {
                count += 1;
                component[first] = count;
                flood.push(first);
            }
            while let Some(place) = flood.pop() {
                for earlier in &before[place] {
                    if component[*earlier] == 0 {
                        component[*earlier] = count;
                        flood.push(*earlier);
                    }
                }
            }
        }
        component
    }

    /// Whether some component has a step inside.
    fn has_loop(&self, component: &[usize]) -> bool {
        let inside = |place: &usize, step: &usize| component[*place] == component[*step];
        let mut places = self.left.iter();
        places.any(|place| self.steps[*place].iter().any(|step| inside(place, step)))
    }

    /// By component: whether it has a step inside and keeps every promise somewhere inside.
    fn fair(&self, product: &Product, component: &[usize]) -> Vec<bool> {
        let count = self.left.len() + 1;
        let mut kept = vec![0; count];
        let mut has_step = vec![false; count];
        for place in &self.left {
            let own = component[*place];
            kept[own] |= product.kept(*place);
            has_step[own] |= (self.steps[*place].iter()).any(|step| component[*step] == own);
        }
        let fair = |number: usize| has_step[number] && kept[number] == product.all_kept();
        (0..count).map(fair).collect()
    }
}
