//! Generated cases over the whole range, as many of each verdict for each T, in rooms of all kinds.
#![forbid(unsafe_code)]

use super::{ask_knowing, Room};
use crate::random::Random;
use crate::report::{Group, Report};
use crate::wanted::{wanted, wish, Found};
use bench::brute::violating_run;
use bench::nested;

const CASES: usize = 100_000;
const AT_LEAST: u64 = 1_000;

/// What was seen, to see that it was enough.
#[derive(Default)]
struct Seen {
    /// By T: how often the rule holds, and how often it is violated.
    verdicts: [[u64; 2]; 5],
    /// Violated, and the own engine shows that no run with an empty stem and none with a loop of
    /// one violates.
    need_stem_and_loop: u64,
    /// By T: holds only because each loop leaves a promise open.
    holds_by_promise: [u64; 5],
    /// By T: cases without a promise.
    no_promise: [u64; 5],
    no_initial: u64,
    next_before_promise: u64,
    greatest_places: usize,
}

pub fn compare(report: &mut Report) {
    let mut random = Random::new(12);
    let mut group = Group::new("search: generated cases");
    let mut own = Group::new("own engines among themselves");
    let mut seen = Seen::default();
    for number in 0..CASES {
        let temporal = number % 5;
        let found = wanted(&mut random, temporal, wish(number / 5, temporal));
        seen.add(&found);
        let known = Ok(found.verdict.violated);
        ask_knowing(&mut group, &found.bytes, any_room(&mut random), known);
        if random.once_in(8) {
            let workspace = random.pick(&[-1, 0, 1]);
            let track = random.pick(&[-1, 0, 1]);
            let room = Room { workspace, track };
            ask_knowing(&mut group, &found.bytes, room, known);
        }
        among_themselves(&mut own, &found);
    }
    report.close(group);
    report.close(own);
    seen.report(report);
}

fn any_room(random: &mut Random) -> Room {
    Room {
        workspace: random.pick(&[0, 1, 30]),
        track: random.pick(&[0, 1, 30]),
    }
}

/// The nested search gives the same verdict; brute force finds nothing where the rule holds.
fn among_themselves(own: &mut Group, found: &Found) {
    let violated = found.verdict.violated;
    let what = || format!("nested search, {:?}", found.case);
    own.compare(what, violated, nested::search(&found.case, None).is_some());
    if found.case.edges.len() <= 8 {
        let tried = violating_run(&found.case, 4, None);
        let what = || format!("brute force found {tried:?} in {:?}", found.case);
        own.compare(what, violated || tried.is_some(), violated);
    }
}

impl Seen {
    fn add(&mut self, found: &Found) {
        let (case, verdict) = (&found.case, found.verdict);
        let temporal = case.temporal();
        self.verdicts[temporal][usize::from(verdict.violated)] += 1;
        self.need_stem_and_loop += u64::from(verdict.needs_stem && verdict.needs_longer_loop);
        self.holds_by_promise[temporal] += u64::from(verdict.holds_by_promise);
        self.no_promise[temporal] += u64::from(case.promises() == 0);
        self.no_initial += u64::from(case.states.iter().all(|state| !state.initial));
        let mut temporal = case.nodes.iter().filter(|node| node.is_temporal());
        let first_is_next = temporal.next().is_some_and(|node| !node.has_promise());
        self.next_before_promise += u64::from(first_is_next && case.promises() > 0);
        self.greatest_places = self.greatest_places.max(case.places());
    }

    fn report(&self, report: &mut Report) {
        for (temporal, [holds, violated]) in self.verdicts.into_iter().enumerate() {
            let quarter = (holds + violated).div_ceil(4).max(1);
            report.at_least(&format!("T {temporal}, holds"), holds, quarter);
            report.at_least(&format!("T {temporal}, violated"), violated, quarter);
        }
        let what = "violated, shown to need a stem and a loop above 1";
        report.at_least(what, self.need_stem_and_loop, AT_LEAST);
        for (temporal, seen) in self.holds_by_promise.into_iter().enumerate().skip(1) {
            let what = format!("T {temporal}, holds because loops leave a promise open");
            report.at_least(&what, seen, AT_LEAST);
        }
        for (temporal, seen) in self.no_promise.into_iter().enumerate() {
            report.at_least(&format!("T {temporal}, E 0"), seen, 100);
        }
        report.at_least("no initial state", self.no_initial, 100);
        report.at_least("X before a promise", self.next_before_promise, AT_LEAST);
        report.at_least("greatest P", self.greatest_places as u64, 5_120);
    }
}
