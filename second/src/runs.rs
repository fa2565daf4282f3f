//! Makes questions for the judge from random numbers: runs of a table, right or spoiled.
#![forbid(unsafe_code)]

use crate::damage::damaged;
use crate::draft::Draft;
use crate::random::Random;
use bench::judge::Question;

/// A run of the draft's table with its stem: a walk from an initial state, at least so many
/// entries long, ended as soon as it can close.
pub fn walk(random: &mut Random, draft: &mut Draft, least: usize) -> (Vec<u16>, usize) {
    let mut state = initial_state(random, draft);
    let mut track = vec![u16::from(state)];
    loop {
        let after = after(draft, state);
        let closing = (0..track.len()).filter(|entry| after.contains(&(track[*entry] as u8)));
        let closing: Vec<usize> = closing.collect();
        if track.len() >= least && !closing.is_empty() {
            let stem = random.pick(&closing);
            return (track, stem);
        }
        state = random.pick(&after);
        track.push(u16::from(state));
    }
}

/// An initial state; one is made so if there is none.
fn initial_state(random: &mut Random, draft: &mut Draft) -> u8 {
    let initial = |state: &u8| draft.records[usize::from(*state)][2] == 1;
    let all: Vec<u8> = (0..draft.states).filter(initial).collect();
    if all.is_empty() {
        let state = random.below(usize::from(draft.states));
        draft.records[state][2] = 1;
        return state as u8;
    }
    random.pick(&all)
}

fn after(draft: &Draft, state: u8) -> Vec<u8> {
    let leaving = draft.edges.iter().filter(|edge| edge[0] == state);
    leaving.map(|edge| edge[1]).collect()
}

/// A right question about a run of the draft's table; the track may go on after the run with
/// entries that nobody may look at, and the scratch be longer than needed.
pub fn question(random: &mut Random, draft: &mut Draft) -> Question {
    let least = random.pick(&[1, 1, 2, 3, 5, 12, 40]);
    let (mut track, stem) = walk(random, draft, least);
    let length = track.len();
    if random.once_in(2) {
        let more = random.from_to(1, 4);
        track.extend((0..more).map(|_| random.number() as u16));
    }
    Question {
        bytes: draft.bytes(),
        track,
        stem: stem as u64,
        r#loop: (length - stem) as u64,
        scratch: length + random.pick(&[0, 1, 7]),
    }
}

/// A question with one to three kinds of damage, each aimed at a refusal.
pub fn spoiled(random: &mut Random, mut draft: Draft) -> Question {
    let mut asked = question(random, &mut draft);
    for _ in 0..random.from_to(1, 3) {
        match random.below(9) {
            0 => asked.r#loop = 0,
            1 => asked.stem = far(random, &asked),
            2 => asked.r#loop = far(random, &asked),
            3 => spoil_entry(random, &mut asked, draft.states),
            4 => spoil_initial(&mut asked, &mut draft),
            5 => spoil_edge(random, &mut asked, &draft),
            6 => asked.scratch = random.below(asked.scratch.max(1)),
            7 => asked.track.truncate(random.below(asked.track.len().max(1))),
            _ => close_elsewhere(random, &mut asked),
        }
    }
    if random.once_in(10) {
        asked.bytes = damaged(random, draft);
    }
    asked
}

/// A number for 51: just past the track's length, or near a limit of the widths of numbers.
fn far(random: &mut Random, asked: &Question) -> u64 {
    let length = asked.track.len() as u64;
    let limits = [length, length + 1, 1 << 16, 1 << 32, 1 << 63, u64::MAX];
    let back = random.pick(&[0, 1, asked.stem, asked.r#loop, length]);
    random.pick(&limits).wrapping_sub(back)
}

/// Aims at 52, also with entries whose low byte is a state.
fn spoil_entry(random: &mut Random, asked: &mut Question, states: u8) {
    if asked.track.is_empty() {
        return;
    }
    let at = random.below(asked.track.len());
    let states = u16::from(states);
    let wrong = [
        states,
        states + 1,
        255,
        256,
        256 + asked.track[at] % 256,
        u16::MAX,
    ];
    asked.track[at] = random.pick(&wrong);
}

/// Aims at 53.
fn spoil_initial(asked: &mut Question, draft: &mut Draft) {
    let first = asked.track.first().copied().unwrap_or_default();
    if let Some(record) = draft.records.get_mut(usize::from(first)) {
        record[2] = 0;
        asked.bytes = draft.bytes();
    }
}

/// Aims at 54.
fn spoil_edge(random: &mut Random, asked: &mut Question, draft: &Draft) {
    if asked.track.len() > 1 {
        let at = random.from_to(1, asked.track.len() - 1);
        asked.track[at] = random.below(usize::from(draft.states)) as u16;
    }
}

/// Aims at 54 in the closing edge: another border between stem and loop, or a shorter run.
fn close_elsewhere(random: &mut Random, asked: &mut Question) {
    let length = asked.stem.saturating_add(asked.r#loop);
    if (1..1000).contains(&length) {
        let length = random.from_to(1, length as usize);
        let stem = random.below(length);
        asked.stem = stem as u64;
        asked.r#loop = (length - stem) as u64;
    }
}
