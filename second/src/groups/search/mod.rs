//! mullodai_search against the own verdict; every run it shows is put to both judges, and must be folded.
#![forbid(unsafe_code)]

mod damaged;
mod deep;
mod examples;
mod generated;
mod mistakes;
mod needles;
mod small;

use crate::library::{self, Answer};
use crate::report::{first_wrong, hex, Group, Report, Wrong};
use bench::judge::{judge, Question};
use bench::reader::{read, Refusal};
use bench::verdict::verdict;

/// Entries beyond the lent workspace and track, which nobody may touch.
const BEYOND: usize = 3;

pub fn compare(report: &mut Report) {
    println!("mullodai_search");
    examples::compare(report);
    small::compare(report);
    needles::compare(report);
    deep::compare(report);
    generated::compare(report);
    damaged::compare(report);
    mistakes::compare(report);
}

/// How much workspace and track is lent beside what is needed; it may be less.
#[derive(Clone, Copy)]
struct Room {
    workspace: isize,
    track: isize,
}

impl Room {
    const EXACT: Room = Room {
        workspace: 0,
        track: 0,
    };
}

/// All that a search leaves behind, but for the run.
#[derive(PartialEq, Debug)]
struct Outcome {
    number: u64,
    place: u64,
    case_kept: bool,
    wrong_in_workspace: Option<Wrong<u16>>,
    wrong_in_track: Option<Wrong<u16>>,
}

/// One search, with the own verdict worked out here.
fn ask(group: &mut Group, bytes: &[u8], room: Room) -> Answer {
    let own = read(bytes).map(|case| verdict(&case, None).violated);
    ask_knowing(group, bytes, room, own)
}

/// One search, compared in the answer, every entry lent or beyond, and the run if one is shown.
fn ask_knowing(group: &mut Group, bytes: &[u8], room: Room, own: Result<bool, Refusal>) -> Answer {
    let places = read(bytes).map_or(0, |case| case.places());
    let mut lent = Lent::new(places, room);
    let (workspace, track) = lent.parts();
    let call = library::search(bytes, workspace, track);
    let answer = call.answer;
    let (number, place) = expected(own, places, room);
    let cleared = if number <= 1 { 6 * places } else { 0 };
    group.compare(
        || format!("{}, case {}", lent.describe(), hex(bytes)),
        Outcome {
            number,
            place,
            case_kept: true,
            wrong_in_workspace: None,
            wrong_in_track: None,
        },
        Outcome {
            number: answer.number,
            place: answer.place,
            case_kept: call.kept,
            wrong_in_workspace: lent.wrong_in_workspace(cleared),
            wrong_in_track: lent.wrong_in_track(run_length(&answer, lent.track_length)),
        },
    );
    look_at_run(group, bytes, &answer, lent.parts().1);
    answer
}

/// The answer's number and place, from the own verdict and the room that is lent.
fn expected(own: Result<bool, Refusal>, places: usize, room: Room) -> (u64, u64) {
    match own {
        Err(refusal) => (refusal.number, refusal.place),
        Ok(_) if room.workspace < 0 => (40, 6 * places as u64),
        Ok(_) if room.track < 0 => (41, 2 * places as u64),
        Ok(violated) => (u64::from(violated), 0),
    }
}

/// How many entries of the track the answer says are its run.
fn run_length(answer: &Answer, track_length: usize) -> usize {
    let length = u128::from(answer.stem) + u128::from(answer.r#loop);
    match answer.number {
        1 if length <= track_length as u128 => length as usize,
        _ => 0,
    }
}

/// Without a run k and m are 0; a run must be condemned by both judges, and shown no longer than its path needs.
fn look_at_run(group: &mut Group, bytes: &[u8], answer: &Answer, track: &[u16]) {
    if answer.number != 1 {
        let what = || format!("k and m of case {}", hex(bytes));
        group.compare(what, (0, 0), (answer.stem, answer.r#loop));
        return;
    }
    let asked = Question {
        bytes: bytes.to_vec(),
        track: track.to_vec(),
        stem: answer.stem,
        r#loop: answer.r#loop,
        scratch: track.len(),
    };
    let what = || {
        let run = &track[..run_length(answer, track.len())];
        let (k, m) = (answer.stem, answer.r#loop);
        format!("judges on k {k}, m {m}, run {run:?}, case {}", hex(bytes))
    };
    group.compare(what, Ok(false), judge(&asked, None));
    let mut scratch = vec![0; asked.scratch + BEYOND];
    let theirs = library::judge(&asked, &mut scratch[..asked.scratch]).answer;
    group.compare(what, (1, 0), (theirs.number, theirs.place));
    let run = &track[..run_length(answer, track.len())];
    group.compare(what, None, shorter(run, answer.stem as usize));
}

/// A shorter stem or loop of the same entries with the same endless path, if there is one: the stem ends as the loop does, or the
/// loop goes round a shorter one some whole number of times.
fn shorter(run: &[u16], stem: usize) -> Option<(usize, usize)> {
    let (before, around) = run.split_at_checked(stem)?;
    let length = around.len();
    if !before.is_empty() && before.last() == around.last() {
        return Some((stem - 1, length));
    }
    let repeats = |part: &usize| length % part == 0 && around[..length - part] == around[*part..];
    (1..length).find(repeats).map(|part| (stem, part))
}

/// The lent memory, with some entries beyond.
struct Lent {
    workspace: Vec<u16>,
    workspace_length: usize,
    track: Vec<u16>,
    track_length: usize,
}

impl Lent {
    fn new(places: usize, room: Room) -> Lent {
        let workspace_length = (6 * places).saturating_add_signed(room.workspace);
        let track_length = (2 * places).saturating_add_signed(room.track);
        Lent {
            workspace: as_lent(workspace_length + BEYOND),
            workspace_length,
            track: as_lent(track_length + BEYOND),
            track_length,
        }
    }

    /// Workspace and track as they are lent, without the entries beyond.
    fn parts(&mut self) -> (&mut [u16], &mut [u16]) {
        let workspace = &mut self.workspace[..self.workspace_length];
        (workspace, &mut self.track[..self.track_length])
    }

    fn wrong_in_workspace(&self, cleared: usize) -> Option<Wrong<u16>> {
        let mut should = as_lent(self.workspace.len());
        should[..cleared].fill(0);
        first_wrong(&should, &self.workspace)
    }

    /// Entries of the run may be anything here; the judges look at them.
    fn wrong_in_track(&self, run_length: usize) -> Option<Wrong<u16>> {
        let mut should = as_lent(self.track.len());
        should[..run_length].copy_from_slice(&self.track[..run_length]);
        first_wrong(&should, &self.track)
    }

    fn describe(&self) -> String {
        let Lent {
            workspace_length,
            track_length,
            ..
        } = self;
        format!("workspace of {workspace_length}, track of {track_length}")
    }
}

/// What stands in workspace and track before the call; no entry is 0, and none is a state.
fn as_lent(length: usize) -> Vec<u16> {
    let entry = |place: usize| (place as u16).wrapping_mul(0x9E37) | 0x8001;
    (0..length).map(entry).collect()
}
