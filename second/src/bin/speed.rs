//! Times mullodai_search beside an ordinary nested depth-first search on the same product: on a
//! fixed set of cases, and on a growing family that shows how the time goes with P.
#![forbid(unsafe_code)]
#![deny(warnings)]

use bench::nested;
use bench::reader::read;
use second::draft::Draft;
use second::generate::Shape;
use second::library;
use second::random::Random;
use second::rule::nodes;
use second::wanted::{wanted_of_shape, Wish};
use std::process::ExitCode;
use std::time::{Duration, Instant};

const CASES: usize = 2_000;
const ROUNDS: usize = 7;
/// Each case of the growing family is timed so often.
const REPEATS: usize = 200;
/// Eight times as many places may take this many times as long, where linear would be eight.
const MOST_GROWTH: f64 = 16.0;
/// Valid rules with T 4 and E 4: the whole reachable product is gone through.
const VALID: [&str; 3] = [
    "or F G p G F not p",
    "implies G F p G F p",
    "and or U p q R not p not q or W p q U not q and not p not q",
];

fn main() -> ExitCode {
    let mut room = Room {
        workspace: vec![0; 30_720],
        track: vec![0; 10_240],
    };
    fixed_set(&mut room);
    growing_family(&mut room)
}

/// The greatest workspace and track that any case needs; the search clears its workspace again.
struct Room {
    workspace: Vec<u16>,
    track: Vec<u16>,
}

/// Times of the library and of the own search.
#[derive(Clone, Copy, Default)]
struct Times {
    library: Duration,
    own: Duration,
}

impl Times {
    fn ratio(&self) -> f64 {
        self.library.as_secs_f64() / self.own.as_secs_f64()
    }
}

/// One case through both, the one or the other first; the verdicts must be equal.
fn time(bytes: &[u8], room: &mut Room, library_first: bool) -> Times {
    let mut library_time = Duration::ZERO;
    let mut number = 0;
    let mut ask_library = || {
        let began = Instant::now();
        let answer = library::search(bytes, &mut room.workspace, &mut room.track).answer;
        library_time = began.elapsed();
        number = answer.number;
    };
    if library_first {
        ask_library();
    }
    let began = Instant::now();
    let case = read(bytes).expect("all cases here are right");
    let run = nested::search(&case, None);
    let own = began.elapsed();
    if !library_first {
        ask_library();
    }
    assert_eq!(number, u64::from(run.is_some()), "verdicts differ");
    Times {
        library: library_time,
        own,
    }
}

/// 40 to 64 states, T 3 or 4, as many violated as held.
fn fixed_set(room: &mut Room) {
    let cases = fixed_cases();
    println!("{CASES} cases of 40 to 64 states with T 3 or 4");
    let mut ratios = Vec::new();
    for round in 0..ROUNDS {
        let mut sum = Times::default();
        for (number, bytes) in cases.iter().enumerate() {
            let times = time(bytes, room, (round + number) % 2 == 0);
            sum.library += times.library;
            sum.own += times.own;
        }
        println!(
            "  round {round}: library {:.3} s, own {:.3} s, ratio {:.2}",
            sum.library.as_secs_f64(),
            sum.own.as_secs_f64(),
            sum.ratio()
        );
        ratios.push(sum.ratio());
    }
    ratios.sort_by(f64::total_cmp);
    println!("median ratio, library to own: {:.2}", ratios[ROUNDS / 2]);
}

fn fixed_cases() -> Vec<Vec<u8>> {
    let mut random = Random::new(21);
    let mut cases = Vec::new();
    for number in 0..CASES {
        let temporal = 3 + number % 2;
        let states = random.from_to(40, 64);
        let shape = Shape {
            states,
            atoms: random.from_to(1, 8),
            more_edges: random.from_to(0, 512 - states),
            nodes: random.from_to(temporal + 3, 20),
            temporal,
        };
        let wish = match number / 2 % 4 {
            0 | 2 => Wish::Violated,
            1 => Wish::Holds,
            _ => Wish::HoldsByPromise,
        };
        cases.push(wanted_of_shape(&mut random, shape, wish).bytes);
    }
    cases
}

/// Rings of 4 to 64 states with three edges each and valid rules, so that P alone grows.
fn growing_family(room: &mut Room) -> ExitCode {
    println!("growing family: P, then microseconds, and nanoseconds for each of the P places");
    let mut totals = Vec::new();
    for states in [4, 8, 16, 32, 64] {
        let mut sum = Times::default();
        for rule in VALID {
            let bytes = ring(states, rule).bytes();
            let best = fastest(&bytes, room);
            sum.library += best.library;
            sum.own += best.own;
        }
        let places = usize::from(states) * 16 * 5;
        println!(
            "  P {places:5}: library {:8.1}, {:6.1}; own {:8.1}, {:6.1}",
            micros(sum.library),
            micros(sum.library) * 1000.0 / places as f64,
            micros(sum.own),
            micros(sum.own) * 1000.0 / places as f64
        );
        totals.push(sum);
    }
    let growth = micros(totals[4].library) / micros(totals[1].library);
    println!("8 times the places (P 640 to 5120) take the library {growth:.1} times as long");
    if growth > MOST_GROWTH {
        println!("FAILED: that is above {MOST_GROWTH} and does not look linear");
        return ExitCode::FAILURE;
    }
    ExitCode::SUCCESS
}

fn fastest(bytes: &[u8], room: &mut Room) -> Times {
    let mut best = time(bytes, room, true);
    for repeat in 0..REPEATS {
        let times = time(bytes, room, repeat % 2 == 0);
        best.library = best.library.min(times.library);
        best.own = best.own.min(times.own);
    }
    best
}

/// All states initial, labels none, p, q, pq in turn; edges to the next two states and itself.
fn ring(states: u8, rule: &str) -> Draft {
    let mut draft = Draft {
        states,
        atoms: 2,
        records: (0..states).map(|state| [state % 4, 0, 1]).collect(),
        nodes: nodes(rule),
        ..Draft::default()
    };
    for state in 0..states {
        let mut ends = [state, (state + 1) % states, (state + 2) % states];
        ends.sort();
        draft.edges.extend(ends.map(|end| [state, end]));
    }
    draft
}

fn micros(time: Duration) -> f64 {
    time.as_secs_f64() * 1e6
}
