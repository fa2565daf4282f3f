//! Spoils cases: each kind of damage aims at one refusal, and several may fall on one case.
#![forbid(unsafe_code)]

use crate::draft::Draft;
use crate::random::Random;

/// A case's bytes after one to three kinds of damage.
pub fn damaged(random: &mut Random, mut draft: Draft) -> Vec<u8> {
    let times = random.from_to(1, 3);
    let mut in_bytes = 0;
    for _ in 0..times {
        if random.once_in(3) {
            in_bytes += 1;
        } else {
            damage_values(random, &mut draft);
        }
    }
    let mut bytes = draft.bytes();
    for _ in 0..in_bytes {
        damage_bytes(random, &mut bytes);
    }
    bytes
}

fn damage_values(random: &mut Random, draft: &mut Draft) {
    match random.below(10) {
        0 => draft.states = random.pick(&[0, 65, 66, 128, 255]),
        1 => draft.atoms = random.pick(&[17, 18, 32, 255]),
        2 => spoil_record(random, draft),
        3 => spoil_edge_end(random, draft),
        4 => spoil_edge_order(random, draft),
        5 => make_dead_end(random, draft),
        6 => spoil_operator(random, draft),
        7 => spoil_operand(random, draft),
        8 => add_temporal_nodes(random, draft),
        _ => spoil_count(random, draft),
    }
}

/// Aims at 20.
fn spoil_record(random: &mut Random, draft: &mut Draft) {
    let state = random.below(draft.records.len());
    let record = &mut draft.records[state];
    if draft.atoms < 16 && random.once_in(2) {
        let bit = random.from_to(usize::from(draft.atoms), 15);
        record[bit / 8] |= 1 << (bit % 8);
    } else {
        record[2] = random.pick(&[2, 3, 4, 128, 255]);
    }
}

/// Aims at 21.
fn spoil_edge_end(random: &mut Random, draft: &mut Draft) {
    if let Some(edge) = some_item(random, &mut draft.edges) {
        let low = usize::from(draft.states);
        let most = random.pick(&[low, 255]);
        edge[random.below(2)] = random.from_to(low, most) as u8;
    }
}

/// Aims at 22.
fn spoil_edge_order(random: &mut Random, draft: &mut Draft) {
    if draft.edges.is_empty() {
        return;
    }
    let (one, other) = (
        random.below(draft.edges.len()),
        random.below(draft.edges.len()),
    );
    match random.below(3) {
        0 => draft.edges.swap(one, other),
        1 => draft.edges[one] = draft.edges[other],
        _ => draft.edges.insert(one, draft.edges[one]),
    }
}

/// Aims at 23; one edge at least is left, else the length would be refused before.
fn make_dead_end(random: &mut Random, draft: &mut Draft) {
    let state = random.below(usize::from(draft.states).max(1)) as u8;
    let others = draft.edges.iter().copied().filter(|edge| edge[0] != state);
    let others: Vec<[u8; 2]> = others.collect();
    if !others.is_empty() {
        draft.edges = others;
    }
}

/// Aims at 30.
fn spoil_operator(random: &mut Random, draft: &mut Draft) {
    if let Some(node) = some_item(random, &mut draft.nodes) {
        node[0] = random.pick(&[12, 13, 16, 128, 255]);
    }
}

/// Aims at 31: any operator with any two bytes close to the limits.
fn spoil_operand(random: &mut Random, draft: &mut Draft) {
    let (count, atoms) = (draft.nodes.len() as u8, draft.atoms);
    if count == 0 {
        return;
    }
    let number = random.below(draft.nodes.len()) as u8;
    let near = [0, 1, number.max(1) - 1, number, number + 1, atoms, count];
    let node = &mut draft.nodes[usize::from(number)];
    node[random.from_to(1, 2)] = random.pick(&near);
    if random.once_in(2) {
        node[0] = random.below(12) as u8;
    }
}

/// Aims at 32.
fn add_temporal_nodes(random: &mut Random, draft: &mut Draft) {
    let count = random.from_to(1, 8);
    for _ in 0..count {
        let number = draft.nodes.len();
        if (1..32).contains(&number) {
            let operator = random.from_to(6, 11) as u8;
            let mut operand = || random.below(number) as u8;
            let first = operand();
            let second = if operator < 9 { 0 } else { operand() };
            draft.nodes.push([operator, first, second]);
        }
    }
}

/// Aims at 12: too many or no edges or nodes, or a record too many or too few.
fn spoil_count(random: &mut Random, draft: &mut Draft) {
    match random.below(6) {
        0 => draft.edges.resize(513, [0, 0]),
        1 => draft.edges.clear(),
        2 => draft.nodes.resize(33, [0, 0, 0]),
        3 => draft.nodes.clear(),
        4 => draft.records.push([0, 0, 0]),
        _ => draft.records.truncate(draft.records.len() - 1),
    }
    if draft.records.is_empty() {
        draft.records.push([0, 0, 2]);
    }
}

fn some_item<'a, T>(random: &mut Random, items: &'a mut [T]) -> Option<&'a mut T> {
    match items.len() {
        0 => None,
        count => items.get_mut(random.below(count)),
    }
}

fn damage_bytes(random: &mut Random, bytes: &mut Vec<u8>) {
    let at = random.below(bytes.len().max(1)).min(bytes.len());
    match random.below(7) {
        0 => bytes.truncate(at),
        1 => bytes.insert(at, random.byte()),
        2 if at < bytes.len() => drop(bytes.remove(at)),
        3 if at < bytes.len() => bytes[at] = random.byte(),
        4 => bytes.extend((0..random.from_to(1, 4)).map(|_| 0)),
        5 => spoil_head(random, bytes, 0),
        _ => spoil_head(random, bytes, 1),
    }
}

/// Aims at 11 (a tag, the head's byte 0) or 12 (a length, from the head's byte 1).
fn spoil_head(random: &mut Random, bytes: &mut [u8], byte: usize) {
    let mut heads = vec![0];
    while let Some(head) = heads.last().and_then(|at| bytes.get(*at..at + 3)) {
        let length = usize::from(u16::from_le_bytes([head[1], head[2]]));
        heads.push(heads[heads.len() - 1] + 3 + length);
    }
    let at = random.pick(&heads[..heads.len().min(4)]) + byte;
    if let Some(byte) = bytes.get_mut(at) {
        *byte = random.pick(&[0, 1, 2, 3, 4, 5, byte.wrapping_add(1), byte.wrapping_sub(1)]);
    }
}
