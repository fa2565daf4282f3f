//! Reads a case: its four fields, then their values, refusing in the order of 01's table.
#![forbid(unsafe_code)]

/// A refusal's number and place.
#[derive(Clone, Copy, PartialEq, Eq, Debug)]
pub struct Refusal {
    pub number: u64,
    pub place: u64,
}

/// One state of field 02.
#[derive(Clone, Copy, PartialEq, Eq, Debug)]
pub struct State {
    pub label: u16,
    pub initial: bool,
}

/// One node of the rule; operands are the numbers of lower nodes.
#[derive(Clone, Copy, PartialEq, Eq, Debug)]
pub enum Node {
    True,
    Atom(usize),
    Not(usize),
    And(usize, usize),
    Or(usize, usize),
    Implies(usize, usize),
    Next(usize),
    Eventually(usize),
    Always(usize),
    Until(usize, usize),
    Release(usize, usize),
    WeakUntil(usize, usize),
}

impl Node {
    /// Operators 6 to 11, the ones that T counts.
    pub fn is_temporal(&self) -> bool {
        matches!(self, Node::Next(_)) || self.has_promise()
    }

    /// Operators 7 to 11, the ones that E counts.
    pub fn has_promise(&self) -> bool {
        use Node::*;
        matches!(
            self,
            Eventually(_) | Always(_) | Until(..) | Release(..) | WeakUntil(..)
        )
    }
}

/// A case that was read without a refusal.
#[derive(Clone, PartialEq, Eq, Debug)]
pub struct Case {
    pub states: Vec<State>,
    pub edges: Vec<(usize, usize)>,
    pub nodes: Vec<Node>,
}

impl Case {
    pub fn has_edge(&self, from: usize, to: usize) -> bool {
        self.edges.binary_search(&(from, to)).is_ok()
    }

    /// T of 01.
    pub fn temporal(&self) -> usize {
        self.nodes.iter().filter(|node| node.is_temporal()).count()
    }

    /// E of 01.
    pub fn promises(&self) -> usize {
        self.nodes.iter().filter(|node| node.has_promise()).count()
    }

    /// P of 01.
    pub fn places(&self) -> usize {
        (self.states.len() << self.temporal()) * (self.promises() + 1)
    }
}

/// Reads a whole case, or gives the first refusal of 10 to 32.
pub fn read(bytes: &[u8]) -> Result<Case, Refusal> {
    let mut fields = Fields { bytes, offset: 0 };
    let sizes = fields.take(1, |length| length == 2)?;
    let (count, atoms) = (usize::from(sizes[0]), usize::from(sizes[1]));
    if !(1..=64).contains(&count) || atoms > 16 {
        return refuse(13, 0);
    }
    let states = fields.take(2, |length| length == 3 * count)?;
    let edges = fields.take(3, |length| length % 2 == 0 && (2..=1024).contains(&length))?;
    let nodes = fields.take(4, |length| length % 3 == 0 && (3..=96).contains(&length))?;
    if fields.offset < bytes.len() {
        return refuse(14, fields.offset);
    }
    let states = read_states(states, atoms)?;
    let edges = read_edges(edges, count)?;
    let nodes = read_nodes(nodes, atoms)?;
    let case = Case {
        states,
        edges,
        nodes,
    };
    match case.temporal() {
        0..=4 => Ok(case),
        too_many => refuse(32, too_many),
    }
}

/// One state of a case: its record, or the case's refusal, or 42.
pub fn read_state(bytes: &[u8], number: u64) -> Result<State, Refusal> {
    let case = read(bytes)?;
    let count = case.states.len();
    let wanted = usize::try_from(number).ok();
    match wanted.and_then(|wanted| case.states.get(wanted)) {
        Some(state) => Ok(*state),
        None => refuse(42, count),
    }
}

/// Fills the first records of a list and says how many, or leaves the list as it was.
pub fn fill_states(bytes: &[u8], list: &mut [State]) -> Result<u64, Refusal> {
    let case = read(bytes)?;
    let count = case.states.len();
    if list.len() < count {
        return refuse(42, count);
    }
    list[..count].copy_from_slice(&case.states);
    Ok(count as u64)
}

/// A refusal as a result.
pub fn refuse<T>(number: u64, place: usize) -> Result<T, Refusal> {
    let place = place as u64;
    Err(Refusal { number, place })
}

/// The fields not yet taken.
struct Fields<'a> {
    bytes: &'a [u8],
    offset: usize,
}

impl<'a> Fields<'a> {
    /// The next field's value: head (10), tag (11), length (12), value present (10).
    fn take(&mut self, tag: u8, fits: impl Fn(usize) -> bool) -> Result<&'a [u8], Refusal> {
        let left = &self.bytes[self.offset..];
        if left.len() < 3 {
            return refuse(10, self.offset);
        }
        if left[0] != tag {
            return refuse(11, self.offset);
        }
        let length = usize::from(u16::from_le_bytes([left[1], left[2]]));
        if !fits(length) {
            return refuse(12, self.offset);
        }
        let Some(value) = left[3..].get(..length) else {
            return refuse(10, self.offset);
        };
        self.offset += 3 + length;
        Ok(value)
    }
}

fn read_states(value: &[u8], atoms: usize) -> Result<Vec<State>, Refusal> {
    let mut states = Vec::new();
    for (number, record) in value.chunks(3).enumerate() {
        let label = u16::from_le_bytes([record[0], record[1]]);
        if u32::from(label) >= 1 << atoms || record[2] > 1 {
            return refuse(20, number);
        }
        let initial = record[2] == 1;
        states.push(State { label, initial });
    }
    Ok(states)
}

fn read_edges(value: &[u8], count: usize) -> Result<Vec<(usize, usize)>, Refusal> {
    let mut edges: Vec<(usize, usize)> = Vec::new();
    for (number, ends) in value.chunks(2).enumerate() {
        let edge = (usize::from(ends[0]), usize::from(ends[1]));
        if edge.0 >= count || edge.1 >= count {
            return refuse(21, number);
        }
        if edges.last().is_some_and(|before| edge <= *before) {
            return refuse(22, number);
        }
        edges.push(edge);
    }
    let starts = |state: &usize| edges.iter().any(|edge| edge.0 == *state);
    match (0..count).find(|state| !starts(state)) {
        Some(dead_end) => refuse(23, dead_end),
        None => Ok(edges),
    }
}

fn read_nodes(value: &[u8], atoms: usize) -> Result<Vec<Node>, Refusal> {
    let mut nodes = Vec::new();
    for (number, bytes) in value.chunks(3).enumerate() {
        nodes.push(read_node(bytes, number, atoms)?);
    }
    Ok(nodes)
}

/// One node: unknown operator (30), then operand or unused byte (31).
fn read_node(bytes: &[u8], number: usize, atoms: usize) -> Result<Node, Refusal> {
    let (first, second) = (usize::from(bytes[1]), usize::from(bytes[2]));
    let unused = second == 0;
    let one = first < number && unused;
    let two = first < number && second < number;
    let (node, right) = match bytes[0] {
        0 => (Node::True, first == 0 && unused),
        1 => (Node::Atom(first), first < atoms && unused),
        2 => (Node::Not(first), one),
        3 => (Node::And(first, second), two),
        4 => (Node::Or(first, second), two),
        5 => (Node::Implies(first, second), two),
        6 => (Node::Next(first), one),
        7 => (Node::Eventually(first), one),
        8 => (Node::Always(first), one),
        9 => (Node::Until(first, second), two),
        10 => (Node::Release(first, second), two),
        11 => (Node::WeakUntil(first, second), two),
        _ => return refuse(30, number),
    };
    if right {
        Ok(node)
    } else {
        refuse(31, number)
    }
}
