//! A case while it is being put together: plain values, right or wrong, and the bytes they give.
#![forbid(unsafe_code)]

/// The four fields' values; any of them may break any rule.
#[derive(Clone, Debug, Default)]
pub struct Draft {
    pub states: u8,
    pub atoms: u8,
    pub records: Vec<[u8; 3]>,
    pub edges: Vec<[u8; 2]>,
    pub nodes: Vec<[u8; 3]>,
}

impl Draft {
    /// The four tagged fields, with the lengths that the values have.
    pub fn bytes(&self) -> Vec<u8> {
        let mut bytes = Vec::new();
        field(&mut bytes, 1, &[self.states, self.atoms]);
        field(&mut bytes, 2, self.records.as_flattened());
        field(&mut bytes, 3, self.edges.as_flattened());
        field(&mut bytes, 4, self.nodes.as_flattened());
        bytes
    }

    /// As many states as asked, unlabelled, the first initial, each with an edge to itself.
    pub fn standing_still(states: u8) -> Draft {
        let mut records = vec![[0, 0, 0]; usize::from(states)];
        if let Some(first) = records.first_mut() {
            first[2] = 1;
        }
        Draft {
            states,
            atoms: 1,
            records,
            edges: (0..states).map(|state| [state, state]).collect(),
            nodes: vec![[0, 0, 0]],
        }
    }

    /// 01's night update.
    pub fn night_update() -> Draft {
        Draft {
            states: 3,
            atoms: 3,
            records: vec![[0, 0, 1], [3, 0, 0], [2, 0, 0]],
            edges: vec![[0, 1], [0, 2], [1, 1], [2, 2]],
            nodes: vec![[1, 1, 0], [1, 0, 0], [5, 0, 1], [8, 2, 0]],
        }
    }
}

fn field(bytes: &mut Vec<u8>, tag: u8, value: &[u8]) {
    let length = value.len() as u16;
    bytes.push(tag);
    bytes.extend(length.to_le_bytes());
    bytes.extend(value);
}
