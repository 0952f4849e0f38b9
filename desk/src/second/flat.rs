//! The flat layout of a model, either way: its bytes as a caller in another language has them.

use super::types::*;

/// Bytes of a whole model, of one subject's part and of one state's part, of a limit row and of an exit.
pub const MODEL_BYTES: usize = 17_843;
pub const SUBJECT_BYTES: usize = 27;
pub const STATE_BYTES: usize = 34;
pub const ROW_BYTES: usize = 3;
pub const EXIT_BYTES: usize = 3;

/// Where the part of subject s starts.
pub fn subject_at(s: usize) -> usize {
    3 + s * SUBJECT_BYTES
}

/// Where row i of subject s starts.
pub fn row_at(s: usize, i: usize) -> usize {
    subject_at(s) + 3 + i * ROW_BYTES
}

/// Where the part of state t of subject s starts.
pub fn state_at(s: usize, t: usize) -> usize {
    subject_at(MOST_SUBJECTS) + (s * MOST_STATES + t) * STATE_BYTES
}

/// Where exit e of state t of subject s starts.
pub fn exit_at(s: usize, t: usize, e: usize) -> usize {
    state_at(s, t) + 10 + e * EXIT_BYTES
}

impl Model {
    /// The flat layout of a model of at most 16 subjects of 32 states; the empty model is all zero.
    pub fn to_bytes(&self) -> Vec<u8> {
        let mut bytes = vec![0; MODEL_BYTES];
        bytes[0] = self.n() as u8;
        bytes[1..3].copy_from_slice(&self.start.to_le_bytes());
        for (s, subject) in self.subjects.iter().enumerate() {
            subject.write(&mut bytes[subject_at(s)..][..SUBJECT_BYTES]);
            for (t, state) in subject.states.iter().enumerate() {
                state.write(&mut bytes[state_at(s, t)..][..STATE_BYTES]);
            }
        }
        bytes
    }

    /// The model of bytes in the flat layout; none where they are too few, where they count more of something than there
    /// is room for, or where a place that is not used is not zero. Bytes behind the layout are not read.
    pub fn from_bytes(bytes: &[u8]) -> Option<Model> {
        let bytes = bytes.get(..MODEL_BYTES)?;
        let n = count(bytes[0], MOST_SUBJECTS)?;
        let subjects: Option<Vec<Subject>> = (0..n).map(|s| Subject::read(bytes, s)).collect();
        let model = Model {
            start: wide(&bytes[1..]),
            subjects: subjects?,
        };
        (model.to_bytes() == bytes).then_some(model)
    }
}

impl Subject {
    /// Writes the sizes, initial state and limit rows.
    fn write(&self, part: &mut [u8]) {
        part[0] = self.states.len() as u8;
        part[1] = self.initial;
        part[2] = self.limits.len() as u8;
        for (row, place) in self
            .limits
            .iter()
            .zip(part[3..].chunks_exact_mut(ROW_BYTES))
        {
            place.copy_from_slice(&[row.sender, row.typ, row.limit]);
        }
    }

    /// Reads subject s with its states and rows; none where there is no room for so many.
    fn read(bytes: &[u8], s: usize) -> Option<Subject> {
        let part = &bytes[subject_at(s)..][..SUBJECT_BYTES];
        let states = count(part[0], MOST_STATES)?;
        let rows = count(part[2], MOST_ROWS)?;
        let row = |r: &[u8]| Limit {
            sender: r[0],
            typ: r[1],
            limit: r[2],
        };
        let states: Option<Vec<State>> = (0..states)
            .map(|t| State::read(&bytes[state_at(s, t)..][..STATE_BYTES]))
            .collect();
        Some(Subject {
            initial: part[1],
            states: states?,
            limits: part[3..]
                .chunks_exact(ROW_BYTES)
                .take(rows)
                .map(row)
                .collect(),
        })
    }
}

impl State {
    /// Writes a state with its exits.
    fn write(&self, part: &mut [u8]) {
        part[0] = self.kind;
        part[1] = self.exits.len() as u8;
        part[2] = self.sender;
        part[3] = self.typ;
        part[4..6].copy_from_slice(&self.duration.to_le_bytes());
        part[6] = self.timeout;
        part[7] = self.cancel;
        part[8..10].copy_from_slice(&self.receivers.to_le_bytes());
        for (exit, place) in self
            .exits
            .iter()
            .zip(part[10..].chunks_exact_mut(EXIT_BYTES))
        {
            place.copy_from_slice(&[exit.target, exit.sender, exit.typ]);
        }
    }

    /// Reads a state with its exits; none where there is no room for so many.
    fn read(part: &[u8]) -> Option<State> {
        let exits = count(part[1], MOST_STATE_EXITS)?;
        let exit = |e: &[u8]| Exit {
            target: e[0],
            sender: e[1],
            typ: e[2],
        };
        Some(State {
            kind: part[0],
            sender: part[2],
            typ: part[3],
            duration: wide(&part[4..]),
            timeout: part[6],
            cancel: part[7],
            receivers: wide(&part[8..]),
            exits: part[10..]
                .chunks_exact(EXIT_BYTES)
                .take(exits)
                .map(exit)
                .collect(),
        })
    }
}

/// How many there are, if there is room for so many.
fn count(byte: u8, most: usize) -> Option<usize> {
    let count = usize::from(byte);
    (count <= most).then_some(count)
}

/// Two bytes, low first.
fn wide(b: &[u8]) -> u16 {
    u16::from_le_bytes([b[0], b[1]])
}
