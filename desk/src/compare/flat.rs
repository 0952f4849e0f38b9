//! The names of the fields in the layouts both engines are compared in, and the nine bytes of an answer.

use crate::second::*;

pub const VALUE_BYTES: usize = 9;

/// A field of a layout: where it starts, how many bytes it has, and its name.
pub struct Field {
    pub at: usize,
    pub len: usize,
    pub name: String,
}

/// The nine bytes of an answer: Reserve's masks and number missing, else 0.
pub fn value_bytes(answer: &Answer) -> [u8; VALUE_BYTES] {
    let mut bytes = [0; VALUE_BYTES];
    if let Answer::Reserved {
        placed,
        improper,
        closed,
        full,
        missing,
    } = *answer
    {
        let masks = [placed, improper, closed, full];
        for (mask, place) in masks.iter().zip(bytes.chunks_exact_mut(2)) {
            place.copy_from_slice(&mask.to_le_bytes());
        }
        bytes[8] = missing as u8;
    }
    bytes
}

/// A list of fields that grows from the front of a layout.
#[derive(Default)]
struct Fields(Vec<Field>);

impl Fields {
    fn add(&mut self, len: usize, name: String) {
        let at = self.0.last().map_or(0, |f| f.at + f.len);
        self.0.push(Field { at, len, name });
    }
}

/// The fields of an answer's nine bytes.
pub fn value_fields() -> Vec<Field> {
    let mut fields = Fields::default();
    for name in ["placed", "improper", "closed", "full"] {
        fields.add(2, name.to_string());
    }
    fields.add(1, "missing".to_string());
    fields.0
}

/// The fields of a configuration.
pub fn config_fields() -> Vec<Field> {
    let mut fields = Fields::default();
    for s in 0..16 {
        for (len, name) in [
            (1, "mode"),
            (1, "state"),
            (2, "waited"),
            (4, "word"),
            (2, "mask"),
        ] {
            fields.add(len, format!("s{s} {name}"));
        }
        for sender in 0..16 {
            fields.add(4, format!("s{s} closed for s{sender}"));
        }
        fields.add(1, format!("s{s} entries"));
        for e in 0..POOL {
            for (len, name) in [
                (1, "sender"),
                (1, "type"),
                (1, "is message"),
                (4, "content"),
            ] {
                fields.add(len, format!("s{s} entry {e} {name}"));
            }
        }
    }
    fields.0
}

/// The fields of a model.
pub fn model_fields() -> Vec<Field> {
    let mut fields = Fields::default();
    fields.add(1, "subjects".to_string());
    fields.add(2, "start mask".to_string());
    for s in 0..16 {
        for name in ["states", "initial state", "limit rows"] {
            fields.add(1, format!("s{s} {name}"));
        }
        for row in 0..MOST_ROWS {
            for name in ["sender", "type", "limit"] {
                fields.add(1, format!("s{s} row {row} {name}"));
            }
        }
    }
    for (s, t) in (0..16).flat_map(|s| (0..MOST_STATES).map(move |t| (s, t))) {
        add_state_fields(&mut fields, &format!("s{s} t{t}"));
    }
    fields.0
}

/// The fields of one state.
fn add_state_fields(fields: &mut Fields, state: &str) {
    for (len, name) in [
        (1, "kind"),
        (1, "exits"),
        (1, "sender"),
        (1, "type"),
        (2, "duration"),
        (1, "timeout target"),
        (1, "cancel target"),
        (2, "receivers"),
    ] {
        fields.add(len, format!("{state} {name}"));
    }
    for e in 0..8 {
        for name in ["target", "sender", "type"] {
            fields.add(1, format!("{state} exit {e} {name}"));
        }
    }
}

/// The fields of a file of so many blocks.
pub fn file_fields(blocks: usize) -> Vec<Field> {
    let mut fields = Fields::default();
    for b in 0..blocks {
        for (len, name) in [(2, "number"), (1, "kind"), (1, "records")] {
            fields.add(len, format!("block {b} {name}"));
        }
        for (i, byte) in (0..RECORDS).flat_map(|i| (0..RECORD).map(move |byte| (i, byte))) {
            fields.add(1, format!("block {b} record {i} byte {byte}"));
        }
        fields.add(4, format!("block {b} check"));
    }
    fields.0
}

/// The value of a field, low byte first.
pub fn value_of(field: &Field, bytes: &[u8]) -> u64 {
    let part = &bytes[field.at..field.at + field.len];
    part.iter().rev().fold(0, |v, b| v << 8 | u64::from(*b))
}
