//! One comparison of the two engines: what is asked of both, and where their answers differ.

use super::calls::*;
use super::counts::Counts;
use super::edits::Edit;
use super::flat::*;
use crate::proved::Engine;
use crate::second::*;

/// What the bytes and the numbers of a buffer are before a call.
const UNTOUCHED: u8 = 0xa5;
const UNTOUCHED_NUMBER: u32 = 0xa5a5_a5a5;
/// The bytes behind a file in the room that it is written back to.
const BEHIND: usize = 20;

/// The call that is compared.
#[derive(Clone, Copy, Debug, PartialEq, Eq)]
pub enum Call {
    Load,
    Write,
    Shared,
    Fresh,
    Step,
    Run,
    Walk,
}

/// A question to both engines. All but a tape need only some of it.
#[derive(Clone, Debug)]
pub struct Trial {
    pub call: Call,
    pub file: Vec<u8>,
    pub owner: u8,
    /// Where the tape starts, in bytes; the fresh start unless said otherwise.
    pub start: Option<[u8; CONFIG_BYTES]>,
    pub tape: Vec<u8>,
    /// What is edited in the bytes of the file's model before it is written.
    pub edits: Vec<Edit>,
    pub spare: Spare,
}

/// How much longer the buffers are than the call needs; below 0 they are shorter.
#[derive(Clone, Copy, Debug, Default, PartialEq, Eq)]
pub struct Spare {
    /// The buffer of the configuration.
    pub config: isize,
    /// The bytes of a model that is written.
    pub model: isize,
    /// The buffer of the model, the values or the lines, or the room of a written file, as it was before an edit.
    pub answer: isize,
}

/// A field by name, with what the second and the proved engine say.
#[derive(Clone, Debug, PartialEq, Eq)]
pub struct Differing {
    pub field: String,
    pub second: String,
    pub proved: String,
}

/// Where the answers differ, and at which command of the tape.
#[derive(Clone, Debug, Default, PartialEq, Eq)]
pub struct Difference {
    pub command: Option<usize>,
    pub fields: Vec<Differing>,
}

/// A room whose bytes are not zero and not all the same, so that one that is moved shows too.
fn marked(long: usize) -> Vec<u8> {
    (0..long).map(|at| at as u8 | 1).collect()
}

impl Trial {
    /// A call that needs only the file.
    pub fn of_file(call: Call, file: &[u8]) -> Trial {
        Trial {
            call,
            file: file.to_vec(),
            owner: 0,
            start: None,
            tape: Vec::new(),
            edits: Vec::new(),
            spare: Spare::default(),
        }
    }

    /// Writing the model of a file, edited, to a room that is longer than the file by so much.
    pub fn of_write(file: &[u8], edits: Vec<Edit>, room: isize) -> Trial {
        let spare = Spare {
            answer: room,
            ..Spare::default()
        };
        Trial {
            edits,
            spare,
            ..Trial::of_file(Call::Write, file)
        }
    }

    /// A call with a tape.
    pub fn of_tape(
        call: Call,
        file: &[u8],
        start: Option<[u8; CONFIG_BYTES]>,
        tape: &[u8],
    ) -> Trial {
        Trial {
            start,
            tape: tape.to_vec(),
            ..Trial::of_file(call, file)
        }
    }

    /// Whether the call starts at a configuration.
    pub fn has_tape(&self) -> bool {
        matches!(self.call, Call::Step | Call::Run | Call::Walk)
    }

    /// Where it starts, in a buffer with more or less bytes than it needs.
    fn config_buffer(&self, model: &Model, counts: &mut Counts) -> Vec<u8> {
        let start = self.start.unwrap_or_else(|| fresh(model).1.to_bytes());
        let mut bytes = start.to_vec();
        bytes.resize(
            CONFIG_BYTES.saturating_add_signed(self.spare.config),
            UNTOUCHED,
        );
        counts.config(model, &bytes);
        bytes
    }

    /// The bytes of the file's model, edited: all zero where the file does not load.
    pub fn edited_model(&self) -> Vec<u8> {
        let mut bytes = model_of(&self.file).to_bytes();
        self.edits.iter().for_each(|e| bytes[e.at] = e.value);
        bytes
    }

    /// The bytes of the model that is written, with more or less of them than it needs.
    fn model_buffer(&self) -> Vec<u8> {
        let mut bytes = self.edited_model();
        bytes.resize(
            MODEL_BYTES.saturating_add_signed(self.spare.model),
            UNTOUCHED,
        );
        bytes
    }

    /// A buffer for an answer, with more or less room than it needs.
    fn answer_buffer<T: Copy>(&self, value: T, need: usize) -> Vec<T> {
        vec![value; need.saturating_add_signed(self.spare.answer)]
    }

    /// Asks both engines.
    pub fn differs(&self, engine: &dyn Engine, counts: &mut Counts) -> Option<Difference> {
        match self.call {
            Call::Load => self.load_differs(engine, counts),
            Call::Write => self.write_differs(engine, counts),
            Call::Shared => self.share_differs(engine, counts),
            Call::Fresh => self.fresh_differs(engine, counts),
            Call::Step => self.steps_differ(engine, counts),
            Call::Run => self.run_differs(engine, counts),
            Call::Walk => self.walk_differs(engine, counts),
        }
    }

    /// Loading: refusal, block and the whole buffer. What loads is written back.
    fn load_differs(&self, engine: &dyn Engine, counts: &mut Counts) -> Option<Difference> {
        let mut second = self.answer_buffer(UNTOUCHED, MODEL_BYTES);
        let mut proved = second.clone();
        let expected = load_call(&self.file, &mut second);
        let told = engine.load(&self.file, &mut proved);
        counts.file(expected as u8);
        let difference = Difference::default().answer("load", load_text, expected, told);
        if expected != told {
            return difference.found();
        }
        let difference = difference.bytes(model_fields, &second, &proved).found();
        if difference.is_some() || expected != 0 {
            return difference;
        }
        self.back_differs(engine, &proved, counts)
    }

    /// Writing back what the proved engine loaded: the bytes of the file, and those behind it as they were.
    fn back_differs(
        &self,
        engine: &dyn Engine,
        loaded: &[u8],
        counts: &mut Counts,
    ) -> Option<Difference> {
        let mut proved = marked(self.file.len() + BEHIND);
        let mut expected = proved.clone();
        expected[..self.file.len()].copy_from_slice(&self.file);
        let length = 256 * self.file.len() as u32;
        let told = engine.write(loaded, &mut proved);
        counts.back += 1;
        Difference::default()
            .written((length, &expected), (told, &proved))
            .found()
    }

    /// Writing: the answer and the whole room.
    fn write_differs(&self, engine: &dyn Engine, counts: &mut Counts) -> Option<Difference> {
        let model = self.model_buffer();
        let room = self.file.len().saturating_add_signed(self.spare.answer);
        let mut second = marked(room);
        let mut proved = second.clone();
        let expected = write_call(&model, &mut second);
        let told = engine.write(&model, &mut proved);
        counts.write(expected as u8, !self.edits.is_empty());
        Difference::default()
            .written((expected, &second), (told, &proved))
            .found()
    }

    /// The yes/no for one pool.
    fn share_differs(&self, engine: &dyn Engine, counts: &mut Counts) -> Option<Difference> {
        let expected = shared_call(&model_of(&self.file), self.owner);
        let told = engine.shared(&self.file, self.owner);
        counts.share(expected);
        Difference::default()
            .answer("shared out", share_text, expected, told)
            .found()
    }

    /// The fresh start: refusal and the whole buffer.
    fn fresh_differs(&self, engine: &dyn Engine, counts: &mut Counts) -> Option<Difference> {
        let mut second = vec![UNTOUCHED; CONFIG_BYTES.saturating_add_signed(self.spare.config)];
        let mut proved = second.clone();
        let refusal = fresh_call(&model_of(&self.file), &mut second);
        let told = engine.fresh(&self.file, &mut proved);
        counts.refusal(refusal);
        Difference::default()
            .number("refusal", refusal, told)
            .bytes(config_fields, &second, &proved)
            .found()
    }

    /// Every command by itself: refusal, and the whole buffers of the values and of the configuration after each.
    fn steps_differ(&self, engine: &dyn Engine, counts: &mut Counts) -> Option<Difference> {
        let model = model_of(&self.file);
        let mut second = self.config_buffer(&model, counts);
        let mut proved = second.clone();
        for (i, piece) in self.tape.chunks_exact(8).enumerate() {
            let mut command = [0; 8];
            command.copy_from_slice(piece);
            let mut values = self.answer_buffer(UNTOUCHED, VALUE_BYTES);
            let mut told_values = values.clone();
            let refusal = step_call(&model, &mut second, command, &mut values);
            let told = engine.step(&self.file, &mut proved, piece, &mut told_values);
            counts.step(command, refusal, &values, &second);
            let difference = Difference::at(i)
                .number("refusal", refusal, told)
                .bytes(value_fields, &values, &told_values)
                .bytes(config_fields, &second, &proved)
                .found();
            if difference.is_some() {
                return difference;
            }
        }
        None
    }

    /// A whole tape at once: refusal, and the whole buffers of the lines and of the configuration at the end.
    fn run_differs(&self, engine: &dyn Engine, counts: &mut Counts) -> Option<Difference> {
        let model = model_of(&self.file);
        let mut second = self.config_buffer(&model, counts);
        let mut proved = second.clone();
        let mut lines = self.answer_buffer(UNTOUCHED_NUMBER, numbers_of(&self.tape));
        let mut told_lines = lines.clone();
        let refusal = run_call(&model, &mut second, &self.tape, &mut lines);
        let told = engine.run(&self.file, &mut proved, &self.tape, &mut told_lines);
        counts.refusal(refusal);
        if refusal == 0 {
            counts.lines += self.tape.len() as u64 / 8;
        }
        Difference::default()
            .number("refusal", refusal, told)
            .lines(&lines, &told_lines)
            .bytes(config_fields, &second, &proved)
            .found()
    }

    /// A step for each command of a tape: refusal, and the whole buffer of the configuration at the end.
    fn walk_differs(&self, engine: &dyn Engine, counts: &mut Counts) -> Option<Difference> {
        let model = model_of(&self.file);
        let mut second = self.config_buffer(&model, counts);
        let mut proved = second.clone();
        let refusal = walk_call(&model, &mut second, &self.tape);
        let told = engine.walk(&self.file, &mut proved, &self.tape);
        counts.refusal(refusal);
        if refusal == 0 {
            counts.walked += self.tape.len() as u64 / 8;
        }
        Difference::default()
            .number("refusal", refusal, told)
            .bytes(config_fields, &second, &proved)
            .found()
    }
}

const LINE: [&str; 4] = ["refusal", "state", "word", "entries"];

fn load_text(answer: u16) -> String {
    match answer {
        0 => "loads".to_string(),
        _ => format!("refusal {} in block {}", answer % 256, answer / 256),
    }
}

fn write_text(answer: u32) -> String {
    match (answer % 256, answer / 256) {
        (0, length) => format!("a file of {length} bytes"),
        (refusal, 0) => format!("refusal {refusal}"),
        (refusal, length) => format!("refusal {refusal}, length {length}"),
    }
}

fn share_text(answer: u8) -> String {
    match answer {
        0 => "no".to_string(),
        1 => "yes".to_string(),
        number => format!("refusal {number}"),
    }
}

impl Difference {
    /// A difference at a command of the tape, if there is one.
    fn at(command: usize) -> Difference {
        Difference {
            command: Some(command),
            fields: Vec::new(),
        }
    }

    fn add(&mut self, field: &str, second: String, proved: String) {
        self.fields.push(Differing {
            field: field.to_string(),
            second,
            proved,
        });
    }

    /// With two numbers, where they differ.
    fn number(mut self, field: &str, second: impl Into<u64>, proved: impl Into<u64>) -> Difference {
        let (second, proved) = (second.into(), proved.into());
        if second != proved {
            self.add(field, second.to_string(), proved.to_string());
        }
        self
    }

    /// With two answers in words, where they differ.
    fn answer<T: Copy + PartialEq>(
        mut self,
        field: &str,
        text: fn(T) -> String,
        second: T,
        proved: T,
    ) -> Difference {
        if second != proved {
            self.add(field, text(second), text(proved));
        }
        self
    }

    /// With the answers of two writes where they differ, else with what differs in the rooms.
    fn written(self, second: (u32, &[u8]), proved: (u32, &[u8])) -> Difference {
        if second.0 != proved.0 {
            return self.answer("write", write_text, second.0, proved.0);
        }
        let blocks = second.0 as usize / 256 / BLOCK;
        self.bytes(|| file_fields(blocks), second.1, proved.1)
    }

    /// With every number of two buffers of lines that differs; the first line that does is the command.
    fn lines(mut self, second: &[u32], proved: &[u32]) -> Difference {
        for (i, (a, b)) in second.chunks(4).zip(proved.chunks(4)).enumerate() {
            if a == b {
                continue;
            }
            self.command.get_or_insert(i);
            for (name, (a, b)) in LINE.iter().zip(a.iter().zip(b)) {
                self = self.number(&format!("line {} {name}", i + 1), *a, *b);
            }
        }
        self
    }

    /// With every field of two buffers that differs, and every byte that belongs to no whole field.
    fn bytes(
        mut self,
        fields: impl FnOnce() -> Vec<Field>,
        second: &[u8],
        proved: &[u8],
    ) -> Difference {
        if second == proved {
            return self;
        }
        let mut named = 0;
        for field in fields() {
            if field.at + field.len > second.len() {
                break;
            }
            named = field.at + field.len;
            let (a, b) = (value_of(&field, second), value_of(&field, proved));
            self = self.number(&field.name, a, b);
        }
        for at in named..second.len() {
            self = self.number(&format!("byte {at}"), second[at], proved[at]);
        }
        self
    }

    /// The difference, if anything differs.
    fn found(&self) -> Option<Difference> {
        (!self.fields.is_empty()).then(|| self.clone())
    }
}
