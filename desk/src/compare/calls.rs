//! The second engine behind the calls of the proved one: bytes and lent buffers in, the first refusal out. A refused call
//! writes nothing. What a buffer has beyond what a call needs stays as it is.

use super::flat::*;
use crate::second::*;

/// The refusal of a call with a buffer that is too short for what it gives.
pub const TOO_SHORT: u8 = 6;

/// The model of a file; the empty one where it is refused.
pub fn model_of(file: &[u8]) -> Model {
    load(file).unwrap_or_default()
}

/// Loading: the loader's refusal and 256 * block, then 6; the model's bytes go to `room`.
pub fn load_call(file: &[u8], room: &mut [u8]) -> u16 {
    match load(file) {
        Ok(model) => number(put(room, &model.to_bytes())).into(),
        Err(r) => u16::from(r.number) + 256 * r.block,
    }
}

/// Writing a model given by its bytes: 8, then 6, or 256 * the length of its file, which goes to `room`.
pub fn write_call(model: &[u8], room: &mut [u8]) -> u32 {
    let model = Model::from_bytes(model).ok_or(8);
    match model.and_then(|model| write(&model, room)) {
        Ok(length) => 256 * length as u32,
        Err(refusal) => refusal.into(),
    }
}

/// The fresh start: 8, then 6.
pub fn fresh_call(model: &Model, config: &mut [u8]) -> u8 {
    match fresh(model) {
        (0, start) => number(put(config, &start.to_bytes())),
        (refusal, _) => refusal,
    }
}

/// A step by eight bytes: 8, 9, 10, 6, then 11 to 20.
pub fn step_call(model: &Model, config: &mut [u8], command: [u8; 8], values: &mut [u8]) -> u8 {
    number(step_bytes(model, config, command, values))
}

fn step_bytes(
    model: &Model,
    config: &mut [u8],
    command: [u8; 8],
    values: &mut [u8],
) -> Result<(), u8> {
    judge_model(model)?;
    let command = decode(command).1.ok_or(9)?;
    let mut now = judge_config(model, config)?;
    if values.len() < VALUE_BYTES {
        return Err(TOO_SHORT);
    }
    let answer = step_valid(model, &mut now, command);
    if let Answer::Refused(number) = answer {
        return Err(number);
    }
    put(config, &now.to_bytes())?;
    put(values, &value_bytes(&answer))
}

/// A whole tape: 8, 10, then 6; four numbers a command go to `lines`.
pub fn run_call(model: &Model, config: &mut [u8], tape: &[u8], lines: &mut [u32]) -> u8 {
    number(run_bytes(model, config, tape, lines))
}

fn run_bytes(model: &Model, config: &mut [u8], tape: &[u8], lines: &mut [u32]) -> Result<(), u8> {
    judge_model(model)?;
    let mut now = judge_config(model, config)?;
    let told = run_tape(model, &mut now, tape, lines.len())?;
    let numbers: Vec<u32> = told.iter().flat_map(line_numbers).collect();
    put(lines, &numbers)?;
    put(config, &now.to_bytes())
}

/// A step for each command of a tape: 8, then 10. A refused step changes nothing, and the walk goes on.
pub fn walk_call(model: &Model, config: &mut [u8], tape: &[u8]) -> u8 {
    number(walk_bytes(model, config, tape))
}

fn walk_bytes(model: &Model, config: &mut [u8], tape: &[u8]) -> Result<(), u8> {
    judge_model(model)?;
    let mut now = judge_config(model, config)?;
    for piece in tape.chunks_exact(8) {
        let mut bytes = [0; 8];
        bytes.copy_from_slice(piece);
        step_coded(model, &mut now, bytes);
    }
    put(config, &now.to_bytes())
}

/// Whether a pool is shared out: 1 yes, 0 no, or 8 or 11.
pub fn shared_call(model: &Model, owner: u8) -> u8 {
    match shared_out(model, owner) {
        Share::Yes => 1,
        Share::No => 0,
        Share::Refused(number) => number,
    }
}

/// Refusal 8.
fn judge_model(model: &Model) -> Result<(), u8> {
    match model_valid(model) {
        true => Ok(()),
        false => Err(8),
    }
}

/// The configuration of the bytes; refusal 10 where they are none, or where it is not valid.
fn judge_config(model: &Model, bytes: &[u8]) -> Result<Config, u8> {
    let config = Config::from_bytes(bytes).ok_or(10)?;
    match config_valid(model, &config) {
        true => Ok(config),
        false => Err(10),
    }
}

/// Writes to the front of a buffer, or refuses 6 and writes nothing.
fn put<T: Copy>(buffer: &mut [T], values: &[T]) -> Result<(), u8> {
    let place = buffer.get_mut(..values.len()).ok_or(TOO_SHORT)?;
    place.copy_from_slice(values);
    Ok(())
}

/// The refusal as a number, 0 for none.
fn number(result: Result<(), u8>) -> u8 {
    result.err().unwrap_or(0)
}

/// The four numbers of a tape's line.
fn line_numbers(line: &Line) -> [u32; 4] {
    [
        u32::from(line.refusal),
        u32::from(line.state),
        line.word,
        u32::from(line.entries),
    ]
}
