//! A stand-in for the proved engine, for the desk's tests: the second engine behind its calls, whole and with deliberate faults.

use super::calls::*;
use super::counts::lacks_a_message;
use super::draft::mend;
use super::flat::*;
use crate::proved::Engine;
use crate::second::*;

/// What a stand-in does wrong.
#[derive(Clone, Copy, Debug, PartialEq, Eq)]
pub enum Fault {
    /// Nothing.
    Whole,
    /// Deliver hands over content 0.
    Content,
    /// Deliver puts the message at the end of the line.
    Appended,
    /// A timeout wins over a send that can deliver.
    Timeout,
    /// Only the first receiver's place is withdrawn.
    Withdrawn,
    /// Marks of senders from n up go unnoticed.
    Marks,
    /// A reservation left makes an end improper too.
    Waiting,
    /// At an end only the first entry is asked whether it is a message.
    Glance,
    /// Somebody who ended improperly and holds no message goes unnoticed.
    Hollow,
    /// Who ended properly and holds an entry is refused.
    Tidy,
    /// The block of refusal 5 is given.
    Block,
    /// A limit of 16 is refused.
    Limit,
    /// Unused room is not looked at.
    Room,
    /// The state of a sleeper is left 0.
    Sleeper,
    /// The line of an unknown code shows nothing.
    Line,
    /// A walk takes a last piece for a command.
    Piece,
    /// Rows may add up to 17.
    Shares,
    /// A refused load writes the empty model.
    Emptied,
    /// A load into too short a buffer is answered 0.
    Roomy,
    /// A refused fresh start writes zeros.
    Blank,
    /// A refused step writes zeros for its values.
    Zeros,
    /// A step with too little room for its values does all the rest.
    Stepped,
    /// A step looks at the buffer of its values last.
    Last,
    /// Any byte but 0 says message.
    Flag,
    /// A byte says message by its last bit.
    LastBit,
    /// A configuration too short is answered 6.
    Brief,
    /// A refused step zeroes what is there of a configuration too short.
    Wiped,
    /// A configuration that is not valid refuses each command of a tape, not the tape.
    Each,
    /// Too short a buffer for lines is answered 0.
    Short,
    /// A buffer for lines is looked at before the configuration.
    Early,
    /// Lines are written as far as they fit.
    Partly,
    /// A walk from a configuration that is not valid is answered 0.
    Onward,
    /// A buffer that is longer than needed is cleared to its end.
    Cleared,
    /// The last check of a file is left out.
    Unsealed,
    /// A byte behind the file is written.
    Behind,
    /// A room is looked at before the model.
    Sooner,
    /// The unused room of a written block is not cleared.
    Unswept,
    /// A file is written as far as it fits.
    Partial,
    /// A room too short is told how long it has to be.
    Told,
    /// A room of exactly the file's length is too short.
    Tight,
    /// A refused write zeroes the room.
    Spoilt,
    /// A model is written whether it is valid or not.
    Trusting,
    /// What stands in an exit's place past the state's own is not looked at.
    Loose,
    /// Model bytes that are missing count as zeros.
    Filled,
    /// A model of more bytes than needed is refused.
    Strict,
    /// A limit above 16 is written as 16.
    Clamped,
    /// More than 1,024 exits are written.
    Crowded,
}

use Fault::*;

/// The second engine behind the calls of the proved one.
pub struct StandIn(pub Fault);

impl StandIn {
    /// The model of a file, or what loading answers, with the fault.
    fn loaded(&self, file: &[u8]) -> Result<Model, u16> {
        let told = load(file).map_err(|r| u16::from(r.number) + 256 * r.block);
        match (self.0, &told) {
            (Block, Err(5)) => Err(5 + 256),
            (Limit, Ok(model)) => {
                let mut rows = model.subjects.iter().flat_map(|s| &s.limits);
                match rows.any(|l| l.limit == 16) {
                    true => Err(4 + 256),
                    false => told,
                }
            }
            (Room, Err(answer)) if answer % 256 == 3 => {
                let mut mended = file.to_vec();
                for block in mended.chunks_exact_mut(BLOCK) {
                    let used = 4 + usize::from(block[3]).min(RECORDS) * RECORD;
                    block[used..508].fill(0);
                    mend(block);
                }
                load(&mended).map_err(|r| u16::from(r.number) + 256 * r.block)
            }
            _ => told,
        }
    }

    /// Changes an accepted step's outcome by the fault, or accepts a refused one.
    fn spoil(
        &self,
        model: &Model,
        before: &Config,
        config: &mut [u8],
        b: [u8; 8],
        refusal: u8,
    ) -> u8 {
        let Some(mut after) = Config::from_bytes(config) else {
            return refusal;
        };
        let delivered = b[0] == 3 && refusal == 0;
        let left = matches!(b[0], 6 | 7) && refusal == 0;
        let places = |r: usize| before.subjects[r].pool.reservation_of(b[1]);
        let holders: Vec<usize> = (0..16).filter(|r| places(*r).is_some()).collect();
        let mut told = refusal;
        match self.0 {
            Content if delivered => {
                for r in holders {
                    after.subjects[r].pool.entries[places(r).unwrap()].content = 0;
                }
            }
            Appended if delivered => {
                for r in holders {
                    let entry = after.subjects[r].pool.remove(places(r).unwrap());
                    after.subjects[r].pool.push(entry);
                }
            }
            Timeout if refusal == 20 => told = 0,
            Withdrawn if left => {
                for r in holders.into_iter().skip(1) {
                    after.subjects[r].pool = before.subjects[r].pool;
                }
            }
            Marks if refusal == 10 => {
                let mut whole = *before;
                let n = model.n();
                let marks = whole.subjects[..n]
                    .iter_mut()
                    .flat_map(|a| &mut a.closed[n..]);
                marks.for_each(|m| *m = 0);
                if config_valid(model, &whole) {
                    told = 0;
                }
            }
            Waiting | Glance => {
                let pairs = after.subjects.iter_mut().zip(&before.subjects);
                let ran = pairs.filter(|(_, old)| old.mode == RUNNING);
                ran.for_each(|(actor, _)| self.misjudge_end(actor));
            }
            Hollow if refusal == 10 && lacks_a_message(model, before) => told = 0,
            Tidy if refusal == 0 => {
                let ended = |a: &Actor| a.mode == ENDED && a.pool.count != 0;
                if before.subjects.iter().any(ended) {
                    told = 10;
                }
            }
            _ => {}
        }
        config[..CONFIG_BYTES].copy_from_slice(&after.to_bytes());
        told
    }

    /// Changes the mode of a subject that has just ended by the fault.
    fn misjudge_end(&self, actor: &mut Actor) {
        match actor.mode {
            ENDED if self.0 == Waiting && actor.pool.count != 0 => actor.mode = ENDED_IMPROPERLY,
            ENDED_IMPROPERLY if self.0 == Glance && !actor.pool.entries[0].message => {
                actor.mode = ENDED;
            }
            _ => {}
        }
    }

    /// The bytes of a model as the fault reads them.
    fn misread_model(&self, model: &[u8]) -> Vec<u8> {
        let mut bytes = model.to_vec();
        match self.0 {
            Filled => bytes.resize(MODEL_BYTES.max(model.len()), 0),
            Strict if model.len() > MODEL_BYTES => bytes.clear(),
            Loose | Clamped if model.len() < MODEL_BYTES => {}
            Loose => {
                for (s, t) in (0..16).flat_map(|s| (0..MOST_STATES).map(move |t| (s, t))) {
                    let exits = usize::from(bytes[state_at(s, t) + 1]).min(MOST_STATE_EXITS);
                    bytes[exit_at(s, t, exits)..state_at(s, t + 1)].fill(0);
                }
            }
            Clamped => {
                for (s, i) in (0..16).flat_map(|s| (0..MOST_ROWS).map(move |i| (s, i))) {
                    let limit = &mut bytes[row_at(s, i) + 2];
                    *limit = (*limit).min(POOL as u8);
                }
            }
            _ => {}
        }
        bytes
    }

    /// Whether the fault writes this model although it is not valid.
    fn trusts(&self, model: &Model) -> bool {
        match self.0 {
            Trusting => model.n() > 0,
            Crowded => model.exits() > MOST_EXITS,
            _ => false,
        }
    }

    /// Changes the outcome of a write by the fault; `file` is what would be written of a valid model.
    fn spoil_room(&self, before: &[u8], room: &mut [u8], file: &[u8], answer: u32) -> u32 {
        let length = answer as usize / 256;
        match self.0 {
            Unsealed if length != 0 => {
                room[length - 4..length].copy_from_slice(&before[length - 4..length]);
            }
            Behind if length != 0 => room[length..].iter_mut().take(1).for_each(|b| *b = 0),
            Unswept => {
                for (block, old) in room[..length].chunks_mut(BLOCK).zip(before.chunks(BLOCK)) {
                    let used = 4 + usize::from(block[3]) * RECORD;
                    block[used..508].copy_from_slice(&old[used..508]);
                    mend(block);
                }
            }
            Partial if answer == 6 => room.copy_from_slice(&file[..room.len()]),
            Spoilt if length == 0 => room.fill(0),
            Tight if length == room.len() => room.copy_from_slice(before),
            _ => {}
        }
        match self.0 {
            Sooner if answer == 8 && room.len() < file.len() => 6,
            Told if answer == 6 => 6 + 256 * file.len() as u32,
            Tight if length != 0 && length == room.len() => 6,
            _ => answer,
        }
    }

    /// The bytes of a configuration as the fault reads them.
    fn misread(&self, config: &[u8]) -> Vec<u8> {
        let mut bytes = config.to_vec();
        let entries = (0..16).flat_map(|s| (0..POOL).map(move |e| message_at(s, e)));
        for at in entries.filter(|at| *at < config.len()) {
            match self.0 {
                Flag => bytes[at] = bytes[at].min(1),
                LastBit => bytes[at] &= 1,
                _ => {}
            }
        }
        bytes
    }
}

impl Engine for StandIn {
    fn load(&self, file: &[u8], room: &mut [u8]) -> u16 {
        match self.loaded(file) {
            Ok(model) if room.len() >= MODEL_BYTES => {
                room[..MODEL_BYTES].copy_from_slice(&model.to_bytes());
                if self.0 == Cleared {
                    room[MODEL_BYTES..].fill(0);
                }
                0
            }
            Ok(_) if self.0 == Roomy => 0,
            Ok(_) => 6,
            Err(answer) => {
                if self.0 == Emptied {
                    room.fill(0);
                }
                answer
            }
        }
    }

    fn write(&self, model: &[u8], room: &mut [u8]) -> u32 {
        let before = room.to_vec();
        let bytes = self.misread_model(model);
        let read = Model::from_bytes(&bytes);
        let file = read.as_ref().map_or(vec![0; BLOCK], file_of);
        let answer = match read {
            Some(m) if self.trusts(&m) && file.len() <= room.len() => {
                room[..file.len()].copy_from_slice(&file);
                256 * file.len() as u32
            }
            _ => write_call(&bytes, room),
        };
        self.spoil_room(&before, room, &file, answer)
    }

    fn fresh(&self, file: &[u8], config: &mut [u8]) -> u8 {
        let refusal = fresh_call(&model_of(file), config);
        if self.0 == Blank && refusal != 0 {
            config.fill(0);
        }
        if self.0 == Sleeper && refusal == 0 {
            let mut start = Config::from_bytes(config).unwrap();
            let sleepers = start.subjects.iter_mut().filter(|a| a.mode == ASLEEP);
            sleepers.for_each(|a| a.state = 0);
            config[..CONFIG_BYTES].copy_from_slice(&start.to_bytes());
        }
        refusal
    }

    fn step(&self, file: &[u8], config: &mut [u8], command: &[u8], values: &mut [u8]) -> u8 {
        let model = model_of(file);
        let bytes = command.try_into().unwrap();
        let mut now = self.misread(config);
        let before = Config::from_bytes(&now);
        let mut refusal = step_call(&model, &mut now, bytes, values);
        if let Some(before) = before {
            refusal = self.spoil(&model, &before, &mut now, bytes, refusal);
        }
        match self.0 {
            Zeros if refusal != 0 => values.fill(0),
            Stepped if refusal == 6 => {
                refusal = step_call(&model, &mut now, bytes, &mut [0; VALUE_BYTES]);
            }
            Last if refusal == 6 => {
                let told = step_call(&model, &mut now.clone(), bytes, &mut [0; VALUE_BYTES]);
                refusal = if told == 0 { 6 } else { told };
            }
            Brief if refusal == 10 && config.len() < CONFIG_BYTES => refusal = 6,
            Wiped if refusal == 10 && config.len() < CONFIG_BYTES => config.fill(0),
            _ => {}
        }
        if refusal == 0 {
            config.copy_from_slice(&now);
        }
        refusal
    }

    fn run(&self, file: &[u8], config: &mut [u8], tape: &[u8], lines: &mut [u32]) -> u8 {
        let model = model_of(file);
        let mut now = self.misread(config);
        let refusal = run_call(&model, &mut now, tape, lines);
        let short = lines.len() < numbers_of(tape);
        match self.0 {
            Short if refusal == 6 => return 0,
            Early if refusal == 10 && short => return 6,
            Partly if refusal == 6 => {
                let mut whole = vec![0; numbers_of(tape)];
                run_call(&model, &mut now, tape, &mut whole);
                lines.copy_from_slice(&whole[..lines.len()]);
            }
            Each if refusal == 10 && !short => {
                for place in lines.chunks_exact_mut(4).take(tape.len() / 8) {
                    place.copy_from_slice(&[10, 0, 0, 0]);
                }
                return 0;
            }
            Line if refusal == 0 => {
                for place in lines.chunks_exact_mut(4).filter(|l| l[0] == 9) {
                    place[1..].fill(0);
                }
            }
            _ => {}
        }
        if refusal == 0 {
            config.copy_from_slice(&now);
        }
        refusal
    }

    fn walk(&self, file: &[u8], config: &mut [u8], tape: &[u8]) -> u8 {
        let model = model_of(file);
        let mut now = self.misread(config);
        let mut tape = tape.to_vec();
        if self.0 == Piece {
            tape.resize(tape.len().next_multiple_of(8), 0);
        }
        match walk_call(&model, &mut now, &tape) {
            0 => config.copy_from_slice(&now),
            10 if self.0 == Onward => {}
            refusal => return refusal,
        }
        0
    }

    fn shared(&self, file: &[u8], owner: u8) -> u8 {
        let mut model = model_of(file);
        if let (Shares, Some(s)) = (self.0, model.subjects.get_mut(usize::from(owner))) {
            if let Some(row) = s.limits.iter_mut().find(|l| l.limit > 1) {
                row.limit -= 1;
            }
        }
        shared_call(&model, owner)
    }
}
