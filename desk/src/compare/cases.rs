//! What one case compares: a random model, its file, tapes, configurations and damages.

use super::counts::Counts;
use super::draft::{mend, Draft};
use super::edits::{edited, edits_between};
use super::trial::{Call, Difference, Spare, Trial};
use crate::proved::Engine;
use crate::random::*;
use crate::second::*;

/// A trial that differs.
pub struct Found {
    pub trial: Trial,
    pub difference: Difference,
}

/// The outcome of comparisons: nothing, or the first difference.
pub type Compared = Result<(), Box<Found>>;

/// The engine that is compared, and the counts so far.
pub struct Comparison<'e> {
    pub engine: &'e dyn Engine,
    pub counts: Counts,
}

/// How often a model is edited and written, and in which cases the largest one is: every so many.
const EDITS: usize = 12;
const LARGEST: u64 = 20;

/// Files up to this many blocks are damaged at every byte.
const SWEPT_BLOCKS: usize = 5;

impl Comparison<'_> {
    /// A comparison with this engine that has counted nothing yet.
    pub fn of(engine: &dyn Engine) -> Comparison<'_> {
        Comparison {
            engine,
            counts: Counts::default(),
        }
    }

    /// Asks both engines; stops at a difference.
    fn check(&mut self, trial: Trial) -> Compared {
        match trial.differs(self.engine, &mut self.counts) {
            Some(difference) => Err(Box::new(Found { trial, difference })),
            None => Ok(()),
        }
    }

    /// One case: the same seed and number give the same case.
    pub fn case(&mut self, seed: u64, case: u64) -> Compared {
        let mut rng = Rng::new(seed.wrapping_mul(1_000_003).wrapping_add(case));
        let rng = &mut rng;
        for _ in 0..4 {
            rng.bits();
        }
        let model = random_model(rng);
        let file = file_of(&model);
        self.counts.models += 1;
        self.file(&file, model.n())?;
        self.tapes(rng, &model, &file)?;
        self.configs(rng, &model, &file)?;
        self.lengths(rng, &file)?;
        if case % 50 == 1 && file.len() <= SWEPT_BLOCKS * BLOCK {
            self.every_byte(rng, &file)?;
        } else {
            self.damages(rng, &file)?;
        }
        self.refused_file(rng, &model, &file)?;
        self.writes(rng, &model, &file)?;
        if case % LARGEST == 2 {
            self.largest()?;
        }
        Ok(())
    }

    /// Loading, the yes/no for each subject and two beyond, and the fresh start.
    fn file(&mut self, file: &[u8], n: usize) -> Compared {
        self.check(Trial::of_file(Call::Load, file))?;
        for owner in 0..n as u8 + 2 {
            self.check(Trial {
                owner,
                ..Trial::of_file(Call::Shared, file)
            })?;
        }
        self.check(Trial::of_file(Call::Fresh, file))
    }

    /// Random tapes from the fresh start, command by command, as a whole, and walked.
    fn tapes(&mut self, rng: &mut Rng, model: &Model, file: &[u8]) -> Compared {
        let len = rng.pick(&[20, 40, 40, 80, 200]);
        let mut tape = random_tape(rng, model, len);
        self.check(Trial::of_tape(Call::Step, file, None, &tape))?;
        if rng.chance(25) {
            let any = rng.bits().to_le_bytes();
            let piece = rng.pick(&[Command::Tick.encode(), any]);
            tape.extend(&piece[..rng.between(1, 7)]);
        }
        self.check(Trial::of_tape(Call::Run, file, None, &tape))?;
        self.check(Trial::of_tape(Call::Walk, file, None, &tape))?;
        tape.truncate(rng.below(4) * 8);
        self.buffers(rng, file, None, &tape)
    }

    /// Every call with buffers that are mostly too short or longer than needed.
    fn buffers(
        &mut self,
        rng: &mut Rng,
        file: &[u8],
        start: Option<[u8; CONFIG_BYTES]>,
        tape: &[u8],
    ) -> Compared {
        for (call, need) in [
            (Call::Load, MODEL_BYTES),
            (Call::Write, file.len()),
            (Call::Fresh, 0),
            (Call::Step, 9),
            (Call::Run, numbers_of(tape)),
            (Call::Walk, 0),
        ] {
            let spare = Spare {
                config: random_spare(rng, CONFIG_BYTES),
                model: random_spare(rng, MODEL_BYTES),
                answer: random_spare(rng, need),
            };
            self.check(Trial {
                spare,
                ..Trial::of_tape(call, file, start, tape)
            })?;
        }
        Ok(())
    }

    /// Single steps and short tapes from configurations put together or disturbed, and from bytes that are none.
    fn configs(&mut self, rng: &mut Rng, model: &Model, file: &[u8]) -> Compared {
        for i in 0..12 {
            let whole = match rng.chance(60) {
                true => arranged(rng, model),
                false => random_config(rng, model),
            };
            let start = match rng.below(24) {
                0..=4 => disturbed(rng, &whole),
                5 => hollow(rng, model, &whole).unwrap_or(whole).to_bytes(),
                6..=9 => twisted(rng, &whole),
                10 | 11 => flagged(rng, &whole),
                12 => any_bytes(rng),
                _ => whole.to_bytes(),
            };
            let tape = tape_from(rng, model, &start);
            let start = Some(start);
            self.check(Trial::of_tape(Call::Step, file, start, &tape))?;
            match i % 4 {
                0 => {
                    self.check(Trial::of_tape(Call::Run, file, start, &tape))?;
                    self.check(Trial::of_tape(Call::Walk, file, start, &tape))?;
                }
                1 => self.buffers(rng, file, start, &tape)?,
                _ => {}
            }
        }
        Ok(())
    }

    /// Writing the model, into a room that is empty, one too short, exact and longer, and edited models.
    fn writes(&mut self, rng: &mut Rng, model: &Model, file: &[u8]) -> Compared {
        let longer = rng.between(1, 2 * BLOCK) as isize;
        for room in [-(file.len() as isize), -1, 0, longer] {
            self.check(Trial::of_write(file, Vec::new(), room))?;
        }
        let bytes = model.to_bytes();
        for _ in 0..EDITS {
            let edits = edits_between(&bytes, &edited(rng, model));
            let room = random_spare(rng, file.len());
            if !edits.is_empty() {
                self.check(Trial::of_write(file, edits, room))?;
            }
        }
        Ok(())
    }

    /// Writing the model with the longest file, and with one exit more than there may be.
    fn largest(&mut self) -> Compared {
        let model = fullest(0);
        let edits = edits_between(&model.to_bytes(), &fullest(1).to_bytes());
        let file = file_of(&model);
        self.check(Trial::of_write(&file, Vec::new(), 0))?;
        self.check(Trial::of_write(&file, edits, 0))
    }

    /// Files of lengths that are wrong, or nearly so.
    fn lengths(&mut self, rng: &mut Rng, file: &[u8]) -> Compared {
        let mut other = file.to_vec();
        match rng.below(8) {
            0 => other.clear(),
            1 => other.truncate(511),
            2 => drop(other.pop()),
            3 => other.push(0),
            4 => other.resize(44 * BLOCK, 0),
            5 => other.resize(43 * BLOCK, 0),
            6 => other.extend(file),
            _ => other.truncate(rng.below(file.len())),
        }
        self.check(Trial::of_file(Call::Load, &other))
    }

    /// Every byte of the file changed in a few ways, with the check left wrong and made right.
    fn every_byte(&mut self, rng: &mut Rng, file: &[u8]) -> Compared {
        for at in 0..file.len() {
            let old = file[at];
            let ways = [
                old ^ 1,
                old.wrapping_add(1),
                if old == ANY { 0 } else { ANY },
                rng.below(256) as u8,
            ];
            for (i, new) in ways.into_iter().enumerate() {
                let mut other = file.to_vec();
                other[at] = new;
                if i == 0 {
                    self.check(Trial::of_file(Call::Load, &other))?;
                }
                mend(&mut other[at / BLOCK * BLOCK..][..BLOCK]);
                self.check(Trial::of_file(Call::Load, &other))?;
            }
        }
        Ok(())
    }

    /// Random damage: of bytes with mended checks, of records, of blocks.
    fn damages(&mut self, rng: &mut Rng, file: &[u8]) -> Compared {
        for _ in 0..20 {
            let other = random_damage(rng, file);
            self.check(Trial::of_file(Call::Load, &other))?;
        }
        Ok(())
    }

    /// All calls with a damaged file, which mostly stands for the empty model.
    fn refused_file(&mut self, rng: &mut Rng, model: &Model, file: &[u8]) -> Compared {
        let other = random_damage(rng, file);
        let whole = random_config(rng, model);
        let none = flagged(rng, &whole);
        let start = rng.pick(&[None, Some(whole.to_bytes()), Some(none)]);
        let tape = random_tape(rng, model, 4);
        self.file(&other, 0)?;
        self.check(Trial::of_tape(Call::Step, &other, start, &tape))?;
        self.check(Trial::of_tape(Call::Run, &other, start, &tape))?;
        self.check(Trial::of_tape(Call::Walk, &other, start, &tape))?;
        self.buffers(rng, &other, start, &tape)
    }
}

/// A few commands that fit the configuration; any, where it is not valid.
fn tape_from(rng: &mut Rng, model: &Model, start: &[u8]) -> Vec<u8> {
    let valid = Config::from_bytes(start).filter(|c| config_valid(model, c));
    let mut config = valid.unwrap_or_else(|| fresh(model).1);
    let mut tape = Vec::new();
    for _ in 0..if valid.is_some() { 6 } else { 2 } {
        let bytes = random_command(rng, model, &config);
        step_coded(model, &mut config, bytes);
        tape.extend(bytes);
    }
    tape
}

/// How much longer a buffer is than needed; mostly too short by one, by some or by all, or a little longer.
fn random_spare(rng: &mut Rng, need: usize) -> isize {
    match rng.below(8) {
        0..=2 => 0,
        3 | 4 => -1,
        5 => -(rng.between(0, need) as isize),
        6 => -(need as isize),
        _ => rng.between(1, 20) as isize,
    }
}

/// A file damaged in one of several ways.
fn random_damage(rng: &mut Rng, file: &[u8]) -> Vec<u8> {
    match rng.below(10) {
        0..=3 => damaged(rng, file),
        4..=6 => torn(rng, file),
        7 | 8 => unfit(rng, file),
        _ => shuffled(rng, file),
    }
}

/// The file of a model with one thing changed, or with as much of something as there may be.
fn unfit(rng: &mut Rng, file: &[u8]) -> Vec<u8> {
    match load(file) {
        Ok(model) if rng.chance(20) => file_of(&brimming(rng, &model)),
        Ok(model) => file_of(&changed(rng, &model)),
        Err(_) => file.to_vec(),
    }
}

/// A file with a record dropped, doubled, swapped with the next or changed, in blocks that are in order.
fn torn(rng: &mut Rng, file: &[u8]) -> Vec<u8> {
    let Some(mut draft) = Draft::of(file) else {
        return file.to_vec();
    };
    for _ in 0..rng.pick(&[1, 1, 2]) {
        let list = match rng.below(7) {
            0 => &mut draft.header,
            1 | 2 => &mut draft.states,
            3..=5 => &mut draft.exits,
            _ => &mut draft.limits,
        };
        if list.len() < 2 {
            continue;
        }
        let i = rng.below(list.len());
        let next = (i + 1) % list.len();
        match rng.below(4) {
            0 => drop(list.remove(i)),
            1 => list.insert(i, list[i]),
            2 => list.swap(i, next),
            _ => {
                let mut extra = list[i];
                for _ in 0..rng.pick(&[1, 1, 2]) {
                    extra[rng.below(RECORD)] = rng.pick(&[0, 1, 2, 15, 16, 31, 32, ANY]);
                }
                list.push(extra);
                list.sort();
            }
        }
    }
    draft.file()
}

/// A file with a block dropped, doubled or swapped with the next; numbers and checks mostly right.
fn shuffled(rng: &mut Rng, file: &[u8]) -> Vec<u8> {
    let mut blocks: Vec<Vec<u8>> = file.chunks(BLOCK).map(<[u8]>::to_vec).collect();
    let i = rng.below(blocks.len());
    match rng.below(3) {
        0 => drop(blocks.remove(i)),
        1 => blocks.insert(i, blocks[i].clone()),
        _ => blocks.swap(i, (i + 1) % file.len().div_ceil(BLOCK)),
    }
    if rng.chance(80) {
        for (number, block) in blocks.iter_mut().enumerate() {
            block[..2].copy_from_slice(&(number as u16).to_le_bytes());
            mend(block);
        }
    }
    blocks.concat()
}
