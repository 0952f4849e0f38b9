//! Makes a trial that differs as small as it can be while it still differs.

use super::counts::Counts;
use super::draft::{down, mask_down, mend, Cut, Draft};
use super::flat::config_fields;
use super::trial::{Call, Spare, Trial};
use crate::proved::Engine;
use crate::second::*;
use std::ops::Range;

/// The most times that everything is tried again after something could be left out.
const MOST_ROUNDS: usize = 20;

/// The smallest trial so far that still differs.
struct Shortener<'e> {
    engine: &'e dyn Engine,
    best: Trial,
}

/// The trial with all left out that the difference does not need.
pub fn shorten(engine: &dyn Engine, trial: &Trial) -> Trial {
    let mut shortener = Shortener {
        engine,
        best: trial.clone(),
    };
    for _ in 0..MOST_ROUNDS {
        let smaller = [
            shortener.tape(),
            shortener.edits(),
            shortener.start(),
            shortener.spare(),
            shortener.records(),
            shortener.words(),
            shortener.blocks(),
        ];
        if !smaller.contains(&true) {
            break;
        }
    }
    shortener.best
}

impl Shortener<'_> {
    /// Takes a smaller trial if it still differs.
    fn keep(&mut self, candidate: Trial) -> bool {
        let differs = candidate.differs(self.engine, &mut Counts::default());
        if differs.is_some() {
            self.best = candidate;
        }
        differs.is_some()
    }

    /// Drops what comes after the difference, then halves, quarters and single commands.
    fn tape(&mut self) -> bool {
        let end = self.tape_end();
        let commands = |trial: &Trial| trial.tape.len() / 8;
        let pieces = self.pieces(commands, |trial, gone| {
            drop(trial.tape.drain(gone.start * 8..gone.end * 8));
        });
        end || pieces
    }

    /// Drops halves, quarters and single edits.
    fn edits(&mut self) -> bool {
        self.pieces(
            |trial| trial.edits.len(),
            |trial, gone| drop(trial.edits.drain(gone)),
        )
    }

    /// Drops halves, quarters and single ones of so many parts, from the last on.
    fn pieces(
        &mut self,
        count: fn(&Trial) -> usize,
        without: fn(&mut Trial, Range<usize>),
    ) -> bool {
        let mut smaller = false;
        let mut piece = count(&self.best).next_power_of_two();
        while piece > 0 {
            let mut at = count(&self.best).saturating_sub(1) / piece * piece;
            loop {
                smaller |= self.without_parts(at..(at + piece).min(count(&self.best)), without);
                match at.checked_sub(piece) {
                    Some(next) => at = next,
                    None => break,
                }
            }
            piece /= 2;
        }
        smaller
    }

    /// Drops some parts in a row.
    fn without_parts(&mut self, gone: Range<usize>, without: fn(&mut Trial, Range<usize>)) -> bool {
        if gone.is_empty() {
            return false;
        }
        let mut candidate = self.best.clone();
        without(&mut candidate, gone);
        self.keep(candidate)
    }

    /// Drops the commands after the difference and a last piece that is no command.
    fn tape_end(&mut self) -> bool {
        let found = self.best.differs(self.engine, &mut Counts::default());
        let whole = self.best.tape.len() / 8;
        let needed = found.and_then(|d| d.command).map_or(whole, |i| i + 1);
        if needed * 8 >= self.best.tape.len() {
            return false;
        }
        let mut candidate = self.best.clone();
        candidate.tape.truncate(needed * 8);
        self.keep(candidate)
    }

    /// Starts at the fresh start if that will do, else with as little as possible.
    fn start(&mut self) -> bool {
        if self.best.start.is_none() {
            return false;
        }
        let mut candidate = self.best.clone();
        candidate.start = None;
        if self.keep(candidate) {
            return true;
        }
        let mut smaller = !self.starts_at_config() && self.plainer_bytes();
        for s in 0..16 {
            for change in ACTOR_CHANGES {
                smaller |= self.simpler_actor(s, change);
            }
            for k in 0..16 {
                smaller |= self.simpler_actor(s, &|a| a.closed[k] = 0);
            }
            for e in (0..POOL).rev() {
                smaller |= self.simpler_actor(s, &|a| drop_entry(a, e));
                smaller |= self.simpler_actor(s, &|a| a.pool.entries[e].content = 0);
                smaller |= self.without_place(s, e);
            }
        }
        smaller
    }

    /// Whether the bytes of the start are a configuration.
    fn starts_at_config(&self) -> bool {
        matches!(&self.best.start, Some(bytes) if Config::from_bytes(bytes).is_some())
    }

    /// Makes subjects and fields 0 in bytes that are no configuration.
    fn plainer_bytes(&mut self) -> bool {
        let subjects = (0..16).map(|s| s * ACTOR_BYTES..(s + 1) * ACTOR_BYTES);
        let fields = config_fields().into_iter().map(|f| f.at..f.at + f.len);
        let mut smaller = false;
        for part in subjects.chain(fields) {
            let mut candidate = self.best.clone();
            if let Some(bytes) = candidate.start.as_mut() {
                bytes[part].fill(0);
            }
            smaller |= candidate.start != self.best.start && self.keep(candidate);
        }
        smaller
    }

    /// Makes the buffers as long as the call needs them, or one shorter or longer.
    fn spare(&mut self) -> bool {
        let plainer: [fn(&mut Spare); 6] = [
            |spare| spare.config = 0,
            |spare| spare.model = 0,
            |spare| spare.answer = 0,
            |spare| spare.config = spare.config.signum(),
            |spare| spare.model = spare.model.signum(),
            |spare| spare.answer = spare.answer.signum(),
        ];
        let mut smaller = false;
        for change in plainer {
            let mut candidate = self.best.clone();
            change(&mut candidate.spare);
            smaller |= candidate.spare != self.best.spare && self.keep(candidate);
        }
        smaller
    }

    /// Makes one subject of the start simpler.
    fn simpler_actor(&mut self, s: usize, change: &dyn Fn(&mut Actor)) -> bool {
        let mut candidate = self.best.clone();
        candidate.start = changed_config(candidate.start, |c| change(&mut c.subjects[s]));
        candidate.start != self.best.start && self.keep(candidate)
    }

    /// Takes a reservation out of a pool and out of its sender's mask.
    fn without_place(&mut self, s: usize, e: usize) -> bool {
        let mut candidate = self.best.clone();
        candidate.start = changed_config(candidate.start, |c| drop_place(c, s, e));
        candidate.start != self.best.start && self.keep(candidate)
    }

    /// Leaves subjects, states, exits, limits, timeouts, cancel targets and receivers out of the file.
    fn records(&mut self) -> bool {
        let Some(all) = Draft::of(&self.best.file) else {
            return false;
        };
        let mut smaller = false;
        for cut in all.cuts() {
            let Some(draft) = Draft::of(&self.best.file) else {
                return smaller;
            };
            let shorter = draft.without(cut);
            if shorter == draft || shorter.size() > draft.size() {
                continue;
            }
            let room = self.best.file.len() as isize + self.best.spare.answer;
            let mut candidates = after_cut(&self.best, &shorter, cut).into_iter();
            smaller |= candidates.any(|c| self.keep(c.clone()) || self.keep_with_room(c, room));
        }
        smaller
    }

    /// Takes a smaller write with so much room for the file, if it still differs.
    fn keep_with_room(&mut self, mut candidate: Trial, room: isize) -> bool {
        candidate.spare.answer = room - candidate.file.len() as isize;
        candidate.call == Call::Write && self.keep(candidate)
    }

    /// Makes the words and the other bytes of the commands 0.
    fn words(&mut self) -> bool {
        let mut smaller = false;
        for at in (0..self.best.tape.len() / 8 * 8).step_by(8) {
            for part in [4..8, 3..4, 2..3, 1..2].map(|p| at + p.start..at + p.end) {
                let mut candidate = self.best.clone();
                candidate.tape[part.clone()].fill(0);
                if candidate.tape != self.best.tape {
                    smaller |= self.keep(candidate);
                }
            }
        }
        smaller
    }

    /// Drops blocks and records, or makes records 0, in a file whose blocks are not in order.
    fn blocks(&mut self) -> bool {
        if Draft::of(&self.best.file).is_some_and(|d| d.in_order()) {
            return false;
        }
        let mut smaller = false;
        for b in (0..self.best.file.len().div_ceil(BLOCK)).rev() {
            smaller |= self.without_block(b);
        }
        for b in 0..self.best.file.len() / BLOCK {
            for i in (0..RECORDS).rev() {
                let dropped = self.changed_block(b, |block| drop_record(block, i));
                smaller |= dropped || self.changed_block(b, |block| place_of(block, i).fill(0));
            }
        }
        smaller
    }

    /// Drops a block, or the piece at the end; later blocks are numbered anew.
    fn without_block(&mut self, b: usize) -> bool {
        let mut candidate = self.best.clone();
        let end = ((b + 1) * BLOCK).min(candidate.file.len());
        let right = right_checks(&candidate.file);
        candidate.file.drain(b * BLOCK..end);
        for (i, block) in candidate.file.chunks_exact_mut(BLOCK).enumerate().skip(b) {
            let number = u16::from_le_bytes([block[0], block[1]]);
            if usize::from(number) == i + 1 {
                block[..2].copy_from_slice(&(i as u16).to_le_bytes());
            }
            if right[i + 1] {
                mend(block);
            }
        }
        self.keep(candidate)
    }

    /// Changes a block; a right check stays right.
    fn changed_block(&mut self, b: usize, change: impl Fn(&mut [u8])) -> bool {
        let mut candidate = self.best.clone();
        let right = right_checks(&candidate.file)[b];
        let block = &mut candidate.file[b * BLOCK..][..BLOCK];
        change(block);
        if right {
            mend(block);
        }
        candidate.file != self.best.file && self.keep(candidate)
    }
}

/// Simpler forms of one subject's part of a configuration.
const ACTOR_CHANGES: &[&dyn Fn(&mut Actor)] = &[
    &|a| *a = Actor::default(),
    &|a| a.pool = Pool::default(),
    &|a| a.closed = [0; 16],
    &|a| a.waited = 0,
    &|a| a.word = 0,
    &|a| a.mask = 0,
    &|a| a.state = 0,
];

/// The bytes of a start with its configuration changed. A byte that says neither message nor reservation counts as message
/// meanwhile and moves with its entry.
fn changed_config(
    start: Option<[u8; CONFIG_BYTES]>,
    change: impl Fn(&mut Config),
) -> Option<[u8; CONFIG_BYTES]> {
    let bytes = start?;
    let entries = || (0..16).flat_map(|s| (0..POOL).map(move |e| (s, e)));
    let mut plain = bytes;
    for (s, e) in entries() {
        plain[message_at(s, e)] = bytes[message_at(s, e)].min(1);
    }
    let mut config = Config::from_bytes(&plain)?;
    let mut said = config;
    for (s, e) in entries() {
        said.subjects[s].pool.entries[e].content = bytes[message_at(s, e)].into();
    }
    change(&mut config);
    change(&mut said);
    let mut changed = config.to_bytes();
    for (s, e) in entries() {
        let byte = said.subjects[s].pool.entries[e].content as u8;
        if byte > 1 {
            changed[message_at(s, e)] = byte;
        }
    }
    Some(changed)
}

/// Takes a reservation out of a pool and out of its sender's mask.
fn drop_place(config: &mut Config, s: usize, e: usize) {
    let entry = config.subjects[s].pool.entries[e];
    let sender = usize::from(entry.sender);
    if e < config.subjects[s].pool.used().len() && !entry.message && sender < 16 {
        drop_entry(&mut config.subjects[s], e);
        config.subjects[sender].mask &= !bit(s);
    }
}

/// Takes an entry out of a pool, also one of a pool that is not valid.
fn drop_entry(actor: &mut Actor, e: usize) {
    if e < actor.pool.used().len() {
        actor.pool.entries.copy_within(e + 1.., e);
        actor.pool.entries[POOL - 1] = Entry::default();
        actor.pool.count -= 1;
    }
}

/// The twelve bytes of record i of a block.
fn place_of(block: &mut [u8], i: usize) -> &mut [u8] {
    &mut block[4 + i * RECORD..][..RECORD]
}

/// Takes record i out of a block, if it has more than one; later ones move up.
fn drop_record(block: &mut [u8], i: usize) {
    let used = usize::from(block[3]);
    if i < used && (2..=RECORDS).contains(&used) {
        block.copy_within(4 + (i + 1) * RECORD..508, 4 + i * RECORD);
        place_of(block, RECORDS - 1).fill(0);
        block[3] -= 1;
    }
}

/// For each whole block whether its check is right.
fn right_checks(file: &[u8]) -> Vec<bool> {
    let right = |block: &[u8]| check_in(block) == check(&block[..508]);
    file.chunks_exact(BLOCK).map(right).collect()
}

/// The trial with the shorter file; tape, owner, start and edits follow.
fn after_cut(trial: &Trial, shorter: &Draft, cut: Cut) -> Vec<Trial> {
    let mut next = trial.clone();
    next.file = shorter.file();
    next.edits = trial.edits.iter().filter_map(|e| e.after(cut)).collect();
    match cut {
        Cut::Subject(gone) => {
            next.tape = tape_without(&trial.tape, gone);
            next.start = changed_config(trial.start, |c| *c = config_without(c, gone));
            if next.call == Call::Shared {
                next.owner = down(trial.owner, gone);
            }
            vec![next]
        }
        Cut::State(s, t) => {
            next.start = changed_config(trial.start, |c| {
                if let Some(actor) = c.subjects.get_mut(usize::from(s)) {
                    actor.state = down(actor.state, t);
                }
            });
            vec![next]
        }
        Cut::Exit(s, _, e) => {
            let mut renumbered = next.clone();
            for piece in renumbered.tape.chunks_exact_mut(8) {
                if matches!(piece[0], 1 | 4) && piece[1] == s {
                    piece[2] = down(piece[2], e);
                }
            }
            vec![next, renumbered]
        }
        _ => vec![next],
    }
}

/// The tape without a subject's commands; the numbers of later ones go down.
fn tape_without(tape: &[u8], gone: u8) -> Vec<u8> {
    let mut short = Vec::new();
    for piece in tape.chunks(8) {
        let mut piece = piece.to_vec();
        if piece.len() == 8 && (1..=7).contains(&piece[0]) {
            if piece[1] == gone {
                continue;
            }
            piece[1] = down(piece[1], gone);
        }
        short.extend(piece);
    }
    short
}

/// The configuration without a subject, its entries and its marks.
fn config_without(config: &Config, gone: u8) -> Config {
    let g = usize::from(gone);
    let mut short = *config;
    if g >= 16 {
        return short;
    }
    short.subjects[g..].rotate_left(1);
    short.subjects[15] = Actor::default();
    for actor in &mut short.subjects {
        actor.mask = mask_down(actor.mask, gone);
        actor.closed[g..].rotate_left(1);
        actor.closed[15] = 0;
        for e in (0..POOL).rev() {
            if actor.pool.entries[e].sender == gone {
                drop_entry(actor, e);
            }
        }
        for entry in &mut actor.pool.entries {
            entry.sender = down(entry.sender, gone);
        }
    }
    short
}
