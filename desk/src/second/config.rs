//! A configuration: what each subject is doing and what waits in its pool.

use super::types::*;

pub const ASLEEP: u8 = 0;
pub const RUNNING: u8 = 1;
pub const ENDED: u8 = 2;
pub const ENDED_IMPROPERLY: u8 = 3;

/// Bytes of one subject and of a whole configuration in the flat layout.
pub const ACTOR_BYTES: usize = 187;
pub const CONFIG_BYTES: usize = 16 * ACTOR_BYTES;

/// Where the byte stands that says whether entry e of subject s is a message (1) or a reservation (0).
pub fn message_at(s: usize, e: usize) -> usize {
    s * ACTOR_BYTES + 75 + e * 7 + 2
}

/// One entry of a pool: a message, or a reservation with content 0.
#[derive(Clone, Copy, Debug, Default, PartialEq, Eq, Hash)]
pub struct Entry {
    pub sender: u8,
    pub typ: u8,
    pub message: bool,
    pub content: u32,
}

/// Entries in order of arrival; those from `count` on are unused.
#[derive(Clone, Copy, Debug, Default, PartialEq, Eq, Hash)]
pub struct Pool {
    pub count: u8,
    pub entries: [Entry; POOL],
}

/// What one subject is doing.
#[derive(Clone, Copy, Debug, Default, PartialEq, Eq, Hash)]
pub struct Actor {
    pub mode: u8,
    pub state: u8,
    pub waited: u16,
    pub word: u32,
    pub mask: u16,
    pub closed: [u32; 16],
    pub pool: Pool,
}

/// What all sixteen subjects are doing.
#[derive(Clone, Copy, Debug, Default, PartialEq, Eq, Hash)]
pub struct Config {
    pub subjects: [Actor; 16],
}

impl Pool {
    /// The entries in use.
    pub fn used(&self) -> &[Entry] {
        &self.entries[..usize::from(self.count).min(POOL)]
    }

    /// How many entries, reservations included, match a named sender and type.
    pub fn matching(&self, sender: u8, typ: u8) -> usize {
        let matches = |e: &&Entry| covers(sender, e.sender) && covers(typ, e.typ);
        self.used().iter().filter(matches).count()
    }

    /// Whether a message is among the entries; the search stops at the first.
    pub fn holds_message(&self) -> bool {
        self.used().iter().any(|e| e.message)
    }

    /// Puts an entry at the end; the caller knows there is room.
    pub fn push(&mut self, entry: Entry) {
        self.entries[usize::from(self.count)] = entry;
        self.count += 1;
    }

    /// Removes one entry; later ones move up.
    pub fn remove(&mut self, index: usize) -> Entry {
        let gone = self.entries[index];
        let used = usize::from(self.count);
        self.entries.copy_within(index + 1..used, index);
        self.entries[used - 1] = Entry::default();
        self.count -= 1;
        gone
    }

    /// Where the reservation of this sender stands.
    pub fn reservation_of(&self, sender: u8) -> Option<usize> {
        let is_it = |e: &Entry| !e.message && e.sender == sender;
        self.used().iter().position(is_it)
    }
}

/// The bit of a subject in a mask.
pub fn bit(subject: usize) -> u16 {
    1 << subject
}

/// Refusal (0 or 8) and the fresh start; all zero where the model is not valid.
pub fn fresh(model: &Model) -> (u8, Config) {
    let mut config = Config::default();
    if !model_valid(model) {
        return (8, config);
    }
    for (i, subject) in model.subjects.iter().enumerate() {
        let starts = model.start & bit(i) != 0;
        config.subjects[i].mode = if starts { RUNNING } else { ASLEEP };
        config.subjects[i].state = subject.initial;
    }
    (0, config)
}

/// Whether the configuration is valid for the model.
pub fn config_valid(model: &Model, config: &Config) -> bool {
    let n = model.n();
    n <= MOST_SUBJECTS
        && config.subjects[n..].iter().all(|a| *a == Actor::default())
        && model
            .subjects
            .iter()
            .zip(&config.subjects)
            .all(|(s, a)| actor_valid(s, a, n) && pool_valid(s, &a.pool, n))
        && places_agree(model, config)
}

/// Whether mode, state, wait, word, mask and marks of one subject fit together; who ended improperly holds a message.
fn actor_valid(subject: &Subject, actor: &Actor, n: usize) -> bool {
    let Some(state) = subject.states.get(usize::from(actor.state)) else {
        return false;
    };
    let running = actor.mode == RUNNING;
    let at_end = state.kind == END;
    let mode_fits = match actor.mode {
        ASLEEP => actor.state == subject.initial && actor.word == 0,
        RUNNING => !at_end,
        ENDED => at_end,
        ENDED_IMPROPERLY => at_end && actor.pool.holds_message(),
        _ => false,
    };
    let may_hold = if running { state.receivers } else { 0 };
    mode_fits
        && (running || actor.waited == 0)
        && actor.mask & !may_hold == 0
        && actor.closed[n..].iter().all(|c| *c == 0)
}

/// Whether the entries are well formed and every limit row is kept.
fn pool_valid(owner: &Subject, pool: &Pool, n: usize) -> bool {
    let entry_fits =
        |e: &Entry| usize::from(e.sender) < n && e.typ < TYPES && (e.message || e.content == 0);
    usize::from(pool.count) <= POOL
        && pool.used().iter().all(entry_fits)
        && pool.entries[usize::from(pool.count)..]
            .iter()
            .all(|e| *e == Entry::default())
        && owner
            .limits
            .iter()
            .all(|l| pool.matching(l.sender, l.typ) <= usize::from(l.limit))
}

/// Whether masks and reservations say the same: one reservation for each bit, of the send's type.
fn places_agree(model: &Model, config: &Config) -> bool {
    (0..model.n()).all(|r| {
        let Some(senders) = senders_with_a_place(model, config, r) else {
            return false;
        };
        (0..model.n()).all(|s| {
            let in_mask = config.subjects[s].mask & bit(r) != 0;
            in_mask == (senders & bit(s) != 0)
        })
    })
}

/// The senders with a reservation in r's pool; none where one has two or of the wrong type.
fn senders_with_a_place(model: &Model, config: &Config, r: usize) -> Option<u16> {
    let mut senders = 0;
    for entry in config.subjects[r].pool.used() {
        if entry.message {
            continue;
        }
        let s = usize::from(entry.sender);
        if senders & bit(s) != 0 || sent_type(model, config, s) != Some(entry.typ) {
            return None;
        }
        senders |= bit(s);
    }
    Some(senders)
}

/// The type that subject s is sending, if its state is a send.
fn sent_type(model: &Model, config: &Config, s: usize) -> Option<u8> {
    let at = usize::from(config.subjects[s].state);
    let state = model.subjects.get(s)?.states.get(at)?;
    let exit = state.exits.first()?;
    (state.kind == SEND).then_some(exit.typ)
}

impl Config {
    /// The flat layout of the configuration.
    pub fn to_bytes(self) -> [u8; CONFIG_BYTES] {
        let mut bytes = [0; CONFIG_BYTES];
        for (actor, part) in self
            .subjects
            .iter()
            .zip(bytes.chunks_exact_mut(ACTOR_BYTES))
        {
            actor.write(part);
        }
        bytes
    }

    /// The configuration of bytes in the flat layout; none where they are too few, or where a byte that says message or
    /// reservation is neither 0 nor 1.
    pub fn from_bytes(bytes: &[u8]) -> Option<Config> {
        let mut config = Config::default();
        let parts = bytes.get(..CONFIG_BYTES)?.chunks_exact(ACTOR_BYTES);
        for (actor, part) in config.subjects.iter_mut().zip(parts) {
            *actor = Actor::read(part)?;
        }
        Some(config)
    }
}

impl Actor {
    /// Writes the 187 bytes of one subject.
    fn write(&self, part: &mut [u8]) {
        part[0] = self.mode;
        part[1] = self.state;
        part[2..4].copy_from_slice(&self.waited.to_le_bytes());
        part[4..8].copy_from_slice(&self.word.to_le_bytes());
        part[8..10].copy_from_slice(&self.mask.to_le_bytes());
        for (mark, place) in self.closed.iter().zip(part[10..74].chunks_exact_mut(4)) {
            place.copy_from_slice(&mark.to_le_bytes());
        }
        part[74] = self.pool.count;
        for (entry, place) in self.pool.entries.iter().zip(part[75..].chunks_exact_mut(7)) {
            place[0] = entry.sender;
            place[1] = entry.typ;
            place[2] = u8::from(entry.message);
            place[3..].copy_from_slice(&entry.content.to_le_bytes());
        }
    }

    /// Reads the 187 bytes of one subject; none where an entry is neither a message nor a reservation.
    fn read(part: &[u8]) -> Option<Actor> {
        let mut actor = Actor {
            mode: part[0],
            state: part[1],
            waited: u16::from_le_bytes([part[2], part[3]]),
            word: number(&part[4..8]),
            mask: u16::from_le_bytes([part[8], part[9]]),
            ..Actor::default()
        };
        for (mark, place) in actor.closed.iter_mut().zip(part[10..74].chunks_exact(4)) {
            *mark = number(place);
        }
        actor.pool.count = part[74];
        for (entry, place) in actor
            .pool
            .entries
            .iter_mut()
            .zip(part[75..].chunks_exact(7))
        {
            *entry = Entry {
                sender: place[0],
                typ: place[1],
                message: match place[2] {
                    0 => false,
                    1 => true,
                    _ => return None,
                },
                content: number(&place[3..]),
            };
        }
        Some(actor)
    }
}

/// Four bytes, low first.
fn number(b: &[u8]) -> u32 {
    u32::from_le_bytes([b[0], b[1], b[2], b[3]])
}
