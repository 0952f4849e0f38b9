//! Random models, tapes, configurations and damaged files from a small generator of its own.

use crate::second::*;

/// A xorshift generator; the same seed gives the same numbers.
pub struct Rng(u64);

impl Rng {
    pub fn new(seed: u64) -> Rng {
        let mixed = seed.wrapping_add(1).wrapping_mul(0x9e37_79b9_7f4a_7c15);
        Rng(if mixed == 0 { 1 } else { mixed })
    }

    /// The next 64 bits.
    pub fn bits(&mut self) -> u64 {
        self.0 ^= self.0 << 13;
        self.0 ^= self.0 >> 7;
        self.0 ^= self.0 << 17;
        self.0.wrapping_mul(0x2545_f491_4f6c_dd1d)
    }

    /// A number below `n`; 0 where n is 0.
    pub fn below(&mut self, n: usize) -> usize {
        ((self.bits() >> 32) as usize * n) >> 32
    }

    /// A number from `least` to `most`, both included.
    pub fn between(&mut self, least: usize, most: usize) -> usize {
        least + self.below(most - least + 1)
    }

    /// True this often in a hundred.
    pub fn chance(&mut self, percent: usize) -> bool {
        self.below(100) < percent
    }

    /// One of the list.
    pub fn pick<T: Copy>(&mut self, list: &[T]) -> T {
        list[self.below(list.len())]
    }

    /// A word: mostly small, sometimes any.
    pub fn word(&mut self) -> u32 {
        match self.below(4) {
            0 => self.bits() as u32,
            1 => self.pick(&[0, 1, u32::MAX, 1 << 31]),
            _ => self.below(100) as u32,
        }
    }
}

/// Who sends which type to whom.
#[derive(Clone, Copy)]
struct Channel {
    sender: u8,
    typ: u8,
    receiver: u8,
}

/// A random valid model; receives mostly wait for what is sent to them.
pub fn random_model(rng: &mut Rng) -> Model {
    let huge = rng.chance(1);
    let n = if huge { 16 } else { random_n(rng) };
    let types = random_types(rng);
    let mut model = Model::default();
    for _ in 0..n {
        let count = if huge { 32 } else { random_count(rng) };
        model.subjects.push(random_kinds(rng, count));
    }
    let channels = fill_sends(rng, &mut model, &types);
    for s in 0..n {
        add_receive(rng, &mut model, s, &channels);
        fill_states(rng, &mut model, s, huge, &channels, &types);
        model.subjects[s].limits = random_limits(rng, s, n, huge, &channels, &types);
    }
    trim_exits(&mut model);
    model.start = random_start(rng, n);
    model
}

fn random_n(rng: &mut Rng) -> usize {
    match rng.below(100) {
        0..=9 => 1,
        10..=79 => rng.between(2, 4),
        80..=94 => rng.between(5, 8),
        95..=97 => rng.between(9, 15),
        _ => 16,
    }
}

fn random_count(rng: &mut Rng) -> usize {
    match rng.below(100) {
        0..=4 => 1,
        5..=79 => rng.between(2, 6),
        80..=97 => rng.between(7, 12),
        _ => rng.between(13, 32),
    }
}

/// A few types, mostly small numbers.
fn random_types(rng: &mut Rng) -> Vec<u8> {
    let most = rng.pick(&[4, 4, 32]);
    let count = rng.between(1, 3);
    (0..count).map(|_| rng.below(most) as u8).collect()
}

/// A start mask that names somebody.
fn random_start(rng: &mut Rng, n: usize) -> u16 {
    let mut start = bit(rng.below(n));
    for s in 0..n {
        if rng.chance(75) {
            start |= bit(s);
        }
    }
    start
}

/// A subject whose states have kinds but no exits yet.
fn random_kinds(rng: &mut Rng, count: usize) -> Subject {
    let initial = if rng.chance(70) { 0 } else { rng.below(count) };
    let mut states: Vec<State> = (0..count).map(|_| State::plain(random_kind(rng))).collect();
    if count > 1 && rng.chance(70) {
        let last = count - 1;
        states[last].kind = END;
    }
    if states[initial].kind == END {
        states[initial].kind = rng.pick(&[INTERNAL, SEND, RECEIVE]);
    }
    Subject {
        initial: initial as u8,
        states,
        limits: Vec::new(),
    }
}

fn random_kind(rng: &mut Rng) -> u8 {
    match rng.below(100) {
        0..=19 => INTERNAL,
        20..=51 => SEND,
        52..=83 => RECEIVE,
        84..=86 => CLOSE,
        87..=90 => OPEN,
        91..=94 => ASK_EMPTY,
        _ => END,
    }
}

/// Gives every send its receivers, type and target, and lists who sends what to whom.
fn fill_sends(rng: &mut Rng, model: &mut Model, types: &[u8]) -> Vec<Channel> {
    let n = model.n();
    let mut channels = Vec::new();
    for s in 0..n {
        for t in 0..model.subjects[s].states.len() {
            if model.subjects[s].states[t].kind != SEND {
                continue;
            }
            let receivers = random_receivers(rng, s, n);
            let typ = rng.pick(types);
            let exit = Exit {
                target: random_target(rng, &model.subjects[s]),
                sender: ANY,
                typ,
            };
            let state = &mut model.subjects[s].states[t];
            state.receivers = receivers;
            state.exits.push(exit);
            let named = (0..n).filter(|r| receivers & bit(*r) != 0);
            channels.extend(named.map(|r| Channel {
                sender: s as u8,
                typ,
                receiver: r as u8,
            }));
        }
    }
    channels
}

/// Mostly one or two receivers, seldom the sender itself.
fn random_receivers(rng: &mut Rng, sender: usize, n: usize) -> u16 {
    let mut mask = 0;
    let count = rng.pick(&[1, 1, 1, 2, 2, 3, n]);
    for _ in 0..count {
        let r = rng.below(n);
        if r != sender || rng.chance(25) {
            mask |= bit(r);
        }
    }
    if mask == 0 {
        mask = bit((sender + 1) % n);
    }
    mask
}

/// A target, mostly not an end.
fn random_target(rng: &mut Rng, subject: &Subject) -> u8 {
    let mut target = rng.below(subject.states.len());
    for _ in 0..2 {
        if subject.states[target].kind == END && rng.chance(75) {
            target = rng.below(subject.states.len());
        }
    }
    target as u8
}

/// What is sent to this subject.
fn sent_to(channels: &[Channel], receiver: usize) -> Vec<Channel> {
    let mine = |c: &Channel| usize::from(c.receiver) == receiver;
    channels.iter().copied().filter(mine).collect()
}

/// Mostly gives a subject that is sent something a state to receive it in.
fn add_receive(rng: &mut Rng, model: &mut Model, s: usize, channels: &[Channel]) {
    let states = &mut model.subjects[s].states;
    let receives = states.iter().any(|t| t.kind == RECEIVE);
    if receives || sent_to(channels, s).is_empty() || rng.chance(20) {
        return;
    }
    if let Some(state) = states.iter_mut().find(|t| t.kind != SEND) {
        state.kind = RECEIVE;
    }
}

/// Gives the states of a subject their exits, timeouts and cancel targets.
fn fill_states(
    rng: &mut Rng,
    model: &mut Model,
    s: usize,
    huge: bool,
    channels: &[Channel],
    types: &[u8],
) {
    let n = model.n();
    let mine = sent_to(channels, s);
    for t in 0..model.subjects[s].states.len() {
        let subject = &model.subjects[s];
        let mut state = subject.states[t].clone();
        for _ in 0..missing_exits(rng, &state, huge) {
            let (sender, typ) = match state.kind {
                RECEIVE => random_source(rng, &mine, n, types),
                _ => (ANY, ANY),
            };
            let target = random_target(rng, subject);
            state.exits.push(Exit {
                target,
                sender,
                typ,
            });
        }
        if matches!(state.kind, CLOSE | OPEN | ASK_EMPTY) {
            let (sender, typ) = random_source(rng, &mine, n, types);
            state.sender = if rng.chance(50) { ANY } else { sender };
            state.typ = if rng.chance(50) { ANY } else { typ };
        }
        if matches!(state.kind, INTERNAL | SEND | RECEIVE) {
            random_leave(rng, subject, &mut state);
        }
        model.subjects[s].states[t] = state;
    }
}

/// How many exits the state still gets.
fn missing_exits(rng: &mut Rng, state: &State, huge: bool) -> usize {
    let most = if huge || rng.chance(10) { 8 } else { 3 };
    match state.kind {
        INTERNAL | RECEIVE => rng.between(1, most),
        CLOSE | OPEN => 1,
        ASK_EMPTY => 2,
        _ => 0,
    }
}

/// A sender and type, mostly of something that is really sent here.
fn random_source(rng: &mut Rng, mine: &[Channel], n: usize, types: &[u8]) -> (u8, u8) {
    if mine.is_empty() || rng.chance(10) {
        return (rng.below(n) as u8, rng.pick(types));
    }
    let channel = rng.pick(mine);
    (channel.sender, channel.typ)
}

/// A timeout and a cancel target for some states.
fn random_leave(rng: &mut Rng, subject: &Subject, state: &mut State) {
    if rng.chance(70) {
        state.timeout = random_target(rng, subject);
        state.duration = match rng.below(20) {
            0 => rng.between(1, 65_535) as u16,
            _ => rng.between(1, 3) as u16,
        };
    }
    if rng.chance(35) {
        state.cancel = rng.below(subject.states.len()) as u8;
    }
}

/// Limit rows for an owner, mostly low and about what is really sent there.
fn random_limits(
    rng: &mut Rng,
    owner: usize,
    n: usize,
    huge: bool,
    channels: &[Channel],
    types: &[u8],
) -> Vec<Limit> {
    let mine = sent_to(channels, owner);
    if !huge && rng.chance(20) {
        return random_shares(rng, n, &mine);
    }
    let wanted = match rng.below(10) {
        _ if huge => 8,
        0..=4 => 0,
        5..=8 => rng.between(1, 3),
        _ => rng.between(4, 8),
    };
    let mut limits: Vec<Limit> = Vec::new();
    for _ in 0..wanted * 4 {
        if limits.len() == wanted {
            break;
        }
        let (sender, typ) = random_source(rng, &mine, n, types);
        let row = Limit {
            sender: if rng.chance(25) { ANY } else { sender },
            typ: if rng.chance(50) { ANY } else { typ },
            limit: rng.pick(&[1, 1, 2, 3, 5, 16]),
        };
        if !limits
            .iter()
            .any(|l| (l.sender, l.typ) == (row.sender, row.typ))
        {
            limits.push(row);
        }
    }
    limits.sort_by_key(|l| (l.sender, l.typ));
    limits
}

/// Limit rows that share a pool out among its senders, or nearly so.
fn random_shares(rng: &mut Rng, n: usize, mine: &[Channel]) -> Vec<Limit> {
    let mut senders: Vec<u8> = mine.iter().map(|c| c.sender).collect();
    if rng.chance(20) {
        senders.push(rng.below(n) as u8);
    }
    senders.sort();
    senders.dedup();
    if senders.len() > MOST_ROWS || rng.chance(10) {
        senders.truncate(rng.below(MOST_ROWS));
    }
    let share = POOL / senders.len().max(1);
    let mut limits: Vec<Limit> = Vec::new();
    for sender in senders {
        let limit = rng.pick(&[1, share, share, share + 1]).clamp(1, POOL) as u8;
        let typ = ANY;
        limits.push(Limit { sender, typ, limit });
    }
    if let (true, Some(last)) = (rng.chance(10), limits.last_mut()) {
        match rng.chance(50) {
            true => last.sender = ANY,
            false => last.typ = rng.below(4) as u8,
        }
    }
    limits
}

/// Drops exits where there are more than 1,024.
fn trim_exits(model: &mut Model) {
    let mut extra = model.exits().saturating_sub(MOST_EXITS);
    let states = model.subjects.iter_mut().flat_map(|s| &mut s.states);
    for state in states.filter(|s| matches!(s.kind, INTERNAL | RECEIVE)) {
        while extra > 0 && state.exits.len() > 1 {
            state.exits.pop();
            extra -= 1;
        }
    }
}

/// A tape of `len` commands from the fresh start, most of which fit where the model stands by then.
pub fn random_tape(rng: &mut Rng, model: &Model, len: usize) -> Vec<u8> {
    let mut config = fresh(model).1;
    let mut tape = Vec::with_capacity(len * 8);
    for _ in 0..len {
        let bytes = random_command(rng, model, &config);
        if let (_, Some(command)) = decode(bytes) {
            step_valid(model, &mut config, command);
        }
        tape.extend(bytes);
    }
    tape
}

/// A configuration that some tape reaches.
pub fn random_config(rng: &mut Rng, model: &Model) -> Config {
    let mut config = fresh(model).1;
    for _ in 0..rng.below(60) {
        if let (_, Some(command)) = decode(random_command(rng, model, &config)) {
            step_valid(model, &mut config, command);
        }
    }
    config
}

/// Eight bytes: mostly a command that fits, else a tick, a near miss, or noise.
pub fn random_command(rng: &mut Rng, model: &Model, config: &Config) -> [u8; 8] {
    let mut bytes = match rng.below(100) {
        0..=71 => fitting_command(rng, model, config).encode(),
        72..=81 => Command::Tick.encode(),
        82..=95 => near_miss(rng, model),
        _ => noise(rng),
    };
    if rng.chance(5) {
        bytes[3] = rng.below(256) as u8;
        let (_, command) = decode(bytes);
        if !matches!(command, Some(Command::Do { .. })) {
            bytes[4..].copy_from_slice(&rng.word().to_le_bytes());
        }
    }
    bytes
}

/// A command for somebody who runs, of the kind its state asks for.
fn fitting_command(rng: &mut Rng, model: &Model, config: &Config) -> Command {
    let running = |s: &u8| config.subjects[usize::from(*s)].mode == RUNNING;
    let runners: Vec<u8> = (0..model.n() as u8).filter(running).collect();
    if runners.is_empty() {
        return Command::Tick;
    }
    if let Some(command) = ending_command(rng, model, config, &runners) {
        return command;
    }
    for _ in 0..6 {
        let subject = rng.pick(&runners);
        let command = command_for(rng, model, config, subject);
        let mut tried = *config;
        let answer = step_valid(model, &mut tried, command);
        let seldom = matches!(answer, Answer::Refused(17 | 20));
        if tried != *config || seldom || rng.chance(8) {
            return command;
        }
    }
    Command::Tick
}

/// A command that ends one of those who run while a reservation waits in its pool, where a few tries find one.
fn ending_command(
    rng: &mut Rng,
    model: &Model,
    config: &Config,
    runners: &[u8],
) -> Option<Command> {
    let mut reserved = runners.to_vec();
    reserved.retain(|s| {
        let pool = &config.subjects[usize::from(*s)].pool;
        pool.used().iter().any(|e| !e.message)
    });
    if reserved.is_empty() {
        return None;
    }
    for _ in 0..4 {
        let subject = rng.pick(&reserved);
        let command = command_for(rng, model, config, subject);
        let mut tried = *config;
        step_valid(model, &mut tried, command);
        if tried.subjects[usize::from(subject)].mode != RUNNING {
            return Some(command);
        }
    }
    None
}

/// A command of the kind that the subject's state asks for.
pub fn command_for(rng: &mut Rng, model: &Model, config: &Config, subject: u8) -> Command {
    let s = usize::from(subject);
    let actor = &config.subjects[s];
    let state = &model.subjects[s].states[usize::from(actor.state)];
    if state.timeout != NONE && rng.chance(20) {
        let due = actor.waited >= state.duration;
        let soon = state.duration < 100 && rng.chance(60);
        return match due || !soon {
            true => Command::Expire { subject },
            false => Command::Tick,
        };
    }
    if state.cancel != NONE && rng.chance(10) {
        return Command::Cancel { subject };
    }
    match state.kind {
        INTERNAL => Command::Do {
            subject,
            exit: rng.below(state.exits.len()) as u8,
            word: rng.word(),
        },
        SEND => {
            let all_placed = actor.mask == state.receivers;
            if rng.chance(if all_placed { 80 } else { 20 }) {
                Command::Deliver { subject }
            } else {
                Command::Reserve { subject }
            }
        }
        RECEIVE => Command::Take {
            subject,
            exit: likely_exit(rng, state, &actor.pool),
        },
        _ => Command::Run { subject },
    }
}

/// An exit of a receive that a message waits for, else any.
fn likely_exit(rng: &mut Rng, state: &State, pool: &Pool) -> u8 {
    let waits = |e: &Exit| {
        let fits = |m: &Entry| m.message && (m.sender, m.typ) == (e.sender, e.typ);
        pool.used().iter().any(fits)
    };
    let ready: Vec<u8> = (0..)
        .zip(&state.exits)
        .filter(|(_, e)| waits(e))
        .map(|(i, _)| i)
        .collect();
    if ready.is_empty() {
        rng.below(state.exits.len()) as u8
    } else {
        rng.pick(&ready)
    }
}

/// Any command for any subject, also one too many, and any exit.
fn near_miss(rng: &mut Rng, model: &Model) -> [u8; 8] {
    let w = rng.word().to_le_bytes();
    let code = rng.between(1, 7) as u8;
    let subject = match rng.below(6) {
        0 => rng.between(model.n(), 17.max(model.n())) as u8,
        _ => rng.below(model.n()) as u8,
    };
    let exit = rng.below(9) as u8;
    let bytes = [code, subject, exit, 0, w[0], w[1], w[2], w[3]];
    match decode(bytes) {
        (_, Some(command)) => command.encode(),
        _ => bytes,
    }
}

/// Eight bytes with a code that is mostly none.
fn noise(rng: &mut Rng) -> [u8; 8] {
    let mut bytes = rng.bits().to_le_bytes();
    bytes[0] = rng.pick(&[0, 9, 255, bytes[0]]);
    if rng.chance(50) {
        bytes[1] %= 16;
    }
    bytes
}

/// The bytes of a configuration with a few of them changed.
pub fn disturbed(rng: &mut Rng, config: &Config) -> [u8; CONFIG_BYTES] {
    let mut bytes = config.to_bytes();
    for _ in 0..rng.between(1, 3) {
        let subject = rng.pick(&[0, 0, 1, 1, 2, 3, rng.0 as usize % 16]);
        let at = match rng.below(3) {
            0 => rng.below(10),
            1 => rng.between(74, 74 + 21),
            _ => rng.below(ACTOR_BYTES),
        };
        let byte = &mut bytes[subject * ACTOR_BYTES + at];
        *byte = rng.pick(&[0, 1, 2, 3, 16, 17, 255, *byte ^ 1, byte.wrapping_add(1)]);
    }
    bytes
}

/// The bytes of a configuration with an entry, mostly one in use, that is neither a message nor a reservation.
pub fn flagged(rng: &mut Rng, config: &Config) -> [u8; CONFIG_BYTES] {
    let mut bytes = config.to_bytes();
    let filled = |s: &usize| config.subjects[*s].pool.count != 0;
    let owners: Vec<usize> = (0..16).filter(filled).collect();
    let (s, most) = if owners.is_empty() || rng.chance(25) {
        (rng.below(16), POOL)
    } else {
        let s = rng.pick(&owners);
        (s, config.subjects[s].pool.used().len())
    };
    bytes[message_at(s, rng.below(most))] = rng.pick(&[2, 3, 4, 127, 128, 254, 255]);
    bytes
}

/// Any bytes at all in the place of a configuration or a model.
pub fn any_bytes<const N: usize>(rng: &mut Rng) -> [u8; N] {
    let most = rng.pick(&[2, 2, 4, 256]);
    std::array::from_fn(|_| rng.below(most) as u8)
}

/// A model file with a few bytes changed, the checks mostly made right again.
pub fn damaged(rng: &mut Rng, file: &[u8]) -> Vec<u8> {
    let mut file = file.to_vec();
    for _ in 0..rng.pick(&[1, 1, 1, 2, 4]) {
        let block = rng.below(file.len() / BLOCK) * BLOCK;
        let used = usize::from(file[block + 3]).min(RECORDS);
        let at = match rng.below(12) {
            0 => rng.below(4),
            1 => rng.below(BLOCK),
            _ => 4 + rng.below(used.max(1) * RECORD),
        };
        let byte = &mut file[block + at];
        let near = [byte.wrapping_add(1), byte.wrapping_sub(1), *byte ^ 16];
        let far = [0, 1, 7, 8, 16, 17, 31, 32, 33, 254, 255];
        *byte = if rng.chance(50) {
            rng.pick(&near)
        } else {
            rng.pick(&far)
        };
    }
    if rng.chance(5) {
        let cut = rng.below(file.len() + 1);
        file.truncate(if rng.chance(50) {
            cut
        } else {
            cut / BLOCK * BLOCK
        });
    }
    if rng.chance(95) {
        for block in file.chunks_exact_mut(BLOCK) {
            let sum = check(&block[..508]).to_le_bytes();
            block[508..].copy_from_slice(&sum);
        }
    }
    file
}

/// A configuration put together from nothing, mostly valid; also ones that no tape reaches.
pub fn arranged(rng: &mut Rng, model: &Model) -> Config {
    let mut config = Config::default();
    let types = types_sent(model);
    for (s, subject) in model.subjects.iter().enumerate() {
        config.subjects[s] = arranged_actor(rng, subject, model.n());
        arrange_messages(rng, model, &mut config, s, &types);
    }
    for s in 0..model.n() {
        arrange_places(rng, model, &mut config, s);
    }
    config
}

/// Sender, type and receiver of every send.
fn types_sent(model: &Model) -> Vec<Channel> {
    let mut channels = Vec::new();
    for (s, subject) in model.subjects.iter().enumerate() {
        for state in subject.states.iter().filter(|t| t.kind == SEND) {
            let named = (0..model.n()).filter(|r| state.receivers & bit(*r) != 0);
            channels.extend(named.map(|r| Channel {
                sender: s as u8,
                typ: state.exits[0].typ,
                receiver: r as u8,
            }));
        }
    }
    channels
}

/// A subject that sleeps, runs or has ended, with any word, wait and marks that fit.
fn arranged_actor(rng: &mut Rng, subject: &Subject, n: usize) -> Actor {
    let mut actor = Actor::default();
    let state = rng.below(subject.states.len());
    actor.state = state as u8;
    if subject.states[state].kind == END {
        actor.mode = rng.pick(&[ENDED, ENDED_IMPROPERLY]);
    } else if rng.chance(12) {
        actor.state = subject.initial;
    } else {
        let duration = subject.states[state].duration;
        actor.mode = RUNNING;
        actor.waited = rng.pick(&[
            0,
            duration,
            duration,
            duration.saturating_sub(1),
            65_534,
            65_535,
        ]);
    }
    if actor.mode != ASLEEP {
        actor.word = rng.word();
    }
    if rng.chance(25) {
        for mark in &mut actor.closed[..n] {
            *mark = rng.pick(&[0, 1, 15, rng.0 as u32, u32::MAX]);
        }
    }
    actor
}

/// Puts messages into a pool, mostly of what is sent there and mostly as many as fit; at least one where its owner ended
/// improperly.
fn arrange_messages(
    rng: &mut Rng,
    model: &Model,
    config: &mut Config,
    owner: usize,
    sent: &[Channel],
) {
    let mine = sent_to(sent, owner);
    let improper = config.subjects[owner].mode == ENDED_IMPROPERLY;
    let wanted = match rng.below(4) {
        0 => 0,
        1 => rng.between(1, 3),
        _ => rng.between(0, POOL),
    };
    for _ in 0..wanted.max(usize::from(improper)) {
        let (sender, typ) = random_source(rng, &mine, model.n(), &[0, 1, 2, 31]);
        let pool = &mut config.subjects[owner].pool;
        if has_room(&model.subjects[owner], pool, sender, typ) {
            pool.push(Entry {
                sender,
                typ,
                message: true,
                content: rng.word(),
            });
        }
    }
}

/// Gives a subject that runs in a send some of its places, anywhere in the line.
fn arrange_places(rng: &mut Rng, model: &Model, config: &mut Config, s: usize) {
    let actor = config.subjects[s];
    let state = &model.subjects[s].states[usize::from(actor.state)];
    if actor.mode != RUNNING || state.kind != SEND {
        return;
    }
    let often = rng.pick(&[0, 50, 100, 100]);
    let (sender, typ) = (s as u8, state.exits[0].typ);
    for r in (0..model.n()).filter(|r| state.receivers & bit(*r) != 0) {
        let pool = &mut config.subjects[r].pool;
        if !rng.chance(often) || !has_room(&model.subjects[r], pool, sender, typ) {
            continue;
        }
        pool.push(Entry {
            sender,
            typ,
            message: false,
            content: 0,
        });
        let at = rng.below(usize::from(pool.count));
        pool.entries[at..usize::from(pool.count)].rotate_right(1);
        config.subjects[s].mask |= bit(r);
    }
}

/// A model with one thing changed, mostly to something not valid.
pub fn changed(rng: &mut Rng, model: &Model) -> Model {
    let mut model = model.clone();
    let values = [0, 1, 2, 7, 8, 16, 17, 31, 32, 254, 255];
    let value = rng.pick(&values);
    let s = rng.below(model.n());
    let n = model.n();
    let subject = &mut model.subjects[s];
    let t = rng.below(subject.states.len());
    let state = &mut subject.states[t];
    match rng.below(16) {
        0 => subject.initial = value,
        1 => state.kind = rng.below(9) as u8,
        2 => state.sender = value,
        3 => state.typ = value,
        4 => state.duration = u16::from(value),
        5 => state.timeout = value,
        6 => state.cancel = value,
        7 => state.receivers = rng.pick(&[0, 1, 1 << (n - 1), 1 << (n % 16)]),
        8 => drop(state.exits.pop()),
        9 => state.exits.extend(state.exits.first().copied()),
        10 => drop(subject.states.pop()),
        11 => model.start = rng.pick(&[0, 1, u16::MAX]),
        12 => drop(model.subjects.pop()),
        13 => subject.limits.push(Limit {
            sender: rng.pick(&[0, 15, 16, ANY]),
            typ: rng.pick(&values),
            limit: rng.pick(&values),
        }),
        _ => change_exit(rng, state, value),
    }
    model
}

/// Changes one field of one exit, if the state has one.
fn change_exit(rng: &mut Rng, state: &mut State, value: u8) {
    let e = rng.below(state.exits.len());
    if let Some(exit) = state.exits.get_mut(e) {
        match rng.below(3) {
            0 => exit.target = value,
            1 => exit.sender = value,
            _ => exit.typ = value,
        }
    }
}

/// A model with one thing changed to something else that mostly fits.
pub fn retouched(rng: &mut Rng, model: &Model) -> Model {
    let mut model = model.clone();
    let n = model.n();
    let s = rng.below(n);
    let subject = &mut model.subjects[s];
    match rng.below(10) {
        0 => model.start = random_start(rng, n),
        1 => subject.initial = random_target(rng, subject),
        2 | 3 => retouch_rows(rng, &mut subject.limits),
        4 if subject.states.len() < MOST_STATES => {
            let t = rng.below(subject.states.len());
            subject.states.push(subject.states[t].clone());
        }
        _ => retouch_state(rng, subject, s, n),
    }
    model
}

/// Changes the limit of a row, drops a row, or gives an owner without rows one.
fn retouch_rows(rng: &mut Rng, limits: &mut Vec<Limit>) {
    let i = rng.below(limits.len());
    match limits.get_mut(i) {
        None => limits.extend(many_rows(1)),
        Some(row) if rng.chance(75) => row.limit = rng.between(1, POOL) as u8,
        Some(_) => drop(limits.remove(i)),
    }
}

/// Changes a target, a type, the receivers, the timeout or the cancel target of a state, or gives it one more exit.
fn retouch_state(rng: &mut Rng, subject: &mut Subject, s: usize, n: usize) {
    let t = rng.below(subject.states.len());
    let target = random_target(rng, subject);
    let mut state = subject.states[t].clone();
    let e = rng.below(state.exits.len());
    match state.kind {
        END => {}
        SEND if rng.chance(30) => state.receivers = random_receivers(rng, s, n),
        INTERNAL | SEND | RECEIVE if rng.chance(30) => random_leave(rng, subject, &mut state),
        INTERNAL | RECEIVE if rng.chance(30) => state.exits.push(state.exits[e]),
        SEND | RECEIVE if rng.chance(40) => state.exits[e].typ = rng.below(32) as u8,
        _ => state.exits[e].target = target,
    }
    subject.states[t] = state;
}

/// The bytes of a configuration with one entry of a pool doubled, dropped or changed, mostly a reservation.
pub fn twisted(rng: &mut Rng, config: &Config) -> [u8; CONFIG_BYTES] {
    let mut config = *config;
    let filled = |s: &usize| config.subjects[*s].pool.count != 0;
    let owners: Vec<usize> = (0..16).filter(filled).collect();
    if owners.is_empty() {
        return disturbed(rng, &config);
    }
    let pool = &mut config.subjects[rng.pick(&owners)].pool;
    let reserved = pool.used().iter().position(|e| !e.message);
    let at = match reserved {
        Some(at) if rng.chance(80) => at,
        _ => rng.below(pool.used().len()),
    };
    let entry = &mut pool.entries[at];
    match rng.below(5) {
        0 => entry.typ = rng.pick(&[0, 1, 2, 3, 31, 32]),
        1 => entry.sender = rng.below(17) as u8,
        2 => entry.message = !entry.message,
        3 => drop(pool.remove(at)),
        _ if usize::from(pool.count) < POOL => pool.push(pool.entries[at]),
        _ => pool.entries[at].content = rng.word(),
    }
    config.to_bytes()
}

/// A configuration in which somebody has ended improperly but holds no message, all else as it may be; none where no subject
/// has an end.
pub fn hollow(rng: &mut Rng, model: &Model, config: &Config) -> Option<Config> {
    let (s, end) = random_end(rng, model)?;
    let mut config = *config;
    for actor in &mut config.subjects {
        keep_only(&mut actor.pool, |e| e.message || e.sender != s);
    }
    let actor = &mut config.subjects[usize::from(s)];
    keep_only(&mut actor.pool, |e| !e.message);
    actor.mode = ENDED_IMPROPERLY;
    actor.state = end;
    actor.waited = 0;
    actor.mask = 0;
    Some(config)
}

/// A subject and one of its ends; none where there is none.
fn random_end(rng: &mut Rng, model: &Model) -> Option<(u8, u8)> {
    let mut ends = Vec::new();
    for (s, subject) in (0..).zip(&model.subjects) {
        let states = (0..).zip(&subject.states);
        ends.extend(states.filter(|(_, t)| t.kind == END).map(|(t, _)| (s, t)));
    }
    (!ends.is_empty()).then(|| rng.pick(&ends))
}

/// Removes the entries of a pool that do not fit; later ones move up.
fn keep_only(pool: &mut Pool, fits: impl Fn(&Entry) -> bool) {
    while let Some(at) = pool.used().iter().position(|e| !fits(e)) {
        pool.remove(at);
    }
}

/// A model with as much of something as there may be, or one more.
pub fn brimming(rng: &mut Rng, model: &Model) -> Model {
    let mut model = model.clone();
    let more = rng.below(2);
    let s = rng.below(model.n());
    let subject = &mut model.subjects[s];
    let t = rng.below(subject.states.len());
    match rng.below(5) {
        0 => subject.limits = many_rows(MOST_ROWS + more),
        1 => {
            if let Some(first) = subject.states[t].exits.first().copied() {
                subject.states[t].exits = vec![first; 8 + more];
            }
        }
        2 => subject.states.resize(MOST_STATES + more, ringing(1)),
        3 => {
            let last = subject.clone();
            model.subjects.resize(MOST_SUBJECTS + more, last);
        }
        _ => model = fullest(more),
    }
    model
}

/// So many limit rows for any sender.
fn many_rows(count: usize) -> Vec<Limit> {
    let row = |typ: usize| Limit {
        sender: ANY,
        typ: typ as u8,
        limit: 1,
    };
    (0..count).map(row).collect()
}

/// An internal state with so many exits to the first state.
fn ringing(exits: usize) -> State {
    let exit = Exit {
        target: 0,
        sender: ANY,
        typ: ANY,
    };
    State {
        exits: vec![exit; exits],
        ..State::plain(INTERNAL)
    }
}

/// The model with the longest file, 43 blocks: as many subjects, states, exits and rows as there may be, or some exits more.
pub fn fullest(more: usize) -> Model {
    let subject = Subject {
        initial: 0,
        states: vec![ringing(2); MOST_STATES],
        limits: many_rows(MOST_ROWS),
    };
    let mut model = Model {
        start: 1,
        subjects: vec![subject; MOST_SUBJECTS],
    };
    model.subjects[15].states[31] = ringing(2 + more);
    model
}
