//! The loader, its five stages, and the file of a model.

use super::types::*;

pub const BLOCK: usize = 512;
pub const MOST_BLOCKS: usize = 43;
pub const RECORDS: usize = 42;
pub const RECORD: usize = 12;

pub const HEADER_BLOCK: u8 = 1;
pub const STATE_BLOCK: u8 = 2;
pub const EXIT_BLOCK: u8 = 3;
pub const LIMIT_BLOCK: u8 = 4;

/// Why a file was refused: the rules' number and block, and where to look.
#[derive(Clone, Copy, Debug, PartialEq, Eq)]
pub struct Refused {
    pub number: u8,
    pub block: u16,
    pub place: Place,
    pub found: u32,
    pub expected: &'static str,
}

/// A place in the file: the block, the record if it is one, and the byte counted from the file's start.
#[derive(Clone, Copy, Debug, PartialEq, Eq)]
pub struct Place {
    pub block: usize,
    pub record: Option<usize>,
    pub byte: usize,
}

/// A record as it stands in the file, with its place.
#[derive(Clone, Copy)]
struct Record<'a> {
    block: usize,
    index: usize,
    bytes: &'a [u8],
}

/// All records of a file by kind.
struct Records<'a> {
    header: Vec<Record<'a>>,
    states: Vec<Record<'a>>,
    exits: Vec<Record<'a>>,
    limits: Vec<Record<'a>>,
}

/// The model of a file, or why there is none.
pub fn load(file: &[u8]) -> Result<Model, Refused> {
    judge_length(file)?;
    judge_checks(file)?;
    judge_blocks(file)?;
    let records = Records::of(file);
    judge_records(&records)?;
    judge_whole(&records)?;
    Ok(records.model())
}

/// The check of some bytes.
pub fn check(bytes: &[u8]) -> u32 {
    let step = |c: u32, b: &u8| c.wrapping_mul(33).wrapping_add(u32::from(*b));
    bytes.iter().fold(1, step)
}

/// Record i of block b as it stands in the file; empty where block or record is missing.
pub fn record(file: &[u8], b: usize, i: usize) -> &[u8] {
    let start = b.saturating_mul(BLOCK);
    let whole = start
        .checked_add(BLOCK)
        .and_then(|end| file.get(start..end));
    match whole {
        Some(block) if i < RECORDS && i < usize::from(block[3]) => {
            &block[4 + i * RECORD..4 + (i + 1) * RECORD]
        }
        _ => &[],
    }
}

/// A refusal at a byte of a block's own frame.
fn frame(number: u8, block: usize, byte: usize, found: u32, expected: &'static str) -> Refused {
    Refused {
        number,
        block: block as u16,
        place: Place {
            block,
            record: None,
            byte: block * BLOCK + byte,
        },
        found,
        expected,
    }
}

/// Stage 1: 1 to 43 whole blocks.
fn judge_length(file: &[u8]) -> Result<(), Refused> {
    let whole = file.len().is_multiple_of(BLOCK);
    if whole && (1..=MOST_BLOCKS).contains(&(file.len() / BLOCK)) {
        return Ok(());
    }
    let expected = "1 to 43 whole blocks of 512 bytes";
    Err(frame(1, 0, 0, file.len() as u32, expected))
}

/// Stage 2: every check is right.
fn judge_checks(file: &[u8]) -> Result<(), Refused> {
    for (b, block) in file.chunks_exact(BLOCK).enumerate() {
        let stands = check_in(block);
        if stands != check(&block[..508]) {
            let expected = "the check of bytes 0 to 507 of the block";
            return Err(frame(2, b, 508, stands, expected));
        }
    }
    Ok(())
}

/// The check that stands in a block.
pub fn check_in(block: &[u8]) -> u32 {
    u32::from_le_bytes([block[508], block[509], block[510], block[511]])
}

/// Stage 3: every block's number, kind, record count, fullness and unused room.
fn judge_blocks(file: &[u8]) -> Result<(), Refused> {
    for (b, block) in file.chunks_exact(BLOCK).enumerate() {
        let number = u32::from(u16::from_le_bytes([block[0], block[1]]));
        let count = usize::from(block[3]);
        if number != b as u32 {
            let expected = "the block's own number, counted from 0";
            return Err(frame(3, b, 0, number, expected));
        }
        if let Some(expected) = kind_trouble(file, b) {
            return Err(frame(3, b, 2, u32::from(block[2]), expected));
        }
        if !(1..=RECORDS).contains(&count) {
            return Err(frame(3, b, 3, count as u32, "1 to 42 records"));
        }
        if count != RECORDS && !last_of_its_kind(file, b) {
            let expected = "42 records, for another block of this kind follows";
            return Err(frame(3, b, 3, count as u32, expected));
        }
        let unused = 4 + count * RECORD;
        if let Some(at) = block[unused..508].iter().position(|x| *x != 0) {
            let found = u32::from(block[unused + at]);
            let expected = "0 in the room after the last record";
            return Err(frame(3, b, unused + at, found, expected));
        }
    }
    Ok(())
}

/// What the kind of block b should be, where it is wrong.
fn kind_trouble(file: &[u8], b: usize) -> Option<&'static str> {
    let kind = file[b * BLOCK + 2];
    if b == 0 {
        return (kind != HEADER_BLOCK).then_some("kind 1 (header) in block 0");
    }
    if !(STATE_BLOCK..=LIMIT_BLOCK).contains(&kind) {
        return Some("kind 2 (states), 3 (exits) or 4 (limits)");
    }
    let before = file[(b - 1) * BLOCK + 2];
    (kind < before).then_some("a kind not below that of the block before")
}

/// Whether the block after block b is of another kind, or there is none.
fn last_of_its_kind(file: &[u8], b: usize) -> bool {
    let kind = file[b * BLOCK + 2];
    let next = file.chunks_exact(BLOCK).nth(b + 1);
    next.is_none_or(|block| block[2] != kind)
}

impl Record<'_> {
    /// The byte at this place of the record.
    fn at(&self, i: usize) -> u8 {
        self.bytes[i]
    }

    /// The two bytes from this place, low first.
    fn wide(&self, i: usize) -> u16 {
        u16::from_le_bytes([self.bytes[i], self.bytes[i + 1]])
    }

    /// Refuses unless the rule about the byte holds; across records the block given is 0.
    fn rule(
        &self,
        number: u8,
        byte: usize,
        ok: bool,
        expected: &'static str,
    ) -> Result<(), Refused> {
        if ok {
            return Ok(());
        }
        Err(self.refused(number, byte, u32::from(self.at(byte)), expected))
    }

    fn refused(&self, number: u8, byte: usize, found: u32, expected: &'static str) -> Refused {
        Refused {
            number,
            block: if number == 5 { 0 } else { self.block as u16 },
            place: Place {
                block: self.block,
                record: Some(self.index),
                byte: self.block * BLOCK + 4 + self.index * RECORD + byte,
            },
            found,
            expected,
        }
    }

    /// The bytes from this place on are 0.
    fn rest_zero(&self, from: usize) -> Result<(), Refused> {
        match self.bytes[from..].iter().position(|b| *b != 0) {
            Some(at) => self.rule(4, from + at, false, "0 in the bytes not used"),
            None => Ok(()),
        }
    }
}

impl<'a> Records<'a> {
    /// The records of a file whose blocks are right.
    fn of(file: &'a [u8]) -> Records<'a> {
        let mut all = Records {
            header: Vec::new(),
            states: Vec::new(),
            exits: Vec::new(),
            limits: Vec::new(),
        };
        for (block, bytes) in file.chunks_exact(BLOCK).enumerate() {
            let list = match bytes[2] {
                HEADER_BLOCK => &mut all.header,
                STATE_BLOCK => &mut all.states,
                EXIT_BLOCK => &mut all.exits,
                _ => &mut all.limits,
            };
            let count = usize::from(bytes[3]);
            let parts = bytes[4..].chunks_exact(RECORD).take(count).enumerate();
            list.extend(parts.map(|(index, bytes)| Record {
                block,
                index,
                bytes,
            }));
        }
        all
    }

    /// The number of subjects the header gives.
    fn n(&self) -> usize {
        usize::from(self.header[0].at(0))
    }

    /// How many states the header gives a subject, if there is such a subject.
    fn states_of(&self, subject: u8) -> Option<u8> {
        let s = usize::from(subject);
        (s < self.n()).then(|| self.header[s + 1].at(1))
    }

    /// The state record of this subject and state.
    fn state(&self, subject: u8, state: u8) -> Option<&Record<'a>> {
        let key = |r: &Record| (r.at(0), r.at(1));
        let found = self.states.binary_search_by_key(&(subject, state), key);
        found.ok().map(|i| &self.states[i])
    }
}

/// Stage 4: every record by itself, with the one before it and the exit's own state.
fn judge_records(all: &Records) -> Result<(), Refused> {
    judge_header(&all.header)?;
    for (i, r) in all.states.iter().enumerate() {
        judge_order(&all.states, i, 2)?;
        judge_state(r)?;
    }
    for (i, r) in all.exits.iter().enumerate() {
        judge_order(&all.exits, i, 3)?;
        if let Some(state) = all.state(r.at(0), r.at(1)) {
            judge_exit(r, state.at(2))?;
        }
    }
    for (i, r) in all.limits.iter().enumerate() {
        judge_order(&all.limits, i, 3)?;
        judge_limit(r)?;
    }
    Ok(())
}

/// The header: n, the count, the subjects in order, and their sizes.
fn judge_header(header: &[Record]) -> Result<(), Refused> {
    let first = &header[0];
    let n = usize::from(first.at(0));
    first.rule(4, 0, (1..=MOST_SUBJECTS).contains(&n), "1 to 16 subjects")?;
    if header.len() != n + 1 {
        let expected = "one record more than there are subjects";
        return Err(frame(4, 0, 3, header.len() as u32, expected));
    }
    first.rest_zero(3)?;
    for (s, r) in header[1..].iter().enumerate() {
        let in_order = usize::from(r.at(0)) == s;
        r.rule(4, 0, in_order, "the subjects in order from 0")?;
        let size = usize::from(r.at(1));
        r.rule(4, 1, (1..=MOST_STATES).contains(&size), "1 to 32 states")?;
        r.rest_zero(3)?;
    }
    Ok(())
}

/// Record i stands after the one before it by its first bytes.
fn judge_order(list: &[Record], i: usize, key: usize) -> Result<(), Refused> {
    if i == 0 {
        return Ok(());
    }
    let ascending = list[i - 1].bytes[..key] < list[i].bytes[..key];
    let expected = "records strictly ascending by their first fields";
    list[i].rule(4, 0, ascending, expected)
}

/// A state's kind and the fields that go with it.
fn judge_state(r: &Record) -> Result<(), Refused> {
    let kind = r.at(2);
    r.rule(4, 2, (1..=7).contains(&kind), "a state kind from 1 to 7")?;
    let exits_fit = exits_allowed(kind).contains(&usize::from(r.at(3)));
    r.rule(4, 3, exits_fit, exits_in_words(kind))?;
    if matches!(kind, CLOSE | OPEN | ASK_EMPTY) {
        r.rule(
            4,
            5,
            type_or_any(r.at(5)),
            "a type from 0 to 31, or 255 (any)",
        )?;
    } else {
        r.rule(4, 4, r.at(4) == ANY, "255 (this kind uses no sender)")?;
        r.rule(4, 5, r.at(5) == ANY, "255 (this kind uses no type)")?;
    }
    if !matches!(kind, INTERNAL | SEND | RECEIVE) {
        r.rule(4, 8, r.at(8) == NONE, "255 (this kind has no timeout)")?;
        r.rule(
            4,
            9,
            r.at(9) == NONE,
            "255 (this kind has no cancel target)",
        )?;
    }
    let duration = r.wide(6);
    if (duration == 0) != (r.at(8) == NONE) {
        let expected = "a duration of 0 exactly where there is no timeout target";
        return Err(r.refused(4, 6, u32::from(duration), expected));
    }
    let mask = r.wide(10);
    if (mask != 0) != (kind == SEND) {
        let expected = "receivers for a send and only there";
        return Err(r.refused(4, 10, u32::from(mask), expected));
    }
    Ok(())
}

fn exits_in_words(kind: u8) -> &'static str {
    match kind {
        INTERNAL | RECEIVE => "1 to 8 exits for this kind",
        ASK_EMPTY => "2 exits for this kind",
        END => "no exits for this kind",
        _ => "1 exit for this kind",
    }
}

fn type_or_any(typ: u8) -> bool {
    typ == ANY || typ < TYPES
}

/// An exit's fields, which go with the kind of its state.
fn judge_exit(r: &Record, kind: u8) -> Result<(), Refused> {
    let (sender, typ) = (r.at(4), r.at(5));
    match kind {
        RECEIVE => {
            r.rule(4, 4, sender != ANY, "a sender (never any)")?;
            r.rule(4, 5, typ < TYPES, "a type from 0 to 31 (never any)")?;
        }
        SEND => {
            r.rule(4, 4, sender == ANY, "255 (a send's exit has no sender)")?;
            r.rule(4, 5, typ < TYPES, "a type from 0 to 31")?;
        }
        _ => {
            r.rule(4, 4, sender == ANY, "255 (this exit has no sender)")?;
            r.rule(4, 5, typ == ANY, "255 (this exit has no type)")?;
        }
    }
    r.rest_zero(6)
}

/// A limit row's own fields.
fn judge_limit(r: &Record) -> Result<(), Refused> {
    r.rule(
        4,
        2,
        type_or_any(r.at(2)),
        "a type from 0 to 31, or 255 (any)",
    )?;
    r.rule(4, 3, (1..=16).contains(&r.at(3)), "a limit from 1 to 16")?;
    r.rest_zero(4)
}

/// Stage 5: every rule across records.
fn judge_whole(all: &Records) -> Result<(), Refused> {
    judge_start(all)?;
    judge_all_states(all)?;
    judge_all_exits(all)?;
    judge_all_limits(all)
}

/// The start mask, and each subject's states and initial state.
fn judge_start(all: &Records) -> Result<(), Refused> {
    let first = &all.header[0];
    let start = first.wide(1);
    if start == 0 || u32::from(start) >> all.n() != 0 {
        let expected = "at least one starting subject, all of them below the number of subjects";
        return Err(first.refused(5, 1, u32::from(start), expected));
    }
    for r in &all.header[1..] {
        let own = all.states.iter().filter(|s| s.at(0) == r.at(0)).count();
        if own != usize::from(r.at(1)) {
            let expected = "a record for each state the header counts";
            return Err(r.refused(5, 1, own as u32, expected));
        }
        r.rule(5, 2, r.at(2) < r.at(1), "an initial state that exists")?;
        let initial = all.state(r.at(0), r.at(2));
        let is_end = initial.is_some_and(|s| s.at(2) == END);
        r.rule(5, 2, !is_end, "an initial state that is not an end")?;
    }
    Ok(())
}

/// Each state's subject, number, sender, targets and receivers exist.
fn judge_all_states(all: &Records) -> Result<(), Refused> {
    for r in &all.states {
        let count = all.states_of(r.at(0));
        r.rule(5, 0, count.is_some(), "a subject that exists")?;
        let count = count.unwrap_or(0);
        let target = |t: u8| t == NONE || t < count;
        r.rule(5, 1, r.at(1) < count, "a state the header counts")?;
        r.rule(
            5,
            4,
            sender_fits(all, r.at(4)),
            "a sender that exists, or 255 (any)",
        )?;
        r.rule(5, 8, target(r.at(8)), "a timeout target that exists")?;
        r.rule(5, 9, target(r.at(9)), "a cancel target that exists")?;
        if u32::from(r.wide(10)) >> all.n() != 0 {
            let expected = "receivers that exist";
            return Err(r.refused(5, 10, u32::from(r.wide(10)), expected));
        }
    }
    Ok(())
}

fn sender_fits(all: &Records, sender: u8) -> bool {
    sender == ANY || usize::from(sender) < all.n()
}

/// Each exit's state, number, target and sender exist, and no state lacks an exit.
fn judge_all_exits(all: &Records) -> Result<(), Refused> {
    for (i, r) in all.exits.iter().enumerate() {
        r.rule(5, 2, i < MOST_EXITS, "no more than 1,024 exits in all")?;
        let state = all.state(r.at(0), r.at(1));
        r.rule(5, 1, state.is_some(), "a state that exists")?;
        let exits = state.map_or(0, |s| s.at(3));
        r.rule(5, 2, r.at(2) < exits, "an exit the state counts")?;
        let count = all.states_of(r.at(0)).unwrap_or(0);
        r.rule(5, 3, r.at(3) < count, "a target state that exists")?;
        r.rule(5, 4, sender_fits(all, r.at(4)), "a sender that exists")?;
    }
    let key = |r: &Record| (r.at(0), r.at(1));
    for s in &all.states {
        let from = all.exits.partition_point(|e| key(e) < key(s));
        let to = all.exits.partition_point(|e| key(e) <= key(s));
        if to - from != usize::from(s.at(3)) {
            let expected = "a record for each exit the state counts";
            return Err(s.refused(5, 3, (to - from) as u32, expected));
        }
    }
    Ok(())
}

/// Each row's owner and sender exist, and no owner has more than eight rows.
fn judge_all_limits(all: &Records) -> Result<(), Refused> {
    for (i, r) in all.limits.iter().enumerate() {
        let owner = usize::from(r.at(0));
        r.rule(5, 0, owner < all.n(), "an owner that exists")?;
        r.rule(
            5,
            1,
            sender_fits(all, r.at(1)),
            "a sender that exists, or 255 (any)",
        )?;
        let ninth = i >= MOST_ROWS && all.limits[i - MOST_ROWS].at(0) == r.at(0);
        r.rule(5, 0, !ninth, "no more than 8 rows for one owner")?;
    }
    Ok(())
}

impl Records<'_> {
    /// The model of records that meet all rules.
    fn model(&self) -> Model {
        let mut model = Model {
            start: self.header[0].wide(1),
            subjects: Vec::with_capacity(self.n()),
        };
        for r in &self.header[1..] {
            model.subjects.push(Subject {
                initial: r.at(2),
                states: Vec::with_capacity(usize::from(r.at(1))),
                limits: Vec::new(),
            });
        }
        for r in &self.states {
            let subject = &mut model.subjects[usize::from(r.at(0))];
            subject.states.push(state_of(r));
        }
        for r in &self.exits {
            let subject = &mut model.subjects[usize::from(r.at(0))];
            subject.states[usize::from(r.at(1))].exits.push(Exit {
                target: r.at(3),
                sender: r.at(4),
                typ: r.at(5),
            });
        }
        for r in &self.limits {
            let subject = &mut model.subjects[usize::from(r.at(0))];
            subject.limits.push(Limit {
                sender: r.at(1),
                typ: r.at(2),
                limit: r.at(3),
            });
        }
        model
    }
}

/// The state of a record, its exits still to come.
fn state_of(r: &Record) -> State {
    State {
        kind: r.at(2),
        sender: r.at(4),
        typ: r.at(5),
        duration: r.wide(6),
        timeout: r.at(8),
        cancel: r.at(9),
        receivers: r.wide(10),
        exits: Vec::with_capacity(usize::from(r.at(3))),
    }
}

/// The model file of a valid model.
pub fn file_of(model: &Model) -> Vec<u8> {
    let mut file = Vec::new();
    write_blocks(&mut file, HEADER_BLOCK, &header_records(model));
    let mut states = Vec::new();
    let mut exits = Vec::new();
    let mut limits = Vec::new();
    for (s, subject) in model.subjects.iter().enumerate() {
        let s = s as u8;
        for (t, state) in subject.states.iter().enumerate() {
            let t = t as u8;
            states.push(state_record(s, t, state));
            for (e, exit) in state.exits.iter().enumerate() {
                let bytes = [s, t, e as u8, exit.target, exit.sender, exit.typ];
                exits.push(padded(&bytes));
            }
        }
        for l in &subject.limits {
            limits.push(padded(&[s, l.sender, l.typ, l.limit]));
        }
    }
    write_blocks(&mut file, STATE_BLOCK, &states);
    write_blocks(&mut file, EXIT_BLOCK, &exits);
    write_blocks(&mut file, LIMIT_BLOCK, &limits);
    file
}

/// The first header record and one for each subject.
fn header_records(model: &Model) -> Vec<[u8; RECORD]> {
    let start = model.start.to_le_bytes();
    let mut records = vec![padded(&[model.n() as u8, start[0], start[1]])];
    for (s, subject) in model.subjects.iter().enumerate() {
        let states = subject.states.len() as u8;
        records.push(padded(&[s as u8, states, subject.initial]));
    }
    records
}

/// The twelve bytes of a state record.
fn state_record(s: u8, t: u8, state: &State) -> [u8; RECORD] {
    let exits = state.exits.len() as u8;
    let d = state.duration.to_le_bytes();
    let m = state.receivers.to_le_bytes();
    [
        s,
        t,
        state.kind,
        exits,
        state.sender,
        state.typ,
        d[0],
        d[1],
        state.timeout,
        state.cancel,
        m[0],
        m[1],
    ]
}

/// A record with these bytes, the rest 0.
fn padded(bytes: &[u8]) -> [u8; RECORD] {
    let mut record = [0; RECORD];
    record[..bytes.len()].copy_from_slice(bytes);
    record
}

/// Appends the blocks of one kind, numbered on from those already there.
pub fn write_blocks(file: &mut Vec<u8>, kind: u8, records: &[[u8; RECORD]]) {
    for part in records.chunks(RECORDS) {
        let number = ((file.len() / BLOCK) as u16).to_le_bytes();
        let mut block = vec![number[0], number[1], kind, part.len() as u8];
        block.extend(part.iter().flatten());
        block.resize(508, 0);
        let sum = check(&block);
        block.extend(sum.to_le_bytes());
        file.extend(block);
    }
}
