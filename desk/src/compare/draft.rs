//! A model file as loose records, also of one that breaks rules: taken apart, cut down and put together again.

use crate::second::*;

/// The records of a file by kind, and the bytes around them that are not as they should be.
#[derive(Clone, Debug, Default, PartialEq, Eq)]
pub struct Draft {
    pub header: Vec<[u8; RECORD]>,
    pub states: Vec<[u8; RECORD]>,
    pub exits: Vec<[u8; RECORD]>,
    pub limits: Vec<[u8; RECORD]>,
    odd: Vec<Odd>,
}

/// A byte of a block's frame, unused room or check that is not as it should be.
#[derive(Clone, Copy, Debug, PartialEq, Eq)]
struct Odd {
    kind: u8,
    /// Which block of its kind.
    nth: usize,
    at: usize,
    value: u8,
}

/// The most odd bytes that a draft keeps.
const MOST_ODD: usize = 12;

/// One thing to leave out of a file, with all that hangs on it.
#[derive(Clone, Copy, Debug, PartialEq, Eq)]
pub enum Cut {
    Subject(u8),
    State(u8, u8),
    Exit(u8, u8, u8),
    Timeout(u8, u8),
    Cancel(u8, u8),
    Receiver(u8, u8, u8),
    Limit(usize),
    /// The state becomes an internal one that leads to itself.
    Plain(u8, u8),
    /// All subjects start.
    Sleepers,
}

/// A number after one below or at it has gone; 255 stays.
pub fn down(value: u8, gone: u8) -> u8 {
    if value > gone && value != ANY {
        value - 1
    } else {
        value
    }
}

/// A mask after the bit of a subject has gone.
pub fn mask_down(mask: u16, gone: u8) -> u16 {
    let low = mask & (bit(usize::from(gone)) - 1);
    let high = (u32::from(mask) >> (gone + 1) << gone) as u16;
    low | high
}

impl Draft {
    /// The records of a file whose blocks are in order but for a few odd bytes.
    pub fn of(file: &[u8]) -> Option<Draft> {
        let mut draft = Draft::default();
        for (b, block) in file.chunks_exact(BLOCK).enumerate() {
            let list = match block[2] {
                HEADER_BLOCK => &mut draft.header,
                STATE_BLOCK => &mut draft.states,
                EXIT_BLOCK => &mut draft.exits,
                LIMIT_BLOCK => &mut draft.limits,
                _ => return None,
            };
            let records = (0..RECORDS).map(|i| record(file, b, i));
            list.extend(records.filter_map(|r| <[u8; RECORD]>::try_from(r).ok()));
        }
        draft.note_odd(file, 0..508);
        draft.note_odd(file, 508..BLOCK);
        let whole = !draft.header.is_empty() && draft.odd.len() <= MOST_ODD;
        (whole && draft.file() == file).then_some(draft)
    }

    /// Notes the bytes of this part of each block that are not as they should be.
    fn note_odd(&mut self, file: &[u8], part: std::ops::Range<usize>) {
        let proper = self.file();
        let blocks = proper.chunks_exact(BLOCK).zip(file.chunks_exact(BLOCK));
        for (b, (proper, block)) in blocks.enumerate() {
            let before = file.chunks_exact(BLOCK).take(b);
            let nth = before.filter(|x| x[2] == block[2]).count();
            let differs = part.clone().filter(|at| proper[*at] != block[*at]);
            self.odd.extend(differs.map(|at| Odd {
                kind: block[2],
                nth,
                at,
                value: block[at],
            }));
        }
    }

    /// The number of records.
    pub fn size(&self) -> usize {
        self.header.len() + self.states.len() + self.exits.len() + self.limits.len()
    }

    /// Whether all blocks are in order.
    pub fn in_order(&self) -> bool {
        self.odd.is_empty()
    }

    /// The file of these records.
    pub fn file(&self) -> Vec<u8> {
        let mut file = Vec::new();
        write_blocks(&mut file, HEADER_BLOCK, &self.header);
        write_blocks(&mut file, STATE_BLOCK, &self.states);
        write_blocks(&mut file, EXIT_BLOCK, &self.exits);
        write_blocks(&mut file, LIMIT_BLOCK, &self.limits);
        self.put_odd(&mut file, |at| at < 508);
        file.chunks_exact_mut(BLOCK).for_each(mend);
        self.put_odd(&mut file, |at| at >= 508);
        file
    }

    /// Puts odd bytes into the blocks they belong to.
    fn put_odd(&self, file: &mut [u8], chosen: fn(usize) -> bool) {
        for odd in self.odd.iter().filter(|o| chosen(o.at)) {
            let own = |b: &&mut [u8]| b[2] == odd.kind;
            if let Some(block) = file.chunks_exact_mut(BLOCK).filter(own).nth(odd.nth) {
                block[odd.at] = odd.value;
            }
        }
    }

    /// Everything that may be left out, the largest first, and each kind from the last on.
    pub fn cuts(&self) -> Vec<Cut> {
        let mut cuts: Vec<Cut> = Vec::new();
        cuts.extend(self.header.iter().skip(1).map(|r| Cut::Subject(r[0])));
        cuts.reverse();
        let states = self.states.iter().rev();
        cuts.extend(states.clone().map(|r| Cut::State(r[0], r[1])));
        cuts.extend(self.exits.iter().rev().map(|r| Cut::Exit(r[0], r[1], r[2])));
        cuts.extend((0..self.limits.len()).rev().map(Cut::Limit));
        for r in states {
            if r[8] != NONE {
                cuts.push(Cut::Timeout(r[0], r[1]));
            }
            if r[9] != NONE {
                cuts.push(Cut::Cancel(r[0], r[1]));
            }
            let receivers = u16::from_le_bytes([r[10], r[11]]);
            let named = (0..16).rev().filter(|s| receivers >> s & 1 != 0);
            cuts.extend(named.map(|s| Cut::Receiver(r[0], r[1], s)));
            cuts.push(Cut::Plain(r[0], r[1]));
        }
        cuts.push(Cut::Sleepers);
        cuts
    }

    /// The records without one thing.
    pub fn without(&self, cut: Cut) -> Draft {
        let mut draft = self.clone();
        match cut {
            Cut::Subject(s) => draft.drop_subject(s),
            Cut::State(s, t) => draft.drop_state(s, t),
            Cut::Exit(s, t, e) => draft.drop_exit(s, t, e),
            Cut::Limit(i) if i < draft.limits.len() => drop(draft.limits.remove(i)),
            Cut::Limit(_) => {}
            Cut::Timeout(s, t) => {
                draft.change_state(s, t, |r| r[6..9].copy_from_slice(&[0, 0, NONE]))
            }
            Cut::Cancel(s, t) => draft.change_state(s, t, |r| r[9] = NONE),
            Cut::Receiver(s, t, gone) => draft.change_state(s, t, |r| {
                r[10 + usize::from(gone / 8)] &= !(1 << (gone % 8));
            }),
            Cut::Plain(s, t) => draft.make_plain(s, t),
            Cut::Sleepers => {
                let all = (1u32 << draft.header[0][0].min(16)) - 1;
                draft.header[0][1..3].copy_from_slice(&all.to_le_bytes()[..2]);
            }
        }
        draft
    }

    fn change_state(&mut self, s: u8, t: u8, change: impl Fn(&mut [u8; RECORD])) {
        let own = |r: &&mut [u8; RECORD]| r[..2] == [s, t];
        self.states.iter_mut().filter(own).for_each(change);
    }

    /// Makes a state an internal one whose only exit leads to itself.
    fn make_plain(&mut self, s: u8, t: u8) {
        self.change_state(s, t, |r| {
            r[2..].copy_from_slice(&[INTERNAL, 1, ANY, ANY, 0, 0, NONE, NONE, 0, 0]);
        });
        self.exits.retain(|r| r[..2] != [s, t]);
        let at = self.exits.partition_point(|r| (r[0], r[1]) < (s, t));
        let mut exit = [0; RECORD];
        exit[..6].copy_from_slice(&[s, t, 0, t, ANY, ANY]);
        self.exits.insert(at, exit);
    }

    /// Leaves a subject out; the numbers of later ones go down.
    fn drop_subject(&mut self, s: u8) {
        let is_it = |r: &[u8; RECORD]| r[0] == s;
        let first = &mut self.header[0];
        first[0] = first[0].saturating_sub(1);
        change_mask(first, 1, s);
        if first[1..3] == [0, 0] {
            first[1] = 1;
        }
        let mut place = 0;
        self.header.retain(|r| {
            place += 1;
            place == 1 || !is_it(r)
        });
        self.states.retain(|r| !is_it(r));
        self.exits.retain(|r| !is_it(r));
        self.limits.retain(|r| !is_it(r) && r[1] != s);
        for r in self.header.iter_mut().skip(1) {
            r[0] = down(r[0], s);
        }
        for r in &mut self.states {
            r[0] = down(r[0], s);
            r[4] = if r[4] == s { ANY } else { down(r[4], s) };
            change_mask(r, 10, s);
        }
        for r in &mut self.exits {
            r[0] = down(r[0], s);
            r[4] = if r[4] == s { 0 } else { down(r[4], s) };
        }
        for r in &mut self.limits {
            r[0] = down(r[0], s);
            r[1] = down(r[1], s);
        }
    }

    /// Leaves a state out; what led there leads to the first state or nowhere.
    fn drop_state(&mut self, s: u8, t: u8) {
        let is_it = |r: &[u8; RECORD]| r[..2] == [s, t];
        self.states.retain(|r| !is_it(r));
        self.exits.retain(|r| !is_it(r));
        let to = |target: u8, gone: u8| if target == t { gone } else { down(target, t) };
        for r in self.header.iter_mut().skip(1).filter(|r| r[0] == s) {
            r[1] = r[1].saturating_sub(1);
            r[2] = to(r[2], 0);
        }
        for r in self.states.iter_mut().filter(|r| r[0] == s) {
            r[1] = down(r[1], t);
            if r[8] == t {
                r[6..8].copy_from_slice(&[0, 0]);
            }
            r[8] = to(r[8], NONE);
            r[9] = to(r[9], NONE);
        }
        for r in self.exits.iter_mut().filter(|r| r[0] == s) {
            r[1] = down(r[1], t);
            r[3] = to(r[3], 0);
        }
    }

    /// Leaves an exit out; later ones of its state go down.
    fn drop_exit(&mut self, s: u8, t: u8, e: u8) {
        self.exits.retain(|r| r[..3] != [s, t, e]);
        for r in self.exits.iter_mut().filter(|r| r[..2] == [s, t]) {
            r[2] = down(r[2], e);
        }
        self.change_state(s, t, |r| r[3] = r[3].saturating_sub(1));
    }
}

/// Takes the bit of a subject out of the mask that stands at a place of a record.
fn change_mask(r: &mut [u8; RECORD], at: usize, gone: u8) {
    if gone < 16 {
        let mask = u16::from_le_bytes([r[at], r[at + 1]]);
        r[at..at + 2].copy_from_slice(&mask_down(mask, gone).to_le_bytes());
    }
}

/// Makes the check of a block right.
pub fn mend(block: &mut [u8]) {
    let sum = check(&block[..508]).to_le_bytes();
    block[508..].copy_from_slice(&sum);
}
