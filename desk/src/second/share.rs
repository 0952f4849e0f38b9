//! Whether a pool is shared out among those who can send there.

use super::config::bit;
use super::types::*;

/// The answer for one pool.
#[derive(Clone, Copy, Debug, PartialEq, Eq)]
pub enum Share {
    Yes,
    No,
    Refused(u8),
}

/// Yes when every row names one sender for all types, each possible sender has a row, and the rows fit the pool
/// together. The rows of a valid model are ascending, so no sender has two such rows.
pub fn shared_out(model: &Model, owner: u8) -> Share {
    if !model_valid(model) {
        return Share::Refused(8);
    }
    let owner = usize::from(owner);
    if owner >= model.n() {
        return Share::Refused(11);
    }
    let rows = &model.subjects[owner].limits;
    let has_row = |s: usize| rows.iter().any(|l| usize::from(l.sender) == s);
    let mut senders = (0..model.n()).filter(|s| sends_to(&model.subjects[*s], owner));
    let together: usize = rows.iter().map(|l| usize::from(l.limit)).sum();
    let rows_fit = rows.iter().all(|l| l.sender != ANY && l.typ == ANY);
    if rows_fit && senders.all(has_row) && together <= POOL {
        Share::Yes
    } else {
        Share::No
    }
}

/// Whether a send state of the subject names the owner.
fn sends_to(subject: &Subject, owner: usize) -> bool {
    subject.states.iter().any(|s| s.receivers & bit(owner) != 0)
}
