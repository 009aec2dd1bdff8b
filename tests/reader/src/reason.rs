//! Why no message is given at a position, or that one is: request E1's reasons, each position's first in the request's order.

use crate::division::divide;
use crate::message::{checksum, Form};
use crate::Refusal;

#[derive(Clone, Copy, Debug, PartialEq)]
pub enum Reason {
    /// It lies inside the given message that starts there.
    Inside(usize),
    /// A message of this length is given here.
    Given(usize),
    /// This byte of the sync, counted from 1, is the first that fits neither form.
    Sync(usize),
    /// It is cut short before its count byte, so that nobody knows by how many bytes.
    CutUnknown,
    /// It is cut short by so many bytes.
    CutShort(usize),
    /// The checksum is off: the exclusive or of byte 5 up to and with the checksum.
    Checksum(u8),
}

/// The reason of every position, by the one division of the recording.
pub fn reasons(recording: &[u8]) -> Vec<Reason> {
    let mut reasons: Vec<_> = (0..recording.len()).map(|position| fault(&recording[position..])).collect();
    for given in divide(recording).given {
        reasons[given.position..given.position + given.length].fill(Reason::Inside(given.position));
        reasons[given.position] = Reason::Given(given.length);
    }
    reasons
}

/// The reason of one position. Refuses with 12, the end itself included.
pub fn why(recording: &[u8], position: usize) -> Result<Reason, Refusal> {
    reasons(recording).get(position).copied().ok_or(12)
}

/// What is wrong with a message that begins with the first of these bytes, if nothing is given there: the checksum's residue is 0 only where it is.
fn fault(from: &[u8]) -> Reason {
    let fits = |seen: usize| Form::BOTH.iter().any(|form| form.sync().starts_with(&from[..seen]));
    if let Some(byte) = (1..=from.len().min(4)).find(|&seen| !fits(seen)) {
        return Reason::Sync(byte);
    }
    let form = Form::BOTH.into_iter().find(|form| from.starts_with(&form.sync()));
    let Some(length) = form.and_then(|form| Some(form.length(*from.get(form.count_place())?))) else {
        return Reason::CutUnknown;
    };
    match from.get(4..length) {
        Some(covered) => Reason::Checksum(checksum(covered)),
        None => Reason::CutShort(length - from.len()),
    }
}
