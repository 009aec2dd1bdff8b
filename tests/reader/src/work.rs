//! What a stream costs: the bytes that a reader runs through the checksum over all of it, from the division and not from the reader's calls.

use crate::division::divide;
use crate::message::Form;

/// The bytes that the checksum covers at each position that is tested: no earlier given message covers it, a sync string stands there, and its whole
/// length is in the stream. Whether the checksum agrees does not matter.
pub fn work(stream: &[u8]) -> u64 {
    let mut tried = vec![true; stream.len()];
    for given in divide(stream).given {
        tried[given.position + 1..given.position + given.length].fill(false);
    }
    (0..stream.len()).filter(|&position| tried[position]).map(|position| covered(&stream[position..])).sum()
}

/// The bytes from the fifth up to the one before the checksum, counted, of a message that is all there.
fn covered(from: &[u8]) -> u64 {
    let checksum_place = |form: Form| Some(form.length(*from.get(form.count_place())?) - 1);
    let form = Form::BOTH.into_iter().find(|form| from.starts_with(&form.sync()));
    let place = form.and_then(checksum_place).filter(|&place| place < from.len());
    place.map_or(0, |place| (4..place).count() as u64)
}

/// The most that a stream of so many bytes can cost: sync strings begin three bytes apart at least, and the longest message covers 6,131 bytes.
pub fn most_work(length: usize) -> u64 {
    6131 * (length.saturating_sub(1) / 3) as u64
}
