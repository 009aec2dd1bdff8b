//! Histories: recordings in which few SIDs come again and again, also within a message, while times and lock counts stay, rise, fall and wrap, with
//! other TYPEs and old messages between; and the words of histories that no run of calls leaves.

use crate::parts::{count, observation, piece_of_stream};
use crate::Random;
use reader::{Header, Message, Observation, HISTORY_WORDS};

/// The next time or lock count: mostly the last or a little more, now and then a little less or anywhere.
fn near(random: &mut Random, last: u32) -> u32 {
    match random.below(12) {
        0 => random.edgy() as u32,
        1 => last.wrapping_sub(1 + random.below(3) as u32),
        2..=5 => last,
        _ => last.wrapping_add(1 + random.below(3) as u32),
    }
}

/// Mostly of the TYPE, now and then of one that differs by a bit, or of the old form, which may have the same byte as VERSION.
fn header(random: &mut Random, signal: u8, time: u32) -> Header {
    let (tfom, offset) = (random.byte(), random.edgy() as u32);
    match random.below(6) {
        0 => Header::Old { version: random.pick(&[signal, signal, 2]), time, offset },
        1 => Header::New { signal: signal ^ 1 << random.below(8), tfom, time, offset },
        _ => Header::New { signal, tfom, time, offset },
    }
}

/// The messages of a recording in which this TYPE has a history.
pub fn history(random: &mut Random, signal: u8) -> Vec<Message> {
    let any = [0, 255, random.byte(), random.byte()];
    let sids = [(); 4].map(|_| random.pick(&any));
    let (mut time, mut lock) = (random.edgy() as u32, random.edgy() as u32);
    let mut observed = |random: &mut Random| {
        lock = near(random, lock);
        Observation { sid: random.pick(&sids), lock, ..observation(random) }
    };
    let mut message = |random: &mut Random| {
        time = near(random, time);
        Message { header: header(random, signal, time), observations: (0..count(random)).map(|_| observed(random)).collect() }
    };
    (0..random.below(12)).map(|_| message(random)).collect()
}

/// Such a recording as a stream, now and then with another part of a stream between two messages.
pub fn recorded(random: &mut Random, signal: u8) -> Vec<u8> {
    let mut bytes = Vec::new();
    for message in history(random, signal) {
        bytes.extend(message.to_bytes());
        if random.once_in(4) {
            bytes.extend(piece_of_stream(random));
        }
    }
    bytes
}

/// A time or a lock count as a caller's words may have it: half of them such as no message has.
fn wide(random: &mut Random) -> u64 {
    if random.once_in(2) {
        random.edgy()
    } else {
        random.edgy() & 0xFFFF_FFFF
    }
}

/// Any words for a history, mostly of this TYPE.
pub fn history_words(random: &mut Random, signal: u8) -> [u64; HISTORY_WORDS] {
    let mut words = [0; HISTORY_WORDS];
    for sid in words[1..].chunks_mut(3) {
        sid.copy_from_slice(&[random.pick(&[0, 0, 1, 1, 2, 256, 1 << 32, u64::MAX]), wide(random), wide(random)]);
    }
    words[0] = match random.below(8) {
        0 => random.edgy(),
        1 => u64::from(signal) + random.pick(&[256, 1 << 32, 1 << 63]),
        _ => signal.into(),
    };
    words
}
