//! Cases of histories: recordings behind a fresh history or behind any words, with messages that are none and lists that are too short among them.

use crate::cases::{nearly, outcome};
use crate::{compare, Verdict};
use reader::BREAKS_NUMBERS;
use streams::Random;

/// A list full of anything: mostly just long enough, now and then too short or longer.
fn list(random: &mut Random) -> Vec<u64> {
    let length = match random.below(12) {
        0 => random.below(BREAKS_NUMBERS),
        1 => BREAKS_NUMBERS - 1,
        2..=7 => BREAKS_NUMBERS,
        _ => BREAKS_NUMBERS + random.below(40),
    };
    (0..length).map(|_| random.number()).collect()
}

/// All messages of a recording, one a call. The outcome is that of the last: its refusal, or the kind of its last entry.
pub fn breaks(random: &mut Random) -> Verdict<u64> {
    let signal = random.byte();
    let words = streams::history_words(random, signal);
    let mut history = if random.once_in(2) { compare::breaks_fresh(&words, signal)? } else { words };
    let mut last = outcome(0, 0);
    for message in streams::history(random, signal) {
        let (message, mut list) = (nearly(random, message.to_bytes()), list(random));
        let listed = compare::breaks(&message, &mut history, &mut list)?;
        let numbers = 3 * listed.count as usize;
        last = outcome(listed.refusal, list[..numbers].last().copied().unwrap_or(0));
    }
    Ok(last)
}
