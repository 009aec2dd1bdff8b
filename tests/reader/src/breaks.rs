//! Where lock broke: request E8's entries, from the list of all appearances so far, searched backwards, and not from a table of the SIDs.

use crate::message::{Header, Message};
use crate::Refusal;

/// The words of a history as it crosses to C: the TYPE, then for each SID whether it was seen, its last time and its last lock count.
pub const HISTORY_WORDS: usize = 769;

/// The numbers of a list with room for 255 entries, three for each.
pub const BREAKS_NUMBERS: usize = 765;

#[derive(Clone, Copy, Debug, PartialEq)]
pub enum Break {
    ClockBack,
    NewLock,
}

#[derive(Clone, Copy, Debug, PartialEq)]
pub struct Entry {
    pub sid: u8,
    pub time: u32,
    pub which: Break,
}

/// An observation, with its message's time. A history from C may hold any words as the time and the lock count of an earlier one.
#[derive(Clone, Copy)]
struct Appearance {
    sid: u8,
    time: u64,
    lock: u64,
}

impl Appearance {
    /// What it says behind these: it is compared with the last of them that has its SID, where there is one.
    fn said_behind(self, before: &[Appearance]) -> Option<Break> {
        let last = before.iter().rfind(|last| last.sid == self.sid)?;
        if self.time < last.time {
            Some(Break::ClockBack)
        } else if self.lock < last.lock {
            Some(Break::NewLock)
        } else {
            None
        }
    }
}

/// The appearances in a message of the new form with this TYPE; in any other there is none.
fn appearances(signal: u64, message: &Message) -> Vec<Appearance> {
    match message.header {
        Header::New { signal: own, time, .. } if u64::from(own) == signal => {
            let appearance = |sid, lock: u32| Appearance { sid, time: time.into(), lock: lock.into() };
            message.observations.iter().map(|observation| appearance(observation.sid, observation.lock)).collect()
        }
        _ => Vec::new(),
    }
}

/// The entries of these appearances, each of which comes behind all that were before it.
fn entries(before: &mut Vec<Appearance>, now: Vec<Appearance>) -> Vec<Entry> {
    let mut entries = Vec::new();
    for appearance in now {
        let said = appearance.said_behind(before);
        entries.extend(said.map(|which| Entry { sid: appearance.sid, time: appearance.time as u32, which }));
        before.push(appearance);
    }
    entries
}

/// The list of each message of a recording, from its first message on.
pub fn breaks(signal: u8, messages: &[Message]) -> Vec<Vec<Entry>> {
    let mut before = Vec::new();
    messages.iter().map(|message| entries(&mut before, appearances(signal.into(), message))).collect()
}

/// The words of a history in which nothing was seen.
pub fn fresh_history(signal: u8) -> [u64; HISTORY_WORDS] {
    let mut history = [0; HISTORY_WORDS];
    history[0] = signal.into();
    history
}

/// The appearances that a history holds, one of each SID that was seen.
fn held(history: &[u64; HISTORY_WORDS]) -> Vec<Appearance> {
    let seen = (0..=255).zip(history[1..].chunks(3)).filter(|(_, words)| words[0] != 0);
    seen.map(|(sid, words)| Appearance { sid, time: words[1], lock: words[2] }).collect()
}

/// The list of one message behind any history, for a list of so many numbers. Refuses with 1 to 4, then 8.
pub fn next_breaks(bytes: &[u8], history: &mut [u64; HISTORY_WORDS], numbers: usize) -> Result<Vec<Entry>, Refusal> {
    let message = Message::from_bytes(bytes)?;
    if numbers < BREAKS_NUMBERS {
        return Err(8);
    }
    let now = appearances(history[0], &message);
    let entries = entries(&mut held(history), now.clone());
    for Appearance { sid, time, lock } in now {
        let place = 1 + 3 * usize::from(sid);
        history[place..place + 3].copy_from_slice(&[1, time, lock]);
    }
    Ok(entries)
}
