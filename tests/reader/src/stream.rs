//! The model of the stream reader: what feed and finish owe for every state, window and output, told byte by byte.

use crate::message::{check, Form};
use crate::{Refusal, LONGEST};

/// The longest stream that a state counts, 2^48 bytes.
pub const STREAM_BYTES: u64 = 1 << 48;

/// The most bytes summed with which a state is still taken, 2^60.
pub const SUMMED_BYTES: u64 = 1 << 60;

#[derive(Clone, Copy, Debug, Default, PartialEq)]
pub struct State {
    pub held: u64,
    pub gap: u64,
    pub total: u64,
    pub ended: bool,
    pub summed: u64,
}

#[derive(Clone, Copy, Debug, PartialEq)]
pub enum Answer {
    NeedsMore { taken: usize },
    Message { length: usize, gap: u64, taken: usize },
    End { gap: u64 },
}

/// How a position stands while only the bytes from it on that are held are known: settled as gap by a byte that contradicts both sync strings, or by
/// the checksum of a message of so many bytes; settled as a message; or open.
#[derive(Clone, Copy, Debug, PartialEq)]
pub enum Standing {
    Gap,
    Damaged(usize),
    Message(usize),
    Open,
}

impl Standing {
    /// The bytes that went through the checksum to tell: all but the sync string and the checksum itself, once all are there.
    fn summed(self) -> u64 {
        match self {
            Standing::Damaged(length) | Standing::Message(length) => length as u64 - 5,
            Standing::Gap | Standing::Open => 0,
        }
    }
}

pub fn standing(from: &[u8]) -> Standing {
    let Some(form) = Form::BOTH.into_iter().find(|form| from.iter().zip(form.sync()).all(|(&byte, letter)| byte == letter)) else {
        return Standing::Gap;
    };
    // Fewer than four bytes may fit both forms; the count byte of either stands further on, so the position is open then.
    let Some(&count) = from.get(form.count_place()) else {
        return Standing::Open;
    };
    match from.get(..form.length(count)) {
        None => Standing::Open,
        Some(whole) if check(whole) == Ok(form) => Standing::Message(whole.len()),
        Some(whole) => Standing::Damaged(whole.len()),
    }
}

/// 8 and 9, which feed and finish share.
fn refuse(state: &State, window: &[u8], output: &[u8]) -> Result<(), Refusal> {
    if window.len() < LONGEST || output.len() < LONGEST {
        return Err(8);
    }
    let counted = u128::from(state.gap) + u128::from(state.held);
    if state.held > LONGEST as u64 || state.total > STREAM_BYTES || counted > u128::from(state.total) || state.summed > SUMMED_BYTES {
        return Err(9);
    }
    Ok(())
}

/// Leaves these bytes held at the front of the window, with zeros behind them.
fn hold(bytes: &[u8], state: &mut State, window: &mut [u8]) {
    state.held = bytes.len() as u64;
    window.fill(0);
    window[..bytes.len()].copy_from_slice(bytes);
}

/// Gives the message of this length at this position of the bytes seen, and holds what was taken past it. Answers the gap before it.
fn give(seen: &[u8], position: usize, length: usize, state: &mut State, window: &mut [u8], output: &mut [u8]) -> u64 {
    let gap = state.gap + position as u64;
    output[..length].copy_from_slice(&seen[position..position + length]);
    hold(&seen[position + length..], state, window);
    state.gap = 0;
    gap
}

/// Refuses with 8, 9, 10, 11.
pub fn feed(state: &mut State, piece: &[u8], window: &mut [u8], output: &mut [u8]) -> Result<Answer, Refusal> {
    refuse(state, window, output)?;
    if state.ended {
        return Err(10);
    }
    if u128::from(state.total) + piece.len() as u128 > u128::from(STREAM_BYTES) {
        return Err(11);
    }
    let mut seen = window[..state.held as usize].to_vec();
    let (mut position, mut taken) = (0, 0);
    loop {
        let standing = standing(&seen[position..]);
        state.summed += standing.summed();
        match standing {
            Standing::Gap | Standing::Damaged(_) => position += 1,
            Standing::Message(length) => {
                state.total += taken as u64;
                let gap = give(&seen, position, length, state, window, output);
                return Ok(Answer::Message { length, gap, taken });
            }
            Standing::Open if taken < piece.len() => {
                seen.push(piece[taken]);
                taken += 1;
            }
            Standing::Open => {
                state.total += taken as u64;
                state.gap += position as u64;
                hold(&seen[position..], state, window);
                return Ok(Answer::NeedsMore { taken });
            }
        }
    }
}

/// Refuses with 8, 9.
pub fn finish(state: &mut State, window: &mut [u8], output: &mut [u8]) -> Result<Answer, Refusal> {
    refuse(state, window, output)?;
    state.ended = true;
    let seen = window[..state.held as usize].to_vec();
    for position in 0..seen.len() {
        let standing = standing(&seen[position..]);
        state.summed += standing.summed();
        if let Standing::Message(length) = standing {
            let gap = give(&seen, position, length, state, window, output);
            return Ok(Answer::Message { length, gap, taken: 0 });
        }
    }
    state.gap += state.held;
    hold(&[], state, window);
    Ok(Answer::End { gap: state.gap })
}
