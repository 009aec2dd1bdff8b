//! The division of a stream that is all there, and the plain reader over it.

use crate::message::{check, Form};
use crate::Refusal;

/// A message that the division gives: where it stands, its length, and the gap bytes between it and the one before.
#[derive(Clone, Copy, Debug, PartialEq)]
pub struct Given {
    pub position: usize,
    pub length: usize,
    pub gap: usize,
}

/// All messages of a stream, and the gap bytes behind the last one.
#[derive(Clone, Debug, Default, PartialEq)]
pub struct Division {
    pub given: Vec<Given>,
    pub rest: usize,
}

/// The length of the valid message that stands at this position, if one does.
pub fn message_at(stream: &[u8], position: usize) -> Option<usize> {
    let from = &stream[position..];
    Form::BOTH.into_iter().find_map(|form| {
        let length = form.length(*from.get(form.count_place())?);
        let whole = from.get(..length)?;
        (check(whole) == Ok(form)).then_some(length)
    })
}

pub fn divide(stream: &[u8]) -> Division {
    let mut division = Division::default();
    let mut position = 0;
    while position < stream.len() {
        if let Some(length) = message_at(stream, position) {
            division.given.push(Given { position, length, gap: division.rest });
            division.rest = 0;
            position += length;
        } else {
            division.rest += 1;
            position += 1;
        }
    }
    division
}

#[derive(Clone, Copy, Debug, PartialEq)]
pub enum Found {
    Message(Given),
    End { gap: usize },
}

/// The plain reader: the first message of the division that begins at the start. Refuses with 12.
pub fn next(recording: &[u8], start: usize) -> Result<Found, Refusal> {
    let division = divide(recording.get(start..).ok_or(12u64)?);
    Ok(match division.given.first() {
        Some(first) => Found::Message(Given { position: start + first.position, ..*first }),
        None => Found::End { gap: division.rest },
    })
}
