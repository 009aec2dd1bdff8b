//! A whole run over a stream in pieces, held against the division of the stream.

use crate::{board, same, same_each, Twin, Verdict};

/// What a run gave: gap and bytes of each message, the gap at the end, and the number of calls.
#[derive(Default)]
struct Gave {
    messages: Vec<(u64, Vec<u8>)>,
    rest: u64,
    calls: usize,
}

/// Feeds every piece until more is needed, then finishes until the end, and answers the number of messages.
pub fn run(stream: &[u8], pieces: &[usize], window: Vec<u8>, output: Vec<u8>) -> Verdict<usize> {
    let mut twin = Twin::new(board::fresh(), window, output);
    let mut gave = Gave::default();
    let mut left = stream;
    for &length in pieces {
        let (piece, later) = left.split_at(length);
        left = later;
        feed_all(&mut twin, piece, &mut gave)?;
    }
    finish_all(&mut twin, &mut gave)?;
    let ended = twin.state;
    same("the end once more", twin.finish()?, board::Answer { kind: board::END, gap: gave.rest, ..Default::default() })?;
    same("the state after the end once more", twin.state, ended)?;
    same("total", twin.state.total, stream.len() as u64)?;
    same("bytes summed, over the division", twin.state.summed, reader::work(stream))?;
    same("bytes summed within the bound", twin.state.summed <= reader::most_work(stream.len()), true)?;
    owed(stream, pieces.len(), &gave)
}

/// Offers a piece from the bytes taken on until it is all taken and more is needed.
fn feed_all(twin: &mut Twin, mut piece: &[u8], gave: &mut Gave) -> Verdict<()> {
    loop {
        let before = twin.output().to_vec();
        let answer = twin.feed(piece)?;
        accepted(twin, answer, &before, gave)?;
        piece = piece.get(answer.taken as usize..).ok_or("more is taken than was offered")?;
        match answer.kind {
            board::NEEDS_MORE => return same("bytes left where more is needed", piece.len(), 0),
            board::MESSAGE => (),
            kind => return Err(format!("feeding answers the kind {kind}")),
        }
    }
}

/// Takes the messages that are left.
fn finish_all(twin: &mut Twin, gave: &mut Gave) -> Verdict<()> {
    loop {
        let before = twin.output().to_vec();
        let answer = twin.finish()?;
        accepted(twin, answer, &before, gave)?;
        match answer.kind {
            board::MESSAGE => (),
            board::END => {
                gave.rest = answer.gap;
                return Ok(());
            }
            kind => return Err(format!("finishing answers the kind {kind}")),
        }
    }
}

/// What holds after each call of a run: no refusal, zeros behind the held bytes, and no output byte changed but the message's.
fn accepted(twin: &Twin, answer: board::Answer, before: &[u8], gave: &mut Gave) -> Verdict<()> {
    gave.calls += 1;
    same("refusal in a run", answer.refusal, 0)?;
    let behind = twin.window().get(twin.state.held as usize..).ok_or("more is held than the window has")?;
    same("zeros behind the held bytes", behind.iter().all(|&byte| byte == 0), true)?;
    let length = answer.length as usize;
    same_each("output past the message", &twin.output()[length..], &before[length..])?;
    if answer.kind == board::MESSAGE {
        gave.messages.push((answer.gap, twin.output()[..length].to_vec()));
    }
    Ok(())
}

/// The messages and gaps are the division's, they add up to the stream, and the calls are no more than pieces, messages and one.
fn owed(stream: &[u8], pieces: usize, gave: &Gave) -> Verdict<usize> {
    let division = reader::divide(stream);
    let message = |given: &reader::Given| (given.gap as u64, stream[given.position..given.position + given.length].to_vec());
    let messages: Vec<_> = division.given.iter().map(message).collect();
    same("number of messages", gave.messages.len(), messages.len())?;
    same("messages and gaps", &gave.messages, &messages)?;
    same("gap at the end", gave.rest, division.rest as u64)?;
    let sum: u64 = gave.messages.iter().map(|(gap, bytes)| gap + bytes.len() as u64).sum();
    same("lengths and gaps", sum + gave.rest, stream.len() as u64)?;
    let most = pieces + messages.len() + 1;
    if gave.calls > most {
        return Err(format!("{} calls for {pieces} pieces and {} messages", gave.calls, messages.len()));
    }
    Ok(messages.len())
}
