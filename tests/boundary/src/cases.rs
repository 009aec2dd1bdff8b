//! Cases made from a seed, one kind of call each: messages right and wrong, buffers of any size, states that no run reaches. Each answers what came
//! of the call, so that a test can see that nothing stays untried: a refusal's number, or ACCEPTED with the kind of answer added.

use crate::{board, compare, expected, history_cases, record_cases, run, Twin, Verdict};
use reader::{Form, LONGEST, STREAM_BYTES, SUMMED_BYTES};
use streams::Random;

pub const ACCEPTED: u64 = 100;

/// A kind of case: its name, how it is made and tried, and every outcome that it must have.
pub struct Kind {
    pub name: &'static str,
    attempt: fn(&mut Random) -> Verdict<u64>,
    pub outcomes: &'static [u64],
}

impl Kind {
    /// Tries the case of this seed. The name goes into it, so that no two kinds try the same messages.
    pub fn case(&self, seed: u64) -> Verdict<u64> {
        let mixed = self.name.bytes().fold(seed, |mixed, byte| mixed.rotate_left(8) ^ u64::from(byte));
        (self.attempt)(&mut Random::new(mixed))
    }
}

const NEEDS_MORE: u64 = ACCEPTED + board::NEEDS_MORE;
const MESSAGE: u64 = ACCEPTED + board::MESSAGE;
const END: u64 = ACCEPTED + board::END;
const INSIDE: u64 = ACCEPTED + board::INSIDE;
const GIVEN: u64 = ACCEPTED + board::GIVEN;
const SYNC: u64 = ACCEPTED + board::SYNC;
const CUT_UNKNOWN: u64 = ACCEPTED + board::CUT_UNKNOWN;
const CUT_SHORT: u64 = ACCEPTED + board::CUT_SHORT;
const CHECKSUM: u64 = ACCEPTED + board::CHECKSUM;
const WITHHELD: u64 = ACCEPTED + board::WITHHELD;
const NOT_FINITE: u64 = ACCEPTED + board::NOT_FINITE;
const POLARITY_UNKNOWN: u64 = ACCEPTED + board::POLARITY_UNKNOWN;
const NOT_CORRECTED: u64 = ACCEPTED + board::NOT_CORRECTED;
const DUE_HALF: u64 = ACCEPTED + board::DUE_HALF;
const POLARITY_UNDEFINED: u64 = ACCEPTED + board::POLARITY_UNDEFINED;
const CLOCK_BACK: u64 = ACCEPTED + board::CLOCK_BACK;
const NEW_LOCK: u64 = ACCEPTED + board::NEW_LOCK;

pub const KINDS: [Kind; 19] = [
    Kind { name: "check", attempt: check, outcomes: &[1, 2, 3, 4, ACCEPTED] },
    Kind { name: "read_header", attempt: read_header, outcomes: &[1, 2, 3, 4, ACCEPTED] },
    Kind { name: "read_observation", attempt: read_observation, outcomes: &[1, 2, 3, 4, 5, ACCEPTED] },
    Kind { name: "read_all", attempt: read_all, outcomes: &[1, 2, 3, 4, ACCEPTED] },
    Kind { name: "start", attempt: start, outcomes: &[6, ACCEPTED] },
    Kind { name: "set", attempt: set, outcomes: &[1, 2, 3, 4, 5, ACCEPTED] },
    Kind { name: "to_new", attempt: to_new, outcomes: &[1, 2, 3, 4, 7, 6, ACCEPTED] },
    Kind { name: "to_old", attempt: to_old, outcomes: &[1, 2, 3, 4, 7, 6, ACCEPTED] },
    Kind { name: "next", attempt: next, outcomes: &[12, ACCEPTED] },
    Kind { name: "why", attempt: why, outcomes: &[12, INSIDE, GIVEN, SYNC, CUT_UNKNOWN, CUT_SHORT, CHECKSUM] },
    Kind { name: "numbers", attempt: numbers, outcomes: &[WITHHELD, NOT_FINITE, POLARITY_UNKNOWN, NOT_CORRECTED, DUE_HALF, POLARITY_UNDEFINED] },
    Kind { name: "feed", attempt: feed, outcomes: &[8, 9, 10, 11, NEEDS_MORE, MESSAGE] },
    Kind { name: "finish", attempt: finish, outcomes: &[8, 9, MESSAGE, END] },
    Kind { name: "run", attempt: whole_run, outcomes: &[ACCEPTED] },
    Kind { name: "rangecmp_read", attempt: record_cases::read, outcomes: &[13, ACCEPTED] },
    Kind { name: "rangecmp_write", attempt: record_cases::write, outcomes: &[23, 6, ACCEPTED] },
    Kind { name: "rangecmp_adr", attempt: record_cases::adr, outcomes: &[13, 22, ACCEPTED] },
    Kind { name: "rangecmp_deviations", attempt: record_cases::deviations, outcomes: &[ACCEPTED] },
    Kind { name: "breaks", attempt: history_cases::breaks, outcomes: &[1, 2, 3, 4, 8, ACCEPTED, CLOCK_BACK, NEW_LOCK] },
];

pub(crate) fn outcome(refusal: u64, kind: u64) -> u64 {
    if refusal == 0 {
        ACCEPTED + kind
    } else {
        refusal
    }
}

/// Bytes that are a message, nearly one, or none at all.
fn nearly_message(random: &mut Random) -> Vec<u8> {
    let message = streams::message(random);
    nearly(random, message)
}

/// The same of this message.
pub(crate) fn nearly(random: &mut Random, mut bytes: Vec<u8>) -> Vec<u8> {
    match random.below(10) {
        0 => streams::damage(random, &mut bytes),
        1 => {
            let length = bytes.len();
            bytes[random.below(7).min(length - 1)] ^= 1 << random.below(8);
        }
        2 => bytes.truncate(random.below(bytes.len())),
        3 => bytes.extend(random.bytes_below(30)),
        4 => bytes = random.bytes_below(40),
        5 => bytes = streams::stream(random),
        _ => (),
    }
    bytes
}

fn check(random: &mut Random) -> Verdict<u64> {
    compare::check(&nearly_message(random)).map(|refusal| outcome(refusal, 0))
}

fn read_header(random: &mut Random) -> Verdict<u64> {
    compare::read_header(&nearly_message(random)).map(|refusal| outcome(refusal, 0))
}

/// Mostly an index that the message has, or the first that it has not.
fn index(random: &mut Random, message: &[u8]) -> usize {
    let count = message.len() / 24;
    match random.below(8) {
        0 => random.edgy() as usize,
        1 => usize::MAX / 24 + random.below(3),
        2 => 256 + random.below(3),
        _ => random.below(count + 1),
    }
}

fn read_observation(random: &mut Random) -> Verdict<u64> {
    let message = nearly_message(random);
    let index = index(random, &message);
    compare::read_observation(&message, index).map(|refusal| outcome(refusal, 0))
}

fn read_all(random: &mut Random) -> Verdict<u64> {
    compare::read_all_lent(&nearly_message(random)).map(|refusal| outcome(refusal, 0))
}

/// A buffer full of anything, of about this length.
pub(crate) fn buffer(random: &mut Random, about: usize) -> Vec<u8> {
    let length = match random.below(6) {
        0 => random.below(about + 1),
        1 => about,
        2 => about.saturating_sub(1),
        3 => about + 1,
        _ => about + random.below(200),
    };
    random.bytes(length)
}

fn start(random: &mut Random) -> Verdict<u64> {
    let header = board::Header {
        form: random.pick(&[0, 1, 2, 2, 3, 257, u64::MAX]),
        version: random.edgy(),
        signal: random.edgy(),
        tfom: random.edgy(),
        time: random.edgy(),
        offset: random.edgy(),
    };
    let count = if random.once_in(4) { random.byte() } else { random.below(4) as u8 };
    let form = if header.form == board::OLD { Form::Old } else { Form::New };
    compare::start(&buffer(random, form.length(count)), header, count).map(|refusal| outcome(refusal, 0))
}

/// An observation as a caller may give it, now and then with bits above its fields.
fn observation(random: &mut Random) -> board::Observation {
    if random.once_in(2) {
        return expected::observation(streams::observation(random));
    }
    board::Observation {
        sid: random.edgy(),
        condition: random.edgy(),
        cn0: random.edgy(),
        phase: random.edgy(),
        pseudorange: random.edgy(),
        rate: random.edgy() as i64,
        lock: random.edgy(),
    }
}

fn set(random: &mut Random) -> Verdict<u64> {
    let message = nearly_message(random);
    let index = index(random, &message);
    compare::set(&message, index, observation(random)).map(|refusal| outcome(refusal, 0))
}

fn to_new(random: &mut Random) -> Verdict<u64> {
    let message = nearly_message(random);
    let signal = if random.once_in(2) { 0 } else { random.byte() };
    let output = buffer(random, message.len() + 1);
    compare::to_new(&message, signal, random.byte(), &output).map(|refusal| outcome(refusal, 0))
}

fn to_old(random: &mut Random) -> Verdict<u64> {
    let message = nearly_message(random);
    let output = buffer(random, message.len().saturating_sub(1));
    compare::to_old(&message, random.byte(), &output).map(|refusal| outcome(refusal, 0))
}

/// One start anywhere, and the whole recording from message to message.
fn next(random: &mut Random) -> Verdict<u64> {
    let stream = streams::stream(random);
    compare::recording(&stream)?;
    let start = if random.once_in(4) { random.edgy() as usize } else { random.below(stream.len() + 2) };
    compare::next(&stream, start).map(|refusal| outcome(refusal, 0))
}

/// Some positions, mostly where a sync string may begin. The last of them is the outcome.
fn why(random: &mut Random) -> Verdict<u64> {
    let stream = streams::stream(random);
    let mut starts: Vec<_> = (0..stream.len()).filter(|&position| stream[position] == b'M').collect();
    starts.push(stream.len());
    let mut position = || match random.below(8) {
        0 => random.edgy() as usize,
        1 | 2 => random.below(stream.len() + 2),
        _ => random.pick(&starts),
    };
    let positions = [(); 20].map(|_| position());
    compare::reasons(&stream, positions)?;
    let reason = board::why(&stream, positions[19]);
    Ok(outcome(reason.refusal, reason.kind))
}

fn numbers(random: &mut Random) -> Verdict<u64> {
    let form = random.pick(&[0, 1, 2, 2, 2, 3, 257]);
    compare::numbers(form, observation(random)).map(|kind| outcome(0, kind))
}

/// A window or an output: mostly just long enough, now and then too short or longer, full of anything.
fn lent(random: &mut Random) -> Vec<u8> {
    let length = match random.below(40) {
        0 => random.below(LONGEST),
        1 => LONGEST - 1,
        2..=9 => LONGEST + random.below(3000),
        10 => 2 * LONGEST + random.below(20000),
        _ => LONGEST,
    };
    let mark = random.byte();
    let mut bytes = vec![mark; length];
    // Sync letters behind the held bytes would show a reader that looks at them.
    for chunk in bytes.chunks_mut(16).filter(|chunk| chunk.len() == 16) {
        chunk.copy_from_slice(&[&b"MAC2"[..], &[mark, 0, 0, mark], &b"MACM"[..], &[0, 0, mark, 0]].concat());
    }
    bytes
}

/// A stream that is longer than a window now and then.
fn long_stream(random: &mut Random) -> Vec<u8> {
    let mut bytes = streams::stream(random);
    if random.once_in(4) {
        let length = LONGEST - random.below(3);
        bytes = [&Form::New.sync()[..], &random.bytes(2), &[255], &bytes].concat();
        while bytes.len() < length {
            bytes.extend(streams::piece_of_stream(random));
        }
        bytes.truncate(length + random.below(20));
    }
    bytes
}

/// A state that holds so many bytes and is sound, or is not; its counts stand at their edges more often than chance has them.
fn state(random: &mut Random, held: u64) -> board::State {
    let total = match random.below(4) {
        0 => STREAM_BYTES - random.pick(&[0, 0, 1, 15, 16, 300, 6136]),
        1 => held + random.below(9) as u64,
        _ => held + random.number() % (STREAM_BYTES - held),
    };
    let total = total.max(held);
    let gap = match random.below(3) {
        0 => total - held,
        1 => random.number() % (total - held + 1),
        _ => (total - held).min(random.below(20) as u64),
    };
    let summed = match random.below(4) {
        0 => SUMMED_BYTES - random.pick(&[0, 0, 1, 10, 11, 6131]),
        1 => random.below(9) as u64,
        _ => random.number() % SUMMED_BYTES,
    };
    let mut state = board::State { held, gap, total, ended: 0, summed };
    match random.below(40) {
        0 => state.held = random.pick(&[LONGEST as u64 + 1, u64::MAX, 1 << 32, 1 << 48]),
        1 => state.total = STREAM_BYTES + 1,
        2 => state.gap = state.total - held + 1,
        3 => state.gap = u64::MAX - random.below(7000) as u64,
        4 => state.total = random.edgy(),
        5 => (state.gap, state.total) = (u64::MAX - held, u64::MAX),
        6 => state = board::State { held: random.edgy(), gap: random.edgy(), total: random.edgy(), ended: 0, summed: random.edgy() },
        7 => state.summed = random.pick(&[SUMMED_BYTES + 1, 1 << 61, u64::MAX]),
        8 => state.summed = random.edgy(),
        _ => (),
    }
    if random.once_in(12) {
        state.ended = random.pick(&[1, 2, 256, 1 << 32, 1 << 63, u64::MAX]);
    }
    state
}

/// A reader in any state over any window and output, and what is left of the stream that its held bytes begin.
fn anywhere(random: &mut Random) -> (Twin, Vec<u8>) {
    let mut stream = long_stream(random);
    let most = stream.len().min(LONGEST);
    let held = if random.once_in(4) { most } else { random.below(most + 1) };
    let rest = stream.split_off(held);
    let state = state(random, held as u64);
    let (mut window, output) = (lent(random), lent(random));
    let fits = held.min(window.len());
    window[..fits].copy_from_slice(&stream[..fits]);
    (Twin::new(state, window, output), rest)
}

fn feed(random: &mut Random) -> Verdict<u64> {
    let (mut twin, rest) = anywhere(random);
    let offered = random.below(rest.len() + 1).max(random.below(rest.len() + 1));
    let answer = twin.feed(&rest[..offered])?;
    Ok(outcome(answer.refusal, answer.kind))
}

/// Finishes three times, whatever comes of it, and feeds once more.
fn finish(random: &mut Random) -> Verdict<u64> {
    let (mut twin, rest) = anywhere(random);
    let answer = twin.finish()?;
    twin.feed(&rest)?;
    twin.finish()?;
    twin.finish()?;
    Ok(outcome(answer.refusal, answer.kind))
}

/// A whole run over a stream, cut anywhere.
fn whole_run(random: &mut Random) -> Verdict<u64> {
    let stream = if random.once_in(10) { long_stream(random) } else { streams::stream(random) };
    let pieces = streams::cuts(random, stream.len());
    let mut long_enough = || {
        let mut bytes = lent(random);
        bytes.resize(bytes.len().max(LONGEST), 0x4D);
        bytes
    };
    let (window, output) = (long_enough(), long_enough());
    run::run(&stream, &pieces, window, output)?;
    Ok(ACCEPTED)
}
