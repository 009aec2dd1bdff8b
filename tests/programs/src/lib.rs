//! What the programs have to print, from the second reader and by other means than theirs: Rust's formatting, exact decimal expansions, strings.

mod breaks;
mod host;
mod sample;
mod started;
mod vectors;
mod why;

pub use breaks::{breaks, breaks_of, BREAKS_HEADING};
pub use host::host;
pub use sample::{every_break, every_phase, every_reason, recording};
pub use started::{offered, printed, said, started};
pub use vectors::vectors;
pub use why::{why, why_lines, WHY_HEADING, WHY_LONGEST};

use reader::{divide, lock_ms, phase, range_um, standing, Form, Header, Message, Observation, Phase, Polarity, Standing};

pub const LISTING_HEADING: &str = "at bytes form obs time\n";
pub const ROWS_HEADING: &str = "at time form type sid cn0 condition range phase bits polarity rate lock\n";

fn time(header: Header) -> u32 {
    match header {
        Header::New { time, .. } | Header::Old { time, .. } => time,
    }
}

/// The line of a message in the listing.
pub fn line(position: usize, bytes: &[u8]) -> String {
    let message = Message::from_bytes(bytes).expect("the division gives valid messages");
    let form = if message.header.form() == Form::New { "v2" } else { "v1" };
    format!("{position} {} {form} {} {}\n", bytes.len(), message.observations.len(), time(message.header))
}

/// The listing of document 01.
pub fn listing(stream: &[u8]) -> String {
    let division = divide(stream);
    let mut text = LISTING_HEADING.to_string();
    let mut gap = division.rest;
    for given in &division.given {
        text += &line(given.position, &stream[given.position..given.position + given.length]);
        gap += given.gap;
    }
    text + &format!("end {} messages {} gap {gap}\n", stream.len(), division.given.len())
}

/// The rows of every observation of a stream.
pub fn rows(stream: &[u8]) -> String {
    let mut text = ROWS_HEADING.to_string();
    for given in divide(stream).given {
        text += &rows_of(given.position, &stream[given.position..given.position + given.length]);
    }
    text
}

/// What a program has to print of the bytes that have come while more may come: of the messages that are settled from this position on, which moves to
/// the first byte that is not.
pub fn settled(text_of: &mut impl FnMut(usize, &[u8]) -> String, come: &[u8], position: &mut usize) -> String {
    let mut text = String::new();
    loop {
        match standing(&come[*position..]) {
            Standing::Open => return text,
            Standing::Gap | Standing::Damaged(_) => *position += 1,
            Standing::Message(length) => {
                text += &text_of(*position, &come[*position..*position + length]);
                *position += length;
            }
        }
    }
}

/// The rows of a message.
pub fn rows_of(position: usize, bytes: &[u8]) -> String {
    let message = Message::from_bytes(bytes).expect("the division gives valid messages");
    message.observations.iter().map(|observation| row(position, message.header, observation)).collect()
}

fn row(position: usize, header: Header, observation: &Observation) -> String {
    let form = match header {
        Header::New { signal, .. } => format!("v2 {signal}"),
        Header::Old { .. } => "v1 -".to_string(),
    };
    let Observation { sid, cn0, condition, phase: bits, .. } = *observation;
    let range = range_um(observation.pseudorange);
    let rate = i64::from(observation.rate);
    let (cycles, polarity) = shown(phase(header.form(), observation));
    let sign = if rate < 0 { "-" } else { "" };
    format!(
        "{position} {} {form} {sid} {cn0} {condition:04X} {}.{:06} {cycles} {bits:016X} {polarity} {sign}{}.{:04} {}\n",
        time(header),
        range / 1_000_000,
        range % 1_000_000,
        rate.abs() / 10_000,
        rate.abs() % 10_000,
        lock_ms(observation.lock),
    )
}

/// The phase and the word for its polarity.
fn shown(phase: Phase) -> (String, String) {
    match phase {
        Phase::Withheld => ("withheld".to_string(), "-".to_string()),
        Phase::NotFinite => ("nonfinite".to_string(), "-".to_string()),
        Phase::Cycles(cycles, polarity) => (in_cycles(cycles), word(polarity)),
    }
}

fn in_cycles(cycles: f64) -> String {
    if cycles.abs() >= 9_007_199_254_740_992.0 {
        "wide".to_string()
    } else {
        thousandths(cycles)
    }
}

fn word(polarity: Polarity) -> String {
    match polarity {
        Polarity::Unknown => "unknown".to_string(),
        Polarity::NotCorrected => "uncorrected".to_string(),
        Polarity::DueHalf => "half".to_string(),
        Polarity::Undefined(code) => format!("undefined{code}"),
    }
}

/// Three decimals of a double, halves away from zero: from all of its decimals, of which it has 1,074 at most.
pub fn thousandths(value: f64) -> String {
    let exact = format!("{:.1074}", value.abs());
    let (whole, decimals) = exact.split_once('.').expect("decimals were asked for");
    let mut rounded: u64 = format!("{whole}{}", &decimals[..3]).parse().expect("digits of a double below 2^53");
    if decimals.as_bytes()[3] >= b'5' {
        rounded += 1;
    }
    format!("{}{}.{:03}", if value.is_sign_negative() { "-" } else { "" }, rounded / 1000, rounded % 1000)
}
