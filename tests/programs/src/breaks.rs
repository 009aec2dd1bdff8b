//! What the program `breaks` has to print.

use reader::{breaks as lists, divide, fresh_history, next_breaks, Break, Entry, Message, BREAKS_NUMBERS};

pub const BREAKS_HEADING: &str = "at sid time break\n";

/// The breaks of this TYPE in a stream, by the history of all its messages.
pub fn breaks(signal: u8, stream: &[u8]) -> String {
    let given = divide(stream).given;
    let bytes = given.iter().map(|given| &stream[given.position..given.position + given.length]);
    let messages: Vec<_> = bytes.map(|bytes| Message::from_bytes(bytes).expect("the division gives valid messages")).collect();
    let texts = given.iter().zip(lists(signal, &messages)).map(|(given, list)| lines(given.position, &list));
    BREAKS_HEADING.to_string() + &texts.collect::<String>()
}

/// The lines of each message in turn, as they come one behind the other.
pub fn breaks_of(signal: u8) -> impl FnMut(usize, &[u8]) -> String {
    let mut history = fresh_history(signal);
    move |position, bytes| lines(position, &next_breaks(bytes, &mut history, BREAKS_NUMBERS).expect("the division gives valid messages"))
}

fn lines(position: usize, list: &[Entry]) -> String {
    list.iter().map(|entry| format!("{position} {} {} {}\n", entry.sid, entry.time, word(entry.which))).collect()
}

fn word(which: Break) -> &'static str {
    match which {
        Break::ClockBack => "clock-back",
        Break::NewLock => "new-lock",
    }
}
