//! The histories are hostile enough: the slips that people make in looking for breaks of lock are told from the right reader by them; and so are the
//! words, which alone show the slips with a history from C.

use reader::{breaks, fresh_history, next_breaks, Break, Entry, Header, Message, BREAKS_NUMBERS, HISTORY_WORDS};
use streams::{history, history_words, Random};

const SEED: u64 = 769;
const HISTORIES: u64 = 4000;

type Words = [u64; HISTORY_WORDS];

#[derive(Clone, Copy)]
struct Pair {
    time: u64,
    lock: u64,
}

/// What a reader by a table goes by, and a slip may have otherwise.
struct Ways {
    /// Whether a message with this header is of the TYPE.
    counts: fn(u64, Header) -> bool,
    /// The place of a SID in the table.
    place: fn(u8) -> usize,
    /// Which words are those of the last appearance: the SID's before the message, or those that it has now.
    last: fn([u64; 3], [u64; 3]) -> [u64; 3],
    seen: fn(u64) -> bool,
    /// What the pair that comes says behind the last.
    said: fn(Pair, Pair) -> Option<Break>,
    /// Which pair is kept where the last, if there is one, and the one that comes say this.
    kept: fn(Option<Pair>, Pair, Option<Break>) -> Pair,
    /// What becomes of the table between two messages.
    between: fn(&mut Words),
}

const WAYS: Ways = Ways {
    counts: |signal, header| matches!(header, Header::New { signal: own, .. } if u64::from(own) == signal),
    place: usize::from,
    last: |_, now| now,
    seen: |word| word != 0,
    said: |last, comes| said_by(comes.time < last.time, comes.lock < last.lock),
    kept: |_, comes, _| comes,
    between: |_| (),
};

fn said_by(back: bool, lower: bool) -> Option<Break> {
    if back {
        Some(Break::ClockBack)
    } else {
        lower.then_some(Break::NewLock)
    }
}

/// The list of one message by these ways.
fn list_by(ways: &Ways, words: &mut Words, message: &Message) -> Vec<Entry> {
    let (Header::Old { time, .. } | Header::New { time, .. }) = message.header;
    if !(ways.counts)(words[0], message.header) {
        return Vec::new();
    }
    let (before, mut list) = (*words, Vec::new());
    for observation in &message.observations {
        let comes = Pair { time: time.into(), lock: observation.lock.into() };
        let place = 1 + 3 * (ways.place)(observation.sid);
        let own = |words: &Words| [words[place], words[place + 1], words[place + 2]];
        let words_then = (ways.last)(own(&before), own(words));
        let last = (ways.seen)(words_then[0]).then_some(Pair { time: words_then[1], lock: words_then[2] });
        let said = last.and_then(|last| (ways.said)(last, comes));
        list.extend(said.map(|which| Entry { sid: observation.sid, time, which }));
        let kept = (ways.kept)(last, comes, said);
        words[place..place + 3].copy_from_slice(&[1, kept.time, kept.lock]);
    }
    list
}

/// The lists of all messages by these ways, and the words in the end.
fn lists_by(ways: &Ways, mut words: Words, messages: &[Message]) -> (Vec<Vec<Entry>>, Words) {
    let next = |message: &Message| {
        let list = list_by(ways, &mut words, message);
        (ways.between)(&mut words);
        list
    };
    (messages.iter().map(next).collect(), words)
}

/// The same by the second reader, one message a call.
fn lists_by_calls(mut words: Words, messages: &[Message]) -> (Vec<Vec<Entry>>, Words) {
    let next = |message: &Message| next_breaks(&message.to_bytes(), &mut words, BREAKS_NUMBERS).expect("a message");
    (messages.iter().map(next).collect(), words)
}

/// The number of histories of which this is true; it is told the TYPE.
fn histories_with(differs: impl Fn(&mut Random, u8, &[Message]) -> bool) -> usize {
    (0..HISTORIES)
        .filter(|case| {
            let mut random = Random::new(SEED + case);
            let signal = random.byte();
            let messages = history(&mut random, signal);
            differs(&mut random, signal, &messages)
        })
        .count()
}

/// The number of histories, from a fresh one on, with other lists by these ways.
fn noticed(ways: Ways) -> usize {
    histories_with(|_, signal, messages| lists_by(&ways, fresh_history(signal), messages).0 != breaks(signal, messages))
}

/// The number of histories, from any words on, with other lists or other words in the end.
fn noticed_in_words(ways: Ways) -> usize {
    histories_with(|random, signal, messages| {
        let words = history_words(random, signal);
        lists_by(&ways, words, messages) != lists_by_calls(words, messages)
    })
}

fn assert_noticed(slip: &str, times: usize) {
    println!("seed {SEED}: {slip}: noticed in {times} of {HISTORIES} histories");
    assert!(times >= HISTORIES as usize / 100, "{slip}: noticed in {times} of {HISTORIES} histories only");
}

#[test]
fn the_frame_itself_is_right() {
    assert_eq!(noticed(WAYS), 0);
    assert_eq!(noticed_in_words(WAYS), 0);
    let one_a_call = |_: &mut Random, signal, messages: &[Message]| lists_by_calls(fresh_history(signal), messages).0 != breaks(signal, messages);
    assert_eq!(histories_with(one_a_call), 0);
}

/// The last pair, where there is one and this holds; else the one that comes.
fn last_if(holds: bool, last: Option<Pair>, comes: Pair) -> Pair {
    last.filter(|_| holds).unwrap_or(comes)
}

#[test]
fn the_pair_kept_where_a_break_is_said() {
    let kept = |last, comes, said| last_if(said == Some(Break::ClockBack), last, comes);
    assert_noticed("the pair kept at a clock back", noticed(Ways { kept, ..WAYS }));
    let kept = |last, comes, said| last_if(said == Some(Break::NewLock), last, comes);
    assert_noticed("the pair kept at a new lock", noticed(Ways { kept, ..WAYS }));
}

#[test]
fn the_pair_replaced_where_a_break_is_said_alone() {
    let kept = |last, comes, said: Option<Break>| last_if(said.is_none(), last, comes);
    assert_noticed("the pair replaced at a break alone", noticed(Ways { kept, ..WAYS }));
}

#[test]
fn half_of_the_pair_kept() {
    let kept = |last: Option<Pair>, comes: Pair, _| Pair { lock: last.unwrap_or(comes).lock, ..comes };
    assert_noticed("the time kept, but not the count", noticed(Ways { kept, ..WAYS }));
    let kept = |last: Option<Pair>, comes: Pair, _| Pair { time: last.unwrap_or(comes).time, ..comes };
    assert_noticed("the count kept, but not the time", noticed(Ways { kept, ..WAYS }));
}

#[test]
fn new_lock_before_clock_back() {
    let said = |last: Pair, comes: Pair| if comes.lock < last.lock { Some(Break::NewLock) } else { said_by(comes.time < last.time, false) };
    assert_noticed("new lock before clock back", noticed(Ways { said, ..WAYS }));
}

#[test]
fn equal_numbers_as_a_break() {
    let said = |last: Pair, comes: Pair| said_by(comes.time < last.time, comes.lock <= last.lock);
    assert_noticed("equal counts as a new lock", noticed(Ways { said, ..WAYS }));
    let said = |last: Pair, comes: Pair| said_by(comes.time <= last.time, comes.lock < last.lock);
    assert_noticed("equal times as a clock back", noticed(Ways { said, ..WAYS }));
}

/// A count that wraps looks like one that goes on.
#[test]
fn numbers_compared_by_their_difference() {
    let said = |last: Pair, comes: Pair| said_by(comes.time < last.time, (comes.lock as i32).wrapping_sub(last.lock as i32) < 0);
    assert_noticed("counts by their difference", noticed(Ways { said, ..WAYS }));
    let said = |last: Pair, comes: Pair| said_by((comes.time as i32).wrapping_sub(last.time as i32) < 0, comes.lock < last.lock);
    assert_noticed("times by their difference", noticed(Ways { said, ..WAYS }));
}

#[test]
fn numbers_compared_with_a_sign() {
    let said = |last: Pair, comes: Pair| said_by(comes.time < last.time, (comes.lock as i32) < last.lock as i32);
    assert_noticed("counts with a sign", noticed(Ways { said, ..WAYS }));
    let said = |last: Pair, comes: Pair| said_by((comes.time as i32) < last.time as i32, comes.lock < last.lock);
    assert_noticed("times with a sign", noticed(Ways { said, ..WAYS }));
}

#[test]
fn a_history_shared_between_sids() {
    assert_noticed("one pair for all SIDs", noticed(Ways { place: |_| 0, ..WAYS }));
    assert_noticed("SID 255 in the place of SID 0", noticed(Ways { place: |sid| usize::from(sid) % 255, ..WAYS }));
}

/// The message without the later appearances of each SID.
fn first_alone(mut message: Message) -> Message {
    let mut seen = Vec::new();
    message.observations.retain(|observation| {
        let first = !seen.contains(&observation.sid);
        seen.push(observation.sid);
        first
    });
    message
}

#[test]
fn a_second_appearance_in_one_message() {
    assert_noticed("compared with what was before the message", noticed(Ways { last: |before, _| before, ..WAYS }));
    let overlooks = |_: &mut Random, signal, messages: &[Message]| {
        let first_of_each: Vec<_> = messages.iter().cloned().map(first_alone).collect();
        breaks(signal, &first_of_each) != breaks(signal, messages)
    };
    assert_noticed("the second in one message overlooked", histories_with(overlooks));
}

#[test]
fn messages_that_are_not_passed_over() {
    let other_types = |_, header| matches!(header, Header::New { .. });
    assert_noticed("another TYPE counted", noticed(Ways { counts: other_types, ..WAYS }));
    let old = |signal, header| matches!(header, Header::Old { .. }) || (WAYS.counts)(signal, header);
    assert_noticed("an old message counted", noticed(Ways { counts: old, ..WAYS }));
    let old_by_version =
        |signal, header| matches!(header, Header::Old { version, .. } if u64::from(version) == signal) || (WAYS.counts)(signal, header);
    assert_noticed("VERSION taken for TYPE", noticed(Ways { counts: old_by_version, ..WAYS }));
}

/// A table that nobody cleared. One of zeros alone shows nothing, since no number is lower than 0.
#[test]
fn a_first_appearance_taken_for_a_later_one() {
    let ones = |_, now: [u64; 3]| if now[0] == 0 { [1, u64::MAX, u64::MAX] } else { now };
    assert_noticed("a first appearance behind ones", noticed(Ways { last: ones, ..WAYS }));
    let said = |last: Pair, comes: Pair| said_by(comes.time < last.time, comes.lock == 0 || comes.lock < last.lock);
    assert_noticed("a first count of 0 as a new lock", noticed(Ways { seen: |_| true, said, ..WAYS }));
    assert_eq!(noticed(Ways { seen: |_| true, ..WAYS }), 0);
}

#[test]
fn a_history_that_is_fresh_for_each_message() {
    assert_noticed("a history fresh for each message", noticed(Ways { between: |words| words[1..].fill(0), ..WAYS }));
}

/// The number of histories in which a slip makes another list of a right one.
fn noticed_in_lists(slip: fn(&mut Vec<Entry>)) -> usize {
    histories_with(|_, signal, messages| {
        let right = breaks(signal, messages);
        let mut lists = right.clone();
        lists.iter_mut().for_each(slip);
        lists != right
    })
}

#[test]
fn entries_in_another_order_or_lost() {
    assert_noticed("entries by their SIDs", noticed_in_lists(|list| list.sort_by_key(|entry| entry.sid)));
    assert_noticed("entries from the last", noticed_in_lists(|list| list.reverse()));
    assert_noticed("entries of one SID in a row as one", noticed_in_lists(|list| list.dedup_by_key(|entry| entry.sid)));
}

/// Of a history from C any words count as what they are.
#[test]
fn words_taken_for_narrower_ones() {
    assert_noticed("words whatever was seen", noticed_in_words(Ways { seen: |_| true, ..WAYS }));
    assert_noticed("seen by 1 alone", noticed_in_words(Ways { seen: |word| word == 1, ..WAYS }));
    assert_noticed("seen by its lowest byte", noticed_in_words(Ways { seen: |word| word as u8 != 0, ..WAYS }));
    assert_noticed("seen by its lower half", noticed_in_words(Ways { seen: |word| word as u32 != 0, ..WAYS }));
    let said = |last: Pair, comes: Pair| said_by(comes.time < last.time & 0xFFFF_FFFF, comes.lock < last.lock);
    assert_noticed("a time's lower half", noticed_in_words(Ways { said, ..WAYS }));
    let said = |last: Pair, comes: Pair| said_by(comes.time < last.time, comes.lock < last.lock & 0xFFFF_FFFF);
    assert_noticed("a count's lower half", noticed_in_words(Ways { said, ..WAYS }));
    let said = |last: Pair, comes: Pair| said_by((comes.time as i64) < last.time as i64, (comes.lock as i64) < last.lock as i64);
    assert_noticed("words with a sign", noticed_in_words(Ways { said, ..WAYS }));
    assert_noticed("TYPE's lowest byte", noticed_in_words(Ways { counts: |signal, header| (WAYS.counts)(signal & 0xFF, header), ..WAYS }));
}
