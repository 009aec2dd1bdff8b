//! Breaks of lock through the C boundary: recordings message by message beside the second reader, any words as a history, and the refusals in order.

use boundary::board::{self, History, Listed};
use boundary::{breaks, breaks_fresh};
use reader::{fresh_history, Break, Entry, Form, Header, Message, Observation, BREAKS_NUMBERS, HISTORY_WORDS};
use streams::Random;

const SEED: u64 = 765;
const HISTORIES: u64 = 1500;

const TYPE: u8 = 16;
const TIME: u32 = 604_799_500;
const LOCK: u32 = 30_000;

/// A message of the new form at TIME with these SIDs and lock counts.
fn typed(signal: u8, observed: &[(u8, u32)]) -> Message {
    let observation = |&(sid, lock): &(u8, u32)| Observation { sid, lock, condition: 0x053F, cn0: 40, phase: u64::MAX, pseudorange: 7, rate: -1 };
    Message { header: Header::New { signal, tfom: 255, time: TIME, offset: 6 }, observations: observed.iter().map(observation).collect() }
}

fn message(observed: &[(u8, u32)]) -> Vec<u8> {
    typed(TYPE, observed).to_bytes()
}

/// Of the old form, of another TYPE, and without observations.
fn passed_over() -> [Vec<u8>; 3] {
    let old = Message { header: Header::Old { version: TYPE, time: TIME, offset: 6 }, ..typed(TYPE, &[(2, LOCK)]) };
    [old.to_bytes(), typed(TYPE + 1, &[(2, LOCK)]).to_bytes(), message(&[])]
}

/// A history of the TYPE in which every SID was seen later, so that each appearance is a break.
fn later() -> History {
    let mut history = [u64::MAX; HISTORY_WORDS];
    history[0] = TYPE.into();
    history
}

/// So many numbers, no two alike.
fn numbers(length: usize) -> Vec<u64> {
    (0..length as u64).map(|number| !number).collect()
}

fn accepted(count: u64) -> Listed {
    Listed { refusal: 0, count }
}

/// One message behind a history that goes on, with a list that is just long enough: its entries.
fn listed(message: &[u8], history: &mut History) -> Vec<Entry> {
    let mut list = numbers(BREAKS_NUMBERS);
    let count = breaks(message, history, &mut list).unwrap().count as usize;
    let entry = |numbers: &[u64]| Entry { sid: numbers[0] as u8, time: numbers[1] as u32, which: which(numbers[2]) };
    list[..3 * count].chunks(3).map(entry).collect()
}

fn which(number: u64) -> Break {
    match number {
        board::CLOCK_BACK => Break::ClockBack,
        board::NEW_LOCK => Break::NewLock,
        other => panic!("a break of the kind {other}"),
    }
}

/// The lists of a recording, one message a call, behind a history that is made in any words.
fn lists(random: &mut Random, signal: u8, messages: &[Message]) -> Vec<Vec<Entry>> {
    let mut history = breaks_fresh(&streams::history_words(random, signal), signal).unwrap();
    messages.iter().map(|message| listed(&message.to_bytes(), &mut history)).collect()
}

/// Histories from the seed on, each with its TYPE.
fn histories() -> impl Iterator<Item = (Random, u8, Vec<Message>)> {
    println!("breaks: {HISTORIES} cases from seed {SEED}");
    (SEED..SEED + HISTORIES).map(|seed| {
        let mut random = Random::new(seed);
        let signal = random.byte();
        let messages = streams::history(&mut random, signal);
        (random, signal, messages)
    })
}

#[test]
fn many_histories() {
    for (mut random, signal, messages) in histories() {
        assert_eq!(lists(&mut random, signal, &messages), reader::breaks(signal, &messages), "TYPE {signal}");
    }
}

#[test]
fn many_histories_from_any_words() {
    for (mut random, signal, messages) in histories() {
        let mut history = streams::history_words(&mut random, signal);
        for message in messages {
            let length = BREAKS_NUMBERS + random.below(9);
            breaks(&message.to_bytes(), &mut history, &mut numbers(length)).unwrap();
        }
    }
}

/// What is said of a SID stays where all observations of others are taken out of their messages.
#[test]
fn a_sid_by_itself() {
    for (mut random, signal, messages) in histories() {
        let all = lists(&mut random, signal, &messages);
        for sid in [0, 255].into_iter().chain(all.iter().flatten().map(|entry| entry.sid).next()) {
            let mut alone = messages.clone();
            alone.iter_mut().for_each(|message| message.observations.retain(|observation| observation.sid == sid));
            let own: Vec<Vec<_>> = all.iter().map(|list| list.iter().copied().filter(|entry| entry.sid == sid).collect()).collect();
            assert_eq!(lists(&mut random, signal, &alone), own, "SID {sid}");
        }
    }
}

#[test]
fn a_fresh_history_whatever_stood_there() {
    for signal in 0..=255 {
        for before in [[0; HISTORY_WORDS], [u64::MAX; HISTORY_WORDS], later(), [signal.into(); HISTORY_WORDS]] {
            let history = breaks_fresh(&before, signal).unwrap();
            assert_eq!((history[0], history[1..].iter().all(|&word| word == 0)), (signal.into(), true));
        }
    }
}

/// Each TYPE of a message beside each of a history: where they are the same, and there alone, the message counts.
#[test]
fn every_type() {
    let messages: Vec<_> = (0..=255).map(|signal| typed(signal, &[(signal, LOCK)]).to_bytes()).collect();
    let mut list = numbers(BREAKS_NUMBERS);
    for signal in 0..=255 {
        for (own, message) in messages.iter().enumerate() {
            let mut history = later();
            history[0] = signal;
            let count = u64::from(own as u64 == signal);
            assert_eq!(breaks(message, &mut history, &mut list).unwrap(), accepted(count), "TYPE {own} behind a history of {signal}");
        }
    }
}

#[test]
fn a_type_above_a_byte() {
    for above in [256, 256 + u64::from(TYPE), (1 << 32) + u64::from(TYPE), (1 << 63) + u64::from(TYPE), u64::MAX] {
        let mut history = later();
        history[0] = above;
        let before = history;
        assert_eq!(listed(&message(&[(2, LOCK)]), &mut history), []);
        assert_eq!(history, before);
    }
}

#[test]
fn every_sid() {
    for sid in 0..=255 {
        let mut history = fresh_history(TYPE);
        assert_eq!(listed(&message(&[(sid, LOCK)]), &mut history), []);
        let place = 1 + 3 * usize::from(sid);
        assert_eq!(history[place..place + 3], [1, u64::from(TIME), u64::from(LOCK)]);
        assert_eq!(history.iter().filter(|&&word| word != 0).count(), 4, "the TYPE and the words of SID {sid}");
        assert_eq!(listed(&message(&[(sid, LOCK - 1)]), &mut history), [Entry { sid, time: TIME, which: Break::NewLock }]);
    }
}

/// Words at the edges, beside this number, and with the same lower half.
fn around(number: u32) -> [u64; 9] {
    let number = u64::from(number);
    [0, 1, number - 1, number, number + 1, 1 << 32, (1 << 32) + number, 1 << 63, u64::MAX]
}

/// What a SID's words say of a message: whatever is not 0 was seen, and times and counts are compared as the words that they are.
#[test]
fn any_words_of_a_sid() {
    for seen in [0, 1, 2, 255, 256, 1 << 32, 1 << 63, u64::MAX] {
        for (time, lock) in around(TIME).into_iter().flat_map(|time| around(LOCK).map(|lock| (time, lock))) {
            let mut history = later();
            history[7..10].copy_from_slice(&[seen, time, lock]);
            let said = match (seen, time > TIME.into(), lock > LOCK.into()) {
                (0, ..) | (_, false, false) => None,
                (_, true, _) => Some(Break::ClockBack),
                (_, false, true) => Some(Break::NewLock),
            };
            let expected: Vec<_> = said.map(|which| Entry { sid: 2, time: TIME, which }).into_iter().collect();
            assert_eq!(listed(&message(&[(2, LOCK)]), &mut history), expected, "{seen} {time} {lock}");
            assert_eq!(history[7..10], [1, TIME.into(), LOCK.into()]);
            assert_eq!((&history[..7], &history[10..]), (&later()[..7], &later()[10..]));
        }
    }
}

/// A message of which every observation is a break fills the list, and what stands behind stays.
#[test]
fn as_many_entries_as_there_can_be() {
    let all: Vec<_> = (0..255).map(|sid| (sid, LOCK)).collect();
    let falling: Vec<_> = (0..255).map(|lower| (7, LOCK - lower)).collect();
    for (observed, kinds) in [(all, [board::CLOCK_BACK; 2]), (falling, [board::CLOCK_BACK, board::NEW_LOCK])] {
        for length in [BREAKS_NUMBERS, BREAKS_NUMBERS + 1, BREAKS_NUMBERS + 300] {
            let mut list = numbers(length);
            assert_eq!(breaks(&message(&observed), &mut later(), &mut list).unwrap(), accepted(255));
            assert_eq!(list[..6], [observed[0].0.into(), TIME.into(), kinds[0], observed[1].0.into(), TIME.into(), kinds[1]]);
            assert_eq!(list[762..765], [observed[254].0.into(), TIME.into(), kinds[1]]);
            assert_eq!(list[765..], numbers(length)[765..]);
        }
    }
}

/// These bytes are refused with this number, and nothing is answered besides; that nothing changes is compared with each call.
fn refused(bytes: &[u8], length: usize, refusal: u64) {
    let answer = breaks(bytes, &mut later(), &mut numbers(length)).unwrap();
    assert_eq!(answer, Listed { refusal, count: 0 }, "{} bytes and {length} numbers", bytes.len());
}

/// A message that is too short, that has no sync string, a wrong length and a wrong checksum.
fn bad() -> [(Vec<u8>, u64); 4] {
    let good = message(&[(2, LOCK), (2, LOCK - 1)]);
    let last = good.len() - 1;
    let with = |place: usize| {
        let mut bytes = good.clone();
        bytes[place] ^= 1;
        bytes
    };
    [(good[..14].to_vec(), 1), (with(0), 2), (good[..last].to_vec(), 3), (with(last), 4)]
}

/// 8 for every list that has no room for 255 entries, also where nothing would be listed; 1 to 4 before it.
#[test]
fn every_length_of_a_list() {
    let taken = [(message(&[(2, LOCK)]), 1)].into_iter().chain(passed_over().map(|message| (message, 0)));
    for (bytes, count) in taken {
        (0..BREAKS_NUMBERS).for_each(|length| refused(&bytes, length, 8));
        for length in BREAKS_NUMBERS..=BREAKS_NUMBERS + 5 {
            assert_eq!(breaks(&bytes, &mut later(), &mut numbers(length)).unwrap(), accepted(count));
        }
    }
    for (bytes, refusal) in bad() {
        (0..=BREAKS_NUMBERS + 5).for_each(|length| refused(&bytes, length, refusal));
    }
}

#[test]
fn every_damaged_byte() {
    let good = message(&[(2, LOCK), (2, LOCK - 1)]);
    for (place, change) in (0..good.len()).flat_map(|place| [1, 0x7F, 0x80].map(|change| (place, change))) {
        let mut bytes = good.clone();
        bytes[place] ^= change;
        let refusal = reader::check(&bytes).expect_err("a damaged byte is noticed");
        [0, BREAKS_NUMBERS - 1, BREAKS_NUMBERS].into_iter().for_each(|length| refused(&bytes, length, refusal));
    }
}

/// Fronts of messages of both forms, of all lengths and one byte more.
#[test]
fn every_short_length() {
    for (form, count) in Form::BOTH.into_iter().flat_map(|form| [0, 1, 2].map(|count| (form, count))) {
        let observed = [(2, LOCK), (2, LOCK - 1)];
        let mut whole = typed(TYPE, &observed[..count]);
        if form == Form::Old {
            whole.header = Header::Old { version: TYPE, time: TIME, offset: 6 };
        }
        let bytes = [&whole.to_bytes()[..], &[0]].concat();
        for length in (0..=bytes.len()).filter(|&length| length != form.length(count as u8)) {
            refused(&bytes[..length], BREAKS_NUMBERS, if length < 15 { 1 } else { 3 });
        }
    }
}

/// A message that is passed over changes no word, and so does one that is refused: the next goes by the one before.
#[test]
fn what_is_passed_over_or_refused_between_two_messages() {
    let between = passed_over().into_iter().chain(bad().map(|(bytes, _)| bytes));
    for bytes in between {
        let mut history = fresh_history(TYPE);
        listed(&message(&[(2, LOCK)]), &mut history);
        let before = history;
        assert_eq!(listed(&bytes, &mut history), []);
        assert_eq!(history, before);
        assert_eq!(listed(&message(&[(2, LOCK), (2, LOCK - 1)]), &mut history), [Entry { sid: 2, time: TIME, which: Break::NewLock }]);
    }
}
