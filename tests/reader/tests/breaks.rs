//! Request E8 by hand: each sentence of it in a recording of a few messages, and what one call does to the words of a history.

use reader::*;

const TYPE: u8 = 3;

/// A message of the new form with these SIDs and lock counts.
fn typed(signal: u8, time: u32, observed: &[(u8, u32)]) -> Message {
    let observation = |&(sid, lock): &(u8, u32)| Observation { sid, lock, condition: 0x053F, cn0: 40, rate: -1, ..Default::default() };
    Message { header: Header::New { signal, tfom: 9, time, offset: 5 }, observations: observed.iter().map(observation).collect() }
}

fn message(time: u32, observed: &[(u8, u32)]) -> Message {
    typed(TYPE, time, observed)
}

/// The same in the old form, whose VERSION stands where TYPE does.
fn old(time: u32, observed: &[(u8, u32)]) -> Message {
    Message { header: Header::Old { version: TYPE, time, offset: 5 }, ..message(time, observed) }
}

fn back(sid: u8, time: u32) -> Entry {
    Entry { sid, time, which: Break::ClockBack }
}

fn new_lock(sid: u8, time: u32) -> Entry {
    Entry { sid, time, which: Break::NewLock }
}

/// These messages have these lists, from the first on and one a call.
fn assert_lists(messages: &[Message], lists: &[Vec<Entry>]) {
    assert_eq!(breaks(TYPE, messages), lists);
    let mut history = fresh_history(TYPE);
    let next = |message: &Message| next_breaks(&message.to_bytes(), &mut history, BREAKS_NUMBERS).expect("a message");
    assert_eq!(messages.iter().map(next).collect::<Vec<_>>(), lists);
}

#[test]
fn a_first_appearance_says_nothing() {
    assert_lists(&[], &[]);
    assert_lists(&[message(0, &[(0, 0), (255, 0), (7, 9)])], &[vec![]]);
    assert_lists(&[message(5, &[(1, 5)]), message(4, &[(2, 4)]), message(0, &[(3, 0)])], &[vec![], vec![], vec![]]);
}

#[test]
fn a_lower_time_is_clock_back() {
    assert_lists(&[message(5, &[(1, 5)]), message(4, &[(1, 5)])], &[vec![], vec![back(1, 4)]]);
    assert_lists(&[message(u32::MAX, &[(1, 5)]), message(0, &[(1, 6)])], &[vec![], vec![back(1, 0)]]);
}

#[test]
fn a_lower_count_is_a_new_lock() {
    assert_lists(&[message(5, &[(1, 5)]), message(6, &[(1, 4)])], &[vec![], vec![new_lock(1, 6)]]);
    assert_lists(&[message(5, &[(1, 5)]), message(5, &[(1, 0)])], &[vec![], vec![new_lock(1, 5)]]);
}

#[test]
fn both_at_once_are_clock_back_alone() {
    assert_lists(&[message(5, &[(1, 5)]), message(4, &[(1, 4)])], &[vec![], vec![back(1, 4)]]);
}

#[test]
fn equal_and_higher_numbers_say_nothing() {
    assert_lists(&[message(5, &[(1, 5)]), message(5, &[(1, 5)]), message(6, &[(1, 5)]), message(6, &[(1, 6)])], &[vec![], vec![], vec![], vec![]]);
}

/// Across 2^31, where numbers with a sign would go down, and up from 0 to the highest.
#[test]
fn numbers_have_no_sign() {
    let (low, high) = (0x7FFF_FFFF, 0x8000_0000);
    assert_lists(&[message(low, &[(1, low)]), message(high, &[(1, high)])], &[vec![], vec![]]);
    assert_lists(&[message(high, &[(1, 0)]), message(low, &[(1, 0)])], &[vec![], vec![back(1, low)]]);
    assert_lists(&[message(9, &[(1, high)]), message(9, &[(1, low)])], &[vec![], vec![new_lock(1, 9)]]);
    assert_lists(&[message(0, &[(1, 0)]), message(u32::MAX, &[(1, u32::MAX)])], &[vec![], vec![]]);
}

#[test]
fn a_count_that_wraps_is_a_new_lock() {
    assert_lists(&[message(5, &[(1, 4_294_967_295)]), message(6, &[(1, 0)])], &[vec![], vec![new_lock(1, 6)]]);
}

/// What comes behind a break is compared with the pair of that break.
#[test]
fn the_pair_is_replaced_in_every_case() {
    let after_back = [message(9, &[(1, 9)]), message(3, &[(1, 9)]), message(4, &[(1, 9)]), message(5, &[(1, 8)])];
    assert_lists(&after_back, &[vec![], vec![back(1, 3)], vec![], vec![new_lock(1, 5)]]);
    let count_after_back = [message(9, &[(1, 9)]), message(3, &[(1, 2)]), message(3, &[(1, 3)]), message(3, &[(1, 2)])];
    assert_lists(&count_after_back, &[vec![], vec![back(1, 3)], vec![], vec![new_lock(1, 3)]]);
    let after_lock = [message(9, &[(1, 9)]), message(10, &[(1, 2)]), message(10, &[(1, 3)]), message(9, &[(1, 4)])];
    assert_lists(&after_lock, &[vec![], vec![new_lock(1, 10)], vec![], vec![back(1, 9)]]);
    let after_nothing = [message(9, &[(1, 9)]), message(10, &[(1, 12)]), message(10, &[(1, 11)])];
    assert_lists(&after_nothing, &[vec![], vec![], vec![new_lock(1, 10)]]);
}

/// In order of appearance; the time is the same, so that within a message lock alone can break.
#[test]
fn a_sid_again_in_one_message() {
    assert_lists(&[message(5, &[(1, 5), (1, 4), (1, 6), (1, 6), (1, 3)])], &[vec![new_lock(1, 5), new_lock(1, 5)]]);
    let both = [message(5, &[(2, 9), (1, 9)]), message(4, &[(1, 9), (2, 1), (1, 8), (2, 1)])];
    assert_lists(&both, &[vec![], vec![back(1, 4), back(2, 4), new_lock(1, 4)]]);
}

#[test]
fn each_sid_has_its_own_pair() {
    let lower = [message(5, &[(0, 9), (1, 5), (255, 7)]), message(6, &[(255, 6), (1, 6), (0, 8)])];
    assert_lists(&lower, &[vec![], vec![new_lock(255, 6), new_lock(0, 6)]]);
    // SID 2 is away while the clock goes back for SID 1, and on to where SID 2 was.
    let away = [message(5, &[(1, 1), (2, 1)]), message(3, &[(1, 1)]), message(5, &[(1, 1), (2, 1)])];
    assert_lists(&away, &[vec![], vec![back(1, 3)], vec![]]);
    let every: Vec<_> = (0..=255).flat_map(|sid| [message(5, &[(sid, 5)]), message(5, &[(sid, 4)])]).collect();
    assert_lists(&every, &(0..=255).flat_map(|sid| [vec![], vec![new_lock(sid, 5)]]).collect::<Vec<_>>());
}

/// Neither is anything said of them, nor do the next ones of the TYPE go by them.
#[test]
fn other_types_and_old_messages_are_passed_over() {
    let others = [old(1, &[(1, 1)]), typed(TYPE - 1, 1, &[(1, 1)]), typed(TYPE ^ 0x80, 1, &[(1, 1)]), typed(0, 9, &[(1, 9)])];
    for other in others {
        let between = [other.clone(), message(5, &[(1, 5)]), other.clone(), message(5, &[(1, 5)]), other.clone(), message(5, &[(1, 4)]), other];
        assert_lists(&between, &[vec![], vec![], vec![], vec![], vec![], vec![new_lock(1, 5)], vec![]]);
    }
    assert_lists(&[message(5, &[(1, 5)]), message(1, &[]), message(5, &[(1, 5)])], &[vec![], vec![], vec![]]);
}

#[test]
fn every_observation_of_the_longest_message() {
    let (falling, rising): (Vec<_>, Vec<_>) = (0..255).map(|count| ((7, 254 - count), (7, count))).unzip();
    assert_lists(&[message(5, &falling), message(5, &rising)], &[vec![new_lock(7, 5); 254], vec![]]);
    let one_of_each: Vec<_> = (1..=255).map(|sid| (sid, 0)).collect();
    let backs = (1..=255).map(|sid| back(sid, 4)).collect();
    assert_lists(&[message(5, &one_of_each), message(4, &one_of_each)], &[vec![], backs]);
}

/// What a call on these words answers, and the words afterwards.
fn called(message: &Message, mut history: [u64; HISTORY_WORDS]) -> (Vec<Entry>, [u64; HISTORY_WORDS]) {
    let entries = next_breaks(&message.to_bytes(), &mut history, BREAKS_NUMBERS).expect("a message");
    (entries, history)
}

/// A history of the TYPE with these words of SID 2, and others that belong to no message.
fn with_words(words: [u64; 3]) -> [u64; HISTORY_WORDS] {
    let mut history = [0xEEEE; HISTORY_WORDS];
    history[0] = TYPE.into();
    history[7..10].copy_from_slice(&words);
    history
}

/// Of a SID that was not seen the other words say nothing. Whatever is not 0 is seen, and becomes 1 with the next appearance.
#[test]
fn any_words_are_a_history() {
    for (words, said) in [
        ([0, 0, 0], vec![]),
        ([0, u64::MAX, u64::MAX], vec![]),
        ([1, 6, 0], vec![back(2, 5)]),
        ([1, 5, 10], vec![new_lock(2, 5)]),
        ([1, 5, 9], vec![]),
        ([2, 6, 0], vec![back(2, 5)]),
        ([1 << 32, 0, 10], vec![new_lock(2, 5)]),
        ([u64::MAX, 5, 9], vec![]),
        ([1, 1 << 32, 0], vec![back(2, 5)]),
        ([1, 5, 1 << 32], vec![new_lock(2, 5)]),
        ([1, 1 << 63, 1 << 63], vec![back(2, 5)]),
    ] {
        assert_eq!(called(&message(5, &[(2, 9)]), with_words(words)), (said, with_words([1, 5, 9])), "{words:?}");
    }
}

#[test]
fn a_type_above_a_byte_matches_no_message() {
    for above in [256 + u64::from(TYPE), (1 << 32) + u64::from(TYPE), u64::MAX] {
        let mut history = with_words([1, 9, 9]);
        history[0] = above;
        assert_eq!(called(&message(5, &[(2, 9)]), history), (vec![], history));
    }
}

/// Only the words of a SID that appears change, and a message that is passed over changes none.
#[test]
fn the_words_of_a_history() {
    let history = fresh_history(TYPE);
    assert_eq!((history[0], history[1..].iter().all(|&word| word == 0)), (3, true));
    let (_, after) = called(&message(5, &[(0, 6), (255, 7), (0, 8)]), history);
    assert_eq!((after[0], &after[1..4], &after[766..]), (3, &[1, 5, 8][..], &[1, 5, 7][..]));
    assert!(after[4..766].iter().all(|&word| word == 0));
    for passed_over in [old(1, &[(0, 1)]), typed(4, 1, &[(0, 1)]), message(1, &[])] {
        assert_eq!(called(&passed_over, after), (vec![], after));
    }
}

/// 1 to 4 come before 8, and 8 also where a message is passed over; a refusal changes no word.
#[test]
fn refusals_in_order() {
    let good = message(5, &[(2, 9)]).to_bytes();
    let changed = |place: usize| {
        let mut bytes = good.clone();
        bytes[place] ^= 1;
        bytes
    };
    let bad = [(good[..14].to_vec(), 1), (changed(0), 2), (good[..39].to_vec(), 3), (changed(39), 4)];
    let passed_over = [old(5, &[(2, 9)]), typed(0, 5, &[(2, 9)]), message(5, &[])].map(|message| (message.to_bytes(), 0));
    for (bytes, refusal) in bad.into_iter().chain(passed_over).chain([(good.clone(), 0)]) {
        for numbers in [0, 1, 255, BREAKS_NUMBERS - 1] {
            let mut history = with_words([1, 6, 6]);
            assert_eq!(next_breaks(&bytes, &mut history, numbers), Err(if refusal == 0 { 8 } else { refusal }));
            assert_eq!(history, with_words([1, 6, 6]));
        }
        for numbers in [BREAKS_NUMBERS, BREAKS_NUMBERS + 1, usize::MAX] {
            assert_eq!(next_breaks(&bytes, &mut with_words([1, 6, 6]), numbers).err().unwrap_or(0), refusal);
        }
    }
}
