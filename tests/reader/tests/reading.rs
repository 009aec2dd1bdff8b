//! The two calls of request E5: what each answers of both forms, every refusal of each, and their order.

use reader::*;

const A: &[u8] = b"MAC2\x00\x00\x00\x0E\xA0\x0C\x90\x40\x7C\x10\x00\x1E";
const B: &[u8] = b"MACM\x02\x00\x0E\xA0\x0C\x90\x40\x7C\x10\x00\x1C";
const NEW: &[u8] = include_bytes!("../../../crates/vectors/data/264-21-figure-1.bin");
const OLD_BY_THE_RULE: &[u8] = include_bytes!("../../../crates/vectors/data/264-04-table-4-by-the-rule.bin");

const TIME: u32 = 245_370_000;
const OFFSET: u32 = 0x407C_1000;

/// A message with so many observations, no two of them alike. TFOM stands where the old form has its count.
fn message(form: Form, count: u8) -> Message {
    let header = match form {
        Form::Old => Header::Old { version: 0x4D, time: TIME, offset: OFFSET },
        Form::New => Header::New { signal: 0x10, tfom: 9, time: TIME, offset: OFFSET },
    };
    let observation = |sid: u8| Observation { sid, cn0: !sid, rate: -i32::from(sid), lock: u32::from(sid) << 16, ..Default::default() };
    Message { header, observations: (0..count).map(observation).collect() }
}

fn changed(bytes: &[u8], place: usize, change: u8) -> Vec<u8> {
    let mut bytes = bytes.to_vec();
    bytes[place] ^= change;
    bytes
}

/// The first message of each standard, field by field.
#[test]
fn the_published_messages() {
    let first =
        Observation { sid: 2, condition: 0x053F, cn0: 36, phase: 0xC11C_27AD_B683_39E0, pseudorange: 2_058_626_148, rate: 9_879_081, lock: 617_800 };
    let header = Header::New { signal: 0, tfom: 0, time: TIME, offset: OFFSET };
    assert_eq!(read_header(&NEW[25..185]), Ok(Head { count: 6, header }));
    assert_eq!(read_observation(&NEW[25..185], 0), Ok(first));
    let header = Header::Old { version: 2, time: TIME, offset: OFFSET };
    assert_eq!(read_header(&OLD_BY_THE_RULE[25..184]), Ok(Head { count: 6, header }));
    assert_eq!(read_observation(&OLD_BY_THE_RULE[25..184], 0), Ok(Observation { condition: 0x0205, ..first }));
}

#[test]
fn a_message_without_observations() {
    let (new, old) = (Header::New { signal: 0, tfom: 0, time: TIME, offset: OFFSET }, Header::Old { version: 2, time: TIME, offset: OFFSET });
    for (message, header) in [(A, new), (B, old)] {
        assert_eq!(read_header(message), Ok(Head { count: 0, header }));
        for index in [0, 1, 254, 255, 256, usize::MAX] {
            assert_eq!(read_observation(message, index), Err(5), "index {index}");
        }
    }
}

/// The header's count says which indexes are answered: those below it, and no other.
#[test]
fn every_index() {
    for form in Form::BOTH {
        for count in [1, 2, 3, 254, 255] {
            let message = message(form, count);
            let bytes = message.to_bytes();
            assert_eq!(read_header(&bytes), Ok(Head { count, header: message.header }));
            for (index, observation) in message.observations.iter().enumerate() {
                assert_eq!(read_observation(&bytes, index), Ok(*observation), "index {index} of {count}");
            }
            let count = usize::from(count);
            for index in [count, count + 1, 255, 256, usize::MAX / 24 + 1, usize::MAX] {
                assert_eq!(read_observation(&bytes, index), Err(5), "index {index} of {count}");
            }
        }
    }
}

/// Both calls refuse these bytes with this number, whatever the index: 5 is never answered of what is no message.
fn refused(bytes: &[u8], number: Refusal) {
    assert_eq!(read_header(bytes), Err(number), "{}", bytes.escape_ascii());
    for index in [0, 1, 2, 254, 255, 256, usize::MAX] {
        assert_eq!(read_observation(bytes, index), Err(number), "index {index} of {}", bytes.escape_ascii());
    }
}

/// A sync string or none, a right length or not: below 15 bytes nothing else counts.
#[test]
fn one_before_all() {
    for form in Form::BOTH {
        let bytes = message(form, 2).to_bytes();
        (0..15).for_each(|length| refused(&bytes[..length], 1));
        (1..15).for_each(|length| refused(&changed(&bytes[..length], 0, 1), 1));
    }
}

/// Of the right length, shorter and longer.
#[test]
fn two_before_three() {
    for (form, place) in Form::BOTH.into_iter().flat_map(|form| (0..4).map(move |place| (form, place))) {
        let bytes = changed(&message(form, 2).to_bytes(), place, 1);
        refused(&bytes, 2);
        (15..bytes.len()).for_each(|length| refused(&bytes[..length], 2));
        refused(&[&bytes[..], &[0]].concat(), 2);
    }
}

/// Too short, at last by one byte; and too long, with the other form's sync and with another count, each with a right checksum and with a wrong one.
#[test]
fn three_before_four() {
    for form in Form::BOTH {
        for count in [0, 2, 255] {
            let bytes = message(form, count).to_bytes();
            (15..bytes.len()).rev().step_by(1 + bytes.len() / 100).for_each(|length| refused(&bytes[..length], 3));
            for last in [0, 1] {
                refused(&[&bytes[..], &[last]].concat(), 3);
                refused(&changed(&changed(&bytes, 3, b'M' ^ b'2'), bytes.len() - 1, last), 3);
                refused(&changed(&changed(&bytes, form.count_place(), 1), bytes.len() - 1, last), 3);
            }
        }
    }
}

/// The checksum and the bytes that it covers, of long messages some, at indexes that the message has and at those that it has not.
#[test]
fn four_before_five() {
    for form in Form::BOTH {
        for count in [0, 1, 2, 255] {
            let bytes = message(form, count).to_bytes();
            let covered = (4..bytes.len()).rev().step_by(1 + bytes.len() / 100).filter(|&place| place != form.count_place());
            covered.for_each(|place| refused(&changed(&bytes, place, 0x80), 4));
        }
    }
}
