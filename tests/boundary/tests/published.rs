//! The messages that 264-21 and 264-04 publish, through the C boundary and the second reader.

use boundary::{all_reasons, board, check, next, numbers, read_all_lent, read_observation, recording, run, set, to_new, to_old};
use reader::LONGEST;

const NEW: &[u8] = include_bytes!("../../../crates/vectors/data/264-21-figure-1.bin");
const OLD: &[u8] = include_bytes!("../../../crates/vectors/data/264-04-table-4.bin");
const OLD_BY_THE_RULE: &[u8] = include_bytes!("../../../crates/vectors/data/264-04-table-4-by-the-rule.bin");

/// Runs over every cutting into equal pieces, and answers the number of messages.
fn messages(stream: &[u8]) -> usize {
    let found = recording(stream).unwrap();
    for size in 1..=stream.len() {
        let mut pieces = vec![size; stream.len() / size];
        pieces.push(stream.len() % size);
        let messages = run(stream, &pieces, vec![0x4D; LONGEST], vec![0x41; LONGEST + 7]).unwrap();
        assert_eq!(messages, found, "pieces of {size} bytes");
    }
    (0..=stream.len() + 1).for_each(|start| assert_eq!(next(stream, start).unwrap() == 12, start > stream.len()));
    found
}

#[test]
fn both_new_messages_are_found() {
    assert_eq!(messages(NEW), 2);
    let first = board::Found { refusal: 0, kind: board::MESSAGE, position: 25, length: 160, gap: 25 };
    assert_eq!(board::next(NEW, 0), first);
    let second = board::Found { refusal: 0, kind: board::MESSAGE, position: 254, length: 160, gap: 69 };
    assert_eq!(board::next(NEW, 185), second);
    assert_eq!(board::next(NEW, 414), board::Found { kind: board::END, gap: 44, ..Default::default() });
}

#[test]
fn the_first_new_message_reads_as_its_breakout_says() {
    let message = &NEW[25..185];
    let header = board::Header { form: board::NEW, time: 245_370_000, offset: 0x407C_1000, ..Default::default() };
    assert_eq!(board::read_header(message), board::Head { refusal: 0, count: 6, header });
    let board::Observed { refusal, observation } = board::read_observation(message, 0);
    assert_eq!((refusal, observation.sid, observation.condition, observation.cn0), (0, 2, 0x053F, 36));
    assert_eq!((observation.pseudorange, observation.rate, observation.lock), (2_058_626_148, 9_879_081, 617_800));
    let phase = board::phase(board::NEW, observation);
    assert_eq!((phase.kind, phase.code, format!("{:.9}", phase.cycles)), (board::NOT_CORRECTED, 5, "-461291.428234963".to_string()));
    assert_eq!(board::read_observation(message, 1).observation.rate, -29_159_042);
}

#[test]
fn each_observation_reads_and_writes_alike() {
    for message in [&NEW[25..185], &NEW[254..414], &OLD_BY_THE_RULE[25..184], &OLD_BY_THE_RULE[253..412]] {
        assert_eq!(read_all_lent(message).unwrap(), 0);
        let form = board::read_header(message).header.form;
        for index in 0..8 {
            let refusal = if index < 6 { 0 } else { 5 };
            assert_eq!(read_observation(message, index).unwrap(), refusal);
            numbers(form, board::read_observation(message, index).observation).unwrap();
            let other = board::read_observation(message, 5 - index.min(5)).observation;
            assert_eq!(set(message, index, other).unwrap(), refusal);
        }
        to_new(message, 0, 3, &[0xEE; 170]).unwrap();
        to_old(message, 2, &[0xEE; 170]).unwrap();
    }
}

#[test]
fn the_old_messages_are_refused_as_printed() {
    for message in [&OLD[25..184], &OLD[253..412]] {
        assert_eq!(check(message).unwrap(), 4);
        assert_eq!(reader::check(message), Err(4));
        assert_eq!(read_all_lent(message).unwrap(), 4);
        assert_eq!(reader::checksum(&message[4..]), 0x02, "the residue is VERSION");
        assert_eq!(board::why(message, 0), board::Reason { refusal: 0, kind: board::CHECKSUM, value: 0x02 });
    }
    assert_eq!(messages(OLD), 0);
    assert_eq!(board::next(OLD, 0), board::Found { kind: board::END, gap: 456, ..Default::default() });
}

#[test]
fn the_old_messages_are_accepted_by_the_rule() {
    let changed: Vec<_> = (0..OLD.len()).filter(|&place| OLD[place] != OLD_BY_THE_RULE[place]).collect();
    assert_eq!(changed, [183, 411]);
    assert_eq!((OLD[183], OLD[411], OLD_BY_THE_RULE[183], OLD_BY_THE_RULE[411]), (0x27, 0x3A, 0x25, 0x38));
    assert_eq!(check(&OLD_BY_THE_RULE[25..184]).unwrap(), 0);
    assert_eq!(check(&OLD_BY_THE_RULE[253..412]).unwrap(), 0);
    assert_eq!(messages(OLD_BY_THE_RULE), 2);
}

#[test]
fn every_position_says_why() {
    for stream in [NEW, OLD, OLD_BY_THE_RULE] {
        all_reasons(stream).unwrap();
    }
    assert_eq!([25, 253].map(|position| board::why(OLD, position).kind), [board::CHECKSUM; 2]);
    assert_eq!([25, 253].map(|position| board::why(OLD_BY_THE_RULE, position).kind), [board::GIVEN; 2]);
}

#[test]
fn every_damaged_byte_is_noticed_alike() {
    for (stream, place) in [(NEW, 25), (OLD_BY_THE_RULE, 25)] {
        let length = reader::message_at(stream, place).unwrap();
        for byte in 0..length {
            for change in [0x01, 0x80, 0xFF] {
                let mut message = stream[place..place + length].to_vec();
                message[byte] ^= change;
                let refusal = check(&message).unwrap();
                assert_ne!(refusal, 0, "byte {byte} changed by {change}");
                assert_eq!(read_all_lent(&message).unwrap(), refusal, "byte {byte} changed by {change}");
            }
        }
    }
}
