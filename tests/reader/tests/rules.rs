//! The second reader against document 01's own examples, and its model of the stream reader against the rule told the longest way.

use reader::*;

const A: [u8; 16] = [0x4D, 0x41, 0x43, 0x32, 0x00, 0x00, 0x00, 0x0E, 0xA0, 0x0C, 0x90, 0x40, 0x7C, 0x10, 0x00, 0x1E];
const B: [u8; 15] = [0x4D, 0x41, 0x43, 0x4D, 0x02, 0x00, 0x0E, 0xA0, 0x0C, 0x90, 0x40, 0x7C, 0x10, 0x00, 0x1C];

fn with(place: usize, byte: u8) -> Vec<u8> {
    let mut bytes = A.to_vec();
    bytes[place] = byte;
    bytes
}

#[test]
fn sample_table() {
    assert_eq!(check(&[]), Err(1));
    assert_eq!(check(&B[..14]), Err(1));
    assert_eq!(check(&A), Ok(Form::New));
    assert_eq!(check(&B), Ok(Form::Old));
    assert_eq!(check(&with(15, 0x1F)), Err(4));
    assert_eq!(check(&with(3, 0x4D)), Err(3));
    assert_eq!(check(&with(6, 0x01)), Err(3));
    assert_eq!(check(&A[..15]), Err(3));
    assert_eq!(checksum(&[0x96, 0x85, 0xC1]), 0xD2);
    assert_eq!(range_um(1), 9993);
}

/// E2's numbers, and a tie: 7,500 counts are 74,948,114.5 micrometres.
#[test]
fn ranges_by_the_speed_of_light() {
    for (pseudorange, range) in [(0, 0), (1, 9993), (2058626148, 20572019767066), (4294967295, 42919960079922), (7500, 74948115)] {
        assert_eq!(range_um(pseudorange), range, "PR {pseudorange}");
    }
}

#[test]
fn the_stream_of_s12() {
    let stream = [&A[..3], &A[..]].concat();
    let given = Given { position: 3, length: 16, gap: 3 };
    assert_eq!(divide(&stream), Division { given: vec![given], rest: 0 });
    assert_eq!(next(&stream, 0), Ok(Found::Message(given)));
    assert_eq!(next(&stream, 19), Ok(Found::End { gap: 0 }));
    assert_eq!(next(&stream, 20), Err(12));
}

/// The rule as it is worded: for every number of bytes taken, from none up, all positions are settled afresh.
fn fewest(held: &[u8], piece: &[u8]) -> (usize, usize, Option<usize>) {
    for taken in 0..=piece.len() {
        let seen = [held, &piece[..taken]].concat();
        let mut position = 0;
        loop {
            match standing(&seen[position..]) {
                Standing::Gap | Standing::Damaged(_) => position += 1,
                Standing::Message(length) => return (taken, position, Some(length)),
                Standing::Open if taken == piece.len() => return (taken, position, None),
                Standing::Open => break,
            }
        }
    }
    unreachable!("the last number of bytes taken answers")
}

/// And sums what the bytes seen cost less what the bytes still held will.
#[test]
fn feeding_takes_the_fewest_bytes() {
    let stream = [&b"MACMAC2MAC"[..], &A, b"MACMACM", &[2, 1], &B, &A, b"MMAC2", &[7; 20], &B, b"MA"].concat();
    for from in 0..stream.len() {
        for cut in from..=stream.len().min(from + 40) {
            let (held, piece) = (&stream[from..cut], &stream[cut..]);
            let (mut window, mut output) = (vec![0xEE; LONGEST], vec![0xDD; LONGEST]);
            window[..held.len()].copy_from_slice(held);
            let mut state = State { held: held.len() as u64, gap: 5, total: 100, ended: false, summed: 1000 };
            let (taken, position, message) = fewest(held, piece);
            let expected = match message {
                Some(length) => Answer::Message { length, gap: 5 + position as u64, taken },
                None => Answer::NeedsMore { taken },
            };
            assert_eq!(feed(&mut state, piece, &mut window, &mut output), Ok(expected), "from {from}, cut at {cut}");
            let seen = [held, &piece[..taken]].concat();
            let still = &seen[position + message.unwrap_or(0)..];
            let gap = if message.is_some() { 0 } else { 5 + position as u64 };
            let summed = 1000 + work(&seen) - work(still);
            assert_eq!(state, State { held: still.len() as u64, gap, total: 100 + taken as u64, ended: false, summed });
            assert_eq!(window[..still.len()], *still);
            assert!(window[still.len()..].iter().all(|&byte| byte == 0));
        }
    }
}

/// The reason of each position, and 12 from the end on.
fn all_reasons(recording: &[u8]) -> Vec<Reason> {
    for position in [recording.len(), recording.len() + 1, usize::MAX] {
        assert_eq!(why(recording, position), Err(12));
    }
    (0..recording.len()).map(|position| why(recording, position).unwrap()).collect()
}

#[test]
fn the_reasons_of_s12() {
    let reasons = all_reasons(&[&A[..3], &A[..]].concat());
    assert_eq!(reasons[..4], [Reason::CutShort(1604), Reason::Sync(1), Reason::Sync(1), Reason::Given(16)]);
    assert_eq!(reasons[4..], [Reason::Inside(3); 15]);
    assert_eq!(all_reasons(&[]), []);
}

/// 264-04's messages as printed: their checksums leave out VERSION, which is 02.
#[test]
fn the_residue_of_the_published_messages() {
    let printed = include_bytes!("../../../crates/vectors/data/264-04-table-4.bin");
    let reasons = all_reasons(printed);
    assert_eq!((reasons[25], reasons[253]), (Reason::Checksum(0x02), Reason::Checksum(0x02)));
    for message in [&printed[25..184], &printed[253..412]] {
        assert_eq!(all_reasons(message)[0], Reason::Checksum(0x02));
    }
    let by_the_rule = all_reasons(include_bytes!("../../../crates/vectors/data/264-04-table-4-by-the-rule.bin"));
    assert_eq!((by_the_rule[25], by_the_rule[26], by_the_rule[183]), (Reason::Given(159), Reason::Inside(25), Reason::Inside(25)));
}

/// Every length that a message can be cut to. Its count byte is its sixth in the old form, its seventh in the new one.
#[test]
fn a_message_cut_short() {
    for (message, count_place) in [(&A[..], 6), (&B[..], 5)] {
        for length in 1..message.len() {
            let expected = if length <= count_place { Reason::CutUnknown } else { Reason::CutShort(message.len() - length) };
            assert_eq!(all_reasons(&message[..length])[0], expected, "{length} bytes");
        }
        assert_eq!(all_reasons(message)[0], Reason::Given(message.len()));
    }
}

#[test]
fn where_a_sync_string_breaks_off() {
    for (recording, expected) in [
        (&b"x"[..], Reason::Sync(1)),
        (b"AC2", Reason::Sync(1)),
        (b"MM", Reason::Sync(2)),
        (b"MC", Reason::Sync(2)),
        (b"MAMACM", Reason::Sync(3)),
        (b"MAC3", Reason::Sync(4)),
        (b"MACA", Reason::Sync(4)),
        (b"M", Reason::CutUnknown),
        (b"MA", Reason::CutUnknown),
        (b"MAC", Reason::CutUnknown),
    ] {
        assert_eq!(all_reasons(recording)[0], expected, "{}", recording.escape_ascii());
    }
}

/// The sync letters of a second start stand in the first one's VERSION and count: C is 67 observations, so 1,623 bytes.
#[test]
fn starts_that_overlap() {
    for recording in [b"MACMAC2", b"MACMACM"] {
        let reasons = all_reasons(recording);
        assert_eq!(reasons[..4], [Reason::CutShort(1616), Reason::Sync(1), Reason::Sync(1), Reason::CutUnknown]);
        assert_eq!(reasons[4..6], [Reason::Sync(1); 2]);
        assert_eq!(reasons[6], if recording[6] == b'M' { Reason::CutUnknown } else { Reason::Sync(1) });
    }
}

/// The residue takes the checksum byte in, and leaves the sync string out.
#[test]
fn a_damaged_byte_is_the_residue() {
    for place in [4, 5, 7, 14, 15] {
        let mut damaged = A;
        damaged[place] ^= 0xA0;
        assert_eq!(all_reasons(&damaged)[0], Reason::Checksum(0xA0), "byte {place}");
    }
}

/// B in the fields of an old message of 39 bytes, from byte 18 on.
fn nested() -> Vec<u8> {
    let phase = u64::from_be_bytes(*b"MACM\x02\x00\x0E\xA0");
    let observation = Observation { phase, pseudorange: 0x0C90_407C, rate: 0x1000_1C00, ..Default::default() };
    Message { header: Header::Old { version: 2, time: 0, offset: 0 }, observations: vec![observation] }.to_bytes()
}

/// A whole message in the fields of a given one is not given; it is where the outer one is none.
#[test]
fn inside_comes_first() {
    let message = nested();
    assert_eq!(message_at(&message, 18), Some(15));
    let reasons = all_reasons(&message);
    assert_eq!((reasons[0], reasons[18]), (Reason::Given(39), Reason::Inside(0)));
    assert_eq!(all_reasons(&message[1..])[17], Reason::Given(15));
}

/// A covers 11 bytes and B 10, whether the checksum agrees or not; a message that is not all there covers none.
#[test]
fn the_work_of_short_streams() {
    let mut damaged = nested();
    damaged[10] ^= 1;
    for (stream, summed) in [
        (vec![], 0),
        ([&A[..3], &A].concat(), 11),
        ([&A[..], &B].concat(), 21),
        (B.to_vec(), 10),
        (with(15, 0x1F), 11),
        ([&with(15, 0x1F)[..], &B].concat(), 21),
        (A[..15].to_vec(), 0),
        (B[..14].to_vec(), 0),
        // With the first byte of B it is all there, and off.
        ([&A[..15], &B].concat(), 21),
        // B is tested where the message around it is none, or is not there from its first byte on.
        (nested(), 34),
        (damaged, 44),
        (nested()[1..].to_vec(), 10),
    ] {
        assert_eq!(work(&stream), summed, "{}", stream.escape_ascii());
    }
}

#[test]
fn the_work_of_the_longest_messages() {
    for (header, summed) in [(Header::Old { version: 2, time: 0, offset: 0 }, 6130), (Header::New { signal: 0, tfom: 0, time: 0, offset: 0 }, 6131)] {
        let message = Message { header, observations: vec![Observation::default(); 255] }.to_bytes();
        assert_eq!((work(&message), work(&message[1..]), work(&message[..message.len() - 1])), (summed, 0, 0));
    }
}

/// Every sixth byte claims 6,135 bytes: 1,022 starts and three bytes, so that the last 1,022 starts are cut short. A long crowd comes near half of
/// the bound.
#[test]
fn the_work_of_a_crowd_of_starts() {
    for whole in [0, 1, 2, 18_978] {
        let stream = b"MACMx\xFF".repeat(1022 + whole);
        assert_eq!(work(&stream), 6130 * whole as u64);
    }
    assert_eq!((6130 * 18_978, most_work(6 * 20_000)), (116_335_140, 245_233_869));
}

#[test]
fn the_most_work_of_a_length() {
    for (length, most) in [(0, 0), (1, 0), (3, 0), (4, 6131), (6, 6131), (7, 12_262), (6136, 12_537_895)] {
        assert_eq!(most_work(length), most, "{length} bytes");
    }
}
