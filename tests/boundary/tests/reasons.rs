//! Why no message is given at a position, through the C boundary: all positions of short, cut, damaged and hostile recordings.

use boundary::{all_reasons, board, reasons};
use reader::{Header, Message, Observation, LONGEST};
use streams::Random;

const SEED: u64 = 13;
const STREAMS: usize = 400;

/// All recordings of up to seven letters, of which sync strings, counts and other bytes are made.
#[test]
fn every_short_recording() {
    let letters = *b"MAC2\0x";
    let mut recordings = vec![Vec::new()];
    for length in 0..=7 {
        for recording in &recordings {
            reasons(recording, 0..=length).unwrap();
        }
        recordings = recordings.iter().flat_map(|front| letters.map(|letter| [&front[..], &[letter]].concat())).collect();
    }
}

const HEADERS: [Header; 2] = [Header::Old { version: 2, time: 1, offset: 2 }, Header::New { signal: 0, tfom: 3, time: 4, offset: 5 }];

/// Short messages of both forms, with sync letters in their phases, behind a false start and without.
fn messages() -> Vec<Vec<u8>> {
    let observation = Observation { phase: u64::from_be_bytes(*b"\xC1MACM\x02\xFF\x41"), pseudorange: 7, ..Default::default() };
    let mut messages = Vec::new();
    for header in HEADERS {
        for count in [0, 1, 2] {
            let message = Message { header, observations: vec![observation; count] }.to_bytes();
            messages.push([b"xMACMAC", &message[..]].concat());
            messages.push(message);
        }
    }
    messages
}

#[test]
fn a_message_cut_at_every_length() {
    for message in messages() {
        (0..=message.len()).for_each(|length| all_reasons(&message[..length]).unwrap());
    }
}

#[test]
fn every_damaged_byte() {
    for message in messages() {
        for place in 0..message.len() {
            let mut damaged = message.clone();
            damaged[place] ^= 0x80 >> (place % 8);
            all_reasons(&damaged).unwrap();
        }
    }
}

/// Whole, and cut by a byte or two; and two of them with a false start between.
#[test]
fn the_longest_messages() {
    for (header, longest) in HEADERS.into_iter().zip([LONGEST - 1, LONGEST]) {
        let message = Message { header, observations: vec![Observation::default(); 255] }.to_bytes();
        for (length, kind, value) in [(longest, board::GIVEN, longest), (longest - 1, board::CUT_SHORT, 1), (longest - 2, board::CUT_SHORT, 2)] {
            reasons(&message[..length], [0, 1, 4, length - 1, length]).unwrap();
            assert_eq!(board::why(&message[..length], 0), board::Reason { refusal: 0, kind, value: value as u64 });
        }
        let two = [&message[..], b"MACM", &message].concat();
        reasons(&two, [0, longest - 1, longest, longest + 3, longest + 4, longest + 5, two.len() - 1]).unwrap();
    }
}

#[test]
fn the_sample_recording() {
    all_reasons(include_bytes!("../../../samples/sortie.macm")).unwrap();
}

/// Starts that claim more than follows, one on the heels of the other, with a count as high as there is and one that ends within the recording.
#[test]
fn false_starts_all_over() {
    for start in [&b"MACMx\xFF"[..], b"MACMx\x02", b"MAC2xx\x01", b"MACMAC2", b"MAC"] {
        all_reasons(&start.repeat(60)).unwrap();
    }
    let long = b"MACMx\xFF".repeat(2 * LONGEST / 6);
    reasons(&long, (0..long.len()).step_by(331)).unwrap();
}

/// Streams short enough for all of their positions.
#[test]
fn many_streams() {
    let mut random = Random::new(SEED);
    let mut tried = 0;
    while tried < STREAMS {
        let stream = streams::stream(&mut random);
        if stream.len() <= 1500 {
            all_reasons(&stream).unwrap();
            tried += 1;
        }
    }
    println!("reasons: {STREAMS} cases from seed {SEED}");
}
