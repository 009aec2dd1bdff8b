//! The programs print what the second reader prints, whatever the stream and however it arrives.

use programs::printed;
use reader::{Header, Message, Observation};
use streams::Random;

const SEED: u64 = 2004;
const STREAMS: usize = 150;

#[test]
fn listing_and_rows_of_many_streams() {
    let mut random = Random::new(SEED);
    for case in 0..STREAMS {
        let stream = streams::stream(&mut random);
        let pieces = streams::cuts(&mut random, stream.len());
        assert_eq!(printed("listing", &[], &stream, &pieces), programs::listing(&stream), "stream {case}");
        assert_eq!(printed("rows", &[], &stream, &pieces), programs::rows(&stream), "stream {case}");
    }
    println!("programs: {STREAMS} cases from seed {SEED}");
}

/// More text than the programs keep before they write, and more bytes than they read at a time.
#[test]
fn a_long_stream() {
    let mut random = Random::new(SEED + 1);
    let mut stream = Vec::new();
    while stream.len() < 1_000_000 {
        stream.extend(streams::piece_of_stream(&mut random));
    }
    let pieces = [stream.len()];
    assert_eq!(printed("listing", &[], &stream, &pieces), programs::listing(&stream));
    assert_eq!(printed("rows", &[], &stream, &pieces), programs::rows(&stream));
}

/// An old message with this time and as many observations, which all have it as their lock count.
fn timed(time: u32, count: usize) -> Vec<u8> {
    let observations = vec![Observation { lock: time, ..Default::default() }; count];
    Message { header: Header::Old { version: 2, time, offset: 0 }, observations }.to_bytes()
}

fn assert_printed(stream: &[u8]) {
    assert_eq!(printed("listing", &[], stream, &[stream.len()]), programs::listing(stream));
    assert_eq!(printed("rows", &[], stream, &[stream.len()]), programs::rows(stream));
}

/// Times, lock counts, lengths and positions about every power of ten: how the digits of a number are set hangs on how many there are.
#[test]
fn numbers_of_every_width() {
    let powers = || (0..10).map(|exponent| 10u32.pow(exponent));
    let times = powers().flat_map(|power| [power - 1, power, power + 1]).chain([u32::MAX]);
    let mut stream: Vec<u8> = times.zip([0, 1, 3, 4, 40, 42, 255].into_iter().cycle()).flat_map(|(time, count)| timed(time, count)).collect();
    let reached = stream.len();
    for power in powers().map(|power| power as usize).filter(|power| (reached..=10_000_000).contains(power)) {
        stream.resize(power - 29, 0);
        stream.extend(timed(0, 0).repeat(4));
    }
    assert_printed(&stream);
}

/// The last eight digits are set at once, in two halves: every number of four digits in each.
#[test]
fn every_four_digits() {
    let times = (0..10_000).map(|four| 100_000_000 + four * 10_000 + (9_999 - four));
    assert_printed(&times.flat_map(|time| timed(time, 0)).collect::<Vec<u8>>());
}

#[test]
fn nothing() {
    assert_eq!(printed("listing", &[], b"", &[]), "at bytes form obs time\nend 0 messages 0 gap 0\n");
    assert_eq!(printed("rows", &[], b"", &[]), programs::ROWS_HEADING);
}

#[test]
fn thousandths_by_hand() {
    for (value, text) in [(0.0625, "0.063"), (-0.0625, "-0.063"), (-0.0, "-0.000"), (0.0005, "0.001"), (1e-300, "0.000"), (9007199254740991.0, "9007199254740991.000")] {
        assert_eq!(programs::thousandths(value), text);
    }
}
