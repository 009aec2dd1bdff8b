//! The program `breaks` prints the second reader's entries, whatever the recording and its TYPE and however it arrives, and refuses what is no TYPE.

use programs::{printed, said, BREAKS_HEADING};
use reader::{Header, Message, Observation};
use streams::Random;

const SEED: u64 = 255;
const STREAMS: usize = 150;

/// What is printed is what the second reader prints of the stream.
fn same(signal: u8, stream: &[u8], pieces: &[usize]) {
    let text = printed("breaks", &[&signal.to_string()], stream, pieces);
    assert_eq!(text, programs::breaks(signal, stream), "TYPE {signal} of {} bytes", stream.len());
}

/// A message in which a SID is there twice, with a lower count the second time: an entry at every position and time.
fn twice(signal: u8, sid: u8, time: u32) -> Vec<u8> {
    let observations = [5, 4].map(|lock| Observation { sid, lock, ..Default::default() }).to_vec();
    Message { header: Header::New { signal, tfom: 0, time, offset: 0 }, observations }.to_bytes()
}

#[test]
fn the_lines_by_hand() {
    let stream = [b"\r\n", &twice(7, 24, 2000)[..], &twice(8, 24, 0), b"MAC", &twice(7, 24, 1999)].concat();
    let text = "at sid time break\n2 24 2000 new-lock\n133 24 1999 clock-back\n133 24 1999 new-lock\n";
    assert_eq!(programs::breaks(7, &stream), text);
    assert_eq!(printed("breaks", &["7"], &stream, &[stream.len()]), text);
    assert_eq!(printed("breaks", &["8"], &stream, &[stream.len()]), "at sid time break\n66 24 0 new-lock\n");
    assert_eq!(printed("breaks", &["9"], &stream, &[stream.len()]), "at sid time break\n");
    assert_eq!(printed("breaks", &["7"], b"", &[]), "at sid time break\n");
}

/// Of the sample recording both TYPEs have breaks, and others.
#[test]
fn the_sample_recording() {
    let recording = programs::every_break();
    [0, 16, 2, 255].into_iter().for_each(|signal| same(signal, &recording, &vec![1; recording.len()]));
    assert_ne!(programs::breaks(0, &recording), programs::breaks(16, &recording));
    same(0, &programs::recording(), &[programs::recording().len()]);
}

/// Recordings with their own TYPE and with another, and streams in which SIDs seldom come again.
#[test]
fn many_streams() {
    let mut random = Random::new(SEED);
    for _ in 0..STREAMS {
        let own = random.byte();
        let other = own ^ 1 << random.below(8);
        let (recorded, hostile) = (streams::recorded(&mut random, own), streams::stream(&mut random));
        for (signal, stream) in [(own, &recorded), (other, &recorded), (random.pick(&[0, 16, 77]), &hostile)] {
            same(signal, stream, &streams::cuts(&mut random, stream.len()));
        }
    }
    println!("breaks: {STREAMS} cases from seed {SEED}");
}

/// More text than the program keeps before it writes, and more bytes than it reads at a time.
#[test]
fn a_long_stream() {
    let mut random = Random::new(SEED + 1);
    let mut stream = Vec::new();
    while stream.len() < 1_000_000 {
        stream.extend(streams::recorded(&mut random, 16));
    }
    assert!(programs::breaks(16, &stream).len() > 100_000, "hardly any breaks");
    same(16, &stream, &[stream.len()]);
}

fn powers() -> impl DoubleEndedIterator<Item = u32> {
    (0..10).map(|exponent| 10u32.pow(exponent))
}

/// Times about every power of ten, of which each is a new lock, and then back again, of which each is a clock back too.
#[test]
fn times_and_sids_of_every_width() {
    let times: Vec<_> = powers().flat_map(|power| [power - 1, power, power + 1]).chain([u32::MAX]).collect();
    let sids = [0, 9, 10, 99, 100, 255].into_iter().cycle();
    let messages = times.iter().chain(times.iter().rev()).zip(sids).map(|(&time, sid)| twice(0, sid, time));
    let stream: Vec<u8> = messages.flatten().collect();
    same(0, &stream, &[stream.len()]);
}

#[test]
fn positions_of_every_width() {
    for power in powers().map(|power| power as usize).filter(|&power| power <= 10_000_000) {
        for position in [power - 1, power] {
            let stream = [&vec![0; position][..], &twice(0, 1, 2)].concat();
            assert_eq!(printed("breaks", &["0"], &stream, &[stream.len()]), format!("{BREAKS_HEADING}{position} 1 2 new-lock\n"));
        }
    }
}

/// A message of every TYPE, with the same number as its SID.
fn of_every_type() -> Vec<u8> {
    (0..=255).flat_map(|signal| twice(signal, signal, 1)).collect()
}

#[test]
fn every_type() {
    let stream = of_every_type();
    for signal in 0..=255u8 {
        let text = format!("{BREAKS_HEADING}{} {signal} 1 new-lock\n", 64 * usize::from(signal));
        assert_eq!(printed("breaks", &[&signal.to_string()], &stream, &[stream.len()]), text);
    }
}

/// As many as a word of 64 bytes holds.
#[test]
fn zeros_in_front() {
    let stream = of_every_type();
    for (signal, width) in [0, 7, 16, 255].into_iter().flat_map(|signal| [2, 3, 4, 13, 63, 64].map(|width| (signal, width))) {
        let word = format!("{signal:0width$}");
        assert_eq!(printed("breaks", &[&word], &stream, &[stream.len()]), programs::breaks(signal, &stream), "{word}");
    }
}

/// Too large, though their last digits are a TYPE.
const TOO_LARGE: [&str; 9] = ["256", "0256", "300", "512", "1000", "65536", "4294967296", "18446744073709551616", "99999999999999999999"];

/// Beside the digits in the order of characters stand / and :, and \u{663} is a digit of another script.
const NO_DIGITS: [&str; 15] = ["", "-1", "-0", "+1", "1x", "x1", " 1", "1 ", "1\n", "1.0", "1e1", "0x10", "1/", ":1", "\u{663}"];

/// Nothing is printed, not even the heading of a recording that has breaks, and one line says what is wrong.
#[test]
fn what_is_no_type() {
    let recording = programs::every_break();
    let too_long = [format!("{:065}", 0), "1".repeat(5000)];
    let words = TOO_LARGE.into_iter().chain(NO_DIGITS).chain(too_long.iter().map(String::as_str)).map(|word| vec![word]);
    for arguments in words.chain([vec![], vec!["0", "0"], vec!["0", ""], vec!["0", "16", "0"]]) {
        let (text, line) = said("breaks", &arguments, &recording);
        assert_eq!(text, "", "{arguments:?}");
        assert!(line.starts_with("error: ") && line.ends_with('\n') && line.lines().count() == 1, "{arguments:?} says: {line}");
    }
}
