//! The program `why` prints the second reader's reasons, whatever the recording, however long it is and however it arrives.

use std::io::Write;
use std::sync::mpsc::channel;
use std::time::Duration;

use programs::{offered, printed, started, WHY_LONGEST};
use streams::Random;

const SEED: u64 = 61_440;
const STREAMS: usize = 150;

const S12: &[u8] = b"MACMAC2\x00\x00\x00\x0E\xA0\x0C\x90\x40\x7C\x10\x00\x1E";
const PUBLISHED: [&[u8]; 3] = [
    include_bytes!("../../../crates/vectors/data/264-21-figure-1.bin"),
    include_bytes!("../../../crates/vectors/data/264-04-table-4.bin"),
    include_bytes!("../../../crates/vectors/data/264-04-table-4-by-the-rule.bin"),
];

/// What was printed is what the second reader prints of the recording; of long texts the first line that differs is shown alone.
fn due(text: &str, recording: &[u8]) {
    let expected = programs::why(recording);
    let difference = text.split_inclusive('\n').zip(expected.split_inclusive('\n')).find(|(line, other)| line != other);
    assert_eq!(difference, None, "of {} bytes", recording.len());
    assert_eq!(text.len(), expected.len(), "of {} bytes", recording.len());
}

/// All in one piece.
fn same_whole(recording: &[u8]) {
    due(&printed("why", &[], recording, &[recording.len()]), recording);
}

#[test]
fn the_lines_as_the_request_has_them() {
    let inside: String = (4..19).map(|position| format!("{position} inside 3\n")).collect();
    let text = format!("at reason value\n0 short 1604\n1 sync 1\n2 sync 1\n3 given 16\n{inside}");
    assert_eq!(programs::why(S12), text);
    assert_eq!(printed("why", &[], S12, &[19]), text);
    assert_eq!(printed("why", &[], b"", &[]), "at reason value\n");
    assert_eq!(printed("why", &[], b"MAC2\x00\x00", &[6]), "at reason value\n0 short -\n1 sync 1\n2 sync 1\n3 sync 1\n4 sync 1\n5 sync 1\n");
    let as_printed = printed("why", &[], PUBLISHED[1], &[456]);
    assert!(as_printed.contains("\n25 checksum 02\n") && as_printed.contains("\n253 checksum 02\n"), "{as_printed}");
}

#[test]
fn published_and_sample_recordings() {
    PUBLISHED.into_iter().for_each(same_whole);
    same_whole(&programs::recording());
    let every = programs::every_reason();
    due(&printed("why", &[], &every, &vec![1; every.len()]), &every);
}

/// Cut at every length: a new and an old message, a false start in front of them or none.
#[test]
fn a_message_cut_short() {
    for (message, before) in [(&PUBLISHED[0][25..185], ""), (&PUBLISHED[2][25..64], "MACMAC2")] {
        for length in 0..=message.len() {
            same_whole(&[before.as_bytes(), &message[..length]].concat());
        }
    }
}

#[test]
fn many_streams() {
    let mut random = Random::new(SEED);
    for _ in 0..STREAMS {
        let stream = streams::stream(&mut random);
        let pieces = streams::cuts(&mut random, stream.len());
        due(&offered("why", &[], &stream, &pieces).0, &stream);
    }
    println!("why: {STREAMS} cases from seed {SEED}");
}

/// Of one that is longer, the program need not read to the end.
#[test]
fn short_long_and_longer_recordings() {
    let mut random = Random::new(SEED);
    let mut stream = Vec::new();
    while stream.len() < 200_000 {
        stream.extend(streams::piece_of_stream(&mut random));
    }
    for length in [0, 1, WHY_LONGEST - 1, WHY_LONGEST, WHY_LONGEST + 1, 200_000] {
        for piece in [613, 65_536] {
            let mut pieces = vec![piece; length / piece];
            pieces.push(length % piece);
            let (text, written) = offered("why", &[], &stream[..length], &pieces);
            due(&text, &stream[..length]);
            assert_eq!(text == "longer than 61440 bytes\n", length > 61_440, "{length} bytes");
            assert!(written.is_ok() || length > WHY_LONGEST, "{length} bytes in pieces of {piece} are not read to the end");
        }
    }
}

/// What the program prints for a recording that a pipe holds, where it takes no longer than this.
fn within(limit: Duration, recording: &[u8]) -> Option<String> {
    let mut child = started("why", &[]);
    let mut input = child.stdin.take().expect("standard input is a pipe");
    let mut output = child.stdout.take().expect("standard output is a pipe");
    input.write_all(recording).expect("the program reads to the end");
    drop(input);
    let (sender, receiver) = channel();
    std::thread::spawn(move || sender.send(std::io::read_to_string(&mut output).expect("plain text")));
    let text = receiver.recv_timeout(limit).ok();
    child.kill().expect("the program ends");
    child.wait().expect("the program ends");
    text
}

/// The worst recording: every sixth byte starts a message of 6,135 bytes with a wrong checksum. To divide it anew for each position takes hours; to go over
/// it once, some hundredths of a second. What else goes on may slow down one run, but not three.
#[test]
fn the_worst_recording_in_no_time() {
    let recording = b"MACMx\xFF".repeat(WHY_LONGEST / 6);
    assert_eq!(recording.len(), WHY_LONGEST);
    let text = (0..3).find_map(|_| within(Duration::from_secs(2), &recording));
    due(&text.expect("why takes more than two seconds"), &recording);
}
