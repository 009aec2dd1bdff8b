//! `cablesound why FILE POSITION` answers the second reader's line of that position, also of recordings that are longer than the program takes. The command
//! stands in a release of its own, so that nothing is proved on the way.

use std::collections::BTreeSet;
use std::path::{Path, PathBuf};
use std::process::Command;

use programs::{why_lines, WHY_LONGEST};
use reader::{divide, Header, Message, Observation, LONGEST};
use streams::Random;

const SEED: u64 = 13_419;
const STREAMS: usize = 30;

/// A release of what `why` needs, under this name.
fn release(name: &str) -> PathBuf {
    let root = Path::new(env!("CARGO_MANIFEST_DIR")).join("../..").canonicalize().expect("the project's folder");
    let folder = Path::new(env!("CARGO_TARGET_TMPDIR")).join(name);
    let _ = std::fs::remove_dir_all(&folder);
    std::fs::create_dir_all(folder.join("help")).expect("a folder for the release");
    for file in ["cablesound", "help/why"] {
        std::fs::copy(root.join(file), folder.join(file)).expect(file);
    }
    for program in ["listing", "why"] {
        std::fs::copy(root.join("target/bin").join(program), folder.join(program)).expect(program);
    }
    folder
}

/// What the command answers for these positions is the line of each.
fn answers(release: &Path, recording: &[u8], positions: impl IntoIterator<Item = usize>) {
    let (file, lines) = (release.join("a recording"), why_lines(recording));
    std::fs::write(&file, recording).expect("a recording in the release");
    for position in positions {
        let output = Command::new("sh").arg(release.join("cablesound")).arg("why").arg(&file).arg(position.to_string()).output().expect("a shell");
        let said = String::from_utf8_lossy(&output.stderr).into_owned();
        let printed = String::from_utf8_lossy(&output.stdout).into_owned();
        assert_eq!((printed, said, output.status.code()), (lines[position].clone(), String::new(), Some(0)), "of {} bytes", recording.len());
    }
}

/// The positions around a place.
fn around(place: usize) -> [usize; 3] {
    [place.saturating_sub(1), place, place + 1]
}

/// The sample recording again and again with noise between, three times as long as the program takes: around the two ends of some messages, around the
/// most that the program takes, at the first and the last position of every reason, and at the end.
#[test]
fn a_long_recording() {
    let mut random = Random::new(SEED);
    let mut recording = Vec::new();
    while recording.len() < 3 * WHY_LONGEST {
        recording.extend(programs::recording());
        recording.extend(streams::piece_of_stream(&mut random));
    }
    let mut positions = BTreeSet::from([recording.len() - 1]);
    positions.extend(around(WHY_LONGEST));
    for given in divide(&recording).given.iter().step_by(199) {
        positions.extend(around(given.position));
        positions.extend(around(given.position + given.length));
    }
    let lines = why_lines(&recording);
    let reasons: Vec<_> = lines.iter().map(|line| line.split_whitespace().nth(1).expect("a reason")).collect();
    for reason in ["inside", "given", "sync", "short", "checksum"] {
        positions.extend(reasons.iter().position(|other| *other == reason));
        positions.extend(reasons.iter().rposition(|other| *other == reason));
    }
    positions.retain(|&position| position < recording.len());
    answers(&release("long"), &recording, positions);
}

/// All of the longest message is looked at: with a wrong checksum, given, and cut short by a byte.
#[test]
fn the_longest_messages() {
    let header = Header::New { signal: 0, tfom: 0, time: 0, offset: 0 };
    let message = Message { header, observations: vec![Observation::default(); 255] }.to_bytes();
    let last = message.len() - 1;
    let recording = [b"x", &message[..last], &[message[last] ^ 0xC0], &message, &message[..last]].concat();
    answers(&release("longest"), &recording, [1, LONGEST, LONGEST + 1, LONGEST + 2, 2 * LONGEST, 2 * LONGEST + 1]);
}

/// 264-04's messages as they are printed, whose checksums leave VERSION out, and by the rule; 264-21's.
#[test]
fn published_messages() {
    let release = release("published");
    for recording in [
        &include_bytes!("../../../crates/vectors/data/264-04-table-4.bin")[..],
        include_bytes!("../../../crates/vectors/data/264-04-table-4-by-the-rule.bin"),
        include_bytes!("../../../crates/vectors/data/264-21-figure-1.bin"),
    ] {
        answers(&release, recording, [24, 25, 26, 183, 184, 185, 186, 253, 254, recording.len() - 1]);
    }
}

/// Messages of both forms with sync letters in a phase, a whole one inside another among them: whole, and cut at every length.
#[test]
fn sync_letters_and_cut_messages() {
    let release = release("cut");
    answers(&release, b"MACMAC2", 0..7);
    answers(&release, b"xMACMACM", 0..8);
    let phase = u64::from_be_bytes(*b"MACM\x02\x00\x0E\xA0");
    let observation = Observation { phase, pseudorange: 0x0C90_407C, rate: 0x1000_1C00, ..Default::default() };
    for header in [Header::Old { version: 2, time: 0, offset: 0 }, Header::New { signal: 0, tfom: 0, time: 0, offset: 0 }] {
        let message = Message { header, observations: vec![observation] }.to_bytes();
        answers(&release, &message, 0..message.len());
        for length in 1..message.len() {
            answers(&release, &message[..length], [0]);
        }
    }
}

/// The sample recording, at one position in many; all of them take minutes.
#[test]
fn the_sample_recording() {
    let recording = programs::recording();
    answers(&release("sample"), &recording, (0..recording.len()).step_by(179));
}

#[test]
fn many_streams() {
    let release = release("streams");
    let every = programs::every_reason();
    answers(&release, &every, 0..every.len());
    let mut random = Random::new(SEED);
    for _ in 0..STREAMS {
        let stream = streams::stream(&mut random);
        let starts: Vec<_> = (0..stream.len()).filter(|&position| stream[position] == b'M').collect();
        if !starts.is_empty() {
            answers(&release, &stream, [random.pick(&starts), random.pick(&starts), random.below(stream.len())]);
        }
    }
    println!("command: {STREAMS} cases from seed {SEED}");
}
