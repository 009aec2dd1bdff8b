//! On a live line the programs print each message as soon as it is settled, while the line stays open.

use std::io::{Read, Write};
use std::process::{Child, ChildStdout};
use std::sync::mpsc::{channel, Receiver};
use std::time::Duration;

use programs::started;
use streams::Random;

const SEED: u64 = 264;
const STREAMS: usize = 40;

/// What comes out of a pipe, as it comes.
fn coming(mut pipe: ChildStdout) -> Receiver<Vec<u8>> {
    let (sender, receiver) = channel();
    std::thread::spawn(move || {
        let mut block = [0; 65536];
        while let Ok(count @ 1..) = pipe.read(&mut block) {
            if sender.send(block[..count].to_vec()).is_err() {
                return;
            }
        }
    });
    receiver
}

/// Feeds a program these pieces and, after each, waits for every line that is due: the heading, and what is printed of each message in turn.
fn live(mut child: Child, heading: &str, mut text_of: impl FnMut(usize, &[u8]) -> String, stream: &[u8], pieces: &[usize]) -> String {
    let mut line = child.stdin.take().expect("standard input is a pipe");
    let printed = coming(child.stdout.take().expect("standard output is a pipe"));
    let (mut due, mut got) = (heading.to_string(), String::new());
    let (mut come, mut position) = (0, 0);
    for piece in std::iter::once(&0).chain(pieces) {
        line.write_all(&stream[come..come + piece]).expect("the program reads to the end");
        come += piece;
        due += &programs::settled(&mut text_of, &stream[..come], &mut position);
        while got.len() < due.len() {
            let more = printed.recv_timeout(Duration::from_secs(20)).unwrap_or_else(|_| panic!("lines are kept back after {come} bytes: {heading}"));
            got += std::str::from_utf8(&more).expect("plain text");
        }
        assert_eq!(got, due, "after {come} bytes");
    }
    drop(line);
    got.extend(printed.iter().map(|more| String::from_utf8(more).expect("plain text")));
    assert!(child.wait().expect("the program ends").success(), "the program fails: {heading}");
    got
}

#[test]
fn lines_appear_while_the_line_is_open() {
    let mut random = Random::new(SEED);
    for _ in 0..STREAMS {
        let stream = streams::stream(&mut random);
        let pieces = streams::cuts(&mut random, stream.len());
        let listing = live(started("listing", &[]), programs::LISTING_HEADING, programs::line, &stream, &pieces);
        assert_eq!(listing, programs::listing(&stream));
        let rows = live(started("rows", &[]), programs::ROWS_HEADING, programs::rows_of, &stream, &pieces);
        assert_eq!(rows, programs::rows(&stream));
    }
    println!("live: {STREAMS} cases from seed {SEED}");
}

#[test]
fn breaks_appear_while_the_line_is_open() {
    let mut random = Random::new(SEED);
    for _ in 0..STREAMS {
        let signal = random.byte();
        let stream = streams::recorded(&mut random, signal);
        let pieces = streams::cuts(&mut random, stream.len());
        let breaks = live(started("breaks", &[&signal.to_string()]), programs::BREAKS_HEADING, programs::breaks_of(signal), &stream, &pieces);
        assert_eq!(breaks, programs::breaks(signal, &stream));
    }
    println!("live: {STREAMS} cases from seed {SEED}");
}
