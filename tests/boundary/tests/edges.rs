//! Buffers that end, or begin, at memory nobody may touch: a call that reads or writes one byte outside of what it is lent ends the program.

use boundary::{board, read_all, reasons};
use reader::{checksum, Form, BREAKS_NUMBERS, HISTORY_WORDS, LONGEST, RECORD_BYTES};
use std::ffi::{c_int, c_long, c_void};
use streams::Random;

const SEED: u64 = 4096;
const PAGE: usize = 4096;
const PAGES: usize = 18;

extern "C" {
    fn mmap(place: *mut c_void, length: usize, protection: c_int, flags: c_int, file: c_int, offset: c_long) -> *mut c_void;
    fn mprotect(place: *mut c_void, length: usize, protection: c_int) -> c_int;
    fn munmap(place: *mut c_void, length: usize) -> c_int;
}

/// Pages that can be written, between two that cannot be touched.
struct Walled(*mut u8);

impl Walled {
    fn new() -> Walled {
        // Nothing may be done with the pages (0) at first; MAP_PRIVATE and MAP_ANONYMOUS are 0x22, PROT_READ and PROT_WRITE 3.
        unsafe {
            let place = mmap(std::ptr::null_mut(), (PAGES + 2) * PAGE, 0, 0x22, -1, 0) as *mut u8;
            assert_ne!(place as isize, -1, "no memory");
            assert_eq!(mprotect(place.add(PAGE) as *mut c_void, PAGES * PAGE, 3), 0);
            Walled(place)
        }
    }

    /// So many bytes or words that end, or begin, at a wall, with these contents at their front.
    fn lend<T: Copy + From<u8>>(&mut self, length: usize, at_the_end: bool, contents: &[T]) -> &mut [T] {
        let bytes = length * std::mem::size_of::<T>();
        assert!(bytes <= PAGES * PAGE && contents.len() <= length);
        let before = if at_the_end { PAGES * PAGE - bytes } else { 0 };
        let lent = unsafe { std::slice::from_raw_parts_mut(self.0.add(PAGE + before) as *mut T, length) };
        lent.fill(T::from(0x4D));
        lent[..contents.len()].copy_from_slice(contents);
        lent
    }
}

impl Drop for Walled {
    fn drop(&mut self) {
        unsafe { munmap(self.0 as *mut c_void, (PAGES + 2) * PAGE) };
    }
}

/// Streams short enough for the pages, from the seed on.
fn streams_from(seed: u64, number: usize) -> impl Iterator<Item = (Random, Vec<u8>)> {
    println!("{number} streams at the edges of memory, from seed {seed}");
    (seed..)
        .map(|seed| {
            let mut random = Random::new(seed);
            let stream = streams::stream(&mut random);
            (random, stream)
        })
        .filter(|(_, stream)| stream.len() <= PAGES * PAGE)
        .take(number)
}

#[test]
fn one_message() {
    let (mut lent, mut put) = (Walled::new(), Walled::new());
    for (mut random, _) in streams_from(SEED, 3000) {
        let mut message = streams::message(&mut random);
        if random.once_in(3) {
            message.truncate(random.below(message.len()));
        }
        let (end, other) = (random.once_in(2), random.once_in(2));
        let length = (message.len() + 2).saturating_sub(random.below(4));
        let (message, output) = (lent.lend(message.len(), end, &message), put.lend(length, other, &[]));
        let refusal = reader::check(message).err().unwrap_or(0);
        assert_eq!(board::check(message), refusal);
        assert_eq!(read_all(message).unwrap(), refusal);
        board::to_new(message, 0, 0, output);
        board::to_old(message, 0, output);
        board::start(output, board::Header { form: random.below(3) as u64, ..Default::default() }, random.below(4) as u8);
        board::set(message, random.below(3), board::Observation::default());
        assert_eq!(board::check(message), refusal);
    }
}

/// Fronts of messages of up to two observations, of all lengths and one byte more, at both walls: where they can have a checksum with a right one, then
/// with a wrong one, then without a sync string.
#[test]
fn reading_at_all_short_lengths() {
    let mut lent = Walled::new();
    for (mut random, _) in streams_from(SEED, 10) {
        for (form, count) in Form::BOTH.into_iter().flat_map(|form| [0, 1, 2].map(|count| (form, count))) {
            let mut bytes = [&form.sync()[..], &random.bytes(form.length(2) + 1 - 4)].concat();
            bytes[form.count_place()] = count;
            for (length, at_the_end) in (0..=bytes.len()).flat_map(|length| [(length, true), (length, false)]) {
                let message = lent.lend(length, at_the_end, &bytes[..length]);
                if length < 15 {
                    assert_eq!(read_all(message).unwrap(), 1, "{length} bytes");
                    continue;
                }
                let (last, fits) = (length - 1, length == form.length(count));
                message[last] = checksum(&message[4..last]);
                for (place, change, refusal) in [(0, 0, if fits { 0 } else { 3 }), (last, 1, if fits { 4 } else { 3 }), (0, 1, 2)] {
                    message[place] ^= change;
                    assert_eq!(read_all(message).unwrap(), refusal, "{length} bytes that claim {count} observations");
                }
            }
        }
    }
}

/// Records and outputs of all lengths up to twice that of a record, at both walls.
#[test]
fn records() {
    let (mut lent, mut put) = (Walled::new(), Walled::new());
    for (mut random, _) in streams_from(SEED, 100) {
        for (length, at_the_end) in (0..=2 * RECORD_BYTES).flat_map(|length| [(length, true), (length, false)]) {
            let (bytes, output) = (lent.lend(length, at_the_end, &random.bytes(length)), put.lend(length, at_the_end, &[]));
            assert_eq!(board::rangecmp_read(bytes).refusal, reader::read_record(bytes).err().unwrap_or(0));
            assert_eq!(board::rangecmp_adr(bytes).refusal, reader::corrected_adr(bytes).err().unwrap_or(0));
            let whole = random.bytes(RECORD_BYTES);
            let written = board::rangecmp_write(output, board::rangecmp_read(&whole));
            assert_eq!(written.refusal, if length < RECORD_BYTES { 6 } else { 0 });
            assert!(written.refusal == 6 || output.starts_with(&whole));
        }
    }
}

/// Whole messages and fronts of them, histories, and lists that are long enough or are not, at both walls.
#[test]
fn breaks_of_lock() {
    println!("1000 histories at the edges of memory, from seed {SEED}");
    let (mut lent, mut held, mut put) = (Walled::new(), Walled::new(), Walled::new());
    for seed in SEED..SEED + 1000 {
        let mut random = Random::new(seed);
        let signal = random.byte();
        let words = streams::history_words(&mut random, signal);
        let history: &mut board::History = held.lend(HISTORY_WORDS, random.once_in(2), &words).try_into().unwrap();
        let mut expected = *history;
        for message in streams::history(&mut random, signal) {
            let mut bytes = message.to_bytes();
            if random.once_in(4) {
                bytes.truncate(random.below(bytes.len()));
            }
            let length = BREAKS_NUMBERS + random.below(4) - 1;
            let message = lent.lend(bytes.len(), random.once_in(2), &bytes);
            let listed = board::breaks(message, history, put.lend(length, random.once_in(2), &[]));
            let entries = reader::next_breaks(&bytes, &mut expected, length);
            assert_eq!((listed.refusal, listed.count as usize), entries.map_or_else(|refusal| (refusal, 0), |entries| (0, entries.len())));
            assert_eq!(*history, expected);
        }
        board::breaks_fresh(history, signal);
        assert_eq!(*history, reader::fresh_history(signal));
    }
}

#[test]
fn plain_reader() {
    let mut lent = Walled::new();
    for (mut random, stream) in streams_from(SEED, 3000) {
        let recording = lent.lend(stream.len(), random.once_in(2), &stream);
        let mut start = 0;
        let mut messages = 0;
        loop {
            let found = board::next(recording, start);
            if found.kind != board::MESSAGE {
                break;
            }
            messages += 1;
            start = (found.position + found.length) as usize;
        }
        assert_eq!(messages, reader::divide(&stream).given.len());
    }
}

/// All short lengths, and longer recordings at about a hundred positions.
#[test]
fn reasons_at_the_edges() {
    let mut lent = Walled::new();
    for (mut random, stream) in streams_from(SEED, 2000) {
        let length = stream.len().min(random.below(2) * PAGES * PAGE + random.below(41));
        for at_the_end in [true, false] {
            let recording = lent.lend(length, at_the_end, &stream[..length]);
            reasons(recording, (0..=length + 1).step_by(1 + length / 100)).unwrap();
        }
    }
}

#[test]
fn stream_reader() {
    let (mut lent, mut held, mut put) = (Walled::new(), Walled::new(), Walled::new());
    for (mut random, stream) in streams_from(SEED, 1500) {
        let window = held.lend(LONGEST + random.below(2) * random.below(100), random.once_in(2), &[]);
        let output = put.lend(LONGEST + random.below(2) * random.below(100), random.once_in(2), &[]);
        let (mut state, mut left, mut messages) = (board::fresh(), &stream[..], 0);
        for length in streams::cuts(&mut random, stream.len()) {
            let (mut piece, later) = left.split_at(length);
            left = later;
            loop {
                let answer = board::feed(&mut state, lent.lend(piece.len(), random.once_in(2), piece), window, output);
                piece = &piece[answer.taken as usize..];
                if answer.kind != board::MESSAGE {
                    break;
                }
                messages += 1;
            }
        }
        while board::finish(&mut state, window, output).kind == board::MESSAGE {
            messages += 1;
        }
        assert_eq!((messages, state.summed), (reader::divide(&stream).given.len(), reader::work(&stream)));
    }
}
