//! Each refusal of document 01's table by name, in the order in which a call tests them: all other numbers are 0, and no lent byte changes.

use boundary::{board, check, next, read_all_lent, read_header, read_observation, reasons, set, start, to_new, to_old, Twin};
use reader::{LONGEST, STREAM_BYTES, SUMMED_BYTES};

// Both stand in read-only memory: a call that wrote into a message lent for reading would end the program.
static A: [u8; 16] = [0x4D, 0x41, 0x43, 0x32, 0x00, 0x00, 0x00, 0x0E, 0xA0, 0x0C, 0x90, 0x40, 0x7C, 0x10, 0x00, 0x1E];
static B: [u8; 15] = [0x4D, 0x41, 0x43, 0x4D, 0x02, 0x00, 0x0E, 0xA0, 0x0C, 0x90, 0x40, 0x7C, 0x10, 0x00, 0x1C];

/// A window and an output of these lengths, full of sync letters.
fn twin(state: board::State, window: usize, output: usize) -> Twin {
    Twin::new(state, b"MAC2".repeat(window / 4 + 1)[..window].to_vec(), b"MACM".repeat(output / 4 + 1)[..output].to_vec())
}

/// What both feeding and finishing answer, with everything as it was before.
fn refused(state: board::State, window: usize, output: usize, piece: &[u8], feeding: u64, finishing: u64) {
    for (number, feeds) in [(feeding, true), (finishing, false)] {
        let mut twin = twin(state, window, output);
        let (before, lent, put) = (twin.state, twin.window().to_vec(), twin.output().to_vec());
        let answer = if feeds { twin.feed(piece) } else { twin.finish() }.unwrap();
        assert_eq!(answer.refusal, number, "{state:?}, window {window}, output {output}, feeding {feeds}");
        if number != 0 {
            assert_eq!(answer, board::Answer { refusal: number, ..Default::default() });
            assert_eq!((twin.state, twin.window(), twin.output()), (before, &lent[..], &put[..]));
        }
    }
}

fn state(held: u64, gap: u64, total: u64, ended: u64) -> board::State {
    board::State { held, gap, total, ended, summed: 0 }
}

/// At this index nothing is answered but the number.
fn no_observation(bytes: &[u8], index: usize, number: u64) {
    assert_eq!(read_observation(bytes, index).unwrap(), number);
    assert_eq!(board::read_observation(bytes, index), board::Observed { refusal: number, ..Default::default() });
}

/// Nor for the header, and at no index.
fn unread(bytes: &[u8], number: u64) {
    assert_eq!(read_header(bytes).unwrap(), number);
    assert_eq!(board::read_header(bytes), board::Head { refusal: number, ..Default::default() });
    for index in [0, 1, 7, 255, usize::MAX] {
        no_observation(bytes, index, number);
    }
}

#[test]
fn one_to_four() {
    let mut damaged = A;
    damaged[14] ^= 1;
    let mut other = A;
    other[3] = 0x33;
    let longer = [&A[..], &[0]].concat();
    for (bytes, number) in [(&A[..14], 1), (&b"MAC3"[..], 1), (&other, 2), (&A[..15], 3), (&longer, 3), (&damaged, 4)] {
        let observation = board::Observation { sid: 9, ..Default::default() };
        assert_eq!(check(bytes).unwrap(), number);
        unread(bytes, number);
        assert_eq!(set(bytes, 7, observation).unwrap(), number);
        assert_eq!(to_new(bytes, 0, 0, &[7; 3]).unwrap(), number);
        assert_eq!(to_old(bytes, 0, &[7; 3]).unwrap(), number);
    }
}

#[test]
fn five() {
    let observation = board::Observation::default();
    for message in [&A[..], &B] {
        assert_eq!(read_header(message).unwrap(), 0);
        for index in [0, 1, 254, 255, 256, usize::MAX] {
            no_observation(message, index, 5);
            assert_eq!(set(message, index, observation).unwrap(), 5);
        }
    }
    let mut message = [0; 40];
    board::start(&mut message, board::Header { form: board::NEW, ..Default::default() }, 1);
    for index in [1, 255, 256, usize::MAX / 24 + 1, usize::MAX] {
        no_observation(&message, index, 5);
        assert_eq!(set(&message, index, observation).unwrap(), 5);
    }
}

/// A message of which no field is 0; a SID is one more than its index.
fn full(form: u64, count: u8) -> Vec<u8> {
    let mut message = vec![0; LONGEST];
    let header = board::Header { form, version: 2, signal: 3, tfom: 4, time: 5, offset: 6 };
    let written = board::start(&mut message, header, count);
    message.truncate(written.length as usize);
    for index in 0..count {
        let sid = u64::from(index) + 1;
        let observation = board::Observation { sid, condition: 1, cn0: 2, phase: 3, pseudorange: 4, rate: -5, lock: 6 };
        assert_eq!(board::set(&mut message, index.into(), observation), 0);
    }
    message
}

/// Fields that are not 0 would show a refused call that answers one of them. 4 comes before 5, whatever the count.
#[test]
fn one_to_four_of_full_messages() {
    for (form, count) in [board::OLD, board::NEW].into_iter().flat_map(|form| [1, 2, 255].map(|count| (form, count))) {
        let mut message = full(form, count);
        let last = message.len() - 1;
        unread(&message[..14], 1);
        unread(&message[..last], 3);
        message[last] ^= 1;
        unread(&message, 4);
        message[0] ^= 1;
        unread(&message, 2);
    }
}

#[test]
fn five_of_the_longest_messages() {
    for form in [board::OLD, board::NEW] {
        let message = full(form, 255);
        assert_eq!(read_all_lent(&message).unwrap(), 0);
        let head = board::read_header(&message);
        assert_eq!((head.refusal, head.count, head.header.form), (0, 255, form));
        for index in 0..255 {
            let observed = board::read_observation(&message, index);
            assert_eq!((observed.refusal, observed.observation.sid), (0, index as u64 + 1));
        }
        no_observation(&message, 255, 5);
    }
}

#[test]
fn six_and_seven() {
    let header = board::Header { form: board::NEW, ..Default::default() };
    for count in [0, 1, 255] {
        let needs = 16 + 24 * usize::from(count);
        assert_eq!(start(&vec![7; needs - 1], header, count).unwrap(), 6);
        assert_eq!(start(&vec![7; needs], header, count).unwrap(), 0);
    }
    assert_eq!(start(&[], header, 0).unwrap(), 6);
    assert_eq!(to_new(&B, 0, 0, &[7; 15]).unwrap(), 6);
    assert_eq!(to_new(&A, 0, 0, &[7; 15]).unwrap(), 7);
    assert_eq!(to_old(&A, 2, &[7; 14]).unwrap(), 6);
    assert_eq!(to_old(&B, 2, &[7; 14]).unwrap(), 7);
    let mut typed = A;
    typed[4] = 0x10;
    typed[15] ^= 0x10;
    assert_eq!(to_old(&typed, 2, &[7; 14]).unwrap(), 7);
}

#[test]
fn eight_comes_before_all() {
    let broken = board::State { summed: u64::MAX, ..state(u64::MAX, u64::MAX, u64::MAX, 1) };
    for (window, output) in [(0, 0), (LONGEST - 1, LONGEST), (LONGEST, LONGEST - 1), (0, 20000), (20000, 0)] {
        refused(broken, window, output, &A, 8, 8);
        refused(state(0, 0, 0, 0), window, output, &A, 8, 8);
    }
}

#[test]
fn nine() {
    let longest = LONGEST as u64;
    for (state, number) in [
        (state(longest + 1, 0, STREAM_BYTES, 1), 9),
        (state(0, 0, STREAM_BYTES + 1, 1), 9),
        (state(1, 0, 0, 1), 9),
        (state(0, 1, 0, 1), 9),
        (state(2, u64::MAX, 1, 1), 9),
        (state(longest, u64::MAX - longest + 1, longest, 1), 9),
        (state(longest, u64::MAX, u64::MAX, 1), 9),
        (state(longest, STREAM_BYTES - longest + 1, STREAM_BYTES, 1), 9),
        (state(longest, STREAM_BYTES - longest, STREAM_BYTES, 0), 0),
    ] {
        refused(state, LONGEST, LONGEST, &[], number, number);
    }
}

#[test]
fn nine_for_the_bytes_summed() {
    for (summed, number) in [(0, 0), (SUMMED_BYTES - 1, 0), (SUMMED_BYTES, 0), (SUMMED_BYTES + 1, 9), (1 << 61, 9), (1 << 63, 9), (u64::MAX, 9)] {
        refused(board::State { summed, ..board::fresh() }, LONGEST, LONGEST, &A, number, number);
    }
    let ended_and_full = board::State { summed: SUMMED_BYTES + 1, ..state(0, 0, STREAM_BYTES, 1) };
    refused(ended_and_full, LONGEST, LONGEST, &A, 9, 9);
}

/// A call may pass 2^60, by a message or by a checksum that is off; the next one is refused.
#[test]
fn nine_after_a_call_that_passes_the_most() {
    let mut off = A;
    off[15] ^= 1;
    for (before, number) in [(SUMMED_BYTES - 11, 0), (SUMMED_BYTES - 10, 9), (SUMMED_BYTES, 9)] {
        for message in [&A, &off] {
            let held = board::State { summed: before, ..state(16, 0, 16, 0) };
            let window = [&message[..], &[0; LONGEST]].concat();
            for feeds in [true, false] {
                let mut twin = Twin::new(held, window.clone(), vec![0; LONGEST]);
                let first = if feeds { twin.feed(&[]) } else { twin.finish() }.unwrap();
                assert_eq!((first.refusal, twin.state.summed), (0, before + 11));
                assert_eq!(twin.finish().unwrap().refusal, number);
                assert_eq!(twin.feed(&[]).unwrap().refusal, if number == 0 { 10 } else { 9 });
                assert_eq!(twin.state.summed, before + 11);
            }
        }
    }
}

#[test]
fn ten_and_eleven() {
    for ended in [1, 2, 256, 1 << 32, 1 << 63, u64::MAX] {
        refused(state(0, 0, STREAM_BYTES, ended), LONGEST, LONGEST, &A, 10, 0);
    }
    refused(state(0, 0, STREAM_BYTES, 0), LONGEST, LONGEST, &A[..1], 11, 0);
    refused(state(0, 0, STREAM_BYTES - 15, 0), LONGEST, LONGEST, &A, 11, 0);
    refused(state(0, 0, STREAM_BYTES - 16, 0), LONGEST, LONGEST, &A, 0, 0);
    refused(state(0, 0, STREAM_BYTES, 0), LONGEST, LONGEST, &[], 0, 0);
}

/// 11 counts what is offered, also where the held bytes alone would give a message.
#[test]
fn eleven_counts_what_is_offered() {
    let held = state(16, 0, STREAM_BYTES, 0);
    let mut window = vec![0xEE; LONGEST];
    window[..16].copy_from_slice(&A);
    let mut twin = Twin::new(held, window, vec![0xDD; LONGEST]);
    assert_eq!(twin.feed(&[0]).unwrap(), board::Answer { refusal: 11, ..Default::default() });
    assert_eq!(twin.feed(&[]).unwrap(), board::Answer { kind: board::MESSAGE, length: 16, ..Default::default() });
}

#[test]
fn twelve() {
    assert_eq!(next(&A, 16).unwrap(), 0);
    for start in [17, 18, usize::MAX] {
        assert_eq!(next(&A, start).unwrap(), 12);
        assert_eq!(board::next(&A, start), board::Found { refusal: 12, ..Default::default() });
    }
    assert_eq!(next(&[], 0).unwrap(), 0);
    assert_eq!(next(&[], 1).unwrap(), 12);
}

/// Unlike a start, a position has to be that of a byte: the end itself is refused.
#[test]
fn twelve_at_the_end() {
    for message in [&A[..], &B, &[]] {
        reasons(message, 0..message.len()).unwrap();
        for position in [message.len(), message.len() + 1, 1 << 32, 1 << 63, usize::MAX] {
            assert_eq!(board::why(message, position), board::Reason { refusal: 12, ..Default::default() });
        }
    }
}
