//! The bytes summed of streams that cost much, through the C boundary. Every run compares them with the second reader's after each call.

use boundary::{board, run, Twin};
use reader::{work, LONGEST};

/// Runs over the stream whole, in pieces of a few sizes and byte by byte, and answers the bytes summed, the same in each.
fn summed(stream: &[u8]) -> u64 {
    for size in [stream.len(), 4096, 64, 7, 1] {
        let pieces: Vec<_> = stream.chunks(size).map(<[u8]>::len).collect();
        run(stream, &pieces, vec![0x4D; LONGEST], vec![0x41; LONGEST]).unwrap();
    }
    work(stream)
}

/// Each start of a crowd claims the longest old message, of 6,130 covered bytes, and all of it is there but for the last 1,022 starts.
#[test]
fn a_crowd_of_starts() {
    assert_eq!(summed(&b"MACMx\xFF".repeat(1022)), 0);
    assert_eq!(summed(&b"MACMx\xFF".repeat(1022 + 300)), 300 * 6130);
}

/// Starts three bytes apart, as near as they come: C is the count of each, 67, so that each claims 1,623 bytes and covers 1,618.
#[test]
fn starts_three_bytes_apart() {
    assert_eq!(summed(&b"MAC".repeat(540 + 300)), 300 * 1618);
}

/// Each call counts what it tests: a start once its last byte is there, and none of those that the end cuts short.
#[test]
fn a_start_is_counted_with_its_last_byte() {
    let mut twin = Twin::new(board::fresh(), vec![0x32; LONGEST], vec![0x4D; LONGEST]);
    for (place, byte) in b"MACMx\x00".repeat(6).into_iter().enumerate() {
        twin.feed(&[byte]).unwrap();
        let whole = (place + 1).saturating_sub(9) / 6;
        assert_eq!(twin.state.summed, 10 * whole as u64, "byte {place}");
    }
    assert_eq!(twin.finish().unwrap(), board::Answer { kind: board::END, gap: 36, ..Default::default() });
    assert_eq!(twin.state.summed, 40);
}
