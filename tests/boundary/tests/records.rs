//! RANGECMP records through the C boundary: 003's record with every value of its text, E4's numbers, every refusal, and each field at its ends.

use boundary::board::{self, Adr, Rangecmp};
use boundary::{rangecmp_adr, rangecmp_deviations, rangecmp_read, rangecmp_write};
use reader::RECORD_BYTES;

// It stands in read-only memory: a call that wrote into a record lent for reading would end the program.
static PUBLISHED: &[u8] = include_bytes!("../../../crates/vectors/data/apn-031-rangecmp.bin");

fn published() -> Rangecmp {
    Rangecmp {
        refusal: 0,
        status: 0x0810_9C24,
        doppler: 418_574,
        range: 3_212_551_842,
        adr: -102_270_423,
        range_deviation: 0,
        adr_deviation: 4,
        prn: 27,
        lock: 102_017,
        cn0: 44,
        reserved: 0,
    }
}

/// The bytes of a record that is accepted.
fn written(record: Rangecmp) -> [u8; RECORD_BYTES] {
    assert_eq!(rangecmp_write(&[0xEE; RECORD_BYTES], record).unwrap(), 0);
    let mut bytes = [0; RECORD_BYTES];
    board::rangecmp_write(&mut bytes, record);
    bytes
}

/// All three calls on the same bytes, as a record and as an output.
fn all_alike(bytes: &[u8]) {
    rangecmp_read(bytes).unwrap();
    rangecmp_adr(bytes).unwrap();
    rangecmp_write(bytes, published()).unwrap();
}

#[test]
fn the_published_record() {
    all_alike(PUBLISHED);
    assert_eq!(board::rangecmp_read(PUBLISHED), published());
    assert_eq!(board::rangecmp_adr(PUBLISHED), Adr { refusal: 0, rolls: 16, adr: -34_462_008_791 });
    assert_eq!(written(published()), PUBLISHED);
    assert_eq!((board::rangecmp_range_mm(0), board::rangecmp_adr_512ths(4)), (50, 5));
}

/// Doubles make one roll more of the first two. The only halves are those of range 0. Each is tried with the ADRs next to it, too.
#[test]
fn rolls() {
    for (range, adr, rolls) in [
        (28_222_569_217, -1_342_202_899, 137),
        (22_179_300_586, -104_046_687, 108),
        (0, 1 << 30, 1),
        (0, -1 << 30, -1),
        (0, (1 << 30) - 1, 0),
        (0, 1 - (1 << 30), 0),
        (0, (1 << 31) - 1, 1),
        (0, -1 << 31, -1),
        // A range of 10.51/256 cycles.
        (1, (-1 << 30) - 10, 0),
        (1, (-1 << 30) - 11, -1),
        ((1 << 36) - 1, -1 << 31, 335),
        ((1 << 36) - 1, (1 << 31) - 1, 337),
    ] {
        for off in [-2, -1, 0, 1, 2] {
            let adr = i64::from((adr + off) as i32);
            rangecmp_adr(&written(Rangecmp { range, adr, ..published() })).unwrap();
        }
        let bytes = written(Rangecmp { range, adr, cn0: 20, ..Default::default() });
        assert_eq!(board::rangecmp_adr(&bytes), Adr { refusal: 0, rolls, adr: adr - rolls * (1 << 31) }, "range {range}, ADR {adr}");
    }
}

/// Each bit alone, each missing, none and all.
#[test]
fn single_bits() {
    for bit in 0..8 * RECORD_BYTES {
        let mut one = [0; RECORD_BYTES];
        one[bit / 8] |= 1 << (bit % 8);
        all_alike(&one);
        all_alike(&one.map(|byte| !byte));
    }
    all_alike(&[0; RECORD_BYTES]);
    all_alike(&[0xFF; RECORD_BYTES]);
}

#[test]
fn every_length() {
    for length in 0..=64 {
        let bytes: Vec<_> = PUBLISHED.iter().copied().cycle().take(length).collect();
        all_alike(&bytes);
        let refusal = if length == RECORD_BYTES { 0 } else { 13 };
        assert_eq!(board::rangecmp_read(&bytes).refusal, refusal, "{length} bytes");
        assert_eq!(board::rangecmp_adr(&bytes).refusal, refusal, "{length} bytes");
        let refusal = if length < RECORD_BYTES { 6 } else { 0 };
        assert_eq!(rangecmp_write(&vec![0xEE; length], published()).unwrap(), refusal, "an output of {length} bytes");
    }
}

/// A refusal answers 0 for all else, and comes in its order: 13 before 22, 23 before 6.
#[test]
fn refusals_in_order() {
    let other = [0xFF; RECORD_BYTES + 1];
    for (length, refusal) in [(23, 13), (24, 22), (25, 13)] {
        assert_eq!(rangecmp_adr(&other[..length]).unwrap(), refusal);
        assert_eq!(board::rangecmp_adr(&other[..length]), Adr { refusal, ..Default::default() });
    }
    assert_eq!(board::rangecmp_read(&other), Rangecmp { refusal: 13, ..Default::default() });
    let wide = Rangecmp { prn: 256, ..published() };
    for (length, record, refusal) in [(23, wide, 23), (24, wide, 23), (0, wide, 23), (23, published(), 6), (0, published(), 6)] {
        assert_eq!(rangecmp_write(&vec![7; length], record).unwrap(), refusal);
        assert_eq!(board::rangecmp_write(&mut vec![7; length], record), board::Written { refusal, length: 0 });
    }
}

/// What reading answered is not looked at in writing.
#[test]
fn a_refusal_in_the_record() {
    for refusal in [1, 6, 13, 23, 1 << 32, u64::MAX] {
        assert_eq!(written(Rangecmp { refusal, ..published() }), PUBLISHED);
    }
}

/// Tries a field of so many bits at these numbers, each with every other field fine: it holds those up to the highest.
fn unsigned(width: u32, with: fn(u64) -> Rangecmp) {
    let highest = (1 << width) - 1;
    for number in [0, 1, highest - 1, highest, highest + 1, highest + 2, highest << 1, 1 << 63, u64::MAX - highest, u64::MAX] {
        let refusal = if number <= highest { 0 } else { 23 };
        assert_eq!(rangecmp_write(&[0xEE; 30], with(number)).unwrap(), refusal, "{width} bits, {number}");
    }
}

/// The same for a signed one, which holds those from the least to the highest.
fn signed(width: u32, with: fn(i64) -> Rangecmp) {
    let (least, highest) = (-1 << (width - 1), (1 << (width - 1)) - 1);
    for number in [0, 1, -1, highest, highest + 1, least, least - 1, 1 << width, -1 << width, (1 << width) - 1, i64::MIN, i64::MAX] {
        let refusal = if (least..=highest).contains(&number) { 0 } else { 23 };
        assert_eq!(rangecmp_write(&[0xEE; 30], with(number)).unwrap(), refusal, "{width} bits signed, {number}");
    }
}

#[test]
fn each_field_at_its_ends() {
    unsigned(32, |status| Rangecmp { status, ..published() });
    signed(28, |doppler| Rangecmp { doppler, ..published() });
    unsigned(36, |range| Rangecmp { range, ..published() });
    signed(32, |adr| Rangecmp { adr, ..published() });
    unsigned(4, |range_deviation| Rangecmp { range_deviation, ..published() });
    unsigned(4, |adr_deviation| Rangecmp { adr_deviation, ..published() });
    unsigned(8, |prn| Rangecmp { prn, ..published() });
    unsigned(21, |lock| Rangecmp { lock, ..published() });
    unsigned(22, |reserved| Rangecmp { reserved, ..published() });
}

#[test]
fn signal_to_noise_at_its_ends() {
    for cn0 in (0..300).chain([1 << 32, (1 << 32) + 20, 1 << 63, u64::MAX - 11, u64::MAX]) {
        let refusal = if (20..=51).contains(&cn0) { 0 } else { 23 };
        assert_eq!(rangecmp_write(&[0xEE; 30], Rangecmp { cn0, ..published() }).unwrap(), refusal, "C/N0 {cn0}");
    }
}

/// Every system and every signal, with all other bits of the status 0 and 1.
#[test]
fn every_system_and_signal() {
    for (system, signal) in (0..8).flat_map(|system| (0..32).map(move |signal| (system, signal))) {
        for others in [0, 0xFC18_FFFF] {
            let bytes = written(Rangecmp { status: others | system << 16 | signal << 21, ..published() });
            assert_eq!(rangecmp_adr(&bytes).unwrap(), if system + signal == 0 { 0 } else { 22 }, "system {system}, signal {signal}");
        }
    }
}

/// Of a code above 15 the low 4 bits count.
#[test]
fn every_deviation() {
    (0..=300).chain([1 << 32, (1 << 32) + 3, 1 << 63, u64::MAX - 1, u64::MAX]).for_each(|code| rangecmp_deviations(code).unwrap());
    assert_eq!([0, 9, 15, 16, 31, u64::MAX].map(board::rangecmp_range_mm), [50, 2375, 152_000, 50, 152_000, 152_000]);
    assert_eq!([0, 9, 15, 16, 31, u64::MAX].map(board::rangecmp_adr_512ths), [1, 10, 16, 1, 16, 16]);
}
