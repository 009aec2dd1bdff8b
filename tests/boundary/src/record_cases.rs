//! Cases of RANGECMP records: bytes of any length, numbers that their fields cannot hold, rolls next to a half.

use crate::cases::{buffer, outcome};
use crate::{board, compare, expected, Verdict};
use reader::RECORD_BYTES;
use streams::Random;

/// Bytes that are a record, or have another length.
fn nearly_record(random: &mut Random) -> Vec<u8> {
    let mut bytes = vec![0; RECORD_BYTES];
    reader::write_record(&mut bytes, &streams::record(random)).expect("a record that can be written");
    match random.below(10) {
        0 => streams::damage(random, &mut bytes),
        1 => bytes = random.bytes(RECORD_BYTES),
        2 => bytes.truncate(random.below(RECORD_BYTES)),
        3 => bytes.extend(random.bytes_below(30)),
        _ => (),
    }
    bytes
}

pub fn read(random: &mut Random) -> Verdict<u64> {
    compare::rangecmp_read(&nearly_record(random)).map(|refusal| outcome(refusal, 0))
}

pub fn adr(random: &mut Random) -> Verdict<u64> {
    compare::rangecmp_adr(&nearly_record(random)).map(|refusal| outcome(refusal, 0))
}

/// Mostly the highest number of so many bits, or the first above it.
fn about_highest(random: &mut Random, width: u32) -> u64 {
    if random.once_in(3) {
        random.edgy()
    } else {
        (1 << width) - 1 + random.below(2) as u64
    }
}

/// The same in two's complement, or mostly the least, or the first below it.
fn about_either_end(random: &mut Random, width: u32) -> i64 {
    let highest = about_highest(random, width - 1) as i64;
    if random.once_in(2) {
        highest
    } else {
        -1 - highest
    }
}

/// A record as a caller may give it, often with one number that its field cannot hold, or can just hold.
fn given(random: &mut Random) -> board::Rangecmp {
    let refusal = random.pick(&[0, 0, 13, u64::MAX]);
    let mut record = board::Rangecmp { refusal, ..expected::rangecmp(Ok(streams::record(random))) };
    match random.below(20) {
        0 => record.status = about_highest(random, 32),
        1 => record.doppler = about_either_end(random, 28),
        2 => record.range = about_highest(random, 36),
        3 => record.adr = about_either_end(random, 32),
        4 => record.range_deviation = about_highest(random, 4),
        5 => record.adr_deviation = about_highest(random, 4),
        6 => record.prn = about_highest(random, 8),
        7 => record.lock = about_highest(random, 21),
        8 => record.cn0 = random.edgy(),
        9 => record.cn0 = random.pick(&[0, 19, 20, 51, 52, 83, 84]),
        10 => record.reserved = about_highest(random, 22),
        _ => (),
    }
    record
}

pub fn write(random: &mut Random) -> Verdict<u64> {
    let record = given(random);
    compare::rangecmp_write(&buffer(random, RECORD_BYTES), record).map(|refusal| outcome(refusal, 0))
}

pub fn deviations(random: &mut Random) -> Verdict<u64> {
    let code = if random.once_in(2) { random.edgy() } else { random.below(40) as u64 };
    compare::rangecmp_deviations(code).map(|()| outcome(0, 0))
}
