//! RANGECMP records whose fields stand at their edges, and whose rolls lie next to a half, more often than chance has them.

use crate::Random;
use reader::Record;

/// The first range above 0, in 1/128 m, that is a whole number of 1/256 cycles: L1's wavelength in 10^-13 m, less its greatest factor in common with
/// 2 * 10^13, which is 16. No record holds it.
const PERIOD: u128 = 118_933_545_499;

/// E4's range of 137 rolls, short of whole 1/256 cycles by one part in PERIOD. Its n-th multiple, less whole periods, is short by n.
const NEARLY_WHOLE: u128 = 28_222_569_217;

/// A number of so many bits.
fn unsigned(random: &mut Random, width: usize) -> u64 {
    let (most, half, low) = ((1 << width) - 1, 1 << (width - 1), random.below(2) as u64);
    match random.below(8) {
        0 => low,
        1 => most - low,
        2 => half - low,
        3 => 1 << random.below(width),
        _ => random.number() & most,
    }
}

/// The same in two's complement.
fn signed(random: &mut Random, width: usize) -> i64 {
    (unsigned(random, width) << (64 - width)) as i64 >> (64 - width)
}

/// The tracking status, mostly of GPS L1 C/A, or with one bit that may say otherwise.
fn status(random: &mut Random) -> u64 {
    let status = unsigned(random, 32);
    match random.below(8) {
        0 => status,
        1 => 1 << random.below(32),
        _ => status & !0x03E7_0000,
    }
}

/// No range, one so short that the rolls may be below 0, one that is nearly whole 1/256 cycles, or any.
fn range(random: &mut Random) -> u64 {
    match random.below(8) {
        0 => 0,
        1 | 2 => unsigned(random, 26),
        3..=5 => {
            let short = NEARLY_WHOLE * random.below(2000) as u128 % PERIOD;
            // What is left to the period is over by as much, and one of the two has 36 bits.
            (if short < 1 << 36 { short } else { PERIOD - short }) as u64
        }
        _ => unsigned(random, 36),
    }
}

/// An ADR with which the rolls are a half, or a step of the ADR or two beside it. Cut to 32 bits it stays there: 2^32 are two rolls.
fn beside_a_half(random: &mut Random, range: u64) -> i64 {
    let steps = (u128::from(range) * 20_000_000_000_000 / (16 * PERIOD)) as i64;
    let half = (2 * random.below(2) as i64 + 1) << 30;
    i64::from((half - steps + random.below(3) as i64 - 1) as i32)
}

/// A record that can be written.
pub fn record(random: &mut Random) -> Record {
    let range = range(random);
    Record {
        status: status(random),
        doppler: signed(random, 28),
        range,
        adr: if random.once_in(2) { beside_a_half(random, range) } else { signed(random, 32) },
        range_deviation: unsigned(random, 4),
        adr_deviation: unsigned(random, 4),
        prn: unsigned(random, 8),
        lock: unsigned(random, 21),
        cn0: 20 + unsigned(random, 5),
        reserved: unsigned(random, 22),
    }
}
