//! The numbers for the track people.

use crate::message::{Form, Observation};

/// Metres a second, and the counts of PR in a second: 264-21's own words for PR.
const SPEED_OF_LIGHT: u128 = 299_792_458;
const COUNTS_A_SECOND: u128 = 30_000_000_000;

/// The range in micrometres: how far light goes in PR counts, to the nearest, and at a tie to the higher.
pub fn range_um(pseudorange: u32) -> u64 {
    let counted = u128::from(pseudorange) * SPEED_OF_LIGHT * 1_000_000;
    let (whole, rest) = (counted / COUNTS_A_SECOND, counted % COUNTS_A_SECOND);
    (if rest < COUNTS_A_SECOND - rest { whole } else { whole + 1 }) as u64
}

/// The milliseconds since lock.
pub fn lock_ms(lock: u32) -> u64 {
    u64::from(lock) * 2
}

/// A phase, and what is due by PHASE Polarity State, which is left to whoever computes with the cycles.
#[derive(Clone, Copy, Debug, PartialEq)]
pub enum Phase {
    Withheld,
    NotFinite,
    Cycles(f64, Polarity),
}

/// 264-21's table 5, bits 8 to 10.
#[derive(Clone, Copy, Debug, PartialEq)]
pub enum Polarity {
    Unknown,
    NotCorrected,
    DueHalf,
    Undefined(u8),
}

impl Polarity {
    pub fn from_code(code: u8) -> Polarity {
        match code {
            0 => Polarity::Unknown,
            5 => Polarity::NotCorrected,
            7 => Polarity::DueHalf,
            code => Polarity::Undefined(code),
        }
    }
}

pub fn phase(form: Form, observation: &Observation) -> Phase {
    let [high, low] = observation.condition.to_be_bytes();
    let cycles = f64::from_bits(observation.phase);
    match form {
        Form::New if low & 4 == 4 && cycles.is_finite() => Phase::Cycles(cycles, Polarity::from_code(high & 7)),
        Form::New if low & 4 == 4 => Phase::NotFinite,
        _ => Phase::Withheld,
    }
}

/// Range in metres and rate in hertz, each the double nearest to the quotient of whole numbers.
pub fn plot_row(pseudorange: u32, rate: i32) -> (f64, f64) {
    (range_um(pseudorange) as f64 / 1e6, f64::from(rate) / 1e4)
}
