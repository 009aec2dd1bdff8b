//! NovAtel's RANGECMP record by 003: a list of 192 bits, of which each field uses up the next, and the rolls of its ADR by the exact fraction.

use crate::message::put;
use crate::whole::Whole;
use crate::Refusal;

/// The length of a record.
pub const RECORD_BYTES: usize = 24;

/// How many bits each field has, in the order in which 003 describes them.
const WIDTHS: [usize; 10] = [32, 28, 36, 32, 4, 4, 8, 21, 5, 22];

/// The C/N0 that stands as 0.
const LEAST_CN0: u64 = 20;

/// The places of the tracking status that are all 0 for GPS L1 C/A: those of the system, then those of the signal.
const OTHER_SIGNAL: [u32; 8] = [16, 17, 18, 21, 22, 23, 24, 25];

/// 003's table 1, in millimetres.
const RANGE_DEVIATIONS: [u64; 16] = [50, 75, 113, 169, 253, 380, 570, 854, 1281, 2375, 4750, 9500, 19_000, 38_000, 76_000, 152_000];

/// L1's wavelength, 0.1902936727984 m, and a metre in the same unit.
const WAVELENGTH: i64 = 1_902_936_727_984;
const METRE: i64 = 10_000_000_000_000;

/// How far the ADR goes before it rolls over: 2^23 cycles in its own step, 1/256 cycle.
const ROLL: i64 = 256 << 23;

/// The fields in the log's own steps, C/N0 in dB-Hz. Each is wide enough for a number that its field cannot hold.
#[derive(Clone, Copy, Debug, Default, PartialEq)]
pub struct Record {
    pub status: u64,
    pub doppler: i64,
    pub range: u64,
    pub adr: i64,
    pub range_deviation: u64,
    pub adr_deviation: u64,
    pub prn: u64,
    pub lock: u64,
    pub cn0: u64,
    pub reserved: u64,
}

/// So many bits of a number, the lowest first.
fn bits(number: u64, width: usize) -> impl Iterator<Item = bool> {
    (0..width).map(move |place| number >> place & 1 == 1)
}

/// The number that these bits are, the lowest first.
fn unsigned(bits: &[bool]) -> u64 {
    bits.iter().rev().fold(0, |sum, &bit| sum * 2 + u64::from(bit))
}

/// The same in two's complement: 003's second method, which takes 2^width away where the highest bit is set.
fn signed(bits: &[bool]) -> i64 {
    let number = unsigned(bits) as i64;
    if bits.ends_with(&[true]) {
        number - (1 << bits.len())
    } else {
        number
    }
}

/// Refuses with 13.
pub fn read_record(bytes: &[u8]) -> Result<Record, Refusal> {
    if bytes.len() != RECORD_BYTES {
        return Err(13);
    }
    let mut left: Vec<_> = bytes.iter().flat_map(|&byte| bits(byte.into(), 8)).collect();
    let fields = WIDTHS.map(|width| left.drain(..width).collect::<Vec<_>>());
    let [status, doppler, range, adr, range_deviation, adr_deviation, prn, lock, cn0, reserved] = fields;
    Ok(Record {
        status: unsigned(&status),
        doppler: signed(&doppler),
        range: unsigned(&range),
        adr: signed(&adr),
        range_deviation: unsigned(&range_deviation),
        adr_deviation: unsigned(&adr_deviation),
        prn: unsigned(&prn),
        lock: unsigned(&lock),
        cn0: unsigned(&cn0) + LEAST_CN0,
        reserved: unsigned(&reserved),
    })
}

/// Writes the low bits of each number, and refuses with 23 unless the same record is read from them, then with 6.
pub fn write_record(output: &mut [u8], record: &Record) -> Result<usize, Refusal> {
    let Record { status, doppler, range, adr, range_deviation, adr_deviation, prn, lock, cn0, reserved } = *record;
    let above_least = cn0.wrapping_sub(LEAST_CN0);
    let numbers = [status, doppler as u64, range, adr as u64, range_deviation, adr_deviation, prn, lock, above_least, reserved];
    let all: Vec<_> = numbers.into_iter().zip(WIDTHS).flat_map(|(number, width)| bits(number, width)).collect();
    let bytes: Vec<_> = all.chunks(8).map(|byte| unsigned(byte) as u8).collect();
    if read_record(&bytes) != Ok(*record) {
        return Err(23);
    }
    put(&bytes, output)
}

/// The rolls of the ADR, and the ADR less its rolls. Refuses with 13, then 22.
pub fn corrected_adr(bytes: &[u8]) -> Result<(i64, i64), Refusal> {
    let record = read_record(bytes)?;
    if OTHER_SIGNAL.iter().any(|place| record.status >> place & 1 == 1) {
        return Err(22);
    }
    let rolls = rolls(record.range, record.adr);
    Ok((rolls, record.adr - ROLL * rolls))
}

/// 003's (range / wavelength + ADR) / 2^23 as one fraction. The range is in 1/128 m and the ADR in 1/256 cycle, so that a range counts twice.
fn rolls(range: u64, adr: i64) -> i64 {
    let by_range = Whole::from(2 * METRE) * Whole::from(range as i64);
    let by_adr = Whole::from(WAVELENGTH) * Whole::from(adr);
    nearest(by_range + by_adr, Whole::from(ROLL) * Whole::from(WAVELENGTH))
}

/// The whole number nearest to a fraction, halves away from zero: a step for each half-way point from 0 to the fraction, itself included.
fn nearest(numerator: Whole, denominator: Whole) -> i64 {
    let (step, size) = if numerator.is_negative() { (-1, Whole::from(0) - numerator) } else { (1, numerator) };
    let apart = denominator.clone() + denominator.clone();
    let mut past = size.clone() + size - denominator;
    let mut nearest = 0;
    while !past.is_negative() {
        nearest += step;
        past = past - apart.clone();
    }
    nearest
}

/// What the code of the range's deviation says, in millimetres.
pub fn range_mm(code: u64) -> u64 {
    RANGE_DEVIATIONS[(code % 16) as usize]
}

/// What the code of the ADR's deviation says, in 1/512 cycle.
pub fn adr_512ths(code: u64) -> u64 {
    code % 16 + 1
}
