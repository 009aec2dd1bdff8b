//! The records are hostile enough: the slips that people make in reading them, and in counting rolls, are told from the right reader by them.

use reader::{corrected_adr, read_record, write_record, Record, RECORD_BYTES};
use streams::{record, Random};

const SEED: u64 = 31;
const RECORDS: u64 = 4000;

const METRE: i128 = 10_000_000_000_000;
const WAVELENGTH: i128 = 1_902_936_727_984;

/// The number of records of whose bytes this is true.
fn records_with(differs: impl Fn(&[u8]) -> bool) -> usize {
    (0..RECORDS)
        .filter(|case| {
            let mut bytes = [0; RECORD_BYTES];
            write_record(&mut bytes, &record(&mut Random::new(SEED + case))).expect("a record that can be written");
            differs(&bytes)
        })
        .count()
}

fn assert_noticed(slip: &str, times: usize) {
    println!("seed {SEED}: {slip}: noticed in {times} of {RECORDS} records");
    assert!(times >= RECORDS as usize / 100, "{slip}: noticed in {times} of {RECORDS} records only");
}

/// The number of records that a slip reads as others. It is told the bytes and the right record.
fn noticed(slip: impl Fn(&[u8], Record) -> Record) -> usize {
    records_with(|bytes| {
        let right = read_record(bytes).expect("a record");
        slip(bytes, right) != right
    })
}

/// The number of records with other rolls. It is told range and ADR.
fn noticed_rolls(rolls: impl Fn(i128, i128) -> i128) -> usize {
    records_with(|bytes| {
        let Record { range, adr, .. } = read_record(bytes).expect("a record");
        corrected_adr(bytes).is_ok_and(|(right, _)| i128::from(right) != rolls(range.into(), adr.into()))
    })
}

/// The exact fraction's numerator and denominator at a wavelength, divided as the slip has it.
fn rolls_with(wavelength: i128, divide: fn(i128, i128) -> i128) -> usize {
    noticed_rolls(|range, adr| divide(2 * METRE * range + wavelength * adr, wavelength << 31))
}

fn nearest(numerator: i128, denominator: i128) -> i128 {
    numerator.signum() * ((2 * numerator.abs() + denominator) / (2 * denominator))
}

#[test]
fn the_frame_itself_is_right() {
    assert_eq!(noticed(|_, right| right), 0);
    assert_eq!(rolls_with(WAVELENGTH, nearest), 0);
}

#[test]
fn an_unsigned_number() {
    assert_noticed("Doppler unsigned", noticed(|_, right| Record { doppler: right.doppler & 0xFFF_FFFF, ..right }));
    assert_noticed("ADR unsigned", noticed(|_, right| Record { adr: right.adr & 0xFFFF_FFFF, ..right }));
}

/// The record one bit further on, from which a slip takes one field.
fn one_bit_off(bytes: &[u8]) -> Record {
    let next = |place: usize| bytes.get(place + 1).map_or(0, |byte| byte << 7);
    let shifted: Vec<_> = (0..RECORD_BYTES).map(|place| bytes[place] >> 1 | next(place)).collect();
    read_record(&shifted).expect("a record")
}

#[test]
fn a_field_one_bit_off() {
    assert_noticed("status one bit off", noticed(|bytes, right| Record { status: one_bit_off(bytes).status, ..right }));
    assert_noticed("Doppler one bit off", noticed(|bytes, right| Record { doppler: one_bit_off(bytes).doppler, ..right }));
    assert_noticed("range one bit off", noticed(|bytes, right| Record { range: one_bit_off(bytes).range, ..right }));
    assert_noticed("ADR one bit off", noticed(|bytes, right| Record { adr: one_bit_off(bytes).adr, ..right }));
    assert_noticed("PRN one bit off", noticed(|bytes, right| Record { prn: one_bit_off(bytes).prn, ..right }));
    assert_noticed("lock one bit off", noticed(|bytes, right| Record { lock: one_bit_off(bytes).lock, ..right }));
    assert_noticed("C/N0 one bit off", noticed(|bytes, right| Record { cn0: one_bit_off(bytes).cn0, ..right }));
    assert_noticed("reserved one bit off", noticed(|bytes, right| Record { reserved: one_bit_off(bytes).reserved, ..right }));
}

#[test]
fn deviations_that_trade_places() {
    let trade = |_: &[u8], right: Record| Record { range_deviation: right.adr_deviation, adr_deviation: right.range_deviation, ..right };
    assert_noticed("deviations that trade places", noticed(trade));
}

#[test]
fn reserved_bits_dropped() {
    assert_noticed("reserved bits dropped", noticed(|_, right| Record { reserved: 0, ..right }));
}

#[test]
fn halves_toward_zero() {
    let divide = |numerator: i128, denominator: i128| numerator.signum() * ((2 * numerator.abs() + denominator - 1) / (2 * denominator));
    assert_noticed("halves toward zero", rolls_with(WAVELENGTH, divide));
}

#[test]
fn a_half_added_whatever_the_sign() {
    assert_noticed("a half added to all", rolls_with(WAVELENGTH, |numerator, denominator| (2 * numerator + denominator) / (2 * denominator)));
}

#[test]
fn rolls_cut_and_not_rounded() {
    assert_noticed("rolls cut", rolls_with(WAVELENGTH, |numerator, denominator| numerator / denominator));
}

#[test]
fn the_wavelength_of_another_signal() {
    assert_noticed("L2's wavelength", rolls_with(2_442_102_134_246, nearest));
}

/// What is left of the range behind whole 1/256 cycles decides where the rolls are below 0.
#[test]
fn the_range_in_whole_steps_of_the_adr() {
    let whole_steps = |range: i128, adr: i128| nearest(2 * METRE * range / WAVELENGTH + adr, 1 << 31);
    assert_noticed("the range in whole 1/256 cycles", noticed_rolls(whole_steps));
}

/// 003's formula as it is printed.
#[test]
fn rolls_by_doubles() {
    let doubles = |range: i128, adr: i128| {
        let rolls = (range as f64 / 128.0 / 0.1902936727984 + adr as f64 / 256.0) / 8_388_608.0;
        (if rolls <= 0.0 { rolls - 0.5 } else { rolls + 0.5 }) as i128
    };
    assert_noticed("rolls by doubles", noticed_rolls(doubles));
}
