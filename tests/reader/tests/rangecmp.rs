//! The second reader against every value of 003's text on RANGECMP and of request E4.

use reader::*;

const PUBLISHED: &[u8] = include_bytes!("../../../crates/vectors/data/apn-031-rangecmp.bin");

fn published() -> Record {
    Record {
        status: 0x0810_9C24,
        doppler: 418_574,
        range: 3_212_551_842,
        adr: -102_270_423,
        range_deviation: 0,
        adr_deviation: 4,
        prn: 27,
        lock: 102_017,
        cn0: 44,
        reserved: 0,
    }
}

fn written(record: Record) -> [u8; RECORD_BYTES] {
    let mut bytes = [0xEE; RECORD_BYTES];
    assert_eq!(write_record(&mut bytes, &record), Ok(RECORD_BYTES));
    bytes
}

/// A record of GPS L1 C/A.
fn with(range: u64, adr: i64) -> [u8; RECORD_BYTES] {
    written(Record { range, adr, cn0: 20, ..Default::default() })
}

#[test]
fn the_published_record() {
    assert_eq!(read_record(PUBLISHED), Ok(published()));
    assert_eq!(written(published()), PUBLISHED);
    assert_eq!(corrected_adr(PUBLISHED), Ok((16, -34_462_008_791)));
    assert_eq!((range_mm(0), adr_512ths(4)), (50, 5));
}

/// 003 prints 16 rolls as 15.67503 before they are rounded.
#[test]
fn its_numbers_as_they_are_printed() {
    let Record { doppler, range, adr, lock, .. } = published();
    let (_, corrected) = corrected_adr(PUBLISHED).unwrap();
    let cycles = corrected as f64 / 256.0;
    assert_eq!(format!("{:.5} Hz", doppler as f64 / 256.0), "1635.05469 Hz");
    assert_eq!(format!("{:.4} m", range as f64 / 128.0), "25098061.2656 m");
    assert_eq!(format!("{:.5} cycles", adr as f64 / 256.0), "-399493.83984 cycles");
    assert_eq!(format!("{:.5}", (range as f64 / 128.0 / 0.1902936727984 + adr as f64 / 256.0) / 8_388_608.0), "15.67503");
    assert_eq!(format!("{cycles:.5} cycles, {:.5} m", cycles * 0.1902936727984), "-134617221.83984 cycles, -25616805.56582 m");
    assert_eq!(format!("{:.5} cycle", adr_512ths(4) as f64 / 512.0), "0.00977 cycle");
    assert_eq!(format!("{:.5} seconds", lock as f64 / 32.0), "3188.03125 seconds");
}

/// 003's two examples of 20 bits in CE 48 51 and in AA CE 48, where a field of a record begins as they do; and its ADR.
#[test]
fn bits_as_the_examples_take_them() {
    let reading = |place: usize, bytes: &[u8]| {
        let mut record = [0; RECORD_BYTES];
        record[place..place + bytes.len()].copy_from_slice(bytes);
        read_record(&record).unwrap()
    };
    assert_eq!(reading(18, &[0xCE, 0x48, 0x51]).lock % (1 << 20), 0x01_48CE);
    assert_eq!(reading(7, &[0xAA, 0xCE, 0x48]).range, 0x04_8CEA);
    assert_eq!(reading(12, &[0x29, 0x7A, 0xE7, 0xF9]).adr, 4_192_696_873 - (4_294_967_295 + 1));
}

/// E4's places and widths: the bits of one field set make that one all ones, and leave every other at 0.
#[test]
fn each_field_stands_in_its_place() {
    let zero = Record { cn0: 20, ..Default::default() };
    for (place, width, record) in [
        (0, 32, Record { status: (1 << 32) - 1, ..zero }),
        (32, 28, Record { doppler: -1, ..zero }),
        (60, 36, Record { range: (1 << 36) - 1, ..zero }),
        (96, 32, Record { adr: -1, ..zero }),
        (128, 4, Record { range_deviation: 15, ..zero }),
        (132, 4, Record { adr_deviation: 15, ..zero }),
        (136, 8, Record { prn: 255, ..zero }),
        (144, 21, Record { lock: 2_097_151, ..zero }),
        (165, 5, Record { cn0: 51, ..zero }),
        (170, 22, Record { reserved: (1 << 22) - 1, ..zero }),
    ] {
        let mut bytes = [0; RECORD_BYTES];
        (place..place + width).for_each(|bit| bytes[bit / 8] |= 1 << (bit % 8));
        assert_eq!((read_record(&bytes), written(record)), (Ok(record), bytes), "{width} bits from {place}");
    }
}

/// Doubles make one roll more of the first two.
#[test]
fn rolls() {
    for (range, adr, rolls) in [
        (28_222_569_217, -1_342_202_899, 137),
        (22_179_300_586, -104_046_687, 108),
        (0, 1 << 30, 1),
        (0, -1 << 30, -1),
        (0, (1 << 30) - 1, 0),
        (0, 1 - (1 << 30), 0),
        (0, 0, 0),
        (0, (1 << 31) - 1, 1),
        (0, -1 << 31, -1),
        // A range of 10.51/256 cycles.
        (1, (-1 << 30) - 10, 0),
        (1, (-1 << 30) - 11, -1),
        ((1 << 36) - 1, -1 << 31, 335),
        ((1 << 36) - 1, (1 << 31) - 1, 337),
        // 003's 18.175, which becomes 18.
        (3_713_630_054, 0, 18),
    ] {
        assert_eq!(corrected_adr(&with(range, adr)), Ok((rolls, adr - rolls * (1 << 31))), "range {range}, ADR {adr}");
    }
}

/// At a half 2 * 10^13 * range is a multiple of the wavelength, so the range is one of the wavelength less their common factor: 0, or 37 bits wide.
#[test]
fn halves_at_range_zero_alone() {
    let wavelength = 1_902_936_727_984_u64;
    let (mut common, mut rest) = (20_000_000_000_000, wavelength);
    while rest != 0 {
        (common, rest) = (rest, common % rest);
    }
    assert_eq!((common, wavelength / common), (16, 118_933_545_499));
    assert!(wavelength / common >= 1 << 36);
}

#[test]
fn other_lengths() {
    for length in (0..64).filter(|&length| length != RECORD_BYTES) {
        assert_eq!((read_record(&vec![0xFF; length]), corrected_adr(&vec![0xFF; length])), (Err(13), Err(13)), "{length} bytes");
    }
}

#[test]
fn other_signals() {
    for bit in 0..32 {
        let bytes = written(Record { status: 1 << bit, cn0: 20, ..Default::default() });
        let expected = if (16..=18).contains(&bit) || (21..=25).contains(&bit) { Err(22) } else { Ok((0, 0)) };
        assert_eq!(corrected_adr(&bytes), expected, "bit {bit}");
    }
}

#[test]
fn numbers_that_are_too_wide() {
    let wide = [
        Record { status: 1 << 32, ..published() },
        Record { doppler: 1 << 27, ..published() },
        Record { doppler: (-1 << 27) - 1, ..published() },
        Record { range: 1 << 36, ..published() },
        Record { adr: 1 << 31, ..published() },
        Record { adr: (-1 << 31) - 1, ..published() },
        Record { range_deviation: 16, ..published() },
        Record { adr_deviation: 16, ..published() },
        Record { prn: 256, ..published() },
        Record { lock: 1 << 21, ..published() },
        Record { cn0: 19, ..published() },
        Record { cn0: 52, ..published() },
        Record { reserved: 1 << 22, ..published() },
    ];
    for record in wide {
        let mut output = [0xEE; 30];
        assert_eq!((write_record(&mut output, &record), write_record(&mut output[..3], &record)), (Err(23), Err(23)), "{record:?}");
        assert_eq!(output, [0xEE; 30]);
    }
    for cn0 in 20..=51 {
        assert_eq!(read_record(&written(Record { cn0, ..published() })), Ok(Record { cn0, ..published() }));
    }
}

#[test]
fn short_and_long_outputs() {
    let mut output = [0xEE; 30];
    assert_eq!((write_record(&mut output[..23], &published()), output), (Err(6), [0xEE; 30]));
    assert_eq!(write_record(&mut output, &published()), Ok(24));
    assert_eq!((&output[..24], &output[24..]), (PUBLISHED, &[0xEE; 6][..]));
}

/// 003's table 1, and (n + 1)/512; of a code above 15 the low bits count.
#[test]
fn deviations() {
    let metres = "0.050 0.075 0.113 0.169 0.253 0.380 0.570 0.854 1.281 2.375 4.750 9.500 19.000 38.000 76.000 152.000";
    for (code, metres) in (0..).zip(metres.split(' ')) {
        let millimetres = metres.replace('.', "").parse().unwrap();
        for code in [code, code + 16, code + 240, u64::MAX - 15 + code] {
            assert_eq!((range_mm(code), adr_512ths(code)), (millimetres, code % 16 + 1), "code {code}");
        }
    }
}
