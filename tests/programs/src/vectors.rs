//! What the program `vectors` has to print: the published messages, the lines of the sample table that are to be run, and the published record with
//! the rolls of request E4.

use reader::{adr_512ths, check, corrected_adr, divide, feed, finish, range_mm, range_um, read_record, write_record};
use reader::{Answer, Record, State, LONGEST, RECORD_BYTES};

use crate::{line, rows_of};

pub(crate) const PUBLISHED: [(&str, &[u8]); 3] = [
    ("264-21-figure-1.bin", include_bytes!("../../../crates/vectors/data/264-21-figure-1.bin")),
    ("264-04-table-4.bin", include_bytes!("../../../crates/vectors/data/264-04-table-4.bin")),
    ("264-04-table-4-by-the-rule.bin", include_bytes!("../../../crates/vectors/data/264-04-table-4-by-the-rule.bin")),
];
pub(crate) const NEW: &[u8] = b"MAC2\x00\x00\x00\x0E\xA0\x0C\x90\x40\x7C\x10\x00\x1E";
pub(crate) const OLD: &[u8] = b"MACM\x02\x00\x0E\xA0\x0C\x90\x40\x7C\x10\x00\x1C";

const RECORD: (&str, &[u8]) = ("apn-031-rangecmp.bin", include_bytes!("../../../crates/vectors/data/apn-031-rangecmp.bin"));

/// Range and ADR: two of which doubles make a roll too many, the ends, halves and what is next to them.
const ROLLED: [(u64, i64); 8] = [
    (28_222_569_217, -1_342_202_899),
    (22_179_300_586, -104_046_687),
    ((1 << 36) - 1, -1 << 31),
    ((1 << 36) - 1, (1 << 31) - 1),
    (0, 1 << 30),
    (0, -1 << 30),
    (0, (1 << 30) - 1),
    (0, 1 - (1 << 30)),
];

fn given(gap: usize, position: usize, message: &[u8]) -> String {
    format!("gap {gap}\n{}{}", line(position, message), rows_of(position, message))
}

fn recording(stream: &[u8]) -> String {
    let division = divide(stream);
    let mut text = String::new();
    for each in &division.given {
        text += &given(each.gap, each.position, &stream[each.position..each.position + each.length]);
    }
    text + &format!("gap {}\n", division.rest)
}

fn answered(answer: Answer, output: &[u8]) -> String {
    match answer {
        Answer::NeedsMore { .. } => "needs more\n".to_string(),
        Answer::Message { length, gap, .. } => given(gap as usize, gap as usize, &output[..length]),
        Answer::End { gap } => format!("end gap {gap}\n"),
    }
}

/// S12 by the stream reader: fed whole, then finished twice.
fn calls() -> String {
    let (mut state, mut window, mut output) = (State::default(), vec![0; LONGEST], vec![0; LONGEST]);
    let stream = [b"MAC", NEW].concat();
    let mut text = String::new();
    for call in 0..3 {
        let answer = if call == 0 { feed(&mut state, &stream, &mut window, &mut output) } else { finish(&mut state, &mut window, &mut output) };
        text += &answered(answer.expect("no call of the run is refused"), &output);
    }
    text
}

fn rolls(bytes: &[u8]) -> String {
    let (rolls, corrected) = corrected_adr(bytes).expect("GPS L1 C/A");
    format!("rolls {rolls}\ncorrected {corrected}\n")
}

fn fields(bytes: &[u8]) -> String {
    let Record { status, doppler, range, adr, range_deviation, adr_deviation, prn, lock, cn0, reserved } = read_record(bytes).expect("a record");
    let (range_mm, adr_512ths) = (range_mm(range_deviation), adr_512ths(adr_deviation));
    format!(
        "status {status:08X}\ndoppler {doppler}\nrange {range}\nadr {adr}\n\
         range_deviation {range_deviation}\nrange_mm {range_mm}\nadr_deviation {adr_deviation}\nadr_512ths {adr_512ths}\n\
         prn {prn}\nlock {lock}\ncn0 {cn0}\nreserved {reserved}\n"
    )
}

/// The record, field by field, and the rolls of others that have a range and an ADR alone.
fn records() -> String {
    let (name, bytes) = RECORD;
    let rolled = ROLLED.map(|(range, adr)| {
        let mut bytes = [0; RECORD_BYTES];
        write_record(&mut bytes, &Record { range, adr, cn0: 20, ..Default::default() }).expect("numbers that fit");
        rolls(&bytes)
    });
    format!("{name}\n{}{}rolls and corrected\n{}", fields(bytes), rolls(bytes), rolled.concat())
}

pub fn vectors() -> String {
    let mut text = String::new();
    for (name, stream) in PUBLISHED {
        text += &format!("{name}\n{}", recording(stream));
        if name == "264-04-table-4.bin" {
            for place in [25..184, 253..412] {
                text += &format!("check {}\n", check(&stream[place]).err().unwrap_or(0));
            }
        }
    }
    text += &[1, 2_058_626_148, u32::MAX].map(|pseudorange| format!("range {}\n", range_um(pseudorange))).concat();
    text += &format!("A then B\n{}", recording(&[NEW, OLD].concat()));
    text + "S12\n" + &calls() + &records()
}
