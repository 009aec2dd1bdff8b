//! Recordings to try the programs with: a minute of four satellites in both forms, with what a recorder meets besides; one for every reason why no
//! message is given; one for every case of a phase; and one for every way in which lock breaks.

use reader::{Header, Message, Observation};

/// The hertz of GPS L1 for a metre a second, and the counts of PR in a metre, both rounded: a sample need not be exact.
const CYCLES_A_METRE: f64 = 5.2550;
const COUNTS_A_METRE: f64 = 100.0692;

/// A satellite's range in metres and its rate in metres a second, at a second of the minute.
fn motion(satellite: usize, second: f64) -> (f64, f64) {
    let (nearest, when, pull) = [(20_580_000.0, 20.0, 8.0), (21_400_000.0, 45.0, 5.0), (22_900_000.0, -10.0, 6.5), (23_700_000.0, 80.0, 9.0)][satellite];
    let away = second - when;
    (nearest + pull * away * away, 2.0 * pull * away)
}

fn observation(satellite: usize, second: f64) -> Observation {
    let (range, speed) = motion(satellite, second);
    Observation {
        sid: [2, 7, 14, 24][satellite],
        condition: [0x053F, 0x073F, 0x003F, 0x053B][satellite],
        cn0: [47, 43, 40, 36][satellite],
        phase: (-range * CYCLES_A_METRE / 4.0).to_bits(),
        pseudorange: (range * COUNTS_A_METRE) as u32,
        rate: (-speed * CYCLES_A_METRE * 10_000.0) as i32,
        lock: (second * 500.0) as u32 + 30_000,
    }
}

fn message(second: f64) -> Message {
    let time = 245_370_000 + (second * 1000.0) as u32;
    let offset = 0x407C_1000;
    let old = second >= 30.0 && second < 45.0;
    let header = if old { Header::Old { version: 2, time, offset } } else { Header::New { signal: 0, tfom: 3, time, offset } };
    Message { header, observations: (0..4).map(|satellite| observation(satellite, second)).collect() }
}

/// Two messages a second. Before them noise; at second 10 a PHASE that holds the sync letters and a count of 255; at second 20 a damaged byte, at
/// second 50 a message with no observations behind a broken sync; at the end a message that is cut short.
pub fn recording() -> Vec<u8> {
    let mut bytes = b"\x00\x17MAC recorder 4, sortie 211\r\n".to_vec();
    for half_second in 0..120 {
        let second = f64::from(half_second) / 2.0;
        let mut next = message(second);
        if half_second == 20 {
            next.observations[1].phase = u64::from_be_bytes(*b"\xC1MACM\x02\xFF\x41");
        }
        if half_second == 100 {
            next.observations.clear();
            bytes.extend(b"MACMA");
        }
        let mut written = next.to_bytes();
        if half_second == 40 {
            written[50] ^= 0x10;
        }
        bytes.extend(written);
    }
    let cut = message(60.0).to_bytes();
    bytes.extend(&cut[..70]);
    bytes
}

/// S12, whose first position claims more bytes than there are; noise, and starts that break off at each letter; an old message as 264-04 prints them, with
/// VERSION left out of the checksum, the same by the rule, and with a damaged byte; at the end a start whose count byte is missing.
pub fn every_reason() -> Vec<u8> {
    let (time, offset) = (245_370_000, 0x407C_1000);
    let new = Message { header: Header::New { signal: 0, tfom: 0, time, offset }, observations: Vec::new() }.to_bytes();
    let old = Message { header: Header::Old { version: 2, time, offset }, observations: Vec::new() }.to_bytes();
    let with = |place: usize, change: u8| {
        let mut bytes = old.clone();
        bytes[place] ^= change;
        bytes
    };
    [b"MAC", &new[..], b"\r\nMX MAX MACX", &with(14, 0x02), &old, &with(8, 0xAF), b"MACM\x02"].concat()
}

/// A message of the new form and one of the old with the same observations, SIDs from 1 on: cycles under each polarity code; under each code a PHASE that
/// is not valid; under code 7 what is not finite, both zeros, half a cycle, the first that is wide, and the largest double.
pub fn every_phase() -> Vec<u8> {
    let (time, offset) = (245_370_000, 0x407C_1000);
    let cycles = 0xC11C_27AD_B683_39E0;
    let none = [f64::INFINITY.to_bits(), f64::NEG_INFINITY.to_bits(), 0x7FF8_0000_0000_0000];
    let edges = [0.0, -0.0, 0.5, 9_007_199_254_740_992.0, f64::MAX].map(f64::to_bits);
    let coded = (0..8).map(|code| (code << 8 | 0x3F, cycles)).chain((0..8).map(|code| (code << 8 | 0x3B, cycles)));
    let phases = coded.chain(none.into_iter().chain(edges).map(|bits| (0x073F, bits)));
    let observed =
        |(sid, (condition, phase))| Observation { sid, condition, cn0: 40, phase, pseudorange: 2_058_626_148, rate: 9_879_081, lock: 617_800 };
    let observations: Vec<_> = (1..).zip(phases).map(observed).collect();
    let new = Message { header: Header::New { signal: 0, tfom: 0, time, offset }, observations: observations.clone() };
    let old = Message { header: Header::Old { version: 2, time: time + 500, offset }, observations };
    [new.to_bytes(), old.to_bytes()].concat()
}

/// The lock counts of SID 7 of GPS, second by second, and those of SID 24 of Galileo.
const LOST_AGAIN: [u32; 8] = [31_000, 0, 500, 1_000, 0, 500, 0, 500];
const LOST_ONCE: [u32; 8] = [9_000, 9_500, 10_000, 10_500, 11_000, 0, 500, 1_000];

/// Eight seconds of GPS L1 C/A and Galileo E1 over the end of the week, at second 4, where the clock goes back for all. Of GPS, SID 7 loses lock
/// before, then and later; SID 14 is there twice at second 2, of which one lost lock; the count of SID 2 wraps at second 3. Of Galileo, SID 24 loses
/// lock at second 5. There an old message stands between them, and now and then a line ends.
pub fn every_break() -> Vec<u8> {
    let offset = 0x407C_1000;
    let mut bytes = Vec::new();
    for (second, (lost_again, lost_once)) in (0..).zip(LOST_AGAIN.into_iter().zip(LOST_ONCE)) {
        let time = (604_796_000 + 1_000 * second) % 604_800_000;
        let locked = |satellite, lock| Observation { lock, ..observation(satellite, f64::from(second)) };
        let mut gps = vec![locked(0, 4_294_966_295u32.wrapping_add(500 * second)), locked(1, lost_again), locked(2, 40_000 + 500 * second)];
        if second == 2 {
            gps.push(locked(2, 1_000));
        }
        bytes.extend(Message { header: Header::New { signal: 0, tfom: 3, time, offset }, observations: gps }.to_bytes());
        if second % 3 == 0 {
            bytes.extend(b"\r\n");
        }
        if second == 5 {
            bytes.extend(Message { header: Header::Old { version: 2, time, offset }, observations: vec![locked(1, 0)] }.to_bytes());
        }
        let galileo = vec![locked(0, 12_000 + 500 * second), locked(3, lost_once)];
        bytes.extend(Message { header: Header::New { signal: 16, tfom: 3, time, offset }, observations: galileo }.to_bytes());
    }
    bytes
}
