//! What a hostile stream is made of.

use crate::Random;
use reader::{checksum, Form, Header, Message, Observation};

/// Letters that make or nearly make sync strings, and the bytes that make short counts.
const LETTERS: [u8; 8] = [0x4D, 0x41, 0x43, 0x32, 0x4D, 0x00, 0x01, 0xFF];

/// Starts that overlap or break off.
const STARTS: [&[u8]; 10] = [b"MACMAC2", b"MACMACMACM", b"MACMACM", b"MAC2MACM", b"MMAC2", b"MAMACM", b"MACMACMAC2", b"MAC", b"MACM", b"MAC2"];

/// Bytes that are mostly sync letters.
fn letters(random: &mut Random, length: usize) -> Vec<u8> {
    let mut bytes = Vec::new();
    while bytes.len() < length {
        if random.once_in(3) {
            bytes.extend(random.pick(&STARTS));
        } else {
            bytes.push(random.pick(&LETTERS));
        }
    }
    bytes.truncate(length);
    bytes
}

/// Writes the checksum into the last byte of what is to be a message.
fn sealed(mut bytes: Vec<u8>) -> Vec<u8> {
    let last = bytes.len() - 1;
    bytes[last] = checksum(&bytes[4..last]);
    bytes
}

fn header(random: &mut Random) -> Header {
    let (time, offset) = (random.edgy() as u32, random.edgy() as u32);
    if random.once_in(2) {
        let version = if random.once_in(3) { random.byte() } else { random.pick(&[0x02, 0x4D]) };
        Header::Old { version, time, offset }
    } else {
        let signal = if random.once_in(3) { random.byte() } else { random.pick(&[0x00, 0x00, 0x10, 0x4D]) };
        Header::New { signal, tfom: random.byte(), time, offset }
    }
}

/// Half of them with every polarity code as often as any other.
fn condition(random: &mut Random) -> u16 {
    if random.once_in(2) {
        random.edgy() as u16
    } else {
        u16::from_be_bytes([random.below(8) as u8, random.byte()])
    }
}

pub fn observation(random: &mut Random) -> Observation {
    let phase = match random.below(6) {
        0 => 0x7FF0_0000_0000_0000 | random.edgy() >> 12,
        1 => 0xFFF0_0000_0000_0000 | random.edgy() >> 12,
        2 => random.pick(&[0, 1 << 63, 1, 0x7FEF_FFFF_FFFF_FFFF, 0x7FF0_0000_0000_0000, 0x4D41_4332_4D41_434D]),
        _ => random.edgy(),
    };
    Observation {
        sid: random.byte(),
        condition: condition(random),
        cn0: random.byte(),
        phase,
        pseudorange: random.edgy() as u32,
        rate: random.edgy() as i32,
        lock: random.edgy() as u32,
    }
}

/// How many observations: mostly few, now and then as many as there can be.
pub(crate) fn count(random: &mut Random) -> u8 {
    match random.below(60) {
        0 => 255,
        1 => random.byte(),
        2..=9 => random.below(20) as u8,
        _ => random.below(4) as u8,
    }
}

/// A valid message, plain or with sync letters, false starts or a whole message inside its fields.
pub fn message(random: &mut Random) -> Vec<u8> {
    let count = count(random);
    let header = header(random);
    let observations = (0..count).map(|_| observation(random)).collect();
    let bytes = Message { header, observations }.to_bytes();
    let count_place = header.form().count_place();
    match random.below(4) {
        0 => lettered(random, bytes, count_place),
        1 if count > 0 => nested(random, bytes, count_place),
        _ => bytes,
    }
}

/// Letters all over a message, save its sync string and its count.
fn lettered(random: &mut Random, mut bytes: Vec<u8>, count_place: usize) -> Vec<u8> {
    let count = bytes[count_place];
    let inner = letters(random, bytes.len() - 5);
    bytes[4..4 + inner.len()].copy_from_slice(&inner);
    bytes[count_place] = count;
    sealed(bytes)
}

/// A short message, or the front of one, somewhere behind the count of a longer one.
fn nested(random: &mut Random, mut bytes: Vec<u8>, count_place: usize) -> Vec<u8> {
    let inner = Message { header: header(random), observations: Vec::new() }.to_bytes();
    let room = bytes.len() - 1 - (count_place + 1);
    let place = count_place + 1 + random.below(room);
    let fits = inner.len().min(bytes.len() - 1 - place);
    bytes[place..place + fits].copy_from_slice(&inner[..fits]);
    sealed(bytes)
}

/// A valid message with a second one that begins inside it and ends behind it, with a right checksum of its own.
fn overlapping(random: &mut Random) -> Vec<u8> {
    let mut bytes = Message { header: header(random), observations: vec![observation(random)] }.to_bytes();
    let form = random.pick(&Form::BOTH);
    let second = bytes.len() - 2 - (7 + random.below(10));
    let count = random.below(3) as u8;
    bytes[second..second + 4].copy_from_slice(&form.sync());
    bytes[second + form.count_place()] = count;
    bytes = sealed(bytes);
    let end = second + form.length(count);
    if end > bytes.len() {
        bytes.extend(random.bytes(end - bytes.len()));
        let later = sealed(bytes.split_off(second));
        bytes.extend(later);
    }
    bytes
}

/// A start with a count that claims more, or fewer, bytes than its message has; what follows stands inside the claim.
fn forged(random: &mut Random) -> Vec<u8> {
    let form = random.pick(&Form::BOTH);
    let mut bytes = form.sync().to_vec();
    bytes.extend(random.bytes(form.count_place() - 4));
    bytes.push(random.pick(&[0, 1, 2, 3, 5, 20, 67, 255]));
    if random.once_in(2) {
        bytes.extend(message(random));
    }
    bytes
}

/// One byte made another.
pub fn damage(random: &mut Random, bytes: &mut [u8]) {
    if !bytes.is_empty() {
        let place = random.below(bytes.len());
        bytes[place] ^= 1 + random.below(255) as u8;
    }
}

/// A message whose checksum is right only for a reader that counts the sync string, leaves out VERSION or TYPE, or sums up.
fn miscounted(random: &mut Random) -> Vec<u8> {
    let mut bytes = message(random);
    let last = bytes.len() - 1;
    bytes[last] = match random.below(3) {
        0 => checksum(&bytes[..last]),
        1 => checksum(&bytes[5..last]),
        _ => bytes[4..last].iter().fold(0, |sum, &byte| sum.wrapping_add(byte)),
    };
    bytes
}

/// One part of a stream.
pub fn piece_of_stream(random: &mut Random) -> Vec<u8> {
    match random.below(20) {
        0..=7 => message(random),
        8 | 9 => forged(random),
        10 | 11 => random.pick(&STARTS).to_vec(),
        12 => overlapping(random),
        13 => miscounted(random),
        14 => {
            let mut bytes = message(random);
            damage(random, &mut bytes);
            bytes
        }
        15 | 16 => {
            let mut bytes = message(random);
            bytes.truncate(random.below(bytes.len()));
            bytes
        }
        17 => random.bytes_below(60),
        18 => {
            let length = random.below(80);
            letters(random, length)
        }
        _ => vec![0; random.below(40)],
    }
}

/// A whole stream, now and then with one byte damaged or its end cut off.
pub fn stream(random: &mut Random) -> Vec<u8> {
    let mut bytes = Vec::new();
    for _ in 0..random.below(10) {
        bytes.extend(piece_of_stream(random));
    }
    if random.once_in(4) {
        damage(random, &mut bytes);
    }
    if random.once_in(6) && !bytes.is_empty() {
        bytes.truncate(random.below(bytes.len()));
    }
    bytes
}
