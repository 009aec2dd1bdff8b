//! Document 01's sample table and its run lines, through the C boundary.

use boundary::{all_reasons, board, check, numbers, read_all_lent, recording, run, Twin};
use reader::LONGEST;

const A: [u8; 16] = [0x4D, 0x41, 0x43, 0x32, 0x00, 0x00, 0x00, 0x0E, 0xA0, 0x0C, 0x90, 0x40, 0x7C, 0x10, 0x00, 0x1E];
const B: [u8; 15] = [0x4D, 0x41, 0x43, 0x4D, 0x02, 0x00, 0x0E, 0xA0, 0x0C, 0x90, 0x40, 0x7C, 0x10, 0x00, 0x1C];

fn fresh() -> Twin {
    Twin::new(board::fresh(), vec![0x32; LONGEST], vec![0x4D; LONGEST])
}

#[test]
fn a_fresh_state_is_zero() {
    assert_eq!(board::fresh(), board::State::default());
}

#[test]
fn checks() {
    let with = |place: usize, byte: u8| {
        let mut bytes = A;
        bytes[place] = byte;
        bytes
    };
    for (bytes, number) in
        [(&[][..], 1), (&B[..14], 1), (&A, 0), (&B, 0), (&with(15, 0x1F), 4), (&with(3, 0x4D), 3), (&with(6, 0x01), 3), (&A[..15], 3)]
    {
        assert_eq!(check(bytes).unwrap(), number);
        assert_eq!(read_all_lent(bytes).unwrap(), number);
    }
}

#[test]
fn headers() {
    let header = board::Header { time: 245_370_000, offset: 0x407C_1000, ..Default::default() };
    let head = |header| board::Head { refusal: 0, count: 0, header };
    assert_eq!(board::read_header(&A), head(board::Header { form: board::NEW, ..header }));
    assert_eq!(board::read_header(&B), head(board::Header { form: board::OLD, version: 2, ..header }));
}

#[test]
fn a_then_b() {
    let stream = [&A[..], &B].concat();
    assert_eq!(recording(&stream).unwrap(), 2);
    let mut twin = fresh();
    let message = |length, taken| board::Answer { kind: board::MESSAGE, length, taken, ..Default::default() };
    assert_eq!(twin.feed(&stream).unwrap(), message(16, 16));
    assert_eq!((&twin.output()[..16], twin.state.summed), (&A[..], 11));
    assert_eq!(twin.feed(&stream[16..]).unwrap(), message(15, 15));
    assert_eq!((&twin.output()[..15], twin.state.summed), (&B[..], 21));
    assert_eq!(twin.feed(&[]).unwrap(), board::Answer::default());
    assert_eq!(twin.finish().unwrap(), board::Answer { kind: board::END, ..Default::default() });
    assert_eq!(twin.state.summed, 21);
}

/// Each message is summed by the call that brings its last byte.
#[test]
fn a_then_b_byte_by_byte() {
    let mut twin = fresh();
    for (place, byte) in A.into_iter().chain(B).enumerate() {
        twin.feed(&[byte]).unwrap();
        assert_eq!(twin.state.summed, 11 * u64::from(place >= 15) + 10 * u64::from(place >= 30), "byte {place}");
    }
    assert_eq!(twin.finish().unwrap().kind, board::END);
    assert_eq!(twin.state.summed, 21);
}

#[test]
fn s12_needs_more_until_it_is_finished() {
    let stream = [&A[..3], &A].concat();
    let mut twin = fresh();
    assert_eq!(twin.feed(&stream).unwrap(), board::Answer { kind: board::NEEDS_MORE, taken: 19, ..Default::default() });
    assert_eq!(twin.state.summed, 0);
    assert_eq!(twin.finish().unwrap(), board::Answer { kind: board::MESSAGE, length: 16, gap: 3, ..Default::default() });
    assert_eq!((&twin.output()[..16], twin.state.summed), (&A[..], 11));
    let end = board::Answer { kind: board::END, ..Default::default() };
    assert_eq!(twin.finish().unwrap(), end);
    assert_eq!(twin.finish().unwrap(), end);
    assert_eq!(twin.state.summed, 11);
    assert_eq!(board::next(&stream, 0), board::Found { refusal: 0, kind: board::MESSAGE, position: 3, length: 16, gap: 3 });
}

/// Position 0 is open to the end, so that nothing is summed before the first finish.
#[test]
fn s12_byte_by_byte() {
    let mut twin = fresh();
    for byte in [&A[..3], &A].concat() {
        assert_eq!(twin.feed(&[byte]).unwrap(), board::Answer { kind: board::NEEDS_MORE, taken: 1, ..Default::default() });
        assert_eq!(twin.state.summed, 0);
    }
    for kind in [board::MESSAGE, board::END, board::END] {
        assert_eq!((twin.finish().unwrap().kind, twin.state.summed), (kind, 11));
    }
}

#[test]
fn s12_says_why() {
    let stream = [&A[..3], &A].concat();
    all_reasons(&stream).unwrap();
    let reason = |kind, value| board::Reason { refusal: 0, kind, value };
    assert_eq!(board::why(&stream, 0), reason(board::CUT_SHORT, 1604));
    assert_eq!([1, 2].map(|position| board::why(&stream, position)), [reason(board::SYNC, 1); 2]);
    assert_eq!(board::why(&stream, 3), reason(board::GIVEN, 16));
    (4..19).for_each(|position| assert_eq!(board::why(&stream, position), reason(board::INSIDE, 3)));
    assert_eq!(board::why(&stream, 19), board::Reason { refusal: 12, ..Default::default() });
}

/// Every cutting of a short stream into three pieces, empty ones included.
#[test]
fn overlapping_starts_in_three_pieces() {
    let streams = [[&b"MACMAC2"[..], &A[4..], &B].concat(), [&b"MACMACMACM"[..], &B[4..], &A].concat(), [&B[..14], &A, b"MACM", &A].concat()];
    for stream in streams {
        for first in 0..=stream.len() {
            for second in first..=stream.len() {
                run(&stream, &[first, second - first, stream.len() - second], vec![0x43; LONGEST], vec![0x4D; LONGEST]).unwrap();
            }
        }
    }
}

#[test]
fn ranges_and_rates() {
    for (pseudorange, range) in [(1, 9_993), (2_058_626_148, 20_572_019_767_066), (4_294_967_295, 42_919_960_079_922)] {
        assert_eq!(board::range_um(pseudorange), range);
        assert_eq!(board::plot_row(pseudorange, 0).range, range as f64 / 1e6);
    }
    assert_eq!(board::lock_ms(4_294_967_295), 8_589_934_590);
    for (bytes, rate) in [([0; 4], 0), ([0xFF; 4], -1), ([0x7F, 0xFF, 0xFF, 0xFF], 2147483647), ([0x80, 0, 0, 0], -2147483648)] {
        let mut message = [0; 40];
        let header = board::Header { form: board::NEW, ..Default::default() };
        assert_eq!(board::start(&mut message, header, 1).length, 40);
        message[31..35].copy_from_slice(&bytes);
        message[39] = reader::checksum(&message[4..39]);
        assert_eq!(board::read_observation(&message, 0).observation.rate, rate);
        assert_eq!(board::plot_row(0, rate as i32).rate, rate as f64 / 10000.0);
    }
}

/// The remainder that decides about rounding runs through all its values within 15,000 ranges.
#[test]
fn every_rounding_of_a_range() {
    for pseudorange in (0..100_000).chain(u32::MAX - 100_000..=u32::MAX) {
        assert_eq!(board::range_um(pseudorange), reader::range_um(pseudorange), "PR {pseudorange}");
    }
}

/// A range goes by PR's halves: every one as the high and as the low half, beside others at the edges.
#[test]
fn every_half_of_a_range() {
    for half in 0..=0xFFFF {
        for other in [0, 1, 7_499, 7_500, 0x7FFF, 0x8000, 0xFFFE, 0xFFFF] {
            for pseudorange in [half << 16 | other, other << 16 | half] {
                assert_eq!(board::range_um(pseudorange), reader::range_um(pseudorange), "PR {pseudorange}");
            }
        }
    }
}

/// Every CONDITION, in turn with the phases at the edges of what is finite: the form and the flag decide first, then the exponent, then the polarity.
#[test]
fn phases() {
    let undefined = board::POLARITY_UNDEFINED;
    let kinds = [board::POLARITY_UNKNOWN, undefined, undefined, undefined, undefined, board::NOT_CORRECTED, undefined, board::DUE_HALF];
    let finite = [0, 1, 1 << 63, 0x3FE0_0000_0000_0000, 0xC11C_27AD_B683_39E0, 0x7FEF_FFFF_FFFF_FFFF, 0xFFEF_FFFF_FFFF_FFFF];
    let not_finite = [0x7FF0_0000_0000_0000, 0xFFF0_0000_0000_0000, 0x7FF0_0000_0000_0001, 0x7FF8_0000_0000_0000, 0xFFFF_FFFF_FFFF_FFFF];
    let seen = |form, condition, bits| {
        let observation = board::Observation { condition, phase: bits, ..Default::default() };
        let phase = board::phase(form, observation);
        assert_eq!(numbers(form, observation), Ok(phase.kind));
        (phase.kind, phase.code, phase.cycles.to_bits())
    };
    for condition in 0..=0xFFFF {
        let (valid, code, turn) = (condition & 4 != 0, condition >> 8 & 7, condition as usize);
        let (cycles, none) = (finite[turn % finite.len()], not_finite[turn % not_finite.len()]);
        assert_eq!(seen(board::NEW, condition, cycles), if valid { (kinds[code as usize], code, cycles) } else { (0, 0, 0) });
        assert_eq!(seen(board::NEW, condition, none), (u64::from(valid), 0, 0));
        assert_eq!(seen(board::OLD, condition, cycles), (0, 0, 0));
        assert_eq!(seen(board::OLD, condition, none), (0, 0, 0));
    }
}

#[test]
fn sets_on_different_indexes_in_either_order() {
    let mut message = vec![0; 16 + 24 * 255];
    board::start(&mut message, board::Header { form: board::NEW, signal: 0x4D, time: 7, ..Default::default() }, 255);
    let (one, other) = (board::Observation { sid: 1, rate: -1, ..Default::default() }, board::Observation { phase: u64::MAX, ..Default::default() });
    for (first, second) in [(0, 1), (0, 254), (253, 254), (17, 200)] {
        let (mut left, mut right) = (message.clone(), message.clone());
        assert_eq!((board::set(&mut left, first, one), board::set(&mut left, second, other)), (0, 0));
        assert_eq!((board::set(&mut right, second, other), board::set(&mut right, first, one)), (0, 0));
        assert_eq!(left, right);
        assert_eq!(check(&left).unwrap(), 0);
    }
}
