//! One call through the C boundary against the second reader: the whole answer, and every byte that was lent. Each answers the refusal.

use crate::{board, expected, same, same_each, Lent, Verdict};

pub fn check(bytes: &[u8]) -> Verdict<u64> {
    let refusal = board::check(bytes);
    same("check", refusal, expected::refusal(reader::check(bytes)))?;
    Ok(refusal)
}

pub fn read_header(bytes: &[u8]) -> Verdict<u64> {
    let head = board::read_header(bytes);
    same("read_header", head, expected::head(reader::read_header(bytes)))?;
    Ok(head.refusal)
}

pub fn read_observation(bytes: &[u8], index: usize) -> Verdict<u64> {
    let observed = board::read_observation(bytes, index);
    same(&format!("read_observation at {index}"), observed, expected::observed(reader::read_observation(bytes, index)))?;
    Ok(observed.refusal)
}

/// The header and every observation of a message where it stands. The board's own two calls say the same of it, as one call did before E5: below the
/// header's count an index is answered, from there on refused with 5, and what has no header has no observation, with the same refusal.
pub fn read_all(bytes: &[u8]) -> Verdict<u64> {
    let refusal = read_header(bytes)?;
    let count = board::read_header(bytes).count as usize;
    for index in 0..count {
        same(&format!("refusal at {index} of {count}"), read_observation(bytes, index)?, 0)?;
    }
    let behind = if refusal == 0 { 5 } else { refusal };
    for index in [count, count + 1, 255, 256, usize::MAX / 24 + 1, usize::MAX] {
        same(&format!("refusal at {index} of {count}"), read_observation(bytes, index)?, behind)?;
    }
    Ok(refusal)
}

/// The same of a message that is lent between other bytes; it stays as it is.
pub fn read_all_lent(bytes: &[u8]) -> Verdict<u64> {
    stays("read_all", bytes, read_all)
}

/// A call that writes: what the board and the second reader answer for equal buffers, and the buffers afterwards.
fn writes<T: PartialEq + std::fmt::Debug>(
    what: &str,
    buffer: &[u8],
    board: impl FnOnce(&mut [u8]) -> T,
    reader: impl FnOnce(&mut [u8]) -> T,
) -> Verdict<T> {
    let (mut lent, mut copy) = (Lent::new(buffer), buffer.to_vec());
    let answer = board(lent.lend());
    same(what, &answer, &reader(&mut copy))?;
    same_each(what, lent.contents(), &copy)?;
    lent.margins_stand(what)?;
    Ok(answer)
}

/// A refusal changes nothing: said of the buffers as such, next to what the second reader does.
fn unchanged_if_refused<T: PartialEq + std::fmt::Debug>(what: &str, refusal: u64, before: &[T], after: &[T]) -> Verdict<u64> {
    if refusal != 0 {
        same_each(&format!("{what}: buffer after refusal {refusal}"), after, before)?;
    }
    Ok(refusal)
}

pub fn start(output: &[u8], header: board::Header, count: u8) -> Verdict<u64> {
    let mut after = Vec::new();
    let board = |lent: &mut [u8]| {
        let written = board::start(lent, header, count);
        after = lent.to_vec();
        written
    };
    let reader = |copy: &mut [u8]| expected::written(reader::start(copy, expected::header_fields(header), count));
    let written = writes("start", output, board, reader)?;
    if written.refusal == 0 {
        same("check of a started message", board::check(&after[..written.length as usize]), 0)?;
    }
    unchanged_if_refused("start", written.refusal, output, &after)
}

pub fn set(message: &[u8], index: usize, observation: board::Observation) -> Verdict<u64> {
    let mut after = Vec::new();
    let board = |lent: &mut [u8]| {
        let refusal = board::set(lent, index, observation);
        after = lent.to_vec();
        refusal
    };
    let reader = |copy: &mut [u8]| expected::refusal(reader::set(copy, index, expected::observation_fields(observation)));
    let refusal = writes("set", message, board, reader)?;
    if refusal == 0 {
        let observed = expected::observed(Ok(expected::observation_fields(observation)));
        same("read_observation of what was set", board::read_observation(&after, index), observed)?;
    }
    unchanged_if_refused("set", refusal, message, &after)
}

pub fn to_new(message: &[u8], signal: u8, tfom: u8, output: &[u8]) -> Verdict<u64> {
    let mut after = Vec::new();
    let board = |lent: &mut [u8]| {
        let written = board::to_new(message, signal, tfom, lent);
        after = lent.to_vec();
        written
    };
    let reader = |copy: &mut [u8]| expected::written(reader::to_new(message, signal, tfom, copy));
    let written = writes("to the new form", output, board, reader)?;
    if written.refusal == 0 && signal == 0 {
        let mut back = vec![0; message.len()];
        board::to_old(&after[..written.length as usize], message[4], &mut back);
        same_each("there and back", &back, message)?;
    }
    unchanged_if_refused("to the new form", written.refusal, output, &after)
}

pub fn to_old(message: &[u8], version: u8, output: &[u8]) -> Verdict<u64> {
    let mut after = Vec::new();
    let board = |lent: &mut [u8]| {
        let written = board::to_old(message, version, lent);
        after = lent.to_vec();
        written
    };
    let reader = |copy: &mut [u8]| expected::written(reader::to_old(message, version, copy));
    let written = writes("to the old form", output, board, reader)?;
    unchanged_if_refused("to the old form", written.refusal, output, &after)
}

pub fn next(recording: &[u8], start: usize) -> Verdict<u64> {
    let found = board::next(recording, start);
    same(&format!("next from {start}"), found, expected::found(reader::next(recording, start)))?;
    Ok(found.refusal)
}

/// The plain reader from message to message, against the division. Answers the number of messages.
pub fn recording(recording: &[u8]) -> Verdict<usize> {
    let division = reader::divide(recording);
    let mut start = 0;
    for given in &division.given {
        same("plain reader", board::next(recording, start), expected::found(Ok(reader::Found::Message(*given))))?;
        start = given.position + given.length;
    }
    let end = reader::Found::End { gap: division.rest };
    same("plain reader's end", board::next(recording, start), expected::found(Ok(end)))?;
    Ok(division.given.len())
}

/// The reasons of these positions of a recording where it stands, against one division by the second reader.
pub fn reasons(recording: &[u8], positions: impl IntoIterator<Item = usize>) -> Verdict<()> {
    let reasons = reader::reasons(recording);
    for position in positions {
        let expected = expected::reason(reasons.get(position).copied().ok_or(12));
        same(&format!("why at {position}"), board::why(recording, position), expected)?;
    }
    Ok(())
}

/// The reasons of all positions, and of some behind the end; the recording stays as it is.
pub fn all_reasons(recording: &[u8]) -> Verdict<()> {
    let length = recording.len();
    let positions = (0..=length + 1).chain([length + 256, usize::MAX - 1, usize::MAX]);
    stays("why", recording, |recording| reasons(recording, positions))
}

/// The numbers for the track people; doubles are compared by their bits. Answers the kind of the phase.
pub fn numbers(form: u64, observation: board::Observation) -> Verdict<u64> {
    let fields = expected::observation_fields(observation);
    same("range", board::range_um(fields.pseudorange), reader::range_um(fields.pseudorange))?;
    same("lock", board::lock_ms(fields.lock), reader::lock_ms(fields.lock))?;
    let row = board::plot_row(fields.pseudorange, fields.rate);
    let (range, rate) = reader::plot_row(fields.pseudorange, fields.rate);
    same("plot row", (row.range.to_bits(), row.rate.to_bits()), (range.to_bits(), rate.to_bits()))?;
    within("range within 4 nm", row.range, reader::range_um(fields.pseudorange).into(), 6, 9, 4)?;
    within("rate within 2/10^11 Hz", row.rate, fields.rate.into(), 4, 11, 2)?;
    let phase = board::phase(form, observation);
    let form = if form == board::OLD { reader::Form::Old } else { reader::Form::New };
    same("phase", (phase.kind, phase.code, phase.cycles.to_bits()), expected::phase(reader::phase(form, &fields)))?;
    Ok(phase.kind)
}

/// Whether a double lies within `most` units of 10^-fine from a whole number of units of 10^-coarse, reckoned in whole numbers.
fn within(what: &str, double: f64, whole: i128, coarse: u32, fine: u32, most: i128) -> Verdict<()> {
    let bits = double.to_bits();
    let exponent = (bits >> 52 & 0x7FF) as i64 - 1075;
    let mantissa = i128::from(bits & ((1 << 52) - 1) | 1 << 52);
    if whole == 0 {
        return same(what, bits, 0);
    }
    if !(-100..0).contains(&exponent) {
        return Err(format!("{what}: {double} for {whole}"));
    }
    let signed = if double < 0.0 { -mantissa } else { mantissa };
    let scale = 1i128 << -exponent;
    let off = signed * 10i128.pow(fine) - whole * 10i128.pow(fine - coarse) * scale;
    same(what, off.abs() <= most * scale, true)
}

/// Calls that only read: what is compared of them, and that the bytes and what surrounds them stay as they are.
fn stays<T>(what: &str, bytes: &[u8], compare: impl FnOnce(&[u8]) -> Verdict<T>) -> Verdict<T> {
    let lent = Lent::new(bytes);
    let answer = compare(lent.contents())?;
    same_each(what, lent.contents(), bytes)?;
    lent.margins_stand(what)?;
    Ok(answer)
}

/// One such call: what the board answers.
fn reads<T: PartialEq + std::fmt::Debug>(what: &str, bytes: &[u8], board: fn(&[u8]) -> T, expected: T) -> Verdict<T> {
    stays(what, bytes, |bytes| {
        let answer = board(bytes);
        same(what, &answer, &expected)?;
        Ok(answer)
    })
}

/// What is read is written as the same bytes.
pub fn rangecmp_read(bytes: &[u8]) -> Verdict<u64> {
    let record = reads("rangecmp_read", bytes, board::rangecmp_read, expected::rangecmp(reader::read_record(bytes)))?;
    if record.refusal == 0 {
        let mut back = [0; reader::RECORD_BYTES];
        same("rangecmp_write of what was read", board::rangecmp_write(&mut back, record).refusal, 0)?;
        same_each("rangecmp: there and back", &back, bytes)?;
    }
    Ok(record.refusal)
}

/// What is written is read as the same numbers.
pub fn rangecmp_write(output: &[u8], record: board::Rangecmp) -> Verdict<u64> {
    let mut after = Vec::new();
    let board = |lent: &mut [u8]| {
        let written = board::rangecmp_write(lent, record);
        after = lent.to_vec();
        written
    };
    let reader = |copy: &mut [u8]| expected::written(reader::write_record(copy, &expected::rangecmp_fields(record)));
    let written = writes("rangecmp_write", output, board, reader)?;
    if written.refusal == 0 {
        let read = board::rangecmp_read(&after[..written.length as usize]);
        same("rangecmp_read of what was written", read, board::Rangecmp { refusal: 0, ..record })?;
    }
    unchanged_if_refused("rangecmp_write", written.refusal, output, &after)
}

pub fn rangecmp_adr(bytes: &[u8]) -> Verdict<u64> {
    let adr = reads("rangecmp_adr", bytes, board::rangecmp_adr, expected::adr(reader::corrected_adr(bytes)))?;
    Ok(adr.refusal)
}

/// What a code says of the range, and of the ADR.
pub fn rangecmp_deviations(code: u64) -> Verdict<()> {
    same(&format!("rangecmp_range_mm of {code}"), board::rangecmp_range_mm(code), reader::range_mm(code))?;
    same(&format!("rangecmp_adr_512ths of {code}"), board::rangecmp_adr_512ths(code), reader::adr_512ths(code))
}

/// A history for a TYPE, whatever stood in its words.
pub fn breaks_fresh(before: &board::History, signal: u8) -> Verdict<board::History> {
    let mut lent = Lent::new(before);
    board::breaks_fresh(history_in(&mut lent), signal);
    let fresh = reader::fresh_history(signal);
    same_each("breaks_fresh", lent.contents(), &fresh)?;
    lent.margins_stand("breaks_fresh")?;
    Ok(fresh)
}

fn history_in(lent: &mut Lent<u64>) -> &mut board::History {
    lent.lend().try_into().expect("the words of a history")
}

/// One message behind a history; it and the list become what the call makes of them, and every word of both is compared. Answers what the board does.
pub fn breaks(message: &[u8], history: &mut board::History, list: &mut [u64]) -> Verdict<board::Listed> {
    let (mut lent, mut put) = (Lent::new(&history[..]), Lent::new(list));
    let listed = stays("breaks: message", message, |message| Ok(board::breaks(message, history_in(&mut lent), put.lend())))?;
    unchanged_if_refused("breaks: history", listed.refusal, history, lent.contents())?;
    unchanged_if_refused("breaks: list", listed.refusal, list, put.contents())?;
    same("breaks", listed, expected::listed(reader::next_breaks(message, history, list.len()), list))?;
    same_each("breaks: history", lent.contents(), history)?;
    same_each("breaks: list", put.contents(), list)?;
    lent.margins_stand("breaks: history")?;
    put.margins_stand("breaks: list")?;
    Ok(listed)
}
