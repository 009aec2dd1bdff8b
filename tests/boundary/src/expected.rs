//! The second reader's answers as the numbers that the header says they cross the C boundary with. What a refusal does not name is 0.

use crate::board;
use reader::Refusal;

pub fn refusal<T>(answer: Result<T, Refusal>) -> u64 {
    answer.err().unwrap_or(0)
}

pub fn written(answer: Result<usize, Refusal>) -> board::Written {
    match answer {
        Ok(length) => board::Written { refusal: 0, length: length as u64 },
        Err(refusal) => board::Written { refusal, length: 0 },
    }
}

pub fn header(header: reader::Header) -> board::Header {
    match header {
        reader::Header::Old { version, time, offset } => {
            board::Header { form: board::OLD, version: version.into(), time: time.into(), offset: offset.into(), ..Default::default() }
        }
        reader::Header::New { signal, tfom, time, offset } => {
            board::Header { form: board::NEW, version: 0, signal: signal.into(), tfom: tfom.into(), time: time.into(), offset: offset.into() }
        }
    }
}

pub fn observation(observation: reader::Observation) -> board::Observation {
    board::Observation {
        sid: observation.sid.into(),
        condition: observation.condition.into(),
        cn0: observation.cn0.into(),
        phase: observation.phase,
        pseudorange: observation.pseudorange.into(),
        rate: observation.rate.into(),
        lock: observation.lock.into(),
    }
}

pub fn head(answer: Result<reader::Head, Refusal>) -> board::Head {
    match answer {
        Ok(head) => board::Head { refusal: 0, count: head.count.into(), header: header(head.header) },
        Err(refusal) => board::Head { refusal, ..Default::default() },
    }
}

pub fn observed(answer: Result<reader::Observation, Refusal>) -> board::Observed {
    match answer {
        Ok(fields) => board::Observed { refusal: 0, observation: observation(fields) },
        Err(refusal) => board::Observed { refusal, ..Default::default() },
    }
}

/// The kind, the code and the cycles' bits, by which doubles are compared.
pub fn phase(phase: reader::Phase) -> (u64, u64, u64) {
    let (cycles, polarity) = match phase {
        reader::Phase::Withheld => return (board::WITHHELD, 0, 0),
        reader::Phase::NotFinite => return (board::NOT_FINITE, 0, 0),
        reader::Phase::Cycles(cycles, polarity) => (cycles.to_bits(), polarity),
    };
    match polarity {
        reader::Polarity::Unknown => (board::POLARITY_UNKNOWN, 0, cycles),
        reader::Polarity::NotCorrected => (board::NOT_CORRECTED, 5, cycles),
        reader::Polarity::DueHalf => (board::DUE_HALF, 7, cycles),
        reader::Polarity::Undefined(code) => (board::POLARITY_UNDEFINED, code.into(), cycles),
    }
}

pub fn found(answer: Result<reader::Found, Refusal>) -> board::Found {
    match answer {
        Ok(reader::Found::Message(given)) => {
            board::Found { refusal: 0, kind: board::MESSAGE, position: given.position as u64, length: given.length as u64, gap: given.gap as u64 }
        }
        Ok(reader::Found::End { gap }) => board::Found { kind: board::END, gap: gap as u64, ..Default::default() },
        Err(refusal) => board::Found { refusal, ..Default::default() },
    }
}

pub fn reason(answer: Result<reader::Reason, Refusal>) -> board::Reason {
    let (kind, value) = match answer {
        Ok(reader::Reason::Inside(start)) => (board::INSIDE, start as u64),
        Ok(reader::Reason::Given(length)) => (board::GIVEN, length as u64),
        Ok(reader::Reason::Sync(byte)) => (board::SYNC, byte as u64),
        Ok(reader::Reason::CutUnknown) => (board::CUT_UNKNOWN, 0),
        Ok(reader::Reason::CutShort(missing)) => (board::CUT_SHORT, missing as u64),
        Ok(reader::Reason::Checksum(residue)) => (board::CHECKSUM, residue.into()),
        Err(refusal) => return board::Reason { refusal, ..Default::default() },
    };
    board::Reason { refusal: 0, kind, value }
}

pub fn answer(answer: Result<reader::Answer, Refusal>) -> board::Answer {
    match answer {
        Ok(reader::Answer::NeedsMore { taken }) => board::Answer { kind: board::NEEDS_MORE, taken: taken as u64, ..Default::default() },
        Ok(reader::Answer::Message { length, gap, taken }) => {
            board::Answer { refusal: 0, kind: board::MESSAGE, length: length as u64, gap, taken: taken as u64 }
        }
        Ok(reader::Answer::End { gap }) => board::Answer { kind: board::END, gap, ..Default::default() },
        Err(refusal) => board::Answer { refusal, ..Default::default() },
    }
}

pub fn rangecmp(answer: Result<reader::Record, Refusal>) -> board::Rangecmp {
    match answer {
        Ok(record) => board::Rangecmp {
            refusal: 0,
            status: record.status,
            doppler: record.doppler,
            range: record.range,
            adr: record.adr,
            range_deviation: record.range_deviation,
            adr_deviation: record.adr_deviation,
            prn: record.prn,
            lock: record.lock,
            cn0: record.cn0,
            reserved: record.reserved,
        },
        Err(refusal) => board::Rangecmp { refusal, ..Default::default() },
    }
}

pub fn adr(answer: Result<(i64, i64), Refusal>) -> board::Adr {
    match answer {
        Ok((rolls, adr)) => board::Adr { refusal: 0, rolls, adr },
        Err(refusal) => board::Adr { refusal, ..Default::default() },
    }
}

/// The answer; the entries go to the front of the list, each in three numbers.
pub fn listed(answer: Result<Vec<reader::Entry>, Refusal>, list: &mut [u64]) -> board::Listed {
    match answer {
        Ok(entries) => {
            list.iter_mut().zip(entries.iter().flat_map(entry)).for_each(|(number, expected)| *number = expected);
            board::Listed { refusal: 0, count: entries.len() as u64 }
        }
        Err(refusal) => board::Listed { refusal, ..Default::default() },
    }
}

fn entry(entry: &reader::Entry) -> [u64; 3] {
    let which = match entry.which {
        reader::Break::ClockBack => board::CLOCK_BACK,
        reader::Break::NewLock => board::NEW_LOCK,
    };
    [entry.sid.into(), entry.time.into(), which]
}

/// The low bits of each number go into its field, and a form that is not the old one is the new one.
pub fn header_fields(header: board::Header) -> reader::Header {
    let (time, offset) = (header.time as u32, header.offset as u32);
    if header.form == board::OLD {
        reader::Header::Old { version: header.version as u8, time, offset }
    } else {
        reader::Header::New { signal: header.signal as u8, tfom: header.tfom as u8, time, offset }
    }
}

pub fn observation_fields(observation: board::Observation) -> reader::Observation {
    reader::Observation {
        sid: observation.sid as u8,
        condition: observation.condition as u16,
        cn0: observation.cn0 as u8,
        phase: observation.phase,
        pseudorange: observation.pseudorange as u32,
        rate: observation.rate as i32,
        lock: observation.lock as u32,
    }
}

/// All but the refusal, which writing does not look at.
pub fn rangecmp_fields(record: board::Rangecmp) -> reader::Record {
    reader::Record {
        status: record.status,
        doppler: record.doppler,
        range: record.range,
        adr: record.adr,
        range_deviation: record.range_deviation,
        adr_deviation: record.adr_deviation,
        prn: record.prn,
        lock: record.lock,
        cn0: record.cn0,
        reserved: record.reserved,
    }
}
