//! include/cablesound.h in Rust: its types, its functions, and a safe wrapper of each that lends slices.

use reader::HISTORY_WORDS;

#[repr(C)]
#[derive(Clone, Copy, Debug, Default, PartialEq)]
pub struct State {
    pub held: u64,
    pub gap: u64,
    pub total: u64,
    pub ended: u64,
    pub summed: u64,
}

pub const NEEDS_MORE: u64 = 0;
pub const MESSAGE: u64 = 1;
pub const END: u64 = 2;

#[repr(C)]
#[derive(Clone, Copy, Debug, Default, PartialEq)]
pub struct Answer {
    pub refusal: u64,
    pub kind: u64,
    pub length: u64,
    pub gap: u64,
    pub taken: u64,
}

#[repr(C)]
#[derive(Clone, Copy, Debug, Default, PartialEq)]
pub struct Found {
    pub refusal: u64,
    pub kind: u64,
    pub position: u64,
    pub length: u64,
    pub gap: u64,
}

pub const INSIDE: u64 = 1;
pub const GIVEN: u64 = 2;
pub const SYNC: u64 = 3;
pub const CUT_UNKNOWN: u64 = 4;
pub const CUT_SHORT: u64 = 5;
pub const CHECKSUM: u64 = 6;

#[repr(C)]
#[derive(Clone, Copy, Debug, Default, PartialEq)]
pub struct Reason {
    pub refusal: u64,
    pub kind: u64,
    pub value: u64,
}

pub const OLD: u64 = 1;
pub const NEW: u64 = 2;

#[repr(C)]
#[derive(Clone, Copy, Debug, Default, PartialEq)]
pub struct Header {
    pub form: u64,
    pub version: u64,
    pub signal: u64,
    pub tfom: u64,
    pub time: u64,
    pub offset: u64,
}

#[repr(C)]
#[derive(Clone, Copy, Debug, Default, PartialEq)]
pub struct Observation {
    pub sid: u64,
    pub condition: u64,
    pub cn0: u64,
    pub phase: u64,
    pub pseudorange: u64,
    pub rate: i64,
    pub lock: u64,
}

#[repr(C)]
#[derive(Clone, Copy, Debug, Default, PartialEq)]
pub struct Head {
    pub refusal: u64,
    pub count: u64,
    pub header: Header,
}

#[repr(C)]
#[derive(Clone, Copy, Debug, Default, PartialEq)]
pub struct Observed {
    pub refusal: u64,
    pub observation: Observation,
}

#[repr(C)]
#[derive(Clone, Copy, Debug, Default, PartialEq)]
pub struct Written {
    pub refusal: u64,
    pub length: u64,
}

pub const WITHHELD: u64 = 0;
pub const NOT_FINITE: u64 = 1;
pub const POLARITY_UNKNOWN: u64 = 2;
pub const NOT_CORRECTED: u64 = 3;
pub const DUE_HALF: u64 = 4;
pub const POLARITY_UNDEFINED: u64 = 5;

#[repr(C)]
#[derive(Clone, Copy, Debug, Default)]
pub struct Cycles {
    pub kind: u64,
    pub code: u64,
    pub cycles: f64,
}

#[repr(C)]
#[derive(Clone, Copy, Debug, Default)]
pub struct Row {
    pub range: f64,
    pub rate: f64,
}

#[repr(C)]
#[derive(Clone, Copy, Debug, Default, PartialEq)]
pub struct Rangecmp {
    pub refusal: u64,
    pub status: u64,
    pub doppler: i64,
    pub range: u64,
    pub adr: i64,
    pub range_deviation: u64,
    pub adr_deviation: u64,
    pub prn: u64,
    pub lock: u64,
    pub cn0: u64,
    pub reserved: u64,
}

#[repr(C)]
#[derive(Clone, Copy, Debug, Default, PartialEq)]
pub struct Adr {
    pub refusal: u64,
    pub rolls: i64,
    pub adr: i64,
}

pub const CLOCK_BACK: u64 = 1;
pub const NEW_LOCK: u64 = 2;

pub type History = [u64; HISTORY_WORDS];

#[repr(C)]
#[derive(Clone, Copy, Debug, Default, PartialEq)]
pub struct Listed {
    pub refusal: u64,
    pub count: u64,
}

mod raw {
    use super::*;

    extern "C" {
        pub fn cs_check(message: *const u8, length: usize) -> u64;
        pub fn cs_read_header(message: *const u8, length: usize) -> Head;
        pub fn cs_read_observation(message: *const u8, length: usize, index: usize) -> Observed;
        pub fn cs_start(output: *mut u8, output_length: usize, header: Header, count: u8) -> Written;
        pub fn cs_set(message: *mut u8, length: usize, index: usize, observation: Observation) -> u64;
        pub fn cs_to_new(message: *const u8, length: usize, signal: u8, tfom: u8, output: *mut u8, output_length: usize) -> Written;
        pub fn cs_to_old(message: *const u8, length: usize, version: u8, output: *mut u8, output_length: usize) -> Written;
        pub fn cs_next(recording: *const u8, length: usize, start: usize) -> Found;
        pub fn cs_why(recording: *const u8, length: usize, position: usize) -> Reason;
        pub fn cs_fresh() -> State;
        pub fn cs_feed(
            state: *mut State,
            piece: *const u8,
            piece_length: usize,
            window: *mut u8,
            window_length: usize,
            output: *mut u8,
            output_length: usize,
        ) -> Answer;
        pub fn cs_finish(state: *mut State, window: *mut u8, window_length: usize, output: *mut u8, output_length: usize) -> Answer;
        pub fn cs_range_um(pseudorange: u32) -> u64;
        pub fn cs_lock_ms(lock: u32) -> u64;
        pub fn cs_phase(form: u64, observation: Observation) -> Cycles;
        pub fn cs_plot_row(pseudorange: u32, rate: i32) -> Row;
        pub fn cs_rangecmp_read(record: *const u8, length: usize) -> Rangecmp;
        pub fn cs_rangecmp_write(output: *mut u8, output_length: usize, record: Rangecmp) -> Written;
        pub fn cs_rangecmp_adr(record: *const u8, length: usize) -> Adr;
        pub fn cs_rangecmp_range_mm(code: u64) -> u64;
        pub fn cs_rangecmp_adr_512ths(code: u64) -> u64;
        pub fn cs_breaks_fresh(history: *mut u64, signal: u8);
        pub fn cs_breaks(message: *const u8, length: usize, history: *mut u64, list: *mut u64, list_length: usize) -> Listed;
    }
}

// A slice's pointer is never null, also where it is empty, and two slices of which one can be written never overlap: that is all the header asks.

pub fn check(message: &[u8]) -> u64 {
    unsafe { raw::cs_check(message.as_ptr(), message.len()) }
}

pub fn read_header(message: &[u8]) -> Head {
    unsafe { raw::cs_read_header(message.as_ptr(), message.len()) }
}

pub fn read_observation(message: &[u8], index: usize) -> Observed {
    unsafe { raw::cs_read_observation(message.as_ptr(), message.len(), index) }
}

pub fn start(output: &mut [u8], header: Header, count: u8) -> Written {
    unsafe { raw::cs_start(output.as_mut_ptr(), output.len(), header, count) }
}

pub fn set(message: &mut [u8], index: usize, observation: Observation) -> u64 {
    unsafe { raw::cs_set(message.as_mut_ptr(), message.len(), index, observation) }
}

pub fn to_new(message: &[u8], signal: u8, tfom: u8, output: &mut [u8]) -> Written {
    unsafe { raw::cs_to_new(message.as_ptr(), message.len(), signal, tfom, output.as_mut_ptr(), output.len()) }
}

pub fn to_old(message: &[u8], version: u8, output: &mut [u8]) -> Written {
    unsafe { raw::cs_to_old(message.as_ptr(), message.len(), version, output.as_mut_ptr(), output.len()) }
}

pub fn next(recording: &[u8], start: usize) -> Found {
    unsafe { raw::cs_next(recording.as_ptr(), recording.len(), start) }
}

pub fn why(recording: &[u8], position: usize) -> Reason {
    unsafe { raw::cs_why(recording.as_ptr(), recording.len(), position) }
}

pub fn fresh() -> State {
    unsafe { raw::cs_fresh() }
}

pub fn feed(state: &mut State, piece: &[u8], window: &mut [u8], output: &mut [u8]) -> Answer {
    unsafe { raw::cs_feed(state, piece.as_ptr(), piece.len(), window.as_mut_ptr(), window.len(), output.as_mut_ptr(), output.len()) }
}

pub fn finish(state: &mut State, window: &mut [u8], output: &mut [u8]) -> Answer {
    unsafe { raw::cs_finish(state, window.as_mut_ptr(), window.len(), output.as_mut_ptr(), output.len()) }
}

pub fn range_um(pseudorange: u32) -> u64 {
    unsafe { raw::cs_range_um(pseudorange) }
}

pub fn lock_ms(lock: u32) -> u64 {
    unsafe { raw::cs_lock_ms(lock) }
}

pub fn phase(form: u64, observation: Observation) -> Cycles {
    unsafe { raw::cs_phase(form, observation) }
}

pub fn plot_row(pseudorange: u32, rate: i32) -> Row {
    unsafe { raw::cs_plot_row(pseudorange, rate) }
}

pub fn rangecmp_read(record: &[u8]) -> Rangecmp {
    unsafe { raw::cs_rangecmp_read(record.as_ptr(), record.len()) }
}

pub fn rangecmp_write(output: &mut [u8], record: Rangecmp) -> Written {
    unsafe { raw::cs_rangecmp_write(output.as_mut_ptr(), output.len(), record) }
}

pub fn rangecmp_adr(record: &[u8]) -> Adr {
    unsafe { raw::cs_rangecmp_adr(record.as_ptr(), record.len()) }
}

pub fn rangecmp_range_mm(code: u64) -> u64 {
    unsafe { raw::cs_rangecmp_range_mm(code) }
}

pub fn rangecmp_adr_512ths(code: u64) -> u64 {
    unsafe { raw::cs_rangecmp_adr_512ths(code) }
}

pub fn breaks_fresh(history: &mut History, signal: u8) {
    unsafe { raw::cs_breaks_fresh(history.as_mut_ptr(), signal) }
}

pub fn breaks(message: &[u8], history: &mut History, list: &mut [u64]) -> Listed {
    unsafe { raw::cs_breaks(message.as_ptr(), message.len(), history.as_mut_ptr(), list.as_mut_ptr(), list.len()) }
}
