//! The second reader: the rules of document 01 and of the requests since once more, over vectors and slices, as the measure for the library behind the
//! C boundary.
//! Nothing here is fast or careful with memory: each function follows the document's sentence and no more.

mod breaks;
mod division;
mod message;
mod numbers;
mod rangecmp;
mod reason;
mod stream;
mod whole;
mod work;

pub use breaks::{breaks, fresh_history, next_breaks, Break, Entry, BREAKS_NUMBERS, HISTORY_WORDS};
pub use division::{divide, message_at, next, Division, Found, Given};
pub use message::{check, checksum, read_header, read_observation, set, start, to_new, to_old, Form, Head, Header, Message, Observation};
pub use numbers::{lock_ms, phase, plot_row, range_um, Phase, Polarity};
pub use rangecmp::{adr_512ths, corrected_adr, range_mm, read_record, write_record, Record, RECORD_BYTES};
pub use reason::{reasons, why, Reason};
pub use stream::{feed, finish, standing, Answer, Standing, State, STREAM_BYTES, SUMMED_BYTES};
pub use work::{most_work, work};

/// The length of the longest message, which is of the new form with 255 observations.
pub const LONGEST: usize = 6136;

/// A refusal's number: document 01's 1 to 12, and E4's 13, 22 and 23.
pub type Refusal = u64;
