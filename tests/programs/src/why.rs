//! What the program `why` has to print.

use reader::{reasons, Reason};

pub const WHY_HEADING: &str = "at reason value\n";

/// The longest recording of which the program says anything.
pub const WHY_LONGEST: usize = 61_440;

/// The reason of every position, a line each; of a longer recording, that it is longer.
pub fn why(recording: &[u8]) -> String {
    if recording.len() > WHY_LONGEST {
        return format!("longer than {WHY_LONGEST} bytes\n");
    }
    WHY_HEADING.to_string() + &why_lines(recording).concat()
}

/// The line of each position, whatever the recording's length.
pub fn why_lines(recording: &[u8]) -> Vec<String> {
    reasons(recording).into_iter().enumerate().map(|(position, reason)| format!("{position} {}\n", words(reason))).collect()
}

fn words(reason: Reason) -> String {
    match reason {
        Reason::Inside(start) => format!("inside {start}"),
        Reason::Given(length) => format!("given {length}"),
        Reason::Sync(byte) => format!("sync {byte}"),
        Reason::CutUnknown => "short -".to_string(),
        Reason::CutShort(missing) => format!("short {missing}"),
        Reason::Checksum(residue) => format!("checksum {residue:02X}"),
    }
}
