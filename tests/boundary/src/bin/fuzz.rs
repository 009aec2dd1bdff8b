//! `fuzz SECONDS [SEED]`: compares the board with the second reader, with a fresh seed for each case, until the time is over. Without a SEED the
//! clock gives one. A difference ends it with the command that shows the same case again.

use boundary::cases::KINDS;
use std::process::ExitCode;
use std::time::{Duration, Instant, SystemTime, UNIX_EPOCH};

fn clock() -> u64 {
    SystemTime::now().duration_since(UNIX_EPOCH).map_or(1, |since| since.as_nanos() as u64)
}

fn arguments() -> Option<(Duration, u64)> {
    let mut arguments = std::env::args().skip(1);
    let seconds = arguments.next()?.parse().ok()?;
    let seed = match arguments.next() {
        Some(seed) => seed.parse().ok()?,
        None => clock(),
    };
    arguments.next().is_none().then_some((Duration::from_secs(seconds), seed))
}

fn main() -> ExitCode {
    let Some((time, first)) = arguments() else {
        eprintln!("usage: fuzz SECONDS [SEED]");
        return ExitCode::from(2);
    };
    println!("fuzz: seed {first}");
    let begin = Instant::now();
    let mut seed = first;
    loop {
        for kind in &KINDS {
            if let Err(difference) = kind.case(seed) {
                println!("fuzz: {}: {difference}", kind.name);
                println!("fuzz: FAILED: again with: fuzz 0 {seed}");
                return ExitCode::FAILURE;
            }
        }
        seed = seed.wrapping_add(1);
        if begin.elapsed() >= time {
            break;
        }
    }
    println!("fuzz: {} cases of each of {} kinds, no difference", seed.wrapping_sub(first), KINDS.len());
    ExitCode::SUCCESS
}
