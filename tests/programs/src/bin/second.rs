//! The second reader as a program: what `listing`, `rows`, `why`, `breaks TYPE`, `vectors` and the C host have to print, and the sample recordings.

use std::io::{self, Read, Write};

/// The TYPE that the second argument is.
fn signal() -> u8 {
    let word = std::env::args().nth(2).unwrap_or_default();
    word.parse().unwrap_or_else(|_| usage())
}

fn usage() -> ! {
    eprintln!("second: one of listing, rows, why, breaks TYPE, vectors, host, sample, every-reason, every-phase, every-break");
    std::process::exit(2);
}

fn main() -> io::Result<()> {
    let what = std::env::args().nth(1).unwrap_or_default();
    let mut stream = Vec::new();
    if ["listing", "rows", "why", "breaks"].contains(&what.as_str()) {
        io::stdin().read_to_end(&mut stream)?;
    }
    let printed = match what.as_str() {
        "listing" => programs::listing(&stream).into_bytes(),
        "rows" => programs::rows(&stream).into_bytes(),
        "why" => programs::why(&stream).into_bytes(),
        "breaks" => programs::breaks(signal(), &stream).into_bytes(),
        "vectors" => programs::vectors().into_bytes(),
        "host" => programs::host().into_bytes(),
        "sample" => programs::recording(),
        "every-reason" => programs::every_reason(),
        "every-phase" => programs::every_phase(),
        "every-break" => programs::every_break(),
        _ => usage(),
    };
    io::stdout().write_all(&printed)
}
