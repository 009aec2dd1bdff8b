//! The streams that the readers are tried with: a generator of numbers, messages whose fields hold sync letters and other messages, forged counts,
//! overlapping starts, cut ends and damaged bytes; NovAtel's records; and histories of lock. Everything follows from a seed.

mod history;
mod parts;
mod random;
mod record;

pub use history::{history, history_words, recorded};
pub use parts::{damage, message, observation, piece_of_stream, stream};
pub use random::Random;
pub use record::record;

/// Cuts this many bytes into pieces: all single bytes, all in one, or random lengths with empty pieces among them.
pub fn cuts(random: &mut Random, length: usize) -> Vec<usize> {
    let most = match random.below(8) {
        0 => return vec![1; length],
        1 => return vec![length],
        2 => 3,
        3 => 20,
        4 | 5 => 200,
        6 => 2000,
        _ => 7000,
    };
    let mut pieces = Vec::new();
    let mut left = length;
    while left > 0 {
        let piece = random.below(most + 1).min(left);
        pieces.push(piece);
        left -= piece;
    }
    pieces
}
