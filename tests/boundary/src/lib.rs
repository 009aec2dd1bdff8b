//! The C boundary as Rust sees it, and the comparisons of every call with the second reader.

pub mod board;
pub mod cases;
mod compare;
mod expected;
mod history_cases;
mod lent;
mod record_cases;
mod run;
mod twin;

pub use compare::*;
pub use lent::Lent;
pub use run::run;
pub use twin::Twin;

/// What a comparison answers: something about the call, or how the two readers differ.
pub type Verdict<T> = Result<T, String>;

/// Refuses to go on where the board's value is not the second reader's.
pub fn same<T: PartialEq + std::fmt::Debug>(what: &str, board: T, reader: T) -> Verdict<()> {
    if board == reader {
        Ok(())
    } else {
        Err(format!("{what}: the board has {board:?}, the second reader {reader:?}"))
    }
}

/// The same for bytes or words, naming the first place alone.
pub fn same_each<T: PartialEq + std::fmt::Debug>(what: &str, board: &[T], reader: &[T]) -> Verdict<()> {
    if board == reader {
        return Ok(());
    }
    let place = board.iter().zip(reader).position(|(left, right)| left != right);
    let place = place.unwrap_or(board.len().min(reader.len()));
    Err(format!("{what}: at {place} stands {:?} on the board, {:?} in the second reader", board.get(place), reader.get(place)))
}
