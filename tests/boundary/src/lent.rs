//! A buffer of bytes or words lent to the board, with others on both sides that nobody lent.

use crate::Verdict;

const MARGIN: usize = 64;
const MARK: u8 = 0xA7;

pub struct Lent<T = u8> {
    all: Vec<T>,
}

impl<T: Copy + PartialEq + From<u8>> Lent<T> {
    pub fn new(contents: &[T]) -> Lent<T> {
        let margin = [T::from(MARK); MARGIN];
        Lent { all: [&margin, contents, &margin].concat() }
    }

    fn end(&self) -> usize {
        self.all.len() - MARGIN
    }

    pub fn contents(&self) -> &[T] {
        &self.all[MARGIN..self.end()]
    }

    pub fn lend(&mut self) -> &mut [T] {
        let end = self.end();
        &mut self.all[MARGIN..end]
    }

    /// Whether what stands on both sides is still there.
    pub fn margins_stand(&self, what: &str) -> Verdict<()> {
        let mut margins = self.all[..MARGIN].iter().chain(&self.all[self.end()..]);
        if margins.all(|&mark| mark == T::from(MARK)) {
            Ok(())
        } else {
            Err(format!("{what}: the board wrote outside of what it was lent"))
        }
    }
}
