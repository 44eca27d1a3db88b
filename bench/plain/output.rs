//! What is written: gathered, and handed to standard output in large pieces.

use std::io::{IoSlice, Write};

const PIECE: usize = 1 << 16;
/// From this length on a text isn't copied.
const LARGE: usize = 1 << 12;

#[derive(Default)]
pub struct Output {
    gathered: Vec<u8>,
    /// Whether something could not be written.
    pub failed: bool,
}

impl Output {
    #[inline]
    pub fn text(&mut self, text: &[u8]) {
        if text.len() >= LARGE {
            self.large(text);
            return;
        }
        self.gathered.extend_from_slice(text);
        if self.gathered.len() >= PIECE {
            self.flush();
        }
    }

    pub fn number(&mut self, number: u32) {
        let mut digits = [0; 10];
        let (mut place, mut left) = (digits.len(), number);
        loop {
            place -= 1;
            digits[place] = b'0' + (left % 10) as u8;
            left /= 10;
            if left == 0 {
                break;
            }
        }
        self.text(&digits[place..]);
    }

    /// Writes what was gathered, and a text behind it, without copying that.
    fn large(&mut self, text: &[u8]) {
        let mut stdout = std::io::stdout().lock();
        let mut pieces = [IoSlice::new(&self.gathered), IoSlice::new(text)];
        let mut left = &mut pieces[..];
        while !left.is_empty() {
            match stdout.write_vectored(left) {
                Ok(written) if written > 0 => IoSlice::advance_slices(&mut left, written),
                _ => {
                    self.failed = true;
                    break;
                }
            }
        }
        self.gathered.clear();
    }

    pub fn flush(&mut self) {
        let mut stdout = std::io::stdout().lock();
        self.failed |= stdout.write_all(&self.gathered).and_then(|()| stdout.flush()).is_err();
        self.gathered.clear();
    }
}
