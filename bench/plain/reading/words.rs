//! Lines, words, numbers and addresses in the bytes of a file.

use crate::model::{mask_of, Prefix, Span};

/// A byte with the value 1 in each of eight places, and with the highest bit in each.
const ONES: u64 = 0x0101_0101_0101_0101;
const TOPS: u64 = ONES << 7;

/// The place of the next line feed at or behind `at`, or the end of the text.
#[inline]
pub fn line_end(text: &[u8], mut at: usize) -> usize {
    while let Some(piece) = text.get(at..at + 8) {
        let eight = u64::from_le_bytes(piece.try_into().expect("eight bytes")) ^ (ONES * b'\n' as u64);
        let found = eight.wrapping_sub(ONES) & !eight & TOPS;
        if found != 0 {
            return at + (found.trailing_zeros() / 8) as usize;
        }
        at += 8;
    }
    while at < text.len() && text[at] != b'\n' {
        at += 1;
    }
    at
}

/// The end of a word that goes on until a blank, a line end or another control byte, or until the end of the text.
#[inline]
pub fn word_end(text: &[u8], mut at: usize) -> usize {
    loop {
        let eight = eight_at(text, at);
        let found = eight.wrapping_sub(ONES * (b' ' as u64 + 1)) & !eight & TOPS;
        if found != 0 {
            return at + (found.trailing_zeros() / 8) as usize;
        }
        at += 8;
    }
}

/// The words of a line, one after the other.
#[derive(Clone)]
pub struct Words<'a> {
    pub text: &'a [u8],
    at: usize,
    end: usize,
}

impl<'a> Words<'a> {
    /// The words from `at` on to a line's end, without a carriage return before it.
    pub fn new(text: &'a [u8], at: usize, end: usize) -> Self {
        let end = if end > at && text[end - 1] == b'\r' { end - 1 } else { end };
        Words { text, at, end }
    }

    pub fn next_span(&mut self) -> Option<Span> {
        let is_blank = |byte: u8| byte == b' ' || byte == b'\t';
        while self.at < self.end && is_blank(self.text[self.at]) {
            self.at += 1;
        }
        let start = self.at;
        while self.at < self.end && !is_blank(self.text[self.at]) {
            self.at += 1;
        }
        (start < self.at).then_some(Span { start: start as u32, end: self.at as u32 })
    }

    pub fn bytes(&self, span: Span) -> &'a [u8] {
        &self.text[span.start as usize..span.end as usize]
    }

    /// The next word if it is this one.
    pub fn take(&mut self, word: &[u8]) -> bool {
        let mut further = self.clone();
        let is_it = further.next() == Some(word);
        if is_it {
            *self = further;
        }
        is_it
    }

    /// Nothing if the line ends here.
    pub fn end(&mut self) -> Option<()> {
        self.next().is_none().then_some(())
    }

    pub fn address(&mut self) -> Option<u32> {
        whole_address(self.next()?)
    }

    /// An address, and a mask that leaves no bit of it free.
    pub fn prefix(&mut self) -> Option<Prefix> {
        let address = self.address()?;
        let length = mask_length(self.address()?)?;
        (address & !mask_of(length) == 0).then_some(Prefix { address, length })
    }

    pub fn number(&mut self, least: u64, most: u64) -> Option<u32> {
        whole_number(self.next()?).filter(|value| (least..=most).contains(value)).map(|value| value as u32)
    }
}

impl<'a> Iterator for Words<'a> {
    type Item = &'a [u8];

    fn next(&mut self) -> Option<&'a [u8]> {
        self.next_span().map(|span| self.bytes(span))
    }
}

/// The length of a mask of ones followed by zeros.
#[inline]
pub fn mask_length(mask: u32) -> Option<u8> {
    let length = mask.leading_ones() as u8;
    (mask == mask_of(length)).then_some(length)
}

/// The eight bytes at a place, the first in the lowest bits, zeros behind the text.
#[inline]
pub fn eight_at(text: &[u8], at: usize) -> u64 {
    match text.get(at..at + 8) {
        Some(piece) => u64::from_le_bytes(piece.try_into().expect("eight bytes")),
        None => text.get(at..).unwrap_or(&[]).iter().rev().fold(0, |value, &byte| value << 8 | byte as u64),
    }
}

/// The number without a leading zero that begins at `at`, and the place behind it.
#[inline]
pub fn number_at(text: &[u8], at: usize) -> Option<(u64, usize)> {
    let values = eight_at(text, at) ^ (ONES * b'0' as u64);
    let odd = (values.wrapping_add(ONES * 0x76) | values) & TOPS;
    if odd == 0 {
        return long_number_at(text, at);
    }
    let count = odd.trailing_zeros() / 8;
    if count == 0 || values & 0xff == 0 && count > 1 {
        return None;
    }
    // The digits stand at the upper end now, zeros before them; neighbors are joined to pairs, fours, and all eight.
    let digits = values << (64 - 8 * count);
    let pairs = digits.wrapping_mul(10 << 8 | 1) >> 8 & 0x00ff_00ff_00ff_00ff;
    let fours = pairs.wrapping_mul(100 << 16 | 1) >> 16 & 0x0000_ffff_0000_ffff;
    Some((fours.wrapping_mul(10_000 << 32 | 1) >> 32, at + count as usize))
}

/// A number of eight digits or more; None of more than twelve.
#[cold]
fn long_number_at(text: &[u8], at: usize) -> Option<(u64, usize)> {
    let digits = text[at..].iter().take_while(|byte| byte.is_ascii_digit()).count();
    if text[at] == b'0' || digits > 12 {
        return None;
    }
    let value = text[at..at + digits].iter().fold(0, |value, &byte| value * 10 + (byte - b'0') as u64);
    Some((value, at + digits))
}

pub fn whole_number(word: &[u8]) -> Option<u64> {
    number_at(word, 0).filter(|&(_, end)| end == word.len()).map(|(value, _)| value)
}

/// The address that begins at `at`, and the place behind it.
#[inline]
pub fn address_at(text: &[u8], at: usize) -> Option<(u32, usize)> {
    let mut window = [0u8; 16];
    match text.get(at..at + 16) {
        Some(piece) => window = piece.try_into().expect("sixteen bytes"),
        None => window[..text.len().checked_sub(at)?].copy_from_slice(&text[at..]),
    }
    let (mut value, mut place) = octet_at(&window, 0)?;
    for _ in 1..4 {
        if window[place & 15] != b'.' {
            return None;
        }
        let (octet, behind) = octet_at(&window, place + 1)?;
        value = value << 8 | octet;
        place = behind;
    }
    Some((value, at + place))
}

/// The number up to 255 without a leading zero that begins at a place, and the place behind it.
#[inline(always)]
fn octet_at(window: &[u8; 16], place: usize) -> Option<(u32, usize)> {
    let digit = |place: usize| window[place & 15].wrapping_sub(b'0') as u32;
    let (first, second) = (digit(place), digit(place + 1));
    if first > 9 {
        return None;
    }
    if second > 9 {
        return Some((first, place + 1));
    }
    let (two, third) = (first * 10 + second, digit(place + 2));
    let (value, behind) = if third > 9 { (two, place + 2) } else { (two * 10 + third, place + 3) };
    (first != 0 && value <= 255).then_some((value, behind))
}

pub fn whole_address(word: &[u8]) -> Option<u32> {
    address_at(word, 0).filter(|&(_, end)| end == word.len()).map(|(value, _)| value)
}

/// The prefix `A/L` of a whole word, its host bits as they are written.
pub fn whole_slashed(word: &[u8]) -> Option<(u32, u8)> {
    let (address, slash) = address_at(word, 0)?;
    if word.get(slash) != Some(&b'/') {
        return None;
    }
    let length = whole_number(&word[slash + 1..])?;
    (length <= 32).then_some((address, length as u8))
}
