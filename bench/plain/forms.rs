//! The marks of all lines as letters, and the forms in which they are told: reports, `lcov`, `json` and `show`.

use crate::model::{Network, NONE};
use crate::output::Output;

const STRONG: usize = b'S' as usize;
const WEAK: usize = b'W' as usize;
const UNCOVERED: usize = b'U' as usize;
const OUTSIDE: usize = b'.' as usize;

/// A letter for each line of each router, within the text of a report, which is patched as marks change.
pub struct Sheets {
    /// A line for each router: its name, a blank and its letters.
    listing: Vec<u8>,
    /// Where the letters of each router begin.
    starts: Vec<u32>,
    /// How many lines have each letter.
    counts: [u32; 256],
}

impl Sheets {
    pub fn new(network: &Network) -> Self {
        let mut sheets = Sheets { listing: Vec::new(), starts: Vec::new(), counts: [0; 256] };
        let size = network.routers.iter().map(|router| router.name.len() + 2 + router.owners.len()).sum();
        sheets.listing.reserve_exact(size);
        for router in &network.routers {
            sheets.listing.extend_from_slice(&router.name);
            sheets.listing.push(b' ');
            sheets.starts.push(sheets.listing.len() as u32);
            sheets.listing.extend(router.owners.iter().map(|&owner| if owner == NONE { b'.' } else { b'U' }));
            sheets.listing.push(b'\n');
            let outside = router.owners.iter().filter(|&&owner| owner == NONE).count();
            sheets.counts[OUTSIDE] += outside as u32;
            sheets.counts[UNCOVERED] += (router.owners.len() - outside) as u32;
        }
        sheets
    }

    /// Gives the lines of an element a letter.
    pub fn mark(&mut self, network: &Network, element: u32, letter: u8) {
        let number = network.element_router(element) as usize;
        for line in network.routers[number].lines_of(element) {
            let place = &mut self.listing[(self.starts[number] + line) as usize];
            self.counts[*place as usize] -= 1;
            self.counts[letter as usize] += 1;
            *place = letter;
        }
    }

    fn letters(&self, network: &Network, router: usize) -> &[u8] {
        let start = self.starts[router] as usize;
        &self.listing[start..start + network.routers[router].owners.len()]
    }

    /// Writes a report, with the lines of the routers or without.
    pub fn report(&self, listed: bool, out: &mut Output) {
        for (word, letter) in [("strong ", STRONG), (" weak ", WEAK), (" uncovered ", UNCOVERED), (" outside ", OUTSIDE)] {
            out.text(word.as_bytes());
            out.number(self.counts[letter]);
        }
        out.text(b"\n");
        if listed {
            out.text(&self.listing);
        }
    }

    pub fn lcov(&self, network: &Network, out: &mut Output) {
        for (number, router) in network.routers.iter().enumerate() {
            out.text(b"TN:\nSF:");
            out.text(router.file.as_bytes());
            out.text(b"\n");
            let (mut read, mut hit) = (0, 0);
            let mut line = HitLine::new();
            let mut piece = Piece::default();
            for &letter in self.letters(network, number) {
                if letter != b'.' {
                    let is_hit = letter != b'U';
                    read += 1;
                    hit += is_hit as u32;
                    line.bytes[line.end - 2] = b'0' + is_hit as u8;
                    piece.add(&line.bytes, line.end, out);
                }
                line.count_up();
            }
            piece.hand_on(out);
            out.text(b"LF:");
            out.number(read);
            out.text(b"\nLH:");
            out.number(hit);
            out.text(b"\nend_of_record\n");
        }
    }

    pub fn json(&self, network: &Network, out: &mut Output) {
        out.text(b"{\"outside\":");
        out.number(self.counts[OUTSIDE]);
        out.text(b",\"routers\":[");
        for (number, router) in network.routers.iter().enumerate() {
            out.text(if number == 0 { b"{\"marks\":\"" } else { b",{\"marks\":\"" });
            out.text(self.letters(network, number));
            out.text(b"\",\"name\":\"");
            for &byte in &router.name {
                out.text(if matches!(byte, b'"' | b'\\') { b"\\" } else { b"" });
                out.text(&[byte]);
            }
            out.text(b"\"}");
        }
        for (word, letter) in [("],\"strong\":", STRONG), (",\"uncovered\":", UNCOVERED), (",\"weak\":", WEAK)] {
            out.text(word.as_bytes());
            out.number(self.counts[letter]);
        }
        out.text(b"}\n");
    }

    pub fn show(&self, network: &Network, router: usize, out: &mut Output) {
        let lines = network.routers[router].text.split(|&byte| byte == b'\n');
        for ((number, &letter), line) in (1..).zip(self.letters(network, router)).zip(lines) {
            out.text(&[letter, b' ']);
            out.number(number);
            out.text(b" ");
            out.text(line.strip_suffix(b"\r").unwrap_or(line));
            out.text(b"\n");
        }
    }
}

const ROOM: usize = 16;
const DIGITS: usize = 3;

/// A line `DA:N,H` whose number is counted up in place.
struct HitLine {
    bytes: [u8; ROOM],
    end: usize,
}

impl HitLine {
    fn new() -> Self {
        HitLine { bytes: *b"DA:1,0\n         ", end: 7 }
    }

    #[inline]
    fn count_up(&mut self) {
        let mut place = self.end - 4;
        while self.bytes[place] == b'9' {
            self.bytes[place] = b'0';
            place -= 1;
        }
        if place >= DIGITS {
            self.bytes[place] += 1;
        } else {
            self.bytes.copy_within(DIGITS..ROOM - 1, DIGITS + 1);
            self.bytes[DIGITS] = b'1';
            self.end += 1;
        }
    }
}

const PIECE: usize = 4096;

/// Short lines gathered before they are handed on.
struct Piece {
    bytes: [u8; PIECE + ROOM],
    end: usize,
}

impl Default for Piece {
    fn default() -> Self {
        Piece { bytes: [0; PIECE + ROOM], end: 0 }
    }
}

impl Piece {
    #[inline]
    fn add(&mut self, line: &[u8; ROOM], length: usize, out: &mut Output) {
        let place = self.end.min(PIECE);
        self.bytes[place..place + ROOM].copy_from_slice(line);
        self.end = place + length;
        if self.end >= PIECE {
            self.hand_on(out);
        }
    }

    fn hand_on(&mut self, out: &mut Output) {
        out.text(&self.bytes[..self.end]);
        self.end = 0;
    }
}
