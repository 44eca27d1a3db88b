//! Reads the configuration file of one router: line by line, each in its block. Lines in their usual form, with single
//! blanks between the words, are read in one pass over their bytes; all others by words.

mod clauses;
mod links;
mod lists;
mod names;
mod processes;
pub mod words;

use crate::model::{Router, Span, NONE};
use clauses::Clauses;
use links::Links;
use lists::{CommunityLists, PrefixLists};
use processes::ProcessDraft;
use words::{line_end, Words};

const MOST_LINES: usize = 65535;
const MOST_BYTES: usize = 4_194_304;
const LONGEST_NAME: usize = 63;

/// Why a file isn't taken.
pub enum Refusal {
    Bytes,
    Lines,
    NoName,
    /// A statement that this program doesn't serve, by its line, from 0.
    NotServed(usize),
}

/// The block in which an indented line stands.
#[derive(Clone, Copy)]
enum Block {
    None,
    Interface(u32),
    Clause(u32),
    Process,
}

/// To which element each line belongs, and which lines each element has. The next line is the one behind the last owner.
pub struct Ownership {
    owners: Vec<u32>,
    first_element: u32,
    first_lines: Vec<u32>,
    further_lines: Vec<(u32, u32)>,
}

impl Ownership {
    /// A new element, which begins in the next line.
    #[inline]
    fn begin(&mut self) -> u32 {
        let element = self.first_element + self.first_lines.len() as u32;
        self.first_lines.push(self.owners.len() as u32);
        self.owners.push(element);
        element
    }

    /// The next line belongs to an element that has begun.
    #[inline]
    fn go_on(&mut self, element: u32) {
        self.further_lines.push((element, self.owners.len() as u32));
        self.owners.push(element);
    }

    #[inline]
    fn outside(&mut self) {
        self.owners.push(NONE);
    }

    #[inline]
    fn next_line(&self) -> u32 {
        self.owners.len() as u32
    }
}

struct Reader<'a> {
    text: &'a [u8],
    lines: Ownership,
    block: Block,
    name: Option<(Span, u32)>,
    links: Links,
    prefix_lists: PrefixLists,
    community_lists: CommunityLists,
    clauses: Clauses,
    process: Option<ProcessDraft>,
}

/// The router of a file, whose first element gets the given number.
pub fn read_router(file: &str, text: Vec<u8>, first_element: u32) -> Result<Router, Refusal> {
    if text.len() > MOST_BYTES {
        return Err(Refusal::Bytes);
    }
    let capacity = MOST_LINES.min(text.len() / 8 + 1);
    let lines = Ownership { owners: Vec::with_capacity(capacity), first_element, first_lines: Vec::with_capacity(capacity), further_lines: Vec::new() };
    let mut reader = Reader {
        text: &text,
        lines,
        block: Block::None,
        name: None,
        links: Links::default(),
        prefix_lists: PrefixLists::default(),
        community_lists: CommunityLists::default(),
        clauses: Clauses::default(),
        process: None,
    };
    reader.read_lines()?;
    let mut router = reader.into_router(file)?;
    router.text = text;
    Ok(router)
}

impl Reader<'_> {
    fn read_lines(&mut self) -> Result<(), Refusal> {
        let mut at = 0;
        while at < self.text.len() {
            let usual = self.usual_line(at);
            at = match usual {
                Some(next) => next,
                None => self.line_by_words(at).ok_or(Refusal::NotServed(self.lines.owners.len()))?,
            };
        }
        if self.lines.owners.len() > MOST_LINES {
            return Err(Refusal::Lines);
        }
        Ok(())
    }

    /// Reads a line in its usual form, and gives the place behind it; else nothing is done.
    #[inline]
    fn usual_line(&mut self, at: usize) -> Option<usize> {
        let rest = &self.text[at..];
        match rest[0] {
            b'!' => Some(self.pass_over(at)),
            b' ' => match self.block {
                Block::Interface(interface) => self.usual_in_interface(interface, at),
                _ => None,
            },
            b'i' if rest.starts_with(b"ip prefix-list ") => {
                let next = self.prefix_lists.usual_entry(self.text, at + 15, &mut self.lines)?;
                self.block = Block::None;
                Some(next)
            }
            b'i' if rest.starts_with(b"ip route ") => {
                let next = self.links.usual_route(self.text, at + 9, &mut self.lines)?;
                self.block = Block::None;
                Some(next)
            }
            b'i' if rest.starts_with(b"interface ") => {
                let (interface, next) = self.links.usual_interface(self.text, at + 10, &mut self.lines)?;
                self.block = Block::Interface(interface);
                Some(next)
            }
            _ => None,
        }
    }

    #[inline]
    fn usual_in_interface(&mut self, interface: u32, at: usize) -> Option<usize> {
        match self.text.get(at + 1)? {
            b'i' | b'n' | b's' => self.links.usual_in_interface(self.text, interface, at, &mut self.lines),
            b' ' | b'\t' | b'\r' | b'\n' | b'v' => None,
            _ => Some(self.pass_over(at)),
        }
    }

    /// The line is outside.
    #[inline]
    fn pass_over(&mut self, at: usize) -> usize {
        self.lines.outside();
        line_end(self.text, at) + 1
    }

    /// Reads a line of any form; None where it isn't served.
    fn line_by_words(&mut self, at: usize) -> Option<usize> {
        let end = line_end(self.text, at);
        let mut words = Words::new(self.text, at, end);
        let before = self.lines.owners.len();
        let indented = matches!(self.text[at], b' ' | b'\t');
        match words.clone().next() {
            None => {}
            Some(first) if first[0] == b'!' => {}
            Some(_) if indented => self.indented(&mut words)?,
            Some(_) => {
                self.block = Block::None;
                self.unindented(&mut words)?;
            }
        }
        if self.lines.owners.len() == before {
            self.lines.outside();
        }
        Some(end + 1)
    }

    fn indented(&mut self, words: &mut Words) -> Option<()> {
        match self.block {
            Block::None => Some(()),
            Block::Interface(interface) => self.links.in_interface(interface, words, &mut self.lines),
            Block::Clause(clause) => {
                let Reader { clauses, prefix_lists, community_lists, lines, .. } = self;
                clauses.in_clause(clause, words, prefix_lists, community_lists, lines)
            }
            Block::Process => {
                let Reader { process, links, clauses, lines, .. } = self;
                process.as_mut()?.in_process(words, links, clauses, lines)
            }
        }
    }

    fn unindented(&mut self, words: &mut Words) -> Option<()> {
        match words.next()? {
            b"hostname" => self.hostname(words),
            b"interface" => {
                let name = words.next_span()?;
                self.block = Block::Interface(self.links.open(self.text, name, &mut self.lines));
                Some(())
            }
            b"ip" => self.global_ip(words),
            b"router" => self.open_process(words),
            b"route-map" => {
                self.block = Block::Clause(self.clauses.header(words, &mut self.lines)?);
                Some(())
            }
            b"banner" | b"access-list" => None,
            b"no" => (!(words.take(b"ip") && words.take(b"routing"))).then_some(()),
            _ => Some(()),
        }
    }

    fn hostname(&mut self, words: &mut Words) -> Option<()> {
        let span = words.next_span()?;
        let name = words.bytes(span);
        words.end()?;
        let is_name = name.len() <= LONGEST_NAME && name.iter().all(|byte| (0x21..=0x7e).contains(byte));
        self.name = Some((span, self.lines.next_line()));
        is_name.then_some(())
    }

    fn global_ip(&mut self, words: &mut Words) -> Option<()> {
        match words.next() {
            Some(b"route") => self.links.route(words, &mut self.lines),
            Some(b"prefix-list") => self.prefix_lists.statement(words, &mut self.lines),
            Some(b"community-list") => self.community_lists.statement(words, &mut self.lines),
            Some(b"default-network" | b"nat" | b"access-list") => None,
            Some(b"local") => (!words.take(b"policy")).then_some(()),
            _ => Some(()),
        }
    }

    fn open_process(&mut self, words: &mut Words) -> Option<()> {
        if !words.take(b"bgp") {
            return None;
        }
        let number = words.number(1, u32::MAX as u64)?;
        words.end()?;
        match &self.process {
            Some(process) if process.number != number => return None,
            Some(process) => self.lines.go_on(process.element),
            None => self.process = Some(ProcessDraft::new(number, self.lines.begin())),
        }
        self.block = Block::Process;
        Some(())
    }

    /// What was read, without the text.
    fn into_router(self, file: &str) -> Result<Router, Refusal> {
        let (name, name_line) = self.name.ok_or(Refusal::NoName)?;
        let last = Refusal::NotServed(self.lines.owners.len().saturating_sub(1));
        let Ownership { mut owners, first_element, mut first_lines, mut further_lines } = self.lines;
        owners.shrink_to_fit();
        first_lines.shrink_to_fit();
        further_lines.sort_unstable();
        further_lines.shrink_to_fit();
        let process = match self.process {
            Some(draft) => draft.into_process(&self.links, &self.clauses).map(Some),
            None => Some(None),
        };
        let links = self.links.into_parts();
        let maps = self.clauses.into_maps(&self.prefix_lists, &self.community_lists);
        let (Some((interfaces, statics)), Some(maps), Some(process)) = (links, maps, process) else {
            return Err(last);
        };
        Ok(Router {
            file: file.to_owned(),
            name: self.text[name.start as usize..name.end as usize].to_vec(),
            name_line,
            elements: first_element..first_element + first_lines.len() as u32,
            owners,
            first_lines,
            further_lines,
            interfaces,
            statics,
            process,
            prefix_lists: self.prefix_lists.into_lists(),
            community_lists: self.community_lists.lists,
            maps,
            base: 0..0,
            text: Vec::new(),
        })
    }
}
