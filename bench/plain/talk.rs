//! The session: its lines, one after the other, and their answers.

use std::collections::HashMap;

use crate::forms::Sheets;
use crate::model::{mask_of, Network, Prefix};
use crate::output::Output;
use crate::reading::words::{whole_address, whole_number, whole_slashed, Words};
use crate::tests::{Question, Refusal, Tests};

const LONGEST_LINE: usize = 4096;

/// What comes of a line.
pub enum Outcome {
    GoOn,
    Quit,
    /// A command that this program doesn't serve.
    NotServed,
}

pub struct Talk {
    network: Network,
    tests: Tests,
    sheets: Sheets,
    routers: HashMap<Vec<u8>, u32>,
    /// Whether reports have the lines of the routers.
    listed: bool,
}

/// What a command asks.
enum Command<'a> {
    Test(Question),
    Forget(u32),
    Implies(u32, u32),
    Lcov,
    Json,
    Show(u32),
    Quit,
    UnknownRouter(&'a [u8]),
    NotServed,
}

impl Talk {
    pub fn new(network: Network, listed: bool) -> Self {
        let (tests, sheets) = (Tests::new(&network), Sheets::new(&network));
        let routers = (0..).zip(&network.routers).map(|(number, router)| (router.name.clone(), number)).collect();
        Talk { network, tests, sheets, routers, listed }
    }

    /// Answers a line, which is without its line feed.
    pub fn answer(&mut self, line: &[u8], out: &mut Output) -> Outcome {
        let mut words = Words::new(line, 0, line.len());
        if line.strip_suffix(b"\r").unwrap_or(line).len() > LONGEST_LINE {
            out.text(b"refused long\n");
            return Outcome::GoOn;
        }
        if words.clone().next().is_none_or(|first| first[0] == b'#') {
            return Outcome::GoOn;
        }
        match self.command(&mut words) {
            None => out.text(b"refused syntax\n"),
            Some(Command::Test(question)) => self.accept(question, line, out),
            Some(Command::Forget(number)) => self.forget(number, out),
            Some(Command::Implies(first, second)) => self.implies(first, second, out),
            Some(Command::Lcov) => self.sheets.lcov(&self.network, out),
            Some(Command::Json) => self.sheets.json(&self.network, out),
            Some(Command::Show(router)) => self.sheets.show(&self.network, router as usize, out),
            Some(Command::Quit) => return Outcome::Quit,
            Some(Command::NotServed) => return Outcome::NotServed,
            Some(Command::UnknownRouter(name)) => {
                out.text(b"refused router ");
                out.text(name);
                out.text(b"\n");
            }
        }
        Outcome::GoOn
    }

    fn command<'a>(&self, words: &mut Words<'a>) -> Option<Command<'a>> {
        let first = words.next()?;
        let command = match first {
            b"rib" | b"bgp" | b"session" | b"reach" | b"every" => self.test(first, words)?,
            b"forget" => Command::Forget(words.number(0, u32::MAX as u64)?),
            b"implies" => Command::Implies(words.number(0, u32::MAX as u64)?, words.number(0, u32::MAX as u64)?),
            b"lcov" => Command::Lcov,
            b"json" => Command::Json,
            b"quit" => Command::Quit,
            b"show" => {
                let name = words.next()?;
                self.routers.get(name).map_or(Command::UnknownRouter(name), |&router| Command::Show(router))
            }
            b"flow" | b"element" | b"cut" | b"suite" | b"dead" => return Some(Command::NotServed),
            _ => return None,
        };
        if matches!(command, Command::NotServed) {
            return Some(command);
        }
        words.end().map(|()| command)
    }

    /// A test behind its first word. What it asks is read before its router is looked for.
    fn test<'a>(&self, first: &[u8], words: &mut Words<'a>) -> Option<Command<'a>> {
        let name = words.next()?;
        let asked = words.next()?;
        let router = self.routers.get(name).copied();
        let unknown = Command::UnknownRouter(name);
        if matches!(first, b"rib" | b"bgp") {
            let (address, length) = whole_slashed(asked)?;
            let prefix = (address & !mask_of(length) == 0).then_some(Prefix { address, length })?;
            if first == b"bgp" && words.take(b"from") {
                return Some(Command::NotServed);
            }
            let hop = if first == b"rib" && words.take(b"via") { Some(words.address()?) } else { None };
            let question = |router| match hop {
                Some(hop) => Question::RowsVia { router, prefix, hop },
                None if first == b"rib" => Question::Rows { router, prefix },
                None => Question::Routes { router, prefix },
            };
            return Some(router.map_or(unknown, |router| Command::Test(question(router))));
        }
        let address = whole_address(asked)?;
        let question = |router| match first {
            b"session" => Question::Session { router, neighbor: address },
            b"reach" => Question::Reach { router, address },
            _ => Question::Every { router, address },
        };
        Some(router.map_or(unknown, |router| Command::Test(question(router))))
    }

    fn accept(&mut self, question: Question, line: &[u8], out: &mut Output) {
        match self.tests.accept(&self.network, question) {
            Ok(accepted) => {
                out.text(b"test ");
                out.number(accepted.number);
                out.text(b" facts ");
                out.number(accepted.facts);
                out.text(b"\n");
                self.report(out);
            }
            Err(Refusal::Absent) => {
                out.text(b"refused absent");
                for word in Words::new(line, 0, line.len()) {
                    out.text(b" ");
                    out.text(word);
                }
                out.text(b"\n");
            }
            Err(refusal) => refuse(refusal, out),
        }
    }

    /// Writes a report on the marks as they are now.
    fn report(&mut self, out: &mut Output) {
        let Talk { network, tests, sheets, .. } = self;
        tests.take_changes(|element, letter| sheets.mark(network, element, letter));
        sheets.report(self.listed, out);
    }

    fn forget(&mut self, number: u32, out: &mut Output) {
        match self.tests.forget(number) {
            Ok(()) => {
                out.text(b"forgot ");
                out.number(number);
                out.text(b"\n");
                self.report(out);
            }
            Err(refusal) => refuse(refusal, out),
        }
    }

    fn implies(&mut self, first: u32, second: u32, out: &mut Output) {
        let lacking = match self.tests.implies(first, second) {
            Ok(lacking) => lacking,
            Err(refusal) => return refuse(refusal, out),
        };
        out.text(b"implies ");
        out.number(first);
        out.text(b" ");
        out.number(second);
        let Some(elements) = lacking else {
            out.text(b" yes\n");
            return;
        };
        out.text(b" no without");
        for element in elements {
            let router = &self.network.routers[self.network.element_router(element) as usize];
            out.text(b" ");
            out.text(&router.name);
            out.text(b":");
            out.number(router.first_lines[(element - router.elements.start) as usize] + 1);
        }
        out.text(b"\n");
    }
}

fn refuse(refusal: Refusal, out: &mut Output) {
    match refusal {
        Refusal::Test(number) => {
            out.text(b"refused test ");
            out.number(number);
        }
        Refusal::Limit(limit) => {
            out.text(b"refused limit ");
            out.text(limit.as_bytes());
        }
        Refusal::Absent => {}
    }
    out.text(b"\n");
}

/// A number of the words before the files.
pub fn number_between(word: &str, least: u64, most: u64) -> Option<u32> {
    whole_number(word.as_bytes()).filter(|value| (least..=most).contains(value)).map(|value| value as u32)
}
