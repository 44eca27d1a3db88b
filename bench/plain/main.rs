//! A plain NetCov: it gives the answers of the product for the statements and commands of the measured networks, without
//! unsafe code, threads or proofs, to tell what those answers need. What else there is isn't served, and said to be so.

mod base_tables;
mod bgp;
mod carriers;
mod decisions;
mod diagram;
mod distances;
mod exchange;
mod facts;
mod fattree;
mod forms;
mod graph;
mod index_table;
mod links;
mod marks;
mod model;
mod network;
mod output;
mod paths;
mod policy;
mod reading;
mod sessions;
mod talk;
mod tests;
mod ways;

use std::io::Read;
use std::process::exit;

use model::{Network, Router};
use network::{assemble, Fault};
use output::Output;
use reading::{read_router, Refusal};
use talk::{number_between, Outcome, Talk};

const MOST_ROUTERS: usize = 256;
const ROUNDS: u32 = 256;
const MOST_ROUNDS: u64 = 10000;
const READ_AT_ONCE: usize = 1 << 16;

const STATUS_CONFIG: i32 = 1;
const STATUS_USAGE: i32 = 2;
const STATUS_UNSTABLE: i32 = 3;
const STATUS_SESSION: i32 = 4;
const STATUS_OUTPUT: i32 = 5;
const STATUS_FILE: i32 = 6;
const STATUS_LIMIT: i32 = 8;
const STATUS_WORDS: i32 = 9;
const STATUS_NOT_SERVED: i32 = 70;

/// What the words say.
struct Wanted {
    files: Vec<String>,
    rounds: u32,
    pods: Option<usize>,
}

fn main() {
    let mut words = Vec::new();
    for word in std::env::args_os().skip(1) {
        words.push(word.into_string().unwrap_or_else(|_| exit(STATUS_WORDS)));
    }
    let Some(wanted) = read_words(words) else {
        end("refused usage\n", STATUS_USAGE);
    };
    match wanted.pods {
        Some(pods) => run_tree(pods, wanted.rounds),
        None => run_files(&wanted.files, wanted.rounds),
    }
}

/// Writes a last answer and ends.
fn end(answer: &str, status: i32) -> ! {
    let mut out = Output::default();
    out.text(answer.as_bytes());
    finish(out, status)
}

fn finish(mut out: Output, status: i32) -> ! {
    out.flush();
    exit(if out.failed { STATUS_OUTPUT } else { status })
}

fn not_served(line: &[u8]) -> ! {
    eprintln!("plain: not served: {}", String::from_utf8_lossy(line));
    exit(STATUS_NOT_SERVED)
}

fn read_words(words: Vec<String>) -> Option<Wanted> {
    let (mut files, mut rounds, mut pods) = (Vec::new(), None, None);
    let mut words = words.into_iter();
    while let Some(word) = words.next() {
        if word == "--" {
            files.extend(words.by_ref());
            break;
        }
        let (head, value) = match word.split_once('=') {
            Some((head, value)) => (head, Some(value.to_owned())),
            None => (word.as_str(), None),
        };
        let setting = match head {
            "--rounds" => &mut rounds,
            "--fat-tree" => &mut pods,
            _ if word.len() > 1 && word.starts_with('-') => return None,
            _ => {
                files.push(word);
                continue;
            }
        };
        let value = value.or_else(|| words.next())?;
        if setting.replace(value).is_some() {
            return None;
        }
    }
    let rounds = rounds.map_or(Some(ROUNDS), |word| number_between(&word, 1, MOST_ROUNDS))?;
    let is_pods = |pods: &u32| pods % 2 == 0;
    let pods = pods.map(|word: String| number_between(&word, 2, 8).filter(is_pods).map(|pods| pods as usize).ok_or(())).transpose().ok()?;
    (files.is_empty() == pods.is_some()).then_some(Wanted { files, rounds, pods })
}

fn run_files(files: &[String], rounds: u32) -> ! {
    if files.len() > MOST_ROUTERS {
        end("refused limit routers\n", STATUS_LIMIT);
    }
    let mut routers: Vec<Router> = Vec::with_capacity(files.len());
    for file in files {
        let text = std::fs::read(file).unwrap_or_else(|_| exit(STATUS_FILE));
        let first_element = routers.last().map_or(0, |router| router.elements.end);
        routers.push(router_of(file, text, first_element));
    }
    let mut talk = Talk::new(network_of(routers, rounds), true);
    let mut out = Output::default();
    let status = converse(&mut talk, &mut std::io::stdin().lock(), &mut out);
    std::mem::forget(talk);
    finish(out, status)
}

fn run_tree(pods: usize, rounds: u32) -> ! {
    let (files, session) = fattree::fat_tree(pods);
    let mut routers: Vec<Router> = Vec::with_capacity(files.len());
    for (file, text) in files {
        let first_element = routers.last().map_or(0, |router| router.elements.end);
        routers.push(router_of(&file, text, first_element));
    }
    let lines: usize = routers.iter().map(|router| router.owners.len()).sum();
    let heading = format!("fat-tree {pods} routers {} lines {lines}\n", routers.len());
    let mut talk = Talk::new(network_of(routers, rounds), false);
    let mut out = Output::default();
    out.text(heading.as_bytes());
    let status = converse(&mut talk, &mut session.as_slice(), &mut out);
    std::mem::forget(talk);
    finish(out, status)
}

fn router_of(file: &str, text: Vec<u8>, first_element: u32) -> Router {
    match read_router(file, text, first_element) {
        Ok(router) => router,
        Err(Refusal::Bytes) => end("refused limit bytes\n", STATUS_LIMIT),
        Err(Refusal::Lines) => end("refused limit lines\n", STATUS_LIMIT),
        Err(Refusal::NoName) => end(&format!("refused config {file} 0 no-name\n"), STATUS_CONFIG),
        Err(Refusal::NotServed(line)) => not_served(format!("{file}:{}", line + 1).as_bytes()),
    }
}

fn network_of(routers: Vec<Router>, rounds: u32) -> Network {
    let files: Vec<String> = routers.iter().map(|router| router.file.clone()).collect();
    match assemble(routers, rounds) {
        Ok(network) => network,
        Err(Fault::Config(router, line, cause)) => end(&format!("refused config {} {line} {cause}\n", files[router as usize]), STATUS_CONFIG),
        Err(Fault::Limit(limit)) => end(&format!("refused limit {limit}\n"), STATUS_LIMIT),
        Err(Fault::Unstable) => end(&format!("refused unstable {rounds}\n"), STATUS_UNSTABLE),
    }
}

/// Answers a session, line by line as it comes; gives the status.
fn converse(talk: &mut Talk, session: &mut dyn Read, out: &mut Output) -> i32 {
    let mut given = vec![0; READ_AT_ONCE];
    let mut kept = 0;
    loop {
        if kept == given.len() {
            given.resize(2 * kept, 0);
        }
        let count = match session.read(&mut given[kept..]) {
            Ok(count) => count,
            Err(_) => return STATUS_SESSION,
        };
        let behind = kept + count;
        let whole = if count == 0 { behind } else { given[..behind].iter().rposition(|&byte| byte == b'\n').map_or(0, |last| last + 1) };
        let lines = given[..whole].split_inclusive(|&byte| byte == b'\n');
        for line in lines.map(|line| line.strip_suffix(b"\n").unwrap_or(line)) {
            match talk.answer(line, out) {
                Outcome::GoOn => {}
                Outcome::Quit => return 0,
                Outcome::NotServed => {
                    out.flush();
                    not_served(line);
                }
            }
        }
        if count == 0 {
            return 0;
        }
        out.flush();
        given.copy_within(whole..behind, 0);
        kept = behind - whole;
    }
}
