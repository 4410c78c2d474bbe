//! The yardstick of `mqjudge`: it shows a log as `mqjudge show` does, and a packet as `mqjudge packet` does; or it counts a
//! log's events, which takes the reading that `mqjudge check` does too, without its judging.
//! Plain Rust that shares nothing with it: beside speed, an independent check of what it shows.
//!
//! usage: baseline [FILE]
//!        baseline count FILE
//!        baseline packet HEX
//!        baseline many
//!
//! `many` answers requests on standard input, one after another, which saves starting it for each: `l` for a log or `p` for a
//! packet, how long it is as four bytes, the most significant one first, and its bytes. The answer is the status as a byte, how
//! long the text is, and the text.
//!
//! Build: rustc -O --edition 2021 -o baseline bench/baseline.rs
//! Test:  rustc --test -O --edition 2021 -o baseline-tests bench/baseline.rs && ./baseline-tests

#[path = "baseline/cursor.rs"]
mod cursor;
#[path = "baseline/log.rs"]
mod log;
#[path = "baseline/packet.rs"]
mod packet;
#[path = "baseline/properties.rs"]
mod properties;
#[cfg(test)]
#[path = "baseline/tests.rs"]
mod tests;
#[path = "baseline/text.rs"]
mod text;

use log::{Event, Item, Log, Place, Sink, Stop};
use packet::{Fault, Front};
use std::env;
use std::fs::File;
use std::io::{self, ErrorKind, Read, Write};
use std::process::ExitCode;

const PIECE: usize = 65_536;
const MISUSE: u8 = 3;
const FAILED: u8 = 4;

/// Writes a line for each event, many at a time.
struct Show<W> {
    output: W,
    text: Vec<u8>,
}

impl<W: Write> Show<W> {
    fn flush(&mut self) -> io::Result<()> {
        self.output.write_all(&self.text)?;
        self.text.clear();
        self.output.flush()
    }
}

impl<W: Write> Sink for Show<W> {
    fn event(&mut self, place: &Place, event: &Event) -> io::Result<()> {
        text::put_event(&mut self.text, place, event);
        if self.text.len() >= PIECE {
            self.flush()
        } else {
            Ok(())
        }
    }
}

/// Counts the events.
struct Count {
    events: u64,
}

impl Sink for Count {
    fn event(&mut self, _place: &Place, _event: &Event) -> io::Result<()> {
        self.events += 1;
        Ok(())
    }
}

fn main() -> ExitCode {
    let words: Vec<String> = env::args().skip(1).collect();
    let words: Vec<&str> = words.iter().map(String::as_str).collect();
    let status = match words[..] {
        ["packet", hex] => show_packet(hex),
        ["many"] => match answer_many(io::stdin().lock(), io::stdout().lock()) {
            Ok(()) => 0,
            Err(_) => fail("read or write failed"),
        },
        [] => show(io::stdin().lock(), io::stdout().lock()),
        ["count", file] => match File::open(file) {
            Ok(file) => count(file),
            Err(_) => fail("read failed"),
        },
        [file] => match File::open(file) {
            Ok(file) => show(file, io::stdout().lock()),
            Err(_) => fail("read failed"),
        },
        _ => {
            eprintln!(
                "usage: baseline [FILE]\n       baseline count FILE\n       baseline packet HEX\n       baseline many"
            );
            MISUSE
        }
    };
    ExitCode::from(status)
}

fn fail(why: &str) -> u8 {
    eprintln!("baseline: {why}");
    FAILED
}

/// Reads a log to its end, or until it is refused or a write fails.
fn read_log<S: Sink>(mut input: impl Read, log: &mut Log<S>) -> io::Result<Result<(), Stop>> {
    let mut piece = vec![0; PIECE];
    loop {
        let result = match input.read(&mut piece) {
            Ok(0) => return Ok(log.finish()),
            Ok(count) => log.feed(&piece[..count]),
            Err(error) if error.kind() == ErrorKind::Interrupted => continue,
            Err(error) => return Err(error),
        };
        if result.is_err() {
            return Ok(result);
        }
    }
}

fn show(input: impl Read, output: impl Write) -> u8 {
    let mut log = Log::new(Show {
        output,
        text: Vec::new(),
    });
    let Ok(stop) = read_log(input, &mut log) else {
        return fail("read failed");
    };
    let mut show = log.into_sink();
    let status = match stop {
        Ok(()) => 0,
        Err(Stop::Refused(refusal)) => {
            show.text
                .extend_from_slice(format!("{refusal}\n").as_bytes());
            2
        }
        Err(Stop::Write) => return fail("write failed"),
    };
    match show.flush() {
        Ok(()) => status,
        Err(_) => fail("write failed"),
    }
}

fn count(input: impl Read) -> u8 {
    let mut log = Log::new(Count { events: 0 });
    let (text, status) = match read_log(input, &mut log) {
        Ok(Ok(())) => (format!("{} events", log.into_sink().events), 0),
        Ok(Err(Stop::Refused(refusal))) => (refusal.to_string(), 2),
        Ok(Err(Stop::Write)) => return fail("write failed"),
        Err(_) => return fail("read failed"),
    };
    match writeln!(io::stdout(), "{text}") {
        Ok(()) => status,
        Err(_) => fail("write failed"),
    }
}

fn show_packet(hex: &str) -> u8 {
    let Some(bytes) = from_hex(hex) else {
        eprintln!("baseline: not hex");
        return MISUSE;
    };
    let (text, status) = describe(&bytes);
    match writeln!(io::stdout(), "{text}") {
        Ok(()) => status,
        Err(_) => fail("write failed"),
    }
}

/// Answers requests until there is no further one.
fn answer_many(mut input: impl Read, mut output: impl Write) -> io::Result<()> {
    loop {
        let mut head = [0; 5];
        match input.read_exact(&mut head) {
            Err(error) if error.kind() == ErrorKind::UnexpectedEof => return Ok(()),
            result => result?,
        }
        let [task, length @ ..] = head;
        let mut bytes = vec![0; u32::from_be_bytes(length) as usize];
        input.read_exact(&mut bytes)?;
        let (text, status) = answer(task, &bytes);
        let mut said = vec![status];
        said.extend((text.len() as u32).to_be_bytes());
        said.extend(text);
        output.write_all(&said)?;
        output.flush()?;
    }
}

// What it would print of a packet or of a log, and the status.
fn answer(task: u8, bytes: &[u8]) -> (Vec<u8>, u8) {
    if task == b'p' {
        let (text, status) = describe(bytes);
        return (format!("{text}\n").into_bytes(), status);
    }
    let mut text = Vec::new();
    let status = show(bytes, &mut text);
    (text, status)
}

fn from_hex(hex: &str) -> Option<Vec<u8>> {
    let digits: Option<Vec<u32>> = hex.chars().map(|digit| digit.to_digit(16)).collect();
    let digits = digits.filter(|digits| digits.len() % 2 == 0)?;
    Some(
        digits
            .chunks(2)
            .map(|pair| (pair[0] << 4 | pair[1]) as u8)
            .collect(),
    )
}

// What is said of some bytes taken as one packet, and the status.
fn describe(bytes: &[u8]) -> (String, u8) {
    let (body, size) = match packet::front(bytes) {
        Front::Need => return ("need more bytes".into(), 1),
        Front::Lost { .. } => return (item_text(&Item::Lost), 1),
        Front::Header { body, size } => (body, size),
    };
    if bytes.len() < size {
        return ("need more bytes".into(), 1);
    }
    if bytes.len() > size {
        return (format!("left over {} bytes", bytes.len() - size), 1);
    }
    match packet::decode(bytes, body) {
        Ok(packet) => (item_text(&Item::Packet(packet)), 0),
        Err(Fault::Broken { rule, at }) => (item_text(&Item::Bad { rule, at }), 1),
        Err(Fault::OtherVersion(version)) => (format!("other version {version}"), 1),
    }
}

fn item_text(item: &Item) -> String {
    let mut text = Vec::new();
    text::put_item(&mut text, "", item);
    String::from_utf8_lossy(&text).into_owned()
}
