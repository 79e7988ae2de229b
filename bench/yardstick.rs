//! The yardstick of `bench/run`: what `guardian run`, `capture`, `ask` and `list` do, as plain Rust over the standard
//! library. It is written from docs/FORMATS.md and docs/DEFINITIONS.md, shares no code with the program, and proves
//! nothing.
//!
//!     yardstick run < SCENARIO
//!     yardstick capture < SCENARIO
//!     yardstick ask [ordered | hash] < SCENARIO
//!     yardstick list [ordered]
//!
//! `run` does the whole work: it opens or makes `guardian.book`, cuts what arrived at each host into uploads, and has a
//! worker a host, which sends each as a frame over the host's link; what comes is read back, applied under one lock to
//! the book and to its file, and acknowledged. Outputs, refusals and statuses are those of the program, but that memory
//! which runs out ends it as any Rust program. Its parts: `scenario` reads the text, `network` runs the steps, `sent`
//! sends, `kept` has the book, `lines` the output.
//!
//! `ask` and `list` read the book into the map that `run` has; `ordered` and `hash` take Rust's own maps instead.

mod kept;
mod lines;
mod network;
mod scenario;
mod sent;

use kept::{Book, Hashed, Journal, Key, Map, Ordered, Sorted};
use lines::Lines;
use network::Arrived;
use scenario::{Ask, Scenario, Why};
use std::fs::File;
use std::io;
use std::os::fd::AsFd;
use std::process::exit;

const MOST_ROWS: usize = 8;

// ---- shapes --------------------------------------------------------------------------------------------------------

/// Of a sketch: its size, and the seed of its hash, none where the places are those of the ports.
#[derive(Clone, Copy, PartialEq)]
struct Shape {
    rows: usize,
    width: usize,
    seed: Option<u64>,
}

impl Shape {
    /// The index of a key's bucket in each row.
    fn places(&self, key: &[u8; 13]) -> [u16; MOST_ROWS] {
        let source = u64::from(u16::from_be_bytes([key[9], key[10]]));
        let destination = u64::from(u16::from_be_bytes([key[11], key[12]]));
        let mut places = [0; MOST_ROWS];
        for (i, place) in (0u64..).zip(places.iter_mut().take(self.rows)) {
            let hash = match self.seed {
                None => source + i * destination,
                Some(seed) => {
                    let start = seed.wrapping_add((i + 1).wrapping_mul(0x9E37_79B9_7F4A_7C15));
                    let mix = |h: u64, b: &u8| h.wrapping_add(u64::from(*b)).wrapping_mul(0x100_0000_01B3);
                    key.iter().fold(start, mix) >> 32
                }
            };
            *place = (hash % self.width as u64) as u16;
        }
        places
    }

    /// Its words in a line.
    fn words(&self) -> String {
        match self.seed {
            None => format!("{} {} ports", self.rows, self.width),
            Some(seed) => format!("{} {} seed {seed}", self.rows, self.width),
        }
    }
}

// ---- faults --------------------------------------------------------------------------------------------------------

/// Why there is no output, docs/FORMATS.md (Fault lines and exit statuses).
enum Fault {
    Scenario { line: usize, why: Why },
    Read,
    Disk,
    NotAJournal,
    WrongShape { kept: Shape, asked: Shape },
    Damaged(u64),
    /// The column that the book keeps, and the one that came.
    Conflict { kept: Vec<u8>, came: Vec<u8> },
    Full { held: usize, more: usize },
}

impl Fault {
    /// Its exit status.
    fn status(&self) -> i32 {
        match self {
            Fault::Scenario { .. } => 2,
            Fault::Read => 3,
            Fault::Disk => 5,
            Fault::NotAJournal => 6,
            Fault::WrongShape { .. } => 7,
            Fault::Damaged(_) => 8,
            Fault::Conflict { .. } => 9,
            Fault::Full { .. } => 10,
        }
    }

    /// Its line, without the front that all have.
    fn text(&self) -> String {
        match self {
            Fault::Scenario { line, why } => format!("scenario line {line}: {why}"),
            Fault::Read => "read fault".to_string(),
            Fault::Disk => "disk fault".to_string(),
            Fault::NotAJournal => "not a journal".to_string(),
            Fault::WrongShape { kept, asked } => format!("shape {} in the book, {} asked", kept.words(), asked.words()),
            Fault::Damaged(at) => format!("damaged at {at}"),
            Fault::Conflict { kept, came } => conflict(kept, came),
            Fault::Full { held, more } => format!("full with {held} and {more} more"),
        }
    }
}

/// The words of a conflict of two columns.
fn conflict(kept: &[u8], came: &[u8]) -> String {
    let (switch, epoch, index) = parts(kept::key_at(kept));
    let mut text = format!("conflict at switch {switch} epoch {epoch} column {index}");
    for (word, column) in [(" kept", kept), (" came", came)] {
        text += word;
        for (sum, most) in column[8..].chunks_exact(6).map(kept::counters) {
            text += &format!(" {sum} {most}");
        }
    }
    text
}

/// Switch, epoch and index of a key.
fn parts(key: Key) -> (u32, u32, u32) {
    ((key >> 48) as u32, (key >> 16) as u32, key as u32 & 0xFFFF)
}

// ---- output --------------------------------------------------------------------------------------------------------

/// How many rows of an ask are known, and the least of their sums and of their maxima.
fn answer(scenario: &Scenario, ask: &Ask, book: &impl Map) -> (u32, u32, u32) {
    let places = scenario.flows[ask.flow].places.iter().take(scenario.shape.rows);
    let (mut known, mut sum, mut most) = (0, u32::MAX, u32::MAX);
    for (row, place) in places.enumerate() {
        if let Some(cells) = book.cells(kept::key_of(ask.switch, ask.epoch, *place)) {
            let (own_sum, own_most) = kept::counters(&cells[6 * row..]);
            (known, sum, most) = (known + 1, sum.min(own_sum), most.min(own_most));
        }
    }
    (known, sum, most)
}

/// Appends a word and the value of a counter, of which the last one is that.
fn put_value(lines: &mut Lines, word: &str, known: u32, value: u32, last: u32) {
    match value {
        _ if known == 0 => lines.put_all(&[word, "unknown"]),
        _ if value == last => lines.put_all(&[word, "saturated"]),
        _ => lines.pair(word, value),
    }
}

/// The report on a book, or on none.
fn report(scenario: &Scenario, book: Option<&impl Map>, lines: &mut Lines) {
    for ask in &scenario.asks {
        let (known, sum, most) = book.map_or((0, 0, 0), |book| answer(scenario, ask, book));
        lines.pair("flow ", scenario.flows[ask.flow].name.into());
        lines.pair(" switch ", ask.switch.into());
        lines.pair(" epoch ", ask.epoch);
        lines.pair(" rows ", known);
        lines.pair(" of ", scenario.shape.rows as u32);
        put_value(lines, " bytes ", known, sum, u32::MAX);
        put_value(lines, " delay ", known, most, u16::MAX.into());
        lines.end();
    }
    put_size(book, lines);
}

/// The last line of a report and of a list.
fn put_size(book: Option<&impl Map>, lines: &mut Lines) {
    lines.pair("columns ", book.map_or(0, Map::size) as u32);
    lines.end();
}

/// The sketchlets that arrived.
fn put_arrived(scenario: &Scenario, arrived: &Arrived, lines: &mut Lines) {
    for (host, inbox) in scenario.hosts.iter().zip(&arrived.inboxes) {
        for column in inbox {
            lines.pair("host ", host.name.into());
            lines.put(" ");
            lines.hex(arrived.sketchlet(*column));
            lines.end();
        }
    }
    lines.pair("sketchlets ", arrived.inboxes.iter().map(Vec::len).sum::<usize>() as u32);
    lines.end();
}

// ---- commands ------------------------------------------------------------------------------------------------------

/// The scenario of standard input, and what its steps brought, where they are to be run.
fn scenario(runs: bool) -> Result<(Scenario, Arrived), Fault> {
    let input = io::stdin().as_fd().try_clone_to_owned().map_err(|_| Fault::Read)?;
    let mut scenario = scenario::read(File::from(input), runs)?;
    let arrived = scenario.network.take().map_or_else(Arrived::default, |network| network.arrived());
    Ok((scenario, arrived))
}

/// The report on the book to which all that arrives was sent.
fn run(lines: &mut Lines) -> Result<(), Fault> {
    let (scenario, arrived) = scenario(true)?;
    let sent = sent::send_all(&scenario, &arrived, Journal::open(&scenario.shape)?);
    match sent.fault {
        None => report(&scenario, Some(&sent.journal.book), lines),
        Some(fault) => {
            for (host, number) in sent.acknowledged {
                lines.pair("acked ", host.into());
                lines.pair(" ", number);
                lines.end();
            }
            return Err(fault);
        }
    }
    Ok(())
}

/// The sketchlets that arrive.
fn capture(lines: &mut Lines) -> Result<(), Fault> {
    let (scenario, arrived) = scenario(true)?;
    put_arrived(&scenario, &arrived, lines);
    Ok(())
}

/// The report on the book as it is.
fn ask<M: Map>(lines: &mut Lines) -> Result<(), Fault> {
    let (scenario, _) = scenario(false)?;
    let book = kept::look::<M>(Some(&scenario.shape))?;
    report(&scenario, book.as_ref(), lines);
    Ok(())
}

/// All columns of the book, in the order of their keys, and how many they are.
fn list<M: Sorted>(lines: &mut Lines) -> Result<(), Fault> {
    let book = kept::look::<M>(None)?;
    for (key, cells) in book.iter().flat_map(Sorted::each) {
        let (switch, epoch, index) = parts(key);
        lines.pair("column ", switch);
        lines.pair(" ", epoch);
        lines.pair(" ", index);
        for (sum, most) in cells.chunks_exact(6).map(kept::counters) {
            lines.pair(" ", sum);
            lines.pair(" ", most);
        }
        lines.end();
    }
    put_size(book.as_ref(), lines);
    Ok(())
}

/// Does what the words say, and ends with the status of that.
fn main() {
    let words: Vec<String> = std::env::args().skip(1).collect();
    let words: Vec<&str> = words.iter().map(String::as_str).collect();
    let mut lines = Lines::new();
    let outcome = match words[..] {
        ["run"] => run(&mut lines),
        ["capture"] => capture(&mut lines),
        ["ask"] => ask::<Book>(&mut lines),
        ["ask", "ordered"] => ask::<Ordered>(&mut lines),
        ["ask", "hash"] => ask::<Hashed>(&mut lines),
        ["list"] => list::<Book>(&mut lines),
        ["list", "ordered"] => list::<Ordered>(&mut lines),
        _ => exit(1),
    };
    let status = outcome.err().map_or(0, |fault| {
        lines.put_all(&["guardian: ", &fault.text()]);
        lines.end();
        fault.status()
    });
    exit(if lines.finish() || status != 0 { status } else { 4 })
}
