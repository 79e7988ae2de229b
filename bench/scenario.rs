//! The text of bench/yardstick.rs: a scenario, read in pieces and line by line (docs/FORMATS.md, Scenario text). Each
//! step goes into the network as its line is read, so no list of steps is kept.

use crate::network::{self, Fate, Network, Packet, Pick};
use crate::{Fault, Shape, MOST_ROWS};
use std::io::{BufRead, BufReader, ErrorKind, Read};

const MOST_BYTES: usize = 16_777_216;
const PIECE: usize = 1 << 16;
pub const MOST_HOPS: usize = 16;

/// The text of a why, docs/FORMATS.md (Whys).
pub type Why = &'static str;

const WORD_COUNT: Why = "word count";
const BAD_NUMBER: Why = "bad number";
const BAD_WORD: Why = "bad word";
const BAD_KEY: Why = "bad key";
const REPEATED: Why = "repeated";
const UNKNOWN_NAME: Why = "unknown name";
const TOO_MANY: Why = "too many";

// ---- what a text says ----------------------------------------------------------------------------------------------

pub struct Host {
    pub name: u16,
    /// The letters of its link, none where it has no such line.
    pub letters: Vec<u8>,
}

pub struct Flow {
    pub name: u16,
    pub host: usize,
    pub hops: usize,
    /// The positions of its switches.
    pub path: [u8; MOST_HOPS],
    /// The index of its bucket in each row.
    pub places: [u16; MOST_ROWS],
}

pub struct Ask {
    pub flow: usize,
    pub switch: u16,
    pub epoch: u32,
}

pub struct Scenario {
    pub shape: Shape,
    pub hosts: Vec<Host>,
    pub flows: Vec<Flow>,
    pub asks: Vec<Ask>,
    /// What all steps came to, where they were to be run.
    pub network: Option<Box<dyn Network>>,
}

// ---- words ---------------------------------------------------------------------------------------------------------

/// The words of a line that are left, `None` after the last one.
struct Words<'a>(Option<&'a [u8]>);

impl<'a> Words<'a> {
    /// The next word.
    fn next(&mut self) -> Result<&'a [u8], Why> {
        let line = self.0.ok_or(WORD_COUNT)?;
        let end = line.iter().position(|b| *b == b' ');
        self.0 = end.map(|end| &line[end + 1..]);
        Ok(&line[..end.unwrap_or(line.len())])
    }

    /// The next word, a number of at most ten digits.
    #[inline(always)]
    fn number(&mut self, low: u32, most: u32) -> Result<u32, Why> {
        let line = self.0.ok_or(WORD_COUNT)?;
        let (mut n, mut length) = (0u64, 0);
        for b in line {
            let digit = b.wrapping_sub(b'0');
            if digit > 9 {
                break;
            }
            n = n.wrapping_mul(10).wrapping_add(digit.into());
            length += 1;
        }
        self.0 = match line.get(length) {
            None => None,
            Some(b' ') => Some(&line[length + 1..]),
            Some(_) => return Err(BAD_NUMBER),
        };
        let is_number = (1..=10).contains(&length) && (length == 1 || line[0] != b'0');
        let fits = is_number && n >= low.into() && n <= most.into();
        fits.then_some(n as u32).ok_or(BAD_NUMBER)
    }

    /// The next word, a number of any size.
    fn seed(&mut self) -> Result<u64, Why> {
        number(self.next()?, u64::MAX).ok_or(BAD_NUMBER)
    }

    /// The next word, a name, declared or not.
    fn name(&mut self) -> Result<u16, Why> {
        self.number(0, 65535).map(|n| n as u16)
    }

    /// The next word, which is to be this one.
    fn word(&mut self, wanted: &[u8]) -> Result<(), Why> {
        (self.next()? == wanted).then_some(()).ok_or(BAD_WORD)
    }

    /// Looks that nothing is left.
    fn end(&self) -> Result<(), Why> {
        self.0.is_none().then_some(()).ok_or(WORD_COUNT)
    }

    /// The next word, four numbers with dots between them.
    fn address(&mut self) -> Result<[u8; 4], Why> {
        let mut parts = self.next()?.split(|b| *b == b'.');
        let mut address = [0; 4];
        for byte in &mut address {
            *byte = parts.next().and_then(|part| number(part, 255)).ok_or(BAD_KEY)? as u8;
        }
        parts.next().is_none().then_some(address).ok_or(BAD_KEY)
    }

    /// The next five words, a key.
    fn key(&mut self) -> Result<[u8; 13], Why> {
        let mut key = [0; 13];
        key[..4].copy_from_slice(&self.address()?);
        key[4..8].copy_from_slice(&self.address()?);
        key[8] = number(self.next()?, 255).ok_or(BAD_KEY)? as u8;
        for at in [9, 11] {
            let port = number(self.next()?, 65535).ok_or(BAD_KEY)? as u16;
            key[at..at + 2].copy_from_slice(&port.to_be_bytes());
        }
        Ok(key)
    }
}

/// The number that a word writes, if it does and is at most that.
fn number(word: &[u8], most: u64) -> Option<u64> {
    if word.is_empty() || (word[0] == b'0' && word.len() > 1) {
        return None;
    }
    let number = word.iter().try_fold(0u64, |n, b| {
        let digit = b.is_ascii_digit().then_some(u64::from(*b) - 48)?;
        n.checked_mul(10)?.checked_add(digit)
    });
    number.filter(|n| *n <= most)
}

// ---- lines ---------------------------------------------------------------------------------------------------------

/// Things of one kind: one more than the position of each name, 0 where it isn't declared.
struct Names(Vec<u16>);

impl Names {
    /// None is declared.
    fn new() -> Self {
        Names(vec![0; 65536])
    }

    /// The next word, a name that is declared: its position.
    #[inline(always)]
    fn find(&self, words: &mut Words) -> Result<usize, Why> {
        match self.0[usize::from(words.name()?)] {
            0 => Err(UNKNOWN_NAME),
            next => Ok(usize::from(next) - 1),
        }
    }

    /// The next word, a name that is new.
    fn new_name(&self, words: &mut Words) -> Result<u16, Why> {
        let name = words.name()?;
        (self.0[usize::from(name)] == 0).then_some(name).ok_or(REPEATED)
    }

    /// Declares a name at a position, of so many at most.
    fn declare(&mut self, name: u16, position: usize, most: usize) -> Result<(), Why> {
        self.0[usize::from(name)] = position as u16 + 1;
        (position < most).then_some(()).ok_or(TOO_MANY)
    }
}

/// Which line comes next.
#[derive(Clone, Copy, PartialEq, PartialOrd)]
enum Section {
    Version,
    Shape,
    Pick,
    Declarations,
    Steps,
}

/// What the lines so far have said.
struct Draft {
    section: Section,
    scenario: Scenario,
    pick: Pick,
    switches: Vec<u16>,
    host_at: Names,
    switch_at: Names,
    flow_at: Names,
    packets: u32,
    ends: Vec<u32>,
    /// Whether the steps are to be run.
    runs: bool,
}

impl Draft {
    /// What no line has said.
    fn new(runs: bool) -> Self {
        let shape = Shape { rows: 1, width: 1, seed: None };
        let (hosts, flows, asks) = (Vec::new(), Vec::new(), Vec::new());
        Draft {
            section: Section::Version,
            scenario: Scenario { shape, hosts, flows, asks, network: None },
            pick: Pick::Turns,
            switches: Vec::new(),
            host_at: Names::new(),
            switch_at: Names::new(),
            flow_at: Names::new(),
            packets: 0,
            ends: Vec::new(),
            runs,
        }
    }

    /// Takes one more line; says whether it is `done`.
    #[inline]
    fn line(&mut self, line: &[u8]) -> Result<bool, Why> {
        match line.strip_prefix(b"packet ") {
            Some(rest) if self.section == Section::Steps => self.packet(Words(Some(rest))).map(|()| false),
            _ if line.is_empty() || line[0] == b'#' => Ok(false),
            _ if self.section == Section::Version => self.version(line),
            _ => self.other(line),
        }
    }

    /// Takes the first line.
    fn version(&mut self, line: &[u8]) -> Result<bool, Why> {
        self.section = Section::Shape;
        (line == b"guardian 1").then_some(false).ok_or("not guardian 1")
    }

    /// Takes a line by its first word.
    fn other(&mut self, line: &[u8]) -> Result<bool, Why> {
        let mut words = Words(Some(line));
        let first = words.next()?;
        match first {
            b"shape" => self.shape(self.only(Section::Shape, words)?)?,
            b"pick" => self.pick(self.only(Section::Pick, words)?)?,
            b"host" => self.host(self.only(Section::Declarations, words)?)?,
            b"switch" => self.switch(self.only(Section::Declarations, words)?)?,
            b"flow" => self.flow(self.only(Section::Declarations, words)?)?,
            b"link" => self.link(self.only(Section::Declarations, words)?)?,
            b"packet" | b"end" | b"release" | b"ask" | b"done" => return self.step(first, words),
            b"guardian" => return Err("out of place"),
            _ => return Err("unknown word"),
        }
        Ok(false)
    }

    /// The words, if that is the section.
    fn only<'a>(&self, section: Section, words: Words<'a>) -> Result<Words<'a>, Why> {
        (self.section == section).then_some(words).ok_or("out of place")
    }

    /// Takes what follows `shape`; and below, what follows the word that names the function.
    fn shape(&mut self, mut words: Words) -> Result<(), Why> {
        let rows = words.number(1, MOST_ROWS as u32)? as usize;
        let width = words.number(1, 4096)? as usize;
        let seed = match words.next()? {
            b"ports" => None,
            b"seed" => Some(words.seed()?),
            _ => return Err(BAD_WORD),
        };
        self.scenario.shape = Shape { rows, width, seed };
        self.section = Section::Pick;
        words.end()
    }

    /// How columns are chosen.
    fn pick(&mut self, mut words: Words) -> Result<(), Why> {
        self.pick = match words.next()? {
            b"turns" => Pick::Turns,
            b"chance" => Pick::Chance(words.seed()?),
            _ => return Err(BAD_WORD),
        };
        self.section = Section::Declarations;
        words.end()
    }

    /// A host, with no link yet.
    fn host(&mut self, mut words: Words) -> Result<(), Why> {
        let name = self.host_at.new_name(&mut words)?;
        words.end()?;
        self.host_at.declare(name, self.scenario.hosts.len(), 64)?;
        self.scenario.hosts.push(Host { name, letters: Vec::new() });
        Ok(())
    }

    /// A switch that has ended no epoch.
    fn switch(&mut self, mut words: Words) -> Result<(), Why> {
        let name = self.switch_at.new_name(&mut words)?;
        words.end()?;
        self.switch_at.declare(name, self.switches.len(), 64)?;
        self.switches.push(name);
        self.ends.push(0);
        Ok(())
    }

    /// A flow; its places are worked out here, once.
    fn flow(&mut self, mut words: Words) -> Result<(), Why> {
        let name = self.flow_at.new_name(&mut words)?;
        let places = self.scenario.shape.places(&words.key()?);
        words.word(b"host")?;
        let host = self.host_at.find(&mut words)?;
        words.word(b"path")?;
        let (path, hops) = self.path(&mut words)?;
        self.flow_at.declare(name, self.scenario.flows.len(), 4096)?;
        self.scenario.flows.push(Flow { name, host, hops, path, places });
        Ok(())
    }

    /// All that is left: 1 to 16 names of switches, none twice.
    fn path(&self, words: &mut Words) -> Result<([u8; MOST_HOPS], usize), Why> {
        let (mut path, mut hops) = ([0; MOST_HOPS], 0);
        while hops == 0 || words.0.is_some() {
            if hops == MOST_HOPS {
                return Err("bad path");
            }
            let switch = self.switch_at.find(words)? as u8;
            if path[..hops].contains(&switch) {
                return Err(REPEATED);
            }
            path[hops] = switch;
            hops += 1;
        }
        Ok((path, hops))
    }

    /// The letters of a host's link.
    fn link(&mut self, mut words: Words) -> Result<(), Why> {
        let host = self.host_at.find(&mut words)?;
        let host = &mut self.scenario.hosts[host];
        if !host.letters.is_empty() {
            return Err(REPEATED);
        }
        let letters = words.next()?;
        if !(1..=4096).contains(&letters.len()) || letters.iter().any(|b| !b"dxarh".contains(b)) {
            return Err("bad letters");
        }
        host.letters = letters.to_vec();
        words.end()
    }

    /// Takes a step or `done`, and says which; before the first of them the network is made.
    fn step(&mut self, first: &[u8], words: Words) -> Result<bool, Why> {
        if self.section < Section::Declarations {
            return Err("out of place");
        }
        if self.section == Section::Declarations && self.runs {
            let Scenario { shape, hosts, .. } = &self.scenario;
            self.scenario.network = Some(network::made(shape, self.pick, &self.switches, hosts.len()));
        }
        self.section = Section::Steps;
        match first {
            b"packet" => self.packet(words)?,
            b"end" => self.end(words)?,
            b"ask" => self.ask(words)?,
            _ => words.end()?,
        }
        if matches!(first, b"release" | b"done") {
            self.run(|network| network.release());
        }
        Ok(first == b"done")
    }

    /// Lets the network take a step, if there is one.
    fn run(&mut self, step: impl FnOnce(&mut dyn Network)) {
        if let Some(network) = &mut self.scenario.network {
            step(&mut **network);
        }
    }

    /// Takes what follows `packet`, and sends the packets.
    fn packet(&mut self, mut words: Words) -> Result<(), Why> {
        let flow = &self.scenario.flows[self.flow_at.find(&mut words)?];
        let size = words.number(0, 65535)?;
        let mut delays = [0; MOST_HOPS];
        for delay in &mut delays[..flow.hops] {
            *delay = words.number(0, u32::MAX)?;
        }
        let (burst, fate, reached) = match words.0 {
            None => (1, Fate::Straight, flow.hops),
            Some(_) => fated(words, flow.hops)?,
        };
        self.packets += burst;
        if self.packets > 1_000_000 {
            return Err(TOO_MANY);
        }
        if let Some(network) = &mut self.scenario.network {
            network.send(flow, &Packet { size, delays, burst, fate, reached });
        }
        Ok(())
    }

    /// Takes what follows `end`, one switch or all of them.
    fn end(&mut self, mut words: Words) -> Result<(), Why> {
        if words.0.is_some_and(|left| left == b"all" || left.starts_with(b"all ")) {
            words.next()?;
            words.end()?;
            self.ends.iter_mut().for_each(|n| *n += 1);
            self.run(|network| network.end_all());
        } else {
            let switch = self.switch_at.find(&mut words)?;
            words.end()?;
            self.ends[switch] += 1;
            self.run(|network| network.end(switch));
        }
        self.ends.iter().all(|n| *n <= 65535).then_some(()).ok_or(TOO_MANY)
    }

    /// Takes what follows `ask`.
    fn ask(&mut self, mut words: Words) -> Result<(), Why> {
        let flow = self.flow_at.find(&mut words)?;
        let switch = self.switches[self.switch_at.find(&mut words)?];
        let epoch = words.number(0, u32::MAX)?;
        words.end()?;
        self.scenario.asks.push(Ask { flow, switch, epoch });
        (self.scenario.asks.len() <= 10_000).then_some(()).ok_or(TOO_MANY)
    }
}

/// What follows the delays of a packet: how many there are, their fate, and how many hops they reach.
fn fated(mut words: Words, hops: usize) -> Result<(u32, Fate, usize), Why> {
    let (mut burst, mut reached, mut word) = (1, hops, words.next()?);
    if word == b"burst" {
        burst = words.number(1, 1_000_000)?;
        if words.0.is_none() {
            return Ok((burst, Fate::Straight, hops));
        }
        word = words.next()?;
    }
    let fate = match word {
        b"lost" => {
            reached = words.number(0, hops as u32)? as usize;
            Fate::Lost
        }
        b"twice" => Fate::Twice,
        b"late" => Fate::Late,
        _ => return Err(BAD_WORD),
    };
    match words.next() {
        Err(_) => Ok((burst, fate, reached)),
        Ok(b"burst") => Err(BAD_WORD),
        Ok(_) => Err(WORD_COUNT),
    }
}

// ---- the text ------------------------------------------------------------------------------------------------------

/// The place of the first 0A. Eight bytes are looked at together: where one of them is 0A, the lowest bit that is left
/// is the high bit of the first such byte.
#[inline]
fn end_of_line(bytes: &[u8]) -> Option<usize> {
    const EACH: u64 = 0x0101_0101_0101_0101;
    let mut at = 0;
    while let Some(eight) = bytes[at..].first_chunk() {
        let differing = u64::from_le_bytes(*eight) ^ (0x0A * EACH);
        let same = differing.wrapping_sub(EACH) & !differing & (0x80 * EACH);
        if same != 0 {
            return Some(at + same.trailing_zeros() as usize / 8);
        }
        at += 8;
    }
    bytes[at..].iter().position(|b| *b == b'\n').map(|more| at + more)
}

/// A text that comes in pieces.
struct Reader {
    draft: Draft,
    /// How many lines have ended, and how many bytes were taken.
    lines: usize,
    bytes: usize,
    /// The front of a line that has not ended.
    pending: Vec<u8>,
}

impl Reader {
    /// Takes a line that has ended; says whether it is `done`.
    #[inline]
    fn line(&mut self, line: &[u8]) -> Result<bool, Fault> {
        self.lines += 1;
        let line = line.strip_suffix(b"\r").unwrap_or(line);
        self.draft.line(line).map_err(|why| Fault::Scenario { line: self.lines, why })
    }

    /// Takes a piece; says whether it has the line `done`.
    fn piece(&mut self, mut piece: &[u8]) -> Result<bool, Fault> {
        self.bytes += piece.len();
        while let Some(end) = end_of_line(piece) {
            let is_done = if self.pending.is_empty() {
                self.line(&piece[..end])?
            } else {
                let mut line = std::mem::take(&mut self.pending);
                line.extend_from_slice(&piece[..end]);
                self.line(&line)?
            };
            if is_done {
                return Ok(true);
            }
            piece = &piece[end + 1..];
        }
        self.pending.extend_from_slice(piece);
        Ok(false)
    }

    /// The input has ended: a line that has no 0A is taken, and is to be `done`.
    fn ended(&mut self) -> Result<(), Fault> {
        let is_done = self.draft.line(&self.pending);
        let why = match is_done {
            Ok(true) => return Ok(()),
            Ok(false) => "no done",
            Err(why) => why,
        };
        Err(Fault::Scenario { line: self.lines + 1, why })
    }
}

/// The scenario of an input, whose steps are run where that is wanted.
pub fn read(input: impl Read, runs: bool) -> Result<Scenario, Fault> {
    let mut input = BufReader::with_capacity(PIECE, input);
    let mut reader = Reader { draft: Draft::new(runs), lines: 0, bytes: 0, pending: Vec::new() };
    loop {
        if reader.bytes == MOST_BYTES {
            return Err(Fault::Scenario { line: reader.lines + 1, why: "too long" });
        }
        let piece = match input.fill_buf() {
            Ok(piece) => &piece[..piece.len().min(MOST_BYTES - reader.bytes)],
            Err(error) if error.kind() == ErrorKind::Interrupted => continue,
            Err(_) => return Err(Fault::Read),
        };
        let length = piece.len();
        if length == 0 {
            reader.ended()?;
            return Ok(reader.draft.scenario);
        }
        if reader.piece(piece)? {
            return Ok(reader.draft.scenario);
        }
        input.consume(length);
    }
}
