//! The uploads of bench/yardstick.rs: what came to each host is cut into uploads, and a worker a host sends them over
//! its link, as frames, to one book (docs/DEFINITIONS.md, Uploads, Deliveries and Runs over a book).

use crate::kept::{key_at, Journal, Upload};
use crate::network::Arrived;
use crate::scenario::{Host, Scenario};
use crate::{Fault, Shape};
use std::sync::{Mutex, PoisonError};
use std::thread;

const MOST_COLUMNS: usize = 16;
const MOST_OUTSTANDING: usize = 8;
/// What a sketchlet has before the bytes of its column, and a frame before its sketchlets.
const FRONT: usize = 6;
const LEAD: usize = 10;

// ---- frames --------------------------------------------------------------------------------------------------------

/// Writes the frame of an upload of these columns.
fn write_frame(frame: &mut Vec<u8>, host: u16, number: u32, arrived: &Arrived, columns: &[u32]) {
    frame.clear();
    frame.extend_from_slice(&[0, 0, 2]);
    frame.extend_from_slice(&host.to_be_bytes());
    frame.extend_from_slice(&number.to_be_bytes());
    frame.push(columns.len() as u8);
    for column in columns {
        frame.extend_from_slice(arrived.sketchlet(*column));
    }
    let length = (frame.len() - 2) as u16;
    frame[..2].copy_from_slice(&length.to_be_bytes());
}

/// Reads an upload back from its frame, and appends its columns; its host and its number. None: it is malformed.
fn read_frame(frame: &[u8], shape: &Shape, columns: &mut Vec<u8>) -> Option<(u16, u32)> {
    let (lead, sketchlets) = frame.split_first_chunk::<LEAD>()?;
    let [high, low, kind, host @ .., count] = lead;
    let length = FRONT + 8 + 6 * shape.rows;
    let whole = usize::from(u16::from_be_bytes([*high, *low])) + 2 == frame.len();
    if !whole || *kind != 2 || !(1..=MOST_COLUMNS).contains(&(*count).into()) {
        return None;
    }
    if sketchlets.len() != usize::from(*count) * length {
        return None;
    }
    read_sketchlets(sketchlets, length, shape, columns)?;
    Some((u16::from_be_bytes([host[0], host[1]]), u32::from_be_bytes([host[2], host[3], host[4], host[5]])))
}

/// Reads sketchlets of that shape, no two of one key.
fn read_sketchlets(sketchlets: &[u8], length: usize, shape: &Shape, columns: &mut Vec<u8>) -> Option<()> {
    let [high, low] = (shape.width as u16).to_be_bytes();
    let front = [b'L', b'G', 1, shape.rows as u8, high, low];
    let mut keys = [0; MOST_COLUMNS];
    for (nth, sketchlet) in sketchlets.chunks_exact(length).enumerate() {
        let column = sketchlet.strip_prefix(&front)?;
        let key = key_at(column);
        if usize::from(key as u16) >= shape.width || keys[..nth].contains(&key) {
            return None;
        }
        keys[nth] = key;
        columns.extend_from_slice(column);
    }
    Some(())
}

// ---- a worker ------------------------------------------------------------------------------------------------------

/// An upload that has come, and whether its reply is heard.
struct Due {
    host: u16,
    number: u32,
    heard: bool,
    /// How many bytes its columns have.
    length: usize,
}

/// The uploads of one host, and what became of them.
struct Sender<'a> {
    host: &'a Host,
    shape: &'a Shape,
    arrived: &'a Arrived,
    inbox: &'a [u32],
    /// Where each upload begins in the inbox, and where the last one ends.
    cuts: Vec<u32>,
    acknowledged: Vec<bool>,
    /// How many letters of the link were used.
    letters: usize,
    /// The frames that the link holds.
    held: Vec<Vec<u8>>,
    /// What is to be applied in the next turn, and the bytes of all its columns.
    due: Vec<Due>,
    columns: Vec<u8>,
    fault: Option<Fault>,
}

/// Where each upload of an inbox begins, and where the last one ends: each is as long as it can be.
fn cut(inbox: &[u32]) -> Vec<u32> {
    let mut cuts = Vec::with_capacity(inbox.len() / MOST_COLUMNS + 2);
    let mut at = 0;
    cuts.push(0);
    while at < inbox.len() {
        let most = &inbox[at..inbox.len().min(at + MOST_COLUMNS)];
        let fits = (1..most.len()).find(|nth| most[..*nth].contains(&most[*nth]));
        at += fits.unwrap_or(most.len());
        cuts.push(at as u32);
    }
    cuts
}

impl<'a> Sender<'a> {
    /// The uploads of a host, of which none was sent.
    fn new(host: &'a Host, shape: &'a Shape, arrived: &'a Arrived, inbox: &'a [u32]) -> Self {
        let cuts = cut(inbox);
        let acknowledged = vec![false; cuts.len() - 1];
        let (held, due, columns) = (Vec::new(), Vec::new(), Vec::new());
        Sender { host, shape, arrived, inbox, cuts, acknowledged, letters: 0, held, due, columns, fault: None }
    }

    /// Sends the uploads round after round, until all are acknowledged or one is refused.
    fn work(&mut self, journal: &Mutex<Journal>) {
        let mut first = Some(0);
        while let Some(number) = first.filter(|_| self.fault.is_none()) {
            self.fault = self.round(number, journal).err();
            first = (number..self.acknowledged.len()).find(|number| !self.acknowledged[*number]);
        }
    }

    /// A round: sends the uploads that are not acknowledged, from this one on, while the window is open.
    fn round(&mut self, first: usize, journal: &Mutex<Journal>) -> Result<(), Fault> {
        let mut frame = Vec::new();
        let mut outstanding = Vec::new();
        let mut next = first;
        while outstanding.len() < MOST_OUTSTANDING && next < self.acknowledged.len() {
            if !self.acknowledged[next] {
                outstanding.push(next);
                self.send(next, &mut frame);
            }
            next += 1;
            if outstanding.len() == MOST_OUTSTANDING {
                self.turn(journal)?;
                outstanding.retain(|number| !self.acknowledged[*number]);
            }
        }
        self.let_go();
        self.turn(journal)
    }

    /// Writes the frame of an upload, and does with it what the next letter says.
    fn send(&mut self, number: usize, frame: &mut Vec<u8>) {
        let columns = &self.inbox[self.cuts[number] as usize..self.cuts[number + 1] as usize];
        write_frame(frame, self.host.name, number as u32, self.arrived, columns);
        let letter = self.host.letters.get(self.letters).unwrap_or(&b'd');
        self.letters += 1;
        match letter {
            b'x' => return,
            b'h' => return self.held.push(frame.clone()),
            b'r' => {
                self.deliver(frame, true);
                self.deliver(frame, true);
            }
            letter => self.deliver(frame, *letter == b'd'),
        }
        self.let_go();
    }

    /// All frames that the link holds come, in the order in which they were sent.
    fn let_go(&mut self) {
        for frame in std::mem::take(&mut self.held) {
            self.deliver(&frame, true);
        }
    }

    /// A frame comes: it is read, and is due in the next turn.
    fn deliver(&mut self, frame: &[u8], heard: bool) {
        let before = self.columns.len();
        let (host, number) = read_frame(frame, self.shape, &mut self.columns).expect("a frame of this program");
        self.due.push(Due { host, number, heard, length: self.columns.len() - before });
    }

    /// A turn at the book: applies what is due, up to the first one that is refused.
    fn turn(&mut self, journal: &Mutex<Journal>) -> Result<(), Fault> {
        let mut columns = &self.columns[..];
        if !self.due.is_empty() {
            let mut journal = journal.lock().unwrap_or_else(PoisonError::into_inner);
            for Due { host, number, heard, length } in self.due.drain(..) {
                let (own, rest) = columns.split_at(length);
                journal.apply(&Upload { host, number, columns: own })?;
                self.acknowledged[number as usize] |= heard;
                columns = rest;
            }
        }
        self.columns.clear();
        Ok(())
    }
}

// ---- all workers ---------------------------------------------------------------------------------------------------

/// What a run leaves: the journal, the fault with which it ends, and the acknowledged uploads, by host and number.
pub struct Sent {
    pub journal: Journal,
    pub fault: Option<Fault>,
    pub acknowledged: Vec<(u16, u32)>,
}

/// Sends all that arrived, each host by a worker of its own; the last one's is this thread.
pub fn send_all(scenario: &Scenario, arrived: &Arrived, journal: Journal) -> Sent {
    let hosts = scenario.hosts.iter().zip(&arrived.inboxes);
    let mut senders: Vec<Sender> =
        hosts.map(|(host, inbox)| Sender::new(host, &scenario.shape, arrived, inbox)).collect();
    let journal = Mutex::new(journal);
    if let Some((last, others)) = senders.split_last_mut() {
        thread::scope(|scope| {
            for sender in others {
                scope.spawn(|| sender.work(&journal));
            }
            last.work(&journal);
        });
    }
    let journal = journal.into_inner().unwrap_or_else(PoisonError::into_inner);
    concluded(senders, journal)
}

/// What comes of the work: a broken disk first, else the first fault in the order of the hosts.
fn concluded(mut senders: Vec<Sender>, journal: Journal) -> Sent {
    let first = senders.iter_mut().find_map(|sender| sender.fault.take());
    let fault = if journal.broken { Some(Fault::Disk) } else { first };
    let mut acknowledged = Vec::new();
    for sender in senders.iter().filter(|_| fault.is_some()) {
        let numbers = (0..).zip(&sender.acknowledged).filter(|(_, acknowledged)| **acknowledged);
        acknowledged.extend(numbers.map(|(number, _)| (sender.host.name, number)));
    }
    Sent { journal, fault, acknowledged }
}
