//! The network of bench/yardstick.rs: packets are counted at switches and take columns of frozen sketches along
//! (docs/DEFINITIONS.md, Raise to Brought columns).
//!
//! What arrives is the number of a column in a list where each column that arrives is spelled once.

use crate::scenario::{Flow, MOST_HOPS};
use crate::Shape;

/// How many blocks of random words are made at once.
const LANES: usize = 4;

#[derive(Clone, Copy)]
pub enum Pick {
    Turns,
    Chance(u64),
}

#[derive(Clone, Copy, PartialEq)]
pub enum Fate {
    Straight,
    Lost,
    Twice,
    Late,
}

/// So many packets of one flow, one after the other.
pub struct Packet {
    pub size: u32,
    /// A delay for each hop of the flow.
    pub delays: [u32; MOST_HOPS],
    pub burst: u32,
    pub fate: Fate,
    /// How many hops they reach.
    pub reached: usize,
}

/// What came to the hosts.
#[derive(Default)]
pub struct Arrived {
    /// The sketchlets of all columns that came, each once, and the length of one.
    sketchlets: Vec<u8>,
    length: usize,
    /// The numbers of the columns that came to each host, in order.
    pub inboxes: Vec<Vec<u32>>,
}

impl Arrived {
    /// The sketchlet of a number.
    #[inline]
    pub fn sketchlet(&self, number: u32) -> &[u8] {
        &self.sketchlets[number as usize * self.length..][..self.length]
    }
}

/// A network of some shape, which takes the steps of a scenario.
pub trait Network {
    /// Sends packets of a flow.
    fn send(&mut self, flow: &Flow, packet: &Packet);
    /// The switch of that position ends an epoch.
    fn end(&mut self, switch: usize);
    /// All switches end an epoch.
    fn end_all(&mut self);
    /// The late ones arrive, the last one first.
    fn release(&mut self);
    /// What has come to the hosts.
    fn arrived(self: Box<Self>) -> Arrived;
}

/// A network in which nothing has happened.
pub fn made(shape: &Shape, pick: Pick, switches: &[u16], hosts: usize) -> Box<dyn Network> {
    match shape.rows {
        1 => Box::new(Rows::<1>::new(shape, pick, switches, hosts)),
        2 => Box::new(Rows::<2>::new(shape, pick, switches, hosts)),
        3 => Box::new(Rows::<3>::new(shape, pick, switches, hosts)),
        4 => Box::new(Rows::<4>::new(shape, pick, switches, hosts)),
        5 => Box::new(Rows::<5>::new(shape, pick, switches, hosts)),
        6 => Box::new(Rows::<6>::new(shape, pick, switches, hosts)),
        7 => Box::new(Rows::<7>::new(shape, pick, switches, hosts)),
        _ => Box::new(Rows::<8>::new(shape, pick, switches, hosts)),
    }
}

// ---- random words --------------------------------------------------------------------------------------------------

/// The random words of a switch: ChaCha8, stream 0, from word 0.
struct WordStream {
    key: [u32; 8],
    /// The number of the first block that was not made yet.
    block: u64,
    words: [u32; 16 * LANES],
    used: usize,
}

type Lane = [u32; LANES];

impl WordStream {
    /// The stream of a switch.
    fn new(seed: u64, switch: u16) -> Self {
        let mut bytes = [0; 32];
        bytes[..8].copy_from_slice(&seed.to_be_bytes());
        bytes[8..10].copy_from_slice(&switch.to_be_bytes());
        let mut key = [0; 8];
        for (word, four) in key.iter_mut().zip(bytes.chunks_exact(4)) {
            *word = u32::from_le_bytes([four[0], four[1], four[2], four[3]]);
        }
        WordStream { key, block: 0, words: [0; 16 * LANES], used: 16 * LANES }
    }

    /// The next word.
    #[inline]
    fn next(&mut self) -> u32 {
        if self.used == self.words.len() {
            self.make();
        }
        self.used += 1;
        self.words[self.used - 1]
    }

    /// What the next blocks begin with, side by side.
    fn start(&self) -> [Lane; 16] {
        let mut start = [[0; LANES]; 16];
        let fixed = [0x6170_7865, 0x3320_646e, 0x7962_2d32, 0x6b20_6574];
        for (lanes, word) in start.iter_mut().zip(fixed.iter().chain(&self.key)) {
            *lanes = [*word; LANES];
        }
        for (lane, number) in (self.block..).take(LANES).enumerate() {
            start[12][lane] = number as u32;
            start[13][lane] = (number >> 32) as u32;
        }
        start
    }

    /// Makes the words of the next blocks.
    fn make(&mut self) {
        let start = self.start();
        let mut x = start;
        for _ in 0..4 {
            for a in 0..4 {
                quarter(&mut x, a, a + 4, a + 8, a + 12);
            }
            for a in 0..4 {
                quarter(&mut x, a, 4 + (a + 1) % 4, 8 + (a + 2) % 4, 12 + (a + 3) % 4);
            }
        }
        for (at, (lanes, old)) in x.iter().zip(&start).enumerate() {
            for lane in 0..LANES {
                self.words[16 * lane + at] = lanes[lane].wrapping_add(old[lane]);
            }
        }
        self.block += LANES as u64;
        self.used = 0;
    }
}

/// Two steps of the rounds, in all lanes.
#[inline(always)]
fn quarter(x: &mut [Lane; 16], a: usize, b: usize, c: usize, d: usize) {
    for (left, right) in [(16, 12), (8, 7)] {
        for lane in 0..LANES {
            x[a][lane] = x[a][lane].wrapping_add(x[b][lane]);
            x[d][lane] = (x[d][lane] ^ x[a][lane]).rotate_left(left);
        }
        for lane in 0..LANES {
            x[c][lane] = x[c][lane].wrapping_add(x[d][lane]);
            x[b][lane] = (x[b][lane] ^ x[c][lane]).rotate_left(right);
        }
    }
}

// ---- sketches ------------------------------------------------------------------------------------------------------

/// The sum of a bucket, and its maximum.
type Bucket = [u32; 2];

/// A sketch of so many rows, column by column.
struct Sketch<const R: usize> {
    columns: Vec<[Bucket; R]>,
    /// The places of the packets that were counted since it was cleared, while they are few.
    counted: Vec<[u16; R]>,
}

impl<const R: usize> Sketch<R> {
    /// A sketch that has counted nothing.
    fn new(width: usize) -> Self {
        Sketch { columns: vec![[[0; 2]; R]; width], counted: Vec::with_capacity(width / 8 + 1) }
    }

    /// Counts so many packets of one flow, one after the other.
    #[inline(always)]
    fn count(&mut self, places: &[u16; R], size: u32, delay: u32, burst: u32) {
        if self.counted.len() < self.counted.capacity() {
            self.counted.push(*places);
        }
        let mut buckets = [[0; 2]; R];
        for row in 0..R {
            buckets[row] = self.columns[usize::from(places[row])][row];
        }
        for _ in 0..burst {
            raise(&mut buckets, size, delay);
        }
        for row in 0..R {
            self.columns[usize::from(places[row])][row] = buckets[row];
        }
    }

    /// Makes all counters 0: where few packets were counted at their places alone.
    fn clear(&mut self) {
        if self.counted.len() == self.counted.capacity() {
            self.columns.fill([[0; 2]; R]);
            self.counted.clear();
        }
        for places in self.counted.drain(..) {
            for row in 0..R {
                self.columns[usize::from(places[row])][row] = [0; 2];
            }
        }
    }
}

/// Counts one packet in its buckets.
#[inline(always)]
fn raise<const R: usize>(buckets: &mut [Bucket; R], size: u32, delay: u32) {
    let mut least = u32::MAX;
    for [sum, most] in buckets {
        least = least.min(*sum);
        *sum = (*sum).max(least.saturating_add(size));
        *most = (*most).max(delay);
    }
}

// ---- switches ------------------------------------------------------------------------------------------------------

/// How a switch gives columns of its frozen sketch.
enum Picker {
    /// How often it was asked, and the index that is next.
    Turns { asked: u32, next: usize },
    /// Its words, and how often each index was put out.
    Chance { words: Box<WordStream>, put: Vec<u32> },
}

struct Switch<const R: usize> {
    /// How many epochs it has ended.
    epoch: u32,
    picker: Picker,
    /// One more than the number of each frozen column that has arrived, or 0.
    numbers: Vec<u32>,
    frozen: Sketch<R>,
    current: Sketch<R>,
    name: u16,
}

impl<const R: usize> Switch<R> {
    /// A switch in its first epoch.
    fn new(name: u16, width: usize, pick: Pick) -> Self {
        let picker = match pick {
            Pick::Turns => Picker::Turns { asked: 0, next: 0 },
            Pick::Chance(seed) => Picker::Chance { words: Box::new(WordStream::new(seed, name)), put: vec![0; width] },
        };
        let (current, frozen) = (Sketch::new(width), Sketch::new(width));
        Switch { epoch: 0, picker, numbers: vec![0; width], frozen, current, name }
    }

    /// Ends an epoch: the sketches are swapped, and the current one begins anew.
    fn end(&mut self) {
        std::mem::swap(&mut self.current, &mut self.frozen);
        self.current.clear();
        self.numbers.fill(0);
        self.epoch += 1;
        match &mut self.picker {
            Picker::Turns { next, .. } => *next = 0,
            Picker::Chance { put, .. } => put.fill(0),
        }
    }

    /// The index of the column that a packet with nothing is given here, if it is given one.
    #[inline(always)]
    fn pick(&mut self, hops_left: usize) -> Option<usize> {
        let width = self.numbers.len();
        match &mut self.picker {
            Picker::Turns { asked, next } => {
                *asked += 1;
                divides(hops_left, *asked - 1).then(|| {
                    let index = *next;
                    *next = if index + 1 == width { 0 } else { index + 1 };
                    index
                })
            }
            Picker::Chance { words, put } => {
                let (x, y, z) = (words.next(), words.next(), words.next());
                divides(hops_left, x).then(|| {
                    let (y, z) = (y as usize % width, z as usize % width);
                    let index = if put[z] < put[y] { z } else { y };
                    put[index] += 1;
                    index
                })
            }
        }
    }
}

/// Whether n, of 1 to 16, divides a number: the part of their quotient below the point is less than one n-th.
#[inline(always)]
fn divides(n: usize, number: u32) -> bool {
    const PARTS: [u64; 17] = {
        let (mut parts, mut n) = ([0; 17], 2);
        while n < 17 {
            parts[n] = u64::MAX / n as u64 + 1;
            n += 1;
        }
        parts
    };
    n == 1 || u64::from(number).wrapping_mul(PARTS[n]) < PARTS[n]
}

// ---- the network ---------------------------------------------------------------------------------------------------

/// A network whose sketches have so many rows.
struct Rows<const R: usize> {
    switches: Vec<Switch<R>>,
    /// What every sketchlet begins with: letters, version, rows, width.
    front: [u8; 6],
    arrived: Arrived,
    /// How many columns have arrived.
    columns: u32,
    /// The late ones: the host, and the number of the column.
    held: Vec<(usize, u32)>,
}

impl<const R: usize> Rows<R> {
    /// A network in which nothing has happened.
    fn new(shape: &Shape, pick: Pick, switches: &[u16], hosts: usize) -> Self {
        let [high, low] = (shape.width as u16).to_be_bytes();
        Rows {
            switches: switches.iter().map(|name| Switch::new(*name, shape.width, pick)).collect(),
            front: [b'L', b'G', 1, R as u8, high, low],
            arrived: Arrived { sketchlets: Vec::new(), length: 14 + 6 * R, inboxes: vec![Vec::new(); hosts] },
            columns: 0,
            held: Vec::new(),
        }
    }

    /// The switch and the index of the column that one packet carries after these hops.
    #[inline(always)]
    fn carried(&mut self, path: &[u8], hops: usize) -> Option<(usize, usize)> {
        for (hop, at) in path.iter().enumerate() {
            let switch = &mut self.switches[usize::from(*at)];
            if switch.epoch > 0 {
                if let Some(index) = switch.pick(hops - hop) {
                    return Some((usize::from(*at), index));
                }
            }
        }
        None
    }

    /// The number of a frozen column, which is spelled where it is the first time.
    #[inline(always)]
    fn number(&mut self, switch: usize, index: usize) -> u32 {
        match self.switches[switch].numbers[index] {
            0 => self.spelled(switch, index),
            next => next - 1,
        }
    }

    /// Spells a frozen column; gives its number.
    fn spelled(&mut self, switch: usize, index: usize) -> u32 {
        let switch = &mut self.switches[switch];
        let sketchlets = &mut self.arrived.sketchlets;
        sketchlets.extend_from_slice(&self.front);
        sketchlets.extend_from_slice(&switch.name.to_be_bytes());
        sketchlets.extend_from_slice(&(switch.epoch - 1).to_be_bytes());
        sketchlets.extend_from_slice(&(index as u16).to_be_bytes());
        for [sum, most] in &switch.frozen.columns[index] {
            sketchlets.extend_from_slice(&sum.to_be_bytes());
            sketchlets.extend_from_slice(&(*most as u16).to_be_bytes());
        }
        self.columns += 1;
        switch.numbers[index] = self.columns;
        self.columns - 1
    }
}

impl<const R: usize> Network for Rows<R> {
    /// What a switch counts is not what it gives, so all packets are counted before the first one is given a column.
    fn send(&mut self, flow: &Flow, packet: &Packet) {
        let path = &flow.path[..packet.reached];
        let places: &[u16; R] = flow.places[..R].try_into().unwrap_or(&[0; R]);
        for (at, delay) in path.iter().zip(&packet.delays) {
            let current = &mut self.switches[usize::from(*at)].current;
            current.count(places, packet.size, (*delay).min(65535), packet.burst);
        }
        for _ in 0..packet.burst {
            let Some((switch, index)) = self.carried(path, flow.hops) else { continue };
            if packet.fate == Fate::Lost {
                continue;
            }
            let number = self.number(switch, index);
            match packet.fate {
                Fate::Late => self.held.push((flow.host, number)),
                Fate::Twice => self.arrived.inboxes[flow.host].extend([number, number]),
                _ => self.arrived.inboxes[flow.host].push(number),
            }
        }
    }

    fn end(&mut self, switch: usize) {
        self.switches[switch].end();
    }

    fn end_all(&mut self) {
        self.switches.iter_mut().for_each(Switch::end);
    }

    fn release(&mut self) {
        for (host, number) in self.held.drain(..).rev() {
            self.arrived.inboxes[host].push(number);
        }
    }

    fn arrived(self: Box<Self>) -> Arrived {
        self.arrived
    }
}
