//! The book of bench/yardstick.rs, and its file: what `guardian run`, `ask` and `list` do with it, written from
//! docs/FORMATS.md (The book file).

use crate::{Fault, Shape, MOST_ROWS};
use std::collections::{btree_map, hash_map, BTreeMap, HashMap};
use std::fs::{File, OpenOptions};
use std::io::{self, BufReader, ErrorKind, Read};
use std::os::unix::fs::FileExt;

const NAME: &str = "guardian.book";
const ROOM: usize = 262_144;
const MOST_COLUMNS: usize = 16;
/// A gate and what stands before the columns of a body; the most bytes of a column.
const LEAD: usize = 8;
const MOST_LENGTH: usize = 8 + 6 * MOST_ROWS;
const PIECE: usize = 1 << 16;
/// How many bits of an entry of the table have a place: one more than the last place needs, and some to spare.
const PLACE_BITS: u32 = 20;
const PLACES: u32 = (1 << PLACE_BITS) - 1;

// ---- columns -------------------------------------------------------------------------------------------------------

/// A key as one number: switch, epoch and index.
pub type Key = u64;

/// The key of a column.
pub fn key_of(switch: u16, epoch: u32, index: u16) -> Key {
    u64::from(switch) << 48 | u64::from(epoch) << 16 | u64::from(index)
}

/// The key of a column as a record has it.
#[inline]
pub fn key_at(column: &[u8]) -> Key {
    column.first_chunk().map_or(0, |key| u64::from_be_bytes(*key))
}

/// The sum and the maximum of a cell.
#[inline]
pub fn counters(cell: &[u8]) -> (u32, u32) {
    let most = u16::from_be_bytes([cell[4], cell[5]]);
    (u32::from_be_bytes([cell[0], cell[1], cell[2], cell[3]]), most.into())
}

/// Columns by their keys. A column is its bytes in a record: its key in 8, its cells in 6 a row.
pub trait Map {
    /// A map of no columns, where so many are expected.
    fn new(shape: &Shape, expected: usize) -> Self;
    /// How many columns there are.
    fn size(&self) -> usize;
    /// The cells of the column of a key.
    fn cells(&self, key: Key) -> Option<&[u8]>;
    /// Puts a column where there is none under its key, and tells whether it did.
    fn put(&mut self, column: &[u8]) -> bool;
}

/// A map that can be gone over.
pub trait Sorted: Map {
    /// All keys, in order, and their cells.
    fn each(&self) -> impl Iterator<Item = (Key, &[u8])>;
}

/// All columns one after the other, and a table with their places by their keys.
pub struct Book {
    length: usize,
    bytes: Vec<u8>,
    /// One more than the place of a column, and above its bits some of the hash; 0 where none is. At least half of it
    /// has none.
    table: Vec<u32>,
    /// By how many bits a hash is shifted to be a place in the table.
    shift: u32,
}

impl Book {
    /// How many columns there are.
    fn columns(&self) -> usize {
        self.bytes.len() / self.length
    }

    /// The column at a place.
    fn column(&self, place: u32) -> &[u8] {
        &self.bytes[place as usize * self.length..][..self.length]
    }

    /// The place of the column of a key; else where in the table it would stand, and its bits of the hash.
    #[inline]
    fn find(&self, key: Key) -> Result<u32, (usize, u32)> {
        let hash = (key ^ key >> 32).wrapping_mul(0x9E37_79B9_7F4A_7C15);
        let (mut at, high) = ((hash >> self.shift) as usize, ((hash >> 32) as u32) << PLACE_BITS);
        loop {
            let entry = self.table[at];
            if entry == 0 {
                return Err((at, high));
            }
            let place = (entry & PLACES) - 1;
            if entry & !PLACES == high && key_at(self.column(place)) == key {
                return Ok(place);
            }
            at = (at + 1) & (self.table.len() - 1);
        }
    }

    /// Makes the table twice as large.
    fn grow(&mut self) {
        self.table = vec![0; 2 * self.table.len()];
        self.shift -= 1;
        for place in 0..self.columns() as u32 {
            if let Err((at, high)) = self.find(key_at(self.column(place))) {
                self.table[at] = high | (place + 1);
            }
        }
    }
}

impl Map for Book {
    fn new(shape: &Shape, expected: usize) -> Self {
        let length = 8 + 6 * shape.rows;
        let bits = usize::BITS - (2 * expected.max(512) - 1).leading_zeros();
        let (bytes, table) = (Vec::with_capacity(expected * length), vec![0; 1 << bits]);
        Book { length, bytes, table, shift: 64 - bits }
    }

    fn size(&self) -> usize {
        self.columns()
    }

    fn cells(&self, key: Key) -> Option<&[u8]> {
        self.find(key).ok().map(|place| &self.column(place)[8..])
    }

    #[inline]
    fn put(&mut self, column: &[u8]) -> bool {
        let Err((at, high)) = self.find(key_at(column)) else { return false };
        self.bytes.extend_from_slice(column);
        let columns = self.columns();
        self.table[at] = high | columns as u32;
        if 2 * columns > self.table.len() {
            self.grow();
        }
        true
    }
}

impl Sorted for Book {
    fn each(&self) -> impl Iterator<Item = (Key, &[u8])> {
        let numbered = self.bytes.chunks_exact(self.length).zip(0..);
        let mut order: Vec<(Key, u32)> = numbered.map(|(column, place)| (key_at(column), place)).collect();
        order.sort_unstable();
        order.into_iter().map(|(key, place)| (key, &self.column(place)[8..]))
    }
}

/// The cells of a column in a map of the standard library.
type Cells = [u8; 6 * MOST_ROWS];

/// Rust's own maps, and how many bytes the cells of a column have.
pub struct Ordered(BTreeMap<Key, Cells>, usize);
pub struct Hashed(HashMap<Key, Cells>, usize);

/// The cells of a column, and zeros.
fn cells_of(column: &[u8]) -> Cells {
    let mut cells = [0; 6 * MOST_ROWS];
    cells[..column.len() - 8].copy_from_slice(&column[8..]);
    cells
}

impl Map for Ordered {
    fn new(shape: &Shape, _: usize) -> Self {
        Ordered(BTreeMap::new(), 6 * shape.rows)
    }

    fn size(&self) -> usize {
        self.0.len()
    }

    fn cells(&self, key: Key) -> Option<&[u8]> {
        self.0.get(&key).map(|cells| &cells[..self.1])
    }

    fn put(&mut self, column: &[u8]) -> bool {
        match self.0.entry(key_at(column)) {
            btree_map::Entry::Vacant(place) => {
                place.insert(cells_of(column));
                true
            }
            btree_map::Entry::Occupied(_) => false,
        }
    }
}

impl Sorted for Ordered {
    fn each(&self) -> impl Iterator<Item = (Key, &[u8])> {
        self.0.iter().map(|(key, cells)| (*key, &cells[..self.1]))
    }
}

impl Map for Hashed {
    fn new(shape: &Shape, _: usize) -> Self {
        Hashed(HashMap::new(), 6 * shape.rows)
    }

    fn size(&self) -> usize {
        self.0.len()
    }

    fn cells(&self, key: Key) -> Option<&[u8]> {
        self.0.get(&key).map(|cells| &cells[..self.1])
    }

    fn put(&mut self, column: &[u8]) -> bool {
        match self.0.entry(key_at(column)) {
            hash_map::Entry::Vacant(place) => {
                place.insert(cells_of(column));
                true
            }
            hash_map::Entry::Occupied(_) => false,
        }
    }
}

// ---- reading a file ------------------------------------------------------------------------------------------------

/// The 16 bytes of a header after its gate.
fn header_of(shape: &Shape) -> [u8; 16] {
    let mut head = *b"LGB1\0\0\0\0\0\0\0\0\0\0\0\0";
    head[4] = shape.rows as u8;
    head[5..7].copy_from_slice(&(shape.width as u16).to_be_bytes());
    if let Some(seed) = shape.seed {
        head[7] = 1;
        head[8..].copy_from_slice(&seed.to_be_bytes());
    }
    head
}

/// The shape that these bytes are the header of.
fn shape_of(head: &[u8; 16]) -> Option<Shape> {
    let seed = u64::from_be_bytes(*head.last_chunk()?);
    let seed = if head[7] == 0 { None } else { Some(seed) };
    let shape = Shape { rows: head[4].into(), width: u16::from_be_bytes([head[5], head[6]]).into(), seed };
    let admitted = (1..=MOST_ROWS).contains(&shape.rows) && (1..=4096).contains(&shape.width);
    (admitted && header_of(&shape) == *head).then_some(shape)
}

/// A walk over the records of a file.
struct Walk<M> {
    file: BufReader<File>,
    shape: Shape,
    map: M,
    /// The offset of the gate that is next.
    gate: u64,
}

impl<M: Map> Walk<M> {
    /// Fills the buffer; what the file lacks is damage at the gate.
    fn fill(&mut self, buffer: &mut [u8]) -> Result<(), Fault> {
        self.file.read_exact(buffer).map_err(|error| match error.kind() {
            ErrorKind::UnexpectedEof => Fault::Damaged(self.gate),
            _ => Fault::Disk,
        })
    }

    /// Takes a gate and the record after it; says whether the gate is closed.
    fn record(&mut self) -> Result<bool, Fault> {
        let mut lead = [0; LEAD];
        self.fill(&mut lead[..1])?;
        if lead[0] != 1 {
            return Ok(true);
        }
        self.fill(&mut lead[1..])?;
        let (count, length) = (usize::from(lead[7]), 8 + 6 * self.shape.rows);
        if !(1..=MOST_COLUMNS).contains(&count) {
            return Err(Fault::Damaged(self.gate));
        }
        let mut columns = [0; MOST_COLUMNS * MOST_LENGTH];
        let columns = &mut columns[..count * length];
        self.fill(columns)?;
        let held = self.map.size();
        for column in columns.chunks_exact(length) {
            if usize::from(key_at(column) as u16) >= self.shape.width || !self.map.put(column) {
                return Err(Fault::Damaged(self.gate));
            }
        }
        self.gate += (LEAD + columns.len()) as u64;
        (held + count <= ROOM).then_some(false).ok_or(Fault::Full { held, more: count })
    }
}

/// What a file stands for, and the offset of the gate that ends it; None where it is blank.
fn walked<M: Map>(file: &File, asked: Option<&Shape>) -> Result<Option<Walk<M>>, Fault> {
    let disk = |_: io::Error| Fault::Disk;
    let length = file.metadata().map_err(disk)?.len();
    let mut head = [0; 17];
    let front = &mut head[..length.min(17) as usize];
    file.read_exact_at(front, 0).map_err(disk)?;
    if length <= 1 || (length <= 18 && front[0] != 1) {
        return Ok(None);
    }
    let shape = head.last_chunk().and_then(shape_of).filter(|_| head[0] == 1 && length >= 17);
    let shape = shape.ok_or(Fault::NotAJournal)?;
    match asked {
        Some(asked) if *asked != shape => return Err(Fault::WrongShape { kept: shape, asked: *asked }),
        _ => {}
    }
    let expected = (length / (8 + 6 * shape.rows) as u64).min(ROOM as u64) as usize;
    let map = M::new(&shape, expected);
    let file = BufReader::with_capacity(PIECE, file.try_clone().map_err(disk)?);
    let mut walk = Walk { file, shape, map, gate: 17 };
    walk.file.seek_relative(17).map_err(disk)?;
    while !walk.record()? {}
    Ok(Some(walk))
}

/// The columns of the book, which is to be of that shape if one is asked for; none where there is no book.
pub fn look<M: Map>(asked: Option<&Shape>) -> Result<Option<M>, Fault> {
    match File::open(NAME) {
        Ok(file) => Ok(walked(&file, asked)?.map(|walk| walk.map)),
        Err(error) if error.kind() == ErrorKind::NotFound => Ok(None),
        Err(_) => Err(Fault::Disk),
    }
}

// ---- writing a file ------------------------------------------------------------------------------------------------

/// An upload as it was read from its frame, its columns as a record has them.
pub struct Upload<'a> {
    pub host: u16,
    pub number: u32,
    pub columns: &'a [u8],
}

/// A book whose records stand in a file.
pub struct Journal {
    pub book: Book,
    file: File,
    /// The offset of the closed gate that ends the file.
    gate: u64,
    /// Whether a call of the disk has failed.
    pub broken: bool,
    body: Vec<u8>,
}

/// The file, to be read and written, which is made where it isn't there; its folder is then synced.
fn opened() -> io::Result<File> {
    let mut how = OpenOptions::new();
    how.read(true).write(true);
    match how.open(NAME) {
        Err(error) if error.kind() == ErrorKind::NotFound => {
            let file = how.create(true).open(NAME)?;
            File::open(".")?.sync_all()?;
            Ok(file)
        }
        other => other,
    }
}

/// Writes bytes at a place, and syncs them.
fn put(file: &File, bytes: &[u8], at: u64) -> io::Result<()> {
    file.write_all_at(bytes, at)?;
    file.sync_data()
}

/// Makes a blank file an empty journal.
fn emptied(file: &File, shape: &Shape) -> io::Result<()> {
    if file.metadata()?.len() > 0 {
        file.set_len(0)?;
        file.sync_data()?;
    }
    let mut rest = [0; 17];
    rest[..16].copy_from_slice(&header_of(shape));
    put(file, &[0], 0)?;
    put(file, &rest, 1)?;
    put(file, &[1], 0)
}

impl Journal {
    /// The journal of the book's file, which is made where it is blank.
    pub fn open(shape: &Shape) -> Result<Self, Fault> {
        let disk = |_: io::Error| Fault::Disk;
        let file = opened().map_err(disk)?;
        file.sync_data().map_err(disk)?;
        let (book, gate) = match walked::<Book>(&file, Some(shape))? {
            Some(walk) => (walk.map, walk.gate),
            None => {
                emptied(&file, shape).map_err(disk)?;
                (Book::new(shape, 0), 17)
            }
        };
        Ok(Journal { book, file, gate, broken: false, body: Vec::new() })
    }

    /// Adds the new columns of an upload as one record; where all are known, nothing.
    pub fn apply(&mut self, upload: &Upload) -> Result<(), Fault> {
        if self.broken {
            return Err(Fault::Disk);
        }
        self.compare(upload)?;
        let more = (self.body.len() - 7) / self.book.length;
        let held = self.book.size();
        if held + more > ROOM {
            return Err(Fault::Full { held, more });
        }
        if more > 0 {
            self.append(more).map_err(|_| Fault::Disk)?;
        }
        Ok(())
    }

    /// Makes the body of the columns that the book doesn't have; its count is missing.
    fn compare(&mut self, upload: &Upload) -> Result<(), Fault> {
        self.body.clear();
        self.body.extend_from_slice(&upload.host.to_be_bytes());
        self.body.extend_from_slice(&upload.number.to_be_bytes());
        self.body.push(0);
        for column in upload.columns.chunks_exact(self.book.length) {
            match self.book.find(key_at(column)) {
                Err(_) => self.body.extend_from_slice(column),
                Ok(place) => {
                    let kept = self.book.column(place);
                    if kept != column {
                        return Err(Fault::Conflict { kept: kept.to_vec(), came: column.to_vec() });
                    }
                }
            }
        }
        Ok(())
    }

    /// Appends the body, of so many columns, and puts these in the book.
    fn append(&mut self, count: usize) -> io::Result<()> {
        self.body[6] = count as u8;
        self.body.push(0);
        self.broken = true;
        put(&self.file, &self.body, self.gate + 1)?;
        put(&self.file, &[1], self.gate)?;
        self.broken = false;
        self.gate += self.body.len() as u64;
        for column in self.body[7..].chunks_exact(self.book.length) {
            self.book.put(column);
        }
        Ok(())
    }
}
