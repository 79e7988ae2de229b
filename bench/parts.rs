//! The frames, the book and its file of `crates/bench_parts` as a plain Rust program over the standard library, for
//! bench/parts.
//!
//! The words are the same, but that those of the book end with the map that keeps the columns, and those of lines with
//! how they are written, by `write!` or digit by digit: `frames N`, `book|find|walk near|scattered N TIMES btree|hash`,
//! `open|look FILE TIMES`, `lines|list FILE TIMES write|digits`. `make FILE` makes the file of a book of all columns,
//! in records of 16 neighbours.

use std::collections::hash_map::Entry as HashEntry;
use std::collections::{btree_map, BTreeMap, HashMap};
use std::fs::File;
use std::io::{BufReader, BufWriter, Read, Write};
use std::ops::Bound;
use std::process::ExitCode;

// ---- columns -------------------------------------------------------------------------------------------------------

const COLUMNS: u32 = 262_144;
const ROWS: u8 = 8;
const WIDTH: u16 = 4096;

#[derive(Clone, Copy, PartialEq, Eq, PartialOrd, Ord, Hash)]
struct Key {
    switch: u16,
    epoch: u32,
    index: u16,
}

#[derive(Clone, Copy, PartialEq, Eq)]
struct Bucket {
    bytes: u32,
    delay: u16,
}

#[derive(Clone, Copy, PartialEq, Eq)]
struct Dims {
    rows: u8,
    width: u16,
}

#[derive(Clone, Copy, PartialEq, Eq)]
struct Column {
    key: Key,
    dims: Dims,
    buckets: [Bucket; 8],
}

struct Upload {
    host: u16,
    seq: u32,
    columns: Vec<Column>,
}

fn mixed(sum: u64, n: u64) -> u64 {
    sum.wrapping_mul(31).wrapping_add(n)
}

/// Another number below 262,144 for each that is.
fn scattered(n: u32) -> u32 {
    let once = (n ^ (n / 512)).wrapping_mul(739_982_445) % COLUMNS;
    let twice = (once ^ (once / 512)).wrapping_mul(695_872_825) % COLUMNS;
    twice ^ (twice / 512)
}

fn key(n: u32) -> Key {
    Key { switch: (n / 65536) as u16, epoch: n / 4096 % 16, index: (n % 4096) as u16 }
}

fn column(n: u32) -> Column {
    let bucket = Bucket { bytes: n.wrapping_mul(2_654_435_761), delay: (n % 65536) as u16 };
    Column { key: key(n), dims: Dims { rows: ROWS, width: WIDTH }, buckets: [bucket; 8] }
}

fn ends(buckets: &[Bucket; 8]) -> u64 {
    u64::from(buckets[0].bytes) + u64::from(buckets[7].delay)
}

// ---- frames --------------------------------------------------------------------------------------------------------

const POOL: u32 = 4096;
const MOST: usize = 16;

#[derive(Clone, Copy)]
struct Packed {
    len: u8,
    bytes: [u8; 62],
}

fn put_column(column: &Column, out: &mut [u8; 62]) -> usize {
    out[..4].copy_from_slice(&[b'L', b'G', 1, column.dims.rows]);
    out[4..6].copy_from_slice(&column.dims.width.to_be_bytes());
    out[6..8].copy_from_slice(&column.key.switch.to_be_bytes());
    out[8..12].copy_from_slice(&column.key.epoch.to_be_bytes());
    out[12..14].copy_from_slice(&column.key.index.to_be_bytes());
    let rows = usize::from(column.dims.rows);
    for (cell, bucket) in out[14..].chunks_exact_mut(6).zip(&column.buckets[..rows]) {
        cell[..4].copy_from_slice(&bucket.bytes.to_be_bytes());
        cell[4..].copy_from_slice(&bucket.delay.to_be_bytes());
    }
    14 + 6 * rows
}

fn u16_at(bytes: &[u8], at: usize) -> u16 {
    u16::from_be_bytes([bytes[at], bytes[at + 1]])
}

fn u32_at(bytes: &[u8], at: usize) -> u32 {
    u32::from_be_bytes([bytes[at], bytes[at + 1], bytes[at + 2], bytes[at + 3]])
}

/// The column at the front, and how many bytes it has. None where the bytes do not begin with a sketchlet.
fn take_column(bytes: &[u8]) -> Option<(Column, usize)> {
    if bytes.len() < 14 || bytes[..3] != [b'L', b'G', 1] {
        return None;
    }
    let dims = Dims { rows: bytes[3], width: u16_at(bytes, 4) };
    let key = Key { switch: u16_at(bytes, 6), epoch: u32_at(bytes, 8), index: u16_at(bytes, 12) };
    let len = 14 + 6 * usize::from(dims.rows);
    let admitted = (1..=8).contains(&dims.rows) && (1..=4096).contains(&dims.width) && key.index < dims.width;
    if !admitted || bytes.len() < len {
        return None;
    }
    let mut buckets = [Bucket { bytes: 0, delay: 0 }; 8];
    for (bucket, cell) in buckets.iter_mut().zip(bytes[14..len].chunks_exact(6)) {
        *bucket = Bucket { bytes: u32_at(cell, 0), delay: u16_at(cell, 4) };
    }
    Some((Column { key, dims, buckets }, len))
}

fn holds(columns: &[Column], key: &Key) -> bool {
    columns.iter().any(|column| column.key == *key)
}

struct Cutter {
    host: u16,
    given: u32,
    held: Vec<Column>,
}

impl Cutter {
    fn push(&mut self, item: &Packed) -> Option<Option<Upload>> {
        let (column, used) = take_column(&item.bytes[..usize::from(item.len)])?;
        if used < usize::from(item.len) {
            return None;
        }
        if self.held.len() < MOST && !holds(&self.held, &column.key) {
            self.held.push(column);
            return Some(None);
        }
        let mut next = Vec::with_capacity(MOST);
        next.push(column);
        let columns = std::mem::replace(&mut self.held, next);
        let seq = self.given;
        self.given += 1;
        Some(Some(Upload { host: self.host, seq, columns }))
    }

    fn finish(self) -> Option<Upload> {
        if self.held.is_empty() {
            return None;
        }
        Some(Upload { host: self.host, seq: self.given, columns: self.held })
    }
}

fn write_upload(upload: &Upload) -> Vec<u8> {
    let len: usize = upload.columns.iter().map(|column| 14 + 6 * usize::from(column.dims.rows)).sum();
    let mut out = Vec::with_capacity(len + 10);
    out.extend_from_slice(&(len as u16 + 8).to_be_bytes());
    out.push(2);
    out.extend_from_slice(&upload.host.to_be_bytes());
    out.extend_from_slice(&upload.seq.to_be_bytes());
    out.push(upload.columns.len() as u8);
    for column in &upload.columns {
        let mut bytes = [0; 62];
        let len = put_column(column, &mut bytes);
        out.extend_from_slice(&bytes[..len]);
    }
    out
}

/// Takes frames off a stream that comes in pieces.
struct Reader {
    bytes: Vec<u8>,
    at: usize,
    taken: u64,
    failed: bool,
}

impl Reader {
    fn feed(&mut self, piece: &[u8]) {
        if self.failed {
            return;
        }
        self.bytes.drain(..self.at);
        self.at = 0;
        self.bytes.extend_from_slice(piece);
    }

    /// The next upload, none where the rest is unfinished. An error where it is no frame of an upload, and from then on.
    fn next(&mut self) -> Result<Option<Upload>, ()> {
        if self.failed {
            return Err(());
        }
        let rest = &self.bytes[self.at..];
        if rest.len() < 2 {
            return Ok(None);
        }
        let len = usize::from(u16_at(rest, 0));
        if rest.len() < 2 + len {
            return Ok(None);
        }
        match upload_of(&rest[2..2 + len]) {
            Some(upload) => {
                self.at += 2 + len;
                self.taken += 2 + len as u64;
                Ok(Some(upload))
            }
            None => {
                self.failed = true;
                Err(())
            }
        }
    }
}

fn upload_of(body: &[u8]) -> Option<Upload> {
    if body.len() < 8 || body.len() > 1000 || body[0] != 2 {
        return None;
    }
    let (host, seq, count) = (u16_at(body, 1), u32_at(body, 3), usize::from(body[7]));
    if !(1..=MOST).contains(&count) {
        return None;
    }
    let mut columns = Vec::with_capacity(count);
    let mut rest = &body[8..];
    for _ in 0..count {
        let (column, used) = take_column(rest)?;
        if holds(&columns, &column.key) {
            return None;
        }
        columns.push(column);
        rest = &rest[used..];
    }
    if !rest.is_empty() {
        return None;
    }
    Some(Upload { host, seq, columns })
}

fn tallied(sum: u64, upload: &Upload) -> u64 {
    let mut sum = mixed(sum, u64::from(upload.seq));
    for column in &upload.columns {
        sum = mixed(sum, u64::from(column.key.index));
        sum = mixed(sum, ends(&column.buckets));
    }
    sum
}

struct Stream {
    reader: Reader,
    fed: u64,
    sum: u64,
}

impl Stream {
    fn send(&mut self, upload: &Upload) -> Option<()> {
        let bytes = write_upload(upload);
        self.fed += bytes.len() as u64;
        self.reader.feed(&bytes);
        while let Some(upload) = self.reader.next().ok()? {
            self.sum = tallied(self.sum, &upload);
        }
        Some(())
    }
}

fn sent(count: u32) -> Option<u64> {
    let items: Vec<Packed> = (0..POOL)
        .map(|n| {
            let mut bytes = [0; 62];
            let len = put_column(&column(n), &mut bytes) as u8;
            Packed { len, bytes }
        })
        .collect();
    let mut cutter = Cutter { host: 1, given: 0, held: Vec::new() };
    let reader = Reader { bytes: Vec::new(), at: 0, taken: 0, failed: false };
    let mut stream = Stream { reader, fed: 0, sum: 0 };
    for n in 0..count {
        if let Some(upload) = cutter.push(&items[(n % POOL) as usize])? {
            stream.send(&upload)?;
        }
    }
    if let Some(upload) = cutter.finish() {
        stream.send(&upload)?;
    }
    assert_eq!(stream.fed, stream.reader.taken);
    Some(mixed(stream.sum, stream.fed))
}

// ---- the book ------------------------------------------------------------------------------------------------------

/// A map from keys to the buckets of their columns.
trait Map: Default {
    fn at(&self, key: &Key) -> Option<&[Bucket; 8]>;
    fn make_room(&mut self, count: usize);
    /// Puts a column where there is none under its key, and tells whether it did.
    fn put(&mut self, key: Key, buckets: &[Bucket; 8]) -> bool;
    fn after(&self, key: Option<Key>) -> Option<Key>;
}

impl Map for BTreeMap<Key, [Bucket; 8]> {
    fn at(&self, key: &Key) -> Option<&[Bucket; 8]> {
        self.get(key)
    }

    fn make_room(&mut self, _: usize) {}

    fn put(&mut self, key: Key, buckets: &[Bucket; 8]) -> bool {
        match self.entry(key) {
            btree_map::Entry::Vacant(place) => {
                place.insert(*buckets);
                true
            }
            btree_map::Entry::Occupied(_) => false,
        }
    }

    fn after(&self, key: Option<Key>) -> Option<Key> {
        let from = key.map_or(Bound::Unbounded, Bound::Excluded);
        self.range((from, Bound::Unbounded)).next().map(|(key, _)| *key)
    }
}

impl Map for HashMap<Key, [Bucket; 8]> {
    fn at(&self, key: &Key) -> Option<&[Bucket; 8]> {
        self.get(key)
    }

    fn make_room(&mut self, count: usize) {
        self.reserve(count);
    }

    fn put(&mut self, key: Key, buckets: &[Bucket; 8]) -> bool {
        match self.entry(key) {
            HashEntry::Vacant(place) => {
                place.insert(*buckets);
                true
            }
            HashEntry::Occupied(_) => false,
        }
    }

    fn after(&self, _: Option<Key>) -> Option<Key> {
        unreachable!("a hash map has no order")
    }
}

struct Row {
    pass: u32,
    host: u16,
    seq: u32,
    count: u8,
    first: u32,
}

#[derive(Default)]
struct Book<M> {
    map: M,
    keys: Vec<Key>,
    rows: Vec<Row>,
}

impl<M: Map> Book<M> {
    /// Which columns are new, bit by bit. None at a column of another size or with other buckets, and where there is no
    /// room.
    fn check(&self, upload: &Upload) -> Option<u16> {
        let mut mask = 0u16;
        for (n, column) in upload.columns.iter().enumerate() {
            if column.dims != (Dims { rows: ROWS, width: WIDTH }) {
                return None;
            }
            match self.map.at(&column.key) {
                Some(kept) if *kept != column.buckets => return None,
                Some(_) => {}
                None => mask |= 1 << n,
            }
        }
        if self.keys.len() + mask.count_ones() as usize > COLUMNS as usize {
            return None;
        }
        Some(mask)
    }

    fn reserve(&mut self, upload: &Upload) {
        self.map.make_room(upload.columns.len());
        self.keys.reserve(upload.columns.len());
        self.rows.reserve(1);
    }

    fn add(&mut self, pass: u32, upload: &Upload) -> u32 {
        let at = self.rows.len() as u32;
        let first = self.keys.len() as u32;
        let mut count = 0;
        for column in &upload.columns {
            if self.map.put(column.key, &column.buckets) {
                self.keys.push(column.key);
                count += 1;
            }
        }
        self.rows.push(Row { pass, host: upload.host, seq: upload.seq, count, first });
        at
    }
}

fn uploads(order: &str, count: u32) -> Vec<Upload> {
    let number = |n| if order == "near" { n } else { scattered(n) };
    (0..count / 16)
        .map(|seq| Upload { host: 1, seq, columns: (0..16).map(|n| column(number(seq * 16 + n))).collect() })
        .collect()
}

fn filled<M: Map>(uploads: &[Upload]) -> Option<(Book<M>, u64)> {
    let mut book = Book { map: M::default(), keys: Vec::new(), rows: Vec::new() };
    let mut sum = 0;
    for upload in uploads {
        let mask = book.check(upload)?;
        book.reserve(upload);
        let at = book.add(0, upload);
        sum = mixed(mixed(sum, u64::from(mask)), u64::from(at));
    }
    Some((book, sum))
}

fn of_book<M: Map>(part: &str, order: &str, count: u32, times: u32) -> Option<u64> {
    let uploads = uploads(order, count);
    let mut sum = 0;
    if part == "book" {
        for _ in 0..times {
            let (book, one) = filled::<M>(&uploads)?;
            sum = mixed(sum, one.wrapping_add(book.keys.len() as u64));
            let last = book.rows.last().map_or(0, |row| u64::from(row.pass) + u64::from(row.host) + u64::from(row.seq));
            assert!(book.rows.iter().all(|row| row.count > 0 && row.first < COLUMNS) && last <= u64::from(COLUMNS));
        }
        return Some(sum);
    }
    let (book, _) = filled::<M>(&uploads)?;
    drop(uploads);
    for _ in 0..times {
        if part == "find" {
            for n in 0..COLUMNS {
                if let Some(buckets) = book.map.at(&key(scattered(scattered(n)))) {
                    sum = mixed(sum, ends(buckets));
                }
            }
        } else {
            let mut last = None;
            while let Some(key) = book.map.after(last) {
                sum = mixed(sum, u64::from(key.epoch) + u64::from(key.index));
                last = Some(key);
            }
        }
    }
    Some(sum)
}

// ---- the book's file -----------------------------------------------------------------------------------------------

/// An open gate, the letters, and the shape: 8 rows of width 4,096, places by the ports.
const HEADER: [u8; 17] = [1, b'L', b'G', b'B', b'1', ROWS, 16, 0, 0, 0, 0, 0, 0, 0, 0, 0, 0];

/// Writes a book file of all columns. Gives its length.
fn made(name: &str) -> Option<u64> {
    let mut file = BufWriter::new(File::create(name).ok()?);
    file.write_all(&HEADER).ok()?;
    for seq in 0..COLUMNS / 16 {
        file.write_all(&[1, 0, 1]).ok()?;
        file.write_all(&seq.to_be_bytes()).ok()?;
        file.write_all(&[16]).ok()?;
        for n in 16 * seq..16 * seq + 16 {
            let mut sketchlet = [0; 62];
            put_column(&column(n), &mut sketchlet);
            file.write_all(&sketchlet[6..]).ok()?;
        }
    }
    file.write_all(&[0]).ok()?;
    Some(file.into_inner().ok()?.metadata().ok()?.len())
}

/// The size of the sketches of a header's shape.
fn dims_of(head: &[u8; 17]) -> Option<Dims> {
    if head[..5] != HEADER[..5] {
        return None;
    }
    let dims = Dims { rows: head[5], width: u16_at(head, 6) };
    let by_ports = head[8] == 0 && head[9..] == [0; 8];
    let admitted = (1..=8).contains(&dims.rows) && (1..=4096).contains(&dims.width) && (by_ports || head[8] == 1);
    admitted.then_some(dims)
}

/// What a book file holds.
struct Stored {
    dims: Dims,
    map: BTreeMap<Key, [Bucket; 8]>,
    records: u32,
}

impl Stored {
    /// Takes the columns of a body. None where one is malformed or its key is kept already.
    fn take(&mut self, columns: &[u8]) -> Option<()> {
        for bytes in columns.chunks_exact(8 + 6 * usize::from(self.dims.rows)) {
            let key = Key { switch: u16_at(bytes, 0), epoch: u32_at(bytes, 2), index: u16_at(bytes, 6) };
            if key.index >= self.dims.width {
                return None;
            }
            let mut buckets = [Bucket { bytes: 0, delay: 0 }; 8];
            for (bucket, cell) in buckets.iter_mut().zip(bytes[8..].chunks_exact(6)) {
                *bucket = Bucket { bytes: u32_at(cell, 0), delay: u16_at(cell, 4) };
            }
            match self.map.entry(key) {
                btree_map::Entry::Vacant(place) => place.insert(buckets),
                btree_map::Entry::Occupied(_) => return None,
            };
        }
        Some(())
    }

    /// Reads a book file in pieces of 4,096 bytes. None where it is faulty.
    fn read(name: &str) -> Option<Stored> {
        let mut file = BufReader::with_capacity(4096, File::open(name).ok()?);
        let mut head = [0; 17];
        file.read_exact(&mut head).ok()?;
        let mut stored = Stored { dims: dims_of(&head)?, map: BTreeMap::new(), records: 0 };
        let (mut gate, mut lead, mut columns) = ([0], [0; 7], [0; 896]);
        loop {
            file.read_exact(&mut gate).ok()?;
            if gate != [1] {
                return Some(stored);
            }
            file.read_exact(&mut lead).ok()?;
            let count = usize::from(lead[6]);
            if !(1..=MOST).contains(&count) || stored.map.len() + count > COLUMNS as usize {
                return None;
            }
            let columns = &mut columns[..count * (8 + 6 * usize::from(stored.dims.rows))];
            file.read_exact(columns).ok()?;
            stored.take(columns)?;
            stored.records += 1;
        }
    }

    /// The lines of all columns, in the order of their keys.
    fn lines(&self, put: PutLine) -> Option<Vec<u8>> {
        let mut text = Vec::new();
        for (key, buckets) in &self.map {
            put(&mut text, key, &buckets[..usize::from(self.dims.rows)])?;
        }
        Some(text)
    }

    fn first_lines(&self, put: PutLine) -> Option<u64> {
        Some(self.lines(put)?.iter().fold(0, |sum, byte| mixed(sum, u64::from(*byte))))
    }
}

/// Appends the line of a column.
type PutLine = fn(&mut Vec<u8>, &Key, &[Bucket]) -> Option<()>;

fn line_by_write(text: &mut Vec<u8>, key: &Key, buckets: &[Bucket]) -> Option<()> {
    write!(text, "column {} {} {}", key.switch, key.epoch, key.index).ok()?;
    for bucket in buckets {
        write!(text, " {} {}", bucket.bytes, bucket.delay).ok()?;
    }
    text.push(b'\n');
    Some(())
}

/// Appends a space and a number.
fn put_number(text: &mut Vec<u8>, n: u32) {
    let mut word = [b' '; 11];
    let (mut at, mut left) = (word.len(), n);
    loop {
        at -= 1;
        word[at] = b'0' + (left % 10) as u8;
        left /= 10;
        if left == 0 {
            break;
        }
    }
    text.extend_from_slice(&word[at - 1..]);
}

fn line_by_digits(text: &mut Vec<u8>, key: &Key, buckets: &[Bucket]) -> Option<()> {
    text.extend_from_slice(b"column");
    for n in [u32::from(key.switch), key.epoch, u32::from(key.index)] {
        put_number(text, n);
    }
    for bucket in buckets {
        put_number(text, bucket.bytes);
        put_number(text, u32::from(bucket.delay));
    }
    text.push(b'\n');
    Some(())
}

fn opened(name: &str, times: u32) -> Option<u64> {
    let mut sum = 0;
    for _ in 0..times {
        let stored = Stored::read(name)?;
        sum = mixed(mixed(sum, stored.map.len() as u64), u64::from(stored.records));
    }
    Some(sum)
}

fn lined(name: &str, times: u32, put: PutLine) -> Option<u64> {
    let stored = Stored::read(name)?;
    let mut sum = stored.first_lines(put)?;
    for _ in 0..times {
        sum = mixed(sum, stored.lines(put)?.len() as u64);
    }
    Some(sum)
}

fn listed(name: &str, times: u32, put: PutLine) -> Option<u64> {
    let mut sum = Stored::read(name)?.first_lines(put)?;
    for _ in 0..times {
        sum = mixed(sum, Stored::read(name)?.lines(put)?.len() as u64);
    }
    Some(sum)
}

fn of_lines(part: &str, name: &str, times: u32, how: &str) -> Option<u64> {
    let put = if how == "write" { line_by_write } else { line_by_digits };
    if part == "lines" {
        lined(name, times, put)
    } else {
        listed(name, times, put)
    }
}

// ---- the words -----------------------------------------------------------------------------------------------------

fn done(words: &[String]) -> Option<u64> {
    let words: Vec<&str> = words.iter().map(String::as_str).collect();
    match words[..] {
        ["frames", count] => sent(count.parse().ok()?),
        ["make", name] => made(name),
        ["open" | "look", name, times] => opened(name, times.parse().ok()?),
        ["lines" | "list", name, times, how] => of_lines(words[0], name, times.parse().ok()?, how),
        [part, order, count, times, map] => {
            let (count, times) = (count.parse().ok()?, times.parse().ok()?);
            if map == "btree" {
                of_book::<BTreeMap<Key, [Bucket; 8]>>(part, order, count, times)
            } else {
                of_book::<HashMap<Key, [Bucket; 8]>>(part, order, count, times)
            }
        }
        _ => None,
    }
}

fn main() -> ExitCode {
    let words: Vec<String> = std::env::args().skip(1).collect();
    match done(&words) {
        Some(sum) => {
            println!("{sum}");
            ExitCode::SUCCESS
        }
        None => ExitCode::FAILURE,
    }
}
