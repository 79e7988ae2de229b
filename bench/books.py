"""The book's table of bench/run: opening, listing, asking and adding to a book, the frames and the lock."""
import hashlib
import os
import shutil
import statistics
import struct
import tempfile
from pathlib import Path
from typing import NamedTuple, Optional

from costs import KEPT, MEMORY, Cost, best, in_table, measured, of_c, of_rust, peak

# The sizes of books, in columns: the last is the most that a book has.
SIZES = (1_000, 16_384, 262_144)
ROWS, WIDTH, OF_AN_UPLOAD = 8, 4096, 16
SWITCHES, EPOCHS, FLOWS, QUESTIONS = 4, 16, 250, 10_000
# How many uploads are added to a book, to one in memory and to one on a disk.
ADDED, APPENDED = 1_024, 50
SKETCHLETS, UPLOADS, WORKERS = 1_000_000, 16_384, (1, 4, 16)


# ---- the books -----------------------------------------------------------------------------------------------------


def column(n):
    """The bytes of column n in a record: its key, and its eight rows. They are those of bench/parts.rs."""
    key = struct.pack(">HIH", n // 65536, n // WIDTH % EPOCHS, n % WIDTH)
    return key + struct.pack(">IH", n * 2654435761 % 2**32, n % 65536) * ROWS


def make_book(file, first, count):
    """Writes the file of a book of so many columns, in records of 16 neighbours (docs/FORMATS.md, The book file)."""
    with open(file, "wb") as out:
        out.write(b"\1LGB1" + struct.pack(">BHBQ", ROWS, WIDTH, 0, 0))
        for at in range(first, first + count, OF_AN_UPLOAD):
            columns = range(at, min(at + OF_AN_UPLOAD, first + count))
            out.write(b"\1" + struct.pack(">HIB", 1, at // OF_AN_UPLOAD, len(columns)))
            out.write(b"".join(map(column, columns)))
        out.write(b"\0")


def make_questions(file, count):
    """Writes a scenario of that shape that asks so many questions about all switches and epochs of the full book."""
    with open(file, "w") as out:
        out.write(f"guardian 1\nshape {ROWS} {WIDTH} ports\npick turns\nhost 1\n")
        out.writelines(f"switch {switch}\n" for switch in range(SWITCHES))
        for flow in range(FLOWS):
            key = f"10.0.{flow % 7}.{flow} 10.1.{flow % 5}.{flow} 6 {1024 + 37 * flow} {80 + flow % 11}"
            out.write(f"flow {flow} {key} host 1 path {flow % SWITCHES}\n")
        for n in range(count):
            draw = n * 2654435761 % 2**32 >> 8
            out.write(f"ask {draw % FLOWS} {draw // 251 % SWITCHES} {draw // 1009 % EPOCHS}\n")
        out.write("done\n")


# ---- what is measured ----------------------------------------------------------------------------------------------


class Run(NamedTuple):
    """A command, the folder that it runs in, and what it reads."""

    words: list
    folder: Path = KEPT
    source: str = os.devnull


class Side(NamedTuple):
    """One program of a row: what it is called there, its run, and a run of all but the work itself."""

    name: str
    run: Run
    without: Run


class Row(NamedTuple):
    """A row of the table: the program first, then what it is measured against."""

    name: str
    size: str
    # How many things one run does; the name says what one is.
    count: int
    sides: list
    # Whether the time by the clock counts, and the medians of the turns, in place of the least processor time.
    clock: bool = False
    # How many times as many turns as was said.
    turns: int = 1
    # A file that each run begins with, and what is copied there.
    file: Optional[Path] = None
    content: Optional[Path] = None


def begin(row):
    """Makes the row's file as it is before a run, durably, and removes a database beside it."""
    if row.file is None:
        return
    for more in ("-db", "-db-wal", "-db-shm"):
        Path(f"{row.file}{more}").unlink(missing_ok=True)
    shutil.copyfile(row.content, row.file)
    with open(row.file, "rb") as made:
        os.fsync(made.fileno())


def sum_of(file):
    total = hashlib.sha256()
    with open(file, "rb") as made:
        for piece in iter(lambda: made.read(1 << 16), b""):
            total.update(piece)
    return total.digest()


def cost_of(row, run, out):
    begin(row)
    return measured(run.words, run.folder, run.source, out)


class Turns(NamedTuple):
    """The costs of one side of a row, turn by turn, and the least cost without the work, which is taken off."""

    each: list
    base: Cost

    def times(self, row):
        """The processor time of the work and its time by the clock: the least, or where the clock counts the median."""
        chosen = statistics.median if row.clock else min
        seconds, took = [it.seconds for it in self.each], [it.took for it in self.each]
        return chosen(seconds) - self.base.seconds, chosen(took) - self.base.took

    def counted(self, row):
        """The time that counts."""
        return self.times(row)[row.clock]

    def whole(self, row):
        """The time that counts, with that of all else in the run."""
        return self.counted(row) + (self.base.took if row.clock else self.base.seconds)


def take_turns(row, times, out):
    """The turns of each side of a row, run one after the other, and whether all wrote the same."""
    full, without, same = [[] for _ in row.sides], [[] for _ in row.sides], True
    for _ in range(times * row.turns):
        sums = []
        for side, costs, bases in zip(row.sides, full, without):
            costs.append(cost_of(row, side.run, out))
            sums.append(sum_of(out))
            bases.append(cost_of(row, side.without, out))
        same = same and len(set(sums)) == 1
    return [Turns(each, best(bases)) for each, bases in zip(full, without)], same


# ---- the rows ------------------------------------------------------------------------------------------------------


class Bench(NamedTuple):
    """The programs, of which those that are None are left out, and the folder of the books in memory."""

    guardian: Path
    yardstick: Optional[Path]
    parts: Optional[Path]
    rust: Optional[Path]
    c: Optional[Path]
    sqlite: Optional[Path]
    place: Path

    def folder(self, size):
        return self.place / str(size)

    def later(self, size):
        """The file of a book of so many columns, none of which the uploads of `journal` bring."""
        return self.place / f"{size}.later"

    def questions(self, count):
        return self.place / f"{count}.scenario"

    def commands(self, word, size, source, base_size, base_source):
        """The program and the yardstick over the book of that size, and over another one without the work."""
        run, without = (self.folder(size), source), (self.folder(base_size), base_source)
        found = [("guardian", [self.guardian, word])]
        if self.yardstick:
            # The standard library's maps, of which the ordered one is the faster one to fill here, and the hash map
            # the faster one to look up in; and the table that the yardstick itself has.
            found.append(("Rust", [self.yardstick, word, "ordered"]))
            found += [("Rust, hash", [self.yardstick, word, "hash"])] if word == "ask" else []
            found.append(("Rust, own", [self.yardstick, word]))
        return [Side(name, Run(words, *run), Run(words, *without)) for name, words in found]


def side(name, program, words, *more):
    """A program, if it is there, with words of which the last is a count, and with no count; and words after that."""
    if program is None:
        return []
    return [Side(name, *(Run([program, *words[:-1], count, *more]) for count in (words[-1], "0")))]


def of_commands(bench):
    """Whole runs over a book: opened and asked nothing, listed, asked. What an empty book costs is taken off."""
    none = bench.questions(0)
    for word, source in (("ask", none), ("list", os.devnull)):
        for size in SIZES:
            sides = bench.commands(word, size, source, 0, source)
            name = "`list`, a column" if word == "list" else "opening by `ask`, a column"
            yield Row(name, f"{size:,}", size, sides, turns=1 if size == SIZES[-1] else 4)
    sides = bench.commands("ask", SIZES[-1], bench.questions(QUESTIONS), SIZES[-1], none)
    yield Row("`ask`, a question", f"{SIZES[-1]:,}", QUESTIONS, sides, turns=3)


def of_parts(bench):
    """The parts alone, with so many rounds that a book of every size takes some time."""
    for word, name, more in (("open", "opening, a column", []), ("lines", "making a line", ["write"])):
        for size in SIZES:
            rounds = 4 * SIZES[-1] // size
            words = [word, bench.folder(size) / "guardian.book", str(rounds)]
            sides = side("parts", bench.parts, words) + side("Rust", bench.rust, words, *more)
            yield Row(name, f"{size:,}", size * rounds, sides)
    count = OF_AN_UPLOAD * ADDED
    for size in (*SIZES[:2], SIZES[-1] - count):
        file = bench.place / "added.book"
        sides = side("parts", bench.parts, ["journal", file, str(ADDED)])
        yield Row("adding, a column", f"{size:,}", count, sides, turns=2, file=file, content=bench.later(size))
    words = ["frames", str(SKETCHLETS)]
    sides = side("parts", bench.parts, words) + side("Rust", bench.rust, words)
    yield Row("a frame of 16", "-", SKETCHLETS // OF_AN_UPLOAD, sides)


def of_disk(bench):
    """Uploads that are added to an empty book on a disk, each waiting for it."""
    file = KEPT / "appended.book"
    words = ["journal", file, str(APPENDED)]
    sides = side("parts", bench.parts, words) + side("C", bench.c, words)
    sides += side("SQLite", bench.sqlite, ["journal", f"{file}-db", str(APPENDED)])
    yield Row("on a disk, an upload", "0", APPENDED, sides, True, 10, file, bench.later(0))


def of_lock(bench):
    """The uploads of a full book through the lock of a shared book in memory, beside one thread without a lock."""
    for word, name in (("shared", "by the lock, an upload"), ("turns", "by the lock, of 8 a turn")):
        for workers in WORKERS:
            words, none = ([bench.parts, word, str(count), str(workers)] for count in (UPLOADS, 0))
            sides = [Side("parts", Run(words), Run(none))] + side("no lock", bench.parts, ["alone", str(UPLOADS)])
            size = f"{workers} worker{'s' if workers > 1 else ''}"
            yield Row(name, size, UPLOADS, sides, clock=True, turns=4)


# ---- the table -----------------------------------------------------------------------------------------------------

HEAD = ["What", "Columns", "Counts", "Against", "Processor, ns", "Clock, ns", "Its ns", "Ratio", "Growth", "A second"]
HEAD += ["Run, ms", "Peak, MB", "Its peak"]
WIDE = (26, 10, 6, 10, 13, 9, 9, 5, 6, 10, 7, 8, 8)


def ratio(row, mine, other):
    """The program's time over the other's: of the clock the median of the ratios turn by turn."""
    if not row.clock:
        return mine.counted(row) / other.counted(row)
    pairs = [(a.took - mine.base.took, b.took - other.base.took) for a, b in zip(mine.each, other.each)]
    return statistics.median(a / b for a, b in pairs if b > 0)


def lines(row, turns, first):
    """A line for each side that the program is measured against, or one where there is none."""
    mine = turns[0]
    own = mine.counted(row) / row.count
    for side, other in list(zip(row.sides, turns))[1:] or [(None, None)]:
        words = [row.name, row.size, "clock" if row.clock else "cpu", side.name if side else "-"]
        words += [f"{seconds / row.count * 1e9:.0f}" for seconds in mine.times(row)]
        words += [f"{other.counted(row) / row.count * 1e9:.0f}", f"{ratio(row, mine, other):.2f}"] if other else "--"
        words += [f"{own / first:.2f}", f"{1 / own:,.0f}", f"{mine.whole(row) * 1e3:.1f}", peak(best(mine.each))]
        yield in_table([*words, peak(best(other.each)) if other else "-"], WIDE)


def table(rows, times, out, page):
    """Measures row after row, and puts its lines on a page. Says whether all that was compared was the same."""
    page.put(in_table(HEAD, WIDE))
    page.put(in_table(["---"] * len(WIDE), WIDE))
    first, well = {}, True
    for row in rows:
        turns, same = take_turns(row, times, out)
        own = first.setdefault(row.name, turns[0].counted(row) / row.count)
        for it in lines(row, turns, own):
            page.put(it)
        if not same:
            print(f"The outputs of {row.name} differ.")
        well = well and same
    return well


def make_all(bench):
    for size in (0, *SIZES):
        bench.folder(size).mkdir()
        make_book(bench.folder(size) / "guardian.book", 0, size)
    added = OF_AN_UPLOAD * ADDED
    for size in (0, *SIZES[:2], SIZES[-1] - added):
        make_book(bench.later(size), added, size)
    for count in (0, QUESTIONS):
        make_questions(bench.questions(count), count)


def shown(guardian, yardstick, parts, times, page):
    """Measures, and fills a page. Says whether all that was compared was the same."""
    with tempfile.TemporaryDirectory(dir=MEMORY) as name:
        place = Path(name)
        bench = Bench(guardian, yardstick, parts, of_rust("parts"), of_c("disk"), of_c("sqlite", "-lsqlite3"), place)
        make_all(bench)
        rows = list(of_commands(bench)) if guardian else []
        if parts:
            rows += [*of_parts(bench), *of_disk(bench), *of_lock(bench)]
        return table(rows, times, place / "output", page)
