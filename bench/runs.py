"""The run's table of bench/run: whole runs of the program on large scenarios, beside bench/yardstick.rs, which does the
whole work of a run too, the book's file with it."""
import filecmp
import os
import tempfile
from pathlib import Path
from typing import NamedTuple, Optional

from costs import KEPT, MEMORY, Cost, best, in_table, measured, peak

BOOK = "guardian.book"
HOSTS, SWITCHES, FLOWS, WIDTH = 4, 16, 250, 61
PACKETS_AN_EPOCH, ASKS = 5000, 1000
# The burst of a line by its hops, so that 1,000,000 packets stay below the greatest size of a text, 16,777,216 bytes.
BURSTS = {1: 2, 4: 4, 16: 8}
SIZES = (64, 128, 576, 1500)


# ---- the scenarios -------------------------------------------------------------------------------------------------


class Case(NamedTuple):
    """A scenario to measure, and the command that is run on it."""

    packets: int
    hops: int
    rows: int
    hash: str
    pick: str
    burst: int
    command: str = "run"
    # Every packet is lost before the first hop, so that little is done but reading.
    reading: bool = False
    # The book is on a disk.
    disk: bool = False

    def words(self):
        """What tells cases apart, a word each."""
        hashed, picked = self.hash.split()[0], self.pick.split()[0]
        done = "disk" if self.disk else "reading" if self.reading else self.command
        return [done, str(self.packets), str(self.hops), str(self.rows), hashed, picked, str(self.burst)]

    def file(self):
        name = "-".join(self.words()[1:])
        return KEPT / (name + ("-reading" if self.reading else "") + ".scenario")


def kinds(most):
    """All cases of at most that many packets; those of a list differ in their size alone."""
    hashes, turns = ("ports", "seed 7"), "turns"
    found = [(hops, rows, name, turns, BURSTS[hops]) for hops in BURSTS for rows in (4, 8) for name in hashes]
    found += [(hops, 8, "seed 7", turns, 1) for hops in BURSTS]
    found += [(16, 8, name, turns, 1000) for name in hashes]
    found += [(4, 4, "seed 7", "chance 5", 4), (4, 4, "seed 7", turns, 4, "capture")]
    found += [(4, 4, "seed 7", turns, 4, "run", False, True)]
    found += [(hops, 1, "ports", turns, burst, "run", True) for hops, burst in ((1, 4), (16, 8))]
    for kind in found:
        sizes = [Case(packets, *kind) for packets in (10_000, 100_000, 1_000_000)]
        # 1,000,000 lines would be too long a text.
        yield [case for case in sizes if case.packets <= most and (case.burst > 1 or case.packets < 1_000_000)]


def numbers(seed):
    """A stream of numbers below 2^31, the same on every machine."""
    while True:
        seed = (seed * 6364136223846793005 + 1442695040888963407) % 2**64
        yield seed >> 33


def declarations(case):
    yield f"guardian 1\nshape {case.rows} {WIDTH} {case.hash}\npick {case.pick}\n"
    for host in range(HOSTS):
        yield f"host {host}\n"
    for switch in range(SWITCHES):
        yield f"switch {switch}\n"
    for flow in range(FLOWS):
        path = " ".join(str((flow + hop) % SWITCHES) for hop in range(case.hops))
        key = f"10.0.{flow % 7}.{flow} 10.1.{flow % 5}.{flow} 6 {1024 + 37 * flow} {80 + flow % 11}"
        yield f"flow {flow} {key} host {flow % HOSTS} path {path}\n"


def steps(case, draw):
    """Epochs of 5000 packets each. Of 16 lines one is lost, one comes twice and one late."""
    fates = {0: f" lost {case.hops // 2}", 1: " twice", 2: " late"}
    if case.reading:
        fates = {it: " lost 0" for it in range(16)}
    burst = f" burst {case.burst}" if case.burst > 1 else ""
    for sent in range(0, case.packets, case.burst):
        if sent > 0 and sent % PACKETS_AN_EPOCH == 0:
            yield "release\nend all\n"
        delays = " ".join(str(next(draw) % 1000) for _ in range(case.hops))
        yield f"packet {next(draw) % FLOWS} {SIZES[next(draw) % 4]} {delays}{burst}{fates.get(next(draw) % 16, '')}\n"
    epochs = max(1, case.packets // PACKETS_AN_EPOCH)
    for _ in range(ASKS):
        yield f"ask {next(draw) % FLOWS} {next(draw) % SWITCHES} {next(draw) % epochs}\n"
    yield "done\n"


def make(case):
    """Writes the scenario, unless it was written since this script was changed."""
    script = Path(__file__).stat().st_mtime
    if not case.file().exists() or case.file().stat().st_mtime < script:
        with open(KEPT / "unfinished", "w") as out:
            out.writelines(declarations(case))
            out.writelines(steps(case, numbers(case.packets + case.hops)))
        os.rename(KEPT / "unfinished", case.file())


# ---- the measurements ----------------------------------------------------------------------------------------------


def alone(program, words, source, out, place=MEMORY, listed=os.devnull):
    """The cost of a run in an empty folder of its own. Of a book that it leaves there the program then lists the
    columns, which is not counted: the records of several hosts may stand in any order."""
    with tempfile.TemporaryDirectory(dir=place) as folder:
        cost = measured([program, *words.split()], folder, source, out)
        if listed != os.devnull and (Path(folder) / BOOK).exists():
            measured([program, "list"], folder, os.devnull, listed)
        return cost


def compare(case, programs):
    """The cost of each program, run in turn, and whether their outputs and the columns of their books are the same."""
    outs, lists = ([KEPT / f"{i}.{kind}" for i in range(len(programs))] for kind in ("output", "list"))
    place, costs = KEPT if case.disk else MEMORY, []
    for program, out, listed in zip(programs, outs, lists):
        listed.write_bytes(b"")
        costs.append(alone(program, case.command, case.file(), out, place, listed))
    same = [filecmp.cmp(them[0], one, shallow=False) for them in (outs, lists) for one in them]
    return costs, all(same)


def rounds(cases, programs, times):
    """The least cost of each program in each case, and whether outputs and books were always the same.

    A round goes through all sizes, so that what else the machine does falls on all of them. Small ones are in every
    round, 1,000,000 packets in every second."""
    found = {case: [] for case in cases}
    for it in range(2 * times):
        for case in cases:
            if case.packets < 1_000_000 or it % 2 == 0:
                found[case].append(compare(case, programs))
    for case, runs in found.items():
        yield case, [best(costs) for costs in zip(*(costs for costs, _ in runs))], all(same for _, same in runs)


# ---- the table -----------------------------------------------------------------------------------------------------

HEAD = ["Command", "Hops", "Rows", "Hash", "Pick", "Burst", "10,000", "100,000", "1,000,000", "ns", "Growth"]
HEAD += ["Packets/s", "MB/s", "Peak, MB", "Its peak"]
WIDE = (7, 4, 4, 5, 6, 5, 6, 7, 9, 5, 6, 9, 5, 8, 8)


class Measured(NamedTuple):
    """What was measured of a case: the program, and the yardstick if there is one."""

    case: Case
    mine: Cost
    other: Optional[Cost]
    same: bool

    def each(self):
        return self.mine.seconds / self.case.packets

    def ratio(self):
        return self.mine.seconds / self.other.seconds if self.other else None


class Row(NamedTuple):
    """The cases that differ in their size alone, the least first."""

    cases: list

    def growth(self):
        """The greatest time a packet over that of the least size."""
        return max(it.each() for it in self.cases) / self.cases[0].each()

    def same(self):
        return all(it.same for it in self.cases)

    def line(self):
        last = self.cases[-1]
        case, mine, other = last.case, last.mine, last.other
        size = case.file().stat().st_size
        words = case.words()[:1] + case.words()[2:]
        ratios = [f"{it.ratio():.2f}" if it.other else "-" for it in self.cases]
        words += ratios + ["-"] * (3 - len(ratios))
        words += [f"{last.each() * 1e9:.0f}", f"{self.growth():.2f}", f"{1 / last.each():,.0f}"]
        words += [f"{size / mine.seconds / 1e6:.1f}", peak(mine), peak(other) if other else "-"]
        return in_table(words, WIDE)


def table(most, programs, times, page):
    """Measures the cases, and puts a line for those that differ in size alone on a page."""
    page.put(in_table(HEAD, WIDE))
    page.put(in_table(["---"] * len(WIDE), WIDE))
    rows = []
    for cases in kinds(most):
        for case in cases:
            make(case)
        found = rounds(cases, programs, times)
        rows.append(Row([Measured(case, *(costs + [None])[:2], same) for case, costs, same in found]))
        page.put(rows[-1].line())
        if not rows[-1].same():
            print(f"The outputs or the books of {rows[-1].cases[0].file().name} or a larger one differ.")
    return rows


def demonstration(program, times):
    """What `demo 1000` costs beside `run` on the text of `make 1000`, run in turn."""
    text, out = KEPT / "make-1000.scenario", KEPT / "demo.output"
    alone(program, "make 1000", os.devnull, text)
    kinds = [("demo 1000", os.devnull), ("run", text)]
    costs = [[alone(program, words, source, out) for words, source in kinds] for _ in range(times)]
    mine, read = (best(them).seconds * 1e3 for them in zip(*costs))
    return f"`demo 1000`: {mine:.1f} ms; `run` on the text of `make 1000`: {read:.1f} ms; ratio {mine / read:.2f}."


def shown(most, programs, times, page):
    """Measures, and fills a page. Says whether all outputs and books were the same."""
    rows = table(most, programs, times, page)
    # What the calls of a disk cost is the machine's, though both programs make the same ones.
    inside = [row for row in rows if not row.cases[0].case.disk]
    page.put("")
    if len(programs) > 1:
        page.put(f"- Greatest ratio: {max(it.ratio() for row in inside for it in row.cases):.2f}.")
    page.put(f"- Greatest growth: {max(row.growth() for row in inside):.2f}.")
    for it in (it for row in rows for it in row.cases if it.case.disk):
        other = f", the yardstick {it.other.took * 1e3:.0f}" if it.other else ""
        page.put(f"- On the disk {it.case.packets:,} packets took {it.mine.took * 1e3:.0f} ms by the clock{other}.")
    page.put(f"- {demonstration(programs[0], 2 * times)}")
    return all(row.same() for row in rows)
