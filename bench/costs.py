"""What bench/run measures with: the places of its files, what a run costs, and the programs that are built for it."""
import os
import platform
import resource
import shutil
import subprocess
import sys
import time
from pathlib import Path
from typing import NamedTuple

TOP = Path(__file__).resolve().parent.parent
KEPT = TOP / "out" / "bench"
PAGE = TOP / "docs" / "PERFORMANCE.md"
# Where the folders of runs are made: in memory, if the machine has a place there; None is the system's own.
MEMORY = "/dev/shm" if os.access("/dev/shm", os.W_OK | os.X_OK) else None


class Cost(NamedTuple):
    """Processor time in seconds, user and system, peak memory in kilobytes, and how long it took in seconds."""

    seconds: float
    peak: int
    took: float


def best(costs):
    return Cost(*(min(values) for values in zip(*costs)))


def measured(command, folder, source=os.devnull, out=os.devnull):
    """The cost of a command that runs in a folder, reads one file and writes another. Stops where it fails."""
    with open(source, "rb") as taken, open(out, "wb") as sink:
        began = time.monotonic()
        child = subprocess.Popen(command, stdin=taken, stdout=sink, cwd=folder)
        _, status, used = os.wait4(child.pid, 0)
        took = time.monotonic() - began
    child.returncode = status
    if status != 0:
        sys.exit(f"{' '.join(map(str, command))} < {source}: wait status {status}")
    return Cost(used.ru_utime + used.ru_stime, used.ru_maxrss, took)


def peak(cost):
    """In megabytes. A child begins with the peak of this script, so a smaller one can't be told."""
    own = resource.getrusage(resource.RUSAGE_SELF).ru_maxrss
    return f"{cost.peak / 1000:.1f}" if cost.peak > own else f"<{own / 1000:.0f}"


def in_table(cells, wide):
    """A line of a table in Markdown, with cells of these widths at least."""
    return "| " + " | ".join(cell.rjust(width) for cell, width in zip(cells, wide)) + " |"


def machine():
    """When and on what is measured."""
    with open("/proc/cpuinfo", encoding="utf-8") as info:
        model = next((line.split(":")[1].strip() for line in info if line.startswith("model name")), "of no name")
    count, release = len(os.sched_getaffinity(0)), platform.release().split("-")[0]
    return f"Measured on {time.strftime('%-d %B %Y')} on {count} processors ({model}, Linux {release});"


class Page:
    """The lines of a table as they come, printed at once, and what docs/PERFORMANCE.md then has in their place."""

    def __init__(self, name, how):
        self.name, self.lines, self.load = name, [], os.getloadavg()[0]
        print(f"\n{how}\n")

    def put(self, line):
        self.lines.append(line)
        print(line, flush=True)

    def close(self, times):
        """Ends the table with what it was measured on."""
        load = f"the load went from {self.load:.1f} to {os.getloadavg()[0]:.1f}"
        self.put("")
        self.put(machine())
        self.put(f"{load}, with `--best {times}`.")

    def write(self):
        """Puts the lines in the place of those that stand between the two comments of this name."""
        text = PAGE.read_text(encoding="utf-8")
        begin, end = f"<!-- {self.name}: begin -->\n", f"<!-- {self.name}: end -->\n"
        before, rest = text.split(begin)
        _, after = rest.split(end)
        PAGE.write_text(before + begin + "\n" + "\n".join(self.lines) + "\n\n" + end + after, encoding="utf-8")


def built(command, out):
    """The program that this command makes of a file of bench, or None, which is said, where it can't."""
    if shutil.which(command[0]) is None:
        print(f"There is no {command[0]}: {out} is left out.")
        return None
    if subprocess.run([*command, "-o", str(KEPT / out)], cwd=TOP / "bench", stderr=subprocess.PIPE).returncode != 0:
        print(f"{' '.join(command)} built nothing: {out} is left out.")
        return None
    return KEPT / out


def of_rust(name):
    return built(["rustc", "--edition", "2021", "-O", f"{name}.rs"], name)


def of_c(name, *libraries):
    return built(["cc", "-O2", f"{name}.c", *libraries], name)
