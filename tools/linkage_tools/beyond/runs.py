"""Runs of the program over parts of the two files, each in a folder of its own that is removed; refusals by rows of the whole files."""

import hashlib
import os
import re
import resource
import shutil
import subprocess
import tempfile
import tomllib
from io import BytesIO
from pathlib import Path
from typing import NamedTuple

import numpy as np
import pandas
import tomlkit

from ..tables import Fault
from .files import put
from .source import Places, Source, range_bytes

TOO_MUCH = re.compile(r"linkage: (pairs|values|a|b): (?:more than \d+( bytes| rows)?|\d+ bytes, limit \d+)$")
AT_ROW = re.compile(r"linkage: (a|b): row (\d+): (id of row )?(.*)$")
READ_AT_ONCE = 250_000  # rows of pairs.csv
LIMIT, STORE, MEMORY = 5, 6, 8  # statuses of the program


class Work(NamedTuple):
    """What the tasks share."""

    program: str
    settings: str  # their text, without files, journal and seed of a part
    seed: int
    sources: dict[str, Source]
    folder: str
    scratch: str  # where the runs over parts write; all of it may be lost
    patterns: int
    kept: tuple[int, ...]  # patterns that can be a link or a possible link


class Ranges(NamedTuple):
    """Rows of A and of B: `a_low` up to `a_high`, and so for B."""

    a_low: int
    a_high: int
    b_low: int
    b_high: int

    def name(self) -> str:
        return f"{self.a_low}-{self.a_high}_{self.b_low}-{self.b_high}"

    def halves(self, what: str) -> list["Ranges"]:
        """Two that make it up: by the side that is too large, else by the longer one. None where there is nothing to part."""
        a, b = self.a_high - self.a_low, self.b_high - self.b_low
        if a > 1 and (what == "a" or what != "b" and a >= b):
            middle = self.a_low + a // 2
            return [self._replace(a_high=middle), self._replace(a_low=middle)]
        if b > 1 and what != "a":
            middle = self.b_low + b // 2
            return [self._replace(b_high=middle), self._replace(b_low=middle)]
        return []


class TooMuch(Exception):
    """A run was refused for a limit: its line, and what is to be less."""

    def __init__(self, line: str):
        super().__init__(line)
        self.line, self.what = line, TOO_MUCH.match(line)[1]


class Ended(Exception):
    """The program did not end by itself: killed, or for want of memory. The engine tries the task again."""


class Cost(NamedTuple):
    """What a task cost: seconds of a processor in the worker and in the program, and the worker's peak memory in MB."""

    worker: float = 0.0
    program: float = 0.0
    worker_mb: float = 0.0

    def with_other(self, other: "Cost") -> "Cost":
        return Cost(self.worker + other.worker, self.program + other.program, max(self.worker_mb, other.worker_mb))


def spent() -> tuple[float, float]:
    """The seconds of a processor of this process so far, and of the programs that it ran."""
    times = os.times()
    return times.user + times.system, times.children_user + times.children_system


def cost_since(begun: tuple[float, float]) -> Cost:
    """The cost of a task that began when so much was spent."""
    return Cost(*(now - then for now, then in zip(spent(), begun)), peak_mb())


def peak_mb() -> float:
    """The peak memory of this process so far, in MB."""
    return resource.getrusage(resource.RUSAGE_SELF).ru_maxrss / 1024


def settings_text(text: str, **changes: object) -> str:
    """Settings with some keys of the file changed, or without them where the value is None; the rest stays as it is written."""
    document, wanted = tomlkit.parse(text), tomllib.loads(text)
    for key, value in changes.items():
        if value is not None:
            wanted[key] = document[key] = value
        elif key in document:
            document.remove(key)
            wanted.pop(key)
    found = tomlkit.dumps(document)
    if tomllib.loads(found) != wanted:
        raise Fault("settings: their text cannot be changed; write its keys above the first [[field]]")
    return found


def seed_of(seed: int, name: str) -> int:
    """A seed of a part's own, of the whole's and its name."""
    return int.from_bytes(hashlib.sha256(f"{seed} {name}".encode()).digest()[:8]) >> 1


def call(work: Work, folder: Path, *words: str) -> str:
    """What the program prints in a folder. TooMuch, Ended; Fault: any other refusal, as the program tells it."""
    ended = subprocess.run([work.program, *words], cwd=folder, stdin=subprocess.DEVNULL, capture_output=True, check=False)
    said = ended.stderr.decode("utf-8", "replace").strip()
    if ended.returncode < 0 or ended.returncode == MEMORY:
        raise Ended(f"linkage {' '.join(words)} in {folder}: {said or f'killed by signal {-ended.returncode}'}")
    if ended.returncode == LIMIT and TOO_MUCH.match(said):
        raise TooMuch(said)
    if ended.returncode == STORE:
        free = shutil.disk_usage(folder).free // 2**20
        raise Fault(f"{said.removeprefix('linkage: ')} in {folder}, where {free} MB are free: make room, and start again")
    if ended.returncode:
        raise Fault(said or f"linkage {' '.join(words)} in {folder}: {ended.stdout.decode('utf-8', 'replace').strip()}")
    return ended.stdout.decode("latin-1")


def in_whole(fault: Fault, ranges: Ranges) -> Fault:
    """A refusal over a part, told by the rows of the whole."""
    found = AT_ROW.match(fault.text)
    if not found:
        return Fault(fault.text.removeprefix("linkage: "))
    side, row, of_row, cause = found.groups()
    low = ranges.a_low if side == "a" else ranges.b_low
    cause = f"{of_row}{low + int(cause)}" if of_row else cause
    return Fault(f"{side}: row {low + int(row)}: {cause}")


def run_part(work: Work, ranges: Ranges, folder: Path) -> None:
    """Runs the program over two ranges in a folder. Fault, told by rows of the whole; TooMuch; Ended."""
    text = settings_text(work.settings, file_a="a.csv", file_b="b.csv", journal=None, seed=seed_of(work.seed, ranges.name()))
    (folder / "settings.toml").write_text(text, encoding="utf-8")
    (folder / "a.csv").write_bytes(range_bytes(work.sources["a"], ranges.a_low, ranges.a_high))
    (folder / "b.csv").write_bytes(range_bytes(work.sources["b"], ranges.b_low, ranges.b_high))
    try:
        call(work, folder, "run", "settings.toml")
    except Fault as fault:
        raise in_whole(fault, ranges) from fault
    rows = report_of(folder)["rows"]
    if rows != [ranges.a_high - ranges.a_low, ranges.b_high - ranges.b_low]:
        raise Fault(f"rows {ranges.name()} of A and B are {rows} to the program: look for quotes in the midst of fields there")


def report_of(folder: Path) -> dict[str, list[int]]:
    """The first sixteen lines of a report."""
    with (folder / "report.txt").open(encoding="latin-1") as lines:
        return {words[0]: [int(it) for it in words[1:]] for words, _ in zip(map(str.split, lines), range(16))}


def check(work: Work, ranges: Ranges, out: str) -> Cost:
    """Runs the program over a range of one side and no row of the other: its first fault, and its dates that cannot be read.

    Writes `out`: a line with the two counts of `unreadable`, and below it the report of the run.
    """
    begun = spent()
    with tempfile.TemporaryDirectory(dir=work.scratch) as name:
        folder = Path(name)
        try:
            run_part(work, ranges, folder)
        except TooMuch as refused:
            return checked_by_halves(work, ranges, out, refused)
        found = report_of(folder)
        put(Path(out), ("{} {}\n".format(*found["unreadable"]) + (folder / "report.txt").read_text()).encode())
    return cost_since(begun)


def checked_by_halves(work: Work, ranges: Ranges, out: str, refused: TooMuch) -> Cost:
    """As `check`, in two parts. Fault: a single row is too much."""
    parts = halves_of(ranges, refused)
    costs = [check(work, part, f"{out}.{number}") for number, part in enumerate(parts)]
    texts = [Path(f"{out}.{number}").read_text(encoding="utf-8") for number in range(2)]
    counts = [sum(map(int, pair)) for pair in zip(*(it.split("\n")[0].split() for it in texts))]
    put(Path(out), ("{} {}\n".format(*counts) + texts[0].split("\n", 1)[1]).encode())
    return costs[0].with_other(costs[1])


def halves_of(ranges: Ranges, refused: TooMuch) -> list[Ranges]:
    """The halves of ranges that are too much. Fault: there are none."""
    parts = ranges.halves(refused.what)
    if not parts:
        where = f"row {ranges.a_low + 1} of A" if refused.what != "b" else f"row {ranges.b_low + 1} of B"
        raise Fault(f"{where} alone: {refused.line.removeprefix('linkage: ')}")
    return parts


class Kept(NamedTuple):
    """What is kept of the compared pairs of two ranges: rows of A and B and the pattern; and how many pairs each pattern has."""

    a: np.ndarray
    b: np.ndarray
    pattern: np.ndarray
    counts: np.ndarray


def compare(work: Work, ranges: Ranges, out: str) -> Cost:
    """Runs the program over two ranges, and writes what is kept of the pairs."""
    begun = spent()
    kept, runs = compared(work, ranges)
    held = BytesIO()
    np.savez(held, **kept._asdict(), runs=runs)
    put(Path(out), held.getvalue())
    return cost_since(begun)


def compared(work: Work, ranges: Ranges) -> tuple[Kept, int]:
    """What is kept of the pairs of two ranges, and the runs that it took; parts that are too much are cut in two."""
    with tempfile.TemporaryDirectory(dir=work.scratch) as name:
        try:
            run_part(work, ranges, Path(name))
            return kept_of(work, ranges, Path(name)), 1
        except TooMuch as refused:
            parts = halves_of(ranges, refused)
    found = [compared(work, part) for part in parts]
    joined = [np.concatenate([kept[at] for kept, _ in found]) for at in range(3)]
    return Kept(*joined, sum(kept.counts for kept, _ in found)), 1 + sum(runs for _, runs in found)


def kept_of(work: Work, ranges: Ranges, folder: Path) -> Kept:
    """What is kept of pairs.csv, whose rows are taken in some at a time."""
    is_kept = np.zeros(work.patterns, bool)
    is_kept[list(work.kept)] = True
    rows = {"a": np.arange(ranges.a_low, ranges.a_high), "b": np.arange(ranges.b_low, ranges.b_high)}
    places = [Places(work.sources[side], some) for side, some in rows.items()]
    counts, found = np.zeros(work.patterns, np.int64), []
    how = {"usecols": ["id_a", "id_b", "pattern"], "dtype": {"id_a": str, "id_b": str, "pattern": np.int32}, "na_filter": False}
    for rows in pandas.read_csv(folder / "pairs.csv", encoding="latin-1", chunksize=READ_AT_ONCE, **how):
        pattern = rows["pattern"].to_numpy()
        counts += np.bincount(pattern, minlength=work.patterns)
        rows, pattern = rows[is_kept[pattern]], pattern[is_kept[pattern]]
        found.append((places[0].of(rows["id_a"]), places[1].of(rows["id_b"]), pattern))
    if any((rows < 0).any() for it in found for rows in it[:2]):
        raise Fault(f"an id of pairs.csv over rows {ranges.name()} is none of the files")
    if not found:
        return Kept(*(np.zeros(0, np.int64) for _ in range(3)), counts)
    return Kept(*(np.concatenate([it[at] for it in found]) for at in range(3)), counts)
