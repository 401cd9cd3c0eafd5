"""Jobs: ordinary folders, each of whole components, that the program runs and verifies; and where what it wrote stands in the whole."""

import csv
import hashlib
import io
import re
import shutil
from functools import lru_cache
from pathlib import Path
from typing import NamedTuple

import numpy as np

from ..job import OUTPUTS
from ..tables import Fault, written
from .files import put
from .parts import Plan, read_plan
from .runs import Cost, TooMuch, Work, call, cost_since, report_of, seed_of, settings_text, spent
from .source import Places, Source, raw_records, records_at, rows_bytes

COUNTS = ("link", "possible", "open", "entries", "idle", "links", "total")  # lines of a report that are added up
INPUTS = ("a.csv", "b.csv", "settings.toml")  # stay as they were made; a review changes the journal alone


class Task(NamedTuple):
    """A job to be done: its name, and the components that it takes."""

    name: str
    low: int
    high: int


class Done(NamedTuple):
    """A job that is done, the components that it has, and what it cost; a job that was too much comes as several."""

    task: Task
    cost: Cost


@lru_cache(maxsize=1)
def plan_at(path: str) -> Plan:
    return read_plan(Path(path))


def digests_of(folder: Path) -> list[str]:
    """Digests of a job's inputs, and of its journal and what was written."""
    found = []
    for names in (INPUTS, ("journal.csv", *OUTPUTS)):
        digest = hashlib.sha256()
        for name in names:
            path = folder / name
            digest.update(name.encode() + (path.read_bytes() if path.is_file() else b"none"))
        found.append(digest.hexdigest())
    return found


def is_done(folder: Path, name: str) -> bool:
    """Whether a job is done, and its files are as they were left. Fault: its inputs are not."""
    mark = folder / "done" / f"{name}.sha256"
    if not mark.is_file():
        return False
    then, now = mark.read_text(encoding="ascii").split(), digests_of(folder / "jobs" / name)
    if then[0] != now[0]:
        raise Fault(f"job {name}: {', '.join(INPUTS)} are not as they were made: put them back")
    return then == now


def work_job(work: Work, task: Task) -> list[Done]:
    """Makes a job where it is not there, runs and verifies it, and writes where its results stand. One that is too much becomes two."""
    folder = Path(work.folder)
    if is_done(folder, task.name):
        return [Done(task, Cost())]
    begun = spent()
    final = folder / "jobs" / task.name
    try:
        place = final if final.is_dir() else made(work, task)
        do(work, task, place)
    except TooMuch as refused:
        if final.is_dir():
            raise Fault(f"job {task.name}: {refused.line}") from refused
        return by_halves(work, task, refused)
    if place != final:
        place.rename(final)
    put(folder / "done" / f"{task.name}.sha256", " ".join(digests_of(final)).encode())
    return [Done(task, cost_since(begun))]


def by_halves(work: Work, task: Task, refused: TooMuch) -> list[Done]:
    """A job as two: the components by turns. Fault: it has but one."""
    shutil.rmtree(Path(work.folder) / "jobs" / f"{task.name}.new")
    if task.high - task.low < 2:
        raise Alone(task.low, refused.line)
    plan = plan_at(f"{work.folder}/plan.npz")
    sizes = np.cumsum(plan.sizes()[task.low:task.high])
    middle = task.low + min(int(np.searchsorted(sizes, sizes[-1] / 2)) + 1, len(sizes) - 1)
    parts = [Task(f"{task.name}.1", task.low, middle), Task(f"{task.name}.2", middle, task.high)]
    return [done for part in parts for done in work_job(work, part)]


class Alone(Exception):
    """A component alone is too much for a job."""

    def __init__(self, component: int, line: str):
        super().__init__(component, line)
        self.component, self.line = component, line


def made(work: Work, task: Task) -> Path:
    """A new folder with the inputs of a job; beside its name, for it may be too much."""
    place = Path(work.folder) / "jobs" / f"{task.name}.new"
    shutil.rmtree(place, ignore_errors=True)
    place.mkdir(parents=True)
    rows = plan_at(f"{work.folder}/plan.npz").rows(task.low, task.high)
    for side, some in zip("ab", rows):
        (place / f"{side}.csv").write_bytes(rows_bytes(work.sources[side], some))
    names = {"file_a": "a.csv", "file_b": "b.csv", "journal": "journal.csv", "seed": seed_of(work.seed, task.name)}
    (place / "settings.toml").write_text(settings_text(work.settings, **names), encoding="utf-8")
    (place / "journal.csv").write_bytes(journal_of(work, task))
    return place


def entries_of(work: Work, task: Task) -> list[int]:
    """The numbers, from 1, of the whole's entries that are a job's own."""
    path = Path(work.folder) / "entries.npy"
    ranks = np.load(path) if path.is_file() else np.zeros(0, np.int64)
    return (np.flatnonzero((ranks >= task.low) & (ranks < task.high)) + 1).tolist()


def journal_of(work: Work, task: Task) -> bytes:
    """The entries of the whole's journal that are a job's own, numbered anew; an empty text where there is none."""
    wanted = set(entries_of(work, task))
    if not wanted:
        return b""
    rows = [row for _, _, row in records_at(Path(work.folder) / "given_journal.csv")]
    place = rows[0].index("number")
    own = [row for number, row in enumerate(rows[1:], 1) if number in wanted]
    for number, row in enumerate(own, 1):
        row[place] = str(number)
    return written([rows[0], *own]).encode("latin-1")


def do(work: Work, task: Task, place: Path) -> None:
    """Runs and verifies a job, lists what is open, and writes where all stands in the whole."""
    try:
        call(work, place, "run", "settings.toml")
        said, opened = (call(work, place, word, "settings.toml") for word in ("verify", "open"))
    except Fault as fault:
        found = re.match(r"linkage: journal: row (\d+): (.*)$", fault.text)
        own = entries_of(work, task)
        is_given = found is not None and int(found[1]) <= len(own)
        raise Fault(f"journal: row {own[int(found[1]) - 1]}: {found[2]}" if is_given else f"job {task.name}: {fault.text}") from fault
    if said != "yes\n":
        raise Fault(f"job {task.name}: verify says {said.strip()}")
    results = Path(work.folder) / "done"
    put(results / f"{task.name}.open.csv", opened.encode("latin-1"))
    held = io.BytesIO()
    np.savez(held, **standing(work.sources, plan_at(f"{work.folder}/plan.npz").rows(task.low, task.high), place, opened))
    put(results / f"{task.name}.npz", held.getvalue())


def standing(sources: dict[str, Source], rows: tuple[np.ndarray, np.ndarray], place: Path, opened: str) -> dict[str, np.ndarray]:
    """The rows of A and B of each link, open pair and dropped candidate, and the row of each price, in the order of their files."""
    places = {side: Places(sources[side], some) for side, some in zip("ab", rows)}
    links = [cells for _, cells in raw_records(place / "links.csv")][1:]
    prices = [cells for _, cells in raw_records(place / "prices.csv")][1:]
    dropped = [cells for _, cells in raw_records(place / "report.txt")][16:]
    waiting = list(csv.reader(io.StringIO(opened, newline="")))[1:]
    found = {}
    for name, cells in (("links", links), ("open", waiting), ("dropped", dropped)):
        found[f"{name}_a"], found[f"{name}_b"] = (places[side].of(row[at] for row in cells) for at, side in enumerate("ab"))
    for side, letter in (("a", "A"), ("b", "B")):
        found[f"prices_{side}"] = places[side].of(row[1] for row in prices if row[0] == letter)
    if any((it < 0).any() for it in found.values()):
        raise Fault(f"an id that the program wrote into {place} is none of the job's")
    report = report_of(place)
    found["report"] = np.array([report[key][0] for key in COUNTS])
    return found
