"""What comes back of all jobs: links, prices, open pairs, the journal and a report, in the forms of the program and the order of A."""

import heapq
import os
import resource
from collections.abc import Iterable, Iterator
from pathlib import Path

import numpy as np

from ..tables import written
from .files import put
from .jobs import COUNTS, Task
from .parts import Plan
from .source import raw_records, records_at

LEVELS = ("mu", "lambda", "possible_m", "possible_u")
SPARE_FILES = 64  # open files that are not of a merge


def results_of(folder: Path, task: Task) -> dict[str, np.ndarray]:
    with np.load(folder / "done" / f"{task.name}.npz") as held:
        return {name: held[name] for name in held.files}


def put_records(path: Path, head: bytes, records: Iterable[bytes]) -> None:
    """Writes a file record by record, as a whole or not at all."""
    new = path.with_name(path.name + ".new")
    with new.open("wb") as file:
        file.write(head)
        file.writelines(records)
        file.flush()
        os.fsync(file.fileno())
    new.replace(path)


def placed(rows: Iterable[tuple[int, ...]], records: Iterator[tuple[bytes, list[str]]]) -> Iterator[tuple[tuple[int, ...], bytes]]:
    """Records beside the rows of the whole where they stand."""
    return ((row, data) for row, (data, _) in zip(rows, records, strict=True))


def merged(streams: list[Iterator[tuple[tuple[int, ...], bytes]]]) -> Iterator[bytes]:
    """The records of streams that rise, rising. Each stream is an open file."""
    soft, hard = resource.getrlimit(resource.RLIMIT_NOFILE)
    if soft < len(streams) + SPARE_FILES:
        resource.setrlimit(resource.RLIMIT_NOFILE, (min(len(streams) + SPARE_FILES, hard), hard))
    return (data for _, data in heapq.merge(*streams))


def skipped(records: Iterator[tuple[bytes, list[str]]], count: int) -> Iterator[tuple[bytes, list[str]]]:
    """Records without the first ones."""
    for _ in range(count):
        next(records)
    return records


def pairs_stream(folder: Path, task: Task, name: str, path: Path, head: int) -> Iterator[tuple[tuple[int, ...], bytes]]:
    """The records of a job's file of pairs by where they stand in the whole."""
    found = results_of(folder, task)
    return placed(zip(found[f"{name}_a"].tolist(), found[f"{name}_b"].tolist()), skipped(raw_records(path), head))


def prices_stream(folder: Path, task: Task, side: str) -> Iterator[tuple[tuple[int, ...], bytes]]:
    """The prices of a job on one side by where they stand in the whole."""
    rows = results_of(folder, task)[f"prices_{side}"].tolist()
    records = skipped(raw_records(folder / "jobs" / task.name / "prices.csv"), 1)
    return placed(((row,) for row in rows), (it for it in records if it[1][0] == side.upper()))


def write_tables(folder: Path, tasks: list[Task]) -> None:
    """Writes links.csv, prices.csv and open.csv of the whole."""
    jobs = folder / "jobs"
    streams = [pairs_stream(folder, it, "links", jobs / it.name / "links.csv", 1) for it in tasks]
    put_records(folder / "links.csv", b"id_a,id_b,weight,value,by\n", merged(streams))
    sides = [merged([prices_stream(folder, it, side) for it in tasks]) for side in "ab"]
    put_records(folder / "prices.csv", b"side,id,price\n", (data for side in sides for data in side))
    streams = [pairs_stream(folder, it, "open", folder / "done" / f"{it.name}.open.csv", 1) for it in tasks]
    put_records(folder / "open.csv", b"id_a,id_b,pattern,weight\n", merged(streams))


def write_journal(folder: Path, tasks: list[Task], idle: list[list[str]]) -> None:
    """Writes the entries of all jobs, and those that stand in no job, as one journal: by day, those on one pair in their order."""
    head, found = ["number", "date", "reviewer", "step", "id_a", "id_b", "verdict"], list(idle)
    for task in tasks:
        rows = [cells for _, _, cells in records_at(folder / "jobs" / task.name / "journal.csv")]
        found += [entry_of(dict(zip(rows[0], row))) for row in rows[1:]]
    found.sort(key=lambda row: row[0])
    rows = [head, *([str(number), *row] for number, row in enumerate(found, 1))] if found else []
    put(folder / "journal.csv", written(rows).encode("latin-1"))


def entry_of(cells: dict[str, str]) -> list[str]:
    """An entry of a journal of either version, without its number."""
    return [cells["date"], cells["reviewer"], cells.get("step", "single"), cells["id_a"], cells["id_b"], cells["verdict"]]


def write_jobs(folder: Path, tasks: list[Task], plan: Plan) -> None:
    """Writes a table of the jobs: what each takes in, and what it came to."""
    head = ["job", "components", "rows_a", "rows_b", "kept_pairs", *COUNTS, "verify"]
    rows = []
    for task in tasks:
        sizes = [int(ends[task.high] - ends[task.low]) for ends in (plan.ends_a, plan.ends_b)]
        pairs = int(plan.pairs[task.low:task.high].sum())
        rows.append([task.name, task.high - task.low, *sizes, pairs, *results_of(folder, task)["report"].tolist(), "yes"])
    put(folder / "jobs.csv", written([head, *rows]).encode())


def write_report(folder: Path, tasks: list[Task], facts: dict[str, list[int]], idle: int) -> dict[str, int]:
    """Writes the report of the whole, in the lines of the program's own, and gives its counts.

    `facts` has rows, unreadable, pairs and the levels. A compared pair that is in no job, or not kept, is a non-link.
    """
    sums = {name: 0 for name in COUNTS}
    for task in tasks:
        for name, value in zip(COUNTS, results_of(folder, task)["report"].tolist()):
            sums[name] += value
    sums["entries"] += idle
    sums["idle"] += idle
    sums["pairs"] = facts["pairs"][0]
    sums["nonlink"] = sums["pairs"] - sums["link"] - sums["possible"]
    sums["dropped"] = sum(len(results_of(folder, it)["dropped_a"]) for it in tasks)
    lines = [("rows", facts["rows"]), ("unreadable", facts["unreadable"])]
    lines += [(name, [sums[name]]) for name in ("pairs", "link", "possible", "nonlink", "open", "entries", "idle")]
    lines += [(name, facts[name]) for name in LEVELS] + [(name, [sums[name]]) for name in ("links", "total", "dropped")]
    streams = [pairs_stream(folder, it, "dropped", folder / "jobs" / it.name / "report.txt", 16) for it in tasks]
    text = "".join(f"{name} {' '.join(map(str, values))}\n" for name, values in lines)
    put_records(folder / "report.txt", text.encode(), merged(streams))
    return sums
