"""The steps of linkage beyond one run, each of which leaves files that are whole, so that a command that stopped goes on where it was."""

import contextlib
import json
import os
import shutil
import time
from collections.abc import Iterator
from pathlib import Path

import numpy as np

from ..job import Cell, Job, cells_of, program
from ..tables import Fault, records
from ..words import tell
from .begin import Whole
from .engine import all_of, each, engine
from .files import put
from .jobs import Alone, Task, work_job
from .parts import Plan, plan_of, read_plan, too_large, write_plan
from .runs import Cost, Kept, Ranges, Work, call, check, compare, peak_mb, settings_text
from .source import Places, Source, numbers, scan
from .whole import LEVELS, write_jobs, write_journal, write_report, write_tables

MOST_BYTES = 2**26 - 2**16  # of the rows of a part; the program takes 2**26 bytes with the header
MOST_KEPT = 1_000_000  # kept pairs of a job
COST_HEAD = "step,tasks,seconds,worker_seconds,program_seconds,driver_mb,worker_mb\n"


@contextlib.contextmanager
def step(whole: Whole, name: str) -> Iterator[list[Cost]]:
    """A step, which hands over what its tasks cost; says what it took, and keeps it for cost.csv."""
    begun, costs = time.monotonic(), []
    yield costs
    total, seconds = Cost(), time.monotonic() - begun
    for cost in costs:
        total = total.with_other(cost)
    cells = f"{len(costs)},{seconds:.1f},{total.worker:.1f},{total.program:.1f},{peak_mb():.0f},{total.worker_mb:.0f}"
    whole.costs.append(f"{name},{cells}\n")
    tell("beyond", f"{name}: {len(costs)} tasks, {seconds:.1f} s")


def rule_of(whole: Whole, work: Work) -> list[Cell]:
    """The rule, which the program prints; its refusal of the settings, where they are at fault."""
    place = Path(work.scratch)
    (place / "settings.toml").write_text(settings_text(whole.text, journal=None), encoding="utf-8")
    try:
        printed = call(work, place, "rule", "settings.toml")
    except Fault as fault:
        raise Fault(fault.text.removeprefix("linkage: ")) from fault
    rows = records(printed)
    next(rows)
    return cells_of("rule.csv", rows)


def scan_side(_: None, side: str, path: str, sign: str, column: str, index: str) -> Source:
    """Finds the rows of a file, where that was not done before."""
    kept = Path(index) / "source.json"
    if kept.is_file():
        source = Source(**json.loads(kept.read_text(encoding="utf-8")))
        return source._replace(path=path, index=index, head=tuple(source.head))
    source = scan(side, path, sign, column, index)
    put(kept, json.dumps(source._asdict()).encode())
    return source


def parts_of(source: Source, most_rows: int) -> list[tuple[int, int]]:
    """Ranges of a file of about equal rows, of at most so many and of at most MOST_BYTES; one of no row where it has none."""
    starts = numbers(source.index, "starts")
    count = -(-source.rows // most_rows) or 1
    ends, found = np.linspace(0, source.rows, count + 1).astype(int).tolist(), []
    for low, end in zip(ends, ends[1:]):
        while low < end:
            high = int(np.searchsorted(starts[low:end + 1], int(starts[low]) + MOST_BYTES, "right")) - 1 + low
            found.append((low, min(max(high, low + 1), end)))
            low = found[-1][1]
    return found or [(0, 0)]


def find_rows(whole: Whole, client, work: Work) -> Work:
    """The first step: where each row begins, and that no id stands twice."""
    with step(whole, "rows"):
        items = [(side, str(whole.paths[side]), whole.settings.signs[side], whole.settings.ids[side], f"{work.folder}/index_{side}")
                 for side in "ab"]
        found = all_of(client, scan_side, None, items)
    return work._replace(sources=dict(zip("ab", found)))


def check_parts(whole: Whole, client, work: Work) -> dict[str, list[int]]:
    """The second: the program reads each part alone, so that a fault is told by its row. Gives rows, unreadable dates and levels."""
    items, outs = [], {"a": [], "b": []}
    for side in "ab":
        for low, high in parts_of(work.sources[side], whole.words.rows):
            out = f"{work.folder}/checked/{side}_{low}-{high}"
            outs[side].append(out)
            items.append((Ranges(low, high, 0, 0) if side == "a" else Ranges(0, 0, low, high), out))
    with step(whole, "check") as costs:
        costs += all_of(client, check, work, [it for it in items if not os.path.exists(it[1])])
    texts = {side: [Path(it).read_text(encoding="utf-8").split("\n") for it in outs[side]] for side in "ab"}
    levels = {words[0]: [int(it) for it in words[1:]] for words in map(str.split, texts["a"][0][1:]) if words and words[0] in LEVELS}
    unreadable = [sum(int(lines[0].split()[at]) for lines in texts[side]) for at, side in enumerate("ab")]
    return {"rows": [work.sources[side].rows for side in "ab"], "unreadable": unreadable, **levels}


def compare_parts(whole: Whole, client, work: Work) -> list[str]:
    """The third: the pairs of each part of A with each part of B. Gives where what is kept of them stands."""
    parts = {side: parts_of(work.sources[side], whole.words.rows) for side in "ab"}
    ranges = [Ranges(*a, *b) for a in parts["a"] for b in parts["b"]]
    items = [(it, f"{work.folder}/compared/{it.name()}.npz") for it in ranges]
    with step(whole, "compare") as costs:
        costs += [cost for _, cost in each(client, compare, work, [it for it in items if not os.path.exists(it[1])])]
    return [out for _, out in items]


def read_kept(outs: list[str], with_pairs: bool = True) -> Kept:
    """What is kept of all pairs, or the counts alone."""
    counts, found = 0, []
    for out in outs:
        with np.load(out) as held:
            counts = counts + held["counts"]
            if with_pairs:
                found.append((held["a"].astype(np.int64), held["b"].astype(np.int64), held["pattern"].astype(np.int16)))
    return Kept(*(np.concatenate(it) for it in zip(*found)), counts) if found else Kept(*[np.zeros(0, np.int64)] * 3, counts)


def plan_jobs(whole: Whole, work: Work, outs: list[str], rule: list[Cell]) -> Plan:
    """The fourth: whole components, packed into jobs. Fault: one is too large for any."""
    path, most = whole.folder / "plan.npz", whole.words.job_rows
    with step(whole, "components"):
        if path.exists():
            return read_plan(path)
        kept = read_kept(outs)
        plan = plan_of(kept, *(work.sources[side].rows for side in "ab"), most, MOST_KEPT)
        if len(plan.pairs) and plan.sizes()[0] > most:
            raise too_large(whole.folder, plan, 0, kept, work.sources, rule, most)
        del kept
        write_plan(path, plan)
        return plan


def split_journal(whole: Whole, work: Work, plan: Plan) -> list[list[str]]:
    """Finds the component of each entry of the journal. Gives those that stand in no job, without their numbers: they are idle."""
    entries = Job(whole.words.settings).journal()
    if not entries:
        return []
    shutil.copyfile(whole.settings.journal, whole.folder / "given_journal.csv")
    ranks = []
    for at, (side, rows, ends) in enumerate((("a", plan.rows_a, plan.ends_a), ("b", plan.rows_b, plan.ends_b))):
        source = work.sources[side]
        of_row = np.full(source.rows, -1 - at, np.int64)
        of_row[rows] = np.repeat(np.arange(len(ends) - 1), np.diff(ends))
        found = Places(source, np.arange(source.rows)).of(as_latin(it.pair[at]) for it in entries)
        if (found < 0).any():
            raise Fault(f"journal: row {int(np.argmax(found < 0)) + 1}: unknown id_{side}")
        ranks.append(of_row[found])
    one = np.where(ranks[0] == ranks[1], ranks[0], -1)
    np.save(whole.folder / "entries.npy", one)
    idle = [entries[int(at)] for at in np.flatnonzero(one < 0)]
    return [[it.date, *map(as_latin, (it.reviewer, it.step, *it.pair, it.verdict))] for it in idle]


def as_latin(text: str) -> str:
    """A text as Latin-1, a letter a byte."""
    return text.encode("utf-8", "surrogateescape").decode("latin-1")


def work_jobs(whole: Whole, client, work: Work, plan: Plan, outs: list[str], rule: list[Cell]) -> list[Task]:
    """The fifth: each job is run and verified. Gives the jobs that there are, in their order."""
    tasks = [Task(f"{number:04}", int(low), int(high)) for number, (low, high) in enumerate(zip(plan.jobs, plan.jobs[1:]), 1)]
    found: list[Task] = []
    with step(whole, "jobs") as costs:
        try:
            for _, several in each(client, work_job, work, [(it,) for it in tasks]):
                found += [done.task for done in several]
                costs += [done.cost for done in several]
        except Alone as alone:
            most = min(whole.words.job_rows, int(plan.sizes()[alone.component]) // 2)
            raise too_large(whole.folder, plan, alone.component, read_kept(outs), work.sources, rule, most) from alone
    return sorted(found, key=lambda it: it.low)


def link(whole: Whole, scratch: str) -> None:
    """All steps."""
    work = Work(program(), whole.text, whole.settings.seed, {}, str(whole.folder), scratch, 0, ())
    rule = rule_of(whole, work)
    work = work._replace(patterns=max(it.pattern for it in rule) + 1, kept=tuple(it.pattern for it in rule if it.link or it.possible))
    words = whole.words
    with engine(words.workers, words.scheduler, words.page, work.scratch) as client:
        if words.page or words.scheduler:
            tell("beyond", f"progress: {client.dashboard_link}")
        work = find_rows(whole, client, work)
        facts = check_parts(whole, client, work)
        outs = compare_parts(whole, client, work)
        facts["pairs"] = [int(read_kept(outs, False).counts.sum())]
        plan = plan_jobs(whole, work, outs, rule)
        idle = split_journal(whole, work, plan)
        tasks = work_jobs(whole, client, work, plan, outs, rule)
    with step(whole, "whole"):
        write_tables(whole.folder, tasks)
        write_journal(whole.folder, tasks, idle)
        write_jobs(whole.folder, tasks, plan)
        sums = write_report(whole.folder, tasks, facts, len(idle))
    put(whole.folder / "cost.csv", (COST_HEAD + "".join(whole.costs)).encode())
    tell("beyond", f"{len(tasks)} jobs, all verified: {sums['links']} links, total {sums['total']}, {sums['open']} open")
