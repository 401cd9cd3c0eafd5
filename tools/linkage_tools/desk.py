"""One page for clerical review: the open pairs of a job with both records of each, in one file that needs no network.

The page is desk.html, desk.css and desk.js of this folder put together, and the data of the job. What stands in it, its keys and how
to protect it is in docs/DESK.md. Open pairs, weights and patterns are asked of the program; what it decided of the other compared pairs
and which pairs are linked is read from pairs.csv and links.csv of the last run, where they fit what the program says now.
"""

import argparse
import base64
import hashlib
import html
import json
import os
import re
import tempfile
from collections.abc import Iterable, Iterator
from dataclasses import dataclass, field
from pathlib import Path
from typing import Any

from .job import Compared, Entry, Job, Link, Open, Pair, Records, cells_of
from .settings import Field
from .tables import Fault, load, records, shown
from .words import Words, tell

ABOUT = """Writes one self-contained page for clerical review of the pairs that wait for a verdict (linkage open SETTINGS): both records
side by side, link, nonlink or open by a key, and the file that linkage review takes. The page holds personal data: it is written for
its owner's eyes alone (mode 600); delete it after the review. docs/DESK.md says more."""
PIECES = Path(__file__).resolve().parent
BEGINNING = "<!doctype html>\n<!-- a page of the tool desk"
MOST_PAIRS = 100_000
MOST_CANDIDATES = 30  # of one record that are in the page
MOST_SIGNS = 1_000  # of a cell of a column that is not compared
RANKS = {"link": 0, "possible": 1, "nonlink": 2}


@dataclass
class Around:
    """The compared pairs around those of the page, and the links, as the last run wrote them.

    `lack` is empty, or why there are none: then the compared pairs are those of the page alone, and no record counts as linked.
    """

    links: dict[Pair, str] = field(default_factory=dict)  # by rule or review
    found: list[Compared] = field(default_factory=list)
    counts: tuple[dict[str, int], dict[str, int]] = field(default_factory=lambda: ({}, {}))  # compared pairs of a record of A, of B
    lack: str = ""


def for_reviewer(job: Job, waiting: list[Open], reviewer: str) -> list[Open]:
    """The open pairs that a reviewer is asked about: with `double = true` those whose last entry is not a first verdict of her own."""
    if not job.settings.double:
        return waiting
    last = job.standing()
    own = {pair for pair, entry in last.items() if entry.step == "first" and entry.reviewer == reviewer}
    return [it for it in waiting if it.pair not in own]


def turns(entries: Iterable[Entry], double: bool, reviewer: str) -> dict[Pair, int]:
    """How many verdicts of the journal there are on a pair; where two reviewers are asked, how many of her own, for she must not see that
    there are others. What a browser kept of an earlier turn counts no more."""
    found: dict[Pair, int] = {}
    for entry in entries:
        if not double or entry.reviewer == reviewer:
            found[entry.pair] = found.get(entry.pair, 0) + 1
    return found


def left_open(entries: Iterable[Entry], double: bool) -> dict[Pair, str]:
    """What is said of a pair that the journal left open; nothing where each reviewer is to judge without the other."""
    last = {entry.pair: entry for entry in entries}
    return {} if double else {pair: f"In the journal: left open on {it.date} by {shown(it.reviewer)}"
                              for pair, it in last.items() if it.verdict == "open"}


def best(found: list[tuple[tuple[int, int, int], Compared]]) -> list[tuple[tuple[int, int, int], Compared]]:
    """The candidates of a record that the page has: linked ones first, then by decision and weight."""
    return sorted(found, key=lambda it: it[0])[:MOST_CANDIDATES]


def fitting(job: Job, waiting: list[Open], links: list[Link]) -> Iterator[Compared]:
    """The compared pairs of pairs.csv. Fault: open pairs or links are not as they are there, so it is of another run."""
    lacking, unlinked = {it.pair: it for it in waiting}, {it.pair: it.weight for it in links}
    decided = {pair for pair, entry in job.standing().items() if entry.stands() != "open"}
    lack = Fault(f"pairs.csv and links.csv are not of a run over these files and settings: linkage run {job.name}")
    for it in job.pairs():
        wanted = lacking.pop(it.pair, None)
        differs = wanted and (wanted.pattern, wanted.weight, "possible") != (it.pattern, it.weight, it.decision)
        is_known = it.pair[0] in job.a.at and it.pair[1] in job.b.at
        is_no_more = it.decision == "possible" and wanted is None and it.pair not in decided
        if differs or is_no_more or not is_known or unlinked.pop(it.pair, it.weight) != it.weight:
            raise lack
        yield it
    if lacking or unlinked:
        raise lack


def around(job: Job, waiting: list[Open], asked: list[Open], links: list[Link], now: dict[Pair, str]) -> Around:
    """What the last run says of the pairs around those of the page; `now` are the links that still are. Fault: as of `fitting`."""
    result = Around(now)
    sides = ({it.pair[0] for it in asked}, {it.pair[1] for it in asked})
    kept: tuple[dict[str, list], dict[str, list]] = ({}, {})
    for it in fitting(job, waiting, links):
        rank = (0 if it.pair in now else 1, RANKS.get(it.decision, 3), -it.weight)
        for side in (0, 1):
            key = it.pair[side]
            if key in sides[side]:
                result.counts[side][key] = result.counts[side].get(key, 0) + 1
                held = kept[side].setdefault(key, [])
                held.append((rank, it))
                if len(held) > 4 * MOST_CANDIDATES:
                    held[:] = best(held)
    result.found = [it for side in kept for held in side.values() for _, it in best(held)]
    return result


def among(asked: list[Open], lack: str) -> Around:
    """The pairs of the page as all that is known around them."""
    result = Around(lack=lack)
    for it in asked:
        for side in (0, 1):
            result.counts[side][it.pair[side]] = result.counts[side].get(it.pair[side], 0) + 1
    return result


def in_order(mine: list[Open], linked: Iterable[Pair]) -> list[tuple[Open, int]]:
    """The pairs in the order of review, each with how many of its two records have a link: none first, and then by weight."""
    pairs = list(linked)
    a, b = {id_a for id_a, _ in pairs}, {id_b for _, id_b in pairs}
    groups = [(it, (it.pair[0] in a) + (it.pair[1] in b)) for it in mine]
    return sorted(groups, key=lambda it: (it[1], -it[0].weight))


def chosen(job: Job, waiting: list[Open], mine: list[Open], most: int) -> tuple[list[tuple[Open, int]], Around]:
    """The pairs of the page in order, and what is around them. What the last run wrote counts where it is there and fits."""
    open_pairs = {it.pair for it in waiting}
    try:
        links = job.links()
        now = {it.pair: it.by for it in links if not (it.by == "review" and it.pair in open_pairs)}
        asked = in_order(mine, now)[:most]
        return asked, around(job, waiting, [it for it, _ in asked], links, now)
    except Fault as lack:
        asked = in_order(mine, [])[:most]
        return asked, among([it for it, _ in asked], lack.text)


def says(it: Field) -> str:
    """How a field is compared: the word of the settings, with its number of letters or the number that two values may be apart."""
    if it.t is not None:
        return f"within {it.t} {it.compare}"
    return it.compare if it.n is None else f"{it.compare} {it.n} letters"


def digest(job: Job, reviewer: str) -> str:
    """By what a browser keeps the verdicts of a job: both files, their ids and the reviewer."""
    held = hashlib.sha256()
    for part in (job.settings.ids["a"], job.settings.ids["b"], reviewer):
        held.update(part.encode("utf-8", "surrogateescape") + b"\n")
    for side in "ab":
        held.update(hashlib.sha256(load(job.folder / job.settings.files[side])).digest())
    return held.hexdigest()[:32]


class Numbered:
    """The records of one side that are in the page, each with its place there. Compared cells and ids are whole."""

    def __init__(self, held: Records, whole_columns: set[int]):
        self.held, self.whole_columns = held, whole_columns
        self.at: dict[str, int] = {}
        self.rows: list[list[str]] = []

    def place(self, key: str) -> int:
        """The place of a record, which comes in where it is new. Its cells stand as in the file; long ones of other columns are cut."""
        if key not in self.at:
            self.at[key] = len(self.rows)
            row = [shown(cell) for cell in self.held.row(key)]
            self.rows.append([cell if at in self.whole_columns else cut(cell) for at, cell in enumerate(row)])
        return self.at[key]


def cut(cell: str) -> str:
    """A cell of a column that is not compared, with what it has at the most."""
    return cell if len(cell) <= MOST_SIGNS else f"{cell[:MOST_SIGNS]} … ({len(cell)} characters)"


def numbered(job: Job) -> tuple[Numbered, Numbered]:
    """Both sides, with no record yet."""
    found = []
    for side, held in (("a", job.a), ("b", job.b)):
        columns = [job.settings.ids[side], *(it.columns[side] for it in job.settings.fields)]
        found.append(Numbered(held, {held.table.place(column) for column in columns}))
    return found[0], found[1]


def outcomes_of(job: Job) -> dict[int, str]:
    """The outcomes of each comparison pattern, as the program prints them."""
    rows = list(records(job.ask("rule", job.name)))[1:]
    return {cell.pattern: cell.outcomes for cell in cells_of("rule", iter(rows))}


def pairs_part(job: Job, asked: list[Open], waiting: list[Open], ringed: Around) -> dict[str, Any]:
    """The records, patterns and compared pairs of the page. A compared pair is the places of its records and of its pattern, its weight,
    its decision, by what it is linked, and the verdict of review that stands; these two are empty where the pair waits for a verdict."""
    sides, outcomes, open_pairs = numbered(job), outcomes_of(job), {it.pair for it in waiting}
    patterns, compared, at = list(outcomes), [], {}
    place_of = {pattern: place for place, pattern in enumerate(patterns)}

    def add(pair: Pair, pattern: int, weight: int, decision: str, verdict: str) -> None:
        at[pair] = len(compared)
        by = "" if pair in open_pairs else ringed.links.get(pair, "")
        stands = "" if pair in open_pairs or verdict == "open" else verdict
        compared.append([sides[0].place(pair[0]), sides[1].place(pair[1]), place_of[pattern], weight, decision, by, stands])

    for one in asked:
        add(one.pair, one.pattern, one.weight, "possible", "")
    for it in ringed.found:
        if it.pair not in at:
            if it.pattern not in place_of:
                raise Fault(f"pairs.csv: no pattern {it.pattern} in the rule: linkage run {job.name}")
            add(it.pair, it.pattern, it.weight, it.decision, it.verdict)
    counts = [{side.at[key]: count for key, count in held.items() if key in side.at} for side, held in zip(sides, ringed.counts)]
    mates = {id_a: id_b for id_a, id_b in ringed.links}, {id_b: id_a for id_a, id_b in ringed.links}
    return {"a": sides[0].rows, "b": sides[1].rows, "mates": [[held.get(key, "") for key in side.at] for side, held in zip(sides, mates)],
            "patterns": [outcomes[it] for it in patterns], "compared": compared,
            "pairs": [at[one.pair] for one in asked],
            "partners": [[held.get(place, 1) for place in range(len(side.rows))] for side, held in zip(sides, counts)]}


def job_part(job: Job, reviewer: str, weight: bool) -> dict[str, Any]:
    """What the page says of the job, and its columns and fields."""
    settings = job.settings
    tables = {"a": job.a.table, "b": job.b.table}
    fields = [{"name": it.name, "columns": [tables[side].place(it.columns[side]) for side in "ab"], "kind": it.kind,
               "says": shown(says(it)), "forms": [it.forms[side] or "" for side in "ab"]} for it in settings.fields]
    return {"settings": shown(job.name), "reviewer": shown(reviewer), "double": settings.double, "weight": weight,
            "digest": digest(job, reviewer), "files": [shown(settings.files[side]) for side in "ab"], "fields": fields,
            "headers": [[shown(it) for it in tables[side].header] for side in "ab"],
            "id": [tables[side].place(settings.ids[side]) for side in "ab"]}


@dataclass(frozen=True)
class Made:
    """A page, and what is to be said of it."""

    text: str
    pairs: int
    waiting: int  # open pairs of the job
    others: int  # those of them that wait for another reviewer
    lack: str


def made(job: Job, reviewer: str, most: int, weight: bool) -> Made:
    """The page of a job for a reviewer. Fault: as of the readers of the job, or the program's own refusal."""
    waiting, entries, double = job.open(), job.journal(), job.settings.double
    mine = for_reviewer(job, waiting, reviewer)
    ordered, ringed = chosen(job, waiting, mine, most)
    asked, left = [it for it, _ in ordered], len(mine) - len(ordered)
    turn, earlier = turns(entries, double, reviewer), left_open(entries, double)
    data = job_part(job, reviewer, weight) | pairs_part(job, asked, waiting, ringed)
    data |= {"groups": [group for _, group in ordered], "turns": [turn.get(it.pair, 0) for it in asked], "left": left,
             "earlier": {at: earlier[it.pair] for at, it in enumerate(asked) if it.pair in earlier},
             "whole": not ringed.lack}
    return Made(put_together(data), len(asked), len(waiting), len(waiting) - len(mine), ringed.lack)


def put_together(data: dict[str, Any]) -> str:
    """The page of its pieces. The data stand in it without a sign of HTML; the policy admits this script and style, no request."""
    style, script = ((PIECES / f"desk.{kind}").read_text(encoding="utf-8") for kind in ("css", "js"))
    text = json.dumps(data, ensure_ascii=True, separators=(",", ":"))
    for sign in "<>&":
        text = text.replace(sign, f"\\u{ord(sign):04x}")
    sums = [base64.b64encode(hashlib.sha256(it.encode("utf-8")).digest()).decode("ascii") for it in (script, style)]
    policy = f"default-src 'none'; script-src 'sha256-{sums[0]}'; style-src 'sha256-{sums[1]}'; base-uri 'none'; form-action 'none'"
    title = html.escape(f"Clerical review of {data['settings']}")
    pieces = {"POLICY": policy, "TITLE": title, "STYLE": style, "DATA": text, "SCRIPT": script}
    return re.sub("@@([A-Z]+)@@", lambda it: pieces[it.group(1)], (PIECES / "desk.html").read_text(encoding="utf-8"))


def write_page(path: Path, text: str) -> None:
    """Writes the page so that its owner alone can read it. Fault: another file than such a page is there, or it cannot be written."""
    try:
        if path.exists() and (not path.is_file() or path.read_bytes()[:len(BEGINNING)] != BEGINNING.encode()):
            raise Fault(f"{path}: is there already, and is no page of desk; name a new file")
        number, name = tempfile.mkstemp(dir=path.parent, prefix=".desk-")
        try:
            with os.fdopen(number, "w", encoding="utf-8", newline="") as file:
                file.write(text)
            os.replace(name, path)
        except OSError:
            os.unlink(name)
            raise
    except OSError as lack:
        raise Fault(f"{path}: {lack.strerror}") from lack


def count_of(text: str) -> int:
    """A number of pairs on the command line."""
    if not text.isascii() or not text.isdecimal() or not 1 <= int(text) <= MOST_PAIRS:
        raise argparse.ArgumentTypeError(f"not a number from 1 to {MOST_PAIRS}")
    return int(text)


def tool(words: list[str]) -> None:
    """The tool over the words of its command line."""
    parser = Words("desk", ABOUT)
    parser.add_argument("settings", metavar="SETTINGS", help="the settings file of the job, in whose folder desk runs")
    parser.add_argument("-o", "--out", type=Path, default=Path("desk.html"), metavar="PAGE", help="the page to write (desk.html)")
    parser.add_argument("--reviewer", default="", metavar="NAME", help="who reviews; needed with double = true")
    parser.add_argument("--most", type=count_of, default=20_000, metavar="NUMBER", help="how many pairs at most are in the page (20000)")
    parser.add_argument("--weight", action="store_true", help="show weight and pattern from the start")
    given = parser.parse_args(words)
    job = Job(given.settings)
    if len(given.reviewer.encode("utf-8", "surrogateescape")) > 255:
        raise Fault("the name of the reviewer is over 255 bytes", 2)
    if job.settings.double and not given.reviewer:
        raise Fault(f"{given.settings} has double = true: say whose page it is by --reviewer NAME", 2)
    page = made(job, given.reviewer, given.most, given.weight)
    write_page(given.out, page.text)
    if job.settings.journal is None:
        tell("desk", f"{given.settings} names no journal, and linkage review needs one")
    if page.lack:
        tell("desk", f"without other candidates and links: {page.lack}")
    if page.others:
        tell("desk", f"waiting for another reviewer than {given.reviewer}: {page.others}")
    tell("desk", f"{given.out}: {page.pairs} of {page.waiting} open pairs; it holds personal data: delete it after the review")

