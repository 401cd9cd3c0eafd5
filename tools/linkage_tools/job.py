"""A job: its settings, the two files, the sample, the journal, what the program wrote, and the program itself.

All cells are text: an id 007 stays 007. Names of files are relative to the job's folder, that where the command runs. A tool decides
nothing that the program decides: it reads what `run` wrote, or asks the program.
"""

import os
import shutil
import subprocess
from collections.abc import Iterator
from dataclasses import dataclass
from functools import cached_property
from pathlib import Path
from typing import NamedTuple

from .settings import Settings, read_settings
from .tables import Fault, Table, load, records, table_of, text_of

STATUSES = ("matched", "unmatched")
VERDICTS = ("link", "nonlink", "open")
STEPS = ("single", "first", "confirm")
OUTPUTS = ("pairs.csv", "rule.csv", "links.csv", "prices.csv", "report.txt")
PAIRS_HEADER = ["id_a", "id_b", "pattern", "outcomes", "weight", "decision", "verdict"]
RULE_HEADER = ["pattern", "outcomes", "m", "u", "weight", "link", "possible", "nonlink"]
LINKS_HEADER = ["id_a", "id_b", "weight", "value", "by"]
Pair = tuple[str, str]  # the ids of a record of A and of one of B


class Records(NamedTuple):
    """The records of a file: its table, its ids in the order of the file, and where each stands, from 0."""

    table: Table
    ids: list[str]
    at: dict[str, int]

    def row(self, key: str) -> list[str]:
        """The cells of a record as they stand in the file, in the order of the header."""
        return self.table.rows[self.at[key]]


class Entry(NamedTuple):
    """An entry of a journal. Each of the first version is `single`."""

    date: str
    reviewer: str
    step: str
    pair: Pair
    verdict: str

    def stands(self) -> str:
        """The verdict that it leaves on its pair as the last entry on it: `open` where it waits for a second reviewer."""
        return "open" if self.step == "first" else self.verdict


class Open(NamedTuple):
    """A possible link that waits for a verdict; its weight is in eighths of a bit."""

    pair: Pair
    pattern: int
    weight: int


class Compared(NamedTuple):
    """A compared pair, as it stands in pairs.csv."""

    pair: Pair
    pattern: int
    outcomes: str
    weight: int
    decision: str
    verdict: str


class Cell(NamedTuple):
    """A comparison pattern of rule.csv: m and u over 1,024 to the number of fields, and its shares of 65,536 by decision."""

    pattern: int
    outcomes: str
    m: int
    u: int
    weight: int
    link: int
    possible: int
    nonlink: int


class Link(NamedTuple):
    """A link, as it stands in links.csv."""

    pair: Pair
    weight: int
    value: int
    by: str


@dataclass(frozen=True)
class Job:
    """A job in a folder, by the name of its settings file."""

    name: str
    folder: Path = Path(".")

    @cached_property
    def settings(self) -> Settings:
        """The settings. Fault: as of `read_settings`."""
        return read_settings(self.folder, self.name)

    @cached_property
    def a(self) -> Records:
        """The records of A. Fault: as of `records_of`."""
        return self.records_of("a")

    @cached_property
    def b(self) -> Records:
        """The records of B. Fault: as of `records_of`."""
        return self.records_of("b")

    def records_of(self, side: str) -> Records:
        """The records of a side, "a" or "b". Fault: of the table, an empty id, an id that stands twice."""
        name = self.settings.files[side]
        table = table_of(name, load(self.folder / name), self.settings.signs[side])
        ids, at = [cell for cell, in table.cells([self.settings.ids[side]])], {}
        for number, key in enumerate(ids, 1):
            if not key:
                raise Fault(f"{name}: row {number}: empty id")
            if key in at:
                raise Fault(f"{name}: row {number}: id of row {at[key] + 1}")
            at[key] = number - 1
        return Records(table, ids, at)

    def known(self, name: str, row: int, pair: Pair) -> Pair:
        """A pair of which both files have a record. Fault: one has none."""
        for side, key in zip("ab", pair):
            if key not in getattr(self, side).at:
                raise Fault(f"{name}: row {row}: unknown id_{side}")
        return pair

    def sample(self) -> dict[Pair, str]:
        """The status of each pair of the sample. Fault: the settings name none, or one of the table or of a row."""
        name = self.settings.sample
        if name is None:
            raise Fault(f"{self.name}: missing key sample")
        found: dict[Pair, str] = {}
        for number, (id_a, id_b, status) in enumerate(read_table_in(self.folder, name).cells(["id_a", "id_b", "status"]), 1):
            if status not in STATUSES:
                raise Fault(f"{name}: row {number}: status")
            found[self.known(name, number, (id_a, id_b))] = status
        return found

    def journal(self) -> list[Entry]:
        """The entries of the journal, of either version, oldest first; none where the settings name no journal, or it is empty.

        Fault: of the table, or a row whose number, verdict or step is none.
        """
        name = self.settings.journal
        data = b"" if name is None else load(self.folder / name)
        if not data:
            return []
        table = table_of(name, data)
        steps = [step for step, in table.cells(["step"])] if "step" in table.header else ["single"] * len(table.rows)
        cells = table.cells(["number", "date", "reviewer", "id_a", "id_b", "verdict"])
        found = []
        for row, ((number, date, reviewer, id_a, id_b, verdict), step) in enumerate(zip(cells, steps), 1):
            for is_right, what in ((number == str(row), "number"), (verdict in VERDICTS, "verdict"), (step in STEPS, "step")):
                if not is_right:
                    raise Fault(f"{name}: row {row}: {what}")
            found.append(Entry(date, reviewer, step, (id_a, id_b), verdict))
        return found

    def standing(self) -> dict[Pair, Entry]:
        """The last entry of the journal on each pair."""
        return {entry.pair: entry for entry in self.journal()}

    # What the program wrote.

    def output(self, name: str, header: list[str]) -> Iterator[list[str]]:
        """The rows of a file that `run` wrote. Fault: it is not there, has another header, or a row of another length."""
        if not (self.folder / name).exists():
            raise Fault(f"{name}: is not there: linkage run {self.name}")
        found = records(text_of(load(self.folder / name)))
        if next(found, None) != header:
            raise Fault(f"{name}: is no {name} of linkage run")
        for number, row in enumerate(found, 1):
            if len(row) != len(header):
                raise Fault(f"{name}: row {number}: number of fields")
            yield row

    def pairs(self) -> Iterator[Compared]:
        """The compared pairs of pairs.csv, one after the other. Fault: as of `output`; a number that is none."""
        name = "pairs.csv"
        for number, (id_a, id_b, pattern, outcomes, weight, *others) in enumerate(self.output(name, PAIRS_HEADER), 1):
            yield Compared((id_a, id_b), whole(name, number, pattern), outcomes, whole(name, number, weight), *others)

    def rule(self) -> list[Cell]:
        """The rule of rule.csv, links first. Fault: as of `pairs`."""
        return cells_of("rule.csv", self.output("rule.csv", RULE_HEADER))

    def links(self) -> list[Link]:
        """The links of links.csv. Fault: as of `pairs`."""
        name, found = "links.csv", []
        for number, (id_a, id_b, weight, value, by) in enumerate(self.output("links.csv", LINKS_HEADER), 1):
            found.append(Link((id_a, id_b), whole(name, number, weight), whole(name, number, value), by))
        return found

    def report(self) -> dict[str, list[int]]:
        """The first sixteen lines of report.txt: the numbers behind each word. Fault: it is not there, or is no report."""
        if not (self.folder / "report.txt").exists():
            raise Fault(f"report.txt: is not there: linkage run {self.name}")
        lines = [line.split() for line in text_of(load(self.folder / "report.txt")).splitlines()[:16]]
        if not lines or not all(line and all(it.isdecimal() for it in line[1:]) for line in lines):
            raise Fault("report.txt: is no report of linkage run")
        return {line[0]: [int(it) for it in line[1:]] for line in lines}

    def must_be_of_now(self) -> None:
        """Fault: what `run` wrote is not of the settings, files and journal as they are now, by the program's own check."""
        status, said, refused = self.call("verify", self.name)
        if status == 9:
            raise Fault(f"the written files are not of {self.name} and its inputs as they are now ({said.strip()}): run it again")
        if status:
            raise Fault(refused.strip() or f"linkage ended with status {status}")

    # The program.

    def call(self, *words: str) -> tuple[int, str, str]:
        """How a command of the program ends in the job's folder: its status, what it printed, and what it said on standard error."""
        ended = subprocess.run([program(), *words], cwd=self.folder, stdin=subprocess.DEVNULL, capture_output=True, check=False)
        return ended.returncode, ended.stdout.decode("utf-8", "surrogateescape"), ended.stderr.decode("utf-8", "replace")

    def ask(self, *words: str) -> str:
        """What a command of the program prints in the job's folder. Fault: the program's own line, where it refuses."""
        status, printed, said = self.call(*words)
        if status:
            raise Fault(said.strip() or f"linkage {' '.join(words)}: status {status}")
        return printed

    def compared(self) -> list[Pair]:
        """The pairs that the passes compare, as `linkage pairs` prints them."""
        return [(id_a, id_b) for id_a, id_b in list(records(self.ask("pairs", self.name)))[1:]]

    def open(self) -> list[Open]:
        """The possible links that wait for a verdict, as `linkage open` prints them."""
        rows = list(records(self.ask("open", self.name)))[1:]
        return [Open((id_a, id_b), int(pattern), int(weight)) for id_a, id_b, pattern, weight in rows]


def read_table_in(folder: Path, name: str) -> Table:
    """The comma table of a file in a folder, told by its name alone."""
    return table_of(name, load(folder / name))


def whole(name: str, row: int, text: str) -> int:
    """The whole number of a cell. Fault: it is none."""
    if not text.removeprefix("-").isdecimal() or not text.isascii():
        raise Fault(f"{name}: row {row}: {text[:40]!r} is no number")
    return int(text)


def cells_of(name: str, rows: Iterator[list[str]]) -> list[Cell]:
    """The patterns of the rows of a rule. Fault: a number that is none."""
    found = []
    for number, (pattern, outcomes, *others) in enumerate(rows, 1):
        m, u, weight, link, possible, nonlink = (whole(name, number, it) for it in others)
        found.append(Cell(whole(name, number, pattern), outcomes, m, u, weight, link, possible, nonlink))
    return found


def program() -> str:
    """Where the program is: what the variable LINKAGE names; else the one beside the tools; else the one on the path.

    Beside the tools it stands in crates/linkage/out of the repository, or in bin of an archive. Fault: there is none.
    """
    named, top = os.environ.get("LINKAGE"), Path(__file__).resolve().parent.parent.parent
    beside = [str(it) for it in (top / "crates/linkage/out/linkage", top / "bin/linkage") if it.is_file()]
    found = named or next(iter(beside), None) or shutil.which("linkage")
    if found is None or not Path(found).is_file():
        lack = "there is no program linkage: put it on the path, or name it in the variable LINKAGE"
        raise Fault(f"LINKAGE names no program: {named}" if named else lack)
    return str(Path(found).resolve())
