"""The jobs whose pages are tried: a made register, and small ones whose every compared pair waits for a verdict."""

import csv
import io
import json
import os
import re
import shutil
import sys
from dataclasses import dataclass
from pathlib import Path

sys.path[:0] = [str(Path(__file__).resolve().parent.parent), str(Path(__file__).resolve().parent.parent / "quality")]
from tally import ROOT, program, run  # noqa: E402
from variants import settings_of  # noqa: E402

DESK = ROOT / "tools/desk"
PERSONS, SEED = 7000, 51  # of the made register: enough for 20,000 compared pairs

# No level is asked for, so no pair becomes a link or a non-link: each that shares the block waits for a verdict.
SETTINGS = """file_a = "a.csv"
file_b = "b.csv"
delimiter_b = "semicolon"
journal = "journal.csv"
mu_ppm = 0
lambda_ppm = 0
{more}
[[field]]
name = "block"
kind = "name"
compare = "exact"
m = [1000, 12, 12]
u = [100, 900, 24]
[[field]]
name = "surname"
column_b = "family"
kind = "name"
compare = "soundex"
m = [900, 100, 24]
u = [10, 990, 24]
[[field]]
name = "birth"
column_b = "born"
kind = "date"
form_a = "ymd"
form_b = "dmy"
compare = "exact"
m = [900, 100, 24]
u = [10, 990, 24]
[[pass]]
parts = [{{ field = "block", key = "whole" }}]
"""
A_HEADER, B_HEADER = ["id", "block", "surname", "birth", "parish"], ["id", "block", "family", "born", "parish"]
A_ROWS = [["A1", "x", "Smith", "1980-02-03", "St Mary"], ["A2", "x", "Müller", "1975-11-17", "St Paul"],
          ["A3", "y", "Lee", "1968-12-12", ""]]
B_ROWS = [["B1", "x", "Smyth", "03.02.1980", "St Mary"], ["B2", "x", "Mueller", "17.11.1976", "St Ann"],
          ["B3", "y", "Li", "-", "St Ann"]]


@dataclass(frozen=True)
class Job:
    """A job in a folder, by its settings file."""

    folder: Path
    settings: str = "s.toml"

    def linkage(self, *words: str) -> str:
        """What the program prints; or, where it refuses, what it says."""
        status, printed, said = run([program(), *words], self.folder)
        return f"status {status}: {said.strip()}" if status else printed

    def make(self, *words: str) -> tuple[int, str]:
        """Makes the page of the job by desk: its status, and what it said."""
        status, _, said = run([DESK, self.settings, *words], self.folder, env={**os.environ, "LINKAGE": str(program())})
        return status, said.strip()

    def page(self, *words: str) -> str:
        """The address of the page of the job, made anew. ValueError: desk refused."""
        status, said = self.make(*words)
        if status:
            raise ValueError(said)
        return (self.folder / "desk.html").as_uri()

    def data(self) -> dict:
        """The data that stand in the page."""
        text = (self.folder / "desk.html").read_text(encoding="utf-8")
        return json.loads(re.search(r'id="data">(.*?)</script>', text, re.S).group(1))

    def pairs_of_page(self) -> list[tuple[str, str]]:
        """The ids of the pairs of the page, in its order."""
        data = self.data()
        found = [data["compared"][at] for at in data["pairs"]]
        return [(data["a"][it[0]][data["id"][0]], data["b"][it[1]][data["id"][1]]) for it in found]

    def open(self) -> list[list[str]]:
        """The rows that `linkage open` prints."""
        return list(csv.reader(io.StringIO(self.linkage("open", self.settings), newline="")))[1:]

    def report(self, word: str) -> int:
        """A number of the report of a new run."""
        said = self.linkage("run", self.settings)
        text = said or (self.folder / "report.txt").read_text(encoding="utf-8")
        found = re.search(rf"^{word} (\d+)", text, re.M)
        return int(found.group(1)) if found else -1


def write(path: Path, rows: list[list[str]], delimiter: str = ",") -> None:
    with path.open("w", encoding="utf-8", newline="") as out:
        csv.writer(out, delimiter=delimiter, lineterminator="\n").writerows(rows)


def small(folder: Path, a: list[list[str]] = A_ROWS, b: list[list[str]] = B_ROWS, more: str = "", journal: str = "",
          settings: str = "s.toml") -> Job:
    """A small job: the rows of A and B under the headers, more keys of the settings, the text of its journal."""
    folder.mkdir()
    write(folder / "a.csv", [A_HEADER, *a])
    write(folder / "b.csv", [B_HEADER, *b], ";")
    (folder / settings).write_text(SETTINGS.format(more=more), encoding="utf-8")
    (folder / "journal.csv").write_text(journal, encoding="utf-8")
    return Job(folder, settings)


def register(folder: Path, source: Path | None = None, **keys: int) -> Job:
    """A made register and census, or the files of another such job, under the settings of tests/quality with other values of keys."""
    folder.mkdir()
    if source is None:
        status, _, said = run([sys.executable, ROOT / "tests/quality/population", "register", SEED, folder, "--persons", PERSONS], folder)
        if status:
            raise ValueError(said)
    else:
        for name in ("a.csv", "b.csv"):
            shutil.copy(source / name, folder)
    text = settings_of("register")
    for key, value in keys.items():
        text = re.sub(rf"^{key} = .*$", f"{key} = {value}", text, flags=re.M)
    (folder / "s.toml").write_text(text, encoding="utf-8")
    (folder / "journal.csv").touch()
    return Job(folder)
