"""The jobs that the tools are tried on: the worked example, a made register of 400 persons, and one of hostile ids and values."""

import contextlib
import csv
import importlib
import io
import os
import shutil
import subprocess
import sys
import tempfile
from pathlib import Path

sys.path.insert(0, str(Path(__file__).resolve().parent.parent))
from tally import EXAMPLE, ROOT, Tally, program, run  # noqa: E402

sys.path[:0] = [str(ROOT / "tools"), str(ROOT / "tests/quality")]
from linkage_tools import words  # noqa: E402
from variants import settings_of  # noqa: E402

PERSONS, SEED = 400, 7
# Ids that a spreadsheet, a table or a shell may take for something else.
HOSTILE = ["007", "7", "=1+1", "+1", "-5", "@x", "'tis", "''", "a,b", "a;b", 'say "hi"', '"', "line\nbreak", "tab\tbed", "MAR1", "1E5",
           " x ", "Ł"]
HOSTILE_SETTINGS = """
file_a = "a.csv"
file_b = "b.csv"
journal = "journal.csv"
mu_ppm = 1
lambda_ppm = 1
[[field]]
name = "surname"
kind = "name"
compare = "exact"
m = [900, 100, 24]
u = [10, 990, 24]
[[field]]
name = "note"
kind = "place"
compare = "exact"
m = [900, 100, 24]
u = [10, 990, 24]
[[pass]]
parts = [{ field = "surname", key = "whole" }]
"""


def asks(tally: Tally, tool: str) -> bool:
    """Whether a part of a tool was asked for. All of the tool's parts are tried then."""
    return not tally.parts or any(part.partition(":")[0] == tool for part in tally.parts)


def rows_of(text: str, sign: str = ",") -> list[list[str]]:
    """The records of a comma text, a byte order mark aside."""
    return [row for row in csv.reader(io.StringIO(text.removeprefix("\ufeff"), newline=""), delimiter=sign) if row]


def text_of(rows: list, sign: str = ",") -> str:
    """Records as a text."""
    made = io.StringIO(newline="")
    csv.writer(made, delimiter=sign, lineterminator="\n").writerows(rows)
    return made.getvalue()


class Bench:
    """Folders with jobs, all below one that is taken away at the end, and the tools run in them."""

    def __init__(self):
        self.top = Path(tempfile.mkdtemp(prefix="linkage-tools-"))
        self.made: dict[int, Path] = {}

    def __enter__(self) -> "Bench":
        return self

    def __exit__(self, *_: object) -> None:
        shutil.rmtree(self.top)

    def empty(self) -> Path:
        return Path(tempfile.mkdtemp(dir=self.top))

    def example(self) -> Path:
        """A fresh copy of the worked example, after `run`."""
        folder = self.empty()
        shutil.copytree(EXAMPLE, folder, dirs_exist_ok=True)
        self.linkage(folder, "run", "s.toml")
        return folder

    def register(self, persons: int = PERSONS) -> Path:
        """A fresh copy of the made register and its census, with guessed shares and an empty journal, after `run`."""
        if persons not in self.made:
            self.made[persons] = self.empty() / "register"
            made = [ROOT / "tests/quality/population", "register", SEED, self.made[persons], "--persons", persons]
            subprocess.run(list(map(str, made)), check=True, stdin=subprocess.DEVNULL)
            (self.made[persons] / "settings.toml").write_text(settings_of("register"), encoding="utf-8")
            (self.made[persons] / "journal.csv").write_text("", encoding="utf-8")
            self.linkage(self.made[persons], "run", "settings.toml")
        folder = self.empty() / "job"
        shutil.copytree(self.made[persons], folder)
        return folder

    def hostile(self) -> Path:
        """A job of hostile ids and values, all pairs of which are compared and possible links."""
        folder = self.empty()
        rows = [["id", "surname", "note"], *([key, "Lee", key] for key in HOSTILE)]
        for name in ("a.csv", "b.csv"):
            (folder / name).write_text(text_of(rows), encoding="utf-8", newline="")
        (folder / "settings.toml").write_text(HOSTILE_SETTINGS, encoding="utf-8")
        (folder / "journal.csv").write_text("", encoding="utf-8")
        return folder

    def linkage(self, folder: Path, *words: str) -> str:
        """What a command of the program prints. RuntimeError: its status is not 0."""
        status, printed, said = run([program(), *words], folder)
        if status:
            raise RuntimeError(f"linkage {' '.join(words)}: status {status}: {said}")
        return printed

    def tool(self, folder: Path, name: str, *given: str) -> tuple[int, str, str]:
        """How a tool ends in a folder: its status, what it printed, what it said on standard error. Its launcher is tried by `-h` alone,
        for to start Python each time would cost more than all else."""
        printed, said = (io.TextIOWrapper(io.BytesIO(), encoding="utf-8", errors="surrogateescape") for _ in range(2))
        was, os.environ["LINKAGE"] = os.getcwd(), str(program())
        os.chdir(folder)
        try:
            with contextlib.redirect_stdout(printed), contextlib.redirect_stderr(said):
                status = words.ended(name, importlib.import_module(f"linkage_tools.{name}").tool, list(given))
        finally:
            os.chdir(was)
        printed.flush()
        said.flush()
        return status, *(it.buffer.getvalue().decode("utf-8", "replace") for it in (printed, said))

    def refusals(self, folder: Path, name: str, cases: dict[str, tuple[int, str]]) -> dict[str, tuple[int, str]]:
        """How a tool refuses words (by the shell's rules, none with blanks in them): its status and what it says."""
        found = {}
        for given in cases:
            status, printed, said = self.tool(folder, name, *given.split())
            found[given] = status, (printed + said).removesuffix("\n")
        return found


def truth_of(folder: Path) -> set[tuple[str, str]]:
    """The pairs that are of one person."""
    return {(a, b) for a, b in rows_of((folder / "truth.csv").read_text(encoding="utf-8"))[1:]}


def with_sample(folder: Path, pairs: list[list[str]]) -> None:
    """Gives the register a sample of pairs, decided by the truth; those of a drawn record that are unmatched are left out."""
    truth = truth_of(folder)
    rows = [[a, b, "matched" if (a, b) in truth else "unmatched"] for a, b, *why in pairs if (a, b) in truth or why != ["record"]]
    (folder / "sample.csv").write_text(text_of([["id_a", "id_b", "status"], *rows]), encoding="utf-8")
    lines = (folder / "settings.toml").read_text(encoding="utf-8").splitlines(keepends=True)
    kept = [line for line in lines if line[:4] not in ("m = ", "u = ")]
    (folder / "settings.toml").write_text("".join(['sample = "sample.csv"\n', *kept]), encoding="utf-8")
