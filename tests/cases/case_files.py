"""The case files of the program linkage_cases: their cases, and what names hold before each run.

docs/ARCHITECTURE.md says what each key means.
"""

import re
import sys
import tomllib
from collections.abc import Iterator
from dataclasses import dataclass
from pathlib import Path

TESTS = Path(__file__).resolve().parent.parent
SECOND = TESTS / "second_implementation"
sys.path[:0] = [str(it) for it in (TESTS, SECOND, SECOND / "method")]

from answers import made_input
from tally import CannotRun

DATA = TESTS / "cases/data"
OUTPUTS = ("pairs.csv", "rule.csv", "links.csv", "prices.csv", "report.txt")
Files = dict[str, bytes | None]


@dataclass(frozen=True)
class Case:
    """A case: the name of its file, its own text there, and what that says."""

    file: str
    text: str
    said: dict

    @property
    def name(self) -> str:
        """The name of its file, and its own."""
        return f"{self.file}: {self.said['name']}"


def head_and_cases(text: str) -> tuple[str, list[str]]:
    """The text of a case file before its first case, and the text of each case."""
    head, *cases = re.split(r"(?m)^(?=\[\[case\]\]$)", text)
    return head, cases


def is_case_file(path: Path) -> bool:
    """Whether a file beside the others is one of cases."""
    return path.suffix == ".toml" and bool(head_and_cases(path.read_text(encoding="utf-8"))[1])


def said_in(path: Path, text: str) -> dict:
    """What a text of a file says."""
    try:
        return tomllib.loads(text)
    except tomllib.TOMLDecodeError as fault:
        raise CannotRun(f"{path}: {fault}, in: {text[:200]}") from fault


def cases() -> Iterator[Case]:
    """Every case, file by file."""
    for path in sorted(filter(is_case_file, DATA.iterdir())):
        for text in head_and_cases(path.read_text(encoding="utf-8"))[1]:
            yield Case(path.name, text, said_in(path, text)["case"][0])


def listed_commands() -> list[dict]:
    """The list of commands."""
    path = DATA / "commands.toml"
    return said_in(path, path.read_text(encoding="utf-8"))["command"]


def piece_bytes(piece: dict) -> bytes:
    """A piece so many times: bytes and a text, in which the number of the time stands for `{n}`."""
    text, times = bytes(piece.get("bytes", [])) + piece.get("text", "").encode(), piece.get("times", 1)
    at = text.find(b"{n}", len(piece.get("bytes", [])))
    if at < 0:
        return text * times
    if not times:
        return b""
    before, after = text[:at], text[at + 3:]
    return before + (after + before).join(b"%d" % time for time in range(1, times + 1)) + after


def changed(held: bytes, change: dict) -> bytes:
    """What a change makes of what a name holds."""
    given = change.get("text", "").encode()
    if "from" in change:
        given += (DATA / change["from"]).read_bytes()
    if "made" in change:
        given += made_input(change["made"])[change["name"]]
    given += b"".join(map(piece_bytes, change.get("piece", [])))
    text = given if {"text", "from", "made", "piece"} & change.keys() else held
    for it in change.get("replace", []):
        text = text.replace(it["old"].encode(), it["new"].encode(), 1)
    return text[: change.get("cut")]


def make_changes(files: Files, changes: list[dict]) -> None:
    """Makes changes in turn."""
    for change in changes:
        name = change["name"]
        files[name] = None if change.get("missing") else changed(files.get(name) or b"", change)


def files_of(case: Case) -> Files:
    """What names hold before the first run of a case, in the order in which changed ones are shown."""
    files: Files = dict.fromkeys(OUTPUTS)
    files |= {name: (DATA / name).read_bytes() for name in case.said.get("hold", [])}
    make_changes(files, case.said.get("file", []))
    return files
