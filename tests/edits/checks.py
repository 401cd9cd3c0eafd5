"""Checks of single functions: the command that rt itself uses, run on a copy of a crate with edits applied."""

import difflib
import shutil
import subprocess
import sys
import tempfile
import tomllib
from dataclasses import dataclass
from pathlib import Path

sys.path.insert(0, str(Path(__file__).resolve().parent.parent))
from tally import ROOT, CannotRun  # noqa: E402  (the frame stands one folder above)

# An answer to nothing, which the check refuses for a name that nothing has; said.py knows it.
WRONG_ANSWER = "\npub without-offer : nothing-of-the-kind\nwithout-offer = nothing-of-the-kind\n"


@dataclass(frozen=True)
class Pair:
    """A text of one line that stands once in a file of a crate, and what comes in its place."""

    file: str
    old: str
    new: str


@dataclass(frozen=True)
class Edit:
    """A wrong body: the function whose own contract must refuse it, and the texts that make it."""

    crate: str
    name: str
    wrong: str
    function: str
    pairs: tuple[Pair, ...]

    @property
    def part(self) -> str:
        return f"{self.crate}/{self.name}"

    @property
    def answers(self) -> str:
        """Where the answers of the function's proof stand in its crate."""
        return f"proofs/{self.function.replace('::', '/')}/Answers.antt"


class BadEdit(Exception):
    """Why an edit cannot be applied, and what to do about it."""


def read_edits(file: Path) -> list[Edit]:
    """The edits of a TOML file: tables `edit` with crate, name, wrong, function, file, old and new, and more pairs in `more`."""
    found = []
    for table in tomllib.loads(file.read_text("utf-8"))["edit"]:
        pairs = [Pair(it["file"], it["old"], it["new"]) for it in [table, *table.get("more", [])]]
        found.append(Edit(table["crate"], table["name"], table["wrong"], table["function"], tuple(pairs)))
    return found


def kit() -> Path:
    """The folder of the kit whose command is rt."""
    command = shutil.which("rt")
    if not command:
        raise CannotRun("there is no command rt: the Rattle kit is not set up")
    return Path(command).resolve().parent.parent


def crates() -> dict[str, list[str]]:
    """The names that each crate of crates.txt stands on, those of the kit among them."""
    lines = [line.partition("#")[0].partition(":") for line in (ROOT / "crates.txt").read_text("utf-8").splitlines()]
    return {name.split()[0]: uses.split() for name, _, uses in lines if name.strip()}


def below(crate: str, uses: dict[str, list[str]]) -> list[str]:
    """The repository's libraries below a crate, each after those that it uses."""
    found: list[str] = []
    for dep in uses[crate]:
        if dep in uses:
            found += [it for it in [*below(dep, uses), dep] if it not in found]
    return found


def is_older(rlib: Path) -> bool:
    """Whether a built library is older than the text of its crate: rt ci puts back what it found when it began."""
    crate = rlib.parents[2]
    texts = [it for part in ("src", "specs", "proofs") for it in crate.glob(f"{part}/**/*") if it.is_file()]
    return rlib.stat().st_mtime < max(it.stat().st_mtime for it in texts)


def command(crate: str, functions: list[str], libraries: Path) -> list[str]:
    """The words that check these functions of a crate, over the built libraries of the checkout `libraries`."""
    uses, home = crates(), kit()
    rlib = {it: libraries / f"crates/{it}/out/rlib/{it}.rlib" for it in below(crate, uses)}
    for name, path in rlib.items():
        if not path.is_dir() or is_older(path):
            what = "is older than the text of its crate" if path.is_dir() else "is not built"
            raise CannotRun(f"{path} {what}: (cd crates/{name} && rt lib); all of them are built by rm -rf crates/*/out/rlib, and rt ci")
    words = [f"{home}/bin/rattle", "check", "--crate-name", crate, "src/lib.rt"]
    for name in ["std", *(it for it in uses[crate] if it not in uses)]:
        words += ["--extern", f"{name}={home}/rlibs/{name}.rlib"]
    words += ["-L", f"dependency={home}/rlibs"]
    for name in (it for it in uses[crate] if it in uses):
        words += ["--extern", f"{name}={rlib[name]}"]
    for path in rlib.values():
        words += ["-L", f"dependency={path.parent}"]
    words += ["--antt-project", f"{home}/rattle/logic/antt-project.json", "--logic-built", f"{home}/logic_built"]
    words += ["--links", f"{crate}=", "--jobs", "1"]
    return words + [word for name in functions for word in ("--only", name)]


def nearest(old: str, text: str) -> str:
    """Where in a file a line is nearest to the text of an edit, in words; nothing where none is near."""
    lines = [line.strip() for line in text.splitlines()]
    near = difflib.get_close_matches(old.strip(), lines, 1)
    return f"\nnearest: line {lines.index(near[0]) + 1}: {near[0]}" if near else ""


def applied(edit: Edit, pair: Pair, text: str | None) -> str:
    """The text of a file with a pair of an edit applied. BadEdit: the file is gone, or the pair's text does not stand in it once."""
    here = f"{edit.part}, an edit of tests/edits/edits.toml: `{pair.old}`"
    file = f"crates/{edit.crate}/{pair.file}"
    if "\n" in pair.old + pair.new:
        raise BadEdit(f"{here} or what comes in its place is more than one line\ntake one line each, and more pairs in `more`")
    count = 0 if text is None else text.count(pair.old)
    if count > 1:
        raise BadEdit(f"{here} stands {count} times in {file}\nmake `old` and `new` longer, until `old` stands there once")
    if not count:
        gone = f"{here} stands in {file} no more" if text is not None else f"{here} was in {file}, a file that is gone"
        todo = "write into `old` what stands there now, and into `new` the same wrong body"
        none = "where the source has no such place any more take the edit out, and its name in docs/PROVED.md"
        raise BadEdit(f"{gone}\n{todo}; {none}{nearest(pair.old, text or '')}")
    return text.replace(pair.old, pair.new)


def edited(edits: list[Edit]) -> dict[str, str]:
    """The texts of the files of a crate that these edits change, by their paths in it.

    The answers of each edited function end with WRONG_ANSWER. A goal is then searched as ever, but the check does not do most of its work
    once more to print what answers a function without proof could have.
    """
    texts: dict[str, str] = {}
    for edit in edits:
        path = ROOT / "crates" / edit.crate / edit.answers
        texts[edit.answers] = (path.read_text("utf-8") if path.is_file() else "") + WRONG_ANSWER
        for pair in edit.pairs:
            path = ROOT / "crates" / edit.crate / pair.file
            held = path.read_text("utf-8") if path.is_file() else None
            texts[pair.file] = applied(edit, pair, texts.get(pair.file, held))
    return texts


def check(crate: str, functions: list[str], texts: dict[str, str], libraries: Path) -> tuple[int, str]:
    """The status of a check of these functions with these texts in place of a crate's own, and what it says."""
    words = command(crate, functions, libraries)
    with tempfile.TemporaryDirectory(prefix="edits-") as room:
        for part in ("src", "specs", "proofs"):
            if (ROOT / "crates" / crate / part).is_dir():
                shutil.copytree(ROOT / "crates" / crate / part, f"{room}/{part}")
        for path, text in texts.items():
            Path(room, path).parent.mkdir(parents=True, exist_ok=True)
            Path(room, path).write_text(text, "utf-8")
        ended = subprocess.run(words, cwd=room, stdin=subprocess.DEVNULL, stdout=subprocess.PIPE, stderr=subprocess.STDOUT, check=False)
    return ended.returncode, ended.stdout.decode("utf-8", "replace")
