"""The examples of the manual's pages: what stands in a page, and the runner of one page's examples."""

import os
import re
import shutil
import subprocess
import sys
import tempfile
from collections import Counter
from dataclasses import dataclass, field
from pathlib import Path

sys.path.insert(0, str(Path(__file__).resolve().parent.parent))
from tally import EXAMPLE, ROOT, Tally  # noqa: E402

PAGES = [ROOT / "README.md", ROOT / "CONTRIBUTING.md", *sorted((ROOT / "docs").glob("*.md")), ROOT / "tools/README.md"]
FENCE = re.compile(r"^(\s*)```(\w*)\s*$")
# Commands whose examples are left out where a machine has none.
MAY_LACK = ["Rscript", "rt"]
NOTE = re.compile(r"^\s*<!-- check: (\w+)\s*(.*?)\s*-->\s*$")


def read(path: str) -> str:
    """The text of a file of the repository."""
    return (ROOT / path).read_text(encoding="utf-8")


@dataclass
class Note:
    """A comment that says how the next block is checked: a word, and what stands behind it."""

    word: str
    rest: str


@dataclass
class Block:
    """A fenced block: its kind, where it stands, and its lines."""

    kind: str
    place: str
    lines: list[str] = field(default_factory=list)

    def text(self) -> str:
        return "".join(line + "\n" for line in self.lines)

    def commands(self) -> list[tuple[str, list[str]]]:
        """Each line that begins with `$ `, and the lines below it."""
        found: list[tuple[str, list[str]]] = []
        for line in self.lines:
            if line.startswith("$ "):
                found.append((line[2:], []))
            elif found:
                found[-1][1].append(line)
            else:
                raise ValueError(f"{self.place}: a console block begins with a command")
        return found


def items_of(path: Path) -> list[Note | Block]:
    """The notes and the blocks of a page, in order."""
    items: list[Note | Block] = []
    inside, indent = None, 0
    for number, line in enumerate(path.read_text(encoding="utf-8").splitlines(), 1):
        fence, note = FENCE.match(line), NOTE.match(line)
        if inside is not None and fence:
            items.append(inside)
            inside = None
        elif inside is not None:
            inside.lines.append(line[indent:] if line[:indent].isspace() else line)
        elif fence:
            indent = len(fence.group(1))
            inside = Block(fence.group(2), f"{path.relative_to(ROOT)}:{number}")
        elif note:
            items.append(Note(*note.groups()))
    return items


def agrees(shown: list[str], given: list[str]) -> bool:
    """Whether the given lines are those shown, where a line `..` stands for any lines."""
    if not shown:
        return not given
    if shown[0] == "..":
        return any(agrees(shown[1:], given[at:]) for at in range(len(given) + 1))
    return bool(given) and shown[0] == given[0] and agrees(shown[1:], given[1:])


class Runner:
    """Runs the examples of the pages, each page's in folders of its own below `top`. Without a program only those are tried that look at
    the sources: what runs at the top of the repository, and what must stand in a file of it; the others are counted by their page."""

    def __init__(self, tally: Tally, program: Path | None, top: Path):
        (top / "bin").mkdir()
        if program:
            (top / "bin" / "linkage").symlink_to(program)
        self.tally, self.program, self.top, self.folder, self.left_out = tally, program, top, top, Counter()
        self.environment = dict(os.environ, LC_ALL="C.UTF-8", HOME=str(top), PATH=f"{top / 'bin'}:{ROOT / 'tools'}:{os.environ['PATH']}")

    def fresh(self, source: str) -> None:
        """From here on a new folder, a copy of one of the repository where it is named."""
        self.folder = Path(tempfile.mkdtemp(dir=self.top))
        if source:
            shutil.copytree(ROOT / source, self.folder, dirs_exist_ok=True)

    def run(self, command: str) -> list[str]:
        """The lines that a command of the shell prints in the folder, within two minutes."""
        how = {"stdin": subprocess.DEVNULL, "stdout": subprocess.PIPE, "stderr": subprocess.STDOUT, "timeout": 120}
        try:
            done = subprocess.run(["bash", "-c", command], cwd=self.folder, env=self.environment, check=False, **how)
        except subprocess.TimeoutExpired:
            return ["(it had not ended after two minutes)"]
        return done.stdout.decode("utf-8", "replace").splitlines()

    def leaves_out(self, place: str) -> bool:
        """Whether an example, whose place begins with its page, is left out since it needs the program."""
        lacks = self.program is None and self.folder != ROOT
        self.left_out[place.partition(":")[0]] += lacks
        return lacks

    def judge(self, part: str, given: list[str], shown: list[str]) -> None:
        """Passes an example that prints what stands below it."""
        if not self.tally.wants(part):
            return
        if agrees(shown, given):
            self.tally.passed(part)
        else:
            self.tally.failed(part, "\n".join(["shown:", *(f"  {it}" for it in shown), "given:", *(f"  {it}" for it in given)]))

    def console(self, block: Block) -> None:
        for command, shown in block.commands():
            name = command.split()[0]
            if name in MAY_LACK and not shutil.which(name):
                print(f"left out: {block.place}: {command} (there is no {name})")
            elif not self.leaves_out(block.place):
                self.judge(f"{block.place} $ {command}", self.run(command), shown)

    def held(self, name: str) -> list[str]:
        path = self.folder / name
        return path.read_text(encoding="utf-8").splitlines() if path.exists() else ["(there is no such file)"]

    def block(self, note: Note | None, block: Block) -> None:
        """Checks a block as its note says; one of commands is run."""
        word, rest = (note.word, note.rest) if note else ("", "")
        if word == "write":
            (self.folder / rest).write_text(block.text(), encoding="utf-8")
        elif word in ("holds", "certifies") and self.leaves_out(block.place):
            return
        elif word == "holds":
            self.judge(f"{block.place} {rest}", self.held(rest), block.lines)
        elif word == "is":
            self.judge(f"{block.place} {rest}", read(rest).splitlines(), block.lines)
        elif word == "rows":
            lines = read(rest).splitlines()
            self.judge(f"{block.place} {rest}", [it for it in block.lines if it in lines], block.lines)
        elif word == "certifies":
            (self.folder / "prices.csv").write_text(block.text(), encoding="utf-8")
            self.judge(f"{block.place} these prices certify the links", self.run("linkage verify s.toml"), ["yes"])
        elif word:
            self.tally.failed(block.place, f"an unknown note: {word}")
        elif block.kind == "console":
            self.console(block)

    def page(self, path: Path) -> None:
        """Runs the examples of a page in turn."""
        self.fresh("")
        note = None
        for item in items_of(path):
            if isinstance(item, Block):
                self.block(note, item)
                note = None
            elif item.word == "fresh":
                self.fresh(item.rest)
            elif item.word == "top":
                self.folder = ROOT
            elif item.word == "draws":
                self.draws(*item.rest.split(maxsplit=1))
            else:
                note = item

    def draws(self, name: str, command: str) -> None:
        """Draws a picture by a command in the folder; it must be that of docs/pictures, byte for byte."""
        if not self.leaves_out("docs/pictures"):
            self.judge(f"docs/pictures/{name} $ {command}", self.run(command), read(f"docs/pictures/{name}").splitlines())

    def provoked(self, rows: list[list[str]]) -> list[str]:
        """Runs each example of a fault on a fresh copy of the worked example, and gives the lines that were provoked."""
        lines = []
        for cells in rows:
            change, command, line = (cell.strip("`").replace("\\|", "|") if cell.startswith("`") else "" for cell in cells)
            lines.append(line)
            self.fresh(str(EXAMPLE.relative_to(ROOT)))
            if not self.leaves_out("docs/FAULTS.md"):
                self.judge(f"docs/FAULTS.md {change or 'no change'}; {command}", self.run(f"{change}\n{command}"), [f"linkage: {line}"])
        return lines
