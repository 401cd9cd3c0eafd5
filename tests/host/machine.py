"""The program on a machine that may fail it: a fresh folder for each try, how a command ends, and what the files hold."""

import os
import resource
import shutil
import signal
import subprocess
import sys
import tempfile
from collections.abc import Callable
from pathlib import Path

sys.path.insert(0, str(Path(__file__).resolve().parent.parent))
from tally import EXAMPLE, CannotRun, Tally, program  # noqa: E402

OUTPUTS = ["pairs.csv", "rule.csv", "links.csv", "prices.csv", "report.txt"]
INPUTS = ["s.toml", "a.csv", "b.csv", "sample.csv", "journal.csv"]
REVIEW = "review s.toml v.csv 2024-03-06 ana"
KEEPERS = [REVIEW, "migrate s.toml"]
MOST_BYTES = 2**26


def front(name: str) -> str:
    """The outputs that are put before one."""
    return " ".join(OUTPUTS[: OUTPUTS.index(name)])


class Host:
    """The program, and the folder in which the next try works."""

    def __init__(self, tally: Tally, top: Path):
        self.tally, self.program, self.top, self.folder = tally, program(), top, top
        self.old: dict[str, bytes] = {}
        self.new: dict[str, set[bytes]] = {name: set() for name in [*OUTPUTS, "journal.csv"]}
        for words in ("run s.toml", *KEEPERS):
            self.fresh()
            if self.ending(words) != "0":
                raise CannotRun(f"{words} fails on a machine that does not")
            for name in self.new:
                if (self.folder / name).exists():
                    self.new[name].add((self.folder / name).read_bytes())

    def fresh(self, below: Path | None = None) -> Path:
        """A fresh copy of the worked example, with new verdicts."""
        self.folder = Path(tempfile.mkdtemp(dir=below or self.top))
        for name in INPUTS:
            shutil.copy(EXAMPLE / name, self.folder)
        (self.folder / "v.csv").write_text("id_a,id_b,verdict\nA4,B3,nonlink\n", encoding="utf-8")
        self.old = {"journal.csv": (EXAMPLE / "journal.csv").read_bytes()}
        return self.folder

    def ending(self, words: str, **how) -> str:
        """The status of a command, and the text of its fault."""
        try:
            ended = subprocess.run([self.program, *words.split()], cwd=self.folder, capture_output=True, check=False, **how)
        except subprocess.TimeoutExpired as late:
            return f"no end within {late.timeout} s"
        return f"{ended.returncode} {ended.stderr.decode().replace('linkage: ', '')}".strip()

    def shell(self, script: str) -> str:
        """What a script of the shell prints, in which $P is the program."""
        how = {"cwd": self.folder, "env": os.environ | {"P": str(self.program)}, "stderr": subprocess.STDOUT, "text": True}
        return subprocess.run(["bash", "-c", script], check=False, stdout=subprocess.PIPE, **how).stdout.strip()

    def remember(self) -> None:
        """Has the outputs that are there count as old texts."""
        self.old |= {name: (self.folder / name).read_bytes() for name in OUTPUTS if (self.folder / name).exists()}

    def held(self) -> str:
        """Which names hold their new texts, and any other file that is torn, left over, or lost."""
        found = [f"lost:{name}" for name in self.old if not (self.folder / name).exists()]
        for name in [*OUTPUTS, "journal.csv"]:
            path = self.folder / name
            if path.is_file() and not path.is_symlink() and path.read_bytes() != self.old.get(name):
                found.append(name if path.read_bytes() in self.new[name] else f"torn:{name}")
        return " ".join(found + [f"left:{it.name}" for it in sorted(self.folder.glob("*.new"))])

    def judge(self, part: str, body: Callable[[], str], wanted: str) -> None:
        """Tries a part, if it was asked for, in a fresh folder."""
        if self.tally.wants(part):
            self.fresh()
            self.tally.judge(part, body().strip(), wanted.strip())


def bounded(**limits: int) -> Callable[[], None]:
    """What a child does first: bounds on itself, by their names in `resource`, and a file that grows too long is an error."""

    def bound() -> None:
        signal.signal(signal.SIGXFSZ, signal.SIG_IGN)
        for name, most in limits.items():
            resource.setrlimit(getattr(resource, f"RLIMIT_{name}"), (most, most))

    return bound
