"""What the programs of tests/ have in common: the program that they try, the parts that were asked for, and the count.

Each folder of tests/ is one matter, with a program `run` that takes names of parts (none: all of them; a part runs where one of
the names stands in its own), prints a line for each part, and ends with `MATTER: N passed, N failed`: status 0 where none failed,
1 where one did, 2 where the matter could not run.
"""

import os
import shlex
import subprocess
import sys
from pathlib import Path

ROOT = Path(__file__).resolve().parent.parent
EXAMPLE = ROOT / "crates/linkage/data"


class CannotRun(Exception):
    """What a matter lacks, in one line."""


def program(name: str = "linkage") -> Path:
    """The built program of a crate; for linkage itself, that of the variable LINKAGE where it is set."""
    named = os.environ.get("LINKAGE") if name == "linkage" else None
    path = Path(named or ROOT / f"crates/{name}/out/{name}").resolve()
    if not path.is_file():
        raise CannotRun(f"{path} is not built: tests/all proofs")
    return path


def run(words: list, folder: Path, **more) -> tuple[int, str, str]:
    """The status of a command in a folder, what it printed and what it said on standard error."""
    ended = subprocess.run([str(it) for it in words], cwd=folder, stdin=subprocess.DEVNULL, capture_output=True, check=False, **more)
    return ended.returncode, ended.stdout.decode("utf-8", "replace"), ended.stderr.decode("utf-8", "replace")


class Tally:
    """The count of a matter, and its lines."""

    def __init__(self, matter: str, parts: list[str]):
        self.matter, self.parts, self.count = matter, parts, {True: 0, False: 0}

    def wants(self, part: str) -> bool:
        """Whether a part was asked for."""
        return not self.parts or any(name in part for name in self.parts)

    def passed(self, part: str) -> None:
        self.count[True] += 1
        print(f"ok      {part}", flush=True)

    def failed(self, part: str, why: str, alone: str | None = None) -> None:
        """Says what is wrong with a part, and the command that tries it alone."""
        self.count[False] += 1
        lines = [*why.rstrip("\n").split("\n"), f"alone: {alone or f'tests/{self.matter}/run {shlex.quote(part)}'}"]
        print(f"FAILED  {part}", *(f"        {line}" for line in lines), sep="\n", flush=True)

    def judge(self, part: str, given: object, wanted: object) -> bool:
        """Passes a part where what it came to is what is wanted."""
        if given == wanted:
            self.passed(part)
        else:
            self.failed(part, f"given:  {given}\nwanted: {wanted}")
        return given == wanted

    def end(self) -> int:
        """Prints the count, and gives the status. A matter of which nothing was tried has failed."""
        if not any(self.count.values()):
            self.failed(" ".join(self.parts) or self.matter, "nothing was tried: no part has such a name")
        print(f"{self.matter}: {self.count[True]} passed, {self.count[False]} failed", flush=True)
        return int(self.count[False] > 0)


def main(matter: str, body) -> None:
    """Runs `body(tally)` over the words of the command line, and ends with its status; with 2 where the matter lacks something."""
    if {"-h", "--help"} & set(sys.argv[1:]):
        print(sys.modules["__main__"].__doc__.strip())
        sys.exit(0)
    tally = Tally(matter, sys.argv[1:])
    try:
        body(tally)
    except CannotRun as lack:
        before = f" (before that {tally.count[True]} passed and {tally.count[False]} failed, as shown above)" * any(tally.count.values())
        print(f"{matter}: cannot run: {lack}{before}", file=sys.stderr, flush=True)
        sys.exit(2)
    sys.exit(tally.end())
