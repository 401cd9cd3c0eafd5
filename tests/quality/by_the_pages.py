"""A job by the pages, line by line: the commands of the section of docs/SETTINGS.md that says how, on made files of known truth.

The commands are run as they stand there, but for the sizes in SIZES, since the page works on two files of eight records. Where people
fill in a sheet, which the page has by `check: write`, the made ones fill it in: decisions by the truth, verdicts by the made reviewer.
The settings are those to start from, with the marked lines changed.
"""

import csv
import os
import subprocess
import sys
from collections.abc import Callable
from pathlib import Path

from measure import Pair, pairs_of, rows
from reviewer import verdicts
from variants import to_start_from
from ways import Broken, Job

HERE = Path(__file__).resolve().parent
sys.path.insert(0, str(HERE.parent / "manual"))
from pages import ROOT, Block, Note, items_of  # noqa: E402

RECORDS_A_PAIR = 20  # records of A for each pair that is reviewed
PAGE, SECTION = ROOT / "docs/SETTINGS.md", "## The practice, line by line"
# What stands in the page for the two small files, and here: records of A, random pairs, pairs to be reviewed, links to be checked.
SIZES = {"--records 7 ": "--records 600 ", "--random 20 ": "--random 20000 ", "--most 4 ": "--most {budget} ", "--links 3 ": "--links 200 "}


def items() -> list[Note | Block]:
    """The notes and blocks of the section."""
    lines = PAGE.read_text(encoding="utf-8").splitlines()
    first = lines.index(SECTION) + 1
    last = next(at for at in range(first, len(lines)) if lines[at].startswith("## ")) + 1
    found = [it for it in items_of(PAGE) if isinstance(it, Note) or first < int(it.place.rsplit(":", 1)[1]) < last]
    return found


def sheet(job: Job, name: str) -> list[dict[str, str]]:
    """The rows of a sheet that went to people; an apostrophe that keeps a spreadsheet from an id is taken off."""
    return [{**row, "id_a": row["id_a"].removeprefix("'"), "id_b": row["id_b"].removeprefix("'")} for row in rows(job.folder / name)]


def filled(job: Job, name: str, column: str, words: dict[Pair, str], to: str) -> None:
    """Writes a sheet as it comes back: with a word of each pair in its first column."""
    table = [{**row, column: words[pair]} for row, pair in zip(sheet(job, name), pairs_of(sheet(job, name)))]
    with (job.folder / to).open("w", encoding="utf-8", newline="") as file:
        made = csv.DictWriter(file, list(table[0]))
        made.writeheader()
        made.writerows(table)


def decided(job: Job) -> None:
    """filled.csv: each pair of look.csv with what it is."""
    words = {pair: "matched" if pair in job.truth else "unmatched" for pair in pairs_of(sheet(job, "look.csv"))}
    filled(job, "look.csv", "status", words, "filled.csv")


def answered(job: Job, seed: str) -> None:
    """answered.csv: what the made reviewer says of the pairs in first.csv."""
    lines = verdicts(pairs_of(sheet(job, "first.csv")), job.truth, seed).splitlines()[1:]
    filled(job, "first.csv", "verdict", {(a, b): word for a, b, word in (line.split(",") for line in lines)}, "answered.csv")


def command(job: Job, line: str, budget: int) -> None:
    """Runs one command of the page, with the sizes of these files. Raises Broken where it ends with another status than 0."""
    for old, new in SIZES.items():
        line = line.replace(old, new.format(budget=budget))
    bin_ = job.folder / "bin"
    bin_.mkdir(exist_ok=True)
    if not (bin_ / "linkage").exists():
        (bin_ / "linkage").symlink_to(job.program)
    environment = dict(os.environ, LC_ALL="C.UTF-8", LINKAGE=str(job.program), PATH=f"{bin_}:{ROOT / 'tools'}:{os.environ['PATH']}")
    done = subprocess.run(["bash", "-c", line], cwd=job.folder, env=environment, stdin=subprocess.DEVNULL, capture_output=True, check=False)
    if done.returncode:
        raise Broken(f"{line}: status {done.returncode}: {done.stderr.decode('utf-8', 'replace').strip()}")


def worked(job: Job, seed: str, row: Callable[[str, Job, tuple[int, int] | None], None]) -> None:
    """Works the job by the page; `row` is told of it before and after review, with the pairs asked about and the right ones among them."""
    (job.folder / "settings.toml").write_text(to_start_from(), encoding="utf-8")
    budget, asked = len(job.ids("a")) // RECORDS_A_PAIR, None
    people: dict[str, Callable[[], None]] = {"filled.csv": lambda: decided(job), "answered.csv": lambda: answered(job, seed)}
    note = ""
    for item in items():
        if isinstance(item, Note):
            note = Path(item.rest).name if item.word == "write" else ""
        elif note:
            if note == "answered.csv":
                row("", job, None)
                first = pairs_of(sheet(job, "first.csv"))
                asked = len(first), sum(pair in job.truth for pair in first)
            people[note]()
            note = ""
        elif item.kind == "console":
            for line, _ in item.commands():
                command(job, line, budget)
    row(", reviewed", job, asked)
