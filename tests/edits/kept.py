"""What was refused before: an edit is not tried again while nothing changes that its check reads.

A record's name is the sum of the edit, of the texts of its crate and of those below, of the judgement and of the kit, so that it
never goes stale. Records stand in the cache of whoever runs the tests, below linkage/edits; `--anew` reads none.
"""

import hashlib
import os
from functools import cache
from pathlib import Path

from checks import Edit, below, crates, kit
from tally import ROOT

HERE = Path(__file__).resolve().parent
FOLDER = Path(os.environ.get("XDG_CACHE_HOME") or os.path.expanduser("~/.cache")) / "linkage/edits"


@cache
def sum_of_crate(crate: str) -> str:
    """The sum of the texts of a crate."""
    found = hashlib.sha256()
    for part in ("src", "specs", "proofs"):
        for path in sorted((ROOT / "crates" / crate / part).glob("**/*")):
            if path.is_file():
                found.update(repr((str(path.relative_to(ROOT)), path.read_bytes())).encode())
    return found.hexdigest()


@cache
def sum_of_judge() -> str:
    """The sum of what judges an edit: the check, what is made of its words, and the kit."""
    texts = [(HERE / name).read_bytes() for name in ("checks.py", "said.py")]
    known = kit() / "KIT-ID"
    return hashlib.sha256(repr((texts, known.read_bytes() if known.is_file() else b"")).encode()).hexdigest()


def record_of(edit: Edit) -> Path:
    """Where it is kept that an edit was refused."""
    uses = crates()
    sums = [sum_of_crate(it) for it in [*below(edit.crate, uses), edit.crate]]
    return FOLDER / hashlib.sha256(repr((edit, uses[edit.crate], sums, sum_of_judge())).encode()).hexdigest()


def kept(edit: Edit) -> str | None:
    """The line that told of the refusal, where it is kept."""
    path = record_of(edit)
    return path.read_text("utf-8") if path.is_file() else None


def keep(edit: Edit, line: str) -> None:
    """Keeps that an edit was refused; where there is no room for it the next run tries it again."""
    path = record_of(edit)
    try:
        FOLDER.mkdir(parents=True, exist_ok=True)
        written = path.with_suffix(f".{os.getpid()}")
        written.write_text(line, "utf-8")
        written.replace(path)
    except OSError:
        pass
