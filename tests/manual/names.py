"""The names of files and of code in the pages for engineers: each code span that looks like one must be there."""

import re
from pathlib import Path

from pages import ROOT, read

PAGES = ["CONTRIBUTING.md", "docs/ARCHITECTURE.md", "docs/DECISIONS.md", "docs/SPEED.md"]
FILE = re.compile(r"(?:[\w.-]+/)*[\w-]+\.(?:rt|antt|py|toml)")
NAME = re.compile(r"(?=\w*(?:\w_\w|[a-z][A-Z]))\w+")  # of two words or more: `code_of`, `CodeOf`
# What others name so: the system, the kit, Rust.
OF_OTHERS = ["HashMap", "IndexSet", "protected_symlinks", "read_to_end"]


def sources() -> list[Path]:
    """The files of the repository that no run has made, and that are no pages."""
    tops = [*(ROOT / "crates").glob("*/[!o]*"), *(ROOT / "tests").glob("[!o]*"), ROOT / "tools", ROOT / "packaging", ROOT / "docs/start"]
    found = [path for top in tops for path in ([top] if top.is_file() else top.rglob("*"))]
    return [path for path in found if path.is_file() and path.suffix not in (".md", ".pyc")]


def spans_of(page: str) -> list[str]:
    """The code spans of a page, its blocks aside."""
    return re.findall(r"`([^`\n]*)`", re.sub(r"^\s*```.*?^\s*```\s*$", "", read(page), flags=re.S | re.M))


def lost() -> list[str]:
    """The names that no file and no source has, each with its page."""
    paths = sources()
    ends = {"/".join(it.parts[at:]) for it in (path.relative_to(ROOT) for path in paths) for at in range(len(it.parts))}
    words = {word for path in paths for word in re.findall(r"\w+", path.read_text(encoding="utf-8", errors="ignore"))}
    is_lost = lambda it: bool(FILE.fullmatch(it) and it not in ends or NAME.fullmatch(it) and it not in words)
    return [f"{page}: {it}" for page in PAGES for it in dict.fromkeys(spans_of(page)) if is_lost(it) and it not in OF_OTHERS]
