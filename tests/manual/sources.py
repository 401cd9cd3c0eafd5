"""What the pages say of the sources: the files of definitions in docs/DEFINITIONS.md, and the crates in docs/ARCHITECTURE.md."""

import re

from pages import ROOT, read

# What the head of a file of definitions says where only bodies need it.
IS_MACHINERY = re.compile(r"machinery|no public clause|bodies alone need", re.I)
MOST_WIDTH = 280  # of a row of a crate: two lines of the page
FILE = re.compile(r"(?:(\w+)/specs/)?([A-Z]\w*)\.antt")


def cells_of(page: str, head: str) -> list[list[str]]:
    """The cells of each row of the tables of a page whose first line begins with `head`, in order."""
    found, inside = [], False
    for line in read(page).splitlines():
        is_head = line.startswith(head)
        inside = line.startswith("|") and (inside or is_head)
        if inside and not is_head and not line.startswith("|---"):
            found.append([cell.strip() for cell in line.strip().strip("|").split(" | ")])
    return found


def named_files(cell: str) -> list[str]:
    """The files of definitions in a cell; one without a crate is of the crate of the file before it."""
    crate, found = "", []
    for span in re.findall(r"`([^`]*)`", cell):
        match = FILE.fullmatch(span)
        if match:
            crate = match.group(1) or crate
            found.append(f"{crate}/specs/{match.group(2)}.antt")
    return found


def head_of(path: str) -> str:
    """The lines of remarks at the top of a file of definitions, as one."""
    return " ".join(it[2:].strip() for it in re.match(r"(?:--.*\n)*", read(path)).group(0).splitlines())


def definitions() -> tuple[list[str], list[str]]:
    """The files that DEFINITIONS names, and those that it is to name: all of the crates but their lists and what bodies alone need."""
    shown = {file for row in cells_of("docs/DEFINITIONS.md", "| Notion ") for file in named_files(row[2])}
    paths = sorted((ROOT / "crates").glob("*/specs/**/*.antt"))
    every = {str(path.relative_to(ROOT / "crates")) for path in paths if path.name != "Lib.antt"}
    wanted = {file for file in every if file in shown or not IS_MACHINERY.search(head_of(f"crates/{file}"))}
    return sorted(shown), sorted(wanted)


def crates() -> tuple[list[str], list[str]]:
    """The crates, by the table of ARCHITECTURE, with those whose rows are too long, and by crates.txt, which has what each stands on."""
    rows = cells_of("docs/ARCHITECTURE.md", "| Crate | What it does | ")
    long = [f"{row[0]}, a row of over {MOST_WIDTH} characters" for row in rows if len(" | ".join(row)) + 4 > MOST_WIDTH]
    names = [line.partition("#")[0].partition(":")[0] for line in read("crates.txt").splitlines()]
    return sorted([row[0].strip("`") for row in rows] + long), sorted(name.split()[0] for name in names if name.strip())
