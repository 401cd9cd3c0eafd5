"""The wrong bodies of docs/PROVED.md: what its tables name as refusing each must be there.

A code span is an edit of tests/edits/edits.toml (`crate/name`), one that rt ci tries (`crate/must-fail/name`), a proved test
(`known_values::module::name`), or a part of a matter (`tests/host: PART`), whose program has it as a text, perhaps with pieces that are
filled in; of `tests/cases` it is a case by its file and name. That an edit is refused and a test passes, these say themselves.
"""

import ast
import functools
import re
import tomllib

from pages import ROOT, read
from sources import cells_of

HEAD = "| Wrong body | Refused by |"
CASES = "tests/cases/data"
LEAST_LETTERS = 8  # of a part with pieces that are filled in


@functools.cache
def edits() -> set[str]:
    """The edits of the repository, by the names under which the tables have them."""
    found = {f"{it['crate']}/{it['name']}" for it in tomllib.loads(read("tests/edits/edits.toml"))["edit"]}
    return found | {f"{it.parent.parent.name}/must-fail/{it.stem}" for it in (ROOT / "crates").glob("*/must-fail/*.edit")}


def form_of(text: ast.JoinedStr) -> str | None:
    """What the texts are that an f-string makes, none where too little of it stands there."""
    pieces = [it.value if isinstance(it, ast.Constant) else None for it in text.values]
    letters = sum(len(re.findall(r"[a-z]", it)) for it in pieces if it)
    return "".join(".+" if it is None else re.escape(it) for it in pieces) if letters >= LEAST_LETTERS else None


@functools.cache
def parts_of(matter: str) -> tuple[set[str], list[str]]:
    """The texts that stand in the programs of a matter, and the forms of those that they make."""
    texts, forms = set(), []
    for path in [ROOT / f"tests/{matter}/run", *sorted((ROOT / f"tests/{matter}").glob("*.py"))]:
        for node in ast.walk(ast.parse(path.read_text(encoding="utf-8"))):
            if isinstance(node, ast.Constant) and isinstance(node.value, str):
                texts.add(node.value)
            elif isinstance(node, ast.JoinedStr):
                forms += [it for it in [form_of(node)] if it]
    return texts, forms


def is_case(file: str, name: str) -> bool:
    """Whether a file of cases has one of this name."""
    path = ROOT / CASES / file
    return path.is_file() and any(it["name"] == name for it in tomllib.loads(path.read_text(encoding="utf-8")).get("case", []))


def is_part(matter: str, part: str) -> bool:
    """Whether a matter has a part of this name."""
    if not (ROOT / f"tests/{matter}/run").is_file():
        return False
    if matter == "cases":
        return is_case(*part.split(": ", 1)) if ": " in part else False
    texts, forms = parts_of(matter)
    return part in texts or any(re.fullmatch(form, part) for form in forms)


def is_there(span: str) -> bool:
    """Whether what a code span names is there."""
    proved, part = re.fullmatch(r"known_values::(\w+)::(\w+)", span), re.fullmatch(r"tests/(\w+): (.+)", span)
    if proved:
        path = ROOT / f"crates/known_values/src/{proved.group(1)}.rt"
        return path.is_file() and f"#[test]\nfn {proved.group(2)}(" in path.read_text(encoding="utf-8")
    return is_part(*part.groups()) if part else span in edits()


def unrefused_bodies() -> list[str]:
    """The wrong bodies that name nothing, and what is named and not there."""
    rows = cells_of("docs/PROVED.md", HEAD)
    found = ["no wrong body"] if not rows else []
    for row in rows:
        spans = re.findall(r"`([^`]*)`", row[-1]) if len(row) == 2 else []
        found += [] if spans else [f"{row[0]}: nothing refuses it"]
        found += [f"{row[0]}: there is no {it}" for it in spans if not is_there(it)]
    return found
