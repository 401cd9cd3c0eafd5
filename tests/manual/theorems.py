"""The theorems of docs/PROVED.md: each row's call, clause and definition must stand in the sources.

A row names public calls as `crate::module::function` (or `crate::module::Type::method`); clauses of their contracts (`ensures` for one
or a ghost member without a name), then, behind points, fields of records of the definitions, to which the clause leads one after the other;
and the files of these definitions. A definition counts where a clause names it, or what it names leads there; a row has none where its
clauses name none. Every clause of `linkage` stands in a row, and every crate but those of NO_THEOREM.
"""

import functools
import re
from dataclasses import dataclass

from pages import ROOT, read

HEAD = "| Theorem | Call | Clause | Definition |"
# Crates of constants or of tests alone.
NO_THEOREM = ["known_values", "link_limits"]
TOP = "link_shell::command::linkage"
USE = re.compile(r"^\s*(?:ghost |pub )?use Rattle\.(\w+)\.specs\.([\w.]+?)(?:\.\{([^}]*)\}| as (\w+))", flags=re.M)


@dataclass(frozen=True)
class Row:
    """A row of the tables of theorems: its words, and the code spans of its other cells."""

    theorem: str
    calls: list[str]
    clauses: list[str]
    files: list[str]


def theorem_rows() -> list[Row]:
    """The rows of the tables that begin with HEAD."""
    found, inside = [], False
    for line in read("docs/PROVED.md").splitlines():
        inside = line.startswith("|") and (inside or line == HEAD)
        if inside and line != HEAD and not re.fullmatch(r"[\s|:-]+", line):
            cells = [cell.strip() for cell in line.strip().strip("|").split(" | ")]
            spans = [re.findall(r"`([^`]*)`", cell) for cell in cells[1:]]
            found.append(Row(cells[0], *spans) if len(spans) == 3 else Row(line, [], [], []))
    return found


def blocks_of(text: str, name: str) -> str:
    """The calls that a type or trait of a source hands out: those of its trait, of traits that it meets, and its own public ones."""
    heads = rf"^(?:pub trait|impl(?:<[^{{]*?>)?(?: [^{{]*? for)?) {name}\b[^{{]*\{{$"
    found = [(it.group(0), text[it.end() :].partition("\n}\n")[0]) for it in re.finditer(heads, text, flags=re.M)]
    is_own = [not (head.startswith("pub trait") or " for " in head) for head, _ in found]
    return "\n".join(re.sub(r"^( +)fn ", r"\1private ", body, flags=re.M) if own else body for (_, body), own in zip(found, is_own))


def is_exported(crate: str, module: str, name: str) -> bool:
    """Whether a crate hands out a name of one of its modules."""
    lib = read(f"crates/{crate}/src/lib.rt")
    names = " ".join(re.findall(rf"^pub use {module}::([^;]*);", lib, flags=re.S | re.M))
    return name in re.findall(r"\w+", names) or re.search(rf"^pub mod {module};", lib, flags=re.M) is not None


def contract_of(call: str) -> str | None:
    """The text of the contract of a public call, none where there is no such call."""
    crate, module, *names = call.split("::")
    path = ROOT / f"crates/{crate}/src/{module}.rt"
    if len(names) not in (1, 2) or not path.is_file() or not is_exported(crate, module, names[0]):
        return None
    text = path.read_text(encoding="utf-8")
    if len(names) == 2:
        text = blocks_of(text, names[0])
        ghost = re.search(rf"^ *ghost {names[1]}: (\{{.*\}});$", text, flags=re.M)
        if ghost:
            return f"ensures {ghost.group(1)}"
    head = "(?:pub )?fn" if len(names) == 2 else "pub fn"
    found = re.search(rf"^ *{head} {names[-1]}\b(.*?)(?=^ *\{{\}}?$|;$|\Z)", text, flags=re.S | re.M)
    return found.group(1) if found else None


def clauses_in(contract: str) -> dict[str, str]:
    """The clauses of a contract by their names; one without a name is `ensures`."""
    found = {}
    for match in re.finditer(r"\bensures (?:(\w+) )?\{", contract):
        at, depth = match.end(), 1
        while depth and at < len(contract):
            depth += {"{": 1, "}": -1}.get(contract[at], 0)
            at += 1
        found[match.group(1) or "ensures"] = contract[match.end() : at - 1]
    return found


@functools.cache
def imports(path: str) -> dict[str, tuple[str, str]]:
    """The names that a file imports of specifications of the repository, with the file of each and its name there."""
    found = {}
    for crate, module, names, alias in USE.findall(read(path)):
        file = f"{crate}/specs/{module.replace('.', '/')}.antt"
        if (ROOT / "crates" / file).is_file():
            for name in names.split(",") if names else [f"_ as {alias}"]:
                found[name.split(" as ")[-1].strip()] = file, name.split(" as ")[0].strip()
    return found


@functools.cache
def definitions_in(file: str) -> dict[str, str]:
    """The definitions of a file by their names, each with all of its lines."""
    found: dict[str, str] = {}
    name = ""
    for line in read(f"crates/{file}").splitlines():
        head = re.match(r"(?:abbrev |unfoldable )?(?:pub )?(?:record |data )?([^\W\d][\w-]*)", line)
        if head and not line.startswith("use "):
            name = head.group(1)
        if name and not line.startswith("--"):
            found[name] = found.get(name, "") + line + "\n"
    return found


def declared_in(file: str, word: str) -> tuple[str, str]:
    """Where a name is defined that a file has, or hands on from another."""
    while file and word not in definitions_in(file) and word in imports(f"crates/{file}"):
        file, word = imports(f"crates/{file}")[word]
    return file, word


@functools.cache
def reached(file: str, text: str) -> set[tuple[str, str]]:
    """The definitions, each with its file, that a text in a file speaks of, and all that these stand on."""
    found: set[tuple[str, str]] = set()
    left = [(file, word) for word in re.findall(r"[\w-]+", text)]
    while left:
        file, word = left.pop()
        if not (file.endswith(".antt") and word in definitions_in(file)):
            file, word = declared_in(*imports(f"crates/{file}").get(word, ("", "")))
        if file and (file, word) not in found:
            found.add((file, word))
            left += [(file, it) for it in re.findall(r"[\w-]+", definitions_in(file).get(word, ""))]
    return found


def lost_field(source: str, clause: str, fields: list[str], files: list[str]) -> str | None:
    """The first of these fields that no record of the files has to which the clause, and then the field before, leads."""
    starts = [(source, clause)]
    for field in fields:
        names = {it for file, text in starts for it in reached(file, text) if it[0] in files}
        form = rf"^  pub {field} : (.*?)(?=^  pub |\Z)"
        starts = [(file, it) for file, name in names for it in re.findall(form, definitions_in(file).get(name, ""), flags=re.S | re.M)]
        if not starts:
            return field
    return None


def source_of(call: str) -> str:
    """The file of the code of a call, below crates/."""
    crate, module, *_ = call.split("::")
    return f"{crate}/src/{module}.rt"


def wrong_in(row: Row) -> list[str]:
    """What does not hold of a row."""
    if not (row.calls and row.clauses):
        return ["a row has a theorem, calls, clauses and files, in code spans"]
    lost = [f"no file of definitions {it}" for it in row.files if not (ROOT / "crates" / it).is_file()]
    if lost:
        return lost
    found, stood = [], set()
    for call in row.calls:
        contract = contract_of(call)
        clauses = clauses_in(contract or "")
        heads = [it.split(".")[0] for it in row.clauses]
        found += [f"no public call {call}"] if contract is None else [f"{call} has no clause {it}" for it in heads if it not in clauses]
        named = {file for it in heads if it in clauses for file, _ in reached(source_of(call), clauses[it])}
        if contract is not None and row.files and not named.intersection(row.files):
            found.append(f"{call} stands on no definition of {row.files}")
        if named and not row.files:
            found.append(f"{call} stands on definitions, of which the row names none: {sorted(named)}")
        for clause, *fields in (it.split(".") for it in row.clauses):
            lost = lost_field(source_of(call), clauses.get(clause, ""), fields, row.files)
            found += [f"{'.'.join([clause, *fields])} leads to no field {lost} in {row.files}"] if lost else []
        stood |= named
    return found + [f"no clause of the row stands on {it}" for it in row.files if it not in stood]


def wrong_theorems() -> list[str]:
    """The rows that do not hold, each with what is wrong, and the clauses of the top call that stand in no row."""
    rows = theorem_rows()
    found = [f"{row.theorem}: {it}" for row in rows for it in wrong_in(row)]
    told = {clause.split(".")[0] for row in rows if TOP in row.calls for clause in row.clauses}
    found += [f"no row has the clause {it} of {TOP}" for it in clauses_in(contract_of(TOP) or "") if it not in told]
    crates = {path.parent.parent.name for path in (ROOT / "crates").glob("*/src/lib.rt")}
    shown = {call.split("::")[0] for row in rows for call in row.calls}
    return found + [f"no row has a call of {it}" for it in sorted(crates - shown - set(NO_THEOREM))]
