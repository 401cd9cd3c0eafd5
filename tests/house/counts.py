"""What is counted of the sources of the crates: lines, functions, the clauses of each, and what one crate cites of another's proofs."""

import re
from collections import Counter
from dataclasses import dataclass
from pathlib import Path

from tally import ROOT

# A function's head, by rt fmt's layout; its contract stands between that and its body, or the `;` of a trait.
HEAD = re.compile(r"^( *)(pub(?:\([^)]*\))? )?(?:const |unsafe )*fn (\w+)", flags=re.M)
BLOCK = re.compile(r"^(pub trait|impl)\b(?:<[^{\n]*?>)? ?([^{\n]*)\{", flags=re.M)
CITED = re.compile(r"^ *(?:ghost )?(?:pub )?use Rattle\.(\w+)\.proofs\b", flags=re.M)
LIBRARY = "std"


@dataclass(frozen=True)
class Function:
    """A function of a source: its path, whether other crates may call it, and how many clauses its contract ensures."""

    path: str
    is_public: bool
    clauses: int


@dataclass(frozen=True)
class Counts:
    """The counts of one crate: lines of code, of definitions and of proofs, its functions, and its citations by the crate cited."""

    crate: str
    code: int
    definitions: int
    proofs: int
    functions: list[Function]
    citations: Counter

    def lines(self) -> int:
        return self.code + self.definitions + self.proofs


def type_of(head: str) -> str:
    """The name of the type or trait whose block begins with these words: `Model for Decided` is of Decided."""
    name = re.match(r"\w+(?:::\w+)*", head.rpartition(" for ")[2].strip())
    return name.group(0) if name else head.strip()


def functions_of(crate: str, module: str, text: str) -> list[Function]:
    """The functions in the text of a module."""
    text = re.sub(r"//.*", "", text)
    blocks, heads, found = list(BLOCK.finditer(text)), list(HEAD.finditer(text)), []
    for head, after in zip(heads, [*heads[1:], None]):
        indent, rights, name = head.groups()
        rest = text[head.end() : after.start() if after else len(text)]
        end = re.search(rf"^{indent}\{{|;$|\{{$", rest, flags=re.M)
        within = [it for it in blocks if it.start() < head.start()][-1:] if indent else []
        names = [crate, module, *(type_of(it.group(2)) for it in within), name]
        is_public = rights == "pub " or any(it.group(1) == "pub trait" for it in within)
        contract = rest[: end.start()] if end else rest
        found.append(Function("::".join(names), is_public, len(re.findall(r"\bensures\b", contract))))
    return found


def lines_of(paths: list[Path]) -> int:
    """How many lines some files have."""
    return sum(len(path.read_text(encoding="utf-8").splitlines()) for path in paths)


def counts_of(top: Path) -> Counts:
    """The counts of the crate in a folder."""
    code, definitions, proofs = (sorted(top.glob(it)) for it in ("src/**/*.rt", "specs/**/*.antt", "proofs/**/*.antt"))
    functions = [
        it
        for path in code
        for it in functions_of(top.name, "::".join(path.relative_to(top / "src").with_suffix("").parts), path.read_text(encoding="utf-8"))
    ]
    cited = Counter(it for path in [*code, *definitions, *proofs] for it in CITED.findall(path.read_text(encoding="utf-8")))
    others = Counter({crate: number for crate, number in cited.items() if crate not in (top.name, LIBRARY)})
    return Counts(top.name, lines_of(code), lines_of(definitions), lines_of(proofs), functions, others)


def house() -> list[Counts]:
    """The counts of every crate, by name."""
    return [counts_of(path.parent) for path in sorted((ROOT / "crates").glob("*/src"))]
