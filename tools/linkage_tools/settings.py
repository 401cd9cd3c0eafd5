"""The settings of a job as the program reads them, with the defaults in the place of keys that are absent.

A tool needs the keys to find files, columns and fields. What is missing or of a wrong type is a fault here, in the program's words;
whether a number is in its range, a word one of the choices, or a key unknown, the program alone decides, and says so when it is asked.
"""

import tomllib
from dataclasses import dataclass
from pathlib import Path
from typing import Any

from .tables import MARK, Fault, load

SIGNS = {"comma": ",", "semicolon": ";", "tab": "\t"}
MARKS = ["", "-", "?", "N/A"]
TITLES = ["MR", "MRS", "MS", "MISS", "DR", "PROF", "REV", "SIR"]
SUFFIXES = ["JR", "SR", "II", "III", "IV"]
REQUIRED = object()


@dataclass(frozen=True)
class Field:
    """A field: its columns in A and B, how it is read and compared, and its shares in 1,024ths where the settings have them."""

    name: str
    columns: dict[str, str]  # by side, "a" and "b"
    kind: str
    forms: dict[str, str | None]  # of a date by side: ymd, dmy or mdy
    compare: str
    n: int | None
    t: int | None
    rare: int | None
    m: list[int] | None
    u: list[int] | None

    def letters(self) -> str:
        """The letters of its outcomes, in their order: agree, disagree, missing, and agree on a rare value where that is one."""
        return "ADM" if self.rare is None else "ADMR"


@dataclass(frozen=True)
class Part:
    """A part of a pass: a field, and the key that is made of it."""

    field: str
    key: str
    n: int | None


@dataclass(frozen=True)
class Settings:
    """What a settings file says. Names of files are relative to the folder where the command runs."""

    name: str  # of the settings file itself, as it was given
    files: dict[str, str]  # by side, as are the ids and the delimiters, which are signs here
    ids: dict[str, str]
    signs: dict[str, str]
    sample: str | None
    journal: str | None
    mu_ppm: int | None
    lambda_ppm: int | None
    seed: int
    award: int
    strict: bool
    double: bool
    missing: list[str]
    titles: list[str]
    suffixes: list[str]
    names: dict[str, str]
    places: dict[str, str]
    fields: list[Field]
    passes: list[list[Part]]


class Keys:
    """The keys of one table of a settings file, and the path that stands before them in a fault."""

    def __init__(self, name: str, held: Any, path: str = ""):
        self.name, self.held, self.path = name, held, path
        if type(held) is not dict:
            raise Fault(f"{name}: wrong type at {path}")

    def key(self, key: str) -> str:
        return f"{self.path}.{key}" if self.path else key

    def take(self, key: str, kind: type, default: Any = REQUIRED) -> Any:
        """The value of a key. Fault: it is required and absent, or of another type (a truth value is no number)."""
        if key not in self.held:
            if default is REQUIRED:
                raise Fault(f"{self.name}: missing key {self.key(key)}")
            return default
        if type(self.held[key]) is not kind:
            raise Fault(f"{self.name}: wrong type at {self.key(key)}")
        return self.held[key]

    def listed(self, key: str, kind: type, default: Any = REQUIRED) -> Any:
        """The value of a key that is an array of one type."""
        found = self.take(key, list, default)
        if found is not default and any(type(it) is not kind for it in found):
            raise Fault(f"{self.name}: wrong type at {self.key(key)}")
        return found

    def tables(self, key: str) -> list["Keys"]:
        """The tables of an array of tables; none where the key is absent."""
        found = self.take(key, list, [])
        return [Keys(self.name, it, f"{self.key(key)}.{number}") for number, it in enumerate(found, 1)]


def field_of(keys: Keys) -> Field:
    """A field of the settings."""
    name = keys.take("name", str)
    return Field(
        name=name,
        columns={side: keys.take(f"column_{side}", str, name) for side in "ab"},
        kind=keys.take("kind", str),
        forms={side: keys.take(f"form_{side}", str, None) for side in "ab"},
        compare=keys.take("compare", str),
        n=keys.take("n", int, None),
        t=keys.take("t", int, None),
        rare=keys.take("rare", int, None),
        m=keys.listed("m", int, None),
        u=keys.listed("u", int, None),
    )


def part_of(keys: Keys) -> Part:
    """A part of a pass."""
    return Part(keys.take("field", str), keys.take("key", str), keys.take("n", int, None))


def sign_of(keys: Keys, key: str) -> str:
    """The sign of a delimiter."""
    word = keys.take(key, str, "comma")
    if word not in SIGNS:
        raise Fault(f"{keys.name}: out of range at {key}")
    return SIGNS[word]


def settings_of(name: str, held: Any) -> Settings:
    """The settings of the tables of a TOML file. Fault: of the first key that is missing or of a wrong type."""
    keys = Keys(name, held)
    fields = [field_of(it) for it in keys.tables("field")]
    if not fields:
        raise Fault(f"{name}: missing key field")
    return Settings(
        name=name,
        files={side: keys.take(f"file_{side}", str) for side in "ab"},
        ids={side: keys.take(f"id_{side}", str, "id") for side in "ab"},
        signs={side: sign_of(keys, f"delimiter_{side}") for side in "ab"},
        sample=keys.take("sample", str, None),
        journal=keys.take("journal", str, None),
        mu_ppm=keys.take("mu_ppm", int, None),
        lambda_ppm=keys.take("lambda_ppm", int, None),
        seed=keys.take("seed", int, 0),
        award=keys.take("award", int, 500),
        strict=keys.take("strict", bool, False),
        double=keys.take("double", bool, False),
        missing=keys.listed("missing", str, MARKS),
        titles=keys.listed("titles", str, TITLES),
        suffixes=keys.listed("suffixes", str, SUFFIXES),
        names=keys.take("names", dict, {}),
        places=keys.take("places", dict, {}),
        fields=fields,
        passes=[[part_of(it) for it in one.tables("parts")] for one in keys.tables("pass")],
    )


def read_settings(folder: Path, name: str) -> Settings:
    """The settings of a file in a folder. Fault: it cannot be read, is no TOML in UTF-8, or as of `settings_of`."""
    data = load(folder / name).removeprefix(MARK)
    try:
        held = tomllib.loads(data.decode())
    except (ValueError, RecursionError) as lack:
        raise Fault(f"{name}: not TOML") from lack
    return settings_of(name, held)
