"""The settings: a TOML file to a plan, or the first key at fault by its path. A plan, a field and a part are what their keys hold."""

import re
import tomllib
from collections.abc import Callable
from functools import lru_cache
from typing import Any

from tables import refuse_if
from values import APART, COMPARES, KEYS, LETTERED, MARKS, SUFFIXES, TITLES

OUTPUTS = ("pairs.csv", "rule.csv", "links.csv", "prices.csv", "report.txt")
DELIMITERS = {"comma": b",", "semicolon": b";", "tab": b"\t"}
NEEDED = object()
Reader = Callable[[str, Any], Any]


class Keys(dict):
    """What the keys of a table of the settings hold; two are the same only where they are one."""

    __hash__ = object.__hash__


def typed(kind: type, is_allowed: Callable[[Any], Any] = lambda _: True) -> Reader:
    """Reads a value of a type that is in its range. A truth value is no whole number."""

    def read(path: str, value: Any) -> Any:
        refuse_if(type(value) is not kind, 3, f"settings: wrong type at {path}")
        refuse_if(not is_allowed(value), 3, f"settings: out of range at {path}")
        return value

    return read


def choice(words: Any) -> Reader:
    """Reads one of some words."""
    return typed(str, lambda it: it in words)


def whole(least: int, most: int) -> Reader:
    """Reads a whole number of a range."""
    return typed(int, lambda it: least <= it <= most)


def array(least: int, most: int, element: Reader) -> Reader:
    """Reads an array: its length first, then each element at its numbered path."""
    found = typed(list, lambda it: least <= len(it) <= most)
    return lambda path, value: tuple(element(f"{path}.{number}", it) for number, it in enumerate(found(path, value), 1))


label = typed(str, lambda it: 1 <= len(it.encode()) <= 255)
mark = typed(str, lambda it: len(it.encode()) <= 64)
word = typed(str, lambda it: re.fullmatch("[A-Z0-9]{1,32}", it))


def file(*taken: str | None) -> Reader:
    """Reads the name of a file that is none of the outputs and of some others."""
    return typed(str, lambda it: 1 <= len(it.encode()) <= 255 and it not in (*OUTPUTS, *taken))


def word_table(path: str, value: Any) -> tuple[tuple[str, str], ...]:
    """Reads a table from words to words, in the order of their bytes."""
    found = typed(dict, lambda it: len(it) <= 1000)(path, value)
    return tuple((word(f"{path}.{key}", key), word(f"{path}.{key}", found[key])) for key in sorted(found, key=str.encode))


def shares(width: int) -> Reader:
    """Reads shares in 1,024ths of so many outcomes."""

    def read(path: str, value: Any) -> tuple[int, ...]:
        refuse_if(type(value) is not list or any(type(it) is not int for it in value), 3, f"settings: wrong type at {path}")
        refuse_if(len(value) != width or min(value) < 1 or sum(value) != 1024, 3, f"settings: out of range at {path}")
        return tuple(value)

    return read


def keys(path: str, value: Any, rules: dict[str, Callable[[Keys], tuple]]) -> Keys:
    """Reads a table: the least key that has no rule is refused first; then the keys are taken in the order of the rules. A rule tells
    from what is read so far how to read the key, not at all where the key does not belong here, and what stands where it is absent."""
    table, above, found = typed(dict)(path, value), f"{path}." if path else "", Keys()
    for key in sorted(table, key=str.encode):
        refuse_if(key not in rules, 3, f"settings: unknown key {above}{key}")
    for key, rule in rules.items():
        reader, default = rule(found)
        refuse_if(key in table and reader is None, 3, f"settings: unknown key {above}{key}")
        refuse_if(key not in table and default is NEEDED, 3, f"settings: missing key {above}{key}")
        found[key] = reader(above + key, table[key]) if key in table else default
    return found


def needed(reader: Reader, belongs: bool = True) -> tuple:
    """A key that must be there where it belongs, and may not be elsewhere."""
    return (reader, NEEDED) if belongs else (None, None)


def field(has_sample: bool) -> Reader:
    """Reads the fields one after the other, each with a name of its own."""
    names: list[str] = []
    form = choice(("ymd", "dmy", "mdy"))
    rules = {
        "name": lambda it: needed(typed(str, lambda name: re.fullmatch("[a-z0-9_]{1,32}", name) and name not in names)),
        "column_a": lambda it: (label, it["name"]),
        "column_b": lambda it: (label, it["name"]),
        "kind": lambda it: needed(choice(("name", "place", "date"))),
        "form_a": lambda it: needed(form, it["kind"] == "date"),
        "form_b": lambda it: needed(form, it["kind"] == "date"),
        "compare": lambda it: needed(choice(COMPARES[it["kind"] == "date"])),
        "n": lambda it: needed(whole(1, 20), it["compare"] in LETTERED),
        "t": lambda it: needed(whole(0, APART.get(it["compare"], 0)), it["compare"] in APART),
        "rare": lambda it: (None if it["compare"] in APART else whole(2, 200_000), None),
        "m": lambda it: needed(shares(3 if it["rare"] is None else 4), not has_sample),
        "u": lambda it: needed(shares(3 if it["rare"] is None else 4), not has_sample),
    }

    def read(path: str, value: Any) -> Keys:
        made = keys(path, value, rules)
        names.append(made["name"])
        return made

    return read


def blocking_pass(fields: tuple[Keys, ...]) -> Reader:
    """Reads a pass over some fields, as its parts."""
    by_name = {it["name"]: it for it in fields}
    rules = {
        "field": lambda it: needed(choice(by_name)),
        "key": lambda it: needed(choice(KEYS[by_name[it["field"]]["kind"] == "date"])),
        "n": lambda it: needed(whole(1, 20), it["key"] in LETTERED),
    }
    part = lambda path, value: keys(path, value, rules)
    return lambda path, value: keys(path, value, {"parts": lambda _: needed(array(1, 4, part))})["parts"]


TOP = {
    **{key: lambda _: needed(file()) for key in ("file_a", "file_b")},
    **{key: lambda _: (label, "id") for key in ("id_a", "id_b")},
    **{key: lambda _: (choice(DELIMITERS), "comma") for key in ("delimiter_a", "delimiter_b")},
    "sample": lambda _: (file(), None),
    "journal": lambda it: (file(it["file_a"], it["file_b"], it["sample"]), None),
    **{key: lambda _: needed(whole(0, 10**6)) for key in ("mu_ppm", "lambda_ppm")},
    "seed": lambda _: (whole(0, 2**63 - 1), 0),
    "award": lambda _: (whole(0, 1000), 500),
    **{key: lambda _: (typed(bool), False) for key in ("strict", "double")},
    "missing": lambda _: (array(0, 50, mark), MARKS),
    "titles": lambda _: (array(0, 200, word), TITLES),
    "suffixes": lambda _: (array(0, 200, word), SUFFIXES),
    **{key: lambda _: (word_table, ()) for key in ("names", "places")},
    "field": lambda it: needed(array(1, 6, field(it["sample"] is not None))),
    "pass": lambda it: needed(array(1, 8, blocking_pass(it["field"]))),
}


def has_long_number(value: Any) -> bool:
    """Whether a whole number of more than 64 bits stands somewhere in a value."""
    inner = value.values() if type(value) is dict else value if type(value) is list else ()
    return type(value) is int and not -(2**63) <= value < 2**63 or any(map(has_long_number, inner))


@lru_cache(256)
def settings(data: bytes) -> Keys:
    """The plan of a settings file. Left out: what TOML 1.1 allows and TOML 1.0 does not, as line ends within braces."""
    try:
        top = tomllib.loads(data.decode())
    except (ValueError, RecursionError):
        top = None
    refuse_if(top is None or has_long_number(top), 3, "settings: not TOML")
    return keys("", top, TOP)


@lru_cache(256)
def within(plan: Keys) -> Keys:
    """The plan of A's file with itself: what it says of A it says of B too."""
    of_both = lambda it: Keys(it | {f"{key[:-2]}_b": value for key, value in it.items() if key.endswith("_a")})
    return Keys(of_both(plan) | {"field": tuple(map(of_both, plan["field"]))})
