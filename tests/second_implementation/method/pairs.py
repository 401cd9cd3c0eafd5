"""Pairs: the records of two files, those that share a key in some pass, and the outcomes of their fields. The limit of all texts
together, 192 MiB, is left out: no inputs of this test come near it."""

from collections import Counter
from collections.abc import Callable, Hashable
from dataclasses import dataclass
from functools import lru_cache

from settings import DELIMITERS, Keys
from tables import load, refuse_if, table
from values import Value, canon_of, date_value, name_value

MOST_PAIRS = 2_000_000
AGREE, DISAGREE, MISSING, RARE = range(4)
Pair = tuple[int, int]


@dataclass(frozen=True, eq=False)
class People:
    """The records of a file: ids and where they stand, the values of the fields, and the rows and fields of unreadable dates."""

    ids: list[str]
    at: dict[str, int]
    rows: list[list[Value]]
    unreadable: list[tuple[int, str]]


def value_of(plan: Keys, field: Keys, side: str, text: str) -> tuple[Value, bool]:
    """The standard value of a text in a file, and whether it could be read."""
    if field["kind"] == "date":
        return date_value(text, field[f"form_{side}"], plan["missing"])
    lists = (plan["titles"], plan["suffixes"], plan["names"]) if field["kind"] == "name" else ((), (), plan["places"])
    return name_value(text, plan["missing"], *lists), True


@lru_cache(256)
def people(plan: Keys, side: str, data: bytes) -> People:
    """The records of A or B, or the first fault of the file."""
    columns, sign = [it[f"column_{side}"] for it in plan["field"]], DELIMITERS[plan[f"delimiter_{side}"]]
    rows = table(data, side, columns, plan[f"id_{side}"], sign)
    read = [[value_of(plan, field, side, cell) for field, cell in zip(plan["field"], row[1:])] for row in rows]
    unreadable = [(number, field["name"]) for number, row in enumerate(read, 1) for field, it in zip(plan["field"], row) if not it[1]]
    ids = [row[0] for row in rows]
    return People(ids, {key: at for at, key in enumerate(ids)}, [[value for value, _ in row] for row in read], unreadable)


def prepared(plan: Keys, held: dict[str, bytes]) -> list[People]:
    """The records of both files: both are loaded before a fault of either is told; unreadable dates are refused last."""
    texts = [load(held, plan[f"file_{side}"], side) for side in "ab"]
    files = [people(plan, side, text) for side, text in zip("ab", texts)]
    for side, file in zip("ab", files):
        for row, name in file.unreadable:
            refuse_if(plan["strict"], 4, f"{side}: row {row}: {name} is no date")
    return files


def pair_of(a: People, b: People, role: str, row: int, id_a: str, id_b: str) -> Pair:
    """Where the records of two ids stand; refused where a file has none."""
    refuse_if(id_a not in a.at, 4, f"{role}: row {row}: unknown id_a")
    refuse_if(id_b not in b.at, 4, f"{role}: row {row}: unknown id_b")
    return a.at[id_a], b.at[id_b]


def joined(keys_a: list[list[Hashable]], keys_b: list[list[Hashable]]) -> list[Pair]:
    """The pairs of two files, rising, whose keys in some pass are present and equal."""
    rows_of: dict[tuple, list[int]] = {}
    for j, row in enumerate(keys_b):
        for it in enumerate(row):
            rows_of.setdefault(it, []).append(j)
    pairs: list[Pair] = []
    for i, row in enumerate(keys_a):
        near = {j for it in enumerate(row) if it[1] is not None for j in rows_of.get(it, ())}
        pairs += [(i, j) for j in sorted(near)]
        refuse_if(len(pairs) > MOST_PAIRS, 5, f"pairs: more than {MOST_PAIRS}")
    return pairs


@lru_cache(256)
def compared(plan: Keys, a: People, b: People) -> list[Pair]:
    """The pairs that share a key in some pass of a plan; a key is present where all its parts are."""
    at = {field["name"]: place for place, field in enumerate(plan["field"])}
    parts = lambda row, one: tuple(canon_of(it["key"], row[at[it["field"]]], it["n"]) for it in one)
    keys = lambda row: [None if None in it else it for it in (parts(row, one) for one in plan["pass"])]
    return joined(list(map(keys, a.rows)), list(map(keys, b.rows)))


@lru_cache(256)
def comparison(plan: Keys, a: People, b: People) -> Callable[[int, int], tuple[int, ...]]:
    """What gives the outcomes of two records. A value is rare where at most as many records of both files as the rare number have it."""
    fields = plan["field"]
    sides = [[[canon_of(it["compare"], value, it["n"]) for it, value in zip(fields, row)] for row in file.rows] for file in (a, b)]
    counts = [Counter(row[at] for rows in sides for row in rows) for at in range(len(fields))]

    def outcome(at: int, x: Value | int, y: Value | int) -> int:
        if x is None or y is None:
            return MISSING
        if fields[at]["t"] is not None:
            return AGREE if abs(x - y) <= fields[at]["t"] else DISAGREE
        return DISAGREE if x != y else RARE if counts[at][x] <= (fields[at]["rare"] or 0) else AGREE

    return lambda i, j: tuple(map(outcome, range(len(fields)), sides[0][i], sides[1][j]))
