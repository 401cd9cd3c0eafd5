"""Lists of candidates among which one-to-one links are hard to choose, as files and settings that come to them.

Candidates are the compared pairs, since at the asked levels each is a link, and their values are weights. Fields that join, two or three,
give each record of A its candidates: both files are cut into blocks, by each of these fields in another order. Fields that differ, up to
four, give the values: each comes to agree, disagree or missing, so that four of them make 81 values. A square is one block of all records.
"""

import random
from collections.abc import Callable
from dataclasses import dataclass
from pathlib import Path

from inputs import JOINS, Field, day, put, put_settings, shuffled

# What the fields that differ are worth: the outcomes of each are some eighths of a bit apart, and all sums differ.
DIFFERS = [f"m = [{agree}, 1, {1023 - agree}]\nu = [1, 2, 1021]\n" for agree in (3, 9, 40, 200)]

# A field that agrees on X or is missing: the sum of five such fields is a product of two vectors, as the values of a table of products are.
BITS = [f"m = [{agree}, 1, {1023 - agree}]\nu = [1, 1, 1022]\n" for agree in (2, 5, 20, 90, 400)]

# By how many days the births of two records may differ, and what each of these bounds is worth.
STEPS = [(1, 32), (5, 32), (20, 32), (80, 32), (300, 32)]
SPREAD = 3_000


@dataclass(frozen=True)
class Blocks:
    """Candidates by blocks: so many fields that join, each of which gives a record of A so many records of B."""

    fields: int
    each: int
    rows_b: float = 1.0  # for each row of A
    columns: int = 4  # of fields that differ


Texts = Callable[[random.Random, str], str]


def at_random(letters: str) -> Texts:
    """Values by both records: the field of either is one of some texts."""
    return lambda draw, side: draw.choice(letters).strip()


def by_b(draw: random.Random, side: str) -> str:
    """Values by the record of B alone: each of A has the same text, and B that, another or none."""
    return "X" if side == "a" else draw.choice("XY ").strip()


def nothing(draw: random.Random, side: str) -> str:
    """Values that are all the same."""
    return ""


def join(folder: Path, rows: int, shape: Blocks, texts: Texts, draw: random.Random) -> None:
    """Writes a list of `rows` rows of A by blocks."""
    rows_b = int(rows * shape.rows_b)
    blocks = max(1, rows_b // shape.each)
    names = [f"j{at}" for at in range(shape.fields)]
    differ = [f"d{at}" for at in range(shape.columns)]
    for side, count in (("a", rows), ("b", rows_b)):
        orders = [shuffled(count, draw) for _ in names]
        joined = ([f"K{order[row] * blocks // count}" for order in orders] for row in range(count))
        lines = (",".join([f"{side}{row}", *keys, *(texts(draw, side) for _ in differ)]) for row, keys in enumerate(joined))
        put(folder, f"{side}.csv", ",".join(["id", *names, *differ]), lines)
    fields = [Field(name, JOINS) for name in names] + [Field(name, shares) for name, shares in zip(differ, DIFFERS)]
    put_settings(folder, fields, [[name] for name in names])


def square(folder: Path, rows: int, rows_b: int, shares: list[str], texts: Texts, draw: random.Random) -> None:
    """Writes a list of all pairs of `rows` and `rows_b` records, with five fields that differ."""
    differ = [f"d{at}" for at in range(len(shares))]
    for side, count in (("a", rows), ("b", rows_b)):
        lines = (",".join([f"{side}{row}", "K", *(texts(draw, side) for _ in differ)]) for row in range(count))
        put(folder, f"{side}.csv", ",".join(["id", "k", *differ]), lines)
    fields = [Field("k", JOINS)] + [Field(name, it) for name, it in zip(differ, shares)]
    put_settings(folder, fields, [["k"]])


def line(folder: Path, rows: int, rows_b: int, draw: random.Random) -> None:
    """Writes a list of all pairs of records that are points on a line, each worth the less the farther the two are apart."""
    for side, count in (("a", rows), ("b", rows_b)):
        put(folder, f"{side}.csv", "id,k,born", (f"{side}{row},K,{day(draw.randrange(SPREAD))}" for row in range(count)))
    within = [Field(f"d{days}", f"m = [{agree}, {1023 - agree}, 1]\nu = [1, 1022, 1]\n", "date", "days", "born", f"t = {days}\n")
              for days, agree in STEPS]
    put_settings(folder, [Field("k", JOINS), *within], [["k"]])


def side_of(candidates: int) -> int:
    """The records a side of a square of so many candidates."""
    return round(candidates**0.5)


@dataclass(frozen=True)
class HardList:
    """What writes a list of about so many candidates, the numbers of the gate and of `--full`, and the command that chooses among them.

    A list is measured at its number and at half of it. Of one that is known not to be held, `known` says what it comes to.
    """

    write: Callable[[Path, int, random.Random], None]
    candidates: int = 400_000
    full: int = 2_000_000
    command: tuple[str, ...] = ("run", "s.toml")
    known: str = ""


def three(texts: Texts, columns: int) -> HardList:
    """A list of three candidates a row, one by each of three fields. As many rows as a file may have come to 300,000."""
    shape = Blocks(3, 1, columns=columns)
    return HardList(lambda folder, count, draw: join(folder, count // 3, shape, texts, draw), 150_000, 300_000)


def twenty(texts: Texts, columns: int = 4, rows_b: float = 1.0) -> HardList:
    """A list of twenty candidates a row, ten by each of two fields, with so many rows of B for each of A."""
    shape = Blocks(2, 10, rows_b, columns)
    return HardList(lambda folder, count, draw: join(folder, count // 20, shape, texts, draw))


def squared(shares: list[str], texts: Texts) -> HardList:
    """A list of all pairs of as many records a side."""
    return HardList(lambda folder, count, draw: square(folder, side_of(count), side_of(count), shares, texts, draw))


def seated(by_line: bool, known: str = "") -> HardList:
    """A list of all pairs of records of A and twenty of B, of which each has seats for its part of A, as far as capacities go."""

    def write(folder: Path, count: int, draw: random.Random) -> None:
        seats = 20
        rows = count // seats
        if by_line:
            line(folder, rows, seats, draw)
        else:
            square(folder, rows, seats, BITS, at_random("X "), draw)
        put(folder, "c.csv", "id_b,capacity", (f"b{row},{min(1000, rows // seats)}" for row in range(seats)))

    return HardList(write, 100_000, command=("many", "s.toml", "c.csv"), known=known)


LISTS = {
    "rows_3_equal": three(nothing, 0),
    "rows_3_nine": three(at_random("XYZ "), 2),
    "rows_20_nine": twenty(at_random("XYZ "), 2),
    "rows_20_random": twenty(at_random("XYZ ")),
    "half_20_nine": twenty(at_random("XYZ "), 2, 0.5),
    "half_20_random": twenty(at_random("XYZ "), 4, 0.5),
    "by_b": twenty(by_b),
    "square_random": squared([*DIFFERS, "m = [700, 1, 323]\nu = [1, 2, 1021]\n"], at_random("VWXYZ ")),
    "square_products": squared(BITS, at_random("X ")),
    "line": HardList(lambda folder, count, draw: line(folder, side_of(count), side_of(count), draw)),
    "seats_products": seated(False, "18.7 s at 800,000 candidates, 2.9 s at half of them"),
    "seats_line": seated(True, "4.7 s at 800,000 candidates, 0.41 s at 200,000 and 0.05 s at half of these"),
}
