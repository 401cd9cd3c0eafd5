"""The limits of kept.toml, what the house has reached, and what it aims at."""

import math
import tomllib
from pathlib import Path

from counts import Counts, Function

PATH = Path(__file__).with_name("kept.toml")
# A public function beyond this many clauses stands in kept.toml by its name.
MOST_CLAUSES = 8
TARGETS = {"lines": "77,000", "functions": "1,500", "citations": "40", "mean": "1.60", "public": f"none over {MOST_CLAUSES}"}
HEAD = """# What the house has reached (tests/house/run); a part of that matter fails where a number is passed.
#
# To lower one: bring the house below it, run `tests/house/run --keep`, which writes what is reached and never a greater number, and commit
# this file with the change. A number is raised by hand alone, in the commit that needs it, whose message says why. Lines are rounded up
# to the hundred, and the mean to the hundredth.

"""


def mean_of(crates: list[Counts]) -> float:
    """The clauses of a function in the mean, over those that have one, rounded up to the hundredth."""
    clauses = [it.clauses for crate in crates for it in crate.functions if it.clauses]
    return math.ceil(100 * sum(clauses) / len(clauses)) / 100


def reached(crates: list[Counts]) -> dict[str, int | float]:
    """The numbers of the house as it stands, as the file has them."""
    return {
        "lines": math.ceil(sum(it.lines() for it in crates) / 100) * 100,
        "functions": sum(len(it.functions) for it in crates),
        "citations": sum(it.citations.total() for it in crates),
        "mean": mean_of(crates),
    }


def long_contracts(crates: list[Counts]) -> dict[str, int]:
    """The public functions with more clauses than are aimed at, with how many."""
    found: list[Function] = [it for crate in crates for it in crate.functions if it.is_public and it.clauses > MOST_CLAUSES]
    return {it.path: it.clauses for it in sorted(found, key=lambda it: (-it.clauses, it.path))}


def held() -> dict:
    """The limits of the file."""
    return tomllib.loads(PATH.read_text(encoding="utf-8"))


def judged(crates: list[Counts]) -> list[tuple[str, str, str, str, bool]]:
    """Each part: its name, what is reached, the limit, the target, and whether the limit is kept."""
    limits, now, long = held(), reached(crates), long_contracts(crates)
    found = [(part, str(now[part]), str(limits[part]), TARGETS[part], now[part] <= limits[part]) for part in now]
    beyond = {path: number for path, number in long.items() if number > limits["public"].get(path, MOST_CLAUSES)}
    given = f"{len(long)} over {MOST_CLAUSES}" + "".join(f", {path} {number}" for path, number in beyond.items())
    return [*found, ("public", given, f"{len(limits['public'])} by name", TARGETS["public"], not beyond)]


def lower(crates: list[Counts]) -> None:
    """Writes what is reached over the limits, where it is lower; a function that is no longer beyond the target loses its line."""
    limits, now, long = held(), reached(crates), long_contracts(crates)
    lines = [f"{part} = {min(number, limits[part]):_}" if part != "mean" else f"{part} = {min(number, limits[part]):.2f}"
             for part, number in now.items()]
    public = [f'"{path}" = {min(long[path], limit)}' for path, limit in limits["public"].items() if path in long]
    PATH.write_text(HEAD + "\n".join([*lines, "", "[public]", *public]) + "\n", encoding="utf-8")
