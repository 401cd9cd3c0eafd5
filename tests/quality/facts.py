"""What holds of the commands that print links, on made files: by bounds, for their quality is no promise of theirs.

The bounds are what was measured at 3,000 persons with the guessed shares of settings/, less three to five in a hundred.
"""

from collections import Counter
from collections.abc import Callable
from dataclasses import dataclass

from measure import Pair, rows, share
from ways import Broken, Job


@dataclass(frozen=True)
class Command:
    """The names of the parts of a command with their least values, 0 to 1, and what gives the values."""

    parts: dict[str, float]
    values: Callable[[Job], dict[str, float]]

    def __call__(self, job: Job) -> dict[str, tuple[float, float]]:
        return {name: (value, self.parts[name]) for name, value in self.values(job).items()}


def precision_and_recall(found: set[Pair], truth: set[Pair]) -> dict[str, float]:
    return {"precision": share(len(found & truth), len(found)), "recall": share(len(found & truth), len(truth))}


def of_duplicates(job: Job) -> dict[str, float]:
    """The pairs within a printed group, as pairs that are said to be of one person."""
    groups: dict[str, list[str]] = {}
    for line in job.call("duplicates", "settings.toml").splitlines()[1:]:
        group, name, _ = line.split(",")
        groups.setdefault(group, []).append(name)
    pairs = {(first, other) for ids in groups.values() for first in ids for other in ids if first != other}
    truth = job.truth | {(other, first) for first, other in job.truth}
    return precision_and_recall(pairs, truth)


def of_many(job: Job) -> dict[str, float]:
    """The printed links of persons to households, and whether no person and no household has more than it may."""
    printed = job.call("many", "settings.toml", "capacities.csv")
    if "\nside,id,price\n" not in printed:
        raise Broken("linkage many: no prices")
    lines = printed[:printed.index("side,id,price\n")].splitlines()[1:]
    links = [(a, b) for a, b, *_ in (line.split(",") for line in lines)]
    capacity = {row["id_b"]: int(row["capacity"]) for row in rows(job.folder / "capacities.csv")}
    persons, homes = Counter(a for a, _ in links), Counter(b for _, b in links)
    kept = max(persons.values()) == 1 and all(count <= capacity.get(home, 1) for home, count in homes.items())
    return {**precision_and_recall(set(links), job.truth), "capacities kept": float(kept)}


KINDS = {
    "duplicates": Command({"precision": 0.62, "recall": 0.93}, of_duplicates),
    "households": Command({"precision": 0.97, "recall": 0.95, "capacities kept": 1.0}, of_many),
}
