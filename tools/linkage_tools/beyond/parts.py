"""The components of the kept pairs (scipy.sparse.csgraph), and their packing into jobs."""

from io import BytesIO
from pathlib import Path
from typing import NamedTuple

import numpy as np

from ..job import Cell
from ..tables import Fault, written
from .files import put
from .runs import Kept
from .source import Source, shown_id

SHOWN_PATTERNS = 5  # in the line of a component that is too large


class Plan(NamedTuple):
    """Components in the order in which jobs take them: those of the most rows first, of equals that of the first row of A.

    The rows of component c are `rows_a[ends_a[c]:ends_a[c + 1]]`, and so for B; `pairs` is how many kept pairs each has; job j takes
    the components from `jobs[j]` up to `jobs[j + 1]`.
    """

    rows_a: np.ndarray
    ends_a: np.ndarray
    rows_b: np.ndarray
    ends_b: np.ndarray
    pairs: np.ndarray
    jobs: np.ndarray

    def sizes(self) -> np.ndarray:
        """The rows of each component on the side that has more."""
        return np.maximum(np.diff(self.ends_a), np.diff(self.ends_b))

    def rows(self, low: int, high: int) -> tuple[np.ndarray, np.ndarray]:
        """The rows of A and of B of some components, rising."""
        return np.sort(self.rows_a[self.ends_a[low]:self.ends_a[high]]), np.sort(self.rows_b[self.ends_b[low]:self.ends_b[high]])


def labels_of(kept: Kept, rows_a: int, rows_b: int) -> tuple[int, np.ndarray]:
    """How many components there are of all rows, and that of each row of A and then of B."""
    from scipy.sparse import coo_matrix  # here, for no worker needs it
    from scipy.sparse.csgraph import connected_components
    count = rows_a + rows_b
    graph = coo_matrix((np.ones(len(kept.a), np.int8), (kept.a, kept.b + rows_a)), shape=(count, count))
    return connected_components(graph, directed=False)


def order_of(labels: np.ndarray, rank: np.ndarray, count: int) -> tuple[np.ndarray, np.ndarray]:
    """The rows of a side by the rank of their components, those of a rank below `count` alone, and where each rank's begin and end."""
    ranks = rank[labels]
    order = np.argsort(ranks, kind="stable")
    ends = np.searchsorted(ranks[order], np.arange(count + 1))
    return order[:ends[count]], ends


def plan_of(kept: Kept, rows_a: int, rows_b: int, most_rows: int, most_pairs: int) -> Plan:
    """The components that have a kept pair, packed into jobs of at most so many rows a side and kept pairs."""
    count, labels = labels_of(kept, rows_a, rows_b)
    in_a, in_b = np.bincount(labels[:rows_a], minlength=count), np.bincount(labels[rows_a:], minlength=count)
    pairs = np.bincount(labels[kept.a], minlength=count)
    used = np.flatnonzero(pairs)
    first = np.full(count, rows_a, np.int64)
    np.minimum.at(first, labels[:rows_a], np.arange(rows_a))
    order = used[np.lexsort((first[used], -np.maximum(in_a, in_b)[used]))]
    rank = np.full(count, len(order), np.int64)
    rank[order] = np.arange(len(order))
    a, b = order_of(labels[:rows_a], rank, len(order)), order_of(labels[rows_a:], rank, len(order))
    plan = Plan(*a, *b, pairs[order], np.zeros(1, np.int64))
    return plan._replace(jobs=packed(plan, most_rows, most_pairs))


def packed(plan: Plan, most_rows: int, most_pairs: int) -> np.ndarray:
    """Where each job's components begin, and the end: each takes the next ones as long as they find room, and at least one."""
    ends = [plan.ends_a, plan.ends_b, np.concatenate([[0], np.cumsum(plan.pairs)])]
    begins, count = [0], len(plan.pairs)
    while begins[-1] < count:
        low = begins[-1]
        high = min(int(np.searchsorted(it, it[low] + most, "right")) - 1 for it, most in zip(ends, (most_rows, most_rows, most_pairs)))
        begins.append(max(high, low + 1))
    return np.array(begins, np.int64)


def write_plan(path: Path, plan: Plan) -> None:
    held = BytesIO()
    np.savez(held, **plan._asdict())
    put(path, held.getvalue())


def read_plan(path: Path) -> Plan:
    with np.load(path) as held:
        return Plan(*(held[name] for name in Plan._fields))


# A component that no job holds: what to say of it.

def largest_above(kept: Kept, sources: dict[str, Source], weights: np.ndarray, least: int) -> int:
    """The rows of the largest component, on its larger side, of the pairs of at least a weight."""
    of = weights[kept.pattern] >= least
    part = Kept(kept.a[of], kept.b[of], kept.pattern[of], kept.counts)
    if not len(part.a):
        return 0
    rows = sources["a"].rows
    count, labels = labels_of(part, rows, sources["b"].rows)
    return int(np.maximum(np.bincount(labels[:rows], minlength=count), np.bincount(labels[rows:], minlength=count)).max())


def cure_of(kept: Kept, sources: dict[str, Source], rule: list[Cell], most_rows: int) -> str:
    """The least weight from which on components find room, and the lambda_ppm that makes the patterns below it non-links.

    The rule takes patterns as non-links from its end, as long as the sum of their m is within lambda; so the level wanted is that sum.
    """
    weights = np.zeros(max(it.pattern for it in rule) + 1, np.int64)
    for cell in rule:
        weights[cell.pattern] = cell.weight
    steps = sorted({int(it) for it in np.unique(weights[kept.pattern])})
    low, high = 0, len(steps)
    while low < high:
        middle = (low + high) // 2
        fits = largest_above(kept, sources, weights, steps[middle]) <= most_rows
        low, high = (low, middle) if fits else (middle + 1, high)
    if low == len(steps):
        return "compare by more fields, for even the pairs of the greatest weight hang together"
    last = max(at for at, cell in enumerate(rule) if cell.weight >= steps[low])
    whole = 1024 ** len(rule[0].outcomes)
    level = -(-sum(cell.m for cell in rule[last + 1:]) * 1_000_000 // whole)
    return (f"with patterns of a weight below {steps[low]} as non-links, which lambda_ppm = {level} makes them, all find room; "
            "or compare by more fields")


def too_large(folder: Path, plan: Plan, at: int, kept: Kept, sources: dict[str, Source], rule: list[Cell], most_rows: int) -> Fault:
    """What to say of a component that no job holds. Writes too_large.csv with its pairs."""
    rows_a, rows_b = plan.rows(at, at + 1)
    inside = np.isin(kept.a, rows_a)
    pattern = kept.pattern[inside]
    outcomes = {cell.pattern: f"{cell.outcomes} (weight {cell.weight})" for cell in rule}
    counts = np.bincount(pattern)
    most = sorted(np.flatnonzero(counts), key=lambda it: (-counts[it], it))[:SHOWN_PATTERNS]
    head, rows = ["row_a", "row_b", "pattern"], zip(kept.a[inside] + 1, kept.b[inside] + 1, pattern)
    put(folder / "too_large.csv", written([head, *rows]).encode())
    said = ", ".join(f"{outcomes[int(it)]} {counts[it]}" for it in most)
    first = [shown_id(sources[side], int(rows[0])) for side, rows in (("a", rows_a), ("b", rows_b))]
    return Fault(f"{len(rows_a)} records of A and {len(rows_b)} of B hang together by {len(pattern)} possible links or links, too many "
                 f"for a job ({most_rows} rows): among them {first[0]} of A (row {rows_a[0] + 1}) and {first[1]} of B "
                 f"(row {rows_b[0] + 1}), all in {folder / 'too_large.csv'}; their patterns are {said}: "
                 f"{cure_of(kept, sources, rule, most_rows)}")
