"""The rule: shares, weights, the filled rule of a plan, its border words and decisions, and what it attains."""

import struct
from dataclasses import dataclass
from fractions import Fraction
from functools import cache, lru_cache
from itertools import product
from math import prod

from pairs import Pair, People, compared, comparison, pair_of
from settings import Keys
from tables import refuse_if, table

UNIT, WHOLE, STATUSES = 1024, 65_536, ("matched", "unmatched")
RULE_HEADER = ["pattern", "outcomes", "m", "u", "weight", "link", "possible", "nonlink"]
Shares = tuple[tuple[tuple[int, ...], tuple[int, ...]], ...]


@dataclass(eq=False)
class Cell:
    """A comparison pattern, and how many of 65,536 of its pairs become links and non-links."""

    number: int
    outcomes: tuple[int, ...]
    m: int
    u: int
    weight: int
    link: int = 0
    nonlink: int = 0

    @property
    def possible(self) -> int:
        """How many of 65,536 go to review."""
        return WHOLE - self.link - self.nonlink

    def letters(self) -> str:
        """The outcomes as letters."""
        return "".join("ADMR"[it] for it in self.outcomes)

    def row(self) -> list:
        """The row of the cell in a text of the rule."""
        return [self.number, self.letters(), self.m, self.u, self.weight, self.link, self.possible, self.nonlink]


def sample_pairs(data: bytes, a: People, b: People) -> dict[str, list[Pair]]:
    """The pairs of a sample by their status, or its first fault."""
    found: dict[str, list[Pair]] = {status: [] for status in STATUSES}
    row_of: dict[Pair, int] = {}
    for row, (id_a, id_b, status) in enumerate(table(data, "sample", ["id_a", "id_b", "status"]), 1):
        refuse_if(status not in STATUSES, 4, f"sample: row {row}: status")
        pair = pair_of(a, b, "sample", row, id_a, id_b)
        refuse_if(pair in row_of, 4, f"sample: row {row}: pair of row {row_of.get(pair)}")
        row_of[pair] = row
        found[status].append(pair)
    for status in STATUSES:
        refuse_if(not found[status], 4, f"sample: no {status} pair")
    return found


def remainders(counts: list[int]) -> tuple[int, ...]:
    """Shares in 1,024ths: one for each outcome, the rest in proportion by largest remainders, of equal ones the earlier first."""
    spare, total = UNIT - len(counts), sum(counts)
    given = [1 + spare * it // total for it in counts]
    order = sorted(range(len(counts)), key=lambda at: -(spare * counts[at] % total))
    for at in order[: UNIT - sum(given)]:
        given[at] += 1
    return tuple(given)


@lru_cache(256)
def counted_shares(plan: Keys, data: bytes, a: People, b: People) -> Shares:
    """The shares m and u of each field, as a sample counts them."""
    seen = {status: [comparison(plan, a, b)(*pair) for pair in pairs] for status, pairs in sample_pairs(data, a, b).items()}
    widths = [3 if field["rare"] is None else 4 for field in plan["field"]]
    count = lambda at, status: [sum(it[at] == outcome for it in seen[status]) for outcome in range(widths[at])]
    return tuple(tuple(remainders(count(at, status)) for status in STATUSES) for at in range(len(widths)))


@cache
def weight(m: int, u: int) -> int:
    """The greatest whole w with u^8 2^w at most m^8: eighths of a bit, rounded down."""
    return max(w for w in range(-80, 80) if u**8 << max(w, 0) <= m**8 << max(-w, 0))


@lru_cache(1024)
def filled(shares: Shares, mu_ppm: int, lambda_ppm: int) -> list[Cell]:
    """The rule: the patterns by m/u, the greatest first, of equal ones the smaller number; links from the front as far as the one
    level allows, non-links from the back as far as the other does."""
    cells = []
    for number, outcomes in enumerate(product(*(range(len(ms)) for ms, _ in shares))):
        both = [(ms[it], us[it]) for (ms, us), it in zip(shares, outcomes)]
        cells.append(Cell(number, outcomes, prod(m for m, _ in both), prod(u for _, u in both), sum(weight(m, u) for m, u in both)))
    cells.sort(key=lambda cell: (-Fraction(cell.m, cell.u), cell.number))
    wrong, lost = (asked * UNIT ** len(shares) * WHOLE // 10**6 for asked in (mu_ppm, lambda_ppm))
    for cell in cells:
        cell.link = max(0, min(WHOLE, wrong // cell.u))
        wrong -= WHOLE * cell.u
    for cell in reversed(cells):
        cell.nonlink = max(0, min(WHOLE - cell.link, lost // cell.m))
        lost -= (WHOLE - cell.link) * cell.m
    return cells


def levels(cells: list[Cell]) -> dict[str, int]:
    """What a rule attains, over 1,024 to the number of fields times 65,536."""
    mu, lost = sum(cell.u * cell.link for cell in cells), sum(cell.m * cell.nonlink for cell in cells)
    m, u = sum(cell.m * cell.possible for cell in cells), sum(cell.u * cell.possible for cell in cells)
    return {"mu": mu, "lambda": lost, "possible_m": m, "possible_u": u}


def frontier_row(shares: Shares, mu_ppm: int, lambda_ppm: int) -> list[int]:
    """An asked level, what its rule attains, and the slack: the m and the u of the borders, a cell that is both twice."""
    cells = filled(shares, mu_ppm, lambda_ppm)
    borders = [cell for cell in cells if cell.link < WHOLE][:1] + [cell for cell in cells if cell.possible > 0][-1:]
    slack = sum(cell.m for cell in borders), sum(cell.u for cell in borders)
    return [mu_ppm, *levels(cells).values(), UNIT ** len(shares) * WHOLE, *slack]


@lru_cache(4096)
def chacha_block(seed: int, number: int) -> list[int]:
    """The sixteen words of a block of ChaCha20 (RFC 8439), under the key of a seed, with a block number of 64 bits."""
    first = [*struct.unpack("<4I", b"expand 32-byte k"), *struct.unpack("<8I", seed.to_bytes(32, "little"))]
    first += [number & 0xFFFFFFFF, number >> 32, 0, 0]
    state = first[:]
    rotate = lambda it, by: (it << by | it >> 32 - by) & 0xFFFFFFFF
    columns_and_diagonals = [(at, *(4 * row + (at + row * by) % 4 for row in (1, 2, 3))) for by in (0, 1) for at in range(4)]
    for a, b, c, d in columns_and_diagonals * 10:
        for x, y, z, by in ((a, b, d, 16), (c, d, b, 12), (a, b, d, 8), (c, d, b, 7)):
            state[x] = (state[x] + state[y]) & 0xFFFFFFFF
            state[z] = rotate(state[z] ^ state[x], by)
    return [(x + y) & 0xFFFFFFFF for x, y in zip(state, first)]


def decision(cell: Cell, seed: int, pair: Pair) -> str:
    """The decision on a pair of a cell: by its border word where the cell leaves a choice."""
    number = pair[0] * 2**17 + pair[1]
    low = chacha_block(seed, number // 16)[number % 16] % WHOLE if WHOLE not in (cell.link, cell.possible, cell.nonlink) else 0
    return "link" if low < cell.link else "nonlink" if low >= WHOLE - cell.nonlink else "possible"


@lru_cache(256)
def decided(plan: Keys, shares: Shares, a: People, b: People) -> list[tuple[Pair, Cell, str]]:
    """Each compared pair, its pattern, and the decision on it."""
    cell_of = {cell.outcomes: cell for cell in filled(shares, plan["mu_ppm"], plan["lambda_ppm"])}
    sure = {cell.number: decision(cell, 0, (0, 0)) for cell in cell_of.values() if WHOLE in (cell.link, cell.possible, cell.nonlink)}
    outcomes_of = comparison(plan, a, b)
    found = [(pair, cell_of[outcomes_of(*pair)]) for pair in compared(plan, a, b)]
    return [(pair, cell, sure.get(cell.number) or decision(cell, plan["seed"], pair)) for pair, cell in found]
