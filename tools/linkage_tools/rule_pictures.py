"""Pictures of the rule and of the choice, for `picture`: the patterns with their weights, the frontier of review, candidates and prices."""

from collections import Counter
from itertools import count
from typing import NamedTuple

from .job import Cell, Job, Pair
from .job import whole as number_of
from .svg import INK, LINK, NONLINK, POSSIBLE, QUIET, Picture, whole
from .tables import Fault, records

LEVELS = [0, 1, 10, 100, 1_000, 10_000, 100_000]  # asked levels, in a million, where none is named
FRONTIER_HEADER = ["mu_ppm", "mu", "lambda", "possible_m", "possible_u", "denominator", "slack_m", "slack_u"]
PRICES_HEADER = ["side", "id", "price"]
MOST_PATTERNS, MOST_RECORDS = 60, 30  # rows of a picture
COLOURS = {"link": LINK, "possible": POSSIBLE, "nonlink": NONLINK}
WORDS = {"link": "link", "possible": "possible link", "nonlink": "non-link"}


# The patterns.


def decisions(cell: Cell) -> list[str]:
    """The decisions of which a pattern has a share; more than one where it is split by lot."""
    return [name for name in COLOURS if getattr(cell, name)]


def said_of(found: list[str]) -> str:
    """The decisions of a pattern in words."""
    if len(found) == 1:
        return WORDS[found[0]] + (": clerical review" if found == ["possible"] else "")
    return "all three, by lot" if len(found) == 3 else f"{WORDS[found[0]]} or {WORDS[found[1]]}, by lot"


def patterns(job: Job) -> Picture:
    """The picture of the rule: each comparison pattern in its order, with its weight, its decision and its compared pairs."""
    job.must_be_of_now()
    rule, pairs = job.rule(), Counter(it.pattern for it in job.pairs())
    kept = rule if len(rule) <= MOST_PATTERNS else [it for it in rule if pairs[it.pattern]][:MOST_PATTERNS]
    counts = Counter(" ".join(decisions(it)) for it in rule)
    split = len(rule) - sum(counts[name] for name in COLOURS)
    title = f"{counts['link']} of {len(rule)} patterns are links, {counts['possible']} go to review, {counts['nonlink']} are non-links"
    said = "Comparison patterns in the order of the rule: A agrees, D disagrees, M missing, R agrees on a rare value."
    picture = Picture(title + (f", {split} by lot" if split else ""), said if kept == rule else f"{said} The first with pairs.")
    top, step, zero = 110, 18, 330
    scale = 140 / max((abs(it.weight) for it in kept), default=1)
    for x, words, anchor in ((20, "outcomes", "start"), (125, "pairs", "end"), (zero, "weight in eighths of a bit", "middle"),
                             (530, "decision", "start")):
        picture.text(x, top - 12, words, anchor, fill=QUIET)
    for row, (cell, above) in enumerate(zip(kept, [None, *kept])):
        pattern_row(picture, top + step * row, cell, pairs[cell.pattern], scale, above is None or decisions(above) != decisions(cell))
    picture.line(zero, top - 4, zero, top + step * len(kept))
    return picture


def pattern_row(picture: Picture, y: float, cell: Cell, pairs: int, scale: float, is_named: bool) -> None:
    """The row of a pattern. Its decision is named where it differs from that of the row above."""
    zero, found = 330, decisions(cell)
    most = max(found, key=lambda name: getattr(cell, name))
    picture.text(20, y + 12, cell.outcomes, size=12)
    if pairs:
        picture.text(125, y + 12, whole(pairs), "end", 12)
    picture.rect(zero + min(0, cell.weight) * scale, y + 2, abs(cell.weight) * scale, 13, COLOURS[most])
    beside = 5 if cell.weight >= 0 else -5
    picture.text(zero + cell.weight * scale + beside, y + 12, str(cell.weight), "start" if beside > 0 else "end", 11)
    x = 530.0
    for name in found:
        picture.rect(x, y + 2, 70 * getattr(cell, name) / 65_536, 13, COLOURS[name])
        x += 70 * getattr(cell, name) / 65_536
    if is_named:
        picture.text(606, y + 12, said_of(found), size=12)


# The frontier.


def frontier(job: Job, asked: list[int]) -> Picture:
    """The picture of the frontier: at each asked level of links how many of 1,000 matched and of 1,000 unmatched pairs wait for review."""
    now = job.settings.mu_ppm or 0
    levels = sorted({*asked} or {*LEVELS, now})
    header, *rows = list(records(job.ask("frontier", job.name, *map(str, levels))))
    if header != FRONTIER_HEADER:
        raise Fault("linkage frontier: prints another header")
    found = {int(row[0]): [1000 * int(row[at]) / int(row[5]) for at in (3, 4)] for row in rows}
    told = sorted({levels[0], levels[-1]} | ({now} & {*levels}))
    first, *others = [f"{whole(found[level][0])}{{}} {level:,}" for level in told]
    facts = [first.format(" wait for review at mu_ppm"), *(it.format(" at") for it in others)]
    title = f"Of 1,000 matched pairs {', '.join(facts)}"
    picture = Picture(title, "At each asked level of links, mu_ppm, of a million unmatched pairs: what waits of 1,000 matched and of 1,000 "
                      "unmatched pairs, by the shares. All bars have one scale.")
    top, step, left, room = 120, 38, 130, 600
    picture.text(left - 14, top - 14, "mu_ppm", "end", fill=QUIET)
    for row, level in enumerate(levels):
        y = top + step * row
        picture.text(left - 14, y + 19, f"{level:,}", "end", bold=level == now)
        for at, (fill, what) in enumerate(((LINK, "matched"), (NONLINK, "unmatched"))):
            length = room * found[level][at] / 1000
            picture.rect(left, y + 14 * at, max(length, 1), 13, fill)
            picture.text(left + max(length, 1) + 6, y + 11 + 14 * at, f"{whole(found[level][at])} {what}", size=12)
    bottom = top + step * len(levels) + 2
    picture.line(left, bottom, left + room, bottom)
    for tick in range(0, 1001, 200):
        picture.line(left + room * tick / 1000, bottom, left + room * tick / 1000, bottom + 5)
        picture.text(left + room * tick / 1000, bottom + 20, f"{tick:,}", "middle", 12)
    picture.text(left + room / 2, bottom + 40, "pairs that wait for review, of 1,000 of their kind", "middle", fill=QUIET)
    return picture


# The choice.


class Choice(NamedTuple):
    """The candidates with their values, the links among them, and the price of each record that has one, by side and id."""

    values: dict[Pair, int]
    links: set[Pair]
    prices: dict[tuple[str, str], int]


def choice_of(job: Job) -> Choice:
    """The candidates are the links by rule, worth their weight, and possible links that review calls links, worth the award besides."""
    values = {}
    for it in job.pairs():
        if it.decision == "link" or it.decision == "possible" and it.verdict == "link":
            values[it.pair] = it.weight + (job.settings.award if it.decision == "possible" else 0)
    name, prices = "prices.csv", {}
    for row, (side, key, price) in enumerate(job.output(name, PRICES_HEADER), 1):
        prices[side.lower(), key] = number_of(name, row, price)
    return Choice(values, {it.pair for it in job.links()}, prices)


def groups(pairs: list[Pair]) -> list[list[Pair]]:
    """The pairs in groups that share no record with one another, in the order of the first pair of each."""
    at: dict[tuple[str, str], list[Pair]] = {}
    for pair in pairs:
        ends = ("a", pair[0]), ("b", pair[1])
        joined = list({id(group): group for group in (at.get(end) for end in ends) if group is not None}.values())
        group = joined[0] if joined else []
        for other in joined[1:]:
            group += other
        group.append(pair)
        at |= {end: group for a, b in group for end in (("a", a), ("b", b))}
    return list({id(group): group for group in at.values()}.values())


def rows_of(group: list[Pair], links: set[Pair]) -> list[tuple[str | None, str | None]]:
    """The records of a group in rows: those of a link beside one another, then those without."""
    of_links = [pair for pair in group if pair in links]
    taken_a, taken_b = {a for a, _ in of_links}, {b for _, b in of_links}
    left = [a for a in dict.fromkeys(a for a, _ in group) if a not in taken_a]
    right = [b for b in dict.fromkeys(b for _, b in group) if b not in taken_b]
    return [*of_links, *((a, None) for a in left), *((None, b) for b in right)]


def choice(job: Job) -> Picture:
    """The picture of the choice: candidates as lines between the records of A and of B, with values and prices; contested ones first."""
    job.must_be_of_now()
    it = choice_of(job)
    every = groups(list(it.values))
    if sum(len(rows_of(group, it.links)) for group in every) > MOST_RECORDS:
        every = sorted(every, key=lambda group: len(group) == 1)
    ends = [0]
    for group in every:
        ends.append(ends[-1] + len(rows_of(group, it.links)))
    shown = [group for group, end in zip(every, ends[1:]) if end <= MOST_RECORDS]
    dropped = len(it.values) - len(it.links & it.values.keys())
    title = f"{whole(len(it.links))} of {whole(len(it.values))} candidates are links, {whole(dropped)} dropped"
    said = "A bold line is a link, a dashed one a dropped candidate; the number on it is its value. The prices of its two records come to"
    more = "" if len(shown) == len(every) else f" Shown are {len(shown)} of {len(every)} groups, contested ones first."
    picture = Picture(title, f"{said} at least the value, on a link to just the value: so no other choice is worth more.{more}")
    top, step, places = 110, 40, {}
    for row, (a, b) in zip(count(), (pair for group in shown for pair in rows_of(group, it.links))):
        places |= {end: top + step * row for end in (("a", a), ("b", b)) if end[1] is not None}
    lines(picture, it, [pair for group in shown for pair in group], places)
    return picture


def lines(picture: Picture, it: Choice, pairs: list[Pair], places: dict[tuple[str, str], float]) -> None:
    """The lines of candidates, their values over them, and the records at both ends with their prices."""
    left, right = 270, 590
    for pair in sorted(pairs, key=lambda pair: pair in it.links):
        y1, y2, is_link = places["a", pair[0]], places["b", pair[1]], pair in it.links
        picture.line(left, y1, right, y2, LINK if is_link else INK, 3 if is_link else 1.2, "" if is_link else "6 4")
    for pair in pairs:
        y1, y2, is_link = places["a", pair[0]], places["b", pair[1]], pair in it.links
        part = 0.75 if is_link else 0.3
        picture.text(left + (right - left) * part, y1 + (y2 - y1) * part + 4, str(it.values[pair]), "middle", 12, bold=is_link, halo=True)
    for (side, key), y in places.items():
        x, anchor, away = (left, "end", -12) if side == "a" else (right, "start", 12)
        picture.dot(x, y)
        name = key if len(key) <= 18 else key[:17] + "…"
        picture.text(x + away, y + 4, f"{name}: price {whole(it.prices.get((side, key), 0))}", anchor, 12)
