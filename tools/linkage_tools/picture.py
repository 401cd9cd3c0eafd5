"""Draws a picture of a job, as SVG: counts of pairs, each labelled where it stands.

  picture SETTINGS weights      how many compared pairs have which weight, by decision: links, possible links, non-links
  picture SETTINGS levels       for each asked level of links: expected wrong links by the rule, and how many pairs go to review
  picture SETTINGS passes       what each pass compares: its pairs, those that no other pass finds, and how large its blocks are
  picture SETTINGS patterns     the rule: each comparison pattern with its weight, its decision and its compared pairs
  picture SETTINGS frontier     for each asked level of links what waits for review of 1,000 matched and of 1,000 unmatched pairs
  picture SETTINGS choice       the candidates as lines between their records, with values and prices: links, and what was dropped

`weights` reads pairs.csv. `levels` asks `linkage rule` at each level, and counts the compared pairs of pairs.csv under it: a pattern of
which a third goes to review counts with a third of its pairs. Expected wrong links are the attained level, as `linkage frontier` prints
it, times the unmatched pairs of which the shares u speak (all of A x B, or the compared ones: `fit -h` says how that is told). They are
those of the shares, the fields taken as independent: expect more. `passes` asks `linkage pairs` with each pass alone. A block is what
shares one key: its pairs are all pairs of its records of A and of B. `frontier` asks `linkage frontier` for the levels named by --levels;
`patterns` and `choice` read what `run` wrote. Of a rule of more than 60 patterns the first 60 that have pairs are drawn, and of a choice
30 rows of records, those first of which a candidate is dropped.
"""

import re
from collections import Counter
from math import ceil
from pathlib import Path
from typing import NamedTuple

from . import rule_pictures
from .fit import patterns
from .job import RULE_HEADER, Cell, Job, Pair, cells_of
from .passes import asked, changed, pairs_of_passes, words_of
from .svg import INK, LINK, NONLINK, POSSIBLE, QUIET, WIDTH, Picture, whole
from .tables import Fault
from .words import Words, count_of, give, start

LADDER = [level * 10**power for power in range(6) for level in (1, 2, 5)]  # asked levels, in a million
DECISIONS = {"link": ("links", LINK), "possible": ("possible links, for review", POSSIBLE), "nonlink": ("non-links", NONLINK)}
SIZES = [(1, 1), (2, 9), (10, 99), (100, 999), (1_000, 2_000_000)]  # pairs of a block


# The weights of the compared pairs.


def histogram(weights: Counter, low: int, high: int, width: int) -> list[int]:
    """The pairs in each step of so many eighths of a bit."""
    found = [0] * ((high - low) // width + 1)
    for weight, count in weights.items():
        found[(weight - low) // width] += count
    return found


def weights(job: Job) -> Picture:
    """The picture of the weights: for each decision a row of bars over one axis."""
    job.must_be_of_now()
    by_decision: dict[str, Counter] = {name: Counter() for name in DECISIONS}
    for it in job.pairs():
        by_decision[it.decision][it.weight] += 1
    total = {name: them.total() for name, them in by_decision.items()}
    every = [weight for them in by_decision.values() for weight in them]
    if not every:
        raise Fault("pairs.csv: no compared pair")
    width = max(8, 8 * ceil((max(every) - min(every)) / 8 / 60))
    low = min(every) // width * width
    title = f"Of {whole(sum(total.values()))} compared pairs {whole(total['link'])} are links, and {whole(total['possible'])} go to review"
    said = f"Pairs by weight, in steps of {width} eighths of a bit. A row has its own scale; its highest bar is labelled."
    picture = Picture(title, said)
    left, room = 60, WIDTH - 120
    step = room / len(histogram(Counter(), low, max(every), width))
    for row, (name, (words, fill)) in enumerate(DECISIONS.items()):
        base = 220 + 165 * row
        counts = histogram(by_decision[name], low, max(every), width)
        picture.text(left, base - 124, f"{whole(total[name])} {words}", bold=True)
        for at, count in enumerate(counts):
            if count:
                high = max(100 * count / max(counts), 1)
                picture.rect(left + step * at + 0.5, base - high, step - 1, high, fill)
        most = max(range(len(counts)), key=lambda at: counts[at])
        if counts[most]:
            picture.text(min(left + step * (most + 0.5), WIDTH - 80), base - 104, whole(counts[most]), "middle", 12)
        picture.line(left, base, left + room, base)
    axis(picture, left, room, low, low + width * len(counts), base)
    return picture


def axis(picture: Picture, left: float, room: float, low: int, high: int, base: float) -> None:
    """The axis of weights below the last row."""
    step = next(it for it in (8, 16, 40, 80, 160, 400, 800) if (high - low) / it <= 12)
    for weight in range(-(-low // step) * step, high + 1, step):
        x = left + room * (weight - low) / (high - low)
        picture.line(x, base, x, base + 5)
        picture.text(x, base + 20, str(weight), "middle", 12)
    picture.text(left + room / 2, base + 42, "weight in eighths of a bit", "middle", fill=QUIET)


# The levels.


class Level(NamedTuple):
    """An asked level of links: the expected wrong links by the rule, and the compared pairs for review."""

    mu_ppm: int
    wrong: float
    reviews: float


def rule_at(job: Job, mu_ppm: int) -> list[Cell]:
    """The rule at another asked level of links."""
    line = re.compile(r"(?m)^([ \t]*mu_ppm[ \t]*=[ \t]*)[\d_]+")
    text = changed(job, lambda it: line.sub(rf"\g<1>{mu_ppm}", it), lambda it: it | {"mu_ppm": mu_ppm})
    header, *rows = asked(job, text, "rule")
    if header != RULE_HEADER:
        raise Fault("linkage rule: prints another header")
    return cells_of("linkage rule", iter(rows))


def level_at(cells: list[Cell], mu_ppm: int, seen: Counter, unmatched: float, fields: int) -> Level:
    """What a rule lets expect: its level times the unmatched pairs, and of each pattern seen the share that goes to review."""
    wrong = sum(cell.u * cell.link for cell in cells) / 65_536 / 1024**fields * unmatched
    return Level(mu_ppm, wrong, sum(seen[cell.pattern] * cell.possible for cell in cells) / 65_536)


def levels_of(job: Job) -> tuple[list[Level], str]:
    """The levels up to the first at which nothing goes to review, that of the settings among them, and of which pairs u speaks."""
    found, said = patterns(job, None, None)
    seen = Counter(it.pattern for it in job.pairs())
    unmatched = float(re.search(r", (\d+), ", said[0])[1])
    made: list[Level] = []
    for mu_ppm in sorted({*LADDER, job.settings.mu_ppm or 1}):
        level = level_at(rule_at(job, mu_ppm), mu_ppm, seen, unmatched, len(job.settings.fields))
        made.append(level)
        if level.reviews < 0.5 and mu_ppm >= (job.settings.mu_ppm or 1):
            break
    return made, said[0]


def thinned(found: list[Level], kept: int) -> list[Level]:
    """The levels without those at the front that change nothing, for there the finest one serves as well."""
    first = next((at for at, it in enumerate(found) if it.reviews < 0.99 * found[0].reviews or it.mu_ppm == kept), len(found) - 1)
    return found[max(first - 1, 0):]


def levels(job: Job) -> Picture:
    """The picture of the levels: a row each, with a bar of wrong links and a bar of reviews."""
    job.must_be_of_now()
    now = job.settings.mu_ppm or 1
    found, said = levels_of(job)
    found = thinned(found, now)
    at_now = next(it for it in found if it.mu_ppm == now)
    title = f"At mu_ppm {now:,} the rule lets expect {whole(at_now.wrong)} wrong links, and {whole(at_now.reviews)} pairs go to review"
    picture = Picture(title, f"{said.replace('u is', 'The shares u are', 1)}. Fields are taken as independent: expect more wrong links.")
    top, step, columns = 140, 26, ((150, 190, "expected wrong links by the rule"), (500, 250, "pairs for review"))
    picture.text(110, top - 16, "mu_ppm", "end", fill=QUIET)
    for x, _, words in columns:
        picture.text(x, top - 16, words, fill=QUIET)
    for row, level in enumerate(found):
        y, is_now = top + step * row, level.mu_ppm == now
        picture.text(110, y + 14, f"{level.mu_ppm:,}", "end", bold=is_now)
        for (x, room, _), name, fill in zip(columns, ("wrong", "reviews"), (INK, POSSIBLE)):
            most = max(getattr(it, name) for it in found) or 1
            length = room * getattr(level, name) / most
            picture.rect(x, y, max(length, 1), step - 8, fill)
            picture.text(x + max(length, 1) + 6, y + 14, whole(getattr(level, name)), bold=is_now)
    picture.text(20, top + step * len(found) + 24, "Bold: the level of the settings. Each column has a scale of its own.", fill=QUIET)
    return picture


# The passes.


class Pass(NamedTuple):
    """A pass: its words, its pairs, how many no other pass finds, and the records of A and of B in each of its blocks."""

    words: str
    pairs: int
    alone: int
    blocks: list[tuple[int, int]]


def blocks_of(pairs: list[Pair]) -> list[tuple[int, int]]:
    """The records of A and of B in each block of one pass: the records of A of a block have the same first record of B."""
    first: dict[str, str] = {}
    count_b = Counter()
    for a, b in pairs:
        first.setdefault(a, b)
        count_b[a] += 1
    block_of = {b: Counter() for b in set(first.values())}
    for a, b in first.items():
        block_of[b][count_b[a]] += 1
    return [(them.total(), next(iter(them))) for them in block_of.values()]


def passes_of(job: Job) -> list[Pass]:
    """What each pass compares. Fault: as of `pairs_of_passes`."""
    found = pairs_of_passes(job)
    times = Counter(pair for pairs in found for pair in pairs)
    words = [words_of(parts) for parts in job.settings.passes]
    return [Pass(words, len(pairs), sum(times[it] == 1 for it in pairs), blocks_of(pairs)) for words, pairs in zip(words, found)]


def passes(job: Job) -> Picture:
    """The picture of the passes: for each its pairs by the size of the blocks that make them."""
    found = passes_of(job)
    most = max((it.pairs for it in found), default=0)
    widest = max(range(len(found)), key=lambda at: found[at].pairs)
    title = f"Pass {widest + 1} compares most: {whole(most)} pairs, of which {whole(found[widest].alone)} are found by no other pass"
    picture = Picture(title, "For each pass its pairs, by how many pairs the block has in which they stand.")
    rows = [[sum(a * b for a, b in it.blocks if low <= a * b <= high) for low, high in SIZES] for it in found]
    longest, y = max((count for row in rows for count in row), default=0) or 1, 90.0
    for number, (it, row) in enumerate(zip(found, rows), 1):
        picture.text(20, y, f"Pass {number}: {it.words}", bold=True)
        a, b = max(it.blocks, key=lambda block: block[0] * block[1], default=(0, 0))
        blocks = f"{whole(len(it.blocks))} blocks, the largest of {whole(a)} x {whole(b)} records"
        picture.text(20, y + 18, f"{whole(it.pairs)} pairs, {whole(it.alone)} of them found by no other pass; {blocks}", fill=QUIET)
        y = block_bars(picture, y + 24, row, longest) + 34
    return picture


def block_bars(picture: Picture, y: float, counts: list[int], longest: int) -> float:
    """The bars of a pass: the pairs in blocks of each size. Gives where they end."""
    for (low, high), count in zip(SIZES, counts):
        if count or high <= 99:
            words = f"{low:,}" if low == high else f"{low:,} to {high:,}" if high < SIZES[-1][1] else f"{low:,} and more"
            length = max(560 * count / longest, 1)
            picture.text(150, y + 16, words, "end", 12)
            picture.rect(160, y + 5, length, 14, NONLINK if high <= 99 else POSSIBLE)
            picture.text(166 + length, y + 16, whole(count), size=12)
            y += 20
    return y


PICTURES = {"weights": weights, "levels": levels, "passes": passes, "patterns": rule_pictures.patterns,
            "frontier": rule_pictures.frontier, "choice": rule_pictures.choice}


def tool(given: list[str]) -> None:
    """Draws by the words of the command line."""
    parser = Words("picture", __doc__)
    parser.add_argument("settings", help="the settings of the job; run where the program runs")
    parser.add_argument("picture", choices=PICTURES)
    parser.add_argument("--levels", type=count_of, nargs="+", metavar="MU", help="of `frontier`: the asked levels, in a million")
    parser.add_argument("-o", "--out", type=Path, metavar="FILE", help="the new file, say weights.svg; else it is printed")
    words = parser.parse_args(given)
    if words.levels is not None and words.picture != "frontier":
        raise Fault("--levels goes with frontier; see picture -h", 2)
    if max(words.levels or [0]) > 1_000_000:
        raise Fault("--levels are at most 1000000; see picture -h", 2)
    more = [words.levels or []] if words.picture == "frontier" else []
    give(PICTURES[words.picture](Job(words.settings), *more).svg(), words.out)


if __name__ == "__main__":
    start("picture", tool)
