"""How much the size of a sample decides, and what can be known of the pairs that no pass compares: two tables beside that of quality."""

import re
from collections import Counter
from collections.abc import Iterable

from chance import Chance
from measure import Pair, Quality
from ways import Job, Sampled, crossed, of_compared_pairs, settings_with, write_sample

LEVELS = {"compared": 20_000, "crossed": 1}  # asked of links, in millionths
LAMBDA = 200
# Name of a row, way, size of the sample (compared pairs; or records of A and random pairs), draws.
SIZES = (
    ("200 pairs", "compared", (200,), 5), ("1,000 pairs", "compared", (1_000,), 5), ("5,000 pairs", "compared", (5_000,), 5),
    ("200 records, 20,000 random pairs", "crossed", (200, 20_000), 3), ("600 records, 20,000 random pairs", "crossed", (600, 20_000), 3),
    ("1,000 records, 20,000 random pairs", "crossed", (1_000, 20_000), 3),
    ("600 records, 60,000 random pairs", "crossed", (600, 60_000), 3),
)
WAYS = {"compared": of_compared_pairs, "crossed": crossed}


def between(values: Iterable[float], form: str) -> str:
    """The least and the greatest of some values."""
    found = sorted(values)
    return f"{found[0]:{form}} to {found[-1]:{form}}"


def size_cells(job: Job, guessed: str, way: str, size: tuple[int, ...], draws: int) -> list[str]:
    """What samples of one size, each drawn by another seed, come to."""
    sampled: list[Sampled] = []
    found: list[Quality] = []
    for draw in range(draws):
        (job.folder / "settings.toml").write_text(guessed, encoding="utf-8")
        sampled.append(WAYS[way](job, f"size {draw}", *size))
        write_sample(job, sampled[-1])
        (job.folder / "settings.toml").write_text(settings_with(guessed, LEVELS[way], LAMBDA, sampled=True), encoding="utf-8")
        found.append(job.run())
    actual = [it.mu_compared if way == "compared" else it.mu_space for it in found]
    return [str(draws), between((it.decided for it in sampled), "d"), between((it.precision for it in found), ".4f"),
            between((it.recall for it in found), ".4f"), str(LEVELS[way]), between((it.attained_mu for it in found), ".0f"),
            between(actual, ".0f"), between((it.possible for it in found), "d")]


def each_pass(job: Job, guessed: str) -> list[set[Pair]]:
    """The pairs that each pass of the settings finds by itself."""
    head, *passes = re.split(r"(?m)^(?=\[\[pass\]\])", guessed)
    found = []
    for one in passes:
        (job.folder / "settings.toml").write_text(head + one, encoding="utf-8")
        found.append(set(job.compared()))
    return found


def missed(times: Iterable[int]) -> float:
    """How many pairs no pass found, at least, by how many passes found each of the others (Chao 1987: f1^2 / 2 f2)."""
    counts = Counter(times)
    return counts[1] ** 2 / (2 * max(counts[2], 1))


def pass_cells(job: Job, passes: list[set[Pair]], seed: str) -> list[str]:
    """What some passes compare and lose, and what is guessed of the loss: from all compared matched pairs, and from those of a sample."""
    compared = set().union(*passes)
    known = compared & job.truth
    drawn = set(of_compared_pairs_among(sorted(compared), seed)) & job.truth
    times = {pair: sum(pair in one for one in passes) for pair in known}
    if len(passes) == 1:
        return [str(len(compared)), str(len(job.truth - known)), "-", "-"]
    from_sample = missed(times[pair] for pair in drawn) * len(known) / len(drawn)
    return [str(len(compared)), str(len(job.truth - known)), f"{missed(times.values()):.0f}", f"{from_sample:.0f}"]


def of_compared_pairs_among(compared: list[Pair], seed: str, size: int = 3_000) -> list[Pair]:
    """A sample of compared pairs, by a seed."""
    return Chance(seed, "passes").drawn(compared, size)
