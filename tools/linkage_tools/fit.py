"""Compares the pairs seen in each comparison pattern with those that the shares let expect, worst first. It needs no truth.

  fit SETTINGS                    patterns of which far more or far fewer compared pairs are seen than expected
  fit SETTINGS --u all|compared   says of which pairs the shares u speak, where the tool cannot tell or tells it wrongly
  fit SETTINGS --matched M        says how many matched pairs are among the compared ones, in the place of an estimate

The rule takes the fields as independent. Where they are not, some patterns are seen far more often than m and u let expect: those that are
links by the rule then hold wrong links of which no level tells. It prints a row a pattern:

  seen                  its compared pairs
  matched, unmatched    the expected ones: m times the number of matched pairs, and u times that of the unmatched pairs u speaks of
  score                 sqrt(seen) + sqrt(seen + 1) - sqrt(4 expected + 1) (Freeman and Tukey 1950): about a standard normal number where
                        the pairs come by chance as expected (Poisson); 3 is seldom, 10 is never chance
  passes                the passes that compare every pair of the pattern, by their number in the settings
  advice                what to do about it

Links with more pairs than expected come first, then possible links and non-links, then patterns with fewer.

Of which pairs u speaks decides what is expected. With a sample it is seen: if its unmatched pairs are compared ones, u speaks of the
unmatched compared pairs; if hardly one is, of all pairs of A x B. Guessed shares are taken as those of all pairs. Shares of all pairs say
nothing of how many pairs the passes leave out. So fewer pairs than expected count only in patterns of which some pass compares all.

How many matched pairs are among the compared ones is the number under which the pairs seen are likeliest, m and u being as they are: with
shares of compared pairs the share of one of two parts of a mixture; with shares of all pairs the mean of a Poisson sum whose other part
is known, taken once more without the patterns that have twice the pairs expected by the first, and score 3. That is the model of Fellegi
and Sunter 1969 with the proportion alone open. Belin and Rubin 1995 fit the parts too, from reviewed pairs: an error rate cannot be had
from a mixture that does not fit. So a score says where to look, and is no test.
"""

import math
from argparse import Namespace
from collections import Counter
from collections.abc import Callable
from pathlib import Path
from typing import NamedTuple

from .job import Cell, Job
from .settings import Field, Part, Settings
from .tables import Fault, written
from .words import Words, give, start, tell

HEADER = ["pattern", "outcomes", "weight", "decision", "seen", "matched", "unmatched", "score", "passes", "advice"]
LEAST_SCORE = 3.0
# What two values have in common where they agree, by the word of the comparison and its number: the key of that word, of as many letters
# or fewer, which no line here says. Values that agree by one of the first are the same; the others have a key of another word too.
SAME = {("exact", None), ("days", 0)}
ALSO = {("initials", None): ("first", 1), ("years", 0): ("year", None)}
ADVICE = {
    ("link", True): "review some: wrong links may be among them; a lower mu_ppm sends them to review, another field tells them apart",
    ("possible", True): "people see these; review those first whose records have no link",
    ("nonlink", True): "look at some: right ones may be lost here; a lower lambda_ppm sends them to review",
    ("link", False): "m promises more: draw m anew, or a pass loses them",
    ("possible", False): "fewer than promised: less review, nothing to do",
    ("nonlink", False): "fewer than u promises: the weights are on the safe side",
}
# The same where the asked level is 1 or 0 in a million already: below it is nothing, or the level by which no pair is a link (a non-link).
AT_FINEST = {
    ("link", True): "review some: wrong links may be among them; mu_ppm is the finest: take another field, or u of compared pairs",
    ("nonlink", True): "look at some: right ones may be lost here; lambda_ppm is the finest: take another field",
}
HARM = (("link", True), ("possible", True), ("nonlink", True))  # what comes first; then patterns with fewer pairs than expected


class Seen(NamedTuple):
    """A pattern: its row in the rule, its compared pairs, the passes that compare all pairs of it, and the expected pairs of both kinds."""

    cell: Cell
    seen: int
    passes: list[int]
    matched: float
    unmatched: float

    def score(self) -> float:
        """How far the pairs are from those expected."""
        return score(self.seen, self.matched + self.unmatched)

    def kind(self) -> tuple[str, bool]:
        """The decision that most of its pairs get, and whether there are more pairs than expected."""
        return max(("link", "possible", "nonlink"), key=lambda it: getattr(self.cell, it)), self.score() > 0

    def rank(self) -> tuple[int, float]:
        """Where it stands among the worst: by what harm it may do, then by its score."""
        return HARM.index(self.kind()) if self.kind() in HARM else len(HARM), -abs(self.score())


def score(seen: int, expected: float) -> float:
    """How far a number of pairs is from that expected, in standard deviations (Freeman and Tukey 1950)."""
    return math.sqrt(seen) + math.sqrt(seen + 1) - math.sqrt(4 * expected + 1)


def has_in_common(field: Field, part: Part) -> bool:
    """Whether two values that agree in a field always have the key of a part in common (a value without letters aside)."""
    by = field.compare, field.n if field.t is None else field.t
    is_own = part.key == field.compare and (part.n or 0) <= (field.n or 0)
    return by in SAME or is_own or ALSO.get(by) == (part.key, part.n)


def passes_of(settings: Settings, outcomes: str) -> list[int]:
    """The passes, from 1, that compare all pairs with these outcomes."""
    by_name = {field.name: (field, outcome) for field, outcome in zip(settings.fields, outcomes)}
    is_met = lambda part: by_name[part.field][1] in "AR" and has_in_common(by_name[part.field][0], part)
    return [number for number, parts in enumerate(settings.passes, 1) if all(map(is_met, parts))]


def root(falls: Callable[[float], float], most: float) -> float:
    """Where a falling function is zero between 0 and a number, by halving; the nearer end where it is zero nowhere."""
    low, high = 0.0, most
    for _ in range(200):
        middle = (low + high) / 2
        low, high = (middle, high) if falls(middle) > 0 else (low, middle)
    return (low + high) / 2


def matched_of_compared(counts: list[tuple[int, float, float]]) -> float:
    """The likeliest number of matched pairs among the compared ones, by the pairs seen, m and u of each pattern: the share of a mixture."""
    total = sum(seen for seen, _, _ in counts)
    slope = lambda p: sum(seen * (m - u) / (p * m + (1 - p) * u) for seen, m, u in counts if seen)
    return total * root(slope, 1.0)


def mean_of_matched(counts: list[tuple[int, float, float]], unmatched: float) -> float:
    """The likeliest number of matched pairs where u speaks of so many unmatched ones, the pairs of each pattern being Poisson."""
    share = sum(m for _, m, _ in counts)
    slope = lambda it: sum(seen * m / (it * m + unmatched * u) for seen, m, u in counts if seen) - share
    return root(slope, sum(seen for seen, _, _ in counts) / share + 1) if share else 0.0


def matched_of_all(counts: list[tuple[int, float, float]], unmatched: float) -> float:
    """The same by patterns all pairs of which are compared, without those that have twice the pairs that a first estimate lets expect."""
    first = mean_of_matched(counts, unmatched)
    expected = [first * m + unmatched * u for _, m, u in counts]
    kept = [it for it, at in zip(counts, expected) if it[0] <= 2 * at or score(it[0], at) < LEAST_SCORE]
    return mean_of_matched(kept, unmatched)


def speaks_of(job: Job, compared: set[tuple[str, str]], asked: str | None) -> tuple[str, str]:
    """Of which pairs u speaks, `all` or `compared`, and how that is known. Fault: the sample has both kinds."""
    if asked:
        return asked, "as you say"
    if job.settings.sample is None:
        return "all", "for the shares are guessed"
    unmatched = [pair for pair, status in job.sample().items() if status == "unmatched"]
    share = sum(pair in compared for pair in unmatched) / max(len(unmatched), 1)
    if 0.5 < share < 0.95:
        raise Fault(f"{job.settings.sample}: {share:.0%} of its unmatched pairs are compared ones; say --u all or --u compared")
    return ("compared" if share >= 0.95 else "all"), f"for {share:.0%} of the unmatched pairs of the sample are compared ones"


def patterns(job: Job, matched: int | None, asked: str | None) -> tuple[list[Seen], list[str]]:
    """The patterns of the rule with what is seen and expected, and what was taken for granted."""
    pairs = [(it.pair, it.pattern) for it in job.pairs()]
    counts = Counter(pattern for _, pattern in pairs)
    kind, why = speaks_of(job, {pair for pair, _ in pairs} if job.settings.sample and not asked else set(), asked)
    unit = 1024.0 ** len(job.settings.fields)
    cells = [(cell, passes_of(job.settings, cell.outcomes), cell.m / unit, cell.u / unit) for cell in job.rule()]
    everything = float(len(job.a.ids) * len(job.b.ids))
    if matched is not None:
        right = float(matched)
    elif kind == "compared":
        right = matched_of_compared([(counts[cell.pattern], m, u) for cell, _, m, u in cells])
    else:
        right = matched_of_all([(counts[cell.pattern], m, u) for cell, passes, m, u in cells if passes], everything)
    wrong = (everything if kind == "all" else float(len(pairs))) - right
    what = "pairs of A x B" if kind == "all" else "compared pairs"
    said = [f"u is taken to speak of the unmatched {what}, {wrong:.0f}, {why}",
            f"{right:.0f} of {len(pairs)} compared pairs are taken as matched{'' if matched is None else ', as you say'}"]
    found = [Seen(cell, counts[cell.pattern], passes, right * m, wrong * u) for cell, passes, m, u in cells]
    return [it for it in found if kind == "compared" or it.passes or it.score() > 0], said


def rounded(number: float) -> str:
    """A number of pairs as people read it: three digits that count."""
    return f"{number:.0f}" if number >= 100 else f"{number:.1f}" if number >= 10 else f"{number:.2f}" if number >= 0.01 else f"{number:.1g}"


def advice_of(kind: tuple[str, bool], mu_ppm: int, lambda_ppm: int) -> str:
    """What to do about a pattern that fits badly, at the asked levels."""
    level = {"link": mu_ppm, "nonlink": lambda_ppm}.get(kind[0], 2)
    return AT_FINEST.get(kind, ADVICE[kind]) if level <= 1 else ADVICE[kind]


def row_of(it: Seen, settings: Settings) -> list[object]:
    """The printed row of a pattern."""
    front = [it.cell.pattern, it.cell.outcomes, it.cell.weight, it.kind()[0], it.seen, rounded(it.matched), rounded(it.unmatched)]
    is_told = abs(it.score()) >= LEAST_SCORE
    advice = advice_of(it.kind(), settings.mu_ppm or 0, settings.lambda_ppm or 0) if is_told else ""
    return [*front, f"{it.score():.1f}", " ".join(map(str, it.passes)), advice]


def fitted(job: Job, words: Namespace) -> None:
    """Prints the patterns that fit worst."""
    job.must_be_of_now()
    found, said = patterns(job, words.matched, words.u)
    found.sort(key=Seen.rank)
    worst = [it for it in found if abs(it.score()) >= LEAST_SCORE]
    kept = [it for it in found if it.seen or it.matched + it.unmatched >= 0.5] if words.all else worst
    give(written([HEADER, *(row_of(it, job.settings) for it in kept)]), words.out)
    links = [it for it in worst if it.kind() == ("link", True)]
    more = sum(it.seen - it.matched - it.unmatched for it in links)
    seen = sum(it.seen for it in links)
    what = f"{len(worst)} patterns score beyond {LEAST_SCORE:.0f}; {len(links)} of them are links with more pairs than expected"
    tell("fit", *said, f"{what}, {seen} in the place of {seen - more:.0f}")


def tool(given: list[str]) -> None:
    """Compares by the words of the command line."""
    parser = Words("fit", __doc__)
    parser.add_argument("settings", help="the settings of the job; run where the program runs")
    parser.add_argument("--u", choices=["all", "compared"], help="of which unmatched pairs the shares u speak")
    parser.add_argument("--matched", type=int, metavar="M", help="how many matched pairs are among the compared ones")
    parser.add_argument("--all", action="store_true", help="print every pattern that is seen or expected")
    parser.add_argument("-o", "--out", type=Path, metavar="FILE", help="the new file; else it is printed")
    words = parser.parse_args(given)
    if words.matched is not None and words.matched < 0:
        raise Fault("--matched is a number of pairs; see fit -h", 2)
    fitted(Job(words.settings), words)


if __name__ == "__main__":
    start("fit", tool)
