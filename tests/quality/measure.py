"""The quality of a job whose truth is known.

usage: measure FOLDER [SETTINGS]

FOLDER is that of a job after `run`: the settings (settings.toml), `truth.csv` (id_a,id_b: all pairs of one person), and the files that
`run` wrote. Nothing is decided here: pairs, decisions, links and levels are read as the program wrote them, and counted by the truth.
"""

import argparse
import csv
import functools
import operator
import sys
import tomllib
from collections import Counter
from collections.abc import Iterable
from dataclasses import dataclass
from pathlib import Path

Pair = tuple[str, str]


def rows(path: Path, delimiter: str = ",") -> list[dict[str, str]]:
    """The rows of a table, every column as text."""
    with path.open(encoding="utf-8-sig", newline="") as file:
        table = filter(None, csv.reader(file, delimiter=delimiter))
        header = next(table, [])
        return [dict(zip(header, row, strict=True)) for row in table]


@functools.lru_cache(8)
def truth_in(text: bytes) -> frozenset[Pair]:
    """The pairs of a table id_a,id_b of all pairs of one person. Many jobs have the same, which is read once."""
    return frozenset((a, b) for a, b in filter(None, list(csv.reader(text.decode("utf-8").splitlines()))[1:]))


def columns(path: Path, *names: str) -> list[tuple[str, ...]]:
    """Some columns of a table, row by row."""
    with path.open(encoding="utf-8", newline="") as file:
        table = filter(None, csv.reader(file))
        header = next(table)
        return list(map(operator.itemgetter(*map(header.index, names)), table))


def pairs_of(table: Iterable[dict[str, str]]) -> list[Pair]:
    return [(row["id_a"], row["id_b"]) for row in table]


def share(part: int, whole: int) -> float:
    """A part of a whole, 0 to 1; of an empty whole 0."""
    return part / whole if whole else 0.0


@dataclass(frozen=True)
class Quality:
    """Counts of pairs, but for the levels, which are in millionths."""

    matched: int  # pairs of one person, of A x B
    links: int
    right: int  # links that are matched
    wrong_by_rule: int
    wrong_by_review: int
    compared: int
    compared_matched: int
    linked_unmatched: int  # compared unmatched pairs that the rule linked, before the one-to-one choice
    lost: int  # matched pairs that the rule called non-links
    lost_by_review: int  # matched pairs that a reviewer called non-links
    lost_by_choice: int  # matched candidates that are not among the links
    possible: int  # compared pairs that the rule left to review
    open: int  # those of them without a verdict of link or nonlink
    open_right: int
    space: int  # pairs of A x B
    asked_mu: int
    attained_mu: float
    asked_lambda: int
    attained_lambda: float
    possible_m: float  # the chance of a possible link among matched pairs by the shares, in millionths
    possible_u: float  # and among unmatched ones

    @property
    def wrong(self) -> int:
        return self.links - self.right

    @property
    def precision(self) -> float:
        return share(self.right, self.links)

    @property
    def recall(self) -> float:
        return share(self.right, self.matched)

    @property
    def blocked(self) -> int:
        """Matched pairs that no pass compared."""
        return self.matched - self.compared_matched

    @property
    def mu_compared(self) -> float:
        """Of a million compared unmatched pairs, those that the rule linked."""
        return 1e6 * share(self.linked_unmatched, self.compared - self.compared_matched)

    @property
    def mu_space(self) -> float:
        """Of a million unmatched pairs of A x B, those that the rule linked."""
        return 1e6 * share(self.linked_unmatched, self.space - self.matched)

    def spoken_of(self, compared: bool) -> tuple[int, int]:
        """The matched and the unmatched pairs that shares speak of: those of the compared pairs, or of all pairs of A x B."""
        matched = self.compared_matched if compared else self.matched
        return matched, (self.compared if compared else self.space) - matched

    @property
    def lambda_compared(self) -> float:
        """Of a million compared matched pairs, those that the rule called non-links."""
        return 1e6 * share(self.lost, self.compared_matched)


def report_of(path: Path) -> dict[str, list[int]]:
    """The first sixteen lines of report.txt: a word, and its numbers."""
    lines = [line.split() for line in path.read_text(encoding="utf-8").split("\n")[:14]]
    return {line[0]: [int(number) for number in line[1:]] for line in lines}


def measured(folder: Path, settings: str = "settings.toml") -> Quality:
    """The quality of the job in a folder."""
    asked = tomllib.loads((folder / settings).read_text(encoding="utf-8"))
    truth, report = truth_in((folder / "truth.csv").read_bytes()), report_of(folder / "report.txt")
    compared = columns(folder / "pairs.csv", "id_a", "id_b", "decision", "verdict")
    links = columns(folder / "links.csv", "id_a", "id_b", "by")
    linked = {(a, b) for a, b, _ in links}
    matched = [(decision, verdict) for a, b, decision, verdict in compared if (a, b) in truth]
    opened = [(a, b) for a, b, decision, verdict in compared if decision == "possible" and verdict in ("", "open")]
    wrong = [by for a, b, by in links if (a, b) not in truth]
    kept = {(a, b) for a, b, decision, verdict in compared if (decision == "link" or verdict == "link") and (a, b) in truth}
    decisions, of_matched = Counter(it[2] for it in compared), Counter(it[0] for it in matched)
    level = {name: 1e6 * report[name][0] / report[name][1] for name in ("mu", "lambda", "possible_m", "possible_u")}
    return Quality(
        matched=len(truth), links=len(links), right=len(linked & truth), wrong_by_rule=wrong.count("rule"),
        wrong_by_review=wrong.count("review"), compared=len(compared), compared_matched=len(matched),
        linked_unmatched=decisions["link"] - of_matched["link"], lost=of_matched["nonlink"],
        lost_by_review=sum(verdict == "nonlink" for _, verdict in matched), lost_by_choice=len(kept - linked),
        possible=decisions["possible"], open=len(opened), open_right=sum(pair in truth for pair in opened),
        space=report["rows"][0] * report["rows"][1],
        asked_mu=asked["mu_ppm"], attained_mu=level["mu"], asked_lambda=asked["lambda_ppm"], attained_lambda=level["lambda"],
        possible_m=level["possible_m"], possible_u=level["possible_u"])


def told(quality: Quality) -> str:
    """What there is to say of a quality, a fact a line."""
    it = quality
    return f"""\
matched pairs                {it.matched}, of {it.space} pairs of A x B
links                        {it.links}, of which {it.right} are right
precision                    {it.precision:.4f}
recall                       {it.recall:.4f}
wrong links                  {it.wrong}: by rule {it.wrong_by_rule}, by review {it.wrong_by_review}
matched pairs not linked     {it.matched - it.right}
  lost by blocking           {it.blocked}
  called non-links           {it.lost} by the rule, {it.lost_by_review} by review
  dropped by the choice      {it.lost_by_choice}
  open                       {it.open_right}
compared pairs               {it.compared}, of which {it.compared_matched} are matched
possible links               {it.possible}, of which {it.open} are open, and {it.open_right} of these right
mu, in millionths            asked {it.asked_mu}, attained {it.attained_mu:.2f}; \
actual {it.mu_compared:.2f} of the compared unmatched pairs, {it.mu_space:.4f} of all
lambda, in millionths        asked {it.asked_lambda}, attained {it.attained_lambda:.2f}; \
actual {it.lambda_compared:.2f} of the compared matched pairs
"""


def main() -> None:
    parser = argparse.ArgumentParser(description=__doc__, formatter_class=argparse.RawDescriptionHelpFormatter)
    parser.add_argument("folder", type=Path)
    parser.add_argument("settings", nargs="?", default="settings.toml")
    words = parser.parse_args()
    sys.stdout.write(told(measured(words.folder, words.settings)))
