"""A made reviewer of possible links.

usage: reviewer TRUTH SEED [--wrong SHARE] [--undecided SHARE]

Reads on standard input what `linkage open SETTINGS` prints, and prints the verdicts that `linkage review` takes: for each pair `link`
where TRUTH (a table id_a,id_b of all pairs of one person) has it and `nonlink` where not, but of a share of all pairs the contrary
(0.01), and of another share `open` (0.05). What is said of a pair hangs on the seed and the pair alone, so it is the same in whatever
order and among whatever other pairs the pair is asked about. Both shares are assumed; whoever measures real reviewers puts theirs in.
"""

import argparse
import csv
import functools
import sys
from pathlib import Path

from chance import Chance
from measure import Pair, pairs_of, rows

WRONG, UNDECIDED = 0.01, 0.05


@functools.cache
def verdict(pair: Pair, matched: bool, seed: str, wrong: float = WRONG, undecided: float = UNDECIDED) -> str:
    """`link`, `nonlink` or `open`: what the reviewer of a seed says of a pair."""
    chance = Chance("reviewer", seed, *pair)
    if chance.happens(undecided):
        return "open"
    return "link" if matched != chance.happens(wrong) else "nonlink"


def verdicts(asked: list[Pair], truth: set[Pair], seed: str, wrong: float = WRONG, undecided: float = UNDECIDED) -> str:
    """The table of verdicts on the pairs that are asked about."""
    lines = [f"{a},{b},{verdict((a, b), (a, b) in truth, seed, wrong, undecided)}" for a, b in asked]
    return "\n".join(["id_a,id_b,verdict", *lines]) + "\n"


def main() -> None:
    parser = argparse.ArgumentParser(description=__doc__, formatter_class=argparse.RawDescriptionHelpFormatter)
    parser.add_argument("truth", type=Path)
    parser.add_argument("seed")
    parser.add_argument("--wrong", type=float, default=WRONG)
    parser.add_argument("--undecided", type=float, default=UNDECIDED)
    words = parser.parse_args()
    asked = pairs_of(csv.DictReader(sys.stdin))
    sys.stdout.write(verdicts(asked, set(pairs_of(rows(words.truth))), words.seed, words.wrong, words.undecided))
