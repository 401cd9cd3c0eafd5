"""Draws a sample of pairs that people are to review, at random by a seed, in one of the ways of docs/SETTINGS.md.

  draw SETTINGS --seed S --compared N             N of the compared pairs
  draw SETTINGS --seed S --records N              all compared pairs of N records of A: clusters
  draw SETTINGS --seed S --records N --random M   the same, and M pairs of all of A x B: crossed
  draw SETTINGS --seed S --links N                N of the links of links.csv: the check at the end
  draw SETTINGS --seed S --unlinked-a N           N of the records of A without a link, to be searched for in B; --unlinked-b: the reverse

It prints, or writes into a new file, a table with the columns id_a, id_b, drawn and status. `drawn` says why a pair is there: compared,
cluster, record, random, both (the last two at once), link, or unlinked, where the id of the other file is empty: whoever finds the
partner writes it there. The status is empty where people must look, and `unmatched` at random
pairs that no pass compares. `sheet` shows the pairs to be reviewed, and `sheet --back` makes the sample of what comes back. On standard
error it says what was drawn from how many. Pairs stand in the order in which they were drawn, those of one record together, so whoever
stops early has a sample all the same. The same words on the same files give the same bytes.
"""

import random
from argparse import Namespace
from pathlib import Path

from .job import Job, Pair
from .tables import Fault, written
from .words import Words, count_of, give, start, tell

HEADER = ["id_a", "id_b", "drawn", "status"]
MOST_ROWS = 100_000  # of a file `sample`
Row = tuple[str, str, str, str]


def places(source: random.Random, count: int, limit: int) -> list[int]:
    """`count` different numbers below `limit` in the order drawn, each order as likely (Knuth vol. 2, 3.4.2: rejection, or a shuffle)."""
    if 2 * count > limit:
        order = list(range(limit))
        for at in range(count):
            other = at + source.randrange(limit - at)
            order[at], order[other] = order[other], order[at]
        return order[:count]
    found: dict[int, None] = {}
    while len(found) < count:
        found[source.randrange(limit)] = None
    return list(found)


def must_have(asked: int, held: int, what: str) -> None:
    """Fault: more are asked for than there are."""
    if asked > held:
        raise Fault(f"asked for {asked} of {held} {what}", 2)


def some_of(pairs: list[Pair], count: int, seed: int, kind: str, what: str) -> tuple[list[Row], list[str]]:
    """Some of the pairs, all to be reviewed, and what was drawn."""
    must_have(count, len(pairs), what)
    chosen = [pairs[at] for at in places(random.Random(f"{seed} {kind}"), count, len(pairs))]
    return [(a, b, kind, "") for a, b in chosen], [f"{count} of {len(pairs)} {what}, all to be reviewed"]


def of_records(job: Job, compared: list[Pair], count: int, seed: int) -> tuple[list[Pair], str]:
    """All compared pairs of some records of A, and what was drawn."""
    must_have(count, len(job.a.ids), "records of A")
    drawn: dict[str, list[Pair]] = {job.a.ids[at]: [] for at in places(random.Random(f"{seed} record"), count, len(job.a.ids))}
    for pair in compared:
        if pair[0] in drawn:
            drawn[pair[0]].append(pair)
    found = [pair for pairs in drawn.values() for pair in pairs]
    return found, f"{count} of {len(job.a.ids)} records of A, with {len(found)} compared pairs, all to be reviewed"


def of_all(job: Job, count: int, seed: int) -> list[Pair]:
    """Some pairs of A x B, none twice."""
    ids_a, ids_b = job.a.ids, job.b.ids
    must_have(count, len(ids_a) * len(ids_b), "pairs of A x B")
    numbers = places(random.Random(f"{seed} random"), count, len(ids_a) * len(ids_b))
    return [(ids_a[number // len(ids_b)], ids_b[number % len(ids_b)]) for number in numbers]


def crossed(job: Job, records: int, count: int, seed: int) -> tuple[list[Row], list[str]]:
    """The compared pairs of some records, and pairs of A x B, of which only the compared ones need a look; and what was drawn."""
    compared = job.compared()
    near, said = of_records(job, compared, records, seed)
    anywhere = of_all(job, count, seed)
    known, is_near, is_anywhere = set(compared), set(near), set(anywhere)
    rows = [(a, b, "both" if (a, b) in is_anywhere else "record", "") for a, b in near]
    rows += [(a, b, "random", "" if (a, b) in known else "unmatched") for a, b in anywhere if (a, b) not in is_near]
    look = sum((a, b) in known for a, b in anywhere)
    all_pairs = len(job.a.ids) * len(job.b.ids)
    return rows, [said, f"{count} of {all_pairs} pairs of A x B: {look} are compared and to be reviewed, {count - look} taken as unmatched"]


def unlinked(job: Job, side: str, count: int, seed: int) -> tuple[list[Row], list[str]]:
    """Some records of a side without a link, and what was drawn. Fault: the written files are not of now."""
    job.must_be_of_now()
    taken = {it.pair["ab".index(side)] for it in job.links()}
    ids = [key for key in getattr(job, side).ids if key not in taken]
    what, other = f"records of {side.upper()} without a link", "BA"["ab".index(side)]
    must_have(count, len(ids), what)
    keys = [ids[at] for at in places(random.Random(f"{seed} unlinked {side}"), count, len(ids))]
    rows = [(key, "", "unlinked", "") if side == "a" else ("", key, "unlinked", "") for key in keys]
    return rows, [f"{count} of {len(ids)} {what}, to be searched for in {other}"]


def drawn(job: Job, words: Namespace) -> tuple[list[Row], list[str]]:
    """The rows of the way that the words ask for, and what was drawn."""
    is_crossed = words.records is not None or words.random is not None
    if is_crossed + sum(it is not None for it in (words.compared, words.links, words.unlinked_a, words.unlinked_b)) != 1:
        ways = "--compared N, --records N, --records N --random M, --links N, --unlinked-a N, --unlinked-b N"
        raise Fault(f"say one of {ways}; see draw -h", 2)
    for side, count in (("a", words.unlinked_a), ("b", words.unlinked_b)):
        if count is not None:
            return unlinked(job, side, count, words.seed)
    if words.compared is not None:
        return some_of(job.compared(), words.compared, words.seed, "compared", "compared pairs")
    if words.links is not None:
        job.must_be_of_now()
        return some_of([it.pair for it in job.links()], words.links, words.seed, "link", "links")
    if words.records is None:
        raise Fault("--random goes with --records; see draw -h", 2)
    if words.random is None:
        near, said = of_records(job, job.compared(), words.records, words.seed)
        return [(a, b, "cluster", "") for a, b in near], [said]
    return crossed(job, words.records, words.random, words.seed)


def tool(given: list[str]) -> None:
    """Draws by the words of the command line."""
    parser = Words("draw", __doc__)
    parser.add_argument("settings", help="the settings of the job; run where the program runs")
    parser.add_argument("--seed", type=count_of, required=True, help="a whole number; choose it before you see results, and write it down")
    for name, what in (("compared", "of the compared pairs"), ("records", "of the records of A, with all their compared pairs"),
                       ("random", "of all pairs of A x B"), ("links", "of the links that `run` wrote"),
                       ("unlinked-a", "of the records of A without a link"), ("unlinked-b", "of those of B")):
        parser.add_argument(f"--{name}", type=count_of, metavar="N", help=f"how many {what}")
    parser.add_argument("-o", "--out", type=Path, metavar="FILE", help="the new file; else it is printed")
    words = parser.parse_args(given)
    rows, said = drawn(Job(words.settings), words)
    if len(rows) > MOST_ROWS:
        raise Fault(f"{len(rows)} rows, and a sample has at most {MOST_ROWS}", 2)
    give(written([HEADER, *rows]), words.out)
    tell("draw", f"seed {words.seed}", *said, f"{len(rows)} rows, of which {sum(not row[3] for row in rows)} are to be reviewed")


if __name__ == "__main__":
    start("draw", tool)
