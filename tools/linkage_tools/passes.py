"""Counts what each pass finds, alone and with the others, and from that guesses how many matched pairs all of them lose.

  passes SETTINGS           of the compared pairs
  passes SETTINGS PAIRS     of the pairs of a file: of a sample its matched ones; of links.csv the links

It asks `linkage pairs` with each pass alone, and prints a row a pass: its parts, its pairs, and those that no other pass finds. On
standard error it says how many pairs are found by one pass, by two and so on. Of a file it says besides how many no pass finds, and two
guesses of those that nobody saw, which hold for matched pairs alone, as people decided them, or as links stand for them:

  by none      at least once^2 / (2 twice), where `once` are found by one pass and `twice` by two (Chao 1987)
  by neither   for each two passes without a field in common: (n1 - n12) (n2 - n12) / n12, where each finds the same part of those that the
               other finds as of those that it does not (Sekar and Deming 1949)

Where what one pass misses the other misses too, as a pair that is badly written throughout, more are lost than this says.
"""

import re
import tempfile
import tomllib
from collections import Counter
from collections.abc import Callable
from itertools import combinations
from pathlib import Path

from .job import STATUSES, Job, Pair
from .settings import Part
from .tables import MARK, Fault, load, read_table, records, written
from .words import Words, give, start, tell

HEADER = ["pass", "parts", "pairs", "alone"]
NUMBERS = ["no pass", "one pass", "two", "three", "four", "five", "six", "seven", "eight"]


def changed(job: Job, change: Callable[[str], str], wanted: Callable[[dict], dict]) -> str:
    """The text of the settings after a change. Fault: it is written so that the change goes wrong."""
    text = load(job.folder / job.name).removeprefix(MARK).decode().replace("\r\n", "\n")
    made = change(text)
    try:
        is_right = tomllib.loads(made) == wanted(tomllib.loads(text))
    except ValueError:
        is_right = False
    if not is_right:
        raise Fault(f"{job.name}: is not written as in docs/SETTINGS.md: mu_ppm on a line of its own, each pass as a table [[pass]]")
    return made


def asked(job: Job, text: str, command: str) -> list[list[str]]:
    """What a command prints under other settings, which stand in a file elsewhere meanwhile; the header first."""
    with tempfile.TemporaryDirectory(prefix="linkage-picture-") as folder:
        path = Path(folder) / "settings.toml"
        path.write_text(text, encoding="utf-8")
        return list(records(job.ask(command, str(path))))


def only_pass(text: str, number: int) -> str:
    """Settings with one pass alone, the tables of the others taken out."""
    heads = [it.start() for it in re.finditer(r"(?m)^[ \t]*\[\[[ \t]*\w+[ \t]*\]\]", text)] + [len(text)]
    tables = [text[start:end] for start, end in zip(heads, heads[1:])]
    is_pass = [re.match(r"[ \t]*\[\[[ \t]*pass[ \t]*\]\]", it) is not None for it in tables]
    places = [at for at, it in enumerate(is_pass) if it]
    wanted = places[number] if number < len(places) else None
    return text[: heads[0]] + "".join(it for at, it in enumerate(tables) if not is_pass[at] or at == wanted)


def words_of(parts: list[Part]) -> str:
    """The parts of a pass in words."""
    return " + ".join(f"{it.field} {it.key}{'' if it.n is None else f' {it.n}'}" for it in parts)


def pairs_of_passes(job: Job) -> list[list[Pair]]:
    """The pairs that each pass compares by itself. Fault: as of `changed`, or the program refuses."""
    found = []
    for number in range(len(job.settings.passes)):
        alone = lambda it, number=number: it | {"pass": [it["pass"][number]]}
        text = changed(job, lambda it, number=number: only_pass(it, number), alone)
        found.append([(a, b) for a, b in asked(job, text, "pairs")[1:]])
    return found


def counted(job: Job, path: Path | None, found: list[set[Pair]]) -> list[Pair]:
    """The pairs that are counted: all that some pass finds, or those of a file. Fault: of the file."""
    if path is None:
        return list(set().union(*found))
    table = read_table(path)
    statuses = [cell for cell, in table.cells(["status"])] if "status" in table.header else [STATUSES[0]] * len(table.rows)
    pairs = [job.known(table.name, number, pair) for number, pair in enumerate(table.cells(["id_a", "id_b"]), 1)]
    return list(dict.fromkeys(pair for pair, status in zip(pairs, statuses) if status == STATUSES[0]))


def missed(times: Counter) -> str | None:
    """How many pairs no pass finds, at least, by how many passes find each of the others."""
    if times[1] and not times[2]:
        return "none is found by two passes, so how many are found by none cannot be guessed"
    return f"at least {times[1] ** 2 / (2 * times[2]):.2f} others are found by none (Chao 1987)" if times[2] else None


def missed_by_two(first: set[Pair], second: set[Pair]) -> str:
    """How many pairs neither of two passes finds, by how many both find."""
    both = len(first & second)
    what = f"{len(first)} and {len(second)} pairs, {both} of them by both"
    if not both:
        return what
    lost = (len(first) - both) * (len(second) - both) / both
    whole = len(first | second) + lost
    return f"{what}: {lost:.2f} others are found by neither, {100 * lost / whole:.0f} % of {whole:.2f} (Sekar and Deming 1949)"


def guesses(job: Job, found: list[set[Pair]], times: Counter) -> list[str]:
    """What is guessed of the pairs that nobody saw."""
    said = [missed(times)] if len(found) > 2 else []
    fields = [{part.field for part in parts} for parts in job.settings.passes]
    columns = {it.name: tuple(it.columns.values()) for it in job.settings.fields}
    for one, other in combinations(range(len(found)), 2):
        if not {columns[it] for it in fields[one]} & {columns[it] for it in fields[other]}:
            said.append(f"passes {one + 1} and {other + 1} find {missed_by_two(found[one], found[other])}")
    return [it for it in said if it]


def tool(given: list[str]) -> None:
    """Counts by the words of the command line."""
    parser = Words("passes", __doc__)
    parser.add_argument("settings", help="the settings of the job; run where the program runs")
    parser.add_argument("pairs", nargs="?", type=Path, help="a file of pairs: a sample, or links.csv")
    words = parser.parse_args(given)
    job = Job(words.settings)
    found = [set(it) for it in pairs_of_passes(job)]
    pairs = counted(job, words.pairs, found)
    found = [it & set(pairs) for it in found]
    number = {pair: sum(pair in it for it in found) for pair in pairs}
    rows = [[at, words_of(parts), len(them), sum(number[it] == 1 for it in them)]
            for at, (parts, them) in enumerate(zip(job.settings.passes, found), 1)]
    give(written([HEADER, *rows]), None)
    times = Counter(number.values())
    by = ", ".join(f"{times[it]} by {NUMBERS[it]}" for it in sorted(times))
    tell("passes", f"{len(pairs)} pairs: {by or 'none'}", *(guesses(job, found, times) if words.pairs else []))


if __name__ == "__main__":
    start("passes", tool)
