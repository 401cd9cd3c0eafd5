"""`fit`: what is expected of each pattern, by hand and on made files of known truth."""

import shutil
from pathlib import Path

from jobs import Bench, asks, rows_of, truth_of, with_sample
from linkage_tools.fit import advice_of, has_in_common, matched_of_all, matched_of_compared, score
from linkage_tools.settings import Field, Part
from tally import ROOT, Tally

PERSONS = 4_000  # as in tests/quality/table.md
# By hand from the shares of the files in small/: 6 matched pairs times m, 50 unmatched ones times u, each over 1,024^4; the score of AAAA:
# 952 870 922 717 6 / 1024^4 = 2.988; 10 15 1 41 50 / 1024^4 = 0.0000003; sqrt 4 + sqrt 5 - sqrt (4 2.988 + 1) = 0.6.
SMALL_ROWS = {"AAAA": ["4", "2.99", "3e-07", "0.6", "1 2"], "AAMA": ["1", "0.10", "9e-06", "1.2", ""],
              "AADD": ["1", "0.09", "0.006", "1.2", ""]}
# Whether what two values agree by gives them the key of a part in common: comparison, n or t; key, n.
COMMON = {("exact", None, "whole", None): True, ("exact", None, "first", 3): True, ("soundex", None, "soundex", None): True,
          ("soundex", None, "whole", None): False, ("soundex", None, "first", 1): False, ("nysiis", None, "nysiis", None): True,
          ("nysiis", None, "soundex", None): False, ("first", 4, "first", 3): True, ("first", 4, "first", 5): False,
          ("first", 4, "whole", None): False, ("initials", None, "first", 1): True, ("initials", None, "first", 2): False,
          ("days", 0, "whole", None): True, ("days", 0, "year", None): True, ("days", 1, "year", None): False,
          ("years", 0, "year", None): True, ("years", 0, "whole", None): False, ("years", 1, "year", None): False,
          ("a word that no table has", 3, "a word that no table has", 3): True, ("a word that no table has", 3, "first", 1): False}
REFUSES = {
    "nosuch.toml": (1, "fit: linkage: store: nosuch.toml"),
    "settings.toml --u some": (2, "fit: argument --u: invalid choice: 'some' (choose from 'all', 'compared'); see fit -h"),
    "settings.toml --matched -1": (2, "fit: --matched is a number of pairs; see fit -h"),
    "settings.toml --matched x": (2, "fit: argument --matched: invalid int value: 'x'; see fit -h"),
}


def check_numbers(tally: Tally, bench: Bench) -> None:
    folder = bench.empty()
    shutil.copytree(ROOT / "tests/tools/small", folder, dirs_exist_ok=True)
    bench.linkage(folder, "run", "settings.toml")
    _, printed, said = bench.tool(folder, "fit", "settings.toml", "--matched", "6", "--all")
    rows = {row[1]: row[4:9] for row in rows_of(printed)[1:]}
    tally.judge("fit: expected pairs, by hand", {name: rows.get(name) for name in SMALL_ROWS}, SMALL_ROWS)
    tally.judge("fit: says what it took for granted", said.splitlines()[:2],
                ["fit: u is taken to speak of the unmatched pairs of A x B, 50, for the shares are guessed",
                 "fit: 6 of 8 compared pairs are taken as matched, as you say"])
    tally.judge("fit: no pair where none is expected scores 0, one 1.4, and 25 where 16 are expected 2",
                [round(score(*it), 1) for it in ((0, 0.0), (1, 0.0), (25, 16.0))], [0.0, 1.4, 2.0])
    given = {key: has_in_common(Field("f", {}, "", {}, key[0], key[1], key[1], None, None, None), Part("f", *key[2:])) for key in COMMON}
    tally.judge("fit: keys that agreeing values have in common", given, COMMON)
    advice = {(kind, *levels): "lower" in advice_of((kind, True), *levels) for kind in ("link", "nonlink") for levels in ((2, 1), (1, 2))}
    tally.judge("fit: advises a lower level where there is one", advice,
                {("link", 2, 1): True, ("link", 1, 2): False, ("nonlink", 2, 1): False, ("nonlink", 1, 2): True})
    exact = [(30_000, 0.3, 0.0), (60_500, 0.6, 0.005), (9_500, 0.1, 0.095), (900_000, 0.0, 0.9)]
    counts = [(round(100_000 * m + 1_000_000 * u), m, u) for _, m, u in exact]
    tally.judge("fit: counts just as expected give back the number of matched pairs",
                (round(matched_of_all(counts, 1e6)), round(matched_of_compared([*counts, (0, 0.0, 0.0)][:4]))), (100_000, 100_000))
    tally.judge("fit: refusals", bench.refusals(folder, "fit", REFUSES), REFUSES)


def wrong_links(folder: Path) -> dict[str, list[int]]:
    """For each pattern its links by the rule, and how many of them are wrong."""
    truth, found = truth_of(folder), {}
    for a, b, pattern, _, _, decision, _ in rows_of((folder / "pairs.csv").read_text(encoding="utf-8"))[1:]:
        if decision == "link":
            count = found.setdefault(pattern, [0, 0])
            count[0] += 1
            count[1] += (a, b) not in truth
    return found


def check_made(tally: Tally, bench: Bench) -> None:
    """On the made register the patterns of links that are told hold most of its wrong links by rule, and few of the others."""
    folder = bench.register(PERSONS)
    bench.tool(folder, "draw", "settings.toml", "--seed", "7", "--records", "600", "--random", "20000", "-o", "drawn.csv")
    with_sample(folder, [row[:3] for row in rows_of((folder / "drawn.csv").read_text(encoding="utf-8"))[1:]])
    bench.linkage(folder, "run", "settings.toml")
    _, printed, said = bench.tool(folder, "fit", "settings.toml")
    told = [row[0] for row in rows_of(printed)[1:] if row[3] == "link" and float(row[7]) > 0]
    finest = {"mu_ppm is the finest" in row[9] for row in rows_of(printed)[1:] if row[0] in told}
    tally.judge("fit: at 1 in a million no lower level is advised", finest, {True})
    by_pattern = wrong_links(folder)
    wrong, links = (sum(by_pattern[pattern][at] for pattern in told) for at in (1, 0))
    every = [sum(it[at] for it in by_pattern.values()) for at in (1, 0)]
    found = f"{len(told)} patterns of links hold {wrong} of the {every[0]} wrong links by rule, among {links} of {every[1]} links"
    page = " ".join((ROOT / "tools/README.md").read_text(encoding="utf-8").split())
    tally.judge("fit: the patterns told hold most wrong links, as the page says", (found, found in page), (found, True))
    compared = rows_of((folder / "pairs.csv").read_text(encoding="utf-8"))[1:]
    right = len({(row[0], row[1]) for row in compared} & truth_of(folder))
    given = int(said.splitlines()[1].split()[1])
    tally.judge("fit: the matched pairs are estimated within a twentieth, random pairs", abs(given - right) * 20 < right, True)
    (folder / "settings.toml").write_text((folder / "settings.toml").read_text(encoding="utf-8").replace('sample = "sample.csv"\n', "", 1))
    with_sample(folder, [row[:2] for row in compared[::3]])
    bench.linkage(folder, "run", "settings.toml")
    said = bench.tool(folder, "fit", "settings.toml")[2].splitlines()
    why = "for 100% of the unmatched pairs of the sample are compared ones"
    tally.judge("fit: sees that u is of compared pairs", said[0].endswith(why), True)
    is_near = abs(int(said[1].split()[1]) - right) * 20 < right  # birth and its year depend on one another, so no nearer
    tally.judge("fit: the matched pairs are estimated within a twentieth, compared pairs", is_near, True)


def check(tally: Tally, bench: Bench) -> None:
    """What is asked for of the tool."""
    if asks(tally, "fit"):
        check_numbers(tally, bench)
        check_made(tally, bench)
