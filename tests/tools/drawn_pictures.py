"""`picture`: what is counted in each picture, by hand and by the program, and that its words do not cover one another."""

from pathlib import Path
from xml.etree import ElementTree

from jobs import Bench, asks, rows_of
from linkage_tools import picture
from linkage_tools.job import Job
from linkage_tools.picture import PICTURES, blocks_of
from linkage_tools.rule_pictures import groups
from linkage_tools.rule_pictures import rows_of as rows_of_group
from linkage_tools.svg import LINK, NONLINK, POSSIBLE
from tally import ROOT, Tally

WIDTHS = 0.62  # of a letter, in heights: as wide as a sans-serif letter is in the mean, and a little more
REFUSES = {
    "s.toml": (2, "picture: the following arguments are required: picture; see picture -h"),
    "s.toml cake": (2, "picture: argument picture: invalid choice: 'cake' (choose from 'weights', 'levels', 'passes', 'patterns', "
                       "'frontier', 'choice'); see picture -h"),
    "s.toml weights --levels 1": (2, "picture: --levels goes with frontier; see picture -h"),
    "s.toml frontier --levels x": (2, "picture: argument --levels: 'x' is no whole number; see picture -h"),
    "s.toml frontier --levels 1000001": (2, "picture: --levels are at most 1000000; see picture -h"),
    "nosuch.toml weights": (1, "picture: linkage: store: nosuch.toml"),
    "nosuch.toml passes": (1, "picture: nosuch.toml: No such file or directory"),
    "s.toml weights -o a.csv": (1, "picture: a.csv: is there already; name a new file"),
    "dotted.toml levels": (1, "picture: dotted.toml: is not written as in docs/SETTINGS.md: mu_ppm on a line of its own, each pass as a"
                              " table [[pass]]"),
}


def words_of(svg: str) -> list[str]:
    """The words of a picture."""
    return [it.text or "" for it in ElementTree.fromstring(svg).iter("{http://www.w3.org/2000/svg}text")]


def covered(svg: str) -> list[tuple[str, str]]:
    """The words of a picture that cover one another, or leave it, by how wide letters are."""
    root, boxes, found = ElementTree.fromstring(svg), [], []
    for it in root.iter("{http://www.w3.org/2000/svg}text"):
        size, words = float(it.get("font-size")), it.text or ""
        wide = WIDTHS * size * len(words)
        left = float(it.get("x")) - {"start": 0, "middle": wide / 2, "end": wide}[it.get("text-anchor")]
        boxes.append((left, left + wide, float(it.get("y")) - 0.75 * size, float(it.get("y")) + 0.2 * size, words))
    for at, one in enumerate(boxes):
        if one[0] < 0 or one[1] > float(root.get("width")) or one[3] > float(root.get("height")):
            found.append((one[4], "the edge"))
        found += [(one[4], other[4]) for other in boxes[:at] if one[0] < other[1] and other[0] < one[1]
                  and one[2] < other[3] and other[2] < one[3]]
    return found


def check_example(tally: Tally, bench: Bench) -> None:
    """By hand from the files of the example: four surnames' keys, five years, the blocks that they make; its report; its frontier."""
    folder = bench.example()
    drawn = {name: bench.tool(folder, "picture", "s.toml", name)[1] for name in PICTURES}
    lines = [line for line in words_of(drawn["passes"]) if " pairs, " in line and line[:3] != "For"]
    tally.judge("picture: the passes of the example, by hand", lines, [
        "Pass 1 compares most: 9 pairs, of which 4 are found by no other pass",
        "9 pairs, 4 of them found by no other pass; 4 blocks, the largest of 2 x 3 records",
        "7 pairs, 2 of them found by no other pass; 5 blocks, the largest of 1 x 2 records"])
    title = "Of 11 compared pairs 5 are links, and 4 go to review"
    tally.judge("picture: the weights of the example, by its report", words_of(drawn["weights"])[0], title)
    pairs = [("a", "x"), ("b", "x"), ("b", "y"), ("a", "y"), ("c", "z")]
    tally.judge("picture: blocks, by hand", sorted(blocks_of(pairs)), [(1, 1), (2, 2)])
    (folder / "dotted.toml").write_text((folder / "s.toml").read_text(encoding="utf-8").replace("mu_ppm", '"mu_ppm"'), encoding="utf-8")
    tally.judge("picture: refusals", bench.refusals(folder, "picture", REFUSES), REFUSES)
    (folder / "rule.csv").write_text("x\n", encoding="utf-8")
    status, printed, said = bench.tool(folder, "picture", "s.toml", "weights")
    tally.judge("picture: refuses a rule that is none", (status, printed, said.startswith("picture: the written files are not of s.toml")),
                (1, "", True))


# The pictures of the manual, and the words that draw them from the worked example.
MANUAL = {"weights.svg": "patterns", "frontier.svg": "frontier --levels 0 1 10 40 100 400 1000 4000 10000 40000 100000",
          "assignment.svg": "choice"}


def check_manual(tally: Tally, bench: Bench) -> None:
    """The manual's pictures are what the tool draws, byte for byte; what they count is told by hand from the example's pages."""
    folder = bench.example()
    drawn = {name: bench.tool(folder, "picture", "s.toml", *words.split())[1] for name, words in MANUAL.items()}
    for name, text in drawn.items():
        tally.judge(f"picture: docs/pictures/{name}, byte for byte", (ROOT / "docs/pictures" / name).read_bytes() == text.encode(), True)
        tally.judge(f"picture: docs/pictures/{name}: no words cover others", covered(text), [])
    titles = {"weights.svg": "4 of 27 patterns are links, 11 go to review, 10 are non-links, 2 by lot",
              "frontier.svg": "Of 1,000 matched pairs 998 wait for review at mu_ppm 0, 177 at 40, 0 at 100,000",
              "assignment.svg": "6 of 7 candidates are links, 1 dropped"}
    tally.judge("picture: titles of the manual's pictures", {name: words_of(text)[0] for name, text in drawn.items()}, titles)
    values = [words for words in words_of(drawn["assignment.svg"])[1:] if words.isdecimal()]
    tally.judge("picture: choice: the values of the candidates, by hand", sorted(values), ["157", "167", "167", "167", "169", "93", "95"])
    grey = lambda fill: sum(share * int(fill[at:at + 2], 16) for share, at in ((0.2126, 1), (0.7152, 3), (0.0722, 5)))
    greys = [grey(fill) for fill in (LINK, POSSIBLE, NONLINK)]
    tally.judge("picture: the three colours are apart in grey", [b - a > 50 for a, b in zip(greys, greys[1:])], [True, True])
    pairs = [("a", "x"), ("c", "z"), ("b", "y"), ("b", "x")]
    tally.judge("picture: choice: groups and their rows, by hand", [rows_of_group(it, {("a", "x"), ("c", "z")}) for it in groups(pairs)],
                [[("a", "x"), ("b", None), (None, "y")], [("c", "z")]])


def check_register(tally: Tally, bench: Bench) -> None:
    """On the made register: the counts are the program's, and no words cover others."""
    folder = bench.register()
    report = dict(line.split(" ", 1) for line in (folder / "report.txt").read_text(encoding="utf-8").splitlines()[:16])
    for name in PICTURES:
        _, drawn, said = bench.tool(folder, "picture", "settings.toml", name)
        tally.judge(f"picture: {name}: no words cover others", covered(drawn) if drawn else said, [])
        if name == "weights":
            wanted = [f"{int(report['link']):,} links", f"{int(report['possible']):,} possible links, for review",
                      f"{int(report['nonlink']):,} non-links"]
            tally.judge("picture: weights: the counts of the report", [it for it in words_of(drawn) if it in wanted], wanted)
    check_levels(tally, folder, bench, int(report["possible"]))


def check_levels(tally: Tally, folder: Path, bench: Bench, possible: int) -> None:
    """At each level what `frontier` prints, times the unmatched pairs; at that of the settings as many reviews as the report has."""
    found, _ = picture.levels_of(Job("settings.toml", folder))
    rows = rows_of(bench.linkage(folder, "frontier", "settings.toml", *(str(it.mu_ppm) for it in found)))[1:]
    unmatched = found[0].wrong * int(rows[0][5]) / int(rows[0][1])
    far = [it for it, row in zip(found, rows) if abs(it.wrong - unmatched * int(row[1]) / int(row[5])) > 1e-6 * it.wrong]
    tally.judge("picture: levels: as frontier has them", far, [])
    given = next(it.reviews for it in found if it.mu_ppm == 1)
    tally.judge("picture: levels: the reviews of the report, but for the lot", abs(given - possible) < 5, True)


def check(tally: Tally, bench: Bench) -> None:
    """What is asked for of the tool."""
    if asks(tally, "picture"):
        check_example(tally, bench)
        check_manual(tally, bench)
        check_register(tally, bench)
