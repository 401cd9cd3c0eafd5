"""From the page to the journal: both versions of the journal, two reviewers who do not see one another's verdicts, 500 pairs by keys."""

import csv

from bench import Bench
from guards import by_command
from jobs import A_ROWS, B_ROWS, Job, register, small

FIRST_VERSION = """number,date,reviewer,id_a,id_b,verdict
1,2024-03-04,ana,A1,B1,link
2,2024-03-04,ben,A3,B3,open
3,2024-03-05,ben,A2,B2,nonlink
4,2024-03-06,ana,A2,B2,open
"""
SECOND_VERSION = """number,date,reviewer,step,id_a,id_b,verdict
1,2024-03-04,ana,first,A1,B1,link
2,2024-03-04,ana,first,A3,B3,nonlink
3,2024-03-05,ben,confirm,A3,B3,nonlink
4,2024-03-05,ana,single,A2,B2,open
5,2024-03-06,ana,first,A1,B2,nonlink
6,2024-03-06,ben,first,A1,B2,link
"""
DOUBLE = "double = true\n"


def first_version(bench: Bench) -> object:
    """The decided pair is not asked again; those left open are, and the page says by whom."""
    job = small(bench.folder("first-version"), journal=FIRST_VERSION)
    job.report("open")
    bench.browser.visit(job.page())
    said = []
    for _ in range(4):
        said.append(bench.browser.text("#earlier"))
        bench.browser.press("f")
    return job.pairs_of_page(), said


def second_version(bench: Bench) -> object:
    """By two reviewers: each is asked about what waits for her or for anyone, and not about what waits for another."""
    found = []
    for reviewer in ("ana", "ben", "eve"):
        job = small(bench.folder("second-version"), more=DOUBLE, journal=SECOND_VERSION)
        job.report("open")
        status, said = job.make("--reviewer", reviewer)
        found.append((sorted(job.pairs_of_page()), said.count("waiting for another reviewer")))
    return found


def one_of_two(bench: Bench) -> object:
    """Where one reviewer is asked, entries of two steps are read too: a first one has its pair still open."""
    job = small(bench.folder("one-of-two"), journal=SECOND_VERSION)
    return sorted(job.pairs_of_page()) if job.page() else None


def blind(bench: Bench) -> object:
    """The page of the second reviewer is, but for her name and its digest, that of a job where nobody has given a verdict yet."""
    texts = []
    for journal in ("", "".join(SECOND_VERSION.splitlines(keepends=True)[:3])):
        job = small(bench.folder("blind"), more=DOUBLE, journal=journal)
        job.report("open")
        job.page("--reviewer", "ben")
        texts.append((job.folder / "desk.html").read_text(encoding="utf-8"))
    return texts[0] == texts[1], "ana" in texts[1].split('id="data">')[1].split("</script>")[0]


def decide(bench: Bench, job: Job, reviewer: str, strokes: str) -> str:
    """A review by keys: the page is made, the keys pressed, the verdicts saved and given to `review` by the command that is shown."""
    bench.browser.visit(job.page("--reviewer", reviewer))
    before = bench.browser.text("#counts")
    bench.browser.press(*strokes, "s")
    said = by_command(bench, job)
    return said or before


def two_reviewers(bench: Bench) -> object:
    """Ana and Ben in one browser: neither meets the other's verdicts; what they agree on is closed, the rest comes to Ana again, anew."""
    job = small(bench.folder("two"), a=[*A_ROWS, ["A9", "z", "Two", "", ""]], b=B_ROWS, more=DOUBLE)
    job.report("open")
    counts = [decide(bench, job, "ana", "lnlno")]
    job.report("open")
    bench.browser.visit(job.page("--reviewer", "ana"))
    waits = len(job.pairs_of_page())
    counts.append(decide(bench, job, "ben", "lnnno"))
    still = job.report("open")
    bench.browser.visit(job.page("--reviewer", "ana"))
    again, anew = job.pairs_of_page(), bench.browser.text("#counts")
    counts.append(decide(bench, job, "ana", "n"))
    steps = [it["step"] for it in csv.DictReader((job.folder / "journal.csv").open(encoding="utf-8"))]
    return counts, waits, still, again, anew, steps, job.report("open")


def five_hundred(bench: Bench) -> object:
    """500 pairs by strokes of keys, with a way back and a reload between them: `review` takes the file, `run` counts what is in it."""
    job = register(bench.folder("five-hundred"), bench.population.folder)
    before = job.report("open")
    browser = bench.browser
    browser.visit(job.page("--reviewer", "ana", "--most", "500"))
    pairs, wanted = job.pairs_of_page(), ["lnnonnnnln"[at % 10] for at in range(500)]
    browser.press(*wanted[:250])
    browser.reload()
    browser.press(*wanted[250:400], "b", "b", "n", *wanted[400:])
    browser.press("s")
    counts = browser.text("#counts")
    said = by_command(bench, job)
    words = {"l": "link", "n": "nonlink", "o": "open"}
    verdicts = [words[it] for it in wanted]
    verdicts[398] = "nonlink"
    entries = list(csv.DictReader((job.folder / "journal.csv").open(encoding="utf-8")))
    is_right = [((it["id_a"], it["id_b"]), it["verdict"]) for it in entries] == list(zip(pairs, verdicts))
    after = job.report("open")
    by_whom = {(it["reviewer"], it["step"]) for it in entries}
    numbers = before - after, job.report("entries"), job.report("idle")
    return counts, said, is_right, by_whom, numbers, job.linkage("verify", "s.toml").strip()


LEFT = "In the journal: left open on 2024-03-0"
NONE = "0 of {} decided: 0 link, 0 nonlink, 0 open"
WAITING = [("A1", "B1"), ("A2", "B1"), ("A2", "B2")]

PARTS = {
    "a journal of the first version": (first_version, (
        [("A3", "B3"), ("A2", "B2"), ("A1", "B2"), ("A2", "B1")], [f"{LEFT}4 by ben", f"{LEFT}6 by ana", "", ""])),
    "a journal of the second version, with two reviewers": (second_version, [
        ([("A1", "B2"), ("A2", "B1"), ("A2", "B2")], 1), (WAITING, 1), ([("A1", "B1"), ("A1", "B2"), ("A2", "B1"), ("A2", "B2")], 0)]),
    "a journal of the second version, with one reviewer": (one_of_two, [("A1", "B1"), ("A1", "B2"), ("A2", "B1"), ("A2", "B2")]),
    "the second review is blind": (blind, (True, False)),
    "two reviewers, from page to journal": (two_reviewers, (
        [NONE.format(5), NONE.format(5), NONE.format(2)], 1, 2, [("A2", "B2"), ("A2", "B1")], NONE.format(2),
        ["first", "first", "first", "first", "single", "confirm", "confirm", "first", "confirm", "single", "confirm"], 1)),
    "500 pairs by keys, to a journal that run takes": (five_hundred, (
        "500 of 500 decided: 99 link, 351 nonlink, 50 open", "", True, {("ana", "single")}, (450, 500, 0), "yes")),
}
