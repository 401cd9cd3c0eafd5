"""What the page shows and does: order, keys, mouse, what is kept, candidates, labels, sizes, light and dark, print."""

import csv
import re
import shutil

from bench import Bench
from browser import Browser
from jobs import B_ROWS, Job, register, small
from tally import ROOT

# The contrast of a text to what lies behind it, as WCAG 2 reckons it, in hundredths; the least of those found by the selectors.
CONTRAST = """
const rgb = (text) => text.match(/[0-9.]+/g).map(Number);
const light = (c) => { const [r, g, b] = c.map((v) => { v /= 255; return v <= 0.04045 ? v / 12.92 : ((v + 0.055) / 1.055) ** 2.4; });
  return 0.2126 * r + 0.7152 * g + 0.0722 * b; };
const behind = (it) => { for (; it; it = it.parentElement) { const c = rgb(getComputedStyle(it).backgroundColor);
  if (c.length < 4 || c[3] > 0) return c.slice(0, 3); } return [255, 255, 255]; };
let least = 100;
for (const it of document.querySelectorAll(arguments[0])) {
  if (it.disabled || !it.getClientRects().length) continue;
  const [x, y] = [light(rgb(getComputedStyle(it).color).slice(0, 3)), light(behind(it))];
  least = Math.min(least, (Math.max(x, y) + 0.05) / (Math.min(x, y) + 0.05));
}
return Math.floor(100 * least);
"""
TEXTS = "h1, h2, p, th, td, td *, th *, button, label"


def fresh(bench: Bench, name: str, **how: str) -> tuple[Job, Browser]:
    """A small job with the files of a run, and the browser at its page. Each has a record more, so no two have a digest in common."""
    folder = bench.folder(name)
    job = small(folder, b=[*B_ROWS, [f"C{folder.name}", "z", "", "", ""]], **how)
    job.report("open")
    bench.browser.visit(job.page("--reviewer", "ana"))
    return job, bench.browser


def order(bench: Bench) -> object:
    """The pairs by links.csv and `linkage open`: how many of their records have a link, then the weight, then the program's order."""
    job = bench.population
    job.page()
    with (job.folder / "links.csv").open(encoding="utf-8") as file:
        links = list(csv.DictReader(file))
    a, b = {it["id_a"] for it in links}, {it["id_b"] for it in links}
    rows = sorted(job.open(), key=lambda it: ((it[0] in a) + (it[1] in b), -int(it[3])))
    shown, groups = job.pairs_of_page(), job.data()["groups"]
    wanted = [(it[0], it[1]) for it in rows]
    return shown == wanted, groups == [(x in a) + (y in b) for x, y in wanted], len(set(groups))


def only_what_is_needed(bench: Bench) -> object:
    """The records of a page of three pairs: those of the pairs and of their candidates, by pairs.csv."""
    job = bench.population
    job.page("--most", "3")
    first = set(job.pairs_of_page())
    with (job.folder / "pairs.csv").open(encoding="utf-8") as file:
        pairs = [(it["id_a"], it["id_b"]) for it in csv.DictReader(file)]
    near = [it for it in pairs if it[0] in {x for x, _ in first} or it[1] in {y for _, y in first}]
    data = job.data()
    return (len(first), {it[0] for it in data["a"]} == {x for x, _ in near}, {it[0] for it in data["b"]} == {y for _, y in near},
            len(data["compared"]) == len(near))


def both_records(bench: Bench) -> object:
    """The first pair as the rows of jobs.py have it: values as they stand, signs, marks, what the program says, other columns."""
    _, browser = fresh(bench, "records")
    rows = browser.run("""return [...document.querySelectorAll("#compared tr, #others tr")].map((row) =>
      [...row.children].map((it) => it.querySelector(".name, [aria-hidden]") && it.className.startsWith("sign")
        ? it.querySelector("[aria-hidden]").textContent : (it.querySelector(".name") || it).textContent))""")
    marks = browser.run("return [...document.querySelectorAll('#compared mark')].map((it) => it.textContent)")
    return browser.text("#pair-title"), rows, marks


def keys(bench: Bench) -> object:
    """Every key in turn, and what the live region says."""
    _, browser = fresh(bench, "keys")
    said = []
    for key in ("l", "n", "b", "u", "o", "f", "Left", "g", "4", "Enter", "w", "w", "c", "c", "?", "Escape"):
        browser.press(key)
        said.append(browser.text("#said"))
    return said[:7] + said[9:14], browser.text("#counts"), browser.text("#pair-title")


def letters_of_another_script(bench: Bench) -> object:
    """A Greek and a Russian keyboard: the key at the place of L and N; a held key decides once; keys with Control are the browser's."""
    _, browser = fresh(bench, "script")
    stroke = """document.dispatchEvent(new KeyboardEvent("keydown", { bubbles: true, cancelable: true, ...arguments[0] }))"""
    for event in ({"key": "λ", "code": "KeyL"}, {"key": "Т", "code": "KeyN"}, {"key": "n", "repeat": True}, {"key": "o", "ctrlKey": True}):
        browser.run(stroke, event)
    return browser.text("#counts")


def keys_of_manual(bench: Bench) -> object:
    """The keys in the help of the page, and in the table of docs/DESK.md."""
    _, browser = fresh(bench, "manual")
    page = browser.run("return [...document.querySelectorAll('#help dt')].map((it) => it.textContent)")
    lines = (ROOT / "docs/DESK.md").read_text(encoding="utf-8").splitlines()
    rows = [re.findall("<kbd>(.*?)</kbd>", it.split("|")[1]) for it in lines if it.startswith("| <kbd>")]
    return [" ".join(it) for it in rows] == page, len(page)


def mouse(bench: Bench) -> object:
    """The same by buttons, and single keys that are switched off and stay so."""
    _, browser = fresh(bench, "mouse")
    for button in ("link", "nonlink", "back", "undo", "open", "forward", "candidates-button", "weight-button", "help-button", "keys-on",
                   "help-close"):
        browser.click(f"#{button}")
    shown = browser.text("#weight"), len(browser.run("return [...document.querySelectorAll('.candidates')]"))
    browser.press("l", "n")
    browser.reload()
    browser.press("l", "n")
    counts = browser.text("#counts")
    browser.click("#help-button")
    browser.click("#keys-on")
    return shown, counts


def kept(bench: Bench) -> object:
    """Verdicts and a note after a reload; what the store holds, and that other pages of files see it too; Forget."""
    job, browser = fresh(bench, "kept")
    browser.press("l", "n", "t")
    browser.press(*"see \"parish\"", "Escape", "f")
    before = browser.text("#counts")
    browser.reload()
    held = browser.run("return Object.entries(localStorage).filter(([key]) => key.includes(arguments[0])).map((it) => it[1]).sort()",
                       job.data()["digest"])
    after = browser.text("#counts"), browser.text("#pair-title")
    browser.press("g", "3", "Enter")
    note = browser.run("return document.getElementById('note').value")
    address = browser.run("return location.href")
    fresh(bench, "other")
    shared = browser.run("return Object.keys(localStorage).filter((it) => it.includes(arguments[0])).length", job.data()["digest"])
    browser.visit(address)
    browser.press("s")
    browser.click("#forget")
    browser.click("#forget")
    left = browser.run("return Object.keys(localStorage).filter((it) => it.includes(arguments[0])).length", job.data()["digest"])
    return before, after, note, held, shared, browser.text("#counts"), left


def notes(bench: Bench) -> object:
    """A note goes into a file of its own, and not into the verdicts."""
    _, browser = fresh(bench, "notes")
    browser.press("t")
    browser.press(*"a, \"b\"", "Escape", "l", "s")
    found = bench.saved("notes").read_text(encoding="utf-8")
    return found, browser.run("return document.getElementById('verdicts-text').value")


def candidates(bench: Bench) -> object:
    """The other records compared with A2 and B1 (the fourth pair): ids, decision, link, one's own verdict, the way to it."""
    _, browser = fresh(bench, "candidates")
    browser.press("l", "g", "5", "Enter", "c")
    line = browser.text("#candidates-line")
    rows = browser.run("""return [...document.querySelectorAll(".candidates tbody tr")].map((row) => [...row.children]
      .map((it) => it.textContent)).map((it) => [it[0], ...it.slice(4)])""")
    warned = browser.text("#yours")
    browser.click(".candidates button")
    return line, rows, warned, browser.text("#pair-title")


def decided_candidates(bench: Bench) -> object:
    """Of a made register: each candidate's decision and link as in pairs.csv and links.csv."""
    job = bench.population
    job.page()
    data = job.data()
    rows = {}
    for name in ("pairs", "links"):
        with (job.folder / f"{name}.csv").open(encoding="utf-8") as file:
            rows[name] = {(it["id_a"], it["id_b"]): it for it in csv.DictReader(file)}
    wrong = []
    for a, b, pattern, weight, decision, by, _ in data["compared"]:
        pair = data["a"][a][data["id"][0]], data["b"][b][data["id"][1]]
        row, link = rows["pairs"][pair], rows["links"].get(pair)
        is_right = (data["patterns"][pattern], str(weight), decision) == (row["outcomes"], row["weight"], row["decision"])
        if not is_right or by != (link["by"] if link else ""):
            wrong.append(pair)
    mates = {x: y for x, y in rows["links"]}, {y: x for x, y in rows["links"]}
    wrong += [it for side, place in (("a", 0), ("b", 1)) for it in zip(data[side], data["mates"][place])
              if it[1] != mates[place].get(it[0][data["id"][place]], "")]
    return wrong[:3], {it[4] for it in data["compared"]}, {it[5] for it in data["compared"]}


def no_run(bench: Bench) -> object:
    """Without the files of a run, and with those of another one: the page has the open pairs alone, and desk and page say so."""
    found = []
    for name in ("none", "other"):
        job = small(bench.folder(name))
        if name == "other":
            job.report("open")
            text = (job.folder / "pairs.csv").read_text(encoding="utf-8")
            (job.folder / "pairs.csv").write_text(text.replace("128", "127"), encoding="utf-8")
        found.append(job.make()[1].splitlines()[0])
        bench.browser.visit((job.folder / "desk.html").as_uri())
        found.append(bench.browser.text("#candidates-line"))
    return found


def another_level(bench: Bench) -> str:
    """The files of a run at another level, at which more pairs were possible links: they do not fit either."""
    job = register(bench.folder("level"), bench.population.folder, mu_ppm=20)
    for name in ("pairs.csv", "links.csv"):
        shutil.copy(bench.population.folder / name, job.folder)
    return job.make("--most", "10")[1].splitlines()[0]


def labels(bench: Bench) -> object:
    """Roles and names as the browser gives them to a screen reader, and that each cell of the table has its heads."""
    _, browser = fresh(bench, "labels")
    named = [browser.labelled(it) for it in ("#link", "#note-button", "#progress", "#said", "#records", "#go", "main")]
    heads = browser.run("return [...document.querySelectorAll('#records th')].every((it) => it.scope)")
    nameless = browser.run("return [...document.querySelectorAll('button')].filter((it) => !it.textContent.trim()).length")
    spoken = browser.run("return document.querySelector('#compared .sign .hidden-label').textContent")
    return named, heads, nameless, spoken, browser.run("return document.documentElement.lang")


def by_tab(bench: Bench) -> object:
    """By Tab and Space alone: from the head of the page to Link, and a verdict."""
    _, browser = fresh(bench, "tab")
    browser.click("#pair-title")
    for strokes in range(20):
        browser.press("Tab")
        if browser.run("return document.activeElement.id") == "link":
            break
    outline = browser.run("return getComputedStyle(document.activeElement).outlineStyle")
    browser.press("Space")
    return strokes < 5, outline, browser.text("#counts")


def zoomed(bench: Bench) -> object:
    """At 200 % of 1,280 x 800 nothing is to be scrolled sideways, and nothing is cut; at 400 % neither."""
    _, browser = fresh(bench, "zoom")
    browser.press("c", "w")
    found = []
    for wide, high, scale in ((640, 400, 2), (320, 256, 4)):
        browser.size(wide, high, scale)
        found.append(browser.run("""const page = document.documentElement;
          const cut = [...document.querySelectorAll("button, #records td, #records th, p")].filter((it) => it.getClientRects().length
            && (it.getBoundingClientRect().right > page.clientWidth + 1 || it.scrollWidth > it.clientWidth + 1 && it.clientWidth > 1));
          return [page.scrollWidth <= page.clientWidth, cut.filter((it) => !it.closest(".wide")).map((it) => it.id || it.textContent)]"""))
    browser.size(1280, 800)
    return found


def schemes(bench: Bench) -> object:
    """Light and dark: other colours, and each text at a contrast of at least 4.5 to what lies behind it."""
    _, browser = fresh(bench, "schemes")
    browser.press("l", "b", "c", "w")
    found = []
    for scheme in ("light", "dark"):
        browser.emulate(prefers_color_scheme=scheme)
        found.append((browser.run("return getComputedStyle(document.body).backgroundColor"), browser.run(CONTRAST, TEXTS)))
    browser.emulate()
    return found[0][0] != found[1][0], [least >= 450 for _, least in found]


def printed(bench: Bench) -> object:
    """In print there are both records and no buttons; a page of paper has no grey behind it."""
    _, browser = fresh(bench, "print")
    browser.emulate("print")
    is_seen = "return document.querySelector(arguments[0]).getClientRects().length > 0"
    seen = [browser.run(is_seen, it) for it in ("#records", "footer", ".tools")]
    ground = browser.run("return getComputedStyle(document.body).backgroundColor")
    browser.emulate()
    return seen, ground


FIRST = [
    ["block", "x", "=", "x", "✓ agrees"],
    ["surname", "Smith", "≠", "Smyth", "✓ agrees"],
    ["birth", "1980-02-03", "≠", "03.02.1980", "✓ agrees"],
    ["parish", "St Mary", "=", "St Mary", "not compared"],
]
SAID = [
    "Pair 1: link. Pair 2 of 5, 2 of 3 fields agree.", "Pair 2: nonlink. Pair 3 of 5, 2 of 3 fields agree.",
    "Back. Pair 2 of 5, 2 of 3 fields agree. Your verdict: nonlink.", "Pair 2: no verdict.",
    "Pair 2: open. Pair 3 of 5, 2 of 3 fields agree.", "Pair 4 of 5, 1 of 3 fields agree.",
    "Back. Pair 3 of 5, 2 of 3 fields agree.", "Pair 4 of 5, 1 of 3 fields agree.",
    "Weight -28 eighths of a bit, pattern ADD.", "Weight hidden.",
    "Other candidates: 1 of A's record, 1 of B's record.", "Candidates hidden.",
]
CANDIDATES = [
    ["B1", "this pair", "", ""], ["B2", "possible", "no", " pair 3"], ["A2", "this pair", "", ""], ["A1", "possible", "no", "link pair 1"],
]
LABELS = [("button", "Link"), ("button", "Note"), ("progressbar", "pairs with a verdict"), ("status", ""), ("table", ""),
          ("textbox", "Go to pair"), ("main", "Pair 1 of 5")]
STALE = "desk: without other candidates and links: "
OTHER_RUN = "pairs.csv and links.csv are not of a run over these files and settings: linkage run s.toml"
ALONE = "Other candidates, among the open pairs alone: 1 of A's record, 1 of B's record"

PARTS = {
    "the order of the pairs is that of SETTINGS": (order, (True, True, 3)),
    "a page holds its pairs and their candidates and no other record": (only_what_is_needed, (3, True, True, True)),
    "both records as they stand, with signs and what was compared": (both_records, ("Pair 1 of 5", FIRST, ["i", "y"])),
    "keys": (keys, (SAID, "2 of 5 decided: 1 link, 0 nonlink, 1 open", "Pair 4 of 5")),
    "the keys of the page are those of the manual": (keys_of_manual, (True, 12)),
    "keys of another script, held keys, keys with Control": (letters_of_another_script, "2 of 5 decided: 1 link, 1 nonlink, 0 open"),
    "mouse": (mouse, (("Weight -28 eighths of a bit, pattern ADD", 2), "2 of 5 decided: 1 link, 0 nonlink, 1 open")),
    "kept when the page is closed, and forgotten when asked": (kept, (
        "2 of 5 decided: 1 link, 1 nonlink, 0 open", ("2 of 5 decided: 1 link, 1 nonlink, 0 open", "Pair 3 of 5"), 'see "parish"',
        ['{"verdict":"","note":"see \\"parish\\""}', '{"verdict":"link","note":""}', '{"verdict":"nonlink","note":""}'],
        3, "0 of 5 decided: 0 link, 0 nonlink, 0 open", 0)),
    "notes": (notes, ('id_a,id_b,verdict,note\nA1,B1,link,"a, ""b"""\n', "id_a,id_b,verdict\nA1,B1,link\n")),
    "other candidates one key away": (candidates, (
        "Other candidates: 1 of A's record, 1 of B's record", CANDIDATES, "You called a link: A1 – B1", "Pair 3 of 5")),
    "candidates with decision and link, as the files of the run": (decided_candidates, ([], {"link", "possible", "nonlink"}, {"", "rule"})),
    "without a run, or with files of another": (no_run, [
        f"{STALE}links.csv: is not there: linkage run s.toml", ALONE,
        STALE + OTHER_RUN, ALONE]),
    "with the files of a run at another level": (another_level, STALE + OTHER_RUN),
    "labels for a screen reader": (labels, (LABELS, True, 0, "same text", "en")),
    "by Tab and Space": (by_tab, (True, "solid", "1 of 5 decided: 1 link, 0 nonlink, 0 open")),
    "a zoom of 200 % and of 400 %": (zoomed, [[True, []], [True, []]]),
    "light and dark": (schemes, (True, [True, True])),
    "print": (printed, ([True, False, False], "rgb(255, 255, 255)")),
}
