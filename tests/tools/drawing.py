"""`draw` and `sheet`: samples of pairs, what people see of them, and what comes back from a spreadsheet."""

import random
from collections import Counter
from pathlib import Path

from jobs import HOSTILE, Bench, asks, rows_of, text_of, truth_of
from linkage_tools.draw import places
from linkage_tools.sheet import guarded, restored
from tally import Tally

# The one open pair of the example, from its files by hand.
EXAMPLE_SHEET = """verdict,id_a,id_b,A surname,B family,A given,B first,A birth,B dob
,A4,B3,Schmidt,Smith,Karl,Mary,'31/02/1980,'1990-05-01
"""
WORDS = ("say one of --compared N, --records N, --records N --random M, --links N, --unlinked-a N, --unlinked-b N; see draw -h")
BACK_REFUSES = {
    "verdict,id_a,id_b\nlink,0007,7\n": "back.csv: row 1: unknown id_a '0007'; a spreadsheet may have changed '007'",
    "verdict,id_a,id_b\n,7,7\n": "back.csv: no verdict",
    "": "back.csv: no header",
    "id_a,id_b\n7,7\n": "back.csv: no column verdict",
    "verdict,id_a,id_b\nlink,7,7,x\n": "back.csv: row 1: number of fields",
    "PK\x03\x04": "back.csv: is a spreadsheet or an archive (zip), no CSV file: save it as CSV in UTF-8",
}
DRAW_REFUSES = {
    "settings.toml --seed 1": (2, f"draw: {WORDS}"),
    "settings.toml --seed 1 --compared 3 --links 2": (2, f"draw: {WORDS}"),
    "settings.toml --seed 1 --unlinked-a 1 --unlinked-b 1": (2, f"draw: {WORDS}"),
    "settings.toml --seed 1 --random 3": (2, "draw: --random goes with --records; see draw -h"),
    "settings.toml --seed 1 --compared 99999": (2, "draw: asked for 99999 of 446 compared pairs"),
    "settings.toml --seed 1 --records 401 --random 1": (2, "draw: asked for 401 of 400 records of A"),
    "settings.toml --seed 1 --records 1 --random 200001": (2, "draw: asked for 200001 of 200000 pairs of A x B"),
    "settings.toml --seed 1 --records 1 --random 100001": (2, "draw: 100001 rows, and a sample has at most 100000"),
    "settings.toml --seed -1 --compared 1": (2, "draw: argument --seed: '-1' is no whole number; see draw -h"),
    "settings.toml --seed x --compared 1": (2, "draw: argument --seed: 'x' is no whole number; see draw -h"),
    "settings.toml --compared 1": (2, "draw: the following arguments are required: --seed; see draw -h"),
    "nosuch.toml --seed 1 --compared 1": (1, "draw: linkage: store: nosuch.toml"),
    "nosuch.toml --seed 1 --records 1 --random 1": (1, "draw: linkage: store: nosuch.toml"),
    "a.csv --seed 1 --compared 1": (1, "draw: linkage: settings: not TOML"),
    "settings.toml --seed 1 --compared 1 -o a.csv": (1, "draw: a.csv: is there already; name a new file"),
}


def check_places(tally: Tally) -> None:
    """Each ordered pair of 2 of 6 comes about as often as another in 6,000 draws: 200 times each, to 5 standard deviations; both ways."""
    for limit in (3, 6):
        seen = Counter(tuple(places(random.Random(f"try {at}"), 2, limit)) for at in range(1000 * limit))
        expected = 1000 * limit / (limit * (limit - 1))
        far = {pair: count for pair, count in seen.items() if abs(count - expected) > 5 * expected**0.5}
        tally.judge(f"draw: 2 of {limit}, each order as likely", (len(seen), far), (limit * (limit - 1), {}))
    tally.judge("draw: all of them", sorted(places(random.Random("all"), 50, 50)), list(range(50)))


def check_draw(tally: Tally, bench: Bench) -> None:
    folder = bench.register()
    compared = [tuple(row) for row in rows_of(bench.linkage(folder, "pairs", "settings.toml"))[1:]]
    one, again, other = (bench.tool(folder, "draw", "settings.toml", "--seed", seed, "--compared", "100")[1] for seed in "112")
    header, *rows = rows_of(one)
    tally.judge("draw: the same words give the same bytes, another seed others", (one == again, one == other), (True, False))
    tally.judge("draw: compared pairs, none twice, all to be reviewed", (header, len(set(map(tuple, rows))), {(*row[2:],) for row in rows},
                {(*row[:2],) for row in rows} <= set(compared)), (["id_a", "id_b", "drawn", "status"], 100, {("compared", "")}, True))
    _, text, said = bench.tool(folder, "draw", "settings.toml", "--seed", "3", "--records", "50", "--random", "3000")
    rows = [tuple(row) for row in rows_of(text)[1:]]
    near = [row for row in rows if row[2] in ("record", "both")]
    records, far = {row[0] for row in near}, [row for row in rows if row[2] in ("random", "both")]
    wanted = [pair for pair in compared if pair[0] in records]
    tally.judge("draw: all compared pairs of the drawn records", sorted(row[:2] for row in near), sorted(wanted))
    _, text, _ = bench.tool(folder, "draw", "settings.toml", "--seed", "3", "--records", "50")
    alone = [tuple(row) for row in rows_of(text)[1:]]
    tally.judge("draw: clusters are these pairs alone", alone, [(*row[:2], "cluster", "") for row in near])
    tally.judge("draw: no pair twice, and as many random ones as asked", (len({row[:2] for row in rows}), len(far)), (len(rows), 3000))
    given = {row[:2] for row in rows if row[3] == ""}
    tally.judge("draw: only compared pairs need a look", given, {row[:2] for row in rows} & set(compared))
    look = len({row[:2] for row in far} & set(compared))
    facts = [f"draw: seed 3\ndraw: 50 of 400 records of A, with {len(near)} compared pairs, all to be reviewed\n",
             f"draw: 3000 of 200000 pairs of A x B: {look} are compared and to be reviewed, {3000 - look} taken as unmatched\n",
             f"draw: {len(rows)} rows, of which {len(given)} are to be reviewed\n"]
    tally.judge("draw: says what was drawn from how many", said, "".join(facts))
    _, text, _ = bench.tool(folder, "draw", "settings.toml", "--seed", "3", "--links", "20")
    links = {(*row[:2],) for row in rows_of((folder / "links.csv").read_text(encoding="utf-8"))}
    tally.judge("draw: links", ({(*row[:2],) for row in rows_of(text)[1:]} <= links, text.count(",link,\n")), (True, 20))
    check_unlinked(tally, bench, folder, links)
    tally.judge("draw: refusals", bench.refusals(folder, "draw", DRAW_REFUSES), DRAW_REFUSES)


def check_unlinked(tally: Tally, bench: Bench, folder: Path, links: set[tuple[str, str]]) -> None:
    """Records without a link, of either side: all of them where all are asked for, and no more."""
    for at, side in enumerate("ab"):
        ids = [row[0] for row in rows_of((folder / f"{side}.csv").read_text(encoding="utf-8"), ",;"[at])[1:]]
        left = [key for key in ids if key not in {pair[at] for pair in links}]
        _, text, said = bench.tool(folder, "draw", "settings.toml", "--seed", "3", f"--unlinked-{side}", str(len(left)))
        rows = rows_of(text)[1:]
        what = f"records of {side.upper()} without a link"
        given = sorted(row[at] for row in rows), {(row[1 - at], *row[2:]) for row in rows}
        tally.judge(f"draw: {what}", given, (sorted(left), {("", "unlinked", "")}))
        tally.judge(f"draw: says so of {side.upper()}", said.splitlines()[1],
                    f"draw: {len(left)} of {len(left)} {what}, to be searched for in {'BA'[at]}")
        given = bench.tool(folder, "draw", "settings.toml", "--seed", "3", f"--unlinked-{side}", str(len(left) + 1))
        line = f"draw: asked for {len(left) + 1} of {len(left)} {what}\n"
        tally.judge(f"draw: no more than there are of {side.upper()}", given, (2, "", line))


def answered(text: str, truth: set[tuple[str, str]]) -> list[list[str]]:
    """A sheet with the right status in each row."""
    header, *rows = rows_of(text)
    return [header, *(["matched" if (restored(row[1]), restored(row[2])) in truth else "unmatched", *row[1:]] for row in rows)]


def spreadsheets(rows: list[list[str]]) -> dict[str, bytes]:
    """Rows as spreadsheets may save them: other delimiters, encodings, orders of rows and columns, words, columns more, empty rows."""
    turned = [list(reversed(row)) + ["a note; mine, too"] for row in [rows[0], *reversed(rows[1:])]]
    capital = [rows[0], *([row[0].capitalize() if at % 2 else f" {row[0][0]} ", *row[1:]] for at, row in enumerate(rows[1:]))]
    empty = [*rows, [""] * len(rows[0]), [""] * len(rows[0])]
    return {
        "commas and a mark": b"\xef\xbb\xbf" + text_of(rows).encode(),
        "semicolons, Windows line ends": text_of(rows, ";").replace("\n", "\r\n").encode(),
        "tabs in UTF-16": text_of(rows, "\t").encode("utf-16"),
        "a line sep=": b"sep=;\r\n" + text_of(rows, ";").encode(),
        "other orders, and a column more": text_of(turned).encode(),
        "capitals, blanks and first letters": text_of(capital).encode(),
        "empty rows": text_of(empty, ";").encode(),
    }


def check_sample(tally: Tally, bench: Bench) -> None:
    """A sample from `draw` by way of a spreadsheet: what is known of the truth by hand, and the program takes it."""
    folder = bench.register()
    truth = truth_of(folder)
    bench.tool(folder, "draw", "settings.toml", "--seed", "3", "--records", "100", "--random", "4000", "-o", "drawn.csv")
    drawn = rows_of((folder / "drawn.csv").read_text(encoding="utf-8"))[1:]
    is_right = {(a, b): (a, b) in truth for a, b, *_ in drawn}
    wanted = [[a, b, "matched" if is_right[a, b] else "unmatched"] for a, b, why, _ in drawn
              if not (why == "record" and not is_right[a, b] or why == "random" and is_right[a, b])]
    _, text, said = bench.tool(folder, "sheet", "settings.toml", "drawn.csv")
    rows, waiting = answered(text, truth), sum(row[3] == "" for row in drawn)
    tally.judge("sheet: shows what needs a look", (len(rows) - 1, said),
                (waiting, f"sheet: {waiting} pairs to be reviewed; {len(drawn) - waiting} need no look\n"))
    for name, data in spreadsheets(rows).items():
        (folder / "back.csv").write_bytes(data)
        _, text, said = bench.tool(folder, "sheet", "settings.toml", "--back", "back.csv", "--drawn", "drawn.csv")
        tally.judge(f"sheet: a sample comes back: {name}", rows_of(text)[1:] if text else said, wanted)
    count = sum(status == "matched" for _, _, status in wanted)
    few = f"sheet: only {count} matched pairs: below 100 the guessed shares may serve better; draw more records"
    tally.judge("sheet: says that a sample has few matched pairs", (count < 100, said.splitlines()[1:]), (True, [few]))
    (folder / "sample.csv").write_text(text, encoding="utf-8")
    settings = [line for line in (folder / "settings.toml").read_text(encoding="utf-8").splitlines() if line[:4] not in ("m = ", "u = ")]
    (folder / "counted.toml").write_text("\n".join(['sample = "sample.csv"', *settings]), encoding="utf-8")
    tally.judge("sheet: the program takes the sample", bench.linkage(folder, "rule", "counted.toml").count("\n"), 1 + 4 * 3**5)
    check_lost(tally, bench, folder, rows, drawn)
    table = [["id_a", "id_b", "status"], *([*pair, "m"] for pair in sorted(truth)[:100])]
    (folder / "back.csv").write_text(text_of(table), encoding="utf-8")
    said = bench.tool(folder, "sheet", "settings.toml", "--back", "back.csv")[2]
    tally.judge("sheet: says nothing of a hundred matched pairs", said, "sheet: 100 matched pairs, 0 unmatched ones\n")


def check_lost(tally: Tally, bench: Bench, folder: Path, rows: list[list[str]], drawn: list[list[str]]) -> None:
    """A sheet that was spoilt on the way is refused, by the row."""
    lost = {
        "no status": [rows[0], ["", *rows[1][1:]], *rows[2:]],
        "a row is lost": [rows[0], *rows[2:]],
        "a pair more": [*rows, ["matched", "R10000", "C10000", *rows[1][3:]]],
        "a pair twice": [*rows, rows[1]],
        "another word": [rows[0], ["perhaps", *rows[1][1:]], *rows[2:]],
    }
    a, b = map(restored, rows[1][1:3])
    at = next(number for number, row in enumerate(drawn, 1) if row[:2] == [a, b])
    says = {
        "no status": f"back.csv: 1 pairs have no status, first {a} and {b}; --undecided leaves them out",
        "a row is lost": f"back.csv: no row of {a} and {b}, row {at} of drawn.csv",
        "a pair more": "back.csv: the pair R10000 and C10000 is not among those of drawn.csv that were to be reviewed",
        "a pair twice": f"back.csv: row {len(rows)}: pair of row 1",
        "another word": "back.csv: row 1: status 'perhaps' is none of matched, unmatched",
    }
    for name, table in lost.items():
        (folder / "back.csv").write_text(text_of(table), encoding="utf-8")
        given = bench.tool(folder, "sheet", "settings.toml", "--back", "back.csv", "--drawn", "drawn.csv")
        tally.judge(f"sheet: refuses a sample: {name}", given, (1, "", f"sheet: {says[name]}\n"))


def check_verdicts(tally: Tally, bench: Bench) -> None:
    """The open pair of the example goes out, comes back, and `review` takes it."""
    folder = bench.example()
    _, text, said = bench.tool(folder, "sheet", "s.toml")
    tally.judge("sheet: the open pair of the example", (text, said), (EXAMPLE_SHEET, "sheet: 1 pairs to be reviewed\n"))
    _, text, said = bench.tool(folder, "sheet", "s.toml", "--unlinked")
    tally.judge("sheet: pairs of which a record has a link are left out", (len(rows_of(text)), said.splitlines()[0]),
                (1, "sheet: 1 pairs are left out of which a record has a link"))
    header, row = rows_of(bench.tool(folder, "sheet", "s.toml", "--weight")[1])
    tally.judge("sheet: the weight, where asked for", dict(zip(header, row))["weight"], "-5")
    (folder / "back.csv").write_text(EXAMPLE_SHEET.replace("\n,", "\nNonlink,"), encoding="cp1252")
    tally.judge("sheet: verdicts come back", bench.tool(folder, "sheet", "s.toml", "--back", "back.csv", "-o", "verdicts.csv"),
                (0, "", "sheet: 1 verdicts; 0 pairs have none yet\n"))
    bench.linkage(folder, "review", "s.toml", "verdicts.csv", "2024-03-06", "ana")
    last = (folder / "journal.csv").read_text(encoding="utf-8").splitlines()[-1]
    tally.judge("sheet: `review` takes the verdicts", last, "4,2024-03-06,ana,single,A4,B3,nonlink")


def check_shown(tally: Tally, bench: Bench) -> None:
    """All columns but the ids, unless asked otherwise, and which pairs in which order, by what `open` prints and the links."""
    folder = bench.register()
    header = {words: rows_of(bench.tool(folder, "sheet", "settings.toml", *words)[1])[0] for words in ((), ("--compared",))}
    compared = ["A surname", "B last_name", "A given", "B first_name", "A birth", "B born", "A birthplace", "B born_in", "A sex", "B sex"]
    tally.judge("sheet: the compared columns alone, where asked for", header["--compared",], ["verdict", "id_a", "id_b", *compared])
    tally.judge("sheet: all columns but the ids", header[()], ["verdict", "id_a", "id_b", *compared, "A town", "B place"])
    waiting = [(a, b, int(weight)) for a, b, _, weight in rows_of(bench.linkage(folder, "open", "settings.toml"))[1:]]
    by_weight = sorted(waiting, key=lambda it: -it[2])
    linked = [row[:2] for row in rows_of((folder / "links.csv").read_text(encoding="utf-8"))[1:]]
    taken_a, taken_b = {a for a, _ in linked}, {b for _, b in linked}
    free = [it for it in by_weight if it[0] not in taken_a and it[1] not in taken_b]
    cases = {"": by_weight, "--order given": waiting, "--unlinked --most 9": free[:9], "--most 5 --order given": waiting[:5],
             "--most 0": []}
    for given, wanted in cases.items():
        _, text, said = bench.tool(folder, "sheet", "settings.toml", "--weight", *given.split())
        rows = [(restored(row[1]), restored(row[2]), int(row[3])) for row in rows_of(text)[1:]]
        tally.judge(f"sheet: which pairs in which order: {given or 'all that wait'}", rows, wanted)
        if given == "--unlinked --most 9":
            told = [f"sheet: {len(waiting) - len(free)} pairs are left out of which a record has a link",
                    f"sheet: {len(free) - 9} pairs are left out, for 9 are asked for, the greatest weights first",
                    "sheet: 9 pairs to be reviewed"]
            tally.judge("sheet: says what it left out", (len(free) > 9, said.splitlines()), (True, told))
    lines = (folder / "a.csv").read_text(encoding="utf-8").splitlines()
    (folder / "a.csv").write_text("".join(f"{line},{'town' if at == 0 else 'x'}\n" for at, line in enumerate(lines)), encoding="utf-8")
    header, row = rows_of(bench.tool(folder, "sheet", "settings.toml", "--most", "1")[1])
    tally.judge("sheet: a column that nobody needs may stand twice", (header[-3:], row[-2]), (["A town", "A town", "B place"], "x"))


def check_hostile(tally: Tally, bench: Bench) -> None:
    """Ids and values that a spreadsheet would change: no cell is a formula, and all come back as they went."""
    folder = bench.hostile()
    wanted = sorted([a, b, "nonlink"] for a in HOSTILE for b in HOSTILE)
    _, text, _ = bench.tool(folder, "sheet", "settings.toml", "--delimiter", "semicolon")
    header, *rows = rows_of(text, ";")
    risky = [cell for row in rows for cell in row if cell and cell.lstrip()[:1] in tuple("=+-@0123456789")]
    tally.judge("sheet: no cell is a formula or a number", (len(rows), risky), (len(HOSTILE) ** 2, []))
    filled = [header, *(["nonlink", *row[1:]] for row in rows)]
    for name, data in {"semicolons": text_of(filled, ";").encode(), "tabs": text_of(filled, "\t").encode("utf-16")}.items():
        (folder / "back.csv").write_bytes(data)
        _, text, said = bench.tool(folder, "sheet", "settings.toml", "--back", "back.csv")
        tally.judge(f"sheet: hostile ids come back: {name}", sorted(rows_of(text)[1:]) or said, wanted)
    (folder / "verdicts.csv").write_text(text, encoding="utf-8", newline="")
    bench.linkage(folder, "review", "settings.toml", "verdicts.csv", "2024-03-06", "ana")
    tally.judge("sheet: `review` takes them", len(rows_of((folder / "journal.csv").read_text(encoding="utf-8"))), 1 + len(wanted))
    tally.judge("sheet: what is guarded is restored", [it for it in HOSTILE if restored(guarded(it)) != it], [])
    for text, line in BACK_REFUSES.items():
        (folder / "back.csv").write_text(text, encoding="utf-8")
        status, printed, said = bench.tool(folder, "sheet", "settings.toml", "--back", "back.csv")
        tally.judge(f"sheet: refuses {text!r}", (status, printed, said.splitlines()[-1]), (1, "", f"sheet: {line}"))


def check(tally: Tally, bench: Bench) -> None:
    """What is asked for of both tools."""
    if asks(tally, "draw"):
        check_places(tally)
        check_draw(tally, bench)
    if asks(tally, "sheet"):
        check_sample(tally, bench)
        check_verdicts(tally, bench)
        check_shown(tally, bench)
        check_hostile(tally, bench)
