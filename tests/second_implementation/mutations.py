"""What is made wrong with an input: each fault that small inputs can reach, by its kind, and changes by chance."""

import random
import re
from collections.abc import Callable, Iterator
from itertools import product

from commands import perform
from inputs import Input, toml_of
from settings import OUTPUTS, TOP
from values import COMPARES, KEYS

Change = Callable[[random.Random, Input], bool]
Rows = list[list[str]]
WHATS, LEVELS = ("unknown key", "missing key", "wrong type at", "out of range at"), ("top", "field", "pass", "part")
OF_LEVEL = {"top": [*TOP, "Seed", "zz"], "pass": ["parts", "part", "a"], "part": ["field", "key", "n", "N", "a"]}
OF_LEVEL["field"] = "name column_a column_b kind form_a form_b compare n t rare m u mu a n t rare".split()
ANY = [True, 0, -1, 1, 2, 21, 101, 200_001, 36_501, 10**6 + 1, 2**63 - 1, 1.5, "", "a.csv", "b.csv", "pairs.csv"]
ANY += ["x" * 256, "é" * 127, "é" * 128, "comma", "date", "ymd", "surname", "Name"]
ANY += dict.fromkeys(word for table in (COMPARES, KEYS) for words in table.values() for word in words)
ANY += [[], [1], ["A"] * 201, ["A"] * 50, ["a"], ["A", 1], [1, 2, 1021], [512, 511, 1, 0], [0, 512, 512], [1, "a", 3], ["é" * 33], {}]
ANY += [{"a": "B"}, {"B": "b", "A": 1}, {"B": 2, "A": "a"}, [{}], [{}] * 9]
ANY += [{f"W{at}": "X" for at in range(1001)}, [[{}]], [{"parts": []}], [{"parts": [{}] * 5}], ["W" * 33], [True, 512, 511]]
# What stands at the bounds of a key, and one past them.
EDGES = {"rare": [1, 2, 200_000, 200_001], "n": [0, 1, 20, 21], "t": [-1, 0, 100, 101, 36_500, 36_501], "award": [-1, 0, 1000, 1001]}
EDGES |= {"seed": [-1, 0, 2**63 - 1], **{it: [-1, 0, 10**6, 10**6 + 1] for it in ("mu_ppm", "lambda_ppm")}}
EDGES |= {"missing": [[], ["x" * 64], ["x" * 65], ["x"] * 50, ["x"] * 51], "parts": [[], [{}] * 5], "name": ["a" * 33, "A", ""]}
EDGES |= {it: [[], ["A" * 32], ["A" * 33], [""], ["A"] * 200, ["A"] * 201] for it in ("titles", "suffixes")}
EDGES |= {it: [{}, {f"W{at}": "X" for at in range(1000)}, {f"W{at}": "X" for at in range(1001)}] for it in ("names", "places")}
EDGES |= {it: ["", "x" * 255, "x" * 256, "é" * 128] for it in ("file_a", "id_a", "id_b", "sample", "journal", "column_a", "column_b")}
BAD = {"number": ["01", "0"], "date": ["2024-2-30", "2020-01-01"], "reviewer": [""], "step": ["second", "confirm", "first"]}
BAD |= {"verdict": ["no", "open"], "id_a": ["nobody"], "id_b": ["nobody", ""], "status": ["yes"], "capacity": ["1001", "01"]}
READ_BY = {"a": "pairs", "b": "pairs", "sample": "rule", "journal": "open", "verdicts": "review", "capacities": "many"}
NO_TOML = [b"x", b"a = 1\na = 2", b"seed = 9223372036854775808", b"\xff = 1", b"a = {", b'"\x01" = 1', b"a = 01"]
COMMANDS = "run verify pairs rule open migrate duplicates many review frontier generate keys help --help Run".split() + [""]
WORDS = ["s.toml", "s.toml", "a.csv", "2024-05-01", "2024-02-30", "ana", "", "x" * 256, "0", "01", "5", "5", "1000001", "100001", *OUTPUTS]


def kind_of(fault: str) -> str:
    """A fault without what differs from input to input: numbers, columns, and of a key of the settings all but its level."""
    key = re.fullmatch("settings: (.*? (?:key|at)) (.*)", fault, re.S)
    if key:
        levels = (("part", r"pass\.\d+\.parts\.\d+"), ("pass", r"pass\.\d+"), ("field", r"field\.\d+"), ("top", ""))
        return f"settings: {key[1]} " + next(level for level, path in levels if re.match(rf"{path}(\.|$)" if path else "", key[2]))
    fault = re.sub("(?<=row )[0-9]+|[0-9]+(?= columns)", "N", fault)
    fault = re.sub("(column) .*( stands twice)$|(no column) .*$", r"\1\3 COLUMN\2", fault, flags=re.S)
    return re.sub("row N: .* is (not UTF-8|over 255 bytes|no date)$", r"row N: COLUMN is \1", fault, flags=re.S)


def copied(made: Input) -> Input:
    """An input that may be changed without the first."""
    copy = lambda it: {k: copy(v) for k, v in it.items()} if isinstance(it, dict) else [copy(v) for v in it] if isinstance(it, list) else it
    return Input(copy(made.plan), copy(made.tables), dict(made.texts), made.day, made.reviewer, made.words, made.signs)


# ---- faults of the settings, of whole files, of rows


def tables_of(plan: dict, level: str) -> list[dict]:
    """The tables of a level of the settings."""
    parts = [part for one in plan["pass"] for part in one["parts"]]
    return {"top": [plan], "field": plan["field"], "pass": plan["pass"], "part": parts}[level]


def change_key(chance: random.Random, plan: dict, level: str) -> None:
    """Drops a key of a table of a level of the settings, or gives it any value."""
    table, key = chance.choice(tables_of(plan, level)), chance.choice(OF_LEVEL[level])
    table.pop(key, None)
    if chance.random() < 0.8:
        table[key] = chance.choice(EDGES[key] if key in EDGES and chance.random() < 0.5 else ANY)


def at_bounds(made: Input) -> Iterator[dict]:
    """The settings of an input with one key at one of its bounds or past it, where the key belongs."""
    for level in LEVELS:
        for place, table in enumerate(tables_of(made.plan, level)):
            keys = [it for it in EDGES if it in table or it in TOP and level == "top" or it in ("rare", "column_a") and level == "field"]
            for key, edge in ((key, edge) for key in keys for edge in EDGES[key]):
                plan = copied(made).plan
                tables_of(plan, level)[place][key] = edge
                yield plan


def of_settings(fault: str, level: str) -> Change:
    """Changes one key until the settings have a fault of a kind."""

    def change(chance: random.Random, made: Input) -> bool:
        for _ in range(400):
            plan = copied(made).plan
            change_key(chance, plan, level)
            if kind_of(perform(["pairs", "s.toml"], {"s.toml": toml_of(plan)}).fault) == fault:
                made.plan = plan
                return True
        return False

    return change


def of_text(role: str, *texts: bytes | None) -> Change:
    """Puts another text in the place of a file, or takes it away."""
    name = "s.toml" if role == "settings" else f"{role}.csv"
    return lambda chance, made: made.texts.update({name: chance.choice(texts)}) is None


def of_rows(role: str, does: Callable[[random.Random, Rows], object], least: int = 0) -> Change:
    """Changes a table, header first, of which at least so many rows stand under the header."""
    return lambda chance, made: len(made.tables[role]) > least and does(chance, made.tables[role]) is not False


def cell(role: str, column: str, *texts: str) -> Change:
    """Sets a cell of a column, or of any where none is named."""

    def does(chance: random.Random, rows: Rows) -> bool:
        at = rows[0].index(column) if column in rows[0] else chance.randrange(len(rows[0]))
        chance.choice(rows[1:])[at] = chance.choice(texts)
        return column in ("", *rows[0])

    return of_rows(role, does, 1)


def double_column(chance: random.Random, rows: Rows) -> None:
    """Doubles a column."""
    at = chance.randrange(len(rows[0]))
    rows[:] = [[*row, row[at]] for row in rows]


def rename_column(chance: random.Random, rows: Rows) -> None:
    """Renames a column."""
    at = chance.randrange(len(rows[0]))
    rows[0][at] = chance.choice([rows[0][at] + "x", rows[0][at] + " ", ""])


def widen(chance: random.Random, rows: Rows) -> None:
    """Adds columns past the limit."""
    more = chance.choice([65, 66]) - len(rows[0])
    rows[:] = [[*row, *["x"] * more] for row in rows]


def cut_or_lengthen(chance: random.Random, rows: Rows) -> None:
    """Adds or drops a cell of a row."""
    row = chance.choice(rows[1:])
    row[1:] = chance.choice([row[1:-1], [*row[1:], "x"]])


def double_id(chance: random.Random, rows: Rows) -> None:
    """Gives a row the first cell of another."""
    one, other = chance.sample(rows[1:], 2)
    one[0] = other[0]


def one_status(status: str) -> Callable[[random.Random, Rows], object]:
    """Gives all rows of a sample one status."""
    return lambda _, rows: rows.__setitem__(slice(1, None), [[*row[:2], status] for row in rows[1:]])


def unreadable_date(side: str) -> Change:
    """A date that cannot be read, where settings are strict."""

    def change(chance: random.Random, made: Input) -> bool:
        columns = [one.get(f"column_{side}", one["name"]) for one in made.plan["field"] if one["kind"] == "date"]
        made.plan["strict"] = True
        return bool(columns) and cell(side, chance.choice(columns), "xx", "31/02/1980", "1980-1-1-1")(chance, made)

    return change


def earlier_day(_: random.Random, made: Input) -> bool:
    """The day of new verdicts before those of the journal."""
    made.day = "2000-01-01"
    return len(made.tables["journal"]) > 1 and len(made.tables["verdicts"]) > 1


def any_verdict(chance: random.Random, made: Input) -> bool:
    """A verdict on any pair, which is seldom a possible link."""
    ids = [[row[0] for row in made.tables[side][1:]] for side in "ab"]
    made.tables["verdicts"].append([*(chance.choice(it or [""]) for it in ids), "link"])
    return all(ids)


def any_words(chance: random.Random, made: Input) -> bool:
    """Words that are seldom a command."""
    made.words = [chance.choice(COMMANDS), *chance.choices(WORDS, k=chance.choice([0, 1, 1, 2, 3, 4]))]
    return perform(made.words, {}).status == 2


def spoil_row(chance: random.Random, rows: Rows) -> None:
    """Makes two cells of a row wrong, so that the order of their faults shows."""
    row = chance.choice(rows[1:] or rows)
    for at in chance.sample(range(len(row)), min(2, len(row))):
        row[at] = chance.choice(BAD.get(rows[0][at], [""]) + ["e" * 256, "\udcff"][: chance.choice([0, 0, 2])])


FAULTS: dict[str, Change] = {"usage": any_words, "store: s.toml": of_text("settings", None)}
FAULTS |= {"settings: not TOML": of_text("settings", *NO_TOML)}
FAULTS |= {f"settings: {what} {level}": of_settings(f"settings: {what} {level}", level) for what, level in product(WHATS, LEVELS)}
for role in "a b sample journal verdicts capacities".split():
    FAULTS |= {
        f"store: {role}.csv": of_text(role, None),
        f"{role}: no header": of_text(role, b"\n", b"\r\n\r", b"\xef\xbb\xbf", b"\xef\xbb\xbf\n"),
        f"{role}: column COLUMN stands twice": of_rows(role, double_column),
        f"{role}: no column COLUMN": of_rows(role, rename_column),
        f"{role}: N columns, limit 64": of_rows(role, widen),
        f"{role}: row N: number of fields": of_rows(role, cut_or_lengthen, 1),
        f"{role}: row N: COLUMN is not UTF-8": cell(role, "", "\udcff", "A\udcc3", "\udced\udca0\udc80", "e" * 256 + "\udcff"),
        f"{role}: row N: COLUMN is over 255 bytes": cell(role, "", "e" * 256, "é" * 128),
    }
for role in ("a", "b", "capacities"):
    FAULTS[f"{role}: row N: empty id"] = of_rows(role, lambda chance, rows: chance.choice(rows[1:]).__setitem__(0, ""), 1)
    FAULTS[f"{role}: row N: id of row N"] = of_rows(role, double_id, 2)
FAULTS |= {f"{side}: row N: COLUMN is no date": unreadable_date(side) for side in "ab"}
for role, column in product(("sample", "journal", "verdicts"), ("id_a", "id_b")):
    FAULTS[f"{role}: row N: unknown {column}"] = cell(role, column, "nobody", "")
FAULTS |= {
    "sample: row N: status": cell("sample", "status", "yes", "Matched", ""),
    "sample: row N: pair of row N": of_rows("sample", lambda chance, rows: rows.append([*chance.choice(rows[1:])[:2], "matched"]), 1),
    "sample: no matched pair": of_rows("sample", one_status("unmatched")),
    "sample: no unmatched pair": of_rows("sample", one_status("matched")),
    "journal: row N: number": cell("journal", "number", "01", "0", "", "99"),
    "journal: row N: date": cell("journal", "date", "2024-2-30", "2024-02-30", "0000-01-01", "2024/01/01", "20240101"),
    "journal: row N: date goes back": of_rows("journal", lambda _, rows: rows[-1].__setitem__(1, "2024-02-01"), 2),
    "journal: row N: no reviewer": cell("journal", "reviewer", ""),
    "journal: row N: verdict": cell("journal", "verdict", "no", "Link", ""),
    "journal: row N: step": cell("journal", "step", "second", "", "confirm", "first"),
    "verdicts: row N: verdict": cell("verdicts", "verdict", "no", "LINK", ""),
    "verdicts: row N: not a possible pair": any_verdict,
    "verdicts: row N: date goes back": earlier_day,
    "capacities: row N: unknown id_b": cell("capacities", "id_b", "nobody"),
    "capacities: row N: capacity": cell("capacities", "capacity", "007", "-1", "1001", "", "1.0", "٣"),
}


# ---- changes of texts by chance


def changed_text(chance: random.Random, text: bytes, of_settings_file: bool = False) -> bytes:
    """A text in which one thing is another by chance: a byte, a line, or where it ends."""
    at, lines, which = chance.randint(0, len(text)), text.splitlines(keepends=True), chance.randrange(8)
    other = bytes([chance.choice(b'abn019."=[]{} _-#T\xff\x00' if of_settings_file else b'abA019,;\t\r\n"" _-\xff\x00')])
    if which < 3 or not lines:
        return text[:at] + other + text[at + chance.choice([0, 1]) :]
    if which < 6:
        return text[:at] + (text[at + 1 :] if which < 5 else b"")
    line, place = chance.choice(lines), chance.randrange(len(lines))
    return b"".join([*lines[:place], *([line] if which == 6 else []), *lines[place + (which == 7) :]])


def changed_written(chance: random.Random, held: dict[str, bytes]) -> dict[str, bytes]:
    """What names hold, where something of the written rule, links or prices is another."""
    tables = {name: [line.split(",") for line in held[name].decode().splitlines()] for name in OUTPUTS[:4]}
    name, which = chance.choice(OUTPUTS[1:4]), chance.randrange(9)
    rows, row = tables[name], chance.choice(tables[name][1:] or tables[name])
    numbers = [at for at, it in enumerate(row) if it.lstrip("-").isdigit()] or [0]
    if which == 0:
        row[chance.randrange(len(row))] = chance.choice(["0", "1", "01", "+1", "1000001", "", "x", row[-1] + " "])
    elif which == 1 and row[numbers[0]].isdigit():
        row[chance.choice(numbers[:1])] = str(int(row[numbers[0]]) + chance.choice([-1, 1]))
    elif which == 2:
        rows.remove(row)
    elif which == 3:
        rows.insert(chance.randint(1, len(rows)) if rows else 0, row)
    elif which == 4:
        row.append("x")
    elif which in (5, 6):  # prices of one sum, of which one is more and another less
        name = "prices.csv"
        for one, change in zip(chance.sample(tables[name][1:], min(2, len(tables[name]) - 1)), (1, -1)):
            one[-1] = str(int(one[-1]) + change) if one[-1].isdigit() else one[-1]
    elif which == 7:  # a link by the rule that was not chosen, in its place
        name, found = "links.csv", [[*it[:2], it[4], it[4], "rule"] for it in tables["pairs.csv"][1:] if it[-2:] == ["link", ""]]
        kept = [it for it in tables[name] if it[-1] == "review"]
        tables[name] = [tables[name][0], *(it for it in found if it in tables[name] or chance.random() < 0.3), *kept]
    else:
        return held | {name: changed_text(chance, held[name])}
    return held | {name: "".join(",".join(it) + "\n" for it in tables[name]).encode()}
