"""Inputs made at random: two small files with their settings, sample, journal, verdicts and capacities."""

import random
from collections.abc import Callable
from dataclasses import dataclass, field
from datetime import date, timedelta

from commands import perform
from tables import records
from values import APART, COMPARES, KEYS, LETTERED

NAMES = "SMITH,Smyth,Schmidt,Dr. Schmidt,MUELLER,Müller,O'Brien,OBrien,Lee,Li,-,,Mac Kay,McKay,KNUTH jr,Østergård,日本,Élise Ann,Élise B"
PIECES = "MR,dr.,Prof,SIR,JR,III,iv,Mac,KN,SCH,PH,PF,EV,EE,IE,ND,RT,DT,-,?,N/A".split(",")
ALPHABETS = ["ABCDEFGHIJKLMNOPQRSTUVWXYZ", "abcdefghijklmnopqrstuvwxyz", "AEIOUHWKNSCHPFMDTRYE", "0123456789²½Ⅳ"]
ALPHABETS += [" .-,'`´ʼ‘’/\t\x1c\u00a0\u200b\u3000", "ßẞÆæŒœØøŁłĐđÐðÞþ", "éèüñÅçİıŞşǅǆﬁŉſ", "αβγΩאבγжЩ日本語한글ཀ"]
ALPHABETS += ["\u0301\u0308\u0327\u20dd\u0903"]
DATES = ["", "-", "?", "31/02/1980", "xx", "1980-1-1-1", "29.02.1900", "00000101", "1980-13-01", "１９８０-01-01", "1/1/80"]
DATES += ["1980-02/03", "03/02-1981", "02.03/1980"]
SIGNS = {"comma": ",", "semicolon": ";", "tab": "\t"}


@dataclass
class Input:
    """The settings as TOML's values, the tables by their roles, header first, and the day and reviewer of new verdicts."""

    plan: dict
    tables: dict[str, list[list[str]]] = field(default_factory=dict)
    texts: dict[str, bytes | None] = field(default_factory=dict)
    day: str = "2024-05-01"
    reviewer: str = "ana"
    words: list[str] = field(default_factory=list)
    signs: dict[str, str] = field(default_factory=dict)

    def held(self, chance: random.Random) -> dict[str, bytes]:
        """What the names hold, each table in one of the ways to write it; `texts` stand in place of what is made wrong as a whole."""
        made = {f"{role}.csv": csv_of(chance, rows, self.signs.get(role, ",")) for role, rows in self.tables.items()}
        return {name: it for name, it in ({"s.toml": toml_of(self.plan)} | made | self.texts).items() if it is not None}


# ---- texts


def some_word(chance: random.Random) -> str:
    """A hard word of at most 255 bytes."""
    pieces = []
    for _ in range(chance.randint(0, 6)):
        letters = "".join(chance.choices(chance.choice(ALPHABETS), k=chance.randint(1, 6)))
        pieces += [chance.choice(PIECES) if chance.random() < 0.3 else letters, chance.choice(["", "", " "])]
    return "".join(pieces)


def csv_of(chance: random.Random, rows: list[list[str]], sign: str) -> bytes:
    """A table as a text, with other columns and in another order, quotes, line ends and a mark as they may stand."""
    extra, quotes = chance.choice([0, 0, 1, 2]) if len(rows[:1] and rows[0]) < 60 else 0, chance.choice([0, 0, 0.3])
    rows = [[*row, *([f"note{at}" if row is rows[0] else chance.choice(["", "x\udcff", 'y"z']) for at in range(extra)])] for row in rows]
    order = chance.sample(range(len(rows[0])), len(rows[0])) if rows and len({len(row) for row in rows}) == 1 else None
    rows = [[row[at] for at in order] for row in rows] if order else rows
    must = lambda it: it[:1] == '"' or any(sign_ in it for sign_ in (sign, "\r", "\n")) or chance.random() < quotes
    quoted = lambda it: '"' + it.replace('"', '""') + '"' if must(it) else it
    ends = chance.choice(["\n", "\n", "\r\n", "\r", "\n\n"])
    text = "".join(sign.join(map(quoted, row)) + ends for row in rows)
    return (chance.choice(["", "", "", "\ufeff"]) + text).encode("utf-8", "surrogateescape")


def toml_of(plan: dict) -> bytes:
    """Settings as TOML."""

    def value(it: object) -> str:
        if isinstance(it, dict):
            return "{ " + ", ".join(f"{key} = {value(inner)}" for key, inner in it.items()) + " }"
        if isinstance(it, list):
            return "[" + ", ".join(map(value, it)) + "]"
        escape = lambda char: char if char >= " " and char not in '"\\\x7f' else f"\\u{ord(char):04X}"
        return '"' + "".join(map(escape, it)) + '"' if isinstance(it, str) else str(it).lower()

    return "".join(f"{key} = {value(it)}\n" for key, it in plan.items()).encode("utf-8", "surrogateescape")


# ---- an input without a fault


def some_date(chance: random.Random, form: str, is_strict: bool) -> str:
    if not is_strict and chance.random() < 0.15:
        return chance.choice(DATES)
    wide = chance.random() < 0.8
    numbers = {"y": str(chance.choice([1955, 1980, 1981])), "m": str(chance.randint(1, 3)), "d": str(chance.randint(1, 5))}
    runs = [numbers[it].zfill(2) if wide else numbers[it] for it in form]
    return chance.choice(["-", "/", ".", "" if wide else "-"]).join(runs)


def some_field(chance: random.Random, name: str, is_sampled: bool) -> dict:
    """A field of any kind of comparison."""
    kind = chance.choice(["name", "name", "place", "date"])
    made: dict = {"name": name, "kind": kind}
    made |= {side: chance.choice(["ymd", "dmy", "mdy"]) for side in ("form_a", "form_b") if kind == "date"}
    made |= {f"column_{side}": f"{chance.choice(['last name', 'Straße', 'x;y', 'a,b'])} {name}" for side in "ab" if chance.random() < 0.2}
    made["compare"] = chance.choice(COMPARES[kind == "date"])
    if made["compare"] in LETTERED:
        made["n"] = chance.randint(1, 4)
    if made["compare"] in APART:
        made["t"] = chance.randint(0, APART[made["compare"]] // 900 or 1)
    elif chance.random() < 0.4:
        made["rare"] = chance.randint(2, 6)
    if not is_sampled:
        width = 4 if "rare" in made else 3
        for it in "mu":
            cuts = [0, *sorted(chance.sample(range(1, 1024), width - 1)), 1024]
            made[it] = [high - low for low, high in zip(cuts, cuts[1:])]
    return made


def some_part(chance: random.Random, of: dict) -> dict:
    key = chance.choice(KEYS[of["kind"] == "date"])
    return {"field": of["name"], "key": key} | ({"n": chance.randint(1, 3)} if key in LETTERED else {})


def some_plan(chance: random.Random) -> dict:
    """Settings of any kind."""
    may = lambda share, key, make: {key: make()} if chance.random() < share else {}
    plan = {"file_a": "a.csv", "file_b": "b.csv"} | may(0.5, "sample", lambda: "sample.csv") | may(0.7, "journal", lambda: "journal.csv")
    for side in "ab":
        plan |= may(0.3, f"id_{side}", lambda: chance.choice(["person", "Nr.", "last name surname"]))
        plan |= may(0.4, f"delimiter_{side}", lambda: chance.choice(list(SIGNS)))
    plan |= {it: chance.choice([0, 40, 1000, 20_000, 200_000, 500_000, 1_000_000]) for it in ("mu_ppm", "lambda_ppm")}
    plan |= may(0.7, "seed", lambda: chance.choice([0, 7, 2**63 - 1]))
    plan |= may(0.7, "award", lambda: chance.choice([0, 1000, chance.randint(1, 60)]))
    plan |= may(0.15, "strict", lambda: True) | may(0.6, "double", lambda: chance.random() < 0.9)
    plan |= may(0.2, "missing", lambda: chance.choice([[], ["-", "LI"], ["Lee", "?", ""]]))
    plan |= may(0.2, "titles", lambda: ["DR", "MAC"]) | may(0.2, "suffixes", lambda: ["B", "ANN"])
    plan |= may(0.3, "names", lambda: {"MUELLER": "MULLER", "MULLER": "MILLER", "LI": "LEE"}) | may(0.2, "places", lambda: {"LEE": "LEIGH"})
    count = chance.choice([1, 2, 2, 3, 3, 4]) if chance.random() < 0.97 else chance.choice([5, 6])
    plan["field"] = [some_field(chance, name, "sample" in plan) for name in ["surname", "given", "birth", "town", "f_5", "f_6"][:count]]
    some_parts = lambda: [some_part(chance, one) for one in chance.sample(plan["field"], chance.choice([1, 1, min(2, count)]))]
    plan["pass"] = [{"parts": some_parts()} for _ in range(chance.randint(1, 3))]
    return plan


def some_people(chance: random.Random, plan: dict, side: str, ids: str) -> list[list[str]]:
    """A file of people; fields that have one column share its cells."""
    key = plan.get(f"id_{side}", "id")
    columns = {key: None} | {one.get(f"column_{side}", one["name"]): one for one in plan["field"]} | {key: None}
    style = chance.choice([ids + "%d", ids + "%d", "%d", '%d "' + ids + '"', "%d," + ids, "é%d\n" + ids])
    rows = [list(columns)]
    for at in chance.sample(range(30), chance.choice([0, 1, 3, 6, 9, 12, chance.randint(0, 20)])):
        cell = lambda one: some_date(chance, one[f"form_{side}"], plan.get("strict", False)) if one["kind"] == "date" else some_name(chance)
        rows.append([cell(one) if one else style % at for one in columns.values()])
    return rows


def some_name(chance: random.Random) -> str:
    return chance.choice(NAMES.split(",")) + (chance.choice([" ", "x", "s", "-Anne", " II"]) if chance.random() < 0.15 else "")


def some_sample(chance: random.Random, pairs: list[list[str]]) -> list[list[str]]:
    drawn = chance.sample(pairs, min(len(pairs), chance.randint(2, 20)))
    said = chance.sample(["matched", "unmatched"], 2) + chance.choices(["matched", "unmatched"], k=len(drawn))
    return [["id_a", "id_b", "status"], *([*pair, it] for pair, it in zip(drawn, said))]


def some_journal(chance: random.Random, some_pair: Callable[[], list[str]] | None, has_step: bool) -> list[list[str]]:
    """A journal of the first or the second version."""
    day, rows, last = date(2024, 2, 27), [["number", "date", "reviewer", "id_a", "id_b", "verdict"]], {}
    for number in range(1, chance.randint(1, 16) if some_pair else 1):
        day += timedelta(chance.choice([0, 0, 1, 30]))
        pair, reviewer = some_pair(), chance.choice(["ana", "ben", 'J. "X", jr'])
        verdict = chance.choice(["link", "link", "nonlink", "open"])
        step = "single" if verdict == "open" else chance.choice(["single", "first"])
        if last.get(tuple(pair), "")[:1] == ("first",) and last[tuple(pair)][2] != reviewer and chance.random() < 0.7:
            step, verdict = "confirm", last[tuple(pair)][1]
        last[tuple(pair)] = step, verdict, reviewer
        rows.append([str(number), str(day), reviewer, *pair, verdict, step])
    return [[*row, "step"] if row is rows[0] else row for row in rows] if has_step else [row[:6] for row in rows]


def some_input(chance: random.Random) -> Input:
    """An input without a fault, but for ids of a sample that `duplicates` does not find in A."""
    while True:
        made = Input(some_plan(chance))
        made.signs = {side: SIGNS[made.plan.get(f"delimiter_{side}", "comma")] for side in "ab"}
        ids = chance.choice(["AB", "AB", "AA"])
        made.tables |= {side.lower(): some_people(chance, made.plan, side.lower(), it) for side, it in zip("AB", ids)}
        of_a, of_b = ([row[0] for row in made.tables[side][1:]] for side in "ab")
        pairs = [[x, y] for x in of_a for y in of_b]
        if "sample" not in made.plan or len(pairs) > 1:
            break
    made.tables["sample"] = some_sample(chance, pairs) if len(pairs) > 1 else [["id_a", "id_b", "status"]]
    rows = compared_of(chance, made)
    possible = [row[:2] for row in rows if row[5] == "possible"]
    near = [it for it in (possible, possible, [row[:2] for row in rows], pairs) if it]
    some_pair = lambda: chance.choice(chance.choice(near))
    has_step = chance.random() < 0.6
    made.tables["journal"] = some_journal(chance, some_pair if near else None, has_step)
    again = [row[3:5] for row in made.tables["journal"][1:] if row[3:5] in possible]
    batch = chance.choices(possible + 3 * again, k=chance.randint(0, 4)) if possible else []
    made.tables["verdicts"] = [["id_a", "id_b", "verdict"], *([*it, chance.choice(["link", "link", "nonlink", "open"])] for it in batch)]
    counted = [[it, str(chance.choice([0, 1, 2, 3, 1000]))] for it in chance.sample(of_b, chance.randint(0, len(of_b)))]
    made.tables["capacities"] = [["id_b", "capacity"], *counted]
    made.day = chance.choice([made.tables["journal"][-1][1], "2026-12-31"]) if len(made.tables["journal"]) > 1 else made.day
    made.reviewer = chance.choice(["ana", "ben", "Ö, \"q\""])
    return made


def compared_of(chance: random.Random, made: Input) -> list[list[str]]:
    """The rows of pairs.csv of an input whose journal is not made yet."""
    held = Input({key: it for key, it in made.plan.items() if key != "journal"}, made.tables, signs=made.signs).held(chance)
    text = perform(["run", "s.toml"], held).puts.get("pairs.csv", b"")
    return [[cell.decode() for cell in row] for row in records(text)[1:]]
