"""Shows pairs to people in a spreadsheet, both records side by side, and reads what comes back.

  sheet SETTINGS                       the possible links that wait (`linkage open`), with an empty column `verdict`
  sheet SETTINGS --unlinked --most N   of these the N of greatest weight of which neither record has a link
  sheet SETTINGS PAIRS                 the pairs of a file: what `draw` wrote, or what `linkage open` printed
  sheet SETTINGS --back FILE           verdicts for `linkage review`, or, where FILE has a column `status`, a sample
  sheet SETTINGS --back FILE --drawn D the sample of D, which `draw` wrote, with the statuses of FILE

The columns are those that are compared, as they stand in the two files, `A surname` beside `B last_name`, and behind them all others but
the ids, for people are to decide with all that is known; --compared leaves these out. Pairs that need no look (a status stands there
already) are not shown. The weight is shown by --weight alone, for people are to decide without it. What waits stands by weight, the
greatest first, the pairs of a file as they stand there, since `draw` drew them in that order; --order says otherwise.

A spreadsheet takes some cells for formulas, numbers or dates, and changes them: 007 becomes 7. So a cell that begins with = + - @, an
apostrophe or a digit, and an id that it might take for a date, has an apostrophe in front; on the way back it is taken off again.
What comes back may have commas, semicolons or tabs, any order of columns and rows, columns of your own; in UTF-8, UTF-16 or Windows-1252.
A row without a verdict is left out; one without a status is refused, or left out with --undecided.
In a sample that was drawn by records and at random, the unmatched pairs of the records are left out, for u is that of the random ones.
A sample of fewer than 100 matched pairs is made, and a line says that guessed shares may serve better.
"""

import re
from argparse import Namespace
from pathlib import Path
from typing import NamedTuple

from .job import OUTPUTS, STATUSES, VERDICTS, Job, Pair, whole
from .tables import Fault, Table, load, read_table, records, shown, written
from .words import Words, count_of, give, start, tell
from .writing import SIGNS, written_of

RISKY = re.compile(r"[\s]*['=+\-@0-9.,(%\t\r]|(?:true|false)\Z|[^\W\d_]{3,9}[ .-]?\d{1,4}\Z", re.IGNORECASE)
# Of a sample drawn by records and at random: `u` is that of the random pairs, `m` that of the records.
LEFT_OUT = (("record", "unmatched"), ("random", "matched"))
WORDS_OF = {"status": STATUSES, "verdict": VERDICTS}
LEAST_MATCHED = 100  # matched pairs of a sample, below which guessed shares may serve better: docs/SETTINGS.md, How large


def guarded(cell: str) -> str:
    """A cell as a spreadsheet leaves it alone: with an apostrophe in front where it would take it for something else than text."""
    return "'" + cell if RISKY.match(cell) else cell


def restored(cell: str) -> str:
    """The cell of which `guarded` made this one."""
    return cell.removeprefix("'")


# Out.


class Shown(NamedTuple):
    """A pair to be reviewed, and its weight in eighths of a bit where that is known."""

    pair: Pair
    weight: int | None


def columns(job: Job, is_all: bool) -> list[tuple[str, int]]:
    """Side and place of the columns to show: those of each field side by side, and, if asked for, all others but the ids after them."""
    tables = {side: getattr(job, side).table for side in "ab"}
    found = [(side, tables[side].place(field.columns[side])) for field in job.settings.fields for side in "ab"]
    if is_all:
        ids = [(side, tables[side].place(job.settings.ids[side])) for side in "ab"]
        found += [it for side in "ab" for it in ((side, at) for at in range(len(tables[side].header))) if it not in ids]
    return list(dict.fromkeys(found))


def shown_rows(job: Job, pairs: list[Pair], is_all: bool) -> tuple[list[str], list[list[str]]]:
    """The header of the shown columns, and for each pair the cells of both records."""
    sides = {"a": (job.a, 0), "b": (job.b, 1)}
    places = [(*sides[side], at) for side, at in columns(job, is_all)]
    rows = [[shown(side.row(pair[which])[at]) for side, which, at in places] for pair in pairs]
    return [f"{'AB'[which]} {side.table.header[at]}" for side, which, at in places], rows


def pairs_shown(job: Job, words: Namespace) -> tuple[str, list[Shown], int]:
    """Whether a status or a verdict is wanted, the pairs, and how many need no look. Fault: of the file of pairs."""
    if words.pairs is None:
        return "verdict", [Shown(it.pair, it.weight) for it in job.open()], 0
    table = read_table(words.pairs)
    kind = "status" if "status" in table.header else "verdict"
    cells = [cell for cell, in table.cells(["weight"])] if "weight" in table.header else [""] * len(table.rows)
    weights = [whole(table.name, number, cell) if cell else None for number, cell in enumerate(cells, 1)]
    done = [cell for cell, in table.cells([kind])] if kind in table.header else [""] * len(table.rows)
    pairs = [job.known(table.name, number, pair) for number, pair in enumerate(table.cells(["id_a", "id_b"]), 1)]
    kept = [Shown(pair, weight) for pair, weight, cell in zip(pairs, weights, done) if not cell]
    return kind, kept, len(pairs) - len(kept)


def unlinked(job: Job, found: list[Shown]) -> list[Shown]:
    """Those pairs of which neither record has a link in links.csv; it says how many others there are.

    Fault: the written files are not of now.
    """
    job.must_be_of_now()
    links = [it.pair for it in job.links()]
    taken_a, taken_b = {a for a, _ in links}, {b for _, b in links}
    kept = [it for it in found if it.pair[0] not in taken_a and it.pair[1] not in taken_b]
    tell("sheet", f"{len(found) - len(kept)} pairs are left out of which a record has a link")
    return kept


def first_of(found: list[Shown], words: Namespace) -> list[Shown]:
    """The pairs in the order that is asked for, and as many of them; it says how many others there are."""
    order = words.order or ("given" if words.pairs else "weight")
    if order == "weight":
        found = sorted(found, key=lambda it: -it.weight)
    kept = found if words.most is None else found[:words.most]
    if len(kept) < len(found):
        tell("sheet", f"{len(found) - len(kept)} pairs are left out, for {words.most} are asked for"
             + (", the greatest weights first" if order == "weight" else ""))
    return kept


def out(job: Job, words: Namespace) -> None:
    """Writes the sheet, and says what is in it."""
    kind, found, done = pairs_shown(job, words)
    if (words.weight or words.order == "weight") and any(it.weight is None for it in found):
        raise Fault(f"{words.pairs}: no column weight")
    found = first_of(unlinked(job, found) if words.unlinked else found, words)
    header, rows = shown_rows(job, [it.pair for it in found], not words.compared)
    table = [[kind, "id_a", "id_b", *(["weight"] if words.weight else []), *map(guarded, header)]]
    for it, cells in zip(found, rows):
        table.append(["", *map(guarded, it.pair), *([str(it.weight)] if words.weight else []), *map(guarded, cells)])
    give(written(table, words.delimiter), words.out, with_mark=True)
    tell("sheet", f"{len(found)} pairs to be reviewed" + (f"; {done} need no look" if done else ""))


# Back.


def table_back(path: Path) -> Table:
    """The table of a file that comes from a spreadsheet; rows of empty cells are none. Fault: a row has more fields than the header."""
    how = written_of(str(path), load(path))
    header, *rows = list(records(how.text, how.sign))
    header = [name.strip() for name in header]
    for number, row in enumerate(rows, 1):
        if any(row[len(header):]):
            raise Fault(f"{path}: row {number}: number of fields")
    return Table(str(path), header, [(row + [""] * len(header))[: len(header)] for row in rows])


def id_back(job: Job, table: Table, row: int, side: str, cell: str) -> str:
    """The id of a cell. Fault: the file has none; where a spreadsheet took its zeros, it says which it may have been."""
    records_of = getattr(job, side)
    for key in (restored(cell), cell, restored(cell).strip()):
        if key in records_of.at:
            return key
    bare = restored(cell).strip().lstrip("0")
    near = [key for key in records_of.ids if key.lstrip("0") == bare]
    lost = f"; a spreadsheet may have changed {near[0]!r}" if near else ""
    raise Fault(f"{table.name}: row {row}: unknown id_{side} {restored(cell)!r}{lost}")


def word_back(table: Table, row: int, kind: str, cell: str) -> str:
    """The status or verdict of a cell, in capitals or not, or by its first letter; empty where there is none. Fault: it is another word."""
    said = restored(cell).strip().lower()
    found = [word for word in WORDS_OF[kind] if said in (word, word[0])]
    if said and not found:
        raise Fault(f"{table.name}: row {row}: {kind} {cell!r} is none of {', '.join(WORDS_OF[kind])}")
    return found[0] if said else ""


def answers(job: Job, table: Table, kind: str) -> dict[Pair, str]:
    """What came back: the word of each pair, empty where there is none. Fault: of a row, or a pair that stands twice."""
    found: dict[Pair, str] = {}
    row_of: dict[Pair, int] = {}
    for number, (id_a, id_b, cell) in enumerate(table.cells(["id_a", "id_b", kind]), 1):
        if not (id_a or id_b or cell):
            continue
        pair = id_back(job, table, number, "a", id_a), id_back(job, table, number, "b", id_b)
        if pair in found:
            raise Fault(f"{table.name}: row {number}: pair of row {row_of[pair]}")
        found[pair], row_of[pair] = word_back(table, number, kind, cell), number
    return found


def filled(job: Job, drawn: Path, said: dict[Pair, str], back: str) -> list[tuple[Pair, str, str]]:
    """The pairs of a drawn file: why each was drawn, and its status, filled in. Fault: a pair that went out did not come back, or came
    back though it did not go out."""
    table = read_table(drawn)
    why = [cell for cell, in table.cells(["drawn"])] if "drawn" in table.header else ["compared"] * len(table.rows)
    found, waiting = [], dict(said)
    for number, ((id_a, id_b, status), kind) in enumerate(zip(table.cells(["id_a", "id_b", "status"]), why), 1):
        pair = job.known(table.name, number, (id_a, id_b))
        if not status and pair not in waiting:
            raise Fault(f"{back}: no row of {id_a} and {id_b}, row {number} of {table.name}")
        found.append((pair, kind, status or waiting.pop(pair)))
    if waiting:
        a, b = next(iter(waiting))
        raise Fault(f"{back}: the pair {a} and {b} is not among those of {table.name} that were to be reviewed")
    return found


def sample_back(job: Job, words: Namespace, said: dict[Pair, str]) -> list[list[str]]:
    """The rows of a sample. Fault: a pair has no status."""
    back = str(words.back)
    rows = filled(job, words.drawn, said, back) if words.drawn else [(pair, "compared", status) for pair, status in said.items()]
    empty = [pair for pair, _, status in rows if not status]
    if empty and not words.undecided:
        raise Fault(f"{back}: {len(empty)} pairs have no status, first {empty[0][0]} and {empty[0][1]}; --undecided leaves them out")
    kept = [it for it in rows if it[2]]
    near, far = (sum(it[1:] == kind for it in kept) for kind in LEFT_OUT)
    kept = [it for it in kept if it[1:] not in LEFT_OUT]
    count = {status: sum(it[2] == status for it in kept) for status in STATUSES}
    tell("sheet", f"{count['matched']} matched pairs, {count['unmatched']} unmatched ones"
         + (f"; left out: {near} unmatched ones of the records, {far} matched ones at random" if near or far else "")
         + (f"; {len(empty)} undecided" if empty else ""))
    if count["matched"] < LEAST_MATCHED:
        few = f"only {count['matched']} matched pairs: below {LEAST_MATCHED} the guessed shares may serve better"
        tell("sheet", f"{few}; draw more records")
    return [["id_a", "id_b", "status"], *([*pair, status] for pair, _, status in kept)]


def back(job: Job, words: Namespace) -> None:
    """Makes a sample or a file of verdicts of what came back."""
    table = table_back(words.back)
    kind = "status" if "status" in table.header else "verdict"
    said = answers(job, table, kind)
    if kind == "status":
        give(written(sample_back(job, words, said)), words.out)
        return
    given = {pair: verdict for pair, verdict in said.items() if verdict}
    tell("sheet", f"{len(given)} verdicts; {len(said) - len(given)} pairs have none yet")
    if said and not given:
        raise Fault(f"{words.back}: no verdict")
    give(written([["id_a", "id_b", "verdict"], *([*pair, verdict] for pair, verdict in given.items())]), words.out)


def tool(given: list[str]) -> None:
    """Shows pairs, or reads what comes back, by the words of the command line."""
    parser = Words("sheet", __doc__)
    parser.add_argument("settings", help="the settings of the job; run where the program runs")
    parser.add_argument("pairs", nargs="?", type=Path, help="a file of pairs; else what `linkage open` prints")
    parser.add_argument("-o", "--out", type=Path, metavar="FILE", help="the new file; else it is printed")
    parser.add_argument("--compared", action="store_true", help="show only the columns that are compared")
    parser.add_argument("--weight", action="store_true", help="show the weight, in eighths of a bit")
    parser.add_argument("--unlinked", action="store_true", help="only the pairs of which neither record has a link in links.csv")
    parser.add_argument("--most", type=count_of, metavar="N", help="at most so many pairs, the first of the order")
    parser.add_argument("--order", choices=["weight", "given"], help="by weight, the greatest first, or as they were given")
    parser.add_argument("--delimiter", choices=[name for name in SIGNS.values() if name != "bar"], default="comma")
    parser.add_argument("--back", type=Path, metavar="FILE", help="what came back from the spreadsheet")
    parser.add_argument("--drawn", type=Path, metavar="D", help="with --back: the file of `draw` that the sheet was made of")
    parser.add_argument("--undecided", action="store_true", help="with --back: leave out pairs without a status")
    words = parser.parse_args(given)
    words.delimiter = {name: sign for sign, name in SIGNS.items()}[words.delimiter]
    if words.back is None and (words.drawn or words.undecided) or words.back is not None and words.pairs is not None:
        raise Fault("--drawn and --undecided go with --back, which takes no file of pairs; see sheet -h", 2)
    if words.out is not None and words.out.name in OUTPUTS:
        raise Fault(f"{words.out}: is a file that linkage run writes", 2)
    job = Job(words.settings)
    if words.back is None:
        out(job, words)
    else:
        back(job, words)


if __name__ == "__main__":
    start("sheet", tool)
