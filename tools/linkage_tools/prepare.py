"""Looks at a file before the first run, tells everything that is wrong with it by its rows, and writes a clean copy where asked.

  prepare FILE                                what can be told without settings
  prepare FILE --settings SETTINGS            besides: needed columns, ids, dates by the form that the settings name
  prepare FILE .. -o CLEAN                    a copy that the program can read: UTF-8, one delimiter, LF line ends
  prepare FILE .. -o CLEAN --number COLUMN    with a new column in front, the number of the row, to serve as the id

Under the columns it tells of each column of dates how many the settings' form reads and how many not, in how many of those read day and
month could be exchanged (132 of 365 days of a year), how many each form reads, and how they are written, a 9 for a digit.

A line `refused` tells what the program refuses, a line `look` what it takes, but may be wrong. Rows are counted from 1, under the header,
as the program counts them. The status is 1 where something is refused. What is told of the encoding and the delimiter is a guess by the
bytes and by how many fields the rows have; --encoding and --delimiter say otherwise.

The copy mends the encoding, the delimiter, a line `sep=`, line ends, rows of empty cells, a header that stands again, and empty cells
beyond the header. It does not mend ids, dates, missing fields or values: those are yours. The file itself is never changed.
"""

import re
from argparse import Namespace
from collections import Counter
from collections.abc import Iterator
from datetime import date
from functools import lru_cache
from pathlib import Path
from typing import NamedTuple

from .job import Job
from .settings import Settings
from .tables import Fault, load, records, write_new, written
from .words import Words, give, start, tell
from .writing import SIGNS, Written, written_of

MOST_COLUMNS, MOST_BYTES, MOST_ROWS, MOST_FILE = 64, 255, 100_000, 64 * 2**20
# Unicode's property White_Space, which the program drops at both ends of a date.
WHITE = "\t\n\v\f\r \x85\xa0\u1680" + "".join(map(chr, range(0x2000, 0x200B))) + "\u2028\u2029\u202f\u205f\u3000"
LIKE_MISSING = {"NA", "N.A.", "NAN", "NULL", "NONE", "NIL", "UNKNOWN", "UNK", "#N/A", "#NAME?", ".", "..", "*", "XX", "XXX", "--", "???"}
LINE_END = re.compile("\r\n|\r|\n")
FORMS = ("ymd", "dmy", "mdy")
MOST_SHAPES = 8  # kinds of writing a date that are told of a column


class Finding(NamedTuple):
    """What is wrong: the row, 0 for the header and None for the file; whether the program refuses it; what it is."""

    row: int | None
    is_refused: bool
    what: str

    def line(self, name: str) -> str:
        place = "" if self.row is None else ": header" if self.row == 0 else f": row {self.row}"
        return f"{name}{place}: {'refused' if self.is_refused else 'look'}: {self.what}"


class Looked(NamedTuple):
    """A file as it was read: how it is written, its header, its rows, and the settings and the side that it is looked at for."""

    how: Written
    header: list[str]
    rows: list[list[str]]
    settings: Settings | None
    side: str

    def column(self, name: str) -> int | None:
        """Where a column stands, if it stands there once."""
        return self.header.index(name) if self.header.count(name) == 1 else None

    def needed(self) -> list[str]:
        """The columns that the settings need, that of the id first; without settings the column `id`."""
        if self.settings is None:
            return ["id"] if "id" in self.header else []
        return list(dict.fromkeys([self.settings.ids[self.side], *(field.columns[self.side] for field in self.settings.fields)]))


def of_file(looked: Looked, data: bytes, is_stated: bool) -> Iterator[Finding]:
    """What is wrong with the whole file."""
    how, wanted = looked.how, looked.settings and looked.settings.signs[looked.side]
    if how.encoding != "utf-8":
        sure = "" if is_stated or how.has_mark else " (a guess: look whether names come out right)"
        yield Finding(None, True, f"{how.said()}, and the program reads UTF-8{sure}")
    if how.has_sep:
        yield Finding(None, True, "a line sep= stands before the header")
    if how.sign not in SIGNS or SIGNS[how.sign] == "bar":
        yield Finding(None, True, f"the delimiter is {how.sign!r}, and the program reads comma, semicolon or tab")
    elif wanted and wanted != how.sign:
        yield Finding(None, True, f"the delimiter is {SIGNS[how.sign]}, and the settings say {SIGNS[wanted]}")
    if len(data) > MOST_FILE:
        yield Finding(None, True, f"more than {MOST_FILE} bytes")
    if len(looked.rows) > MOST_ROWS:
        yield Finding(None, True, f"{len(looked.rows)} rows, and the program reads {MOST_ROWS}")


def of_header(looked: Looked) -> Iterator[Finding]:
    """What is wrong with the header."""
    header, needed = looked.header, looked.needed()
    if len(header) > MOST_COLUMNS:
        yield Finding(0, True, f"{len(header)} columns, limit {MOST_COLUMNS}")
    for name, count in Counter(header).items():
        if count > 1:
            yield Finding(0, name in needed, f"column {name!r} stands {count} times")
        if name != name.strip() or not name:
            yield Finding(0, False, f"column {name!r} has blanks at an end, or no name")
    for name in needed:
        near = [it for it in header if it.strip().casefold() == name.strip().casefold()]
        if name not in header:
            yield Finding(0, True, f"no column {name!r}" + (f"; is {near[0]!r} meant?" if near else ""))
    if any(cell and not re.search(r"[^\d\s./-]", cell) for cell in header):
        yield Finding(0, False, "a cell is a number or a date: is this the header, or the first record?")


def of_lengths(looked: Looked) -> Iterator[Finding]:
    """Rows with another number of fields than the header, and headers that stand again."""
    width = len(looked.header)
    for number, row in enumerate(looked.rows, 1):
        if row == looked.header:
            yield Finding(number, False, "the header again")
        elif not any(cell.strip() for cell in row):
            yield Finding(number, True, "only empty cells")
        elif len(row) != width:
            yield Finding(number, True, f"{len(row)} fields, and the header has {width}")


def of_quotes(looked: Looked) -> Iterator[Finding]:
    """Quotes that do not enclose a field, and fields that go over several lines, by a reading field by field (RFC 4180)."""
    text, sign = looked.how.text, looked.how.sign
    field = re.compile(r'(?:"([^"]*(?:""[^"]*)*)("|\Z))?([^%s\r\n]*)' % re.escape(sign))
    number, column, at, goes_on = -1, 0, 0, False
    while '"' in text and (at < len(text) or goes_on):
        if not goes_on and text[at] in "\r\n":
            at += 1
            continue
        number, column = (number, column + 1) if goes_on else (number + 1, 0)
        found = field.match(text, at)
        name = looked.header[column] if column < len(looked.header) else f"field {column + 1}"
        yield from of_quote(number, name, found)
        at = found.end() + 1
        goes_on = text[found.end():at] == sign


def of_quote(number: int, name: str, found: re.Match) -> Iterator[Finding]:
    """What is wrong with the quotes of one field: its content in quotes, the closing quote, and what follows."""
    inside, closing, rest = found.groups()
    if inside is None and '"' in rest:
        yield Finding(number, False, f"{name}: a quote in the midst: {rest[:40]!r}")
    if inside is not None and not closing:
        yield Finding(number, False, f"{name}: the quote is never closed: all up to the end of the file is this field")
    elif inside is not None and rest:
        yield Finding(number, False, f"{name}: text behind the closing quote: {rest[:40]!r}")
    elif inside is not None and re.search("[\r\n]", inside):
        yield Finding(number, False, f"{name}: goes over {len(re.findall(LINE_END, inside)) + 1} lines")


def of_ids(looked: Looked) -> Iterator[Finding]:
    """Ids that are missing, stand twice, or were changed."""
    at = looked.column(looked.needed()[0]) if looked.needed() else None
    first: dict[str, int] = {}
    for number, row in enumerate(looked.rows, 1):
        key = row[at] if at is not None and at < len(row) and row != looked.header else None
        if key is None or not any(cell.strip() for cell in row):
            continue
        if not key:
            yield Finding(number, True, "empty id")
        elif key in first:
            yield Finding(number, True, f"id of row {first[key]}: {key!r}")
        elif key != key.strip():
            yield Finding(number, False, f"the id {key!r} has blanks at an end")
        elif re.fullmatch(r"\d([.,]\d+)?E\+?\d+", key):
            yield Finding(number, False, f"the id {key!r} is a rounded number")
        first.setdefault(key, number)


@lru_cache(maxsize=2**19)
def day_of(text: str, form: str) -> date | None:
    """The day of a text in the order of a form, by docs/SETTINGS.md (What a text becomes); none where it cannot be read."""
    runs = lambda width: tuple(f"(?P<{it}>[0-9]{{{4 if it == 'y' else width}}})" for it in form)
    text = text.strip(WHITE)
    found = re.fullmatch("%s(?P<sign>[-/.])%s(?P=sign)%s" % runs("1,2"), text) or re.fullmatch("%s%s%s" % runs("2"), text)
    try:
        return date(int(found["y"]), int(found["m"]), int(found["d"])) if found else None
    except ValueError:
        return None


class Dates(NamedTuple):
    """A column of dates: its name, the settings' form, its values by row but for missing ones, and how many of these there are."""

    name: str
    form: str
    given: dict[int, str]
    missing: int

    def read(self, form: str) -> list[date]:
        """The days of the values that a form reads."""
        return [it for it in (day_of(cell, form) for cell in self.given.values()) if it is not None]


def date_columns(looked: Looked) -> Iterator[Dates]:
    """The columns of dates that the settings name and the file has."""
    fields = [field for field in looked.settings.fields if field.kind == "date"] if looked.settings else []
    for name, form in dict.fromkeys((field.columns[looked.side], field.forms[looked.side] or "ymd") for field in fields):
        cells = list(numbered(looked, looked.column(name)))
        given = {number: cell for number, cell in cells if cell.strip(WHITE) not in looked.settings.missing}
        yield Dates(name, form, given, len(cells) - len(given))


def date_facts(looked: Looked) -> Iterator[str]:
    """What each column of dates has, by kind: what each form reads, and how it is written, a 9 for a digit and an a for a letter."""
    for it in date_columns(looked):
        read = it.read(it.form)
        either = sum(day.day <= 12 and day.day != day.month for day in read)
        counts = f"{len(read)} read as {it.form}, {len(it.given) - len(read)} unreadable, {it.missing} missing"
        yield f"{it.name}: {counts}; in {either} of those read day and month could be exchanged"
        shapes = Counter(re.sub(r"[^\W\d_]", "a", re.sub("[0-9]", "9", cell.strip(WHITE)[:20])) for cell in it.given.values())
        kinds = [f"{count} as {shape}" for shape, count in shapes.most_common(MOST_SHAPES)]
        more = [f"{len(shapes) - MOST_SHAPES} other kinds"] if len(shapes) > MOST_SHAPES else []
        if kinds:
            yield f"{it.name}: {', '.join(f'{form} reads {len(it.read(form))}' for form in FORMS)}; written {', '.join(kinds + more)}"


def of_dates(looked: Looked) -> Iterator[Finding]:
    """Dates that cannot be read by the form that the settings name, and whether another form would read more."""
    for it in date_columns(looked):
        for number, cell in it.given.items():
            if day_of(cell, it.form) is None:
                yield Finding(number, looked.settings.strict, f"{it.name} is no date of the form {it.form}: {cell[:40]!r}")
        counts = {form: len(it.read(form)) for form in FORMS}
        best = max(FORMS, key=lambda form: counts[form])
        if counts[best] > counts[it.form]:
            what = f"{it.name}: the form {best} reads {counts[best]} of {len(it.given)} dates"
            yield Finding(None, False, f"{what}, {it.form}, as the settings say, {counts[it.form]}")


def numbered(looked: Looked, at: int | None) -> Iterator[tuple[int, str]]:
    """The cells of a column with their rows; none of a row that has more or fewer fields, or that is the header again."""
    for number, row in enumerate(looked.rows, 1):
        if at is not None and len(row) == len(looked.header) and row != looked.header:
            yield number, row[at]


def twice(cell: str) -> str | None:
    """What a cell was before it was taken for Windows-1252 though it was UTF-8, if it was."""
    try:
        return None if cell.isascii() else cell.encode("cp1252").decode("utf-8")
    except UnicodeError:
        return None


def of_values(looked: Looked) -> Iterator[Finding]:
    """Values that are too long, were spoilt on the way, or seem to stand for "not known"."""
    missing = looked.settings.missing if looked.settings else ["", "-", "?", "N/A"]
    for name in looked.needed() if looked.settings else looked.header:
        unknown: dict[str, list[int]] = {}
        for number, cell in numbered(looked, looked.column(name)):
            if len(cell) * 4 > MOST_BYTES and len(cell.encode("utf-8", "surrogateescape")) > MOST_BYTES:
                yield Finding(number, looked.settings is not None, f"{name} is over {MOST_BYTES} bytes: is a quote not closed?")
            if twice(cell):
                yield Finding(number, False, f"{name}: {cell[:40]!r} was converted twice; it was {twice(cell)[:40]!r}")
            if "\ufffd" in cell:
                yield Finding(number, False, f"{name}: {cell[:40]!r} has lost letters: export again")
            if cell.strip().upper() in LIKE_MISSING and cell.strip() not in missing:
                unknown.setdefault(cell.strip(), []).append(number)
        for value, rows in unknown.items():
            where = ", ".join(map(str, rows[:20])) + (" and more" if len(rows) > 20 else "")
            yield Finding(None, False, f"{name}: {value!r} stands in {len(rows)} rows; does it mean missing? (rows {where})")


def findings(looked: Looked, data: bytes, is_stated: bool) -> list[Finding]:
    """All that is wrong, those of the file first, then by rows."""
    found = [*of_file(looked, data, is_stated), *of_header(looked), *of_lengths(looked), *of_quotes(looked), *of_ids(looked),
             *of_dates(looked), *of_values(looked)]
    return sorted(found, key=lambda it: -1 if it.row is None else it.row)


def side_of(words: Namespace, settings: Settings) -> str:
    """The side that a file is looked at for. Fault: it is neither of the settings' files, and --side does not say it."""
    sides = [words.side] if words.side else [side for side in "ab" if Path(settings.files[side]) == words.file]
    if len(sides) != 1:
        raise Fault(f"{settings.name}: {words.file} is not one of its two files; say --side a or --side b", 2)
    return sides[0]


def clean(looked: Looked, name: str, number: str | None) -> tuple[list[list[str]], list[str]]:
    """The rows of a clean copy, header first, and what was left out.

    Fault: a row has other fields than the header, or the new column is there already.
    """
    width, kept, again, empty, cut = len(looked.header), [], 0, 0, 0
    if number is not None and (number in looked.header or not number):
        raise Fault(f"{name}: has a column {number!r} already" if number else "--number needs a name", 2)
    for at, row in enumerate(looked.rows, 1):
        again += row == looked.header
        empty += not any(cell.strip() for cell in row)
        if row == looked.header or not any(cell.strip() for cell in row):
            continue
        if len(row) < width or any(row[width:]):
            raise Fault(f"{name}: row {at}: {len(row)} fields, and the header has {width}: mend it before a copy can be made")
        cut += len(row) > width
        kept.append(row[:width])
    rows = [looked.header, *kept]
    if number is not None:
        rows = [[str(at) if at else number, *row] for at, row in enumerate(rows)]
    left = ((again, "headers that stood again"), (empty, "rows of empty cells"), (cut, "empty cells beyond the header, rows"))
    return rows, [f"{count} {what}" for count, what in left if count]


def tool(given: list[str]) -> int:
    """Looks at a file by the words of the command line: 1 where the program would refuse something."""
    parser = Words("prepare", __doc__)
    parser.add_argument("file", type=Path)
    parser.add_argument("--settings", metavar="SETTINGS", help="the settings of the job")
    parser.add_argument("--side", choices=["a", "b"], help="which of the two files it is, where the settings do not name it")
    parser.add_argument("--encoding", help="as Python names it: cp1252, latin-1, cp850, cp1250, utf-16, ..")
    parser.add_argument("--delimiter", choices=list(SIGNS.values()))
    parser.add_argument("--number", metavar="COLUMN", help="with -o: a new column, the number of the row")
    parser.add_argument("-o", "--out", type=Path, metavar="CLEAN", help="the new file of the clean copy")
    words = parser.parse_args(given)
    settings = Job(words.settings).settings if words.settings else None
    side = side_of(words, settings) if settings else "a"
    name, data = str(words.file), load(words.file)
    how = written_of(name, data, words.encoding, {it: sign for sign, it in SIGNS.items()}.get(words.delimiter))
    header, *rows = list(records(how.text, how.sign))
    looked = Looked(how, header, rows, settings, side)
    found = findings(looked, data, words.encoding is not None)
    delimiter = SIGNS.get(how.sign, repr(how.sign))
    facts = [f"{name}: {it}" for it in (f"{how.said()}, delimiter {delimiter}, {len(rows)} rows", f"columns: {', '.join(header)}",
                                        *date_facts(looked))]
    give("".join(f"{line}\n" for line in [*facts, *(it.line(name) for it in found)]), None)
    refused = sum(it.is_refused for it in found)
    tell("prepare", f"{refused} refused, {len(found) - refused} to be looked at" if found else "nothing found")
    if words.out is not None:
        copy(looked, words)
    return 1 if refused else 0


def copy(looked: Looked, words: Namespace) -> None:
    """Writes the clean copy, and says how."""
    rows, left = clean(looked, str(words.file), words.number)
    sign = looked.settings.signs[looked.side] if looked.settings else ","
    write_new(words.out, written(rows, sign).encode("utf-8", "surrogateescape"))
    tell("prepare", f"{words.out}: {len(rows) - 1} rows, delimiter {SIGNS[sign]}" + (f"; left out: {', '.join(left)}" if left else ""))


if __name__ == "__main__":
    start("prepare", tool)
