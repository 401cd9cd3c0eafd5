"""Tables: the records of a CSV text, the columns of it that are needed, and the first thing that is wrong with them."""

import re
from functools import lru_cache

MOST_BYTES, MOST_WRITTEN_BYTES, MOST_COLUMNS, MOST_FIELD_BYTES, MOST_ROWS = 64 * 2**20, 128 * 2**20, 64, 255, 100_000
QUOTED, BROKEN = re.compile('[,"\r\n]'), re.compile('["\r\n]')  # what a field is put in quotes for, with and without the comma


class Refused(Exception):
    """A refusal: the exit status, and the text of its fault."""

    def __init__(self, status: int, text: str):
        super().__init__(text)
        self.status, self.text = status, text


def refuse_if(is_so: object, status: int, text: str) -> None:
    """Refuses where something is so."""
    if is_so:
        raise Refused(status, text)


def load(held: dict[str, bytes], name: str, role: str, limit: int = MOST_BYTES) -> bytes:
    """What a name holds; refused where it holds nothing, or more than a load may have."""
    refuse_if(name not in held, 6, f"store: {name}")
    refuse_if(len(held[name]) > limit, 5, f"{role}: more than {limit} bytes")
    return held[name]


@lru_cache(256)
def records(data: bytes, delimiter: bytes = b",") -> list[list[bytes]]:
    """The records of a text after one byte order mark (RFC 4180). A quote counts at the start of a field alone; what follows
    the closing one belongs to the field, and one that is never closed ends with the text. Empty lines are no records."""
    data = data.removeprefix(b"\xef\xbb\xbf")
    field = re.compile(rb'(?:"([^"]*(?:""[^"]*)*)(?:"|\Z))?([^%b\r\n]*)' % delimiter)
    found, at, goes_on = [], 0, False
    while at < len(data) or goes_on:
        if not goes_on and data[at] in b"\r\n":
            at += 1
            continue
        if not goes_on:
            found.append([])
        match = field.match(data, at)
        found[-1].append((match[1] or b"").replace(b'""', b'"') + match[2])
        at = match.end() + 1
        goes_on = data[match.end() : at] == delimiter
    return found


def text_of(rows: list) -> bytes:
    """Rows as a CSV text: fields are quoted where they must be, and each row ends with a line feed."""
    quoted = lambda it: '"' + it.replace('"', '""') + '"' if QUOTED.search(it) else it

    def line(row: list) -> str:
        cells = list(map(str, row))
        plain = ",".join(cells)
        return plain if plain.count(",") < len(cells) and not BROKEN.search(plain) else ",".join(map(quoted, cells))

    return "".join(line(row) + "\n" for row in rows).encode()


def table(data: bytes, role: str, columns: list[str], key: str | None = None, sign: bytes = b",", most: int = MOST_ROWS) -> list[list[str]]:
    """The needed columns of the rows under the header, that of the key first; or the first fault, of the header or of a row."""
    found, needed = records(data, sign), [*([] if key is None else [key]), *columns]
    refuse_if(not found, 4, f"{role}: no header")
    header, names = found[0], [it.encode() for it in needed]
    for column, name in zip(needed, names):
        refuse_if(header.count(name) > 1, 4, f"{role}: column {column} stands twice")
    for column, name in zip(needed, names):
        refuse_if(name not in header, 4, f"{role}: no column {column}")
    refuse_if(len(header) > MOST_COLUMNS, 5, f"{role}: {len(header)} columns, limit {MOST_COLUMNS}")
    places, rows, first = [header.index(name) for name in names], [], {}
    for number, record in enumerate(found[1:], 1):
        refuse_if(number > most, 5, f"{role}: more than {most} rows")
        refuse_if(len(record) != len(header), 4, f"{role}: row {number}: number of fields")
        cells = [record[at] for at in places]
        for column, cell in zip(needed, cells):
            refuse_if(cell.decode("utf-8", "ignore").encode() != cell, 4, f"{role}: row {number}: {column} is not UTF-8")
        for column, cell in zip(needed, cells):
            refuse_if(len(cell) > MOST_FIELD_BYTES, 5, f"{role}: row {number}: {column} is over {MOST_FIELD_BYTES} bytes")
        if key is not None:
            refuse_if(not cells[0], 4, f"{role}: row {number}: empty id")
            refuse_if(cells[0] in first, 4, f"{role}: row {number}: id of row {first.get(cells[0])}")
            first[cells[0]] = number
        rows.append([cell.decode() for cell in cells])
    return rows
