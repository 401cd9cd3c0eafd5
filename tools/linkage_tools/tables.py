"""Tables as the program reads and writes them, all cells as text, and the faults that a tool tells."""

import csv
import io
import re
from collections.abc import Iterable, Iterator
from dataclasses import dataclass
from pathlib import Path

MARK = b"\xef\xbb\xbf"  # the byte order mark of UTF-8
csv.field_size_limit(2**27)


class Fault(Exception):
    """Why a tool ends without its work, in one line: `FILE: row N: cause`, or `FILE: cause`, or the cause alone.

    The status is 1 where an input is at fault, and 2 where the words of the command line are.
    """

    def __init__(self, text: str, status: int = 1):
        super().__init__(text)
        self.text, self.status = text, status


def load(path: Path) -> bytes:
    """The bytes of a file. Fault: it cannot be read."""
    try:
        return path.read_bytes()
    except OSError as lack:
        raise Fault(f"{path}: {lack.strerror}") from lack


def records(text: str, sign: str = ",") -> Iterator[list[str]]:
    """The records of a text (RFC 4180). A quote counts at the start of a field alone; an empty line is no record."""
    return (row for row in csv.reader(io.StringIO(text, newline=""), delimiter=sign) if row)


def text_of(data: bytes) -> str:
    """The text of bytes, without a byte order mark. Bytes that are no UTF-8 are kept: `is_text` tells of them, `shown` replaces them."""
    return data.removeprefix(MARK).decode("utf-8", "surrogateescape")


def is_text(cell: str) -> bool:
    """Whether a cell was UTF-8."""
    return cell.isascii() or re.search("[\ud800-\udfff]", cell) is None


def shown(cell: str) -> str:
    """A cell as it can be shown: a byte that is no UTF-8 becomes the sign of replacement, U+FFFD."""
    return cell if is_text(cell) else cell.encode("utf-8", "surrogateescape").decode("utf-8", "replace")


@dataclass(frozen=True)
class Table:
    """A header and the rows under it. Row 1 is the first under the header, as in the lines of the program."""

    name: str
    header: list[str]
    rows: list[list[str]]

    def place(self, column: str) -> int:
        """Where a column stands. Fault: it is missing, or stands twice."""
        if self.header.count(column) != 1:
            raise Fault(f"{self.name}: column {column} stands twice" if column in self.header else f"{self.name}: no column {column}")
        return self.header.index(column)

    def cells(self, columns: Iterable[str]) -> list[tuple[str, ...]]:
        """The cells of some columns, row by row. Fault: a column is missing or stands twice, a cell is no UTF-8."""
        names = list(columns)
        places = [self.place(name) for name in names]
        found = [tuple([row[at] for at in places]) for row in self.rows]
        for number, cells in enumerate(found, 1):
            for name, cell in zip(names, cells):
                if not is_text(cell):
                    raise Fault(f"{self.name}: row {number}: {name} is not UTF-8")
        return found


def table_of(name: str, data: bytes, sign: str = ",") -> Table:
    """The table of bytes. Fault: there is no header, or a row has more or fewer fields than it."""
    found = list(records(text_of(data), sign))
    if not found:
        raise Fault(f"{name}: no header")
    for number, row in enumerate(found[1:], 1):
        if len(row) != len(found[0]):
            raise Fault(f"{name}: row {number}: number of fields")
    return Table(name, found[0], found[1:])


def read_table(path: Path, sign: str = ",") -> Table:
    """The table of a file. Fault: as of `load` and `table_of`."""
    return table_of(str(path), load(path), sign)


def field_text(cell: str, sign: str = ",") -> str:
    """A cell as it stands in a file with a delimiter: in quotes where it must be."""
    return '"' + cell.replace('"', '""') + '"' if re.search(f'[{sign}"\r\n]', cell) else cell


def written(rows: Iterable[Iterable[object]], sign: str = ",") -> str:
    """Rows as the text of a file with LF line ends. A row of one empty cell is written as two quotes, for an empty line is no row."""
    lines = (sign.join(field_text(str(cell), sign) for cell in row) for row in rows)
    return "".join(f"{line or chr(34) * 2}\n" for line in lines)


def write_new(path: Path, data: bytes) -> None:
    """Writes a file that is not there yet. Fault: it is there, so that no tool writes over an input; or it cannot be written."""
    try:
        with path.open("xb") as file:
            file.write(data)
    except FileExistsError as lack:
        raise Fault(f"{path}: is there already; name a new file") from lack
    except OSError as lack:
        raise Fault(f"{path}: {lack.strerror}") from lack
