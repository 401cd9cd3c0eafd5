"""How a file is written that comes from a spreadsheet or an export: its encoding, its delimiter, a line `sep=`.

The program reads UTF-8 alone and guesses nothing. What is guessed here is said to the user, who may say otherwise.
"""

import codecs
import re
from dataclasses import dataclass

from .tables import Fault, records

MARKS = {codecs.BOM_UTF8: "utf-8", codecs.BOM_UTF16_LE: "utf-16-le", codecs.BOM_UTF16_BE: "utf-16-be"}
NAMES = {"utf-8": "UTF-8", "utf-16-le": "UTF-16", "utf-16-be": "UTF-16", "cp1252": "Windows-1252"}
SIGNS = {",": "comma", ";": "semicolon", "\t": "tab", "|": "bar"}
NO_TEXT = {b"PK\x03\x04": "a spreadsheet or an archive (zip)", b"\x1f\x8b": "packed by gzip", b"%PDF": "a PDF",
           b"\xd0\xcf\x11\xe0": "a spreadsheet of old (xls)", b"<": "a page or XML", b"{": "JSON", b"SQLite": "a database"}
MANY = 2_000  # records by which a delimiter is told


@dataclass(frozen=True)
class Written:
    """The text of a file, its encoding, whether it has a mark in front, and its delimiter, told by a line `sep=` or by the rows."""

    text: str
    encoding: str
    has_mark: bool
    sign: str
    has_sep: bool

    def said(self) -> str:
        """The encoding in words."""
        return NAMES.get(self.encoding, self.encoding) + (" with a byte order mark" if self.has_mark else "")


def encoding_of(data: bytes) -> str:
    """The encoding of bytes without a mark: UTF-16 where every second of the first bytes is zero, UTF-8 where it is, else Windows-1252."""
    front = data[:200]
    if front and front.count(0) * 3 > len(front):
        return "utf-16-le" if front[1::2].count(0) >= front[::2].count(0) else "utf-16-be"
    try:
        data.decode("utf-8")
        return "utf-8"
    except UnicodeDecodeError:
        return "cp1252"


def decoded(name: str, data: bytes, encoding: str | None = None) -> tuple[str, str, bool]:
    """The text of bytes, its encoding, whether there was a mark. Fault: the bytes are no text, or not of the encoding.

    Five bytes have no letter in Windows-1252, so a file with one of them is of another encoding, which the user must name.
    """
    for front, what in NO_TEXT.items():
        if data.startswith(front):
            raise Fault(f"{name}: is {what}, no CSV file: save it as CSV in UTF-8")
    mark = next((it for it in MARKS if data.startswith(it)), b"")
    found = encoding or MARKS.get(mark) or encoding_of(data)
    try:
        return data.removeprefix(mark).decode(found), found, mark != b""
    except UnicodeDecodeError as lack:
        line = data[: lack.start].count(b"\n") + 1
        raise Fault(f"{name}: line {line}: byte {data[lack.start]:02x} is none of {NAMES.get(found, found)}: name the encoding") from lack
    except LookupError as lack:
        raise Fault(f"there is no encoding {found}", 2) from lack


def sign_of(text: str) -> str:
    """The delimiter by which most of the first rows have as many fields as the header; of equal ones that of most fields."""
    best, rank = ",", (0.0, 1)
    for sign in SIGNS:
        rows = [row for row, _ in zip(records(text, sign), range(MANY))]
        width = len(rows[0]) if rows else 1
        if width > 1:
            share = sum(len(row) == width for row in rows) / len(rows)
            best, rank = max((best, rank), (sign, (share, width)), key=lambda it: it[1])
    return best


def written_of(name: str, data: bytes, encoding: str | None = None, sign: str | None = None) -> Written:
    """How a file is written, by its bytes, where the user does not say it. Fault: as of `decoded`, or there is nothing in it."""
    text, found, has_mark = decoded(name, data, encoding)
    stated = re.match(r'"?sep=(.)"?(?:\r\n|\r|\n|\Z)', text)
    text = text[stated.end():] if stated else text
    if not text.strip():
        raise Fault(f"{name}: no header")
    return Written(text, found, has_mark, sign or (stated[1] if stated else sign_of(text)), stated is not None)
