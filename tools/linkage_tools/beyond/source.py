"""The two files of the whole: where each record begins, and what identifies it; rows are taken out as bytes, never written anew.

A record is what `csv` reads (RFC 4180), as the program does; that both find the same is asked of the program for each part. Its bytes
go on to where the next begins, so quotes, line ends and columns that nobody needs stay as they are. An id stands for its record by a
hash of 64 bits (pandas' siphash), which is made with another key until no two ids of a file share one: so it is exact.
"""

import csv
import io
import mmap
import os
from collections.abc import Iterable, Iterator
from functools import lru_cache
from pathlib import Path
from typing import BinaryIO, NamedTuple

import numpy as np
from pandas.util import hash_array

from ..tables import MARK, Fault

BLOCK = 100_000  # rows that are taken in before they are written out
KEYS = 8  # keys of the hash that are tried; of 10^8 rows a second one is wanted once in some thousand files
KINDS = {"starts": np.int64, "hashes": np.uint64}


class Source(NamedTuple):
    """A file of the whole, as a task needs to know it; row 0 is the first under the header."""

    side: str  # "a" or "b"
    path: str
    sign: str
    column: str  # of the id
    index: str  # folder of `starts` (rows + 1 numbers: where each row begins, and the end) and `hashes`
    head: tuple[int, int]  # the bytes of the header
    place: int  # of the id in a row
    rows: int
    key: int  # of the hash


class Tap:
    """Lines, one after the other, and how many bytes of them were taken."""

    def __init__(self, lines: Iterable[str], taken: int = 0):
        self.lines, self.taken = iter(lines), taken

    def __iter__(self) -> "Tap":
        return self

    def __next__(self) -> str:
        line = next(self.lines)
        self.taken += len(line)
        return line


def records_at(path: Path | str, sign: str = ",") -> Iterator[tuple[int, int, list[str]]]:
    """The records of a file: where each begins and ends, and its cells as Latin-1, a letter a byte. A byte order mark is none of them."""
    with open(path, "rb") as file:
        begun = len(MARK) if file.read(len(MARK)) == MARK else 0
    with open(path, encoding="latin-1", newline="") as lines:
        lines.read(begun)
        tap = Tap(lines, begun)
        for cells in csv.reader(tap, delimiter=sign):
            if cells:
                yield begun, tap.taken, cells
            begun = tap.taken


def raw_records(path: Path | str) -> Iterator[tuple[bytes, list[str]]]:
    """The records of a comma file that the program wrote: the bytes of each, with its line end, and its cells as Latin-1."""
    with open(path, "rb") as file:
        for begun, ended, cells in records_at(path):
            file.seek(begun)
            yield with_end(file.read(ended - begun)), cells


def hashes_of(ids: Iterable[str], key: int) -> np.ndarray:
    """The hashes of ids as Latin-1, a letter a byte."""
    return hash_array(np.array([it.encode("latin-1") for it in ids] + [None], dtype=object)[:-1], hash_key=f"{key:016}", categorize=False)


class Rows:
    """What a scan has taken in and not yet written out."""

    def __init__(self, files: dict[str, BinaryIO], key: int):
        self.files, self.key, self.count = files, key, 0
        self.starts: list[int] = []
        self.ids: list[str] = []

    def take(self, start: int, name: str) -> None:
        self.starts.append(start)
        self.ids.append(name)
        self.count += 1
        if len(self.ids) == BLOCK:
            self.write()

    def write(self) -> None:
        np.array(self.starts, np.int64).tofile(self.files["starts"])
        hashes_of(self.ids, self.key).tofile(self.files["hashes"])
        self.starts, self.ids = [], []


def header_of(side: str, path: str, sign: str, column: str) -> tuple[tuple[int, int], list[str], int]:
    """The bytes of a file's header, its cells, and the place of the id. Fault: there is none, or no such column."""
    found = next(records_at(path, sign), None)
    if found is None:
        raise Fault(f"{side}: no header")
    begun, ended, cells = found
    name = column.encode().decode("latin-1")
    if cells.count(name) != 1:
        raise Fault(f"{side}: column {column} stands twice" if name in cells else f"{side}: no column {column}")
    return (begun, ended), cells, cells.index(name)


def scan(side: str, path: str, sign: str, column: str, index: str, key: int = 0) -> Source:
    """Reads a file once, a row at a time, and writes where its rows begin. Fault: of a row, or an id that stands twice."""
    head, header, place = header_of(side, path, sign, column)
    Path(index).mkdir(parents=True, exist_ok=True)
    with open(f"{index}/starts.new", "wb") as starts, open(f"{index}/hashes.new", "wb") as hashes:
        rows, last = Rows({"starts": starts, "hashes": hashes}, key), head
        try:
            for begun, ended, cells in records_at(path, sign):
                if begun == head[0]:
                    continue
                if len(cells) != len(header):
                    raise Fault(f"{side}: row {rows.count + 1}: number of fields")
                if "\0" in cells[place]:
                    raise Fault(f"{side}: row {rows.count + 1}: {column} has a byte 0")
                rows.take(begun, cells[place])
                last = (begun, ended)
        except csv.Error as lack:
            raise Fault(f"{side}: row {rows.count + 1}: {lack}: look for a quote that is never closed") from lack
        rows.starts.append(os.path.getsize(path))
        rows.write()
    for name in KINDS:
        os.replace(f"{index}/{name}.new", f"{index}/{name}")
    source = Source(side, path, sign, column, index, head, place, rows.count, key)
    if is_open(source, last):
        raise Fault(f"{side}: row {rows.count}: a quote is never closed")
    return source if ids_differ(source) else scan(side, path, sign, column, index, key + 1)


def is_open(source: Source, last: tuple[int, int]) -> bool:
    """Whether the last record of a file ends within quotes: amid others it would take them in."""
    text = slice_of(source.path, *last).decode("latin-1") + "\nx"
    return len([row for row in csv.reader(io.StringIO(text, newline=""), delimiter=source.sign) if row]) < 2


def slice_of(path: str, begun: int, ended: int) -> bytes:
    with open(path, "rb") as file:
        file.seek(begun)
        return file.read(ended - begun)


@lru_cache(maxsize=8)
def numbers(index: str, name: str) -> np.ndarray:
    """The starts or the hashes of a file, as they lie on the disk."""
    path = f"{index}/{name}"
    return np.memmap(path, KINDS[name], "r") if os.path.getsize(path) else np.zeros(0, KINDS[name])


def id_at(source: Source, row: int) -> str:
    """The id of a row, as Latin-1."""
    starts = numbers(source.index, "starts")
    text = slice_of(source.path, int(starts[row]), int(starts[row + 1])).decode("latin-1")
    return next(csv.reader(io.StringIO(text, newline=""), delimiter=source.sign))[source.place]


def shown_id(source: Source, row: int) -> str:
    """The id of a row as people read it."""
    return id_at(source, row).encode("latin-1").decode("utf-8", "replace")


def ids_differ(source: Source) -> bool:
    """Whether no two rows share a hash; Fault: two rows share an id; no: other ids do, and another key is wanted."""
    numbers.cache_clear()
    hashes = numbers(source.index, "hashes")
    order = np.argsort(hashes, kind="stable")
    same = np.flatnonzero(hashes[order[1:]] == hashes[order[:-1]])
    first: dict[str, int] = {}
    doubles = []
    for row in sorted({int(it) for at in same for it in order[at:at + 2]}):
        name = id_at(source, row)
        if name in first:
            doubles.append((row, first[name]))
        first.setdefault(name, row)
    if doubles:
        raise Fault("{}: row {}: id of row {}".format(source.side, *(it + 1 for it in min(doubles))))
    if len(same) and source.key + 1 == KEYS:
        raise Fault(f"{source.side}: no key parts the ids")
    return not len(same)


def with_end(data: bytes) -> bytes:
    """A record with a line end: the last of a file may lack it."""
    return data if not data or data.endswith((b"\n", b"\r")) else data + b"\n"


def header_bytes(source: Source) -> bytes:
    return with_end(slice_of(source.path, *source.head))


def range_bytes(source: Source, low: int, high: int) -> bytes:
    """The header and the rows from `low` up to `high`, as they stand in the file."""
    starts = numbers(source.index, "starts")
    return header_bytes(source) + (with_end(slice_of(source.path, int(starts[low]), int(starts[high]))) if low < high else b"")


def rows_bytes(source: Source, rows: np.ndarray) -> bytes:
    """The header and some rows, rising, each as it stands in the file."""
    starts = numbers(source.index, "starts")
    with open(source.path, "rb") as file, mmap.mmap(file.fileno(), 0, access=mmap.ACCESS_READ) as data:
        taken = [with_end(data[begun:ended]) for begun, ended in zip(starts[rows].tolist(), starts[rows + 1].tolist())]
    return header_bytes(source) + b"".join(taken)


class Places:
    """Tells the row in the whole file of ids among some of its rows."""

    def __init__(self, source: Source, rows: np.ndarray):
        hashes = numbers(source.index, "hashes")[rows]
        order = np.argsort(hashes)
        self.source, self.hashes, self.rows = source, hashes[order], rows[order]

    def of(self, ids: Iterable[str]) -> np.ndarray:
        """The rows of ids as Latin-1; -1 where there is no such id."""
        wanted = hashes_of(ids, self.source.key)
        at = np.searchsorted(self.hashes, wanted)
        at[at == len(self.hashes)] = 0
        if not len(self.hashes):
            return np.full(len(wanted), -1, np.int64)
        return np.where(self.hashes[at] == wanted, self.rows[at], -1)
