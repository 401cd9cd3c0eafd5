"""What tools/beyond does within one process, tried without the engine: cutting, refusals, packing. It needs Debian's pandas and scipy.

usage: parts.py PROGRAM FOLDER

Prints a table in JSON: a part, what it came to, what is wanted. What is wanted is worked out by hand or from the definition.
"""

import json
import sys
from pathlib import Path

sys.dont_write_bytecode = True
sys.path.insert(0, str(Path(__file__).resolve().parent.parent.parent / "tools"))
import numpy as np  # noqa: E402
from linkage_tools.beyond import source as sources  # noqa: E402
from linkage_tools.beyond.parts import plan_of, too_large  # noqa: E402
from linkage_tools.beyond.runs import Kept, Ranges, Work, check, compared, settings_text  # noqa: E402
from linkage_tools.beyond.source import Source, range_bytes, rows_bytes, scan  # noqa: E402
from linkage_tools.job import Cell  # noqa: E402
from linkage_tools.tables import Fault  # noqa: E402

# Eight rows: a byte order mark, all line ends, empty lines, line ends and delimiters within quotes, quotes amid a field, no end.
HOSTILE = [b'\n1;"Eva\nMaria";1980-01-01\n', b'2;Jan "Jo" K;1980-01-02\r', b'"3";"x;""y""";1980-01-03\r\n', b"\r\n\n",
           b"4;;1980-01-04\n", "5;Müller;1980-01-05\n".encode(), b"6;\xff;1980-01-06\r\n", b"7;a\"b;1980-01-07\n\r\n", b"8;last;1980-01-08"]
MARK, HEAD = b"\xef\xbb\xbf", b"id;notes;birth\r\n"
SETTINGS = """file_a = "a.csv"
file_b = "b.csv"
delimiter_a = "semicolon"
mu_ppm = 100
lambda_ppm = 1000
strict = true
[[field]]
name = "birth"
kind = "date"
form_a = "ymd"
form_b = "ymd"
compare = "exact"
m = [1000, 14, 10]
u = [14, 1000, 10]
[[pass]]
parts = [{ field = "birth", key = "year" }]
"""


def fault_of(name: str, data: bytes, folder: Path, column: str = "id") -> str:
    """What a scan of a comma file says."""
    (folder / name).write_bytes(data)
    try:
        return f"{scan('a', str(folder / name), ',', column, str(folder / f'{name}.index')).rows} rows"
    except Fault as fault:
        return fault.text


def work_over(program: str, folder: Path, found: dict[str, Source]) -> Work:
    return Work(program, SETTINGS, 1, found, str(folder), str(folder), 3, (0,))


def cutting(folder: Path, program: str) -> list[tuple[str, object, object]]:
    """Each cut of a file gives its bytes, and the program reads as many rows."""
    (folder / "h.csv").write_bytes(MARK + HEAD + b"".join(HOSTILE))
    found = scan("a", str(folder / "h.csv"), ";", "id", str(folder / "h.index"))
    (folder / "e.csv").write_bytes(b"id,birth\n")
    empty = scan("b", str(folder / "e.csv"), ",", "id", str(folder / "e.index"))
    body = b"".join(HOSTILE).removeprefix(b"\n") + b"\n"
    parts = [range_bytes(found, 0, at).removeprefix(HEAD) + range_bytes(found, at, 8).removeprefix(HEAD) for at in range(9)]
    given = [("bytes of two parts", set(parts), {body}), ("rows of a hostile file", found.rows, 8)]
    some = HEAD + HOSTILE[1] + b'"3";"x;""y""";1980-01-03\r\n\r\n\n' + HOSTILE[8] + b"\n"
    given.append(("some rows", rows_bytes(found, np.array([1, 2, 7])), some))
    work = work_over(program, folder, {"a": found, "b": empty})
    for at in range(9):
        for low, high in ((0, at), (at, 8)):
            check(work, Ranges(low, high, 0, 0), str(folder / "checked"))
    given.append(("the program reads as many", True, True))
    return given


SCANNED = {
    "a short row": (b"id,x\n1,a\n\n2\n3,b,c\n", "a: row 2: number of fields"),
    "an id twice, far apart": (b"id,x\n" + b"".join(b"%d,\n" % at for at in range(1000)) + b"17,\n5,\n", "a: row 1001: id of row 18"),
    "an id in quotes, twice": (b'id,x\n"a",\nb,\na,\n', "a: row 3: id of row 1"),
    "a quote never closed": (b'id,x\n1,a\n2,"b\n3,c\n', "a: row 2: a quote is never closed"),
    "no header": (b"\n\n", "a: no header"),
    "no such column": (b"ID,x\n1,a\n", "a: no column id"),
    "a column twice": (b"id,id\n1,a\n", "a: column id stands twice"),
    "a byte 0 in an id": (b"id,x\n1,a\n2\0,b\n", "a: row 2: id has a byte 0"),
    "no rows": (b"id,x", "0 rows"),
}


def limits(folder: Path, program: str) -> list[tuple[str, object, object]]:
    """Parts of too many pairs are cut in two, and a row at fault is told by its place in the whole."""
    (folder / "p.csv").write_bytes(b"id;birth\n" + b"".join(b"%d;1980-01-%02d\n" % (at, 1 + at % 28) for at in range(1500)))
    (folder / "q.csv").write_bytes(b"id,birth\n" + b"".join(b"%d,1980-01-%02d\n" % (at, 1 + at % 28) for at in range(1400)))
    found = {"a": scan("a", str(folder / "p.csv"), ";", "id", str(folder / "p.index")),
             "b": scan("b", str(folder / "q.csv"), ",", "id", str(folder / "q.index"))}
    kept, calls = compared(work_over(program, folder, found), Ranges(0, 1500, 0, 1400))
    pairs = {(a, b) for a in range(1500) for b in range(1400) if a % 28 == b % 28}
    given = [("pairs over a limit: all", int(kept.counts.sum()), 1500 * 1400), ("pairs over a limit: calls", calls, 3),
             ("pairs over a limit: kept", set(zip(kept.a.tolist(), kept.b.tolist())) == pairs and len(kept.a) == len(pairs), True)]
    (folder / "p.csv").write_bytes((folder / "p.csv").read_bytes().replace(b"\n1234;1980-01-03\n", b"\n1234;1980-01-40\n"))
    try:
        compared(work_over(program, folder, found), Ranges(1000, 1400, 0, 100))
    except Fault as fault:
        given.append(("a broken row in a later part", fault.text, "a: row 1235: birth is no date"))
    return given


def packing() -> list[tuple[str, object, object]]:
    """Components {A0,A2,B1}, {A1,B0,B3}, {A4,B4}, {A5,B5}; A3 and B2 stand alone. The first takes two rows of A, the second two of B."""
    kept = Kept(*(np.array(it) for it in ([2, 0, 1, 1, 4, 5], [1, 1, 0, 3, 4, 5], [0, 0, 0, 0, 0, 0])), np.zeros(1))
    plan = plan_of(kept, 6, 6, 3, 100)
    rows = [[it.tolist() for it in plan.rows(int(low), int(high))] for low, high in zip(plan.jobs, plan.jobs[1:])]
    few = plan_of(kept, 6, 6, 100, 3)
    return [("jobs of at most three rows", rows, [[[0, 1, 2], [0, 1, 3]], [[4, 5], [4, 5]]]),
            ("jobs of at most three kept pairs", few.jobs.tolist(), [0, 1, 3, 4]),
            ("kept pairs of components", plan.pairs.tolist(), [2, 2, 1, 1])]


def too_many(folder: Path) -> list[tuple[str, object, object]]:
    """Three links of weight 100 that two pairs of weight 20 join: without these each finds room in a job of one row.

    Of 1,024^2 = 1,048,576 the patterns AD and DD have 100,000 + 48,576, which is 141,693.1 in a million.
    """
    kept = Kept(*(np.array(it) for it in ([0, 1, 2, 0, 1], [0, 1, 2, 1, 2], [0, 0, 0, 1, 1])), np.zeros(1))
    rule = [Cell(0, "AA", 900_000, 1, 100, 65536, 0, 0), Cell(1, "AD", 100_000, 100, 20, 0, 65536, 0),
            Cell(4, "DD", 48_576, 1, -50, 0, 0, 65536)]
    found = {}
    for side in "ab":
        (folder / f"t{side}.csv").write_bytes(b"id,x\nk,\nl,\nm,\n")
        found[side] = scan(side, str(folder / f"t{side}.csv"), ",", "id", str(folder / f"t{side}.index"))
    said = too_large(folder, plan_of(kept, 3, 3, 1, 100), 0, kept, found, rule, 1).text
    wanted = ("3 records of A and 3 of B hang together by 5 possible links or links, too many for a job (1 rows): among them k of A "
              f"(row 1) and k of B (row 1), all in {folder}/too_large.csv; their patterns are AA (weight 100) 3, AD (weight 20) 2: with "
              "patterns of a weight below 100 as non-links, which lambda_ppm = 141694 makes them, all find room; or compare by more fields")
    rows = "row_a,row_b,pattern\n1,1,0\n2,2,0\n3,3,0\n1,2,1\n2,3,1\n"
    return [("a component too large, and its cure", said, wanted), ("its pairs", (folder / "too_large.csv").read_text(), rows)]


def other_key(folder: Path) -> list[tuple[str, object, object]]:
    """Where two ids share a hash, another key is taken."""
    (folder / "c.csv").write_bytes(b"id,x\n" + b"".join(b"%d,\n" % at for at in range(50)))
    right = sources.hashes_of
    sources.hashes_of = lambda ids, key: right(ids, key) % np.uint64(7 if key == 0 else 2**62)
    try:
        found = scan("a", str(folder / "c.csv"), ",", "id", str(folder / "c.index"))
    finally:
        sources.hashes_of = right
    return [("two ids with one hash", found.key, 1)]


def settings() -> list[tuple[str, object, object]]:
    """The keys of the file that a part has of its own; the rest stays as it is written."""
    text = '# mine\nfile_a = "x.csv"  # the first\nseed = 5\njournal = "j.csv"\n\n[[field]]\nname = "a"\n'
    wanted = '# mine\nfile_a = "a.csv"  # the first\nseed = 7\n\n[[field]]\nname = "a"\n'
    return [("settings of a part", settings_text(text, file_a="a.csv", journal=None, seed=7), wanted)]


def main() -> None:
    program, folder = sys.argv[1], Path(sys.argv[2])
    given = cutting(folder, program)
    given += [(f"scan: {name}", fault_of(f"s{at}.csv", data, folder), wanted) for at, (name, (data, wanted)) in enumerate(SCANNED.items())]
    given += limits(folder, program) + packing() + too_many(folder) + other_key(folder) + settings()
    print(json.dumps([[name, repr(it), repr(wanted)] for name, it, wanted in given]))


if __name__ == "__main__":
    main()
