"""`prepare`: files as spreadsheets and exports write them, and files damaged at random."""

import random
import re
import shutil
from pathlib import Path

from jobs import Bench, asks
from tally import ROOT, Tally

SMALL = ROOT / "tests/tools/small"  # two files of seven and eight records, by four fields
# A file with all that can be wrong, and what is wrong with it, row by row, by hand.
BAD = '''id,Surname,given ,birth,town
r1,Lindqvist,Eva,1984-07-19,Uppsala
r2,van der Berg, Jan,Jan,1959-11-02,Leiden
r3,Okafor,Chinwe,1991-03
r4,Nov"ák,Petr,08.12.1972,Brno
r1,NovÃ¡k,Petr,1972-13-08,NULL
,x,y,,
,,,,
id,Surname,given ,birth,town
r7 ,"a
b"c,2,30.2.1900,"x
r8,1
'''
BAD_LINES = """bad.csv: UTF-8, delimiter comma, 9 rows
bad.csv: columns: id, Surname, given , birth, town
bad.csv: birth: 1 read as ymd, 3 unreadable, 2 missing; in 0 of those read day and month could be exchanged
bad.csv: birth: ymd reads 1, dmy reads 1, mdy reads 1; written 2 as 9999-99-99, 1 as 99.99.9999, 1 as 99.9.9999
bad.csv: look: town: 'NULL' stands in 1 rows; does it mean missing? (rows 5)
bad.csv: header: look: column 'given ' has blanks at an end, or no name
bad.csv: header: refused: no column 'given'; is 'given ' meant?
bad.csv: row 2: refused: 6 fields, and the header has 5
bad.csv: row 3: refused: 4 fields, and the header has 5
bad.csv: row 4: look: Surname: a quote in the midst: 'Nov"ák'
bad.csv: row 4: look: birth is no date of the form ymd: '08.12.1972'
bad.csv: row 5: refused: id of row 1: 'r1'
bad.csv: row 5: look: birth is no date of the form ymd: '1972-13-08'
bad.csv: row 5: look: Surname: 'NovÃ¡k' was converted twice; it was 'Novák'
bad.csv: row 6: refused: empty id
bad.csv: row 7: refused: only empty cells
bad.csv: row 8: look: the header again
bad.csv: row 9: look: Surname: text behind the closing quote: 'c'
bad.csv: row 9: look: town: the quote is never closed: all up to the end of the file is this field
bad.csv: row 9: look: the id 'r7 ' has blanks at an end
bad.csv: row 9: look: birth is no date of the form ymd: '30.2.1900'
"""
REFUSES = {
    "nosuch.csv": (1, "prepare: nosuch.csv: No such file or directory"),
    "empty.csv": (1, "prepare: empty.csv: no header"),
    "packed.csv": (1, "prepare: packed.csv: is packed by gzip, no CSV file: save it as CSV in UTF-8"),
    "page.csv": (1, "prepare: page.csv: is a page or XML, no CSV file: save it as CSV in UTF-8"),
    "other.csv": (1, "prepare: other.csv: line 2: byte 81 is none of Windows-1252: name the encoding"),
    "register.csv --encoding nosuch": (2, "prepare: there is no encoding nosuch"),
    "register.csv --encoding ascii": (1, "prepare: register.csv: line 5: byte c3 is none of ascii: name the encoding"),
    "empty.csv --settings settings.toml": (2, "prepare: settings.toml: empty.csv is not one of its two files; say --side a or --side b"),
    "register.csv --settings nosuch.toml": (1, "prepare: nosuch.toml: No such file or directory"),
    "register.csv --side c": (2, "prepare: argument --side: invalid choice: 'c' (choose from 'a', 'b'); see prepare -h"),
}
GUESSED = "and the program reads UTF-8 (a guess: look whether names come out right)"


def spoilt(data: bytes) -> dict[str, tuple[bytes, str]]:
    """The register as exports write it, and the one thing that is then told."""
    text = data.decode()
    return {
        "as it is": (data, ""),
        "with a byte order mark": (b"\xef\xbb\xbf" + data, ""),
        "UTF-16": (text.encode("utf-16"), "UTF-16 with a byte order mark, and the program reads UTF-8"),
        "UTF-16 without a mark": (text.encode("utf-16-be"), f"UTF-16, {GUESSED}"),
        "Windows-1252": (text.encode("cp1252"), f"Windows-1252, {GUESSED}"),
        "a line sep=": (b"sep=,\r\n" + data, "a line sep= stands before the header"),
        "semicolons": (data.replace(b",", b";"), "the delimiter is semicolon, and the settings say comma"),
        "tabs": (data.replace(b",", b"\t"), "the delimiter is tab, and the settings say comma"),
        "bars": (data.replace(b",", b"|"), "the delimiter is '|', and the program reads comma, semicolon or tab"),
        "line ends of Windows": (data.replace(b"\n", b"\r\n"), ""),
        "line ends of old Macs": (data.replace(b"\n", b"\r"), ""),
    }


def check_spoilt(tally: Tally, bench: Bench) -> None:
    """What exports do to the register is told, and the clean copy gives the pairs of the register as it was."""
    folder = bench.empty()
    shutil.copytree(SMALL, folder, dirs_exist_ok=True)
    pairs = bench.linkage(folder, "pairs", "settings.toml")
    for name, (data, told) in spoilt((folder / "register.csv").read_bytes()).items():
        (folder / "raw.csv").write_bytes(data)
        (folder / "register.csv").unlink(missing_ok=True)
        words = ("raw.csv", "--settings", "settings.toml", "--side", "a", "-o", "register.csv")
        status, printed, _ = bench.tool(folder, "prepare", *words)
        lines = [line for line in printed.splitlines() if re.search(": (?:refused|look): ", line)]
        tally.judge(f"prepare: {name}: told", (status, lines), (int(told != ""), [f"raw.csv: refused: {told}"] if told else []))
        tally.judge(f"prepare: {name}: the copy serves", bench.linkage(folder, "pairs", "settings.toml"), pairs)
        tally.judge(f"prepare: {name}: the file is as it was", (folder / "raw.csv").read_bytes() == data, True)


def check_bad(tally: Tally, bench: Bench) -> None:
    folder = bench.empty()
    shutil.copytree(SMALL, folder, dirs_exist_ok=True)
    (folder / "bad.csv").write_text(BAD, encoding="utf-8")
    settings = (folder / "settings.toml").read_text(encoding="utf-8").replace('column_a = "surname"', 'column_a = "Surname"')
    (folder / "settings.toml").write_text(settings, encoding="utf-8")
    status, printed, said = bench.tool(folder, "prepare", "bad.csv", "--settings", "settings.toml", "--side", "a")
    tally.judge("prepare: all that is wrong, by rows", printed, BAD_LINES)
    tally.judge("prepare: counts it", (status, said), (1, "prepare: 6 refused, 11 to be looked at\n"))
    status, _, said = bench.tool(folder, "prepare", "bad.csv", "-o", "new.csv")
    line = "prepare: bad.csv: row 2: 6 fields, and the header has 5: mend it before a copy can be made"
    tally.judge("prepare: makes no copy of broken rows", (status, said.splitlines()[-1], (folder / "new.csv").exists()), (1, line, False))
    for name, data in {"empty": b"", "packed": b"\x1f\x8b\x08", "page": b"<html>", "other": b"id,x\n1,\x81\n"}.items():
        (folder / f"{name}.csv").write_bytes(data)
    tally.judge("prepare: refusals", bench.refusals(folder, "prepare", REFUSES), REFUSES)
    (folder / "other.toml").write_text(settings.replace('form_a = "ymd"', 'form_a = "dmy"'), encoding="utf-8")
    lines = bench.tool(folder, "prepare", "register.csv", "--settings", "other.toml")[1].splitlines()
    tally.judge("prepare: another form of dates", (lines[4], sum("is no date of the form dmy" in line for line in lines)),
                ("register.csv: look: birth: the form ymd reads 6 of 6 dates, dmy, as the settings say, 0", 6))
    kept = (folder / "census.csv").read_bytes()
    said = bench.tool(folder, "prepare", "census.csv", "-o", "census.csv")[2].splitlines()[-1]
    tally.judge("prepare: writes over nothing", (said, (folder / "census.csv").read_bytes() == kept),
                ("prepare: census.csv: is there already; name a new file", True))
    (folder / "mixed.csv").write_text("a;b\n1;x\n\n;\na;b\n2;y;;\n", encoding="utf-8")
    _, _, said = bench.tool(folder, "prepare", "mixed.csv", "--number", "id", "-o", "numbered.csv")
    tally.judge("prepare: numbers the rows of a copy", (folder / "numbered.csv").read_text(encoding="utf-8"), "id,a,b\n1,1,x\n2,2,y\n")
    left = "left out: 1 headers that stood again, 1 rows of empty cells, 1 empty cells beyond the header, rows"
    tally.judge("prepare: says what it left out", said.splitlines()[-1], f"prepare: numbered.csv: 2 rows, delimiter comma; {left}")


# Dates of many kinds. By hand: the first four are read as dmy, and in the first and third day and month could be exchanged; the fifth is
# read as ymd alone, the sixth as mdy alone, as are the first three; no form reads the others.
KINDS = """01.02.1980 2.2.1980 3/12/1981 13.12.1981 1982-01-31 12/31/1982 - 03.04.84 1985 19860101x 31-Dec-87 1988.1 1/1 5.May.1990 1991a
1992-1 30.02.1993 1.2""".split()


def check_kinds(tally: Tally, bench: Bench) -> None:
    """Dates of many kinds, by hand."""
    folder = bench.empty()
    shutil.copytree(SMALL, folder, dirs_exist_ok=True)
    settings = (folder / "settings.toml").read_text(encoding="utf-8").replace('form_a = "ymd"', 'form_a = "dmy"')
    (folder / "settings.toml").write_text(settings, encoding="utf-8")
    rows = "".join(f"{at},x,y,{cell},z\n" for at, cell in enumerate(KINDS))
    (folder / "kinds.csv").write_text(f"id,surname,given,birth,town\n{rows}", encoding="utf-8")
    lines = bench.tool(folder, "prepare", "kinds.csv", "--settings", "settings.toml", "--side", "a")[1].splitlines()
    tally.judge("prepare: dates by kind, by hand", lines[2:4], [
        "kinds.csv: birth: 4 read as dmy, 13 unreadable, 1 missing; in 2 of those read day and month could be exchanged",
        "kinds.csv: birth: ymd reads 1, dmy reads 4, mdy reads 4; written 3 as 99.99.9999, 1 as 9.9.9999, 1 as 9/99/9999, 1 as 9999-99-99, "
        "1 as 99/99/9999, 1 as 99.99.99, 1 as 9999, 1 as 99999999a, 7 other kinds"])


def check_dates(tally: Tally, bench: Bench) -> None:
    """As many unreadable dates as the program counts, where one field alone reads the column; the program counts them for each field."""
    folder = bench.register()
    settings = (folder / "settings.toml").read_text(encoding="utf-8")
    once = re.sub(r'(?s)\n\[\[field\]\]\nname = "year".*?(?=\n\n\[)', "", settings)
    (folder / "settings.toml").write_text(once, encoding="utf-8")
    bench.linkage(folder, "run", "settings.toml")
    report = (folder / "report.txt").read_text(encoding="utf-8").splitlines()[1]
    counts = []
    for name in ("a.csv", "b.csv"):
        _, printed, _ = bench.tool(folder, "prepare", name, "--settings", "settings.toml")
        counts.append(sum(" is no date of the form " in line for line in printed.splitlines()))
    tally.judge("prepare: as many unreadable dates as the program counts", f"unreadable {counts[0]} {counts[1]}", report)


def damaged(data: bytes, seed: int) -> bytes:
    """A file with up to three bytes changed, put in or taken out."""
    source, made = random.Random(f"damage {seed}"), bytearray(data)
    for _ in range(source.randrange(1, 4)):
        at = source.randrange(len(made))
        made[at:at + source.randrange(2)] = source.choice([b"", b",", b'"', b"\n", b"\r", b"r1", b"\xe9", b";", b"\n\n", b",,,,"])
    return bytes(made)


def check_damaged(tally: Tally, bench: Bench) -> None:
    """Over files damaged at random: what the program refuses of a row is told of that row, and where nothing is told it takes the file."""
    folder, wrong, tried = bench.empty(), [], {True: 0, False: 0}
    shutil.copytree(SMALL, folder, dirs_exist_ok=True)
    whole = (folder / "register.csv").read_bytes()
    for seed in range(120):
        (folder / "register.csv").write_bytes(damaged(whole, seed))
        status, _, said = refused(bench, folder)
        found = bench.tool(folder, "prepare", "register.csv", "--settings", "settings.toml")
        place = said.removeprefix("linkage: a: ").partition(":")[0]
        is_told = any(line.startswith(f"register.csv: {place}: refused: ") for line in found[1].splitlines())
        is_row = place.startswith("row ") and not said.endswith("is not UTF-8")
        tried[status == 0] += 1
        if status == 0 and found[0] and ": refused: Windows-1252" not in found[1] or status and (not found[0] or is_row and not is_told):
            wrong.append((seed, said, found))
    tally.judge("prepare: damaged at random, as the program has it", (wrong, min(tried.values()) > 20), ([], True))


def refused(bench: Bench, folder: Path) -> tuple[int, str, str]:
    """How `pairs` ends: its status, nothing, and its line."""
    try:
        bench.linkage(folder, "pairs", "settings.toml")
        return 0, "", ""
    except RuntimeError as fault:
        return 4, "", str(fault).partition(": status 4: ")[2].strip()


def check(tally: Tally, bench: Bench) -> None:
    """What is asked for of the tool."""
    if asks(tally, "prepare"):
        check_spoilt(tally, bench)
        check_bad(tally, bench)
        check_dates(tally, bench)
        check_kinds(tally, bench)
        check_damaged(tally, bench)
