"""Files and settings that the measures are made on."""

import datetime
import random
from collections.abc import Iterable
from dataclasses import dataclass
from pathlib import Path

# The made input is that of the crate workload, which `generate` runs: its syllables, its persons, its changes.
SYLLABLES = "BA DE FI GO KU LA ME NI RO SU TA VE WI ZO HA PE".split()
EPOCH = datetime.date(1970, 1, 1).toordinal()
MOST_OF_STATUS = 200

# Shares of a field of which nothing is asked but that it agrees or not, and those of a field that joins records.
PLAIN = "m = [920, 103, 1]\nu = [11, 991, 22]\n"
JOINS = "m = [512, 511, 1]\nu = [1, 1022, 1]\n"

# Levels at which every compared pair is a link.
ALL_LINKS = "mu_ppm = 1000000\nlambda_ppm = 0\n"


@dataclass(frozen=True)
class Field:
    """A field of the settings. Its column is its own name where no other is given; shares may be none where there is a sample."""

    name: str
    shares: str = PLAIN
    kind: str = "name"
    compare: str = "exact"
    column: str = ""
    more: str = ""

    def text(self) -> str:
        """The table of the field."""
        column = f'column_a = "{self.column}"\ncolumn_b = "{self.column}"\n' if self.column else ""
        forms = 'form_a = "ymd"\nform_b = "ymd"\n' if self.kind == "date" else ""
        kind = f'kind = "{self.kind}"\n{forms}compare = "{self.compare}"\n'
        return f'\n[[field]]\nname = "{self.name}"\n{column}{kind}{self.more}{self.shares}'


def settings(fields: list[Field], passes: list[list[str]], top: str = ALL_LINKS) -> str:
    """Settings over a.csv and b.csv, with what stands above the fields, and with passes of whole fields."""
    parts = (", ".join(f'{{ field = "{name}", key = "whole" }}' for name in names) for names in passes)
    tables = "".join(field.text() for field in fields) + "".join(f"\n[[pass]]\nparts = [{it}]\n" for it in parts)
    return f'file_a = "a.csv"\nfile_b = "b.csv"\n{top}{tables}'


def put(folder: Path, name: str, header: str, rows: Iterable[str]) -> None:
    """Writes a file of a header and rows, each a line without its end, as they come."""
    folder.mkdir(parents=True, exist_ok=True)
    with open(folder / name, "w", encoding="utf-8", newline="") as out:
        out.write(f"{header}\n")
        out.writelines(f"{row}\n" for row in rows)


def put_settings(folder: Path, *given) -> None:
    """Writes s.toml: the words are those of `settings`."""
    (folder / "s.toml").write_text(settings(*given), "utf-8")


def day(number: int) -> str:
    """The day that comes so many days after the first of 1970."""
    return datetime.date.fromordinal(EPOCH + number).isoformat()


def spoken(number: int, digits: int) -> str:
    """A word with a syllable for each digit of base 16."""
    return "".join(SYLLABLES[number >> 4 * at & 15] for at in reversed(range(digits)))


def person(row: int) -> tuple[int, int, str]:
    """The person of a row of A: the numbers of the surname and of the given name, and the day of birth."""
    return (37 * row + 11) % 65_536, (5 * row + 3) % 256, day(13 * row % 20_000 - 10_000)


def changed(row: int) -> tuple[int, int, str]:
    """The person of a row of B: of ten, one errs in the surname and one in the given name, and one lacks the day of birth."""
    surname, given, birth = person(row)
    match row % 10:
        case 3:
            given = (given + 1) % 256
        case 7:
            birth = ""
        case 9:
            surname = (surname + 1) % 65_536
    return surname, given, birth


def described(surname: int, given: int, birth: str) -> str:
    """The fields of a person."""
    return f"{spoken(surname, 4)},{spoken(given, 2)},{birth}"


def made(folder: Path, rows: int) -> None:
    """The made input of so many rows a file. At 100,000 a surname has one or two records in each file, and a day five."""
    put(folder, "a.csv", "id,surname,given,birth", (f"A{at},{described(*person(at))}" for at in range(rows)))
    put(folder, "b.csv", "id,surname,given,birth", (f"B{at},{described(*changed(at))}" for at in range(rows)))
    matched = [f"A{at},B{at},matched" for at in range(min(rows, MOST_OF_STATUS))]
    unmatched = [f"A{at},B{at + 1},unmatched" for at in range(min(rows - 1, MOST_OF_STATUS))]
    put(folder, "sample.csv", "id_a,id_b,status", matched + unmatched)
    fields = [Field("surname", "", compare="soundex"), Field("given", ""), Field("birth", "", "date")]
    top = f'sample = "sample.csv"\nmu_ppm = 100\nlambda_ppm = 1000\nseed = {rows}\n'
    put_settings(folder, fields, [["surname"], ["birth"]], top)


def tripled(folder: Path, rows: int) -> None:
    """One file of so many rows in which three stand for a person, the third with another given name; the other file has none."""
    erring = lambda row: described(*changed(10 * (row // 3) + 3)) if row % 3 == 2 else described(*person(10 * (row // 3) + 3))
    put(folder, "a.csv", "id,surname,given,birth", (f"A{row},{erring(row)}" for row in range(rows)))
    put(folder, "b.csv", "id,surname,given,birth", ())
    fields = [Field("surname", compare="soundex"), Field("given"), Field("birth", kind="date")]
    put_settings(folder, fields, [["surname"], ["birth"]], ALL_LINKS)


def shuffled(count: int, draw: random.Random) -> list[int]:
    """The numbers from 0 in some order."""
    numbers = list(range(count))
    draw.shuffle(numbers)
    return numbers
