"""Files made to be slow, each with an ordinary one of the same rows and bytes.

A shape writes two folders: the hostile files, and the same with what is hostile drawn at random or left out. What the command takes on
the first is held to a multiple of what it takes on the second. A shape that keeps no such multiple today is `known`: it is measured at a
size that a gate can bear, and printed, and what it comes to at its full size is written beside it.
"""

import random
from collections.abc import Callable
from dataclasses import dataclass
from pathlib import Path

import chains
from inputs import PLAIN, Field, put, put_settings

TWO_NAMES = ("LEE", "KO")


class LeftOut(Exception):
    """What a shape needs that this machine lacks."""


@dataclass(frozen=True)
class Shape:
    """What writes the two folders at a size, the sizes of the gate and of `--full`, the command, and what is held."""

    write: Callable[[Path, Path, int], None]
    size: int
    full: int
    command: tuple[str, ...]
    most: float = 2.0  # times the instructions (at full size the time) of the ordinary files
    most_memory: float = 1.5  # times their memory
    ends: int = 0  # the status with which the command ends on the hostile files
    known: str = ""  # why it is not yet held, and what it comes to at full size


def drawn(draw: random.Random, letters: str, length: int) -> str:
    """A text of letters that are drawn."""
    return "".join(draw.choices(letters, k=length))


def likes(draw: random.Random, texts: list[str]) -> list[str]:
    """As many distinct texts of the same length as these, which are made of letters that are drawn, and end as these do."""
    letters = "ABCDEFGHIJKLMNOPQRSTUVWXYZ"
    return [drawn(draw, letters, 8) + drawn(draw, letters, 8) + text[16:] for text in texts]


def one_field(folder: Path, top: str = "mu_ppm = 0\nlambda_ppm = 0\n", shares: str = PLAIN) -> None:
    """Settings of one field x, by which records are compared and joined."""
    put_settings(folder, [Field("x", shares)], [["x"]], top)


def ids_one_chain(hostile: Path, ordinary: Path, size: int) -> None:
    """Ids of A in one chain, and a sample that names the id at the chain's end again and again."""
    ids = chains.chain(size)
    for folder, names in ((hostile, ids), (ordinary, likes(random.Random("ids_one_chain"), ids))):
        put(folder, "a.csv", "id,x", (f"{name},{TWO_NAMES[at > 0]}" for at, name in enumerate(names)))
        put(folder, "b.csv", "id,x", (f"{at},LEE" for at in range(size)))
        put(folder, "sample.csv", "id_a,id_b,status", (f"{names[0]},{at},{'un' * (at % 2)}matched" for at in range(size)))
        one_field(folder, 'sample = "sample.csv"\nmu_ppm = 0\nlambda_ppm = 0\n', "")


def fields_one_chain(hostile: Path, ordinary: Path, size: int) -> None:
    """The fields of a column in one chain, in both files."""
    texts = chains.chain(size)
    for folder, fields in ((hostile, texts), (ordinary, likes(random.Random("fields_one_chain"), texts))):
        for side, order in (("a", fields), ("b", fields[::-1])):
            put(folder, f"{side}.csv", "id,x", (f"{at},{text}" for at, text in enumerate(order)))


def place_text(place: int) -> str:
    """A word of its own for each place of a pool."""
    letters = chains.LETTERS.decode()
    return "Q" + "".join(letters[place // 26**at % 26] for at in range(4))


def codes_one_chain(hostile: Path, ordinary: Path, size: int) -> None:
    """Keys of three parts in one chain of the numbers of keys; A looks for the one at its end again and again.

    The first third of A brings the texts in the order of their places, so that a code is three numbers that the file's writer chooses.
    """
    program = chains.compiled(hostile.parent)
    if program is None:
        raise LeftOut("there is no C compiler (cc)")
    places = size // 3 * 3
    codes = chains.triples(program, (2 * size).bit_length() + 1, size, places)
    draw = random.Random("codes_one_chain")
    others = [tuple(draw.randrange(places) for _ in range(3)) for _ in codes]
    for folder, triples in ((hostile, codes), (ordinary, others)):
        rows = [(3 * at, 3 * at + 1, 3 * at + 2) for at in range(places // 3)]
        rows += [triples[0]] * (size - len(rows))
        for side, keys in (("a", rows), ("b", triples)):
            put(folder, f"{side}.csv", "id,x,y,z", (f"{at},{','.join(map(place_text, it))}" for at, it in enumerate(keys)))
        put_settings(folder, [Field(name) for name in "xyz"], [["x", "y", "z"]], "mu_ppm = 100\nlambda_ppm = 100\n")


def names_grow(hostile: Path, ordinary: Path, size: int) -> None:
    """Names of a hundred one-letter words, each of which a table replaces by a word of 32 letters."""
    columns = [" ".join("A" * words) for words in (127, 127, 68)]
    for folder, replaced in ((hostile, "A"), (ordinary, "B")):
        for side, tag in (("a", "L"), ("b", "M")):
            rows = (",".join([str(at), *columns, tag if at else "K"]) for at in range(size))
            put(folder, f"{side}.csv", "id,x,y,z,k", rows)
        top = f'mu_ppm = 100\nlambda_ppm = 100\nnames = {{ {replaced} = "{"W" * 32}" }}\n'
        put_settings(folder, [Field(name) for name in "xyzk"], [["k"]], top)


def long_ids(filler: str) -> Callable[[Path, Path, int], None]:
    """Ids as long as a field may be, in one block, so that the lines of pairs are as long. Ordinary files have them in another column."""

    def write(hostile: Path, ordinary: Path, size: int) -> None:
        for side in "ab":
            rows = [(f'"{filler}{at:04}"', at) for at in range(size)]
            put(hostile, f"{side}.csv", "id,y,x", (f"{long},{at},LEE" for long, at in rows))
            put(ordinary, f"{side}.csv", "y,id,x", (f"{long},{at},LEE" for long, at in rows))
        for folder in (hostile, ordinary):
            one_field(folder)

    return write


def equal_keys(hostile: Path, ordinary: Path, size: int) -> None:
    """All records of A have one name, which one of B has; the ordinary names are each in both files once: as many pairs."""
    names = [place_text(at) for at in range(size)]
    for folder, of_a in ((hostile, names[:1] * size), (ordinary, names)):
        for side, order in (("a", of_a), ("b", names)):
            put(folder, f"{side}.csv", "id,x", (f"{at},{name}" for at, name in enumerate(order)))
        one_field(folder)


def texts_alike(hostile: Path, ordinary: Path, size: int) -> None:
    """Fields of 255 bytes that differ in their last five or their first five bytes alone."""
    draw = random.Random("texts_alike")
    alike = drawn(draw, "ABC", 250)
    texts = [alike + place_text(at) if at % 2 else place_text(at) + alike for at in range(size)]
    for folder, fields in ((hostile, texts), (ordinary, [drawn(draw, "ABC", 255) for _ in texts])):
        for side, order in (("a", fields), ("b", fields[::-1])):
            put(folder, f"{side}.csv", "id,x", (f"{at},{text}" for at, text in enumerate(order)))


def late_id(hostile: Path, ordinary: Path, size: int) -> None:
    """Ids that rise but for the last one of each file, which has all of them put in chains."""
    for folder, last in ((hostile, 10_000), (ordinary, 10_000 + size)):
        for side in "ab":
            ids = [*range(10_001, 10_000 + size), last]
            put(folder, f"{side}.csv", "id,x", (f"{name},{place_text(at)}" for at, name in enumerate(ids)))
        one_field(folder)


def quotes(hostile: Path, ordinary: Path, size: int) -> None:
    """Fields of quotes, each of which is written twice."""
    for folder, inner in ((hostile, '""' * 60), (ordinary, "ab" * 60)):
        for side in "ab":
            put(folder, f"{side}.csv", "id,x", (f'{at},"{inner}{at:06}"' for at in range(size)))


def ordinary_rows(folder: Path, side: str, length: int) -> None:
    """A table of about so many bytes, in rows of 600."""
    notes = ",".join("n" * 195 for _ in range(3))
    put(folder, f"{side}.csv", "id,x,p,q,r", (f"{at:06},{place_text(at)},{notes}" for at in range(length // 600)))


def long_settings(filler: str) -> Callable[[Path, Path, int], None]:
    """Settings with so many bytes that say nothing. Ordinary files have as many in their rows: settings say no more than some pages."""

    def write(hostile: Path, ordinary: Path, size: int) -> None:
        for folder, length in ((hostile, 6_000), (ordinary, size // 2)):
            for side in "ab":
                ordinary_rows(folder, side, length)
            one_field(folder)
        with (hostile / "s.toml").open("a", encoding="utf-8") as out:
            out.write(filler * (size // len(filler)))

    return write


def long_table(begins: str, filler: str) -> Callable[[Path, Path, int], None]:
    """A table of so many bytes that is one row, or what no row ends. The ordinary one has as many bytes in rows of 600."""

    def write(hostile: Path, ordinary: Path, size: int) -> None:
        for folder in (hostile, ordinary):
            ordinary_rows(folder, "b", 6_000)
        ordinary_rows(ordinary, "a", size)
        (hostile / "a.csv").write_text(begins + filler * (size // len(filler)), "utf-8")

    return write


COLUMN = ("pairs", "a.csv", "b.csv", "x")
PAIRS = ("pairs", "s.toml")
# The kit's reader keeps eight bytes for each field of a record, in room that doubles.
COMMAS = {"header": "12.6 times the time, 19 times the memory", "row": "3.4 times the time, 7 times the memory"}

SHAPES = {
    "ids_one_chain": Shape(ids_one_chain, 4_000, 100_000, ("rule", "s.toml")),
    "fields_one_chain": Shape(fields_one_chain, 4_000, 100_000, COLUMN, most=3),
    "codes_one_chain": Shape(codes_one_chain, 3_000, 100_000, PAIRS),
    "equal_keys": Shape(equal_keys, 10_000, 100_000, PAIRS),
    "texts_alike": Shape(texts_alike, 4_000, 100_000, COLUMN),
    "late_id": Shape(late_id, 10_000, 90_000, PAIRS),
    "quotes": Shape(quotes, 10_000, 100_000, COLUMN, most=2.5),
    "long_ids": Shape(long_ids("i" * 251), 400, 1_414, PAIRS, most_memory=35),
    "quoted_ids": Shape(long_ids('""' * 251), 400, 1_414, PAIRS, most=2.5, most_memory=65),
    "names_grow": Shape(names_grow, 1_500, 100_000, PAIRS),
    "settings_of_blanks": Shape(long_settings(" " * 79 + "\n"), 500_000, 60_000_000, PAIRS, most=2.5),
    "settings_of_one_blank_line": Shape(long_settings(" "), 500_000, 60_000_000, PAIRS, most=2.5),
    "settings_of_comments": Shape(long_settings("# " + "x" * 77 + "\n"), 500_000, 60_000_000, PAIRS, most=2.5),
    "settings_of_short_comments": Shape(long_settings("#\n"), 500_000, 60_000_000, PAIRS, most=2.5),
    "open_quote": Shape(long_table('id,x\n"', "x"), 500_000, 60_000_000, COLUMN, ends=4),
    "long_header": Shape(long_table("id,x", "x"), 500_000, 60_000_000, COLUMN, most_memory=2.5, ends=4),
    "header_of_commas": Shape(long_table("id,x", ","), 500_000, 60_000_000, COLUMN, ends=5, known=COMMAS["header"]),
    "row_of_commas": Shape(long_table("id,x\n", ","), 500_000, 60_000_000, COLUMN, ends=4, known=COMMAS["row"]),
    "empty_lines": Shape(long_table("id,x\n", "\n"), 500_000, 60_000_000, COLUMN, most=3),
    "lone_quotes": Shape(long_table("id,x\n", '"\n'), 500_000, 60_000_000, COLUMN, ends=4),
    "nul_bytes": Shape(long_table("id,x\n", "\0"), 500_000, 60_000_000, COLUMN, ends=4),
}
