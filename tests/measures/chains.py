"""Texts that stand in one chain of a pool: the hash of crates/value_pool, turned against it.

A text of three words of eight bytes whose second word is the hash of the first starts anew at the third, for 0 times the factor is 0.
So all such texts with the same third word have the same hash, whatever the number of buckets, and the same last word as well. Of some
300 first words one gives a second that can stand in a file, so that thousands of them take a second.

Codes of three or four places are too short for that; `codes.c` finds triples by trying, where there is a C compiler.
"""

import functools
import itertools
import shutil
import subprocess
from collections.abc import Iterator
from pathlib import Path

WORD = 1 << 64
START, FACTOR = 0x243F_6A88_85A3_08D3, 0x9E37_79B9_7F4A_7C15
LENGTH = 24
LAST = b"Z" * 8

HIGH_BITS = 0x8080_8080_8080_8080  # no byte of ASCII has its own
LETTERS = b"ABCDEFGHIJKLMNOPQRSTUVWXYZ"
NOT_IN_A_FIELD = frozenset(b'\0\r\n",')


@functools.cache
def four_letters() -> list[int]:
    """All words of four letters, as numbers."""
    return [int.from_bytes(it, "little") for it in map(bytes, itertools.product(LETTERS, repeat=4))]


def one_chain() -> Iterator[str]:
    """Texts of 24 bytes that have the same hash, without end."""
    start = START ^ LENGTH
    for high in four_letters():
        base = start ^ high << 32
        for low in four_letters():
            product = (base ^ low) * FACTOR
            second = product >> 64 ^ product % WORD
            if second & HIGH_BITS == 0:
                word = second.to_bytes(8, "little")
                if NOT_IN_A_FIELD.isdisjoint(word):
                    yield ((high << 32 | low).to_bytes(8, "little") + word + LAST).decode("ascii")


def chain(count: int) -> list[str]:
    """So many of them."""
    return list(itertools.islice(one_chain(), count))


def compiled(folder: Path) -> Path | None:
    """The program of codes.c; none where there is no C compiler."""
    compiler = shutil.which("cc")
    if compiler is None:
        return None
    made = folder / "codes"
    subprocess.run([compiler, "-O3", "-o", made, Path(__file__).with_name("codes.c")], check=True)
    return made


def triples(program: Path, bits: int, count: int, places: int) -> list[tuple[int, ...]]:
    """Triples of places whose codes share so many bits of their hash."""
    words = [str(it) for it in (program, START, FACTOR, bits, count, places, 0)]
    lines = subprocess.run(words, check=True, capture_output=True, text=True).stdout.splitlines()
    return [tuple(int(it) for it in line.split()) for line in lines]
