"""Two plain methods to hold the program against: an exact join, and a match by points taken greedily. They share nothing with it."""

import functools
import unicodedata
from collections.abc import Callable

from measure import Pair

Record = dict[str, str]
SAME = str.maketrans({"ß": "ss", "æ": "ae", "ø": "o", "ł": "l", "Æ": "AE", "Ø": "O", "Ł": "L"})
DROPPED = {"MR", "MRS", "MS", "MISS", "DR", "PROF", "REV", "SIR", "JR", "SR"}
POINTS = {"surname": 4, "given": 4, "birth": 6, "sex": 1, "birthplace": 3, "town": 2}
ENOUGH = 7  # points of a match, of 20: chosen on the made register, whose truth is known, so it flatters this method


def standard(text: str, marks: list[str]) -> str:
    """Capitals and digits without accents and titles, one space between words; of a missing mark nothing."""
    return "" if text.strip() in marks else letters_of(text)


@functools.cache
def letters_of(text: str) -> str:
    """The same of a text that is no missing mark."""
    letters = unicodedata.normalize("NFKD", text.translate(SAME)).encode("ascii", "ignore").decode().upper()
    words = "".join(letter if letter.isalnum() else " " for letter in letters).split()
    return " ".join([word for word in words if word not in DROPPED] or words)


def keyed(side: dict[str, Record], key: Callable[[Record], tuple[str, ...]]) -> dict[tuple[str, ...], list[str]]:
    """The ids of the records of each key; a record of which a part of the key is missing has none."""
    found: dict[tuple[str, ...], list[str]] = {}
    for name, record in side.items():
        if all(key(record)):
            found.setdefault(key(record), []).append(name)
    return found


def exact_join(a: dict[str, Record], b: dict[str, Record], fields: tuple[str, ...]) -> list[Pair]:
    """The pairs whose standard fields are all present and equal, where each side has one such record."""
    left, right = (keyed(side, lambda record: tuple(record[field] for field in fields)) for side in (a, b))
    return [(ids[0], right[key][0]) for key, ids in left.items() if len(ids) == 1 and len(right.get(key, [])) == 1]


def points(left: Record, right: Record) -> int:
    """A point score: of a field its points where it is equal; half of them where its front (of a birth: its year) is."""
    total = 0
    for field, worth in POINTS.items():
        if left.get(field) and right.get(field):
            same, near = left[field] == right[field], left[field][:4] == right[field][:4]
            total += 2 * worth if same else worth if near else -worth
    return total


def greedy(a: dict[str, Record], b: dict[str, Record]) -> list[Pair]:
    """Pairs that share the birth, or the front of the surname and the year, or two other fronts; the best points first."""
    keys = ((("birth", 10),), (("surname", 3), ("birth", 4)), (("given", 4), ("birthplace", 9), ("surname", 1)),
            (("given", 4), ("birth", 4), ("town", 9)))
    scored: dict[Pair, int] = {}
    for parts in keys:
        left, right = (keyed(side, lambda record, parts=parts: tuple(record.get(field, "")[:n] for field, n in parts)) for side in (a, b))
        for key, ids in left.items():
            scored.update({(x, y): points(a[x], b[y]) for x in ids for y in right.get(key, []) if (x, y) not in scored})
    taken_a, taken_b, links = set(), set(), []
    for (x, y), score in sorted(scored.items(), key=lambda item: (-item[1], item[0])):
        if score >= 2 * ENOUGH and x not in taken_a and y not in taken_b:
            taken_a.add(x)
            taken_b.add(y)
            links.append((x, y))
    return links
