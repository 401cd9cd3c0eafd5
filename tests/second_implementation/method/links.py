"""Links: the journal of review, the candidates, the greatest choice among them, what certifies it, and groups of duplicates."""

import re
from collections import Counter
from datetime import date
from typing import NamedTuple

from pairs import Pair, People, pair_of
from rule import Cell
from tables import MOST_BYTES, records, refuse_if, table, text_of
from values import iso_date

MOST_ENTRIES, MOST_PRICE, VERDICTS = 1_000_000, 1_000_000, ("link", "nonlink", "open")
JOURNAL_HEADER = ["number", "date", "reviewer", "step", "id_a", "id_b", "verdict"]
LINKS_HEADER, PRICES_HEADER = ["id_a", "id_b", "weight", "value", "by"], ["side", "id", "price"]


class Entry(NamedTuple):
    """An entry of a journal."""

    day: date
    reviewer: str
    step: str
    pair: Pair
    verdict: str


class Candidate(NamedTuple):
    """A pair that may become a link: its weight, what it is worth, and whether by the rule or by review."""

    pair: Pair
    weight: int
    value: int
    by: str


def confirms(entry: Entry, last: Entry | None) -> bool:
    """Whether an entry confirms the last one on its pair: a first verdict that is the same, by another reviewer."""
    return last is not None and last.step == "first" and last.verdict == entry.verdict and last.reviewer != entry.reviewer


def is_step(entry: Entry, last: Entry | None) -> bool:
    """Whether the step of an entry may stand after the last entry on its pair."""
    is_of_two = entry.step == "first" or entry.step == "confirm" and confirms(entry, last)
    return entry.step == "single" or is_of_two and entry.verdict != "open"


def journal(data: bytes, a: People, b: People) -> list[Entry]:
    """The entries of a journal of either version, or its first fault. No bytes are a journal without entries."""
    has_step = any(b"step" in header for header in records(data)[:1])
    columns = [name for name in JOURNAL_HEADER if name != "step" or has_step]
    rows = table(data, "journal", columns, most=MOST_ENTRIES) if data else []
    entries, last = [], {}
    for row, (number, day_text, reviewer, *steps, id_a, id_b, verdict) in enumerate(rows, 1):
        refuse_if(number != str(row), 4, f"journal: row {row}: number")
        day = iso_date(day_text)
        refuse_if(day is None, 4, f"journal: row {row}: date")
        refuse_if(entries and day < entries[-1].day, 4, f"journal: row {row}: date goes back")
        refuse_if(not reviewer, 4, f"journal: row {row}: no reviewer")
        pair = pair_of(a, b, "journal", row, id_a, id_b)
        refuse_if(verdict not in VERDICTS, 4, f"journal: row {row}: verdict")
        entry = Entry(day, reviewer, steps[0] if steps else "single", pair, verdict)
        refuse_if(not is_step(entry, last.get(pair)), 4, f"journal: row {row}: step")
        entries.append(entry)
        last[pair] = entry
    return entries


def verdicts_of(entries: list[Entry]) -> dict[Pair, str]:
    """The verdict that stands on each pair: that of the last entry on it, and `open` where this one waits for a second reviewer."""
    return {it.pair: "open" if it.step == "first" else it.verdict for it in entries}


def new_verdicts(data: bytes, a: People, b: People) -> list[tuple[Pair, str]]:
    """The pairs and verdicts of a file of new verdicts, or its first fault."""
    found = []
    for row, (id_a, id_b, verdict) in enumerate(table(data, "verdicts", ["id_a", "id_b", "verdict"]), 1):
        found.append((pair_of(a, b, "verdicts", row, id_a, id_b), verdict))
        refuse_if(verdict not in VERDICTS, 4, f"verdicts: row {row}: verdict")
    return found


def added(entries: list[Entry], batch: list[tuple[Pair, str]], day: date, reviewer: str, possible: set[Pair], double: bool) -> list[Entry]:
    """The entries of a journal and after them those of a batch of new verdicts, or the first fault."""
    refuse_if(len(entries) + len(batch) > MOST_ENTRIES, 5, f"journal: more than {MOST_ENTRIES} entries")
    refuse_if(entries and batch and day < entries[-1].day, 4, "verdicts: row 1: date goes back")
    last, new = {it.pair: it for it in entries}, []
    for row, (pair, verdict) in enumerate(batch, 1):
        refuse_if(pair not in possible, 4, f"verdicts: row {row}: not a possible pair")
        entry = Entry(day, reviewer, "single", pair, verdict)
        if double and verdict != "open":
            entry = entry._replace(step="confirm" if confirms(entry, last.get(pair)) else "first")
        last[pair] = entry
        new.append(entry)
    return entries + new


def journal_text(entries: list[Entry], a: People, b: People) -> bytes:
    """A journal as a text of the second version; refused where no later command could load it."""
    rows = [[n, it.day, it.reviewer, it.step, a.ids[it.pair[0]], b.ids[it.pair[1]], it.verdict] for n, it in enumerate(entries, 1)]
    text = text_of([JOURNAL_HEADER, *rows])
    refuse_if(len(text) > MOST_BYTES, 5, f"journal: more than {MOST_BYTES} bytes")
    return text


def candidates(decided: list[tuple[Pair, Cell, str]], verdicts: dict[Pair, str], award: int) -> list[Candidate]:
    """The links by the rule, and the possible links that review calls links."""
    found = []
    for pair, cell, decision in decided:
        if decision == "link":
            found.append(Candidate(pair, cell.weight, cell.weight, "rule"))
        if decision == "possible" and verdicts.get(pair) == "link":
            found.append(Candidate(pair, cell.weight, cell.weight + award, "review"))
    return found


def capacities(data: bytes, b: People) -> list[int]:
    """How many links each record of B may have: what the file of capacities says, else one; or the first fault of the file."""
    found = [1] * len(b.ids)
    for row, (key, text) in enumerate(table(data, "capacities", ["capacity"], "id_b"), 1):
        refuse_if(key not in b.at, 4, f"capacities: row {row}: unknown id_b")
        refuse_if(not re.fullmatch("0|[1-9][0-9]{0,2}|1000", text), 4, f"capacities: row {row}: capacity")
        found[b.at[key]] = int(text)
    return found


def written(data: bytes, header: list[str], word: str) -> list[list[str]]:
    """The rows of a written file, each text as it stands; refuted where its form is another, row 0 for the header."""
    found = [[cell.decode("utf-8", "surrogateescape") for cell in row] for row in records(data)]
    refuse_if(found[:1] != [header], 9, f"no: {word} 0")
    for row, cells in enumerate(found):
        refuse_if(len(cells) != len(header), 9, f"no: {word} {row}")
    return found[1:]


def written_links(data: bytes, found: list[Candidate], capacity: list[int], a: People, b: People) -> list[Candidate]:
    """The links of a written file: candidates that rise, none of a record too often; or what refutes them."""
    by_row = {(a.ids[it.pair[0]], b.ids[it.pair[1]], *map(str, it[1:])): it for it in found}
    links: list[Candidate] = []
    for row, cells in enumerate(written(data, LINKS_HEADER, "link"), 1):
        link = by_row.get(tuple(cells))
        refuse_if(link is None or links and link.pair <= links[-1].pair, 9, f"no: link {row}")
        links.append(link)
    times_a, times_b = Counter(), Counter()
    for row, ((i, j), *_) in enumerate(links, 1):
        refuse_if(times_a[i] == 1 or times_b[j] == capacity[j], 9, f"no: reused {row}")
        times_a[i], times_b[j] = 1, times_b[j] + 1
    return links


def written_prices(data: bytes, a: People, b: People) -> dict[tuple[str, int], int]:
    """The prices of a written file by side and place, or what refutes them."""
    prices, last, nowhere = {}, ("", 0), ("", 0)
    places = {(side, key): (side, at) for side, file in (("A", a), ("B", b)) for key, at in file.at.items()}
    for row, (side, key, text) in enumerate(written(data, PRICES_HEADER, "price"), 1):
        place = places.get((side, key), nowhere)
        is_price = re.fullmatch("[1-9][0-9]{0,6}", text) and int(text) <= MOST_PRICE
        refuse_if(not is_price or place <= last, 9, f"no: price {row}")
        prices[place], last = int(text), place
    return prices


def certified(texts: list[bytes], found: list[Candidate], capacity: list[int], a: People, b: People) -> list[Candidate]:
    """The links that written links and prices prove to be of greatest total: the prices cover each candidate and come to the total,
    those of B as often as the capacity; or the first reason against them."""
    links, prices = written_links(texts[0], found, capacity, a, b), written_prices(texts[1], a, b)
    for (i, j), _, value, _ in found:
        refuse_if(prices.get(("A", i), 0) + prices.get(("B", j), 0) < value, 9, f"no: uncovered {a.ids[i]} {b.ids[j]}")
    total = sum(it.value for it in links)
    bought = sum(price * (capacity[place] if side == "B" else 1) for (side, place), price in prices.items())
    refuse_if(total != bought, 9, f"no: sum {total} {bought}")
    return links
