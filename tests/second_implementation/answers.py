"""What is wrong with an answer where several are right: links of greatest total and their prices, groups of duplicates, reports."""

from collections import Counter
from datetime import date, timedelta
from functools import cache

from commands import Front, Held
from links import LINKS_HEADER, PRICES_HEADER, Candidate, capacities, certified
from pairs import Pair, People
from rule import UNIT, WHOLE, levels
from tables import Refused, records, text_of


def parted(found: list[Candidate]) -> list[list[Candidate]]:
    """The candidates in parts that have no record in common."""
    of_a, of_b, parts = {}, {}, []
    for it in found:
        of_a.setdefault(it.pair[0], []).append(it)
        of_b.setdefault(it.pair[1], []).append(it)
    seen = set()
    for first in found:
        part, waiting = [], [] if first.pair in seen else [first]
        seen.add(first.pair)
        while waiting:
            part.append(waiting.pop())
            near = [it for it in of_a[part[-1].pair[0]] + of_b[part[-1].pair[1]] if it.pair not in seen]
            seen |= {it.pair for it in near}
            waiting += near
        parts += [part] * bool(part)
    return parts


def best_total(found: list[Candidate], capacity: list[int]) -> int:
    """What the best choice of links is worth, which is what its parts that have no record in common are worth together."""
    return sum(best_of_part(part, capacity) for part in parted(found))


def best_of_part(found: list[Candidate], capacity: list[int]) -> int:
    """The same of one part: links change along the path from a free record of A that gains most, as long as one gains. A path goes on
    from a record of B through one of its links to the record of A that gives this link up."""
    value, linked, times, total = {it.pair: it.value for it in found}, {}, Counter(), 0
    while True:
        gain, via, changed = {}, {}, True
        while changed:
            changed = False
            for (i, j), worth in value.items():
                before = 0 if i not in linked else gain.get(linked[i], -(10**9)) - value[i, linked[i]]
                if linked.get(i) != j and before + worth > gain.get(j, -(10**8)):
                    gain[j], via[j], changed = before + worth, i, True
        end = max((j for j in gain if times[j] < capacity[j]), key=gain.get, default=None)
        if end is None or gain[end] <= 0:
            return total
        total, times[end] = total + gain[end], times[end] + 1
        while end is not None:
            linked[via[end]], end = end, linked.get(via[end])


def faults_of_links(texts: list[bytes], found: list[Candidate], capacity: list[int], a: People, b: People) -> list[str]:
    """What is wrong with the links and prices of an answer."""
    try:
        total, best = sum(it.value for it in certified(texts, found, capacity, a, b)), best_total(found, capacity)
    except Refused as it:
        return [f"the prices do not certify the links: {it.text}"]
    is_written = all(text_of([[cell.decode() for cell in row] for row in records(text)]) == text for text in texts)
    return ["a text is not written as rows are"] * (not is_written) + [f"links of {total}, where {best} is best"] * (total != best)


def faults_of_groups(text: bytes, links: set[Pair], file: People) -> list[str]:
    """What is wrong with the text of the groups that links join: the group and id of each row are given, `via` may be chosen."""
    leader = {end: end for link in links for end in link}
    while any(leader[x] != leader[y] for x, y in links):
        for x, y in links:
            leader[x] = leader[y] = min(leader[x], leader[y])
    heads, members = sorted(set(leader.values())), sorted(leader, key=lambda it: (leader[it], it))
    rows = [[cell.decode() for cell in row] for row in records(text)]
    wanted = [["group", "id"], *([str(1 + heads.index(leader[it])), file.ids[it]] for it in members)]
    if [row[:2] for row in rows] != wanted or text_of(rows) != text or any(len(row) != 3 for row in rows):
        return ["the groups are others"]
    via, reached = {it: row[2] for it, row in zip(members, rows[1:])}, {head for head in heads}
    for _ in members:
        reached |= {it for it in members if file.at.get(via[it]) in reached and tuple(sorted((it, file.at[via[it]]))) in links}
    return [] if reached == set(members) and all(via[it] == "" for it in heads) else ["a record is not reached from the first of its group"]


def report_text(front: Front, links: list[list[str]]) -> bytes:
    """The report on a choice of links, which are given as rows."""
    whole, decisions = UNIT ** len(front.plan["field"]) * WHOLE, [it for _, _, it in front.decided]
    possible, dropped = dict(front.possible()), [it for it in front.candidates if front.ids(it.pair) not in [row[:2] for row in links]]
    lines = [
        f"rows {len(front.a.ids)} {len(front.b.ids)}",
        f"unreadable {len(front.a.unreadable)} {len(front.b.unreadable)}",
        f"pairs {len(decisions)}",
        *(f"{it} {decisions.count(it)}" for it in ("link", "possible", "nonlink")),
        f"open {len(front.open())}",
        f"entries {len(front.entries)}",
        f"idle {sum(it.pair not in possible for it in front.entries)}",
        *(f"{name} {it} {whole} {it * 10**6 // whole}" for name, it in levels(front.cells()).items()),
        f"links {len(links)}",
        f"total {sum(int(row[3]) for row in links)}",
        f"dropped {len(dropped)}\n",
    ]
    return "\n".join(lines).encode() + text_of([[*front.ids(it.pair), "conflict" if it.value > 0 else "weight"] for it in dropped])


MADE_SETTINGS = """file_a = "a.csv"\nfile_b = "b.csv"\nsample = "sample.csv"\nmu_ppm = 100\nlambda_ppm = 1000\nseed = %d
field = [{ name = "surname", kind = "name", compare = "soundex" }, { name = "given", kind = "name", compare = "exact" },
    { name = "birth", kind = "date", form_a = "ymd", form_b = "ymd", compare = "exact" }]
pass = [{ parts = [{ field = "surname", key = "whole" }] }, { parts = [{ field = "birth", key = "whole" }] }]
"""


@cache
def made_input(rows: int) -> Held:
    """The made input of so many rows: B is A, but for a given name in ten, a birth in ten, and a surname in ten."""
    syllables = "BA DE FI GO KU LA ME NI RO SU TA VE WI ZO HA PE".split()
    word = lambda number, digits: "".join(syllables[number >> 4 * at & 15] for at in reversed(range(digits)))

    def row(side: str, at: int) -> list[str]:
        change = at % 10 if side == "B" else 0
        surname, given = (37 * at + 11 + (change == 9)) % 65_536, (5 * at + 3 + (change == 3)) % 256
        birth = date(1970, 1, 1) + timedelta(13 * at % 20_000 - 10_000)
        return [f"{side}{at}", word(surname, 4), word(given, 2), "" if change == 7 else birth.isoformat()]

    files = [text_of([["id", "surname", "given", "birth"], *(row(side, at) for at in range(rows))]) for side in "AB"]
    sample = [[f"A{at}", f"B{at}", "matched"] for at in range(min(rows, 200))]
    sample += [[f"A{at}", f"B{at + 1}", "unmatched"] for at in range(min(rows - 1, 200))]
    text = text_of([["id_a", "id_b", "status"], *sample])
    return {"s.toml": (MADE_SETTINGS % rows).encode(), "a.csv": files[0], "b.csv": files[1], "sample.csv": text}


def faults_of_answer(words: list[str], held: Held, out: bytes, put: dict[str, bytes]) -> list[str]:
    """What is wrong with what a command that is done has printed and put, where several answers are right; `held` is what names
    held before it."""
    kind = words[0]
    if kind == "generate":
        return faults_of_generate(Front(made_input(int(words[1])), "s.toml").reviewed(), out)
    if kind == "duplicates":
        front = Front(held, words[1], is_within=True).read()
        return faults_of_groups(out, {pair for pair, _, it in front.decisions() if it == "link" and pair[0] < pair[1]}, front.a)
    if kind not in ("run", "many"):
        return []
    front = Front(held, words[1]).reviewed()
    if kind == "many":
        rows = [[cell.decode() for cell in row] for row in records(out)]
        cut = rows.index(PRICES_HEADER) if rows[:1] == [LINKS_HEADER] and PRICES_HEADER in rows else 0
        capacity = capacities(held[words[2]], front.b)
        faults = faults_of_links([text_of(rows[:cut]), text_of(rows[cut:])], front.candidates, capacity, front.a, front.b)
        return faults + ["a text is not written as rows are"] * (out != text_of(rows))
    texts = [put["links.csv"], put["prices.csv"]]
    faults = faults_of_links(texts, front.candidates, [1] * len(front.b.ids), front.a, front.b)
    links = [[cell.decode() for cell in row] for row in records(texts[0])[1:]]
    return faults or ["the report is another"] * (put["report.txt"] != report_text(front, links))


def faults_of_generate(front: Front, out: bytes) -> list[str]:
    """The same for `generate`: of the sixteen lines only the counts of links and of dropped candidates may be chosen."""
    wanted, given = (dict(line.split(" ", 1) for line in text.decode().splitlines()[:16]) for text in (report_text(front, []), out))
    best, count = best_total(front.candidates, [1] * len(front.b.ids)), int(given.get("links", -1))
    wanted |= {"links": str(count), "total": str(best), "dropped": str(len(front.candidates) - count)}
    return [] if wanted == given and 0 <= count and out.count(b"\n") == 16 else [f"the lines are not those of {wanted}"]
