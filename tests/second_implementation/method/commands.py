"""The commands: how each must end, by the definitions. No memory is wanted, and no call fails but the load of what is not there."""

import re
from dataclasses import dataclass, field
from functools import cached_property

import links as of_links
from links import Candidate, Entry, certified, journal_text
from pairs import Pair, compared, joined, prepared
from rule import RULE_HEADER, Cell, Shares, counted_shares, decided, filled, frontier_row
from settings import OUTPUTS, settings, within
from tables import MOST_WRITTEN_BYTES, Refused, load, refuse_if, table, text_of
from values import iso_date, name_value, nysiis, soundex

Held = dict[str, bytes]


@dataclass(frozen=True)
class Ended:
    """How a command ends: its status and fault, what it prints, what the names hold that it puts; None where several texts are right."""

    status: int
    fault: str = ""
    out: bytes | None = b""
    puts: dict[str, bytes | None] = field(default_factory=dict)


def done(*rows: list) -> Ended:
    """A command that is done and prints rows."""
    return Ended(0, out=text_of(list(rows)))


class Front:
    """What commands find in the files that a plan names; they ask for each at its turn in the one order of refusals."""

    def __init__(self, held: Held, name: str, needs_journal: bool = False, is_within: bool = False):
        plan = settings(load(held, name, "settings"))
        refuse_if(needs_journal and plan["journal"] is None, 3, "settings: missing key journal")
        self.held, self.plan = held, within(plan) if is_within else plan

    def read(self) -> "Front":
        """The front with both files read."""
        self.a, self.b = prepared(self.plan, self.held)
        return self

    def sampled(self) -> "Front":
        """The front with both files read where there is a sample, for else the rule needs none."""
        return self if self.plan["sample"] is None else self.read()

    def reviewed(self) -> "Front":
        """The front with its files, sample, pairs and journal read in turn."""
        self.read()
        self.decided, self.entries = self.decisions(), self.journal()
        self.verdicts = of_links.verdicts_of(self.entries)
        return self

    @cached_property
    def shares(self) -> Shares:
        """The shares of the settings, or those that the sample counts."""
        if self.plan["sample"] is None:
            return tuple((it["m"], it["u"]) for it in self.plan["field"])
        return counted_shares(self.plan, load(self.held, self.plan["sample"], "sample"), self.a, self.b)

    def cells(self) -> list[Cell]:
        """The rule."""
        return filled(self.shares, self.plan["mu_ppm"], self.plan["lambda_ppm"])

    def decisions(self) -> list[tuple[Pair, Cell, str]]:
        """The compared pairs with the decisions on them."""
        return decided(self.plan, self.shares, self.a, self.b)

    def journal(self) -> list[Entry]:
        """The entries of the journal, if the settings name one."""
        name = self.plan["journal"]
        return [] if name is None else of_links.journal(load(self.held, name, "journal"), self.a, self.b)

    @property
    def candidates(self) -> list[Candidate]:
        """The candidates for links."""
        return of_links.candidates(self.decided, self.verdicts, self.plan["award"])

    def possible(self) -> list[tuple[Pair, Cell]]:
        """The possible links."""
        return [(pair, cell) for pair, cell, it in self.decided if it == "possible"]

    def open(self) -> list[tuple[Pair, Cell]]:
        """The possible links that wait for a verdict."""
        return [(pair, cell) for pair, cell in self.possible() if self.verdicts.get(pair, "open") == "open"]

    def ids(self, pair: Pair) -> list[str]:
        """The ids of a pair."""
        return [self.a.ids[pair[0]], self.b.ids[pair[1]]]

    def pairs_text(self) -> bytes:
        """Every compared pair, and of a possible link the verdict that stands."""
        verdict = lambda pair, it: self.verdicts.get(pair, "") if it == "possible" else ""
        row = lambda pair, cell, it: [*self.ids(pair), cell.number, cell.letters(), cell.weight, it, verdict(pair, it)]
        return text_of(["id_a id_b pattern outcomes weight decision verdict".split(), *(row(*it) for it in self.decided)])


def keys(_: Held, *words: str) -> Ended:
    made = [name_value(word) for word in words]
    return done(*([it or "" for it in (value, soundex(value or ""), nysiis(value or ""))] for value in made))


def pairs(held: Held, name: str) -> Ended:
    front = Front(held, name).read()
    return done(["id_a", "id_b"], *(front.ids(it) for it in compared(front.plan, front.a, front.b)))


def pairs_of_column(held: Held, name_a: str, name_b: str, column: str) -> Ended:
    texts = [load(held, name, role) for name, role in zip((name_a, name_b), "ab")]
    fields = [[[row[0] or None] for row in table(text, role, [column])] for text, role in zip(texts, "ab")]
    return done(["row_a", "row_b"], *([i + 1, j + 1] for i, j in joined(*fields)))


def rule(held: Held, name: str) -> Ended:
    return done(RULE_HEADER, *(cell.row() for cell in Front(held, name).sampled().cells()))


def frontier(held: Held, name: str, *asked: str) -> Ended:
    front = Front(held, name).sampled()
    header = "mu_ppm mu lambda possible_m possible_u denominator slack_m slack_u".split()
    return done(header, *(frontier_row(front.shares, int(it), front.plan["lambda_ppm"]) for it in asked))


def open_(held: Held, name: str) -> Ended:
    front = Front(held, name).reviewed()
    return done(["id_a", "id_b", "pattern", "weight"], *([*front.ids(pair), cell.number, cell.weight] for pair, cell in front.open()))


def review(held: Held, name: str, verdicts: str, day: str, reviewer: str) -> Ended:
    front = Front(held, name, needs_journal=True).reviewed()
    batch, possible = of_links.new_verdicts(load(held, verdicts, "verdicts"), front.a, front.b), {it for it, _ in front.possible()}
    entries = of_links.added(front.entries, batch, iso_date(day), reviewer, possible, front.plan["double"])
    return Ended(0, puts={front.plan["journal"]: journal_text(entries, front.a, front.b)})


def migrate(held: Held, name: str) -> Ended:
    front = Front(held, name, needs_journal=True).read()
    return Ended(0, puts={front.plan["journal"]: journal_text(front.journal(), front.a, front.b)})


def run(held: Held, name: str) -> Ended:
    front = Front(held, name).reviewed()
    return Ended(0, puts=dict(zip(OUTPUTS, (front.pairs_text(), rule(held, name).out, None, None, None))))


def verify(held: Held, name: str) -> Ended:
    front = Front(held, name).reviewed()
    texts = [load(held, f"{it}.csv", it, MOST_WRITTEN_BYTES) for it in ("rule", "links", "prices")]
    rows, wanted = of_links.written(texts[0], RULE_HEADER, "rule"), [list(map(str, cell.row())) for cell in front.cells()]
    for row in range(max(len(rows), len(wanted))):
        refuse_if(rows[row : row + 1] != wanted[row : row + 1], 9, f"no: rule {row + 1}")
    certified(texts[1:], front.candidates, [1] * len(front.b.ids), front.a, front.b)
    return Ended(0, out=b"yes\n")


def duplicates(held: Held, name: str) -> Ended:
    Front(held, name, is_within=True).read().decisions()
    return Ended(0, out=None)


def many(held: Held, name: str, of_b: str) -> Ended:
    front = Front(held, name).reviewed()
    of_links.capacities(load(held, of_b, "capacities"), front.b)
    return Ended(0, out=None)


def generate(_: Held, number: str) -> Ended:
    return Ended(0, out=None)


HELP = """\
usage: linkage COMMAND
  run SETTINGS                            links two files: writes pairs, rule, links, prices and a report
  verify SETTINGS                         says whether rule, links and prices are what a run may write
  pairs SETTINGS                          prints the pairs that the blocking passes compare
  rule SETTINGS                           prints the decision rule, a row for each comparison pattern
  frontier SETTINGS MU..                  prints how clerical review falls as the level of wrong links grows
  open SETTINGS                           prints the possible links that wait for a verdict
  review SETTINGS VERDICTS DATE REVIEWER  adds the verdicts of a reviewer to the journal
  migrate SETTINGS                        writes a journal of the first version as one of the second
  duplicates SETTINGS                     prints the groups of records of A that links join
  many SETTINGS CAPACITIES                prints links of up to a stated number of records of A to each of B
  keys WORD..                             prints standard text, Soundex and NYSIIS key of names
  pairs A B COLUMN                        prints the rows of two files whose fields in a column are equal
  generate NUMBER                         runs a made input of so many rows a side in memory
  help                                    prints this
status: 0 done, 2 usage, 3 settings, 4 input, 5 limit, 6 store, 7 output, 8 memory, 9 refuted
"""


def help_(_: Held) -> Ended:
    return Ended(0, out=HELP.encode())


# The commands of a settings file alone.
OF_SETTINGS = {it.__name__.strip("_"): it for it in (pairs, rule, open_, run, verify, migrate, duplicates)}


def command_of(words: list[str]):
    """The command of which words are a form, if any."""
    kind, *rest = words or [""]
    is_name = lambda it: 1 <= len(it.encode()) <= 255
    is_level = lambda it: re.fullmatch("0|[1-9][0-9]{0,5}|1000000", it)
    rising = lambda them: all(map(is_level, them)) and all(int(x) < int(y) for x, y in zip(them, them[1:]))
    if kind == "keys":
        return keys if 1 <= len(rest) <= 100 and all(len(it.encode()) <= 255 for it in rest) else None
    if kind in ("help", "--help"):
        return help_ if not rest else None
    if kind == "generate":
        return generate if len(rest) == 1 and re.fullmatch("[2-9]|[1-9][0-9]{1,4}|100000", rest[0]) else None
    if kind == "pairs" and len(rest) == 3:
        return pairs_of_column if all(map(is_name, rest)) else None
    if not rest or not is_name(rest[0]) or rest[0] in OUTPUTS:
        return None
    if kind == "frontier":
        return frontier if 2 <= len(rest) <= 101 and rising(rest[1:]) else None
    if kind == "review":
        return review if len(rest) == 4 and is_name(rest[1]) and iso_date(rest[2]) and is_name(rest[3]) else None
    if kind == "many":
        return many if len(rest) == 2 and is_name(rest[1]) else None
    return OF_SETTINGS.get(kind) if len(rest) == 1 else None


# What a command loads where nothing is refused, in this order, after its settings.
LOADS = {
    "pairs": "a b",
    "rule": "a b sample",
    "frontier": "a b sample",
    "open": "a b sample journal",
    "review": "a b sample journal verdicts",
    "migrate": "a b journal",
    "run": "a b sample journal",
    "verify": "a b sample journal rule links prices",
    "many": "a b sample journal capacities",
    "duplicates": "a sample",
}


def perform(words: list[str], held: Held) -> Ended:
    """How a command must end over what names hold."""
    command = command_of(words)
    if command is None:
        return Ended(2, "usage")
    try:
        return command(held, *words[1:])
    except Refused as it:
        return Ended(9, out=f"{it.text}\n".encode()) if it.status == 9 else Ended(it.status, it.text)
