"""Says the shares m and u of each field as lines for the settings, exactly as they stand behind a job's rule.

  shares SETTINGS             the lines, by the rule in rule.csv
  shares SETTINGS --whole     the settings with these lines in the place of the sample
  shares SETTINGS --m-of FILE the same with the m of the settings FILE, as they were guessed, and u alone as it is counted
  shares SETTINGS --rule FILE the same of another file of a rule, as `linkage rule` prints it

Under the settings that --whole makes, `linkage rule` prints the same bytes, whatever becomes of the sample later: so the shares of one
sample serve a second job, or are kept when the files grow.

How: the chance of a pattern is the product of the shares of its outcomes, and the shares of each field add up to 1,024. So the chances
of all patterns that have an outcome in a field add up to its share, times 1,024 to the number of the other fields (Fellegi and Sunter
1969, section 2, the fields taken as independent). Each chance of the rule is then checked against the product.
"""

import re
import tomllib
from math import prod
from pathlib import Path

from .job import RULE_HEADER, Cell, Job, cells_of
from .settings import Settings
from .tables import MARK, Fault, load, read_table
from .words import Words, give, start

UNIT = 1024
Shares = dict[str, int]  # of a field, by the letters of its outcomes


def shares_of(name: str, cells: list[Cell], letters: list[str]) -> list[tuple[Shares, Shares]]:
    """The shares m and u of each field. Fault: the patterns are not all those of the fields, or their chances are no products."""
    if sorted(cell.outcomes for cell in cells) != sorted(all_outcomes(letters)):
        raise Fault(f"{name}: has not the patterns of the fields of the settings")
    others = UNIT ** (len(letters) - 1)
    found = []
    for at, of_field in enumerate(letters):
        of_m = {it: sum(cell.m for cell in cells if cell.outcomes[at] == it) // others for it in of_field}
        of_u = {it: sum(cell.u for cell in cells if cell.outcomes[at] == it) // others for it in of_field}
        found.append((of_m, of_u))
    for row, cell in enumerate(cells, 1):
        made = tuple(prod(shares[which][it] for shares, it in zip(found, cell.outcomes)) for which in (0, 1))
        if made != (cell.m, cell.u):
            raise Fault(f"{name}: row {row}: m and u are not products of shares")
    return found


def all_outcomes(letters: list[str]) -> list[str]:
    """The outcomes of all patterns of fields with these letters."""
    found = [""]
    for of_field in letters:
        found = [front + it for front in found for it in of_field]
    return found


def lines_of(shares: tuple[Shares, Shares]) -> list[str]:
    """The lines of a field."""
    return [f"{name} = {list(them.values())}" for name, them in zip("mu", shares)]


def whole(settings: Settings, text: str, shares: list[tuple[Shares, Shares]]) -> str:
    """The text of settings with the shares of each field in the place of the sample. Fault: it is written so that this goes wrong."""
    text = re.sub(r"(?m)^[ \t]*[mu][ \t]*=[^\n]*\n", "", text)
    text = re.sub(r"(?m)^[ \t]*sample[ \t]*=[^\n]*\n", "", text)
    fields = iter(shares)
    head = re.compile(r"(?m)^([ \t]*\[\[[ \t]*field[ \t]*\]\][^\n]*\n)")
    text = head.sub(lambda it: it[0] + "".join(f"{line}\n" for line in lines_of(next(fields, ({}, {})))), text)
    wanted = tomllib.loads(load_text(settings.name))
    wanted.pop("sample", None)
    for field, (of_m, of_u) in zip(wanted["field"], shares):
        field |= {"m": list(of_m.values()), "u": list(of_u.values())}
    try:
        is_right = tomllib.loads(text) == wanted
    except ValueError:
        is_right = False
    if not is_right:
        how = "a field is not written as a table [[field]] with m and u on a line each"
        raise Fault(f"{settings.name}: put the lines in by hand, for {how}")
    return text


def with_m_of(settings: Settings, other: Settings, shares: list[tuple[Shares, Shares]]) -> list[tuple[Shares, Shares]]:
    """The shares with the m of other settings. Fault: these have a field of the name without m, none, or one of other outcomes."""
    m_of = {field.name: dict(zip(field.letters(), field.m or [])) for field in other.fields}
    for field in settings.fields:
        if list(m_of.get(field.name, {})) != list(field.letters()):
            raise Fault(f"{other.name}: has no m of the outcomes of field {field.name}")
    return [(m_of[field.name], of_u) for field, (_, of_u) in zip(settings.fields, shares)]


def load_text(name: str) -> str:
    """The text of the settings, line ends as LF."""
    return load(Path(name)).removeprefix(MARK).decode().replace("\r\n", "\n")


def tool(given: list[str]) -> None:
    """Says the shares by the words of the command line."""
    parser = Words("shares", __doc__)
    parser.add_argument("settings", help="the settings of the job; run where the program runs")
    parser.add_argument("--rule", type=Path, metavar="FILE", default=Path("rule.csv"), help="the file of the rule (rule.csv)")
    parser.add_argument("--whole", action="store_true", help="the settings whole, with the lines in the place of the sample")
    parser.add_argument("--m-of", metavar="FILE", help="the settings whole, with the shares m of other settings")
    parser.add_argument("-o", "--out", type=Path, metavar="FILE", help="the new file; else it is printed")
    words = parser.parse_args(given)
    settings = Job(words.settings).settings
    table = read_table(words.rule)
    if table.header != RULE_HEADER:
        raise Fault(f"{words.rule}: is no rule as `linkage rule` prints it")
    shares = shares_of(str(words.rule), cells_of(str(words.rule), iter(table.rows)), [field.letters() for field in settings.fields])
    if words.m_of:
        shares = with_m_of(settings, Job(words.m_of).settings, shares)
    if words.whole or words.m_of:
        give(whole(settings, load_text(words.settings), shares), words.out)
        return
    lines = []
    for field, of_field in zip(settings.fields, shares):
        outcomes = ", ".join({"A": "agree", "D": "disagree", "M": "missing", "R": "rare"}[it] for it in field.letters())
        lines += [f"# {field.name}: {outcomes}", *lines_of(of_field)]
    give("".join(f"{line}\n" for line in lines), words.out)


if __name__ == "__main__":
    start("shares", tool)
