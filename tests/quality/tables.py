"""The table of quality: its columns, its cells as text, its text, and how two rows differ."""

from pathlib import Path

from measure import Pair, Quality, share

Tables = dict[str, dict[str, list[str]]]  # name of a table, part, cells

COLUMNS = {
    "populations": ["records of A", "records of B", "matched pairs", "digest of the files"],
    "samples": ["pairs looked at", "matched", "unmatched"],
    "quality": ["precision", "recall", "links", "wrong links", "of them by review", "lost by blocking", "called non-links", "in review",
                "right in review", "asked of the reviewer", "right ones among them"],
    "levels": ["asked mu", "attained mu", "actual mu, compared", "actual mu, all", "linked by rule, unmatched", "asked lambda",
               "attained lambda", "actual lambda, compared"],
    "sizes": ["draws", "pairs looked at", "precision", "recall", "asked mu", "attained mu", "actual mu", "in review"],
    "passes": ["compared pairs", "matched pairs lost", "guessed from all", "guessed from a sample"],
    "counts": ["unmatched pairs spoken of", "may be linked", "linked by rule", "left by the choice", "expected in review", "in review"],
}
HEAD = """\
# The table of quality

Written by `tests/quality/run --keep`; what the columns mean stands in README.md. Size: {persons} persons in the first file; the three
parts that begin with `register of 20,000` are of 20,000 and 25,000. `tests/quality/run --persons 20000` prints all others at that size.
"""


def quality_cells(it: Quality, asked: tuple[int, int] | None = None) -> list[str]:
    """The cells of a job; `asked` are the pairs that the reviewer was asked about, and the right ones among them."""
    return [f"{it.precision:.4f}", f"{it.recall:.4f}", str(it.links), str(it.wrong), str(it.wrong_by_review), str(it.blocked),
            str(it.lost + it.lost_by_review), str(it.open), str(it.open_right), *(str(count) for count in asked or "--")]


def level_cells(it: Quality) -> list[str]:
    return [str(it.asked_mu), f"{it.attained_mu:.2f}", f"{it.mu_compared:.1f}", f"{it.mu_space:.3f}", str(it.linked_unmatched),
            str(it.asked_lambda), f"{it.attained_lambda:.2f}", f"{it.lambda_compared:.1f}"]


def count_cells(it: Quality, compared: bool) -> list[str]:
    """What the levels let expect, where the shares speak of the compared pairs or of all, and what came."""
    matched, unmatched = it.spoken_of(compared)
    review = (matched * it.possible_m + unmatched * it.possible_u) / 1e6
    return [str(unmatched), f"{unmatched * it.asked_mu / 1e6:.0f}", str(it.linked_unmatched), str(it.wrong), f"{review:.0f}",
            str(it.possible)]


def plain_cells(links: set[Pair], truth: set[Pair]) -> list[str]:
    """The cells of a method that knows links alone; a dash where a column says nothing of it."""
    right = len(links & truth)
    return [f"{share(right, len(links)):.4f}", f"{share(right, len(truth)):.4f}", str(len(links)), str(len(links) - right), *"-------"]


def line(cells: list[str]) -> str:
    return f"| {' | '.join(cells)} |\n"


def text(found: Tables, persons: int) -> str:
    """The tables, each under its name, as Markdown."""
    parts = [HEAD.format(persons=f"{persons:,}")]
    for name, columns in COLUMNS.items():
        rows = [line(["part", *columns]), line(["---"] * (len(columns) + 1))]
        rows += [line([part, *cells]) for part, cells in found[name].items()]
        parts.append(f"## {name}\n\n{''.join(rows)}")
    return "\n".join(parts)


def stored(path: Path) -> Tables:
    """The tables of a text that `text` wrote; without one, tables without rows."""
    found: Tables = {name: {} for name in COLUMNS}
    name = ""
    for row in path.read_text(encoding="utf-8").splitlines() if path.is_file() else []:
        if row.startswith("## "):
            name = row[3:]
        elif row.startswith("| ") and not row.startswith(("| part |", "| --- |")):
            part, *cells = [cell.strip() for cell in row.strip("|").split("|")]
            found[name][part] = cells
    return found


def differences(columns: list[str], given: list[str], wanted: list[str] | None) -> list[str]:
    """A line for each cell that is not the stored one, with both."""
    if wanted is None or len(wanted) != len(columns):
        return [f"table.md has no such row; given: {' | '.join(given)}"]
    return [f"{column}: given {new}, stored {old}" for column, new, old in zip(columns, given, wanted, strict=True) if new != old]
