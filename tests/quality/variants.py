"""The settings of a kind, and variants of them by which one choice at a time is measured.

Those of the register are the settings to start from, docs/start/settings.toml, with the lines changed that a user changes; the other
kinds have files of their own in settings/.
"""

import re
import sys
from collections.abc import Callable
from pathlib import Path

HERE = Path(__file__).resolve().parent
sys.path.insert(0, str(HERE.parent))
from tally import ROOT  # noqa: E402

START = ROOT / "docs/start/settings.toml"
# The lines of the settings to start from that a user with the made register changes: his files have the names of columns that stand there.
CHANGED = {"file_a": '"a.csv"', "file_b": '"b.csv"'}
TOWN = """
[[field]]
name = "town"
column_b = "place"
kind = "place"
compare = "nysiis"
m = [800, 200, 24]
u = [20, 980, 24]
"""
SURNAME_AGAIN = """
[[field]]
name = "surname_again"
column_a = "surname"
column_b = "last_name"
kind = "name"
compare = "exact"
m = [820, 180, 24]
u = [2, 998, 24]
"""


def to_start_from() -> str:
    """The settings to start from with the changed lines, each of which must have the arrow that tells a user to look at it."""
    text = START.read_text(encoding="utf-8")
    for key, value in CHANGED.items():
        text, count = re.subn(rf'(?m)^{key} = .*?(?= *# <-)', f"{key} = {value}", text)
        if count != 1:
            raise ValueError(f"{START}: no line {key} = .. with an arrow")
    return text


def settings_of(kind: str) -> str:
    """The settings of a kind with guessed shares and a journal."""
    if kind.startswith("register"):
        return re.sub("(?m)^# journal = ", "journal = ", to_start_from())
    return (HERE / "settings" / f"{kind}.toml").read_text(encoding="utf-8")


def field_replaced(text: str, name: str, block: str) -> str:
    """Settings with another field in the place of the one of a name."""
    return re.sub(rf'(?s)\n\[\[field\]\]\nname = "{name}".*?(?=\n\n)', block.rstrip(), text)


def without_rare(text: str) -> str:
    """Settings without a rare number; what agreed on a rare value agrees."""
    text = re.sub(r"(?m)^rare = .*\n", "", text)
    return re.sub(r"(?m)^([mu]) = \[(\d+), (\d+), (\d+), (\d+)\]",
                  lambda it: f"{it[1]} = [{int(it[2]) + int(it[5])}, {it[3]}, {it[4]}]", text)


def first_letters(text: str) -> str:
    """The given name by its first four letters in the place of Soundex."""
    head, tail = text.split('name = "given"', 1)
    return head + 'name = "given"' + tail.replace('compare = "soundex"', 'compare = "first"\nn = 4', 1)


# Each takes the settings of the register.
VARIANTS: dict[str, Callable[[str], str]] = {
    "": lambda text: text,
    "town for the year": lambda text: field_replaced(text, "year", TOWN),
    "town for sex": lambda text: field_replaced(text, "sex", TOWN),
    "surname again, exact, for sex": lambda text: field_replaced(text, "sex", SURNAME_AGAIN),
    "given name by four letters": first_letters,
    "no rare surnames": without_rare,
}
