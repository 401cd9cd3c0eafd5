"""Values: what texts become, and what two values are compared by and blocked by."""

import re
import unicodedata
from datetime import date
from functools import cache

Value = str | date | None
Listed = tuple[str, ...]
MARKS, TITLES, SUFFIXES = ("", "-", "?", "N/A"), ("MR", "MRS", "MS", "MISS", "DR", "PROF", "REV", "SIR"), ("JR", "SR", "II", "III", "IV")
# The words of comparisons and of keys: of names and places, and of dates; those that take a number of letters, and those that take how far
# two values may be apart, with its limit. What a word makes of a value stands in CANONS below.
COMPARES = {False: ("exact", "soundex", "nysiis", "first", "initials"), True: ("exact", "days", "years")}
KEYS = {False: ("whole", "soundex", "nysiis", "first"), True: ("whole", "year")}
LETTERED = ("first",)
APART = {"days": 36_500, "years": 100}
# Unicode's property White_Space
WHITE = "\t\n\v\f\r \x85\xa0\u1680" + "".join(map(chr, range(0x2000, 0x200B))) + "\u2028\u2029\u202f\u205f\u3000"
LETTERS = {"ß": "SS", "ẞ": "SS", "Æ": "AE", "æ": "AE", "Œ": "OE", "œ": "OE", "Ø": "O", "ø": "O", "Ł": "L", "ł": "L"}
LETTERS |= {"Đ": "D", "đ": "D", "Ð": "D", "ð": "D", "Þ": "TH", "þ": "TH"}
APOSTROPHES = "\u0027\u0060\u00b4\u02bc\u2018\u2019"
VOWELS = "AEIOU"
CODES = {letter: code for code, letters in enumerate(("BFPV", "CGJKQSXZ", "DT", "L", "MN", "R"), 1) for letter in letters}
FRONTS = (("MAC", "MCC"), ("KN", "NN"), ("K", "C"), ("PH", "FF"), ("PF", "FF"), ("SCH", "SSS"))
ENDS = (("EE", "Y"), ("IE", "Y"), ("DT", "D"), ("RT", "D"), ("RD", "D"), ("NT", "D"), ("ND", "D"))


@cache
def words_of(text: str) -> list[str]:
    """The words of a text, without accents and apostrophes, in capitals; what is neither a letter nor a digit of ASCII parts words."""
    is_kept = lambda it: it.isascii() and it.isalnum() or it > "\x7f" and unicodedata.category(it) in ("Lu", "Ll", "Lt", "Lm", "Lo")
    chars = [it for it in unicodedata.normalize("NFD", text) if unicodedata.category(it) not in ("Mn", "Mc", "Me")]
    chars = [it for char in chars for it in LETTERS.get(char, char)]
    chars = [it.upper() if it.isascii() else it for it in chars if it not in APOSTROPHES]
    return [word for word in "".join(it if is_kept(it) else " " for it in chars).split(" ") if word]


def name_value(text: str, marks: Listed = MARKS, titles: Listed = TITLES, suffixes: Listed = SUFFIXES, replaced: tuple = ()) -> str | None:
    """The standard value of a name, or of a place where there are no titles and suffixes."""
    text = text.strip(WHITE)
    words = [] if text in marks else words_of(text)
    while len(words) > 1 and words[0] in titles:
        words = words[1:]
    while len(words) > 1 and words[-1] in (*titles, *suffixes):
        words = words[:-1]
    return " ".join(dict(replaced).get(word, word) for word in words) or None


def day_of(text: str, *patterns: str) -> date | None:
    """The day of the calendar that the y, m and d of the first of some patterns that fits a text name, if any."""
    match = next(filter(None, (re.fullmatch(it, text) for it in patterns)), None)
    try:
        return match and date(int(match["y"]), int(match["m"]), int(match["d"]))
    except ValueError:
        return None


def iso_date(text: str) -> date | None:
    """The day of a text YYYY-MM-DD."""
    return day_of(text, "(?P<y>[0-9]{4})-(?P<m>[0-9]{2})-(?P<d>[0-9]{2})")


@cache
def date_value(text: str, form: str, marks: Listed = MARKS) -> tuple[date | None, bool]:
    """The day of a text in the order of a form, if any, and whether the text could be read."""
    text = text.strip(WHITE)
    runs = lambda width: tuple(f"(?P<{it}>[0-9]{{{4 if it == 'y' else width}}})" for it in form)
    day = None if text in marks else day_of(text, "%s(?P<sign>[-/.])%s(?P=sign)%s" % runs("1,2"), "%s%s%s" % runs("2"))
    return day, day is not None or text in marks


@cache
def soundex(text: str) -> str | None:
    """Knuth's key: a later letter counts where its code differs from that of the nearest letter before it other than H and W."""
    letters = re.sub("[^A-Z]", "", text)
    if not letters:
        return None
    key, before = letters[0], CODES.get(letters[0]) if letters[0] not in "HW" else None
    for letter in re.sub("[HW]", "", letters[1:]):
        if letter in CODES and CODES[letter] != before:
            key += str(CODES[letter])
        before = CODES.get(letter)
    return (key + "000")[:4]


@cache
def nysiis(text: str) -> str | None:
    """The key by this project's steps: front, end, body letter by letter on the rewritten text, tail."""
    work = re.sub("[^A-Z]", "", text)
    if not work:
        return None
    work = next((new + work[len(old) :] for old, new in FRONTS if work.startswith(old)), work)
    work = next((work[: -len(old)] + new for old, new in ENDS if work.endswith(old)), work)
    key = work[0]
    for at in range(1, len(work)):
        work = work[:at] + rewritten(work[at - 1], work[at:])
        key += work[at] if work[at] != key[-1] else ""
    for old, new in (("S", ""), ("AY", "Y"), ("A", "")):
        if key.endswith(old) and len(key) > len(old):
            key = key[: -len(old)] + new
    return key[:6]


def rewritten(before: str, rest: str) -> str:
    """The rest of a working text, whose front is rewritten by the first rule that fits; `before` is the letter before it."""
    rules = [("EV", "AF"), *((it, "A") for it in VOWELS), ("Q", "G"), ("Z", "S"), ("M", "N"), ("KN", "NN"), ("K", "C")]
    for old, new in [*rules, ("SCH", "SSS"), ("PH", "FF")]:
        if rest.startswith(old):
            return new + rest[len(old) :]
    is_silent_h = rest[0] == "H" and (before not in VOWELS or rest[1:2] not in tuple(VOWELS))
    return before + rest[1:] if is_silent_h or rest[0] == "W" and before in VOWELS else rest


# By the word of a comparison or a key what it makes of a value that is there, and of a number of letters; none where there is nothing.
CANONS = {
    **dict.fromkeys(("exact", "whole"), lambda it, _: it),
    "soundex": lambda it, _: soundex(it),
    "nysiis": lambda it, _: nysiis(it),
    "first": lambda it, n: it[:n],
    "initials": lambda it, _: "".join(word[0] for word in it.split(" ")),
    "days": lambda it, _: it.toordinal(),
    **dict.fromkeys(("years", "year"), lambda it, _: it.year),
}


def canon_of(kind: str, value: Value, n: int | None) -> Value | int:
    """What a value is compared or blocked by; none where it has nothing of the kind. Days and years are numbers."""
    return None if value is None else CANONS[kind](value, n)
