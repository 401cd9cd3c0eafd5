"""How names are made from syllables, and how they come to be written otherwise. No name is taken from any list of people."""

from chance import Chance

VOWELS = "aeiou"
LETTERS = "abcdefghijklmnopqrstuvwxyz"

# Each culture: syllables to begin with, syllables in the middle, ends of surnames, ends of men's and of women's given names.
PLAIN = ("bar den fol gan hes kel lor mar nev pol ral stem tor vam wen dal cor hul bin tam gri shel bro pen",
         "a e i o ber ter lan din mo ra ven", "ick ow ett ard ing by worth ell", "er an ock us im", "a ine eth ie")
ACCENTED = ("bjö grå hæl kåt lör mün næs røl sjö tæn vöß žel łom čar śni går üf", "å e ö ner sta lin då rö",
            "vik sköv löw ström lund řek åsen", "åk ön ur ęk", "ä iå éa e")
ROMANISED = ("zhar khol chev yav shou tya vlou zhim khaz chou yar grou", "a i ou o dya ri no", "ov ouk yan zhin akh enko",
             "ey an il yor", "a ya ina oucha")
COMPOUND = ("ped ruz cal vel ser mon quir tol her bal nuñ cast", "a o e i ra da", "ez ado ilo era oso", "o ael án", "a ita éla")
CULTURES = tuple(tuple(part.split() for part in culture) for culture in (PLAIN, ACCENTED, ROMANISED, COMPOUND))

FOLDED = {"ö": "oe", "å": "aa", "æ": "ae", "ø": "oe", "ü": "ue", "ß": "ss", "ä": "ae"}
OTHER_SYSTEM = (("zh", "j"), ("kh", "h"), ("ch", "tch"), ("ou", "u"), ("ya", "ia"), ("ov", "off"), ("enko", "yenko"))
BY_EAR = (("ck", "k"), ("ph", "f"), ("ei", "ie"), ("c", "k"), ("v", "f"), ("y", "i"), ("ll", "l"), ("tt", "t"), ("ow", "au"), ("ar", "er"),
          ("w", "v"), ("z", "s"), ("d", "dt"), ("i", "ie"), ("e", "a"))


def word(chance: Chance, first: list[str], middle: list[str], last: list[str]) -> str:
    """A made word of two to four syllables, with a capital letter."""
    middles = [chance.of(middle) for _ in range(chance.of((0, 0, 1, 1, 2)))]
    return "".join([chance.of(first), *middles, chance.of(last)]).capitalize()


def words(chance: Chance, count: int, first: list[str], middle: list[str], last: list[str]) -> list[str]:
    """`count` different made words."""
    found: dict[str, None] = {}
    while len(found) < count:
        found[word(chance, first, middle, last)] = None
    return list(found)


def mistyped(chance: Chance, text: str) -> str:
    """A text with one letter put in, left out, changed, or two of them swapped; the first letter seldom."""
    at = min(chance.below(len(text)) if chance.happens(0.1) else 1 + chance.below(max(len(text) - 1, 1)), len(text) - 1)
    kind = chance.below(4)
    if kind == 0:
        return text[:at] + chance.of(LETTERS) + text[at:]
    if kind == 1 and len(text) > 2:
        return text[:at] + text[at + 1:]
    if kind == 2 or at + 1 == len(text):
        return text[:at] + chance.of(LETTERS) + text[at + 1:]
    return text[:at] + text[at + 1] + text[at] + text[at + 2:]


def with_typing_errors(chance: Chance, text: str) -> str:
    """A text with one typing error, or with two in one of five (Damerau 1964: over 80 % of misspelt words have one)."""
    once = mistyped(chance, text)
    return mistyped(chance, once) if chance.happens(0.2) else once


def mistyped_digits(chance: Chance, text: str) -> str:
    """A text of digits with one digit changed, or two neighbours swapped."""
    at = chance.below(len(text) - 1)
    if chance.happens(0.3):
        return text[:at] + text[at + 1] + text[at] + text[at + 2:]
    return text[:at] + str(chance.below(10)) + text[at + 1:]


def folded(text: str) -> str:
    """A text whose accented letters are written by two letters each, as typewriters without them did."""
    return "".join(FOLDED.get(letter, letter) for letter in text.lower()).title()


def replaced(text: str, old: str, new: str) -> str:
    """A text with the first place of `old` replaced, whatever its capitals."""
    lower = text.lower()
    at = lower.find(old)
    return text if at < 0 else (lower[:at] + new + lower[at + len(old):]).title()


def by_other_system(text: str) -> str:
    """A name romanised by the other of two systems."""
    lower = text.lower()
    for old, new in OTHER_SYSTEM:
        lower = lower.replace(old, new)
    return lower.title()


def by_ear(chance: Chance, text: str) -> str:
    """A name as another writer hears it: one to three changes of letters that sound alike."""
    for _ in range(chance.between(1, 3)):
        text = replaced(text, *chance.of(BY_EAR))
    return text


def nickname(text: str) -> str:
    """The short form of a given name: its front up to the first consonant after a vowel, and an i."""
    for at in range(1, len(text)):
        if text[at] not in VOWELS and text[at - 1].lower() in VOWELS:
            return text[:at + 1] + "i"
    return text[:3] + "i"
