"""Made files of people of known truth.

usage: population KIND SEED FOLDER [--persons N]

Writes into FOLDER the files of a job, and `truth.csv` (id_a,id_b: the pairs that are of one person). KIND is one of

register    a.csv, b.csv: a register of N persons (20,000) and a census of 5/4 N; 4/5 N persons are in both
historical  a.csv, b.csv: two old censuses of N (20,000) and 5/4 N persons, of whom 11/20 N are in both: few fields, ages for births,
            spelling by ear
duplicates  a.csv: a register of N persons (20,000), some of whom stand in it twice or three times
households  a.csv: N persons (20,000); b.csv: households; capacities.csv: how many persons each has

All is made from syllables, and drawn by SEED: the same words should give the same bytes with each version of Python from 3.11
(tried with 3.11 alone).

Where a rate of error comes from (what is said of a work was not looked up again, and may differ from it):
- in matched pairs of the test census of 1988 given names agreed letter by letter in 75 to 82 %, surnames in 85 to 88 % (Winkler 1990,
  three places). The rates for names below are chosen to come near.
- one typing error a word in four of five, else two (Damerau 1964); the first letter seldom: assumed one in ten.
- errors come together: one record in ten is a poor one, with four times the rates; assumed. The premise that fields err independently
  of one another is thus wrong here, as it is in life.
- a wrong digit never makes a year before 1860 or after that of the register, since those who enter dates refuse such a year; before this
  was so, births of 0903 and 8926 stood in the files. A day or month that cannot be is let through, and cannot be read.
- all others: assumed.
"""

import argparse
import csv
import sys
from dataclasses import dataclass, replace
from pathlib import Path

from chance import Chance
from people import YEAR, Country, Person, later, population
from spelling import by_ear, by_other_system, folded, mistyped_digits, nickname, with_typing_errors

PERSONS = 20_000
MARKS = ("", "-", "?", "N/A", "UNKNOWN")
TITLES = ("Dr.", "Prof.", "Mrs", "Rev")
FIRST_YEAR = "1860"  # of a birth that is taken when it is entered
POOR, POORER = 0.1, 4.0  # share of poor records; their rates, times those of the others

Row = list[str]


@dataclass(frozen=True)
class Rates:
    """How often a record of a file has what, as shares of its records."""

    surname_typed: float  # a typing error in the surname
    given_typed: float
    place_typed: float  # in birthplace, and in town
    respelt: float  # of names with accents or of another script: written the file's other way
    by_ear: float  # a name written as heard
    nickname: float
    swapped: float  # of persons with several given names: another one first
    initial: float  # the first given name as its initial
    others: float  # of persons with several given names: all of them are written
    title: float
    suffix: float  # a Jr behind the surname
    half: float  # of surnames of two parts: one of them
    exchanged: float  # surname and given name in each other's column
    digit: float  # a wrong digit in the birth
    order: float  # month and day exchanged where both are at most 12
    first_of_month: float  # the day was not known, and the first was written
    other_place: float  # another birthplace is stated
    no_surname: float
    no_given: float
    no_birth: float
    no_birthplace: float
    no_town: float
    no_sex: float
    wrong_sex: float


REGISTER = Rates(surname_typed=0.012, given_typed=0.012, place_typed=0.01, respelt=0.0, by_ear=0.003, nickname=0.004, swapped=0.01,
                 initial=0.002, others=0.8, title=0.01, suffix=0.004, half=0.03, exchanged=0.001, digit=0.006, order=0.002,
                 first_of_month=0.003, other_place=0.02, no_surname=0.0005, no_given=0.002, no_birth=0.004, no_birthplace=0.03,
                 no_town=0.01, no_sex=0.002, wrong_sex=0.001)
CENSUS = Rates(surname_typed=0.03, given_typed=0.03, place_typed=0.025, respelt=0.25, by_ear=0.01, nickname=0.025, swapped=0.05,
               initial=0.015, others=0.4, title=0.02, suffix=0.01, half=0.15, exchanged=0.003, digit=0.015, order=0.006,
               first_of_month=0.012, other_place=0.05, no_surname=0.003, no_given=0.006, no_birth=0.02, no_birthplace=0.05,
               no_town=0.01, no_sex=0.005, wrong_sex=0.003)
OLD = Rates(surname_typed=0.02, given_typed=0.02, place_typed=0.03, respelt=0.3, by_ear=0.22, nickname=0.07, swapped=0.08, initial=0.04,
            others=0.2, title=0.02, suffix=0.0, half=0.2, exchanged=0.002, digit=0.0, order=0.0, first_of_month=0.0, other_place=0.1,
            no_surname=0.006, no_given=0.01, no_birth=0.02, no_birthplace=0.04, no_town=0.0, no_sex=0.003, wrong_sex=0.003)


class Clerk:
    """Writes records of persons as a file's people did, with their errors."""

    def __init__(self, rates: Rates, chance: Chance, form: str):
        self.rates, self.chance, self.form, self.times = rates, chance, form, 1.0

    def begins(self) -> None:
        """Draws whether the next record is a poor one."""
        self.times = POORER if self.chance.happens(POOR) else 1.0

    def errs(self, rate: float) -> bool:
        return self.chance.share() < min(rate * self.times, 0.9)

    def missing(self, text: str, rate: float) -> str:
        return self.chance.of(MARKS) if self.errs(rate) else text

    def name(self, text: str, culture: int, typed: float) -> str:
        """A name with what culture, ear and hand do to it."""
        if culture in (1, 2) and self.chance.happens(self.rates.respelt):
            text = folded(text) if culture == 1 else by_other_system(text)
        if self.errs(self.rates.by_ear):
            text = by_ear(self.chance, text)
        return with_typing_errors(self.chance, text) if self.errs(typed) else text

    def surname(self, person: Person) -> str:
        text = self.name(person.surname, person.culture, self.rates.surname_typed)
        if "-" in text and self.errs(self.rates.half):
            text = self.chance.of(text.split("-"))
        if self.errs(self.rates.suffix):
            text += " Jr"
        return text.upper() if self.form == "dmy" and self.chance.happens(0.2) else text

    def given(self, person: Person) -> str:
        names = list(person.given)
        if len(names) > 1 and self.errs(self.rates.swapped):
            names = names[1:] + names[:1]
        if len(names) > 1 and not self.chance.happens(self.rates.others):
            names = names[:1] if self.chance.happens(0.6) else [names[0], names[1][0] + "."]
        if self.errs(self.rates.nickname):
            names[0] = nickname(names[0])
        names[0] = self.name(names[0], person.culture, self.rates.given_typed)
        if self.errs(self.rates.initial):
            names[0] = names[0][0] + "."
        title = [self.chance.of(TITLES)] if self.errs(self.rates.title) else []
        return " ".join(title + names)

    def birth(self, person: Person) -> str:
        """The date of birth in the order of the file."""
        year, month, day = person.birth
        day = 1 if self.errs(self.rates.first_of_month) else day
        if day <= 12 and self.errs(self.rates.order):
            month, day = day, month
        text = f"{year:04}{month:02}{day:02}"
        text = self.with_wrong_digit(text) if self.errs(self.rates.digit) else text
        if self.form == "ymd":
            return "-".join((text[:4], text[4:6], text[6:]))
        return self.chance.of("..../").join((text[6:], text[4:6], text[:4]))

    def with_wrong_digit(self, text: str) -> str:
        """A date of eight digits with one mistyped; a year in which nobody alive was born is not taken when it is entered."""
        while True:
            wrong = mistyped_digits(self.chance, text)
            if FIRST_YEAR <= wrong[:4] <= str(YEAR):
                return wrong

    def place(self, text: str) -> str:
        text = with_typing_errors(self.chance, text) if self.errs(self.rates.place_typed) else text
        return text.replace("Saint ", "St. ") if self.form == "dmy" and self.chance.happens(0.5) else text

    def sex(self, person: Person) -> str:
        sex = {"M": "F", "F": "M"}[person.sex] if self.errs(self.rates.wrong_sex) else person.sex
        return sex if self.form == "ymd" else {"M": "male", "F": "female"}[sex]

    def names(self, person: Person) -> Row:
        """Surname and given name, at times each in the other's column."""
        surname, given = self.missing(self.surname(person), self.rates.no_surname), self.missing(self.given(person), self.rates.no_given)
        return [given, surname] if self.errs(self.rates.exchanged) else [surname, given]

    def birthplace(self, person: Person, country: Country) -> str:
        stated = country.towns.draw(self.chance) if self.errs(self.rates.other_place) else person.birthplace
        return self.missing(self.place(stated), self.rates.no_birthplace)

    def record(self, person: Person, country: Country) -> Row:
        """surname, given, birth, sex, birthplace, town."""
        self.begins()
        birth, sex = self.missing(self.birth(person), self.rates.no_birth), self.missing(self.sex(person), self.rates.no_sex)
        town = self.missing(self.place(person.town), self.rates.no_town)
        return [*self.names(person), birth, sex, self.birthplace(person, country), town]

    def old_record(self, person: Person, country: Country, year: int) -> Row:
        """surname, given, birth as 1 July of the year less the stated age, sex, birthplace."""
        self.begins()
        age = year - person.birth[0] - self.chance.below(2)
        if self.errs(0.3):
            age += self.chance.of((-3, -2, -2, -1, -1, -1, 1, 1, 1, 2, 2, 3))
        if age > 20 and self.errs(0.1):
            age = (age + 2) // 5 * 5
        birth = f"{year - max(age, 0):04}-07-01"
        return [*self.names(person), self.missing(birth, self.rates.no_birth), self.missing(self.sex(person), self.rates.no_sex),
                self.birthplace(person, country)]


def write(path: Path, header: str, rows: list[Row], delimiter: str = ",") -> None:
    """Writes a table; `header` has commas."""
    with path.open("w", encoding="utf-8", newline="") as out:
        table = csv.writer(out, delimiter=delimiter, lineterminator="\n")
        table.writerow(header.split(","))
        table.writerows(rows)


def compounded(country: Country, people: list[Person], chance: Chance) -> list[Person]:
    """The people, of whom those of the last culture mostly bear two surnames, or a particle."""
    second: dict[int, str] = {}
    found = []
    for person in people:
        if person.culture == 3:
            if person.line not in second:
                other = country.surnames[3].draw(chance)
                second[person.line] = chance.of((f"-{other}", f"-{other}", "", "de "))
            tail = second[person.line]
            name = tail + person.surname if tail == "de " else person.surname + tail
            person = replace(person, surname=name)
        found.append(person)
    return found


def two_sides(seed: str, size_a: int, size_b: int, both: int) -> tuple[Country, list[Person], list[Person], list[int]]:
    """A country; the people of A, those of B as they are later, each in its own order; and who is in both, by number."""
    country, everyone = population(seed, size_a + size_b - both)
    chance = Chance(seed, "sides")
    everyone = compounded(country, everyone, chance)
    order = chance.shuffled(range(len(everyone)))
    in_a, in_b = order[:size_a], order[:both] + order[size_a:]
    after = later(country, everyone, chance)
    return country, [everyone[at] for at in chance.shuffled(in_a)], [after[at] for at in chance.shuffled(in_b)], sorted(order[:both])


def identities(seed: str, letter: str, people: list[Person]) -> dict[int, str]:
    """An id for each person of a side, which tells nothing of the other side's."""
    numbers = Chance(seed, "ids", letter).shuffled(range(10_000, 10_000 + len(people)))
    return {person.number: f"{letter}{number}" for person, number in zip(people, numbers, strict=True)}


def write_truth(folder: Path, pairs: list[Row]) -> None:
    write(folder / "truth.csv", "id_a,id_b", sorted(pairs))


def make_register(seed: str, folder: Path, persons: int) -> None:
    """A register and a census; a fifth of the register is not in the census."""
    country, side_a, side_b, both = two_sides(seed, persons, persons * 5 // 4, persons * 4 // 5)
    ids_a, ids_b = identities(seed, "R", side_a), identities(seed, "C", side_b)
    clerk_a, clerk_b = Clerk(REGISTER, Chance(seed, "a"), "ymd"), Clerk(CENSUS, Chance(seed, "b"), "dmy")
    write(folder / "a.csv", "id,surname,given,birth,sex,birthplace,town",
          [[ids_a[person.number], *clerk_a.record(person, country)] for person in side_a])
    write(folder / "b.csv", "person,last_name,first_name,born,sex,born_in,place",
          [[ids_b[person.number], *clerk_b.record(person, country)] for person in side_b], ";")
    write_truth(folder, [[ids_a[number], ids_b[number]] for number in both])


def make_historical(seed: str, folder: Path, persons: int) -> None:
    """Two censuses ten years apart, of which hardly more than half of the persons are in both."""
    country, side_a, side_b, both = two_sides(seed, persons, persons * 5 // 4, persons * 11 // 20)
    ids_a, ids_b = identities(seed, "O", side_a), identities(seed, "N", side_b)
    clerk_a, clerk_b = Clerk(OLD, Chance(seed, "a"), "ymd"), Clerk(OLD, Chance(seed, "b"), "ymd")
    header = "id,surname,given,birth,sex,birthplace"
    write(folder / "a.csv", header, [[ids_a[person.number], *clerk_a.old_record(person, country, YEAR)] for person in side_a])
    write(folder / "b.csv", header, [[ids_b[person.number], *clerk_b.old_record(person, country, YEAR + 10)] for person in side_b])
    write_truth(folder, [[ids_a[number], ids_b[number]] for number in both])


def make_duplicates(seed: str, folder: Path, persons: int) -> None:
    """A register in which 12 % of the persons stand twice and 3 % three times; the truth has each of their pairs once."""
    country, people = population(seed, persons)
    chance, clerk = Chance(seed, "copies"), Clerk(CENSUS, Chance(seed, "a"), "ymd")
    people = compounded(country, people, chance)
    copies = [person for person in people for _ in range(chance.of((1,) * 85 + (2,) * 12 + (3,) * 3))]
    order = chance.shuffled(copies)
    rows = [[f"D{10_000 + at}", *clerk.record(person, country)] for at, person in enumerate(order)]
    write(folder / "a.csv", "id,surname,given,birth,sex,birthplace,town", rows)
    places: dict[int, list[str]] = {}
    for row, person in zip(rows, order, strict=True):
        places.setdefault(person.number, []).append(row[0])
    write_truth(folder, [[first, other] for ids in places.values() for at, first in enumerate(ids) for other in ids[at + 1:]])


def make_households(seed: str, folder: Path, persons: int) -> None:
    """Persons with the addresses that they state, and households by the surname of the head; one household in twelve is not listed."""
    country, people = population(seed, persons)
    chance = Chance(seed, "homes")
    clerk_a, clerk_b = Clerk(CENSUS, Chance(seed, "a"), "ymd"), Clerk(REGISTER, Chance(seed, "b"), "dmy")
    families: dict[int, list[Person]] = {}
    for person in people:
        families.setdefault(person.family, []).append(person)
    rows_a, rows_b, sizes, truth = [], [], [], []
    last = ("", "")
    for number, members in families.items():
        home = last if last[0] and chance.happens(0.15) else (country.streets.draw(chance), str(chance.between(1, 90)))
        last, listed = home, not chance.happens(1 / 12)
        town = members[0].town
        for person in members:
            clerk_a.begins()
            house = mistyped_digits(chance, "0" + home[1]).lstrip("0") or "0" if clerk_a.errs(0.02) else home[1]
            rows_a.append([f"P{10_000 + person.number}", *clerk_a.names(person), clerk_a.missing(clerk_a.place(home[0]), 0.02), house,
                           clerk_a.missing(clerk_a.place(town), 0.01)])
            truth += [[f"P{10_000 + person.number}", f"H{10_000 + number}"]] if listed else []
        if listed:
            clerk_b.begins()
            rows_b.append([f"H{10_000 + number}", clerk_b.surname(members[0]), clerk_b.place(home[0]), home[1], clerk_b.place(town)])
            sizes.append([f"H{10_000 + number}", str(len(members))])
    write(folder / "a.csv", "id,surname,given,street,house,town", chance.shuffled(rows_a))
    write(folder / "b.csv", "id,surname,street,house,town", chance.shuffled(rows_b))
    write(folder / "capacities.csv", "id_b,capacity", sizes)
    write_truth(folder, truth)


KINDS = {"register": make_register, "historical": make_historical, "duplicates": make_duplicates, "households": make_households}


def make(kind: str, seed: str, folder: Path, persons: int = PERSONS) -> None:
    """Makes the files of a kind in a folder, which is made where it is not there."""
    folder.mkdir(parents=True, exist_ok=True)
    KINDS[kind](f"{kind} {seed}", folder, persons)


def main() -> None:
    parser = argparse.ArgumentParser(description=__doc__, formatter_class=argparse.RawDescriptionHelpFormatter)
    parser.add_argument("kind", choices=KINDS)
    parser.add_argument("seed")
    parser.add_argument("folder", type=Path)
    parser.add_argument("--persons", type=int, default=PERSONS)
    words = parser.parse_args()
    if words.persons < 20:
        sys.exit("population: at least 20 persons")
    make(words.kind, words.seed, words.folder, words.persons)
