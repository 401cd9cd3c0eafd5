"""The people of a made country: families with names, births, places, twins, who later marry and move.

Where a rate comes from:
- names: a few are borne by many (Fox and Lasker 1983: the numbers of bearers of surnames follow a discrete Pareto law); here Zipf's
  law flattened so that the most frequent surname of a culture has about 1 % of it, the most frequent given name some 7 %; assumed.
- twins: 12 births in a thousand (about one in 85 to 89; the rule of Hellin).
- sizes of families, who marries and who moves between the two files: assumed; the moves are those of one to two years.
- brothers and sisters who live bear different first names: parents do not give one twice. Of grown children most have left their parents,
  most of these daughters bear their husbands' surnames, and half of those who left live in another town; the shares are assumed. Without
  these, of 4,000 records 885 were of people over 30 who lived as children with a parent, 45 of 100 women over 35 had never married,
  28 pairs of brothers or sisters shared their first name, and 355 records had a namesake (surname, first name, sex) in their town. No
  country is so: in those of the time about one woman in ten never married. With them the counts are 122, 19 in 100, none and 192.
"""

from dataclasses import dataclass, replace

from chance import Chance, Ranked
from spelling import CULTURES, words

SURNAMES = (2600, 900, 500, 700)  # different surnames of each culture
SHARES = (0, 0, 0, 0, 0, 0, 1, 1, 2, 3)  # culture of ten families: six of the first, two of the second, one of each other
GIVEN = 110  # different given names of each culture and sex
TOWNS = 240
STREETS = 45  # different names of streets
YEAR = 1960  # of the first file
TWINS = 0.012  # of births
NAMED_AFTER = 0.12  # of children: the given name of the parent of their sex
ALONE = 0.3  # of families: one person
BORN_ELSEWHERE = 0.45  # of parents
FAMILY_MOVES = 0.07  # of families, between the files
PERSON_MOVES = 0.04  # of persons, alone, between the files
MARRIES = 0.12  # of women of 18 to 35 years without a husband, between the files
MOVES_AT_MARRIAGE = 0.5  # of them
GROWN = 25  # years from which children may have left their parents
LEFT = 0.85  # of grown children
MARRIED = 0.88  # of daughters who left
LIVES_ELSEWHERE = 0.5  # of those who left


@dataclass(frozen=True)
class Person:
    """One person at the time of the first file; `birth` is year, month and day."""

    number: int
    family: int  # those who live together
    line: int  # those who have their surname from one another
    culture: int
    sex: str
    surname: str
    given: tuple[str, ...]
    birth: tuple[int, int, int]
    birthplace: str
    town: str
    married: bool = False
    lodger: bool = False


class Country:
    """The names and places of a made country, by a seed; families are drawn from it one after the other."""

    def __init__(self, seed: str):
        self.chance = chance = Chance(seed, "country")
        self.surnames, self.given = [], []
        for (first, middle, ends, men, women), count in zip(CULTURES, SURNAMES, strict=True):
            self.surnames.append(Ranked(words(chance, count, first, middle, ends), 20))
            self.given.append({"M": Ranked(words(chance, GIVEN, first, middle, men), 4),
                               "F": Ranked(words(chance, GIVEN, first, middle, women), 4)})
        first, middle, ends = CULTURES[0][:3]
        places = words(chance, TOWNS, first, middle, ["ham", "ford", "bury", *ends])
        self.towns = Ranked([f"Saint {name}" if at % 12 == 5 else name for at, name in enumerate(places)], 6)
        self.streets = Ranked([f"{name} Street" for name in words(chance, STREETS, first, middle, ends)], 5)
        self.people: list[Person] = []
        self.families = 0

    def names(self, culture: int, sex: str) -> tuple[str, ...]:
        """One to three different given names."""
        count = self.chance.of((1, 1, 1, 2, 2, 3))
        return tuple(dict.fromkeys(self.given[culture][sex].draw(self.chance) for _ in range(count)))

    def day(self, low: int, high: int) -> tuple[int, int, int]:
        """A day of a year from `low` to `high`."""
        month = self.chance.between(1, 12)
        last = 28 if month == 2 else 30 if month in (4, 6, 9, 11) else 31
        return self.chance.between(low, high), month, self.chance.between(1, last)

    def add(self, **fields: object) -> Person:
        person = Person(**{"number": len(self.people), "family": self.families, "line": self.families, **fields})
        self.people.append(person)
        return person

    def family(self) -> None:
        """Draws one family: a person alone, or a couple with children, and at times a lodger."""
        chance = self.chance
        culture, self.families = chance.of(SHARES), self.families + 1
        shared = {"culture": culture, "surname": self.surnames[culture].draw(chance), "town": self.towns.draw(chance)}
        alone, sex, left = chance.happens(ALONE), chance.of("MF"), []
        head = self.adult(shared, sex if alone else "M", self.day(1875, 1941), married=not alone)
        if not alone:
            year = min(max(head.birth[0] + chance.between(-8, 4), 1875), 1941)
            mother = self.adult(shared, "F", self.day(year, year), married=True)
            left = self.children(shared, head, mother)
        if chance.happens(0.08):
            other = {**shared, "surname": self.surnames[culture].draw(chance), "lodger": True}
            self.adult(other, chance.of("MF"), self.day(1890, 1940), married=False)
        for child in left:
            self.leaves(child)

    def adult(self, shared: dict, sex: str, birth: tuple[int, int, int], married: bool) -> Person:
        place = self.towns.draw(self.chance) if self.chance.happens(BORN_ELSEWHERE) else shared["town"]
        return self.add(**shared, sex=sex, given=self.names(shared["culture"], sex), birth=birth, birthplace=place, married=married)

    def children(self, shared: dict, father: Person, mother: Person) -> list[dict]:
        """Up to five children a couple, born while the mother was 19 to 42, before the year of the first file; twins among them.

        Gives those who have left; the others are added.
        """
        chance, taken, left = self.chance, set(), []
        year = mother.birth[0] + chance.between(19, 27)
        for _ in range(chance.of((0, 1, 1, 2, 2, 3, 3, 4, 5))):
            if year >= YEAR or year > mother.birth[0] + 42:
                break
            birth = self.day(year, year)
            place = shared["town"] if chance.happens(0.85) else mother.birthplace
            for twin in range(2 if chance.happens(TWINS) else 1):
                sex = chance.of("MF")
                parent = father if sex == "M" else mother
                after = parent.given[0] if not twin and chance.happens(NAMED_AFTER) else ""
                child = {**shared, "sex": sex, "given": self.child_names(shared["culture"], sex, after, taken), "birth": birth,
                         "birthplace": place}
                taken.add(child["given"][0])
                if birth[0] + GROWN <= YEAR and chance.happens(LEFT):
                    left.append({**child, "line": self.families})
                else:
                    self.add(**child)
            year += chance.between(1, 5)
        return left

    def child_names(self, culture: int, sex: str, after: str, taken: set[str]) -> tuple[str, ...]:
        """Given names, the first that of a parent where one is stated, and not that of a brother or sister."""
        while True:
            given = self.names(culture, sex)
            given = tuple(dict.fromkeys((after, *given[1:]))) if after and after not in taken else given
            if given[0] not in taken:
                return given

    def leaves(self, child: dict) -> None:
        """Adds a grown child as a family of its own: a daughter mostly by her husband's surname, in the parents' town or in another."""
        chance, self.families = self.chance, self.families + 1
        married = chance.happens(MARRIED)
        if married and child["sex"] == "F":
            child = {**child, "surname": self.surnames[child["culture"]].draw(chance), "line": self.families}
        town = self.towns.draw(chance) if chance.happens(LIVES_ELSEWHERE) else child["town"]
        self.add(**{**child, "town": town, "married": married})


def population(seed: str, count: int) -> tuple[Country, list[Person]]:
    """A country and `count` of its people, in the order of families."""
    country = Country(seed)
    while len(country.people) < count:
        country.family()
    return country, country.people[:count]


def later(country: Country, people: list[Person], chance: Chance) -> list[Person]:
    """The same people at the time of the second file: some women have married, some families and persons have moved."""
    moved: dict[int, str | None] = {}
    found = []
    for person in people:
        if person.family not in moved:
            moved[person.family] = country.towns.draw(chance) if chance.happens(FAMILY_MOVES) else None
        town = moved[person.family] or (country.towns.draw(chance) if chance.happens(PERSON_MOVES) else person.town)
        surname = person.surname
        if person.sex == "F" and not person.married and 18 <= YEAR - person.birth[0] <= 35 and chance.happens(MARRIES):
            surname = country.surnames[person.culture].draw(chance)
            town = country.towns.draw(chance) if chance.happens(MOVES_AT_MARRIAGE) else town
        is_as_before = (surname, town) == (person.surname, person.town)
        found.append(person if is_as_before else replace(person, surname=surname, town=town))
    return found
