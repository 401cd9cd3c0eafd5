"""Made files of a register and a census of as many records each, four fifths of them in both: what docs/BEYOND.md measures on.

usage: people.py FOLDER RECORDS [SEED]
"""

import sys
from pathlib import Path

sys.dont_write_bytecode = True
sys.path.insert(0, str(Path(__file__).resolve().parent.parent / "quality"))
from chance import Chance  # noqa: E402
from population import CENSUS, REGISTER, Clerk, identities, two_sides, write, write_truth  # noqa: E402


def make(folder: Path, records: int, seed: str) -> None:
    """Writes a.csv, b.csv, and truth.csv, the pairs that are of one person."""
    folder.mkdir(parents=True, exist_ok=True)
    country, side_a, side_b, both = two_sides(seed, records, records, records * 4 // 5)
    ids_a, ids_b = identities(seed, "R", side_a), identities(seed, "C", side_b)
    clerk_a, clerk_b = Clerk(REGISTER, Chance(seed, "a"), "ymd"), Clerk(CENSUS, Chance(seed, "b"), "dmy")
    write(folder / "a.csv", "id,surname,given,birth,sex,birthplace,town",
          [[ids_a[person.number], *clerk_a.record(person, country)] for person in side_a])
    write(folder / "b.csv", "person,last_name,first_name,born,sex,born_in,place",
          [[ids_b[person.number], *clerk_b.record(person, country)] for person in side_b], ";")
    write_truth(folder, [[ids_a[number], ids_b[number]] for number in both])


if __name__ == "__main__":
    if len(sys.argv) < 3:
        print(__doc__.strip())
        sys.exit("-h" not in sys.argv and "--help" not in sys.argv)
    make(Path(sys.argv[1]), int(sys.argv[2]), sys.argv[3] if len(sys.argv) > 3 else "beyond")
