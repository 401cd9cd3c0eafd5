"""Ways to work a job with the program: where its shares come from, which levels are asked, and what is done before and after review."""

import hashlib
import re
import shutil
import sys
import tomllib
from collections.abc import Callable
from dataclasses import dataclass
from pathlib import Path

from chance import Chance
from measure import Pair, Quality, columns, measured, rows, truth_in
from plain import Record, exact_join, greedy, standard
from reviewer import verdicts

sys.path.insert(0, str(Path(__file__).resolve().parent.parent))
from tally import ROOT, run  # noqa: E402

COMPARED = 3_000  # compared pairs that a sample of both kinds draws
RECORDS = 600  # records of A, all compared pairs of which are reviewed for the matched ones
CROSSED = 20_000  # pairs of A x B, drawn at random, that are taken as unmatched
VERDICTS = 100_000  # rows that `review` takes at once
DAY = "1969-12-01"
UNREVIEWED = "unreviewed.csv"  # the links of a run without review
COMPARED_BEFORE: dict[bytes, list[Pair]] = {}
DELIMITERS = {"comma": ",", "semicolon": ";", "tab": "\t"}


class Broken(Exception):
    """The program did not do what the matter needs: its words and what it said."""


class Job:
    """A folder with the files of a job, and the program that works on them."""

    def __init__(self, program: Path, folder: Path):
        self.program, self.folder = program, folder
        self.truth = truth_in((folder / "truth.csv").read_bytes())

    def call(self, *words: str) -> str:
        """What the program prints. Raises Broken where its status is not 0."""
        status, printed, said = run([self.program, *words], self.folder)
        if status:
            raise Broken(f"linkage {' '.join(words)}: status {status}: {(said or printed).strip()}")
        return printed

    def printed_pairs(self, *words: str) -> list[Pair]:
        """The pairs of a printed table whose first two columns are id_a and id_b."""
        return [(first, second) for first, second, *_ in (line.split(",") for line in self.call(*words).splitlines()[1:])]

    def compared(self) -> list[Pair]:
        """The pairs that the passes compare. Jobs of one text of settings over the same files, as samples have, share them."""
        files = [self.settings()[f"file_{letter}"] for letter in "ab"]
        key = hashlib.sha256(b"".join((self.folder / it).read_bytes() for it in ("settings.toml", *files))).digest()
        if key not in COMPARED_BEFORE:
            COMPARED_BEFORE[key] = self.printed_pairs("pairs", "settings.toml")
        return COMPARED_BEFORE[key]

    def settings(self) -> dict:
        return tomllib.loads((self.folder / "settings.toml").read_text(encoding="utf-8"))

    def side(self, letter: str) -> dict[str, Record]:
        """The records of side `a` or `b` by id, with the fields of the settings in a plain standard form, dates with the year first."""
        asked = self.settings()
        found = {}
        for row in rows(self.folder / asked[f"file_{letter}"], DELIMITERS[asked.get(f"delimiter_{letter}", "comma")]):
            record = {}
            for field in asked["field"]:
                text = row[field.get(f"column_{letter}", field["name"])]
                if field["kind"] == "date" and field[f"form_{letter}"] == "dmy":
                    text = "-".join(reversed(re.split("[-/.]", text))) if len(text) == 10 else text
                record[field["name"]] = standard(text, asked["missing"])
            found[row[asked.get(f"id_{letter}", "id")]] = record
        return found

    def ids(self, letter: str) -> list[str]:
        """The ids of a side, in the order of its file."""
        asked = self.settings()
        table = rows(self.folder / asked[f"file_{letter}"], DELIMITERS[asked.get(f"delimiter_{letter}", "comma")])
        return [row[asked.get(f"id_{letter}", "id")] for row in table]

    def done(self) -> Quality:
        """The quality of a run, which `verify` must accept."""
        found = self.run()
        answer = self.call("verify", "settings.toml")
        if answer != "yes\n":
            raise Broken(f"linkage verify settings.toml: {answer.strip()}")
        return found

    def run(self) -> Quality:
        """The quality of a run."""
        self.call("run", "settings.toml")
        return measured(self.folder)


@dataclass(frozen=True)
class Sampled:
    """A sample: the status of each of its pairs, and how many pairs people had to look at for it."""

    status: dict[Pair, str]
    decided: int

    def cells(self) -> list[str]:
        """What a row of the table says of it."""
        kinds = list(self.status.values())
        return [str(self.decided), str(kinds.count("matched")), str(kinds.count("unmatched"))]


def of_compared_pairs(job: Job, seed: str, size: int = COMPARED) -> Sampled:
    """Compared pairs drawn at random, each decided rightly: both kinds of them are counted."""
    drawn = Chance(seed, "compared").drawn(job.compared(), size)
    return Sampled({pair: "matched" if pair in job.truth else "unmatched" for pair in drawn}, len(drawn))


def clusters(job: Job, seed: str, records: int = RECORDS) -> Sampled:
    """All compared pairs of records of A drawn at random, each decided rightly: both kinds of them are counted."""
    of = set(Chance(seed, "clusters").drawn(job.ids("a"), records))
    looked_at = [pair for pair in job.compared() if pair[0] in of]
    return Sampled({pair: "matched" if pair in job.truth else "unmatched" for pair in looked_at}, len(looked_at))


def crossed(job: Job, seed: str, records: int = RECORDS, random: int = CROSSED) -> Sampled:
    """The matched ones of all compared pairs of records of A drawn at random, and as unmatched ones pairs of A x B drawn at random.

    Of the latter people look at those that some pass compares, and the matched ones are left out; the others are taken as unmatched.
    """
    chance = Chance(seed, "crossed")
    ids_a, ids_b = job.ids("a"), job.ids("b")
    of = set(chance.drawn(ids_a, records))
    compared = job.compared()
    looked_at = {pair for pair in compared if pair[0] in of}
    found = {pair: "matched" for pair in compared if pair in looked_at and pair in job.truth}
    drawn = [(chance.of(ids_a), chance.of(ids_b)) for _ in range(random)]
    drawn_and_compared = set(drawn) & set(compared)
    looked_at |= drawn_and_compared
    found.update({pair: "unmatched" for pair in drawn if not (pair in drawn_and_compared and pair in job.truth)})
    return Sampled(found, len(looked_at))


def random_pairs(job: Job, seed: str, random: int = CROSSED) -> Sampled:
    """Pairs of A x B drawn at random, as unmatched ones, and one matched pair that is known, since there is no rule without any.

    People look at those that some pass compares, and the matched ones are left out; the others are taken as unmatched.
    """
    chance = Chance(seed, "random")
    ids_a, ids_b, compared = job.ids("a"), job.ids("b"), set(job.compared())
    drawn = [(chance.of(ids_a), chance.of(ids_b)) for _ in range(random)]
    found = {pair: "unmatched" for pair in drawn if not (pair in compared and pair in job.truth)}
    return Sampled({**found, min(job.truth): "matched"}, len(set(drawn) & compared))


SAMPLES: dict[str, Callable[[Job, str], Sampled]] = {"compared": of_compared_pairs, "clusters": clusters, "crossed": crossed,
                                                       "random": random_pairs}


def all_open(_: Job, asked: list[Pair]) -> list[Pair]:
    """The reviewer is asked about everything that is open."""
    return asked


def unlinked(job: Job, asked: list[Pair]) -> list[Pair]:
    """She is asked about the pairs of which neither record has a link by the run without review."""
    links = columns(job.folder / UNREVIEWED, "id_a", "id_b")
    linked_a, linked_b = {a for a, _ in links}, {b for _, b in links}
    return [(a, b) for a, b in asked if a not in linked_a and b not in linked_b]


@dataclass(frozen=True)
class Review:
    """What the reviewer is asked of the open pairs, and the award that her links are given."""

    name: str
    award: int
    asks: Callable[[Job, list[Pair]], list[Pair]]


ALL, UNLINKED = Review("all reviewed", 500, all_open), Review("unlinked reviewed", 100, unlinked)
REVIEWS = ALL, Review("all reviewed, award 100", 100, all_open), UNLINKED


@dataclass(frozen=True)
class Way:
    """The sample that the shares come from (none: those guessed in the settings), the asked levels in millionths, what is reviewed.

    Where `fields` has a word, the settings are changed as variants.py says; kinds whose settings lack what is changed go without.
    """

    name: str
    sample: str
    mu: int
    lambda_: int
    reviews: tuple[Review, ...] = ()
    fields: str = ""
    draw: str = ""  # a seed of the sample alone, in the place of that of all
    guesses_m: bool = False  # of the sample u alone is counted, and m is that of the settings

    def settings(self, guessed: str) -> str:
        """The text of the settings, from that with guessed shares."""
        return settings_with(guessed, self.mu, self.lambda_, bool(self.sample))


def settings_with(guessed: str, mu: int, lambda_: int, sampled: bool) -> str:
    """The text of settings with other levels, in millionths, and with a sample in the place of guessed shares."""
    text = re.sub(r"(?m)^mu_ppm = \d+", f"mu_ppm = {mu}", guessed)
    text = re.sub(r"(?m)^lambda_ppm = \d+", f"lambda_ppm = {lambda_}", text)
    if sampled:
        text = re.sub(r"(?m)^[mu] = .*\n", "", text)
        text = re.sub(r"(?m)^journal = ", 'sample = "sample.csv"\njournal = ', text)
    return text


def begun(program: Path, files: Path, folder: Path, guessed: str) -> Job:
    """A job in a folder of its own: the files, the settings with guessed shares, an empty journal."""
    shutil.copytree(files, folder)
    (folder / "journal.csv").write_text("", encoding="utf-8")
    (folder / "settings.toml").write_text(guessed, encoding="utf-8")
    return Job(program, folder)


def write_sample(job: Job, sample: Sampled) -> None:
    lines = [f"{a},{b},{status}\n" for (a, b), status in sample.status.items()]
    (job.folder / "sample.csv").write_text("id_a,id_b,status\n" + "".join(lines), encoding="utf-8")


def prepared(program: Path, files: Path, folder: Path, guessed: str, way: Way, seed: str) -> Job:
    """A job of a way in a folder of its own: the files, the settings, an empty journal, the sample."""
    job = begun(program, files, folder, guessed)
    if way.sample:
        write_sample(job, SAMPLES[way.sample](job, way.draw or seed))
    (folder / "settings.toml").write_text(way.settings(guessed), encoding="utf-8")
    if way.guesses_m:
        guess_m(job, guessed)
    return job


def guess_m(job: Job, guessed: str) -> None:
    """Puts the guessed shares m and the counted u into the settings, by the tool `shares`. Raises Broken where it refuses."""
    (job.folder / "guessed.toml").write_text(guessed, encoding="utf-8")
    (job.folder / "counted.csv").write_text(job.call("rule", "settings.toml"), encoding="utf-8")
    status, text, said = run([ROOT / "tools/shares", "settings.toml", "--rule", "counted.csv", "--m-of", "guessed.toml"], job.folder)
    if status:
        raise Broken(said.strip())
    (job.folder / "settings.toml").write_text(text, encoding="utf-8")


def begun_anew(job: Job, award: int) -> None:
    """The job with an empty journal and an award. Its links without review, which no award changes, are kept beside it."""
    if not (job.folder / UNREVIEWED).exists():
        shutil.copy(job.folder / "links.csv", job.folder / UNREVIEWED)
    (job.folder / "journal.csv").write_text("", encoding="utf-8")
    path = job.folder / "settings.toml"
    text = re.sub(r"(?m)^award = .*\n", "", path.read_text(encoding="utf-8"))
    path.write_text(re.sub(r"(?m)^journal = ", f"award = {award}\njournal = ", text), encoding="utf-8")


def reviewed(job: Job, seed: str, review: Review) -> tuple[list[list[str]], list[list[str]]]:
    """Has the made reviewer answer what is asked; her rows (pair and verdict), and those of the journal."""
    begun_anew(job, review.award)
    asked = review.asks(job, job.printed_pairs("open", "settings.toml"))
    said = verdicts(asked, job.truth, seed).splitlines()[1:]
    for at in range(0, len(said), VERDICTS):
        (job.folder / "verdicts.csv").write_text("\n".join(["id_a,id_b,verdict", *said[at:at + VERDICTS]]) + "\n", encoding="utf-8")
        before = (job.folder / "journal.csv").read_bytes()
        job.call("review", "settings.toml", "verdicts.csv", DAY, "made")
        if not (job.folder / "journal.csv").read_bytes().startswith(before):
            raise Broken("linkage review: an old entry of the journal has changed")
    kept = columns(job.folder / "journal.csv", "id_a", "id_b", "verdict")
    return [line.split(",") for line in said], [list(it) for it in kept]


PLAIN: dict[str, Callable[[dict[str, Record], dict[str, Record]], list[Pair]]] = {
    "exact join": lambda a, b: exact_join(a, b, ("surname", "given", "birth")),
    "points, greedily": greedy,
}
