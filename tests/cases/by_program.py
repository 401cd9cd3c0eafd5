"""What the program comes to in the runs of a case: the script that it is given, and what its rows say.

The program `linkage_cases` takes the steps of a script over files in memory and prints a row for each command; docs/ARCHITECTURE.md says
what each step means. What is run and what is shown of it is made here, as the key of a run says: a command once, once for each call that
it makes with that call failing, or over each cut of the files that it reads.
"""

import csv
import io
from collections.abc import Iterator
from dataclasses import dataclass, field
from pathlib import Path

from case_files import Case, Files, files_of, listed_commands, make_changes
from derived import is_shortened, part_of, shortened

SCRIPT = "script.csv"
MOST_LOADS_AND_PUTS, MOST_PRINTS = 14, 4  # more than any command makes
csv.field_size_limit(2**31 - 1)


@dataclass(frozen=True)
class Ending:
    """How a command ended: its status, what it printed and told, and what names came to hold that held other bytes."""

    status: int
    out: bytes
    err: bytes
    changed: dict[str, bytes]


def endings_of(printed: bytes) -> list[Ending]:
    """The endings that the rows printed by the program are."""
    rows = csv.reader(io.StringIO(printed.decode("latin-1"), newline=""))
    fields = [[it.encode("latin-1") for it in row] + [b"", b""] for row in rows]
    return [Ending(int(it[0]), it[1], it[2], {name.decode(): held for name, held in zip(it[3:-2:2], it[4:-2:2])}) for it in fields]


@dataclass
class Script:
    """Steps for the program, and the files in a folder that they name."""

    folder: Path
    steps: list[list[str]] = field(default_factory=list)
    files: dict[bytes, str] = field(default_factory=dict)

    def file_of(self, name: str, held: bytes) -> str:
        """The file of the folder that holds these bytes."""
        if held not in self.files:
            taken = set(self.files.values())
            self.files[held] = name if name not in taken | {SCRIPT} else f"{len(taken)}.{name}"
            (self.folder / self.files[held]).write_bytes(held)
        return self.files[held]

    def hold(self, name: str, held: bytes | None, most: int | None = None) -> None:
        """Has a name hold bytes, or so many of their front, or nothing."""
        if held is None:
            self.steps.append(["none", name])
        else:
            self.steps.append(["hold", name, self.file_of(name, held), "" if most is None else str(most)])

    def hold_all(self, files: Files) -> None:
        """Has the names hold what files hold, and no other."""
        self.steps.append(["clear"])
        for name, held in files.items():
            self.hold(name, held)

    def perform(self, words: list[str], store: int = 0, applied: bool = False, out: int = 0, err: int = 0) -> None:
        """Runs a command with these calls failing."""
        self.steps.append(["try", str(store), str(int(applied)), str(out), str(err), *words])

    def rows(self) -> int:
        """How many rows the program prints."""
        return sum(step[0] in ("try", "pool") for step in self.steps)

    def text(self) -> str:
        """The script."""
        text = io.StringIO(newline="")
        csv.writer(text, lineterminator="\n").writerows(self.steps)
        return text.getvalue()


def said_in(ending: Ending, files: Files, whole: Ending) -> str:
    """An ending in one line: the status, what was told, and the names that hold other bytes than before: new ones, as the command
    leaves where nothing fails, or torn ones."""
    told = ending.err.decode("utf-8", "replace")
    told = told.removeprefix("linkage: ").removesuffix("\n") if told.startswith("linkage: ") else told
    text = f"{ending.status} {told}" if told else f"{ending.status}"
    printed = ending.out.decode("utf-8", "replace")
    if ending.status == 9:
        text += f" {printed.removesuffix(chr(10))}"
    elif ending.status and printed:
        text += f", {len(ending.out)} bytes printed"
    names = [(name, held == whole.changed.get(name, files[name])) for name, held in ending.changed.items()]
    return text + "".join(f", {'new' if is_new else 'torn'} {name}" for name, is_new in names)


class Once:
    """A command that is run once."""

    def __init__(self, words: list[str], run: dict):
        self.words, self.run = words, run

    def put(self, script: Script, _: Files) -> None:
        """Appends its steps."""
        it = self.run
        script.perform(self.words, it.get("fails", 0), it.get("applied", False), it.get("out_fails", 0), it.get("err_fails", 0))

    def shown(self, endings: Iterator[Ending], _: Files) -> bytes:
        """What is shown of it."""
        ending = next(endings)
        text = shortened(ending.out) + shortened(ending.err) + b"status %d\n" % ending.status
        return text + b"".join(b"-- %s\n%s" % (name.encode(), shortened(held)) for name, held in ending.changed.items())


class Failing:
    """A command with each of its calls failing in turn, each again with standard error failing too."""

    STORE = [(f"store {call}{', written' * applied}", {"store": call, "applied": applied})
             for call in range(1, MOST_LOADS_AND_PUTS + 1) for applied in (False, True)]
    OUTPUT = [(f"output {call}", {"out": call}) for call in range(1, MOST_PRINTS + 1)]

    def __init__(self, words: list[str]):
        self.words = words

    def put(self, script: Script, files: Files) -> None:
        """Appends its steps."""
        script.hold_all(files)
        script.perform(self.words)
        for _, fails in self.STORE + self.OUTPUT:
            for err in (0, 1):
                script.hold_all(files)
                script.perform(self.words, err=err, **fails)

    def shown(self, endings: Iterator[Ending], files: Files) -> bytes:
        """What is shown of it: how it ends where nothing fails, and at each call that it makes."""
        whole = next(endings)
        lines, tried = [f"none: {said_in(whole, files, whole)}"], []
        for calls in (self.STORE, self.OUTPUT):
            tried += up_to_whole([(head, next(endings), next(endings)) for head, _ in calls], whole)
        last = ""
        for head, ending, _ in tried:
            said = "as none" if ending == whole else said_in(ending, files, whole)
            if not (head.endswith(", written") and said == last):
                lines.append(f"{head}: {said}")
            last = said
        others = sum(not is_same_in_silence(ending, silent) for _, ending, silent in tried)
        lines.append(f"standard error too: {len(tried)} endings, {others} of them others")
        return "".join(f"{it}\n" for it in lines).encode()


def up_to_whole(tried: list[tuple[str, Ending, Ending]], whole: Ending) -> list[tuple[str, Ending, Ending]]:
    """The endings up to the first call that is not made, at which the command ends as where nothing fails."""
    past = (at for at, (head, ending, _) in enumerate(tried, 1) if ending == whole and not head.endswith(", written"))
    return tried[: next(past, None)]


def is_same_in_silence(ending: Ending, silent: Ending) -> bool:
    """Whether two endings are the same but for what was told, and the second told nothing."""
    return (ending.status, ending.out, ending.changed) == (silent.status, silent.out, silent.changed) and not silent.err


class Cuts:
    """A command over each cut of each file that it reads."""

    def __init__(self, words: list[str], names: list[str], earlier: dict):
        self.words, self.names, self.earlier = words, names, earlier

    def put(self, script: Script, files: Files) -> None:
        """Appends its steps."""
        for name in self.names:
            for length in range(len(files[name]) + 1):
                script.hold_all(files)
                script.hold(name, files[name], length)
                script.perform(self.words)

    def shown(self, endings: Iterator[Ending], files: Files) -> bytes:
        """What is shown of it: cuts that end alike in one line, or the command that ended so before."""
        return "".join(self.lines_of(name, endings, files) for name in self.names).encode()

    def lines_of(self, name: str, endings: Iterator[Ending], files: Files) -> str:
        """What is shown of the cuts of a file."""
        said = [self.said_of(next(endings), files) for _ in range(len(files[name]) + 1)]
        starts = [at for at in range(len(said)) if not at or said[at] != said[at - 1]]
        ends = [it - 1 for it in [*starts[1:], len(said)]]
        lines = "".join(f"{least}{f'-{most}' * (least < most)}: {said[least]}\n" for least, most in zip(starts, ends))
        command = self.earlier.setdefault((name, lines), " ".join(self.words))
        return f"-- {name} cut\n{lines}" if command == " ".join(self.words) else f"-- {name} cut: as {command}\n"

    @staticmethod
    def said_of(ending: Ending, files: Files) -> str:
        """An ending in one line; of a command that is done nothing more."""
        return said_in(ending, files, ending) if ending.status else "0"


class Pool:
    """Whether the texts of the two files of a plan fit into a pool of so many bytes."""

    def __init__(self, most: int, names: list[str]):
        self.most, self.names = most, names

    def put(self, script: Script, files: Files) -> None:
        """Appends its step."""
        script.steps.append(["pool", str(self.most), *(script.file_of(name, files[name]) for name in self.names)])

    def shown(self, endings: Iterator[Ending], _: Files) -> bytes:
        """What is shown of it: the bytes that are wanted, or 0."""
        return b"%d\n" % next(endings).status


@dataclass(frozen=True)
class Asked:
    """What is asked of a command: the line of its words, how it is run, and what names hold before."""

    head: str
    what: Once | Failing | Cuts | Pool
    files: Files


def asked_of(run: dict, command: dict, earlier: dict) -> Once | Failing | Cuts | Pool:
    """How a command of a run is run."""
    words = command["words"]
    if "pool" in run:
        return Pool(run["pool"], words)
    if run.get("each_cut"):
        return Cuts(words, command["reads"], earlier)
    return Failing(words) if run.get("each_failure") else Once(words, run)


def head_of(words: list[str]) -> str:
    """The line of a command."""
    return f"$ linkage {' '.join(words)}\n"


def put_run(script: Script, run: dict, files: Files) -> list[Asked]:
    """Appends the steps of a run over files as its changes have left them; the files come to hold what the run wants."""
    asked, earlier, is_each = [], {}, run.get("each_command", False)
    wants = run.get("wants", "").encode()
    for command in listed_commands() if is_each else [run]:
        head, what = head_of(command["words"]), asked_of(run, command, earlier)
        what.put(script, files)
        asked.append(Asked(head if is_each else "", what, dict(files)))
        if isinstance(what, Once):
            own = wants.partition(head.encode())[2].partition(b"$ linkage ")[0] if is_each else wants
            parts = {name: part_of(own, name, list(files)) for name in files}
            files |= {name: part for name, part in parts.items() if part is not None and not is_shortened(part)}
        else:
            script.hold_all(files)
    return asked


def put_case(script: Script, case: Case) -> list[list[Asked]]:
    """Appends the steps of a case, and says what is asked in each of its runs."""
    files = files_of(case)
    script.hold_all(files)
    asked = []
    for run in case.said["run"]:
        changes = run.get("file", [])
        make_changes(files, changes)
        for name in dict.fromkeys(change["name"] for change in changes):
            script.hold(name, files[name])
        asked.append(put_run(script, run, files))
    return asked


def shown_of(asked: list[Asked], endings: Iterator[Ending]) -> bytes:
    """What is shown of a run."""
    return b"".join(it.head.encode() + it.what.shown(endings, it.files) for it in asked)
