"""What is wanted of a run by the second implementation, which follows the definitions and shares nothing with the program.

Of a text of which several are right, as of links with their prices, it takes the one that stands in the case, and says what is
wrong with it.
"""

import difflib
import re
import tomllib
from dataclasses import dataclass, field

from case_files import Files, listed_commands

from answers import faults_of_answer
from commands import LOADS, Ended, perform
from pairs import prepared
from settings import settings
from values import canon_of

LONGEST, SHOWN = 4_096, 64


@dataclass
class Performed:
    """A command over files: how it ends, and the names that it loads and that hold something, in order."""

    words: list[str]
    files: Files
    ended: Ended = field(init=False)
    loads: list[str] = field(init=False)

    def __post_init__(self) -> None:
        """Performs it."""
        self.ended = perform(self.words, held_in(self.files))
        roles = reached(self.ended, roles_of(self.words, self.files))
        self.loads = [name for _, name in roles if self.files.get(name) is not None]

    @property
    def prints(self) -> bool:
        """Whether it prints anything."""
        return self.ended.out != b""

    def puts_new(self, count: int) -> list[str]:
        """The names that hold another text after so many puts."""
        puts = list(self.ended.puts.items())[:count]
        return [name for name in self.files if any(name == it and (text is None or text != self.files[name]) for it, text in puts)]


def held_in(files: Files) -> dict[str, bytes]:
    """The names that hold something, and what."""
    return {name: held for name, held in files.items() if held is not None}


def roles_of(words: list[str], files: Files) -> list[tuple[str, str]]:
    """What a command loads where nothing is refused, each a role and a name, in the order of docs/DEFINITIONS.md."""
    if words[:1] == ["pairs"] and len(words) == 4:
        return list(zip("ab", words[1:3]))
    if not words or words[0] not in LOADS or len(words) < 2:
        return []
    try:
        plan = tomllib.loads((files.get(words[1]) or b"").decode())
    except (UnicodeDecodeError, tomllib.TOMLDecodeError):
        plan = {}
    names = {"a": plan.get("file_a"), "b": plan.get("file_b"), "sample": plan.get("sample"), "journal": plan.get("journal")}
    names |= {role: f"{role}.csv" for role in ("rule", "links", "prices")}
    names |= dict.fromkeys(("verdicts", "capacities"), words[2] if len(words) > 2 else None)
    roles = [] if words[0] in ("rule", "frontier") and "sample" not in plan else LOADS[words[0]].split()
    return [("settings", words[1]), *((role, names[role]) for role in roles if names[role] is not None)]


def reached(ended: Ended, roles: list[tuple[str, str]]) -> list[tuple[str, str]]:
    """The loads that are made: up to that of a name that holds nothing, or of the input that has the fault, and both of A and B
    before a fault of either."""
    if ended.status == 2:
        return []
    if ended.status == 6:
        names = [f"store: {name}" for _, name in roles]
        return roles[: names.index(ended.fault) + 1]
    at_fault = ended.fault.partition(":")[0].partition(" ")[0]
    last = "b" if at_fault == "a" and any(role == "b" for role, _ in roles) else at_fault
    places = [at for at, (role, _) in enumerate(roles) if role == last]
    return roles[: places[-1] + 1] if places else roles


def shortened(text: bytes) -> bytes:
    """A text as it is shown: whole, or its front, its size and its end."""
    if len(text) <= LONGEST:
        return text
    size = b"..\n.. %d bytes in %d lines, which end:\n" % (len(text), text.count(b"\n"))
    return text[:SHOWN] + size + text[-SHOWN:]


def is_shortened(text: bytes) -> bool:
    """Whether a text is what is shown of a longer one."""
    return b" lines, which end:\n" in text


def shown_of(text: bytes) -> bytes:
    """A text as it is shown, also where it was taken from what is shown."""
    return text if is_shortened(text) else shortened(text)


def at_load(it: Performed, call: int) -> Ended:
    """How a command ends where a load fails."""
    return Ended(6, f"store: {it.loads[call - 1]}")


# A command once


def with_failure(it: Performed, run: dict) -> tuple[Ended, int]:
    """How a command ends where the calls fail that a run names, and how many of its puts are made."""
    ended, puts = it.ended, len(it.ended.puts)
    if run.get("out_fails") == 1 and it.prints:
        return Ended(7, "output"), 0
    call = run.get("fails", 0)
    if 1 <= call <= len(it.loads):
        return at_load(it, call), 0
    at = call - len(it.loads)
    if 1 <= at <= puts:
        return Ended(6, f"store: {list(ended.puts)[at - 1]}"), at if run.get("applied") else at - 1
    return ended, puts


def part_of(wants: bytes, name: str, names: list[str]) -> bytes | None:
    """What a case says that a name comes to hold, if it is said to change."""
    others = b"|".join(re.escape(it.encode()) for it in names)
    found = re.search(rb"(?ms)^-- %s\n(.*?)(?=^-- (?:%s)\n|\Z)" % (re.escape(name.encode()), others), wants)
    return found.group(1) if found else None


def once(words: list[str], files: Files, run: dict, wants: bytes) -> tuple[bytes, list[str]]:
    """What is wanted of a command that is run once, and what is wrong with what the case chooses; the files are changed."""
    it = Performed(words, dict(files))
    ended, count = with_failure(it, run)
    out = wants[: wants.find(b"\nstatus ") + 1] if ended.out is None else ended.out
    said = b"" if not ended.fault or run.get("err_fails") == 1 else f"linkage: {ended.fault}\n".encode()
    text = shown_of(out) + said + b"status %d\n" % ended.status
    puts = dict(list(it.ended.puts.items())[:count])
    for name in [name for name in files if name in puts]:
        chosen = part_of(wants, name, list(files)) if puts[name] is None else puts[name]
        puts[name] = files[name] if chosen is None else chosen
        if puts[name] != files[name]:
            text += f"-- {name}\n".encode() + shown_of(puts[name])
    files |= puts
    is_chosen = ended is it.ended and (ended.out is None or None in ended.puts.values()) and ended.status == 0
    if not is_chosen or any(map(is_shortened, [out, *puts.values()])):
        return text, []
    return text, faults_of_answer(words, held_in(it.files), out, puts)


# A command with each call failing, and over each cut of what it reads


def line(ended: Ended, new: list[str]) -> str:
    """An ending in one line."""
    said = ended.fault or (ended.out or b"").decode().strip() * (ended.status == 9)
    return f"{ended.status} {said}".rstrip() + "".join(f", new {name}" for name in new)


def failing(words: list[str], files: Files) -> list[str]:
    """A line for each call that fails, and how many endings that are."""
    it = Performed(words, files)
    loads, puts = len(it.loads), list(it.ended.puts)
    lines = [f"none: {line(it.ended, it.puts_new(len(puts)))}"]
    lines += [f"store {call}: {line(at_load(it, call), [])}" for call in range(1, loads + 1)]
    for number, name in enumerate(puts, 1):
        ended = Ended(6, f"store: {name}")
        lines.append(f"store {loads + number}: {line(ended, it.puts_new(number - 1))}")
        lines.append(f"store {loads + number}, written: {line(ended, it.puts_new(number))}")
    lines.append(f"store {loads + len(puts) + 1}: as none")
    lines += ["output 1: 7 output", "output 2: as none"] if it.prints else ["output 1: as none"]
    tried = 2 * (loads + len(puts)) + 2 + it.prints
    return [*lines, f"standard error too: {tried} endings, 0 of them others"]


def cuts(words: list[str], files: Files, name: str) -> list[str]:
    """How a command ends over each cut of a file, cuts that end alike in one line."""
    held = held_in(files)
    whole, lines, least, last = held[name], [], 0, None
    for length in range(len(whole) + 2):
        now = line(perform(words, held | {name: whole[:length]}), []) if length <= len(whole) else None
        if last is not None and now != last:
            lines.append(f"{least}: {last}" if least == length - 1 else f"{least}-{length - 1}: {last}")
        if now != last:
            least, last = length, now
    return lines


def each_cut(command: dict, files: Files, shown: dict) -> list[str]:
    """The lines of the cuts of each file that a command reads, or the command of which they were shown before."""
    lines, words = [], " ".join(command["words"])
    for name in command["reads"]:
        now = cuts(command["words"], files, name)
        earlier = shown.setdefault((name, tuple(now)), words)
        lines += [f"-- {name} cut", *now] if earlier is words else [f"-- {name} cut: as {earlier}"]
    return lines


def pooled(run: dict, files: Files) -> bytes:
    """The bytes of the distinct texts of the two files of a plan, where a pool is of less; else 0."""
    plan = settings(files[run["words"][0]])
    at = {field["name"]: place for place, field in enumerate(plan["field"])}
    asked = [(place, it["compare"], it["n"]) for place, it in enumerate(plan["field"])]
    asked += [(at[it["field"]], it["key"], it["n"]) for one in plan["pass"] for it in one]
    rows = [row for file in prepared(plan, held_in(files)) for row in file.rows]
    texts = {str(it) for row in rows for it in [*row, *(canon_of(kind, row[place], n) for place, kind, n in asked)] if it is not None}
    bytes_ = sum(len(it.encode()) for it in texts)
    return b"%d\n" % (bytes_ if bytes_ > run["pool"] else 0)


# A run


def of_command(command: dict, files: Files, run: dict, wants: bytes, shown: dict) -> tuple[bytes, list[str]]:
    """What is wanted of a command of a run, and what is wrong with what the case chooses."""
    if not run.get("each_failure") and not run.get("each_cut"):
        return once(command["words"], files, run, wants)
    lines = each_cut(command, files, shown) if run.get("each_cut") else failing(command["words"], files)
    return "".join(f"{it}\n" for it in lines).encode(), []


def wanted(run: dict, files: Files) -> tuple[bytes, list[str]]:
    """What is wanted of a run over files as its own changes have left them, and what is wrong with what the case chooses; the files
    are changed."""
    wants, shown = run["wants"].encode(), {}
    if "pool" in run:
        return pooled(run, files), []
    if not run.get("each_command"):
        return of_command(run, files, run, wants, shown)
    text, faults = b"", []
    for command in listed_commands():
        head = f"$ linkage {' '.join(command['words'])}\n".encode()
        own = wants.partition(head)[2].partition(b"$ linkage ")[0]
        part, wrong = of_command(command, files, run, own, shown)
        text, faults = text + head + part, faults + wrong
    return text, faults


def difference(wants: bytes, text: bytes, other: str = "the second implementation") -> str:
    """The lines that a case wants (`-`) and those that another says (`+`), where they differ."""
    sides = [it.decode("utf-8", "replace").splitlines() for it in (wants, text)]
    return "\n".join(list(difflib.unified_diff(*sides, "the case", other, n=0, lineterm=""))[:40])
