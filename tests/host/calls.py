"""The calls that a command makes on the files of the machine: which, in which order, each of them failing in turn, and a kill at each.

`calls.c` stands before the system's calls, writes them down, and has one fail as a broken disk does, or the program killed there. A put
locks the folder, makes a new file beside the old one, which has its rights before it has a byte, keeps it on the disk, and sees that the
old one is still what was read before the new one takes the name; then it keeps the folder. So a crash leaves the old text or the new one.
"""

import os
import subprocess
from pathlib import Path

from machine import INPUTS, KEEPERS, OUTPUTS, REVIEW, Host
from tally import CannotRun

SOURCE = Path(__file__).resolve().parent / "calls.c"
PRINT = ["write standard output"]
OVER = "run s.toml, over old outputs"


def load(*names: str) -> list[str]:
    """The calls of loads: each file is opened, and what it is is asked before it is read."""
    return [f"{verb} {name}" for name in names for verb in ("read", "state")]


def put(name: str, is_first: bool = True, is_loaded: bool = False, is_old: bool = False) -> list[str]:
    """The calls of a put: of the first of a command, which locks the folder; of a name that was loaded; of one that has an old file."""
    beside = f"{name}.new"
    lock = [f"follow {name}", "read .", "state .", *(["lock ."] if is_first else []), f"state {name}"]
    make = [f"create {beside}", *([f"owner {beside}", f"state {beside}", f"rights {beside}"] if is_old else [])]
    keep = [f"write {beside}", f"sync {beside}", *(load(name) if is_loaded else [])]
    return [*lock, *make, *keep, f"rename {beside} {name}", "sync ."]


def outputs(is_old: bool) -> list[str]:
    """The calls of the puts of a run."""
    return [call for name in OUTPUTS for call in put(name, is_first=name == OUTPUTS[0], is_old=is_old)]


JOURNAL = put("journal.csv", is_loaded=True, is_old=True)

# What each command calls over the worked example, after a run where it reads or replaces what a run wrote.
CALLS = {
    "pairs a.csv a.csv surname": [*load("a.csv", "a.csv"), *PRINT],
    "keys Lee": PRINT,
    "pairs s.toml": [*load(*INPUTS[:3]), *PRINT],
    "rule s.toml": [*load(*INPUTS[:4]), *PRINT],
    "frontier s.toml 40": [*load(*INPUTS[:4]), *PRINT],
    "open s.toml": [*load(*INPUTS), *PRINT],
    REVIEW: [*load(*INPUTS, "v.csv"), *JOURNAL],
    "migrate s.toml": [*load(*INPUTS[:3], INPUTS[4]), *JOURNAL],
    "run s.toml": [*load(*INPUTS), *outputs(is_old=False)],
    OVER: [*load(*INPUTS), *outputs(is_old=True)],
    "verify s.toml": [*load(*INPUTS, "rule.csv", "links.csv", "prices.csv"), *PRINT],
    "many s.toml c.csv": [*load(*INPUTS, "c.csv"), *PRINT],
    "generate 2": PRINT,
    "help": PRINT,
    "run no.toml": ["read no.toml", "write standard error"],
}


def library(host: Host) -> Path:
    """The library that stands before the system's calls."""
    path = host.top / "calls.so"
    made = path.exists() or not subprocess.run(["cc", "-shared", "-fPIC", "-O1", "-o", path, SOURCE, "-ldl"], check=False).returncode
    if not made:
        raise CannotRun("there is no C compiler cc that makes calls.so: apt-get install gcc")
    return path


def prepared(host: Host, words: str) -> None:
    """Capacities beside the example, and what a run wrote where the command reads or replaces it."""
    (host.folder / "c.csv").write_text("id_b,capacity\nB4,2\n", encoding="utf-8")
    if words.startswith("verify"):
        host.ending("run s.toml")
    if words == OVER:
        for name in OUTPUTS:
            (host.folder / name).write_bytes(b"old\n")


def ending(host: Host, words: str, **at: int) -> tuple[str, list[str]]:
    """How a command ends where the call FAILED or KILLED of that number fails or is its last; pieces of one write are one call."""
    told = host.top / "calls.txt"
    numbers = {name: str(number) for name, number in at.items()}
    environment = os.environ | {"LD_PRELOAD": str(library(host)), "CALLS": str(told)} | numbers
    said = host.ending(words.split(",")[0], env=environment)
    calls = told.read_text(encoding="utf-8").splitlines()
    return said, [call for at, call in enumerate(calls) if at == 0 or call != calls[at - 1] or not call.startswith("write")]


def made_calls(host: Host) -> None:
    """Which calls each command makes, and in which order."""

    def made(words: str) -> str:
        prepared(host, words)
        return "\n".join(ending(host, words)[1])

    for words, wanted in CALLS.items():
        host.judge(f"the calls of {words}", lambda words=words: made(words), "\n".join(wanted))


def failing(calls: list[str], at: int) -> str:
    """How a command must end where the call at a place fails, and which names hold their new texts then."""
    new = [call.split()[2] for call in calls[:at] if call.startswith("rename")]
    verb, name = calls[at].split(maxsplit=1)
    if name.startswith("standard"):
        return "7 output;" if name == "standard output" else "6 store: no.toml;"
    if verb in ("owner", "rights") or (verb == "state" and name.endswith(".new")):
        return f"0; {' '.join(call.split()[2] for call in calls if call.startswith('rename'))}"
    if name == "." and verb == "sync":
        name = new[-1]
    elif name == "." or ".new" in name:
        name = next(call.split()[2] for call in calls[at:] if call.startswith("rename"))
    return f"6 store: {name}; {' '.join(new)}"


def failing_calls(host: Host) -> None:
    """Each call of each command failing in turn: its own fault, no name torn, and nothing left over.

    Of `run` it is the one over old outputs, which has all calls of one over none.
    """

    def failed(words: str, at: int) -> str:
        prepared(host, words)
        host.remember()
        said, _ = ending(host, words, FAILED=at + 1)
        return f"{said}; {host.held()}"

    for words, calls in CALLS.items():
        for at, call in enumerate(calls if words != "run s.toml" else []):
            if call != "write standard error":
                part = f"call {at + 1} of {words} fails: {call}"
                host.judge(part, lambda words=words, at=at: failed(words, at), failing(calls, at))


def kills_at_calls(host: Host) -> None:
    """A kill at each call of a command that puts: each name holds its old or its new text, and the next command leaves nothing over."""

    def killed(words: str, at: int) -> str:
        prepared(host, words)
        host.remember()
        said, _ = ending(host, words, KILLED=at + 1)
        torn = [it for it in host.held().split() if it.startswith("torn")]
        for name, text in host.old.items():
            (host.folder / name).write_bytes(text)
        return f"{said} {' '.join(torn)}, {host.ending(words.split(',')[0])}; {host.held()}"

    for words in (*KEEPERS, OVER):
        new = [call.split()[2] for call in CALLS[words] if call.startswith("rename")]
        for at, call in enumerate(CALLS[words]):
            part = f"a kill at call {at + 1} of {words}: {call}"
            host.judge(part, lambda words=words, at=at: killed(words, at), f"-9 , 0; {' '.join(new)}")
