"""Two commands at once in one folder, and other programs beside one: nothing is lost, and who comes too late is told.

A reviewer's verdicts come through a pipe, so that she has read the journal before the pipe is filled; a folder's lock is held here
where two runs are to come to it together.
"""

import errno
import fcntl
import os
import subprocess
import time
from collections.abc import Callable
from pathlib import Path

from machine import OUTPUTS, Host

TIMES = 100
MOST_SECONDS = 20.0
CHANGED = {
    "a row more, in place": "printf '4,2024-03-05,cy,A6,B7,open\\n' >> journal.csv",
    "as many bytes, in place": "sed 's/ben/cyn/' journal.csv > other && cat other > journal.csv && rm other",
    "as many bytes, in another file": "sed -i 's/ben/cyn/' journal.csv",
    "removed": "rm journal.csv",
}


def started(host: Host, *words: str) -> subprocess.Popen:
    """A command that was started in the folder."""
    return subprocess.Popen([host.program, *words], cwd=host.folder, stdin=subprocess.DEVNULL, stderr=subprocess.PIPE, text=True)


def ended(process: subprocess.Popen) -> str:
    """Status and fault of a command, killed where it does not end."""
    try:
        said = process.communicate(timeout=MOST_SECONDS)[1]
    except subprocess.TimeoutExpired:
        process.kill()
        return f"no end within {MOST_SECONDS} s {process.communicate()[1]}"
    return f"{process.returncode} {said.replace('linkage: ', '')}".strip()


def when_read(pipe: Path) -> int:
    """The end of a pipe to write to, once somebody has opened it to read."""
    last = time.monotonic() + MOST_SECONDS
    while True:
        try:
            return os.open(pipe, os.O_WRONLY | os.O_NONBLOCK)
        except OSError as error:
            if error.errno != errno.ENXIO or time.monotonic() > last:
                raise
        time.sleep(0.001)


def reviewer(host: Host, name: str) -> tuple[subprocess.Popen, int]:
    """A reviewer who has read the journal and waits for her verdicts, and the pipe that they come through."""
    os.mkfifo(host.folder / name)
    process = started(host, "review", "s.toml", name, "2024-03-06", name)
    return process, when_read(host.folder / name)


def said_by(process: subprocess.Popen, pipe: int) -> str:
    """How a reviewer ends once her verdict is there."""
    os.write(pipe, b"id_a,id_b,verdict\nA4,B3,nonlink\n")
    os.close(pipe)
    return ended(process)


def entries(host: Host) -> list[str]:
    """Who gave the entries after the first three of the journal."""
    return [row.split(",")[2] for row in (host.folder / "journal.csv").read_text(encoding="utf-8").splitlines()[4:]]


def reviewers(host: Host) -> None:
    """Two reviewers who have read one journal: the first verdict stands, and the other reviewer is told; no matter how often."""

    def both() -> str:
        seen = set()
        for _ in range(TIMES):
            host.fresh()
            waiting = {name: reviewer(host, name) for name in ("ana", "ben")}
            for _process, pipe in waiting.values():
                os.write(pipe, b"id_a,id_b,verdict\nA4,B3,nonlink\n")
                os.close(pipe)
            said = {name: ended(process) for name, (process, _pipe) in waiting.items()}
            kept = [name for name, how in said.items() if how == "0"]
            left = [it.name for it in host.folder.glob("*.new")]
            seen.add(f"{' and '.join(sorted(said.values()))}; {'kept' if entries(host) == kept else 'lost'}{left or ''}")
        return " | ".join(sorted(seen))

    def one_after_the_other() -> str:
        slow, pipe = reviewer(host, "ana")
        quick, other = reviewer(host, "ben")
        return f"{said_by(quick, other)}, {said_by(slow, pipe)}; {' '.join(entries(host))}"

    def freely() -> str:
        (host.folder / "w.csv").write_text("id_a,id_b,verdict\nA3,B3,link\n", encoding="utf-8")
        lost = 0
        for _ in range(TIMES // 4):
            before = len(entries(host))
            both = [started(host, "review", "s.toml", words, "2024-03-06", "ana") for words in ("v.csv", "w.csv")]
            lost += [ended(it) for it in both].count("0") != len(entries(host)) - before
        return f"{lost} times lost"

    host.judge(f"two reviewers at once, {TIMES} times", both, "0 and 6 store: journal.csv; kept")
    host.judge("a slow reviewer is told", one_after_the_other, "0, 6 store: journal.csv; ben")
    host.judge(f"two reviewers who run as they like, {TIMES // 4} times", freely, "0 times lost")


def texts(host: Host) -> tuple[bytes, ...]:
    """What the outputs hold."""
    return tuple((host.folder / name).read_bytes() for name in OUTPUTS)


def held_folder(folder: Path, body: Callable[[], str]) -> str:
    """What is done while somebody else holds the lock of a folder."""
    handle = os.open(folder, os.O_RDONLY)
    fcntl.flock(handle, fcntl.LOCK_EX)
    try:
        return body()
    finally:
        os.close(handle)


def at_once(host: Host, names: list[str]) -> str:
    """How runs over some settings end that come to the lock of the folder together."""
    processes: list[subprocess.Popen] = []

    def start() -> str:
        processes.extend(started(host, "run", name) for name in names)
        time.sleep(0.02)
        return ""

    held_folder(host.folder, start)
    return " and ".join(ended(it) for it in processes)


def runs(host: Host) -> None:
    """Two runs over different samples that come to the lock of the folder together: the five files are those of one of them."""

    def both() -> str:
        sample = (host.folder / "sample.csv").read_text(encoding="utf-8").splitlines(keepends=True)
        (host.folder / "t.csv").write_text("".join(sample[:13]), encoding="utf-8")
        settings = (host.folder / "s.toml").read_text(encoding="utf-8")
        (host.folder / "t.toml").write_text(settings.replace("sample.csv", "t.csv"), encoding="utf-8")
        whole, seen = {}, set()
        for name in ("s.toml", "t.toml"):
            host.ending(f"run {name}")
            whole[texts(host)] = name
        for _ in range(TIMES // 4):
            seen.add(f"{at_once(host, list(whole.values()))}; {'one' if texts(host) in whole else 'mixed'}")
        return f"{len(whole)} runs; {' | '.join(sorted(seen))}"

    host.judge(f"two runs at once, {TIMES // 4} times", both, "2 runs; 0 and 0; one")


def locks(host: Host) -> None:
    """The lock of a folder: a command waits for the first, and fails where it finds a further one taken."""

    def waits() -> str:
        process: list[subprocess.Popen] = []

        def still_waits() -> str:
            process.append(started(host, "run", "s.toml"))
            time.sleep(0.3)
            return f"{'waits' if process[0].poll() is None else 'ended'}; {host.held()}"

        return f"{held_folder(host.folder, still_waits)}, {ended(process[0])}; {host.held()}"

    def further() -> str:
        (host.folder / "other").mkdir()
        (host.folder / "rule.csv").symlink_to("other/rule.csv")
        said = held_folder(host.folder / "other", lambda: host.ending("run s.toml", timeout=MOST_SECONDS))
        return f"{said}; {host.held()}, {host.ending('run s.toml')}"

    host.judge("a folder that another holds is waited for", waits, f"waits; , 0; {' '.join(OUTPUTS)}")
    host.judge("a further folder that another holds is a fault", further, "6 store: rule.csv; pairs.csv, 0")


def other_programs(host: Host) -> None:
    """A journal that another program changed after it was read: the reviewer is told, and it stays as that program left it."""

    def changed(script: str) -> str:
        process, pipe = reviewer(host, "ana")
        time.sleep(0.02)
        host.shell(script)
        left = host.shell("cat journal.csv")
        said = said_by(process, pipe)
        return f"{said}; {'as left' if host.shell('cat journal.csv') == left else 'changed'} {host.shell('ls *.new 2>&-')}"

    for name, script in CHANGED.items():
        host.judge(f"a journal that is changed meanwhile: {name}", lambda script=script: changed(script), "6 store: journal.csv; as left")


def together(host: Host) -> None:
    """All tries of this page."""
    for tries in (reviewers, runs, locks, other_programs):
        tries(host)
