"""What a command costs: instructions, processor time and memory.

Instructions are counted by valgrind's cachegrind without its caches, which takes some ten times as long as the command itself and gives the
same number each time. Processor time (user and system) and the most memory are those that the kernel counts for the command alone.
"""

import ctypes
import os
import platform
import re
import shutil
import subprocess
from dataclasses import dataclass
from pathlib import Path

from tally import CannotRun

# Every command runs in this environment: what else the caller's has would be read by the loader, and so be counted.
ENVIRONMENT = {"LC_ALL": "C", "PATH": "/usr/bin:/bin"}

# prctl(2): a process whose parent has ended comes to this one, and not to the first process of the machine.
PR_SET_CHILD_SUBREAPER = 36

INSTRUCTIONS = re.compile(r"I +refs: +([0-9,]+)")


class Refused(Exception):
    """A command that ended in another way than it was to, and what it said."""


@dataclass(frozen=True)
class Cost:
    """The processor time of a command in seconds, and the most memory that it had at a time in KiB."""

    seconds: float
    kilobytes: int


def adopt() -> None:
    """Makes this process the parent of commands whose shell has ended. Call it once, before `spend`."""
    if ctypes.CDLL(None, use_errno=True).prctl(PR_SET_CHILD_SUBREAPER, 1, 0, 0, 0) != 0:
        raise CannotRun("prctl: this system gives no process to another parent than the first")


def spend(words: list[str], folder: Path, ends: int = 0) -> Cost:
    """What one run of a command costs; its output is thrown away. Raises Refused where it does not end with this status.

    The command is started by a shell that ends at once, and is waited for here. The kernel counts for the memory of a process also that of
    the process from which it was made, which would be this one with all its lists; so it is a shell's, about one megabyte.
    """
    subprocess.run(["/bin/sh", "-c", '"$@" > /dev/null 2> said &', "sh", *words], cwd=folder, env=ENVIRONMENT, check=True)
    _, status, used = os.wait4(-1, 0)
    if os.waitstatus_to_exitcode(status) != ends:
        said = (folder / "said").read_text("utf-8", "replace").strip()
        raise Refused(f"{' '.join(words[1:])}: status {os.waitstatus_to_exitcode(status)}: {said}")
    return Cost(used.ru_utime + used.ru_stime, used.ru_maxrss)


def least(words: list[str], folder: Path, rounds: int, ends: int = 0) -> Cost:
    """The least time and the least memory of some runs, each of which ends with this status."""
    costs = [spend(words, folder, ends) for _ in range(rounds)]
    return Cost(min(it.seconds for it in costs), min(it.kilobytes for it in costs))


def valgrind() -> str:
    """The path of valgrind."""
    found = shutil.which("valgrind")
    if found is None:
        raise CannotRun("valgrind is not installed")
    return found


def count(words: list[str], folder: Path, ends: int = 0) -> int:
    """The instructions of one run of a command and of all that it starts. Raises Refused where it does not end with this status."""
    tool = [valgrind(), "--tool=cachegrind", "--cache-sim=no", "--cachegrind-out-file=/dev/null", "--trace-children=yes"]
    ended = subprocess.run([*tool, *words], cwd=folder, env=ENVIRONMENT, stdin=subprocess.DEVNULL, stdout=subprocess.DEVNULL,
                           stderr=subprocess.PIPE, check=False)
    said = ended.stderr.decode("utf-8", "replace")
    found = INSTRUCTIONS.findall(said)
    if ended.returncode != ends or not found:
        raise Refused(f"{' '.join(words[1:])}: status {ended.returncode} under valgrind: {said.strip()[-600:]}")
    return sum(int(number.replace(",", "")) for number in found)


def first_line(words: list[str]) -> str:
    """The first line that a command prints; 'unknown' where there is no such command."""
    if shutil.which(words[0]) is None:
        return "unknown"
    lines = subprocess.run(words, capture_output=True, text=True, check=False).stdout.splitlines()
    return lines[0] if lines else "unknown"


def machine() -> str:
    """What of a machine instructions depend on: its kind, its vectors, by which libc chooses how it copies, and the versions."""
    flags = set(re.findall(r"\bavx2\b|\berms\b", Path("/proc/cpuinfo").read_text("utf-8")))
    words = [platform.machine(), *sorted(flags), os.confstr("CS_GNU_LIBC_VERSION") or "unknown libc", first_line(["valgrind", "--version"])]
    return ", ".join(words)
