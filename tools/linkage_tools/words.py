"""What the tools have in common on the command line: the words, the one line of a fault, the status."""

import argparse
import os
import sys
from collections.abc import Callable
from pathlib import Path

from .tables import Fault, write_new


class Words(argparse.ArgumentParser):
    """The words of a tool. A fault of them is one line, not a page."""

    def __init__(self, name: str, about: str):
        super().__init__(prog=name, description=about, formatter_class=argparse.RawDescriptionHelpFormatter)

    def error(self, message: str) -> None:
        raise Fault(f"{message}; see {self.prog} -h", 2)


def count_of(text: str) -> int:
    """A whole number of the command line. ArgumentTypeError: it is none, or negative."""
    if not (text.isascii() and text.isdecimal()):
        raise argparse.ArgumentTypeError(f"{text!r} is no whole number")
    return int(text)


def give(text: str, path: Path | None, with_mark: bool = False) -> None:
    """Writes a text in UTF-8 into a new file, with a byte order mark where a spreadsheet is to read it; without a file it is printed."""
    data = text.encode("utf-8", "surrogateescape")
    if path is not None:
        write_new(path, (b"\xef\xbb\xbf" if with_mark else b"") + data)
        return
    sys.stdout.buffer.write(data)
    sys.stdout.buffer.flush()


def tell(name: str, *lines: str) -> None:
    """Says lines on standard error, each behind the name of the tool."""
    for line in lines:
        print(f"{name}: {line}", file=sys.stderr, flush=True)


def ended(name: str, tool: Callable[[list[str]], int | None], given: list[str]) -> int:
    """The status of a tool over some words, 0 where it says none; a fault is one line on standard error."""
    try:
        status = tool(given) or 0
        sys.stdout.flush()
    except Fault as fault:
        tell(name, " ".join(fault.text.splitlines()))
        status = fault.status
    return status


def start(name: str, tool: Callable[[list[str]], int | None]) -> None:
    """Runs a tool over the words of the command line, and ends with its status; with 1 where whoever reads what it prints has ended."""
    try:
        status = ended(name, tool, sys.argv[1:])
    except BrokenPipeError:
        os.dup2(os.open(os.devnull, os.O_WRONLY), sys.stdout.fileno())
        status = 1
    sys.exit(status)
