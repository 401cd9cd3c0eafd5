"""The numbers that are kept beside this program, and tables as a page shows them."""

import tomllib
from pathlib import Path

import costs

PATH = Path(__file__).with_name("kept.toml")
HEAD = """# What commands take on the made input, by the rows of a file: instructions, and memory in KiB (tests/measures/run --keep). Below
# them are the instructions of a plain program for the same work (Rust, unproved), which are not measured here.

"""


class Kept:
    """The numbers of kept.toml, and those that were measured now."""

    def __init__(self) -> None:
        self.held = tomllib.loads(PATH.read_text("utf-8")) if PATH.is_file() else {}
        self.seen: dict[str, dict[str, dict[str, int]]] = {}

    def of(self, kind: str, command: str, rows: int) -> int | None:
        """The number that is kept."""
        return self.held.get(kind, {}).get(command, {}).get(str(rows))

    def note(self, kind: str, command: str, rows: int, given: int) -> None:
        """Takes a number that was measured."""
        self.seen.setdefault(kind, {}).setdefault(command, {})[str(rows)] = given

    def read_with(self) -> str:
        """What the kept numbers were read with, and what was there now, in one line each."""
        was = f"kept: {self.held.get('kit', 'unknown kit')}; {self.held.get('machine', 'unknown machine')}"
        return f"{was}\nhere: {kit()}; {costs.machine()}"

    def write(self) -> None:
        """Writes what was measured over what was kept; what was not measured now stays."""
        lines = [f'kit = "{kit()}"', f'machine = "{costs.machine()}"']
        for kind in ("instructions", "memory", "plain"):
            lines += ["", f"[{kind}]"]
            commands = self.held.get(kind, {}) | self.seen.get(kind, {})
            for command in commands:
                numbers = self.held.get(kind, {}).get(command, {}) | self.seen.get(kind, {}).get(command, {})
                shown = ", ".join(f"{rows} = {numbers[rows]:_}" for rows in sorted(numbers, key=int))
                lines.append(f"{command} = {{ {shown} }}")
        PATH.write_text(HEAD + "\n".join(lines) + "\n", "utf-8")


def kit() -> str:
    """The line of the kit that is here, which is most likely that by which the program was built."""
    return costs.first_line(["rt", "version"])


class Table:
    """A table in the form of the pages: the first column is words, the others are numbers."""

    def __init__(self, *heads: str) -> None:
        self.rows: list[tuple[str, ...]] = [heads]

    def add(self, *cells: str) -> None:
        """Adds a row."""
        self.rows.append(cells)

    def show(self, title: str) -> None:
        """Prints the table, where it has a row."""
        if len(self.rows) == 1:
            return
        widths = [max(map(len, column)) for column in zip(*self.rows)]
        lines = [[row[0].ljust(widths[0]), *(cell.rjust(width) for cell, width in zip(row[1:], widths[1:]))] for row in self.rows]
        lines.insert(1, ["-" * widths[0], *("-" * (width - 1) + ":" for width in widths[1:])])
        print(f"\n{title}\n", *(f"| {' | '.join(line)} |" for line in lines), "", sep="\n", flush=True)
