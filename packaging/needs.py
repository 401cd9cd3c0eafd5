"""What a program needs at run time, read from the program itself: its libraries, the versions of their symbols, Debian's packages."""

import re
import subprocess
from pathlib import Path

# The package of Debian that has a library, and how the library calls its versions.
PACKAGES = {
    "libc.so.6": ("libc6", "GLIBC_"),
    "libm.so.6": ("libc6", "GLIBC_"),
    "libgcc_s.so.1": ("libgcc-s1", "GCC_"),
}
LOADER = "ld-linux-x86-64.so.2"  # a part of glibc, with no version of its own


class CannotMake(Exception):
    """Why there is no package, in one line."""


def headers(program: Path) -> str:
    """What binutils' objdump tells of the dynamic section of a program."""
    ended = subprocess.run(["objdump", "-p", program], capture_output=True, text=True, check=False)
    if ended.returncode or "elf64-x86-64" not in ended.stdout:
        raise CannotMake(f"{program} is no program for amd64")
    return ended.stdout


def needed(program: Path) -> dict[str, list[str]]:
    """Each library that the program names as needed, with the versions of the symbols that it takes from there."""
    text = headers(program)
    found: dict[str, list[str]] = {name: [] for name in re.findall(r"^\s+NEEDED\s+(\S+)$", text, flags=re.M)}
    for name, lines in re.findall(r"^  required from (\S+):\n((?:    .*\n)+)", text + "\n", flags=re.M):
        found.setdefault(name, []).extend(line.split()[-1] for line in lines.splitlines())
    return found


def least(program: Path, prefix: str) -> str:
    """The least version of a library that has all symbols which the program takes from it."""
    names = [it for symbols in needed(program).values() for it in symbols if it.startswith(prefix)]
    if not names or any(not re.fullmatch(r"\d+(\.\d+)*", it.removeprefix(prefix)) for it in names):
        raise CannotMake(f"{program} takes these symbols of {prefix}, which are no versions: {' '.join(names) or 'none'}")
    return max((it.removeprefix(prefix) for it in names), key=lambda it: [int(number) for number in it.split(".")])


def depends(program: Path) -> str:
    """The field Depends of Debian's control file."""
    packages: dict[str, str] = {}
    for library in needed(program):
        if library != LOADER and library not in PACKAGES:
            raise CannotMake(f"no package is known for {library}, which {program} needs")
        if library != LOADER:
            package, prefix = PACKAGES[library]
            packages[package] = f"{package} (>= {least(program, prefix)})"
    return ", ".join(packages[it] for it in sorted(packages))
