"""The copyright file: what the repository, the kit's libraries that are linked in, and the system's libraries state of their licences."""

import re
import shutil
from pathlib import Path

from needs import CannotMake, needed

HEAD = """linkage {version}
from commit {commit}

What is in this package, by whom, and under which licence, as far as it is stated.

linkage itself: program, manual, man page, completion, tools
------------------------------------------------------------
"""
NONE = """The repository states no licence, and names no holder of the copyright. So nobody is given a right by it to copy, to change or to
hand on what is his: ask those who gave it to you.
"""
SYSTEM = """
Libraries of the system
-----------------------
The program loads, as it starts, what is the system's and not in this package: {loaded}.
Of glibc (GNU Lesser General Public License, version 2.1 or later) and of GCC (GNU General Public License, version 3 or later, with the GCC
Runtime Library Exception) small objects are linked in, which start and end a program, as into each program that a compiler makes for
Linux; both licences allow it. Debian has their texts in /usr/share/doc/libc6/copyright and /usr/share/doc/gcc-12-base/copyright.
"""
KIT = """
What is linked in: libraries of the kit {identity}
{line}
The program is made from these libraries, which are ports of Rust's libraries or the kit's own. Beside each stand the licence texts in its
folder of the kit; where there are several, of Apache and MIT, Rust's custom is that one may take either.

"""
SILENT = "The kit states no licence for: {names}.\n"
APACHE = "The text is the Apache License, Version 2.0, of January 2004: /usr/share/common-licenses/Apache-2.0 on Debian, and\n{address}"
ADDRESS = "https://www.apache.org/licenses/LICENSE-2.0\n"


def kit_folder() -> Path:
    """The folder of the kit, whose command is `rt`."""
    command = shutil.which("rt")
    folder = Path(command).resolve().parent.parent if command else None
    if not folder or not (folder / "KIT-ID").is_file():
        raise CannotMake("there is no kit: its command rt is not on the path")
    return folder


def kit_identity() -> str:
    return (kit_folder() / "KIT-ID").read_text(encoding="utf-8").strip()


def libraries(top: Path, crate: str) -> list[str]:
    """The libraries of the kit on which a crate of the repository stands, by its list of crates and by what the kit's name."""
    uses = {}
    for line in (top / "crates.txt").read_text(encoding="utf-8").splitlines():
        name, colon, below = line.partition("#")[0].partition(":")
        if colon:
            uses[name.strip()] = below.split()
    kit, found, left = kit_folder() / "rlibs", set(), [crate]
    while left:
        name = left.pop()
        if name in found:
            continue
        found.add(name)
        form = kit / f"{name}.rlib/format"
        left += uses[name] if name in uses else re.findall(r"^dep (\S+)$", form.read_text(encoding="utf-8"), flags=re.M)
    return sorted(found - set(uses))


def licence_text(path: Path) -> str:
    """A licence as the copyright file has it: in full; Apache's, which Debian has, by its place, and what is not Apache's of it in full."""
    text = path.read_text(encoding="utf-8").strip("\n") + "\n"
    return APACHE.format(address=ADDRESS) if re.match(r"\s*Apache License\s+Version 2\.0", text) else text


def of_kit(top: Path, crate: str) -> str:
    """The licence texts of the kit's libraries, each once, below the names of those that have it."""
    texts: dict[str, list[str]] = {}
    silent = []
    for name in libraries(top, crate):
        paths = sorted((kit_folder() / "rattle" / name).glob("LICENSE*"))
        silent += [] if paths else [name]
        for path in paths:
            texts.setdefault(licence_text(path), []).append(f"{name} ({path.name})")
    title = KIT.format(identity=kit_identity(), line="-" * 50)
    parts = [f"{', '.join(names)}:\n\n{indented(text)}" for text, names in texts.items()]
    return title + (SILENT.format(names=", ".join(silent)) if silent else "") + "".join(f"\n{it}" for it in parts)


def indented(text: str) -> str:
    return "".join(f"    {line}".rstrip() + "\n" for line in text.splitlines())


def copyright_text(top: Path, program: Path, version: str, commit: str) -> str:
    """The whole file, for a program that was made from a commit of the repository at `top`."""
    own = sorted(it for name in ("LICENSE*", "LICENCE*", "COPYING*") for it in top.glob(name) if it.is_file())
    stated = "".join(licence_text(it) for it in own) or NONE
    system = SYSTEM.format(loaded=", ".join(sorted(needed(program))))
    return HEAD.format(version=version, commit=commit) + stated + system + of_kit(top, "linkage")
