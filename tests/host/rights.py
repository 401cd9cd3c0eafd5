"""Rights, owners and symbolic links: what a file that is replaced keeps, and which file is replaced."""

import os
import shutil
from collections.abc import Callable
from pathlib import Path

from calls import ending
from machine import INPUTS, OUTPUTS, REVIEW, Host

NOBODY = 65_534


def stated(path: Path) -> str:
    """The rights of a file, in octal."""
    return f"{path.stat().st_mode & 0o7777:o}"


def masked(mask: int) -> Callable[[], None]:
    """What a child does first: a mask of the rights of what it makes."""
    return lambda: os.umask(mask) and None


def modes(host: Host) -> None:
    """A file that is replaced keeps its rights, whatever the mask; a new one has those of the mask."""

    def replaced(mode: int, mask: int) -> str:
        (host.folder / "journal.csv").chmod(mode)
        return f"{host.ending(REVIEW, preexec_fn=masked(mask))}; {stated(host.folder / 'journal.csv')} {host.held()}"

    def new(mask: int) -> str:
        return f"{host.ending('run s.toml', preexec_fn=masked(mask))}; {' '.join(sorted({stated(host.folder / name) for name in OUTPUTS}))}"

    for mode, mask in ((0o600, 0o022), (0o640, 0o077), (0o664, 0o077), (0o444, 0o022), (0o666, 0o022)):
        part = f"a journal of mode {mode:o} keeps it under umask {mask:o}"
        host.judge(part, lambda mode=mode, mask=mask: replaced(mode, mask), f"0; {mode:o} journal.csv")
    for mask, mode in ((0o022, "644"), (0o077, "600"), (0o007, "660")):
        host.judge(f"new files under umask {mask:o}", lambda mask=mask: new(mask), f"0; {mode}")


def owners(host: Host) -> None:
    """Owner and group stay where the host lets them; where they may not, a group may do no more than everyone. Only root may try it."""
    journal = lambda: host.folder / "journal.csv"  # noqa: E731

    def whose() -> str:
        state = journal().stat()
        return f"{state.st_uid} {state.st_gid} {stated(journal())}"

    def kept() -> str:
        os.chown(journal(), 1, 2)
        journal().chmod(0o640)
        return f"{host.ending(REVIEW)}; {whose()}"

    def refused(group: int) -> str:
        host.top.chmod(0o711)
        shutil.copy(host.program, host.folder / "linkage")
        for it in (host.folder, *(host.folder / name for name in (*INPUTS, "v.csv"))):
            os.chown(it, NOBODY, NOBODY)
        os.chown(journal(), 1, group)
        journal().chmod(0o664)
        as_nobody = {"executable": host.folder / "linkage", "user": NOBODY, "group": NOBODY, "extra_groups": [4]}
        return f"{host.ending(REVIEW, **as_nobody)}; {whose()}"

    host.judge("owner and group of a journal are kept by root", kept, "0; 1 2 640")
    host.judge("an owner that may not be given: the group is kept", lambda: refused(4), f"0; {NOBODY} 4 664")
    host.judge("a group that may not be given: it may do no more than everyone", lambda: refused(2), f"0; {NOBODY} {NOBODY} 644")


def narrow_from_the_first(host: Host) -> None:
    """A file beside a private one is private before it has a byte: a kill there leaves nothing that others may read."""

    def left() -> str:
        (host.folder / "journal.csv").chmod(0o600)
        seen = set()
        for moment in range(1, 40):
            ending(host, REVIEW, KILLED=moment)
            seen |= {stated(it) for it in host.folder.glob("*.new")}
        return " ".join(sorted(seen))

    host.judge("the file beside a private journal is private", left, "600")


def links(host: Host) -> None:
    """A symbolic link is followed, and stays; what it leads to is replaced, or made where there is none."""

    def linked(words: str, name: str, chain: dict[str, str]) -> str:
        (host.folder / "kept").mkdir()
        if (host.folder / name).exists():
            (host.folder / name).rename(host.folder / "kept" / name)
        for link, text in chain.items():
            (host.folder / link).symlink_to(text.replace("TOP", str(host.folder)))
        said = host.ending(words)
        ends = [f"{it}->{'link' if (host.folder / it).is_symlink() else 'file'}" for it in chain]
        end = host.folder / "kept" / name
        held = "none" if not end.is_file() else "new" if end.read_bytes() in host.new[name] else "old"
        return f"{said}; {' '.join(ends)}; {held} {' '.join(it.name for it in host.folder.glob('**/*.new'))}"

    place = {"a name": "kept/NAME", "a whole name": "TOP/kept/NAME", "another folder's": "kept/../kept/NAME"}
    for words, name in ((REVIEW, "journal.csv"), ("run s.toml", "links.csv")):
        for how, text in place.items():
            part, chain = f"{words.split()[0]}: {name} is a link with {how}", {name: text.replace("NAME", name)}
            host.judge(part, lambda w=words, n=name, c=chain: linked(w, n, c), f"0; {name}->link; new")
        chain = {name: "one", "one": "kept/two", "kept/two": name}
        wanted = f"0; {name}->link one->link kept/two->link; new"
        host.judge(f"{name} at the end of three links", lambda w=words, n=name, c=chain: linked(w, n, c), wanted)
    for how, chain in {"a folder that is not there": {"links.csv": "none/links.csv"}, "itself": {"links.csv": "links.csv"}}.items():
        wanted = "6 store: links.csv; links.csv->link; none"
        host.judge(f"an output that leads to {how}", lambda c=chain: linked("run s.toml", "links.csv", c), wanted)


def traps(host: Host) -> None:
    """What a put never takes away: an input that an output leads to, what is no file, what a link beside the name leads to."""

    def leads_to_an_input() -> str:
        (host.folder / "links.csv").symlink_to("a.csv")
        before = (host.folder / "a.csv").read_bytes()
        return f"{host.ending('run s.toml')}; {'kept' if (host.folder / 'a.csv').read_bytes() == before else 'lost'}"

    def pipe() -> str:
        os.mkfifo(host.folder / "links.csv")
        return f"{host.ending('run s.toml', timeout=20)}; {'kept' if (host.folder / 'links.csv').is_fifo() else 'lost'}"

    def planted(script: str) -> str:
        host.shell(script)
        said = host.ending("run s.toml")
        kind = "link" if (host.folder / "links.csv").is_symlink() else "file"
        return f"{said}; {kind} {stated(host.folder / 'links.csv')} {host.shell('cat precious; ls *.new 2>&-')}"

    host.judge("an output that leads to an input", leads_to_an_input, "6 store: links.csv; kept")
    host.judge("a pipe in the place of an output", pipe, "6 store: links.csv; kept")
    plant = "echo precious > precious; {}; chmod 666 links.csv.new"
    for how, script in {"a link": "ln -s precious links.csv.new", "an old file": ": > links.csv.new"}.items():
        planting = f"umask 022; {plant.format(script)}; chmod 644 precious"
        host.judge(f"{how} beside an output is neither followed nor kept", lambda s=planting: planted(s), "0; file 644 precious")


def rights_and_links(host: Host) -> None:
    """All tries of this page; those of owners where it is root who tries."""
    for tries in (modes, narrow_from_the_first, links, traps, *([owners] if os.geteuid() == 0 else [])):
        tries(host)
