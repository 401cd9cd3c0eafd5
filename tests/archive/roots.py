"""An empty system in a folder: no more than the libraries of the packages that another package names, and a list of installed packages."""

import os
import re
import shutil
import subprocess
import sys
from pathlib import Path

sys.path.insert(0, str(Path(__file__).resolve().parent.parent))
from tally import CannotRun  # noqa: E402

LIBRARY = re.compile(r"/lib(64|/x86_64-linux-gnu)/[^/]+\.so\.\d+")
PLAIN = {"PATH": "/usr/sbin:/usr/bin:/sbin:/bin", "LC_ALL": "C.UTF-8", "DEBIAN_FRONTEND": "noninteractive"}


def said(words: list, folder: Path | None = None) -> tuple[int, str]:
    """The status of a command of the system, and what it prints on both streams."""
    how = {"stdin": subprocess.DEVNULL, "stdout": subprocess.PIPE, "stderr": subprocess.STDOUT, "text": True, "errors": "replace"}
    ended = subprocess.run([str(it) for it in words], cwd=folder, env=PLAIN, check=False, **how)
    return ended.returncode, ended.stdout


def as_root() -> None:
    """Goes on as root, if need be as root of a space of users of its own."""
    if os.geteuid() == 0:
        return
    if not shutil.which("unshare") or said(["unshare", "-r", "true"])[0]:
        raise CannotRun("a root folder needs root, or unshare -r, and neither may be had")
    os.execvp("unshare", ["unshare", "-r", sys.executable, *sys.argv])


class System:
    """A folder that is used as a root."""

    def __init__(self, folder: Path, packages: dict[str, str | None]):
        """Of each package named the libraries, and that it is installed, in the version that is given, or that of this machine."""
        self.folder = folder
        for place in ("var/lib/dpkg/info", "var/lib/dpkg/updates", "var/lib/dpkg/triggers"):
            (folder / place).mkdir(parents=True)
        entries = [self.installed(name, version) for name, version in packages.items()]
        (folder / "var/lib/dpkg/status").write_text("\n".join(entries), encoding="utf-8")
        self.before = self.listed()

    def installed(self, name: str, version: str | None) -> str:
        """Copies the libraries of a package of this machine, and gives its entry in the list of packages."""
        status, here = said(["dpkg-query", "-W", "-f", "${Version}", f"{name}:amd64"])
        if status:
            raise CannotRun(f"there is no package {name} on this machine, whose libraries are wanted")
        for line in said(["dpkg-query", "-L", f"{name}:amd64"])[1].splitlines():
            if LIBRARY.fullmatch(line.removeprefix("/usr")):
                target = self.folder / line.removeprefix("/usr").lstrip("/")
                target.parent.mkdir(parents=True, exist_ok=True)
                shutil.copy(line, target)
        return (
            f"Package: {name}\nStatus: install ok installed\nMaintainer: none\nArchitecture: amd64\nMulti-Arch: same\n"
            f"Version: {version or here}\nDescription: libraries\n"
        )

    def listed(self) -> list[str]:
        """All files and folders but dpkg's own."""
        found = [str(it.relative_to(self.folder)) for it in self.folder.rglob("*")]
        return sorted(it for it in found if not it.startswith("var/"))

    def dpkg(self, *words: str | Path) -> tuple[int, str]:
        """Runs dpkg on this root, whatever this machine leaves out of packages."""
        fixed = [f"--root={self.folder}", "--force-script-chrootless", "--path-include=/*", "--log=/dev/null"]
        return said(["dpkg", *fixed, *words])

    def run(self, words: list[str], folder: str = "/") -> tuple[int, str, str]:
        """Runs a program of this root, in a folder of it: status, output, standard error."""

        def enter() -> None:
            os.chroot(self.folder)
            os.chdir(folder)

        how = {"stdin": subprocess.DEVNULL, "capture_output": True, "text": True, "env": {}, "preexec_fn": enter}
        try:
            ended = subprocess.run(words, check=False, **how)
        except OSError as fault:
            return -1, "", str(fault)
        return ended.returncode, ended.stdout, ended.stderr
