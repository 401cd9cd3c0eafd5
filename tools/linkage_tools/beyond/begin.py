"""How a linkage beyond one run begins: its settings, which must serve, and its folder, which must be of the same inputs."""

import argparse
import contextlib
import fcntl
import hashlib
import json
import shutil
import sys
from pathlib import Path

from ..job import program
from ..settings import Settings, read_settings
from ..tables import MARK, Fault, load
from .files import put


class Whole:
    """A linkage beyond one run: its words, its settings, and its folder."""

    def __init__(self, words: argparse.Namespace):
        self.words, self.folder = words, words.folder.resolve()
        self.settings: Settings = read_settings(Path("."), words.settings)
        self.text = load(Path(words.settings)).removeprefix(MARK).decode()
        self.paths = {side: Path(name).resolve() for side, name in self.settings.files.items()}
        self.costs: list[str] = []
        refuse(self.settings)

    def manifest(self) -> dict[str, str]:
        """What all answers rest on: digests of the inputs and of the program, and the size of jobs."""
        inputs = {"settings": Path(self.words.settings), **self.paths, "program": Path(program())}
        if self.settings.journal is not None:
            inputs["journal"] = Path(self.settings.journal)
        found = {}
        for name, path in inputs.items():
            try:
                with path.open("rb") as file:
                    found[name] = hashlib.file_digest(file, "sha256").hexdigest()
            except OSError as lack:
                raise Fault(f"{path}: {lack.strerror}") from lack
        return found | {"job_rows": str(self.words.job_rows)}

    def begin(self) -> None:
        """Makes the folder, or finds that it was begun over the same inputs. Fault: it is another's, or they changed."""
        path, now = self.folder / "manifest.json", self.manifest()
        if not path.exists():
            if self.folder.exists() and {it.name for it in self.folder.iterdir()} - {"lock", "manifest.json.new"}:
                raise Fault(f"{self.folder} has other files: name a new folder")
            put(path, json.dumps(now, indent=1).encode())
        then = json.loads(path.read_text(encoding="utf-8"))
        changed = sorted(name for name in {*now, *then} if now.get(name) != then.get(name))
        if changed:
            what = ", ".join(changed)
            raise Fault(f"{what}: not as when {self.folder} was begun; name a new folder, or put back what was")
        for name in ("checked", "compared", "jobs", "done"):
            (self.folder / name).mkdir(exist_ok=True)


def refuse(settings: Settings) -> None:
    """Fault: settings that would be counted in each part for itself."""
    if settings.sample is not None:
        raise Fault(f"{settings.name}: sample: shares would be counted in each part; give m and u in its place, which "
                    "tools/shares writes from a rule.csv")
    for number, field in enumerate(settings.fields, 1):
        if field.rare is not None:
            raise Fault(f"{settings.name}: field.{number}.rare: how rare a value is would be counted in each part; leave it out, "
                        "and add its share of m and u to those of agreement")


def main(words: argparse.Namespace) -> None:
    """Links by the words of the command line. Fault: what is at fault."""
    whole = Whole(words)
    whole.folder.mkdir(parents=True, exist_ok=True)
    with (whole.folder / "lock").open("a") as lock, contextlib.redirect_stdout(sys.stderr):
        try:
            fcntl.flock(lock, fcntl.LOCK_EX | fcntl.LOCK_NB)
        except OSError as lack:
            raise Fault(f"{whole.folder}: another command works in it") from lack
        whole.begin()
        scratch = Path(words.scratch or whole.folder / "scratch").resolve()
        if words.scratch is None:
            shutil.rmtree(scratch, ignore_errors=True)
        scratch.mkdir(parents=True, exist_ok=True)
        from .steps import link  # here, for it takes a second or two to load
        link(whole, str(scratch))
        if words.scratch is None:
            shutil.rmtree(scratch, ignore_errors=True)
