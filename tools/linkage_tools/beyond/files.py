"""Files that are put in place whole."""

import os
from pathlib import Path


def put(path: Path, data: bytes) -> None:
    """Writes a file as a whole or not at all."""
    new = path.with_name(path.name + ".new")
    with new.open("wb") as file:
        file.write(data)
        file.flush()
        os.fsync(file.fileno())
    new.replace(path)
