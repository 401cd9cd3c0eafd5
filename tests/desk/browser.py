"""A headless Chromium by its driver: the part of the W3C WebDriver protocol that a page's tests need, over urllib and json.

Both are Debian's package chromium-driver, which brings chromium.
"""

import base64
import json
import os
import re
import shutil
import subprocess
import sys
import urllib.error
import urllib.request
from pathlib import Path
from typing import Any

sys.path.insert(0, str(Path(__file__).resolve().parent.parent))
from tally import CannotRun  # noqa: E402

KEYS = {"Escape": "\ue00c", "Enter": "\ue007", "Left": "\ue012", "Right": "\ue014", "Tab": "\ue004", "Space": " "}
FLAGS = ["--headless=new", "--disable-gpu", "--disable-dev-shm-usage", "--no-first-run", "--disable-background-networking",
         "--disable-component-update", "--disable-sync", "--disable-extensions", "--hide-scrollbars", "--force-color-profile=srgb"]
ELEMENT = "element-6066-11e4-a52e-4f735466cecf"  # what the protocol calls an element by


class Driver:
    """The driver, a process of its own; `close` ends it and its browsers."""

    def __init__(self) -> None:
        path = shutil.which("chromedriver")
        if path is None:
            raise CannotRun("there is no chromedriver: apt-get install chromium-driver")
        how = {"stdin": subprocess.DEVNULL, "stdout": subprocess.PIPE, "stderr": subprocess.DEVNULL, "text": True}
        self.process = subprocess.Popen([path, "--port=0"], **how)
        for line in self.process.stdout:
            found = re.search(r"started successfully on port (\d+)", line)
            if found:
                self.address = f"http://127.0.0.1:{found.group(1)}"
                return
        raise CannotRun("chromedriver did not start")

    def close(self) -> None:
        self.process.terminate()
        self.process.wait(20)
        self.process.stdout.close()


class Refused(Exception):
    """What the driver says against a command."""


class Browser:
    """A window of the browser, whose profile and saved files are in a folder."""

    def __init__(self, driver: Driver, folder: Path, preferences: dict[str, Any] | None = None):
        self.saved = folder / "saved"
        self.saved.mkdir(parents=True, exist_ok=True)
        flags = [*FLAGS, f"--user-data-dir={folder / 'profile'}", *(["--no-sandbox"] if os.geteuid() == 0 else [])]
        held = {"download.default_directory": str(self.saved), "download.prompt_for_download": False, **(preferences or {})}
        wanted = {"browserName": "chrome", "goog:chromeOptions": {"args": flags, "prefs": held}}
        self.session = f"{driver.address}/session"
        try:
            self.session += "/" + self.ask("POST", "", {"capabilities": {"alwaysMatch": wanted}})["sessionId"]
        except (Refused, OSError) as lack:
            raise CannotRun(f"no browser: {str(lack).splitlines()[0]}") from lack
        self.size(1280, 800)

    def ask(self, method: str, path: str, body: dict | None = None) -> Any:
        """What the driver answers to a command. Refused: it refuses it."""
        data = None if body is None else json.dumps(body).encode()
        request = urllib.request.Request(self.session + path, data, {"Content-Type": "application/json"}, method=method)
        try:
            with urllib.request.urlopen(request, timeout=60) as answer:
                return json.load(answer)["value"]
        except urllib.error.HTTPError as lack:
            raise Refused(json.load(lack)["value"]["message"]) from lack

    def close(self) -> None:
        self.ask("DELETE", "")

    def visit(self, address: str) -> None:
        self.ask("POST", "/url", {"url": address})

    def reload(self) -> None:
        self.ask("POST", "/refresh", {})

    def run(self, script: str, *words: Any) -> Any:
        """What a script returns that runs in the page; `words` are its `arguments`."""
        return self.ask("POST", "/execute/sync", {"script": script, "args": list(words)})

    def wait_for(self, script: str, *words: Any) -> Any:
        """What a script gives to the last of its arguments, a function."""
        return self.ask("POST", "/execute/async", {"script": script, "args": list(words)})

    def press(self, *keys: str, pause: int = 0) -> None:
        """Strokes of keys, one after the other: a sign, or a name of KEYS; a pause in milliseconds after each."""
        strokes = []
        for key in keys:
            strokes += [{"type": kind, "value": KEYS.get(key, key)} for kind in ("keyDown", "keyUp")]
            strokes += [{"type": "pause", "duration": pause}] if pause else []
        self.ask("POST", "/actions", {"actions": [{"type": "key", "id": "keys", "actions": strokes}]})

    def click(self, selector: str) -> None:
        """A click of the mouse on an element."""
        found = self.ask("POST", "/element", {"using": "css selector", "value": selector})[ELEMENT]
        self.ask("POST", f"/element/{found}/click", {})

    def text(self, selector: str) -> str:
        """The text of an element as it is seen."""
        return self.run("const it = document.querySelector(arguments[0]); return it.hidden ? '' : it.innerText", selector)

    def labelled(self, selector: str) -> tuple[str, str]:
        """The role and the name that an element has for a screen reader."""
        found = self.ask("POST", "/element", {"using": "css selector", "value": selector})[ELEMENT]
        return self.ask("GET", f"/element/{found}/computedrole"), self.ask("GET", f"/element/{found}/computedlabel").strip()

    def devtools(self, command: str, **words: Any) -> Any:
        """A command of the browser's own protocol."""
        return self.ask("POST", "/goog/cdp/execute", {"cmd": command, "params": words})

    def size(self, wide: int, high: int, scale: int = 1) -> None:
        """The window in pixels of CSS. At a zoom of 200 % a window has half of them, each twice as large."""
        self.devtools("Emulation.setDeviceMetricsOverride", width=wide, height=high, deviceScaleFactor=scale, mobile=False)

    def emulate(self, media: str = "", **features: str) -> None:
        """Another medium (print), or wishes of the reader: prefers-color-scheme and the like, with - written as _."""
        wishes = [{"name": name.replace("_", "-"), "value": value} for name, value in features.items()]
        self.devtools("Emulation.setEmulatedMedia", media=media, features=wishes)

    def picture(self) -> bytes:
        """What is seen, as a PNG."""
        return base64.b64decode(self.ask("GET", "/screenshot"))
