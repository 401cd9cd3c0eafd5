"""What the parts share: a folder, a browser that is started when one is asked for, and the jobs that several parts use."""

import sys
import time
from functools import cached_property
from pathlib import Path
from typing import Any

sys.path.insert(0, str(Path(__file__).resolve().parent.parent))
from browser import Browser, Driver  # noqa: E402
from jobs import Job, register  # noqa: E402


class Bench:
    """The folder of a run of this matter, and what it started."""

    def __init__(self, top: Path):
        self.top, self.browsers = top, []
        self.driver: Driver | None = None

    def new_browser(self, name: str, preferences: dict[str, Any] | None = None) -> Browser:
        """A browser with a profile of its own. CannotRun: there is none."""
        self.driver = self.driver or Driver()
        self.browsers.append(Browser(self.driver, self.top / name, preferences))
        return self.browsers[-1]

    @cached_property
    def browser(self) -> Browser:
        """The browser of most parts."""
        return self.new_browser("browser")

    @cached_property
    def population(self) -> Job:
        """A made register and census, with the files of a run."""
        job = register(self.top / "population")
        job.report("open")
        return job

    def folder(self, name: str) -> Path:
        """A folder that is not there yet."""
        return self.top / f"{name}-{len(list(self.top.iterdir()))}"

    def saved(self, what: str, browser: Browser | None = None) -> Path:
        """Saves the `verdicts` or the `notes` by the button of the page: the file, once it is whole. ValueError: there is none."""
        browser = browser or self.browser
        for old in browser.saved.iterdir():
            old.unlink()
        browser.click(f"#save-{what}")
        for _ in range(100):
            found = list(browser.saved.iterdir())
            if [it.match(f"{what}-*.csv") for it in found] == [True]:
                return found[0]
            time.sleep(0.1)
        raise ValueError(f"the browser saved no {what}")

    def close(self) -> None:
        """Ends the browsers and the driver."""
        for it in self.browsers:
            it.close()
        if self.driver:
            self.driver.close()
