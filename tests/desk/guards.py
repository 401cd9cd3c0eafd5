"""What must not happen: values that act as markup, a request, a wrong file written over, work that is lost, a key that waits."""

import http.server
import os
import re
import shlex
import subprocess
import threading
import time

from bench import Bench
from jobs import Job, register, small
from tally import program

MARKUP = "</script><script>document.title='hit'</script>"
TEXTS = [MARKUP, "<!-- <b>bold</b> --> \"q\" & &amp; 'p'", "A\u2028B\u2029C", "\u05e2\u05d1\u05e8\u05d9\u05ea abc (1)", "\u202egnp.exe",
         "é" * 127 + "x", "a\tb\nc", "  two  blanks  ", "@@DATA@@ @@SCRIPT@@", "\\u003cb\\u003e", "=1+1", "👩‍👩‍👧 ﷽ Z̷a̷l̷g̷o̷"]
IDS = ["a/1 \"x\", 'y'", "<img src=x onerror=\"document.title='hit'\">", "\u202eB", "7", "007", " 007", "-", "__proto__", "é" * 127 + "y",
       "a\nb", "null", "constructor"]
# Each way in which a page may ask for something, with the address of a server.
REQUESTS = """
const at = arguments[0], end = arguments[arguments.length - 1], refused = [];
document.addEventListener("securitypolicyviolation", (event) => refused.push(event.effectiveDirective));
const put = (name, more) => document.body.append(Object.assign(document.createElement(name), more));
try { fetch(at + "fetch").catch(() => {}); } catch (e) {}
try { const asked = new XMLHttpRequest(); asked.open("GET", at + "xhr"); asked.send(); } catch (e) {}
try { navigator.sendBeacon(at + "beacon", "x"); } catch (e) {}
try { new WebSocket(at.replace("http", "ws")); } catch (e) {}
try { new EventSource(at + "events"); } catch (e) {}
put("img", { src: at + "img" }); put("script", { src: at + "script" }); put("link", { rel: "stylesheet", href: at + "css" });
put("iframe", { src: at + "frame", name: "inner" }); put("object", { data: at + "object" }); put("video", { src: at + "video" });
put("style", { textContent: "@import url(" + at + "import); body { background: url(" + at + "ground) }" });
put("script", { textContent: "document.title = 'hit'" });
const form = document.createElement("form"); form.action = at + "form"; form.target = "inner"; document.body.append(form); form.submit();
setTimeout(() => end(refused.length), arguments[1]);
"""


class Server(http.server.ThreadingHTTPServer):
    """A server that counts what it is asked for."""

    def __init__(self) -> None:
        self.asked: list[str] = []
        super().__init__(("127.0.0.1", 0), Handler)
        threading.Thread(target=self.serve_forever, daemon=True).start()


class Handler(http.server.BaseHTTPRequestHandler):
    def do_GET(self) -> None:
        self.server.asked.append(self.path)
        self.send_response(404)
        self.end_headers()

    do_POST = do_GET

    def log_message(self, *_: object) -> None:
        """Says nothing."""


def no_request(bench: Bench) -> object:
    """Every way to ask is tried inside of the page: none reaches the server. The same page without its policy shows that they would."""
    job, server, browser = small(bench.folder("requests")), Server(), bench.browser
    address, found = f"http://127.0.0.1:{server.server_port}/", []
    page = job.page()
    for is_open in (False, True):
        if is_open:
            text = (job.folder / "desk.html").read_text(encoding="utf-8")
            (job.folder / "desk.html").write_text(re.sub('<meta http-equiv="Content-Security-Policy"[^>]*>', "", text), encoding="utf-8")
        browser.visit(page)
        refused = browser.wait_for(REQUESTS, address, 2500)
        found.append((len(server.asked) >= 8 if is_open else server.asked.copy(), refused >= 10, browser.run("return document.title")))
    server.shutdown()
    server.server_close()
    return found


def hostile(bench: Bench) -> object:
    """Each hostile text in each column, and as an id: what is shown is what the file has, no more scripts and no elements of it."""
    a = [[key, "x", text, "1980-02-03", text] for key, text in zip(IDS, TEXTS)]
    b = [[key, "x", text, text, text] for key, text in zip(IDS[:2], TEXTS[3:5])]
    job = small(bench.folder("hostile"), a, b)
    for name in ("a.csv", "b.csv"):
        text = (job.folder / name).read_text(encoding="utf-8")
        (job.folder / name).write_text(text.replace("parish", "<i>parish</i>", 1), encoding="utf-8", newline="")
    job.report("open")
    bench.browser.visit(job.page("--reviewer", MARKUP, "--weight"))
    bench.browser.press("c")
    rows = {"a": {it[0]: it for it in a}, "b": {it[0]: it for it in b}}
    wrong = []
    for pair in job.pairs_of_page():
        shown = bench.browser.run("""const cells = [...document.querySelectorAll("#compared tr:nth-child(n+2), #others tr")].map((row) =>
          [1, 3].map((at) => row.children[at].querySelector(".value").textContent));
          return [document.getElementById("id-a").textContent, document.getElementById("id-b").textContent, cells]""")
        wanted = [[x, y] for x, y in zip(rows["a"][pair[0]][2:], rows["b"][pair[1]][2:])]
        if shown != [*pair, wanted]:
            wrong.append((shown, pair, wanted))
        bench.browser.press("l")
    return wrong[:2], bench.browser.run("""return [document.title, document.scripts.length, document.images.length,
      [...document.querySelectorAll("main b, main i, main img")].length]""")


def hostile_verdicts(bench: Bench) -> object:
    """The verdicts on hostile ids, saved, by the very command that the page shows, with hostile names of settings and reviewer."""
    a, b = [[key, "x", "Lee", "", ""] for key in IDS], [[key, "x", "Lee", "", ""] for key in IDS]
    job = small(bench.folder("ids"), a, b, settings="it's \"s\" $HOME.toml")
    browser = bench.browser
    browser.visit(job.page("--reviewer", "Ána O'Neil; `id`"))
    browser.press(*"lno" * 48, "s")
    return by_command(bench, job), len(job.open())


def by_command(bench: Bench, job: Job) -> str:
    """What the command that the page shows says, run by the shell in the job's folder beside the file that was saved."""
    saved = bench.saved("verdicts")
    saved.rename(job.folder / saved.name)
    held = {**os.environ, "PATH": f"{job.folder}:{os.environ['PATH']}"}
    if not (job.folder / "linkage").exists():
        (job.folder / "linkage").symlink_to(program())
    command = bench.browser.text("#command")
    done = subprocess.run(["bash", "-c", command], cwd=job.folder, env=held, capture_output=True, text=True, check=False)
    is_whole = shlex.split(command)[:4] == ["linkage", "review", job.settings, saved.name]
    return done.stdout + done.stderr if is_whole else command


def directions(bench: Bench) -> object:
    """Text from right to left stays in its cell: A left of B, the sign between, each value isolated."""
    b = [["B1", "x", "\u0645\u062d\u0645\u062f (2", "", "\u202e)abc("]]
    job = small(bench.folder("directions"), [["A1", "x", "\u05d3\u05d5\u05d3 1)", "", "\u202e)abc"]], b)
    bench.browser.visit(job.page())
    return bench.browser.run("""return [...document.querySelectorAll("#compared tr, #others tr")].every((row) => {
      const places = [...row.children].map((it) => it.getBoundingClientRect());
      return places.every((it, at) => at === 0 || places[at - 1].right <= it.left + 1)
        && [...row.querySelectorAll("bdi")].every((it) => getComputedStyle(it).unicodeBidi.includes("isolate") && it.dir === "auto"); })""")


def blocked_store(bench: Bench) -> object:
    """Where the browser keeps nothing the page says so, still decides and saves, and asks before it is closed."""
    browser = bench.new_browser("blocked", {"profile.default_content_setting_values.cookies": 2})
    job = small(bench.folder("blocked"))
    browser.visit(job.page("--reviewer", "ana"))
    refused = browser.run("try { window.localStorage; return false } catch (e) { return true }")
    warning = browser.text("#warning")
    browser.press("l", "n", "s")
    asks = "const asked = new Event('beforeunload', { cancelable: true }); window.dispatchEvent(asked); return asked.defaultPrevented"
    before = browser.run(asks)
    return refused, warning, before, bench.saved("verdicts", browser).read_text(encoding="utf-8"), browser.run(asks)


def full_store(bench: Bench) -> object:
    """Where the browser's store is full, the page says so at the first verdict that it does not keep."""
    job, browser = small(bench.folder("full")), bench.browser
    browser.visit(job.page("--reviewer", "ana"))
    browser.run("""localStorage.clear(); let size = 1 << 22;
      for (let at = 0; size >= 1; at += 1) { try { localStorage.setItem("full" + at, "x".repeat(size)); } catch { size >>= 1; } }""")
    browser.press("l")
    found = browser.text("#warning")[:33], browser.text("#counts")
    browser.run("localStorage.clear()")
    browser.press("s")
    return found, bench.saved("verdicts").read_text(encoding="utf-8")


def fluent(bench: Bench) -> object:
    """20,000 pairs: from the stroke of a key to the picture after it, of 60 keys, ten a second; for each the least of up to five rounds."""
    job = register(bench.folder("large"), bench.population.folder, mu_ppm=0, lambda_ppm=0)
    job.report("open")
    browser = bench.browser
    browser.visit(job.page("--reviewer", "ana"))
    browser.run("""window.spans = []; document.addEventListener("keydown", (event) => requestAnimationFrame(() => {
      const told = new MessageChannel(); told.port1.onmessage = () => window.spans.push(performance.now() - event.timeStamp);
      told.port2.postMessage(0); }), true)""")
    least, rounds = [1e9] * 60, 0
    while rounds < 5 and max(least) >= 100:
        browser.run("window.spans.length = 0")
        browser.press(*"lnobflwncnbn" * 5, pause=100)
        time.sleep(0.2)
        spans = browser.run("return window.spans")
        print(f"        {len(spans)} keys, worst {max(spans):.0f} ms, middle {sorted(spans)[len(spans) // 2]:.0f} ms")
        least, rounds = [min(it) for it in zip(least, spans, strict=True)], rounds + 1
    return len(job.pairs_of_page()), max(least) < 100, browser.text("#warning")


def rights(bench: Bench) -> object:
    """The page is its owner's alone whatever the umask, takes the place of an older page, and of no other file."""
    job, found = small(bench.folder("rights")), []
    for _ in range(2):
        job.page()
        (job.folder / "desk.html").chmod(0o644) if not found else None
        found.append(oct((job.folder / "desk.html").stat().st_mode & 0o777))
    found += [job.make("--out", name) for name in ("a.csv", "s.toml", ".", "no/folder.html")]
    return found[1:], sorted(it.name for it in job.folder.iterdir())


def words(bench: Bench) -> object:
    """A fault is one line and a status; the program's own where it refuses."""
    double, one = small(bench.folder("double"), more="double = true\n"), small(bench.folder("words"))
    found = [double.make(), one.make("--most", "0"), one.make("--reviewer", "é" * 128), Job(one.folder, "none.toml").make()]
    text = (one.folder / "s.toml").read_text(encoding="utf-8")
    (one.folder / "s.toml").write_text(text.replace('journal = "journal.csv"', ""), encoding="utf-8")
    found.append(one.make()[1].splitlines()[0])
    (one.folder / "s.toml").write_text("file_a = 1", encoding="utf-8")
    lines = "number,date,reviewer,step,id_a,id_b,verdict\n1,2024-03-04,,single,A1,B1,link\n"
    (double.folder / "journal.csv").write_text(lines, encoding="utf-8")
    return found + [one.make(), double.make("--reviewer", "ana")]


def nothing_open(bench: Bench) -> object:
    """A job without an open pair: a page that says so."""
    job = small(bench.folder("nothing"), [["A1", "x", "Lee", "", ""]], [["B1", "y", "Lee", "", ""]])
    bench.browser.visit(job.page())
    bench.browser.press("l", "c", "b", "g", "t", "s")
    return bench.browser.text("#said"), bench.browser.run("return document.getElementById('save-verdicts').disabled")


KEEPS_NOTHING = "This browser keeps nothing of this page: what you decide is lost when it is closed. Save (key S) before you close it."
LINK_NONLINK = "id_a,id_b,verdict\nA1,B1,link\nA3,B3,nonlink\n"
TAKEN = "is there already, and is no page of desk; name a new file"

PARTS = {
    "no request leaves the page": (no_request, [([], True, "Clerical review of s.toml"), (True, False, "hit")]),
    "hostile values are shown as text": (hostile, ([], ["Clerical review of s.toml", 2, 0, 0])),
    "hostile ids and names: the command that is shown takes the file that is saved": (hostile_verdicts, ("", 48)),
    "text from right to left": (directions, True),
    "a browser that keeps nothing": (blocked_store, (True, KEEPS_NOTHING, True, LINK_NONLINK, False)),
    "a browser whose store is full": (full_store, (
        ("The browser keeps no more of what", "1 of 5 decided: 1 link, 0 nonlink, 0 open"), "id_a,id_b,verdict\nA1,B1,link\n")),
    "20,000 pairs, under 100 ms a key": (fluent, (20000, True, "")),
    "rights of the page, and what it may not take the place of": (rights, (
        ["0o600", (1, f"desk: a.csv: {TAKEN}"), (1, f"desk: s.toml: {TAKEN}"), (1, f"desk: .: {TAKEN}"),
         (1, "desk: no/folder.html: No such file or directory")], ["a.csv", "b.csv", "desk.html", "journal.csv", "s.toml"])),
    "faults are one line": (words, [
        (2, "desk: s.toml has double = true: say whose page it is by --reviewer NAME"),
        (2, "desk: argument --most: not a number from 1 to 100000; see desk -h"), (2, "desk: the name of the reviewer is over 255 bytes"),
        (1, "desk: none.toml: No such file or directory"), "desk: s.toml names no journal, and linkage review needs one",
        (1, "desk: s.toml: missing key field"),
        (1, "desk: linkage: journal: row 1: no reviewer")]),
    "no open pair": (nothing_open, ("No pair waits for you.", True)),
}
