"""The lists that stand in the manual and in the definitions: keys of the settings, faults, limits, commands. They must be the same."""

import ast
import re
import sys
import tomllib

import names
import sources
from pages import ROOT, read
from theorems import wrong_theorems
from wrong_bodies import unrefused_bodies

SECOND = ROOT / "tests/second_implementation"
sys.path += [str(SECOND), str(SECOND / "method")]
from mutations import FAULTS  # noqa: E402

# What a piece of a fault's text is in the definitions, and in the manual.
SPEC_PIECES = [
    (r"role_name r", "ROLE"),
    (r"row_name \(role_name r\) row", "ROLE: row ROW: "),
    (r'row_name \(codes "(\w+)"\) row', r"\1: row ROW: "),
    (r"decimal (\w+)", None),
    (r'codes "([^"]*)"', r"\1"),
    (r"(\w+)", None),
]
HEADS = {
    "Keys of the file": ("top_keys", "term_keys"),
    "Keys of a field": ("field_keys",),
    "Keys of a pass": ("pass_keys",),
    "Keys of a part": ("part_keys",),
}
WORDS = ["delimiters", "kind_named", "form_named"]
# The tables of words of the code, with those of the second implementation.
TABLES = {"COMPARES": "compare", "KEYS": "key"}
# The tables of pages that have each command in their first column, by its words.
COMMANDS = {
    "README.md": "Commands",
    "docs/FILES.md": "What commands print",
    "docs/OPERATORS.md": "What is read and what is written",
    "docs/PROVED.md": "What is due of each command",
    "packaging/linkage.1": None,
    "packaging/completion": None,
    "crates/link_shell/src/keys.rt": None,
}
# The faults that no small input has: of a limit, of memory, of the output.
OUT_OF_REACH = ["FileTooLong", "NoMemory", "Output", "PoolFull", "TooManyEntries", "TooManyPairs", "TooManyRows"]
# Limits that no user meets.
INNER_LIMITS = ["MOST_POOL_LIMIT", "MOST_PATTERNS"]


def codes_of(name: str, text: str) -> list[str]:
    """The texts of a definition `NAME .. = codes ".." ∷ ..` of a specification, in all of its equations."""
    bodies = re.findall(rf"^{name}(?: [^=\n]*)? =(.*?)(?=^\S)", text + "\n#", flags=re.S | re.M)
    return re.findall(r'codes "([^"]*)"', "".join(bodies))


def settings_specs() -> str:
    """The definitions of the settings' keys and words."""
    paths = [*(f"settings/specs/{name}" for name in ("Settings", "Field", "Pass", "Words")), "link_plan/specs/Terms"]
    return "\n".join(read(f"crates/{path}.antt") for path in paths)


def keys_under(head: str) -> list[str]:
    """The keys that stand under a heading of SETTINGS, by the definitions."""
    return [key for name in HEADS[head] for key in codes_of(name, settings_specs())]


def keys_of_second() -> list[str]:
    """The keys of the file that the second implementation reads."""
    rules = re.search(r"^TOP = \{\n(.*?)^\}", read("tests/second_implementation/method/settings.py"), flags=re.S | re.M).group(1)
    lines = [re.match(r'(\s*\*\*\{key: .* for key in \((.*)\)\}|\s*("\w+"):)', line) for line in rules.splitlines()]
    return [key for line in lines if line for key in re.findall(r'"(\w+)"', line.group(2) or line.group(3))]


def commands_of() -> set[str]:
    """The commands' verbs, as the specifications of the shell name them; `--help` is another name of `help`."""
    tables = {"SettingsCommands": "settings_verbs", "Commands": "forms"}
    texts = {table: read(f"crates/link_shell/specs/{module}.antt") for module, table in tables.items()}
    return {verb.lstrip("-") for table, text in texts.items() for verb in codes_of(table, text)}


def spec_piece(piece: str) -> str:
    """A piece of a fault's text, with what it names in capitals."""
    for pattern, form in SPEC_PIECES:
        found = re.fullmatch(pattern, piece)
        if found:
            return found.group(1).upper() if form is None else found.expand(form)
    raise ValueError(piece)


def faults_of_specs() -> dict[str, tuple[str, str]]:
    """Each fault's status and text, and each other refusal's, with its parts in capitals, by the specification."""
    text = read("crates/link_base/specs/Fault.antt") + read("crates/link_outside/specs/Refusal.antt").replace("(refusal.Fault f)", "f")
    status = dict(re.findall(r"^(?:fault|refusal)_status \(?(?:fault|refusal)\.(\w+)[^=]*= (\d)$", text, flags=re.M))
    found = {}
    for name, body in re.findall(r"^(?:fault|refusal)_text \(?(?:fault|refusal)\.(\w+)[^=]*=(.*?)(?=^\S|^$)", text, flags=re.S | re.M):
        found[name] = (status[name], "".join(spec_piece(piece.strip()) for piece in body.split("++")))
    return found


def is_of(line: str, template: str) -> bool:
    """Whether a line is a fault's text, whose words in capitals stand for anything."""
    words = re.split(r"(\W+)", template)
    return bool(re.fullmatch("".join(".+" if it.isupper() and it not in ("TOML", "UTF") else re.escape(it) for it in words), line))


def unmade_faults() -> list[str]:
    """The faults that no input of the second implementation is made to have."""
    return sorted(name for name, (_, text) in faults_of_specs().items() if not any(is_of(made, text) for made in FAULTS))


def commands_in(path: str, head: str | None) -> list[str]:
    """The commands that a page has: in the first column of its tables under a heading, or as man page, completion and `help` name them."""
    if head:
        fronts = [re.match(r"(?:`[^`]*`(?:, )?)*", row[0]).group(0) for row in table_rows(path, head)]
        found = re.findall(r"`([a-z]+)", " ".join(fronts))
    elif path.endswith(".rt"):
        found = re.findall(r"^\\x20 ([a-z]+)", read(path), flags=re.M)
    elif path.endswith(".1"):
        found = re.findall(r"^\.It Cm (\w+) ", read(path), flags=re.M)
    else:
        found = re.search(r'commands="(.*)"', read(path)).group(1).split()
    return sorted(set(found))


def table_rows(path: str, heading: str) -> list[list[str]]:
    """The rows of the tables under a heading of a page, each as a list of cells, their heads among them."""
    body = re.search(rf"^#+ {re.escape(heading)}\n(.*?)(?=^#|\Z)", read(path), flags=re.S | re.M)
    if not body:
        return []
    rows = [re.split(r"(?<!\\)\|", line.strip().strip("|")) for line in body.group(1).splitlines() if line.startswith("|")]
    return [[cell.strip() for cell in row] for row in rows if not re.fullmatch(r"[\s:-]+", row[0])]


def first_codes(path: str, heading: str) -> list[str]:
    """The code spans of the first column of the tables under a heading."""
    return [code for row in table_rows(path, heading) for code in re.findall(r"`([^`]*)`", row[0])]


def key_examples() -> list[str]:
    """The examples of SETTINGS that are no line of TOML which gives their own key a value."""
    wrong = []
    for row in [it for head in HEADS for it in table_rows("docs/SETTINGS.md", head)]:
        key, example = re.findall(r"`([^`]*)`", row[0]), re.findall(r"^`(.*)`$", row[-1])
        try:
            if key and example and list(tomllib.loads(example[0])) != key:
                wrong.append(example[0])
        except tomllib.TOMLDecodeError:
            wrong.append(example[0])
    return wrong


def unexplained_words() -> list[str]:
    """The words that a key may have as its value, and that no code span of SETTINGS shows."""
    page = set(re.findall(r"`([^`\n]*)`", read("docs/SETTINGS.md")))
    words = [word for name in WORDS for word in codes_of(name, settings_specs())]
    words += [it.split()[1] for name in TABLES for it in words_of_tables(name)]
    return [word for word in words if word not in page]


def words_of_key(head: str, key: str) -> list[str]:
    """The words that SETTINGS gives to a key, each with what it is a word of: of names and places, or of dates."""
    cell = next((row[1] for row in table_rows("docs/SETTINGS.md", head) if row[0] == f"`{key}`"), "")
    parts = zip(("name", "date"), cell.split("; for dates "))
    return [f"{sort} {word}" for sort, part in parts for word in re.findall(r"`([^`]*)`", part)]


def words_of_tables(name: str) -> list[str]:
    """The same of the tables of the code, which the definitions cite."""
    code = read("crates/settings/src/words.rt")
    rows = lambda sort: re.search(rf"^const {sort.upper()}_{name}: .*? = \[(.*?)\];", code, flags=re.S | re.M).group(1)
    return [f"{sort} {word}" for sort in ("name", "date") for word in re.findall(r'\("([^"]*)", ', rows(sort))]


def words_of_second(name: str) -> list[str]:
    """The same of a table of the second implementation."""
    found = re.search(rf"^{name} = (.*)$", read("tests/second_implementation/method/values.py"), flags=re.M).group(1)
    table = ast.literal_eval(found)
    return [f"{sort} {word}" for sort, is_date in (("name", False), ("date", True)) for word in table[is_date]]


def comparisons() -> dict[str, tuple[list, list]]:
    """The lists of comparisons and of kinds of key, which stand in SETTINGS and in no other page."""
    compared = words_of_tables("COMPARES")
    return {
        **{f"tests/second_implementation: words of {key}": (words_of_second(name), words_of_tables(name)) for name, key in TABLES.items()},
        "docs/SETTINGS.md: words of compare": (words_of_key("Keys of a field", "compare"), compared),
        "docs/SETTINGS.md: words of key": (words_of_key("Keys of a part", "key"), words_of_tables("KEYS")),
        "docs/SETTINGS.md: How two values compare": (
            [it for it in first_codes("docs/SETTINGS.md", "How two values compare") if it != "compare"],
            list(dict.fromkeys(it.split()[1] for it in compared)),
        ),
    }


def limits() -> dict[str, int]:
    """The limits of the code, by their names."""
    code = "".join(read(f"crates/{path}.rt") for path in ("link_limits/src/lib", "link_plan/src/limits", "link_plan/src/terms"))
    return {name: int(number) for name, number in re.findall(r"const (MOST_\w+|LEAST_\w+): \w+ = ([\d_]+);", code)}


def unwritten_limits() -> list[str]:
    """The limits whose numbers stand in no page."""
    page, lost = "".join(read(f"docs/{it}.md") for it in ("FILES", "SETTINGS", "FAULTS")), []
    for name, value in limits().items():
        forms = {str(value), f"{value:,}"} | ({f"{value // 2**20} MiB"} if value % 2**20 == 0 else set())
        forms |= {"2^63 - 1"} if value == 2**63 - 1 else set()
        stands = any(re.search(rf"(?<![\d,]){re.escape(form)}(?![\d,]\d)", page) for form in forms)
        if name not in INNER_LIMITS and not stands:
            lost.append(f"{name} = {value}")
    return lost


def limits_of_law() -> tuple[list[str], list[str]]:
    """The limits of the code that the law of limits gives as numbers, and those that it is to give: all but that of every pool."""
    law = read("crates/link_shell/specs/Limits.antt")
    wanted = [f"{name} ≡ {value}" for name, value in limits().items() if name != "MOST_POOL_LIMIT"]
    return [it for it in wanted if f"({it})" in law], wanted


def lists() -> dict[str, tuple[list, list]]:
    """Each list by its name: what is shown, and what is wanted, both in order."""
    found = {f"docs/SETTINGS.md: {head}": (first_codes("docs/SETTINGS.md", head), keys_under(head)) for head in HEADS}
    found["tests/second_implementation: Keys of the file"] = keys_of_second(), keys_under("Keys of the file")
    shown = [(row[1], code) for row in table_rows("docs/FAULTS.md", "The lines") for code in re.findall(r"^`([^`]*)`", row[0])]
    found["docs/FAULTS.md: The lines"] = shown, list(faults_of_specs().values())
    roles = re.findall(r'^role_name role\.\w+ = codes "(\w+)"', read("crates/link_base/specs/Fault.antt"), flags=re.M)
    found["docs/FAULTS.md: The files"] = first_codes("docs/FAULTS.md", "The files"), roles
    reasons = re.findall(r'^reason_text .*? = codes "(\w+) "', read("crates/link_core/specs/Verify.antt"), flags=re.M)
    said = [code.split()[1] for code in first_codes("docs/FAULTS.md", "What verify says") if code != "yes"]
    found["docs/FAULTS.md: What verify says"] = said, reasons
    found |= {f"{path}: commands": (commands_in(path, head), sorted(commands_of())) for path, head in COMMANDS.items()}
    found["docs/SETTINGS.md: examples of other keys, or no TOML"] = key_examples(), []
    found["docs/SETTINGS.md: words that are not explained"] = unexplained_words(), []
    found |= comparisons()
    found["tests/second_implementation: faults that no input has"] = unmade_faults(), OUT_OF_REACH
    found["docs: limits that stand in no page"] = unwritten_limits(), []
    found["link_shell/specs/Limits.antt: limits"] = limits_of_law()
    found["docs/DEFINITIONS.md: files of definitions"] = sources.definitions()
    found["docs/ARCHITECTURE.md: crates"] = sources.crates()
    found["CONTRIBUTING.md, ARCHITECTURE, DECISIONS, SPEED: files and names that are gone"] = names.lost(), []
    found["docs/PROVED.md: theorems that do not hold"] = wrong_theorems(), []
    found["docs/PROVED.md: wrong bodies that nothing refuses"] = unrefused_bodies(), []
    return {name: (sorted(shown), sorted(wanted)) for name, (shown, wanted) in found.items()}


def broken_links(page: str) -> list[str]:
    """The relative links of a page that name no file of the repository, or no heading of it."""
    text, found = re.sub(r"^\s*```.*?^\s*```\s*$", "", read(page), flags=re.S | re.M), []
    for target in re.findall(r"\]\(([^)\s]+)\)", text):
        name, _, anchor = target.partition("#")
        file = ((ROOT / page).parent / name).resolve() if name else ROOT / page
        if re.match(r"[a-z]+:", target):
            continue
        heads = re.findall(r"^#+ (.*)$", file.read_text(encoding="utf-8"), flags=re.M) if anchor and file.exists() else []
        if not file.exists() or anchor and anchor not in [anchor_of(head) for head in heads]:
            found.append(target)
    return found


def anchor_of(head: str) -> str:
    """What a link names a heading by."""
    return re.sub(r"[^\w\- ]", "", head.lower()).strip().replace(" ", "-")
