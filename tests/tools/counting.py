"""`shares`, `idle` and `passes`: what stands behind a rule, what of a journal counts no more, what passes find and lose."""

import re
from collections import Counter

from jobs import Bench, asks, rows_of, truth_of, with_sample
from linkage_tools.passes import missed
from tally import Tally

# By hand from the sample of the example: 6 matched pairs, 8 unmatched; docs/SETTINGS.md has the first line's counts.
EXAMPLE_M = "# surname: agree, disagree, missing\nm = [852, 1, 171]\n"
INLINE = 'field = [{ name = "a", kind = "name", compare = "exact", m = [1, 1022, 1], u = [1, 1, 1022] }]\n'
INLINE += 'pass = [{ parts = [{ field = "a", key = "whole" }] }]\n'
SHARES_REFUSES = {
    "": (2, "shares: the following arguments are required: settings; see shares -h"),
    "nosuch.toml": (1, "shares: nosuch.toml: No such file or directory"),
    "s.toml --rule nosuch.csv": (1, "shares: nosuch.csv: No such file or directory"),
    "s.toml --rule pairs.csv": (1, "shares: pairs.csv: is no rule as `linkage rule` prints it"),
    "s.toml --rule short.csv": (1, "shares: short.csv: has not the patterns of the fields of the settings"),
    "s.toml --rule wrong.csv": (1, "shares: wrong.csv: row 1: m and u are not products of shares"),
    "s.toml --rule words.csv": (1, "shares: words.csv: row 1: 'abc' is no number"),
    "s.toml --rule cut.csv": (1, "shares: cut.csv: row 3: number of fields"),
    "s.toml --rule empty.csv": (1, "shares: empty.csv: no header"),
    "s.toml --m-of nosuch.toml": (1, "shares: nosuch.toml: No such file or directory"),
    "s.toml --m-of s.toml": (1, "shares: s.toml: has no m of the outcomes of field surname"),
    "s.toml -o a.csv": (1, "shares: a.csv: is there already; name a new file"),
    "inline.toml --rule inline.csv --whole": (1, "shares: inline.toml: put the lines in by hand, for a field is not written as a table "
                                                 "[[field]] with m and u on a line each"),
}
# Verdicts on pairs of the example where the rule links all but two of its pairs, and what each is then, by its pairs.csv and links.csv.
JOURNAL = """number,date,reviewer,id_a,id_b,verdict
1,2024-03-04,ana,A2,B2,nonlink
2,2024-03-04,ana,A3,B3,nonlink
3,2024-03-04,ana,A1,B7,link
4,2024-03-04,ana,A1,B5,link
5,2024-03-04,ana,A1,B1,nonlink
6,2024-03-05,ben,A1,B1,open
7,2024-03-05,ben,A5,B6,link
8,2024-03-05,ben,A3,B5,nonlink
"""
IDLE = """id_a,id_b,verdict,date,reviewer,now,finding
A2,B2,nonlink,2024-03-04,ana,linked,against
A1,B7,link,2024-03-04,ana,uncompared,against
A1,B5,link,2024-03-04,ana,nonlink,against
A3,B3,nonlink,2024-03-04,ana,link,against
A5,B6,link,2024-03-05,ben,linked,same
A3,B5,nonlink,2024-03-05,ben,nonlink,same
A1,B1,open,2024-03-05,ben,linked,none
"""


def check_shares(tally: Tally, bench: Bench) -> None:
    example, register = bench.example(), bench.register()
    with_sample(register, [row[:2] for row in rows_of((register / "pairs.csv").read_text(encoding="utf-8"))[1:]])
    bench.linkage(register, "run", "settings.toml")
    tally.judge("shares: of the example, by hand", bench.tool(example, "shares", "s.toml")[1].startswith(EXAMPLE_M), True)
    for folder, name in ((example, "s.toml"), (register, "settings.toml")):
        bench.tool(folder, "shares", name, "--whole", "-o", "fixed.toml")
        part = f"shares: the rule under the lines is the same, byte for byte: {'sample' if name == 's.toml' else 'register'}"
        tally.judge(part, bench.linkage(folder, "rule", "fixed.toml"), (folder / "rule.csv").read_text(encoding="utf-8"))
        tally.judge(f"{part}: without a sample", "\nsample" in "\n" + (folder / "fixed.toml").read_text(encoding="utf-8"), False)
    guessed = re.sub("(?m)^m = .*$", "m = [1000, 23, 1]", (example / "fixed.toml").read_text(encoding="utf-8"))
    (example / "guessed.toml").write_text(guessed, encoding="utf-8")
    mixed = bench.tool(example, "shares", "s.toml", "--m-of", "guessed.toml")[1]
    lines = [re.findall(f"(?m)^{kind} = .*$", text) for kind, text in (("m", mixed), ("m", guessed), ("u", mixed), ("u", guessed))]
    tally.judge("shares: m of other settings, and u as it is counted", (lines[0] == lines[1], lines[2] == lines[3], len(lines[0])),
                (True, True, 3))
    header, *rows = (example / "rule.csv").read_text(encoding="utf-8").splitlines()
    for name, lines in {"short": rows[:-1], "wrong": [rows[0].replace("618470208", "618470209"), *rows[1:]], "empty": [],
                        "words": [rows[0].replace("618470208", "abc"), *rows[1:]], "cut": [*rows[:2], "1,AAD"]}.items():
        (example / f"{name}.csv").write_text("".join(f"{it}\n" for it in [header, *lines] if lines), encoding="utf-8")
    (example / "inline.toml").write_text(f'file_a = "a"\nfile_b = "b"\nmu_ppm = 1\nlambda_ppm = 1\n{INLINE}', encoding="utf-8")
    (example / "inline.csv").write_text(bench.linkage(example, "rule", "inline.toml"), encoding="utf-8")
    (example / "inline.toml").write_text(f'file_a = "a"\nfile_b = "b"\n{INLINE.replace("[1, 1022, 1]", "[2, 1021, 1]")}', encoding="utf-8")
    tally.judge("shares: refusals", bench.refusals(example, "shares", SHARES_REFUSES), SHARES_REFUSES)


def check_idle(tally: Tally, bench: Bench) -> None:
    folder = bench.example()
    none = "id_a,id_b,verdict,date,reviewer,now,finding\n"
    says = "idle: 0 of 3 entries are idle, on 0 pairs; 0 say nonlink of a pair that is linked by the rule\n"
    tally.judge("idle: nothing", bench.tool(folder, "idle", "s.toml"), (0, none, says))
    settings = (folder / "s.toml").read_text(encoding="utf-8").replace("mu_ppm = 40", "mu_ppm = 9000")
    (folder / "s.toml").write_text(settings, encoding="utf-8")
    (folder / "journal.csv").write_text(JOURNAL, encoding="utf-8")
    stale = "idle: the written files are not of s.toml and its inputs as they are now (no: rule 5): run it again\n"
    tally.judge("idle: refuses files of other settings", bench.tool(folder, "idle", "s.toml"), (1, "", stale))
    for version in ("first", "second"):
        bench.linkage(folder, "run", "s.toml")
        says = "idle: 8 of 8 entries are idle, on 7 pairs; 1 say nonlink of a pair that is linked by the rule\n"
        tally.judge(f"idle: a journal of the {version} version", bench.tool(folder, "idle", "s.toml"), (0, IDLE, says))
        reported = "\nidle 8\n" in (folder / "report.txt").read_text(encoding="utf-8")
        tally.judge(f"idle: as many as the report has: {version}", reported, True)
        bench.linkage(folder, "migrate", "s.toml")
    (folder / "links.csv").unlink()
    tally.judge("idle: refuses a missing file", bench.tool(folder, "idle", "s.toml"), (1, "", "idle: linkage: store: links.csv\n"))


# By hand from the files of the example: which surnames have one Soundex key, and which births one year.
PASSES_HEAD = "pass,parts,pairs,alone\n"
ALL_PASSES = (0, f"{PASSES_HEAD}1,surname soundex,9,4\n2,birth year,7,2\n", "passes: 11 pairs: 6 by one pass, 5 by two\n")
OF_LINKS = (0, f"{PASSES_HEAD}1,surname soundex,5,1\n2,birth year,5,1\n", "passes: 6 pairs: 2 by one pass, 4 by two\n"
            "passes: passes 1 and 2 find 5 and 5 pairs, 4 of them by both: 0.25 others are found by neither, 4 % of 6.25 "
            "(Sekar and Deming 1949)\n")
PASSES_REFUSES = {
    "nosuch.toml": (1, "passes: nosuch.toml: No such file or directory"),
    "s.toml nosuch.csv": (1, "passes: nosuch.csv: No such file or directory"),
    "s.toml a.csv": (1, "passes: a.csv: no column id_a"),
    "s.toml other.csv": (1, "passes: other.csv: row 1: unknown id_a"),
}


def check_passes(tally: Tally, bench: Bench) -> None:
    """The example by hand; on the register the matched pairs that no pass finds, by its truth."""
    folder = bench.example()
    tally.judge("passes: of the example, by hand", bench.tool(folder, "passes", "s.toml"), ALL_PASSES)
    tally.judge("passes: of its links, by hand", bench.tool(folder, "passes", "s.toml", "links.csv"), OF_LINKS)
    (folder / "other.csv").write_text("id_a,id_b\nX,B1\n", encoding="utf-8")
    tally.judge("passes: refusals", bench.refusals(folder, "passes", PASSES_REFUSES), PASSES_REFUSES)
    given = [missed(Counter(it)) for it in ({1: 10, 2: 5}, {1: 3, 4: 5}, {4: 5})]
    tally.judge("passes: found by none, by hand", given, ["at least 10.00 others are found by none (Chao 1987)", "none is found by two "
                "passes, so how many are found by none cannot be guessed", None])
    folder = bench.register()
    truth, compared = truth_of(folder), {tuple(row) for row in rows_of(bench.linkage(folder, "pairs", "settings.toml"))[1:]}
    rows = [[*pair, "matched"] for pair in sorted(truth)] + [[*pair, "unmatched"] for pair in sorted(compared - truth)]
    (folder / "known.csv").write_text("".join(f"{','.join(it)}\n" for it in [["id_a", "id_b", "status"], *rows]), encoding="utf-8")
    _, text, said = bench.tool(folder, "passes", "settings.toml", "known.csv")
    front = f"passes: {len(truth)} pairs: {len(truth - compared)} by no pass, "
    is_told = said.startswith(front), len(truth - compared) > 0
    tally.judge("passes: matched pairs alone, and those that no pass finds", is_told, (True, True))
    parts = [row[1] for row in rows_of(text)[1:]]
    wanted = ["surname soundex + birth year", "birth whole", "surname soundex + given first 2", "given first 4 + birth year"]
    told = [line.split(" find ")[0] for line in said.splitlines() if " find " in line]
    tally.judge("passes: two without a field in common", (parts, told), (wanted, ["passes: passes 2 and 3"]))


def check(tally: Tally, bench: Bench) -> None:
    """What is asked for of the tools."""
    if asks(tally, "shares"):
        check_shares(tally, bench)
    if asks(tally, "idle"):
        check_idle(tally, bench)
    if asks(tally, "passes"):
        check_passes(tally, bench)
