"""Lists the verdicts that no longer count: those on pairs that are no possible links (any more), the worst first.

  idle SETTINGS

A verdict counts where its pair is a possible link. When the sample, the levels or the passes change, a pair may become a link or a
non-link by the rule, or not be compared any more; the verdict then stays in the journal and changes nothing. It prints one row for each
such pair, with the last entry on it, what it is `now`, and what to make of it:

  against   the verdict says nonlink, and the pair is a link by the rule, or it says link, and the rule or the passes leave it out
  same      the verdict says what the rule says
  none      the verdict was open, or waits for a second reviewer

`now` is linked (a row of links.csv), link (by the rule, but another link was worth more), nonlink, or uncompared. A pair that is `against`
and `linked` comes first: a person has said that it is wrong, and it is among the links. No verdict can undo a link by the rule; a level
`mu_ppm` at which its pattern is a possible link again can, and then the verdict counts as it stands. It needs the files of `run` as of now.
"""

from .job import Entry, Job, Pair
from .tables import written
from .words import Words, give, start, tell

HEADER = ["id_a", "id_b", "verdict", "date", "reviewer", "now", "finding"]
ORDER = [("against", "linked"), ("against", "uncompared"), ("against", "nonlink"), ("against", "link")]


def idle(job: Job, standing: dict[Pair, Entry]) -> dict[Pair, str]:
    """What the pairs with verdicts that are no possible links are now."""
    now = {pair: "uncompared" for pair in standing}
    now |= {it.pair: it.decision for it in job.pairs() if it.pair in standing}
    linked = {it.pair for it in job.links() if it.by == "rule"}
    return {pair: "linked" if pair in linked else what for pair, what in now.items() if what != "possible"}


def finding(verdict: str, now: str) -> str:
    """What to make of a verdict on a pair that is something by now."""
    if verdict == "open":
        return "none"
    return "same" if (verdict == "link") == (now in ("linked", "link")) else "against"


def tool(given: list[str]) -> None:
    """Lists what is idle by the words of the command line."""
    parser = Words("idle", __doc__)
    parser.add_argument("settings", help="the settings of the job; run where the program runs")
    job = Job(parser.parse_args(given).settings)
    job.must_be_of_now()
    entries, standing = job.journal(), job.standing()
    now = idle(job, standing)
    rows = [(pair, standing[pair], what, finding(standing[pair].stands(), what)) for pair, what in now.items()]
    rank = lambda row: ORDER.index((row[3], row[2])) if row[3] == "against" else len(ORDER) + (row[3] == "none")
    rows.sort(key=rank)
    give(written([HEADER, *([*pair, it.stands(), it.date, it.reviewer, what, found] for pair, it, what, found in rows)]), None)
    worst = sum(row[2:] == ("linked", "against") for row in rows)
    count = sum(entry.pair in now for entry in entries)
    what = f"{count} of {len(entries)} entries are idle, on {len(rows)} pairs"
    tell("idle", f"{what}; {worst} say nonlink of a pair that is linked by the rule")


if __name__ == "__main__":
    start("idle", tool)
