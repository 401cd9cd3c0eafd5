"""What a check says of an edited function, and what `rt ci` says of the edits of crates/*/must-fail/: whether a contract refuses them."""

import re
from dataclasses import dataclass

# Rattle's words for a limit of its own, at which it gives no verdict.
LIMIT = re.compile(r"antt ran out of|outgrew the memory limit|stopped at the step limit")
# What is said of an answer that cites a name which the edit took away, or whose own text no longer fits: nothing of a contract.
GONE = re.compile(r"has no field|is not in scope|has no `|was not admitted|motive|nothing to rewrite|does not occur|no occurrence")
# How a clause, a call or a step is said not to hold: at a place of the source, and under the name of its goal.
OPEN = re.compile(r"note: (src/\S+?):\d+:\d+: it is not proved that (.*?) \(`([^`]+)`\)")
# A goal of the function's own clauses, and not of a call in it.
OWN = re.compile(r"what the function ensures|invariant")
# The error of the answer that each edited function has beside its own, which says nothing of its proof.
WRONG_ANSWER = "error: `without-offer`: `nothing-of-the-kind` is not in scope"
MOST = 200


@dataclass(frozen=True)
class Said:
    """What a check says of a function: whether it refuses it by its contract or for its safety, and the line that tells it."""

    refused: bool
    line: str


def cut(line: str) -> str:
    """A line of at most MOST characters."""
    return line if len(line) <= MOST else line[: MOST - 2] + ".."


def verdict_on(output: str, crate: str, function: str) -> str | None:
    """What a check says behind the name of a function: `proved`, `not proved`, `no proof: ..`, `could not tell`; None where nothing."""
    found = re.search(rf"^fn {re.escape(f'{crate}::{function}')}: (.*)$", output, re.M)
    return found[1] if found else None


def must_prove(output: str, goal: str, answers: str) -> str:
    """What is left to show for a goal, or nothing where that is not printed."""
    found = re.search(rf"^note: `{re.escape(goal)}` of {re.escape(answers)} must prove: (.*)$", output, re.M)
    return f": {found[1]}" if found else ""


def open_goals(output: str, crate: str, function: str) -> list[str]:
    """A line for each goal of a function that the check leaves open: those between the line of the function before and its own."""
    lines = output.split("\n")
    end = next(at for at, line in enumerate(lines) if line.startswith(f"fn {crate}::{function}: "))
    begin = max((at for at in range(end) if lines[at].startswith("fn ")), default=-1)
    answers = f"proofs/{function.replace('::', '/')}/Answers.antt"
    found = [open for line in lines[begin + 1 : end] if (open := OPEN.match(line))]
    return [f"{function}: {it[2]} (`{it[3]}`){must_prove(output, it[3], answers)}" for it in found]


def answer_errors(output: str, function: str) -> list[str]:
    """The errors in the proof files of a function but for WRONG_ANSWER: answers that do not answer what is to be shown now."""
    folder = re.escape(f"proofs/{function.replace('::', '/')}/")
    return [it for it in re.findall(rf"^(?:\./)?({folder}\S+ error: .*)$", output, re.M) if WRONG_ANSWER not in it]


def judged(output: str, status: int, crate: str, function: str) -> Said:
    """What a check of an edited function comes to."""
    state = verdict_on(output, crate, function)
    if state is None:
        error = re.search(r"^.*\berror\b.*$", output, re.M)
        return Said(False, cut(f"the prover was not reached (status {status}): {error[0] if error else output.strip()[-MOST:]}"))
    goals = open_goals(output, crate, function)
    errors = answer_errors(output, function)
    is_wrong_answer_all = WRONG_ANSWER in output and not goals and not errors and not LIMIT.search(output)
    if state == "proved" or state == "not proved" and is_wrong_answer_all:
        return Said(False, f"{function} is still proved: its contract lets this body through, or it means the same as before")
    if any(map(GONE.search, errors)):
        # a call under another name has lost its answer
        goals = [it for it in goals if OWN.search(it)]
    shown = goals + [it for it in errors if not GONE.search(it)]
    if shown:
        names = dict.fromkeys(re.findall(r"(?:\(|error: )`([^`]+)`", "\n".join(shown)))
        others = [f"`{it}`" for it in names][1:]
        return Said(True, cut(shown[0]) + (f" (and {', '.join(others[:3])}{' ..' if others[3:] else ''})" if others else ""))
    if errors:
        return Said(False, cut(f"refused only because a proof file names what the edit took away: {errors[0]}"))
    if LIMIT.search(output):
        return Said(False, cut(f"refused only by a limit of the prover: {LIMIT.search(output)[0]}"))
    return Said(False, cut(f"{function}: {state}, and no goal of it is named"))


def refusals(log: str) -> dict[str, str]:
    """Of the edits CRATE/NAME of must-fail/ in the lines of `rt ci`, kept ones too, those that show nothing of a contract, and why."""
    found = {}
    for name, said in edits_said(log).items():
        if not said.startswith("refused, as it must be") or re.match(r"refused, as it must be \(only ", said):
            found[name] = cut(said)
    return found


def edits_said(log: str) -> dict[str, str]:
    """What `rt ci` says of each edit CRATE/NAME of crates/*/must-fail/."""
    found = dict(re.findall(r"^(?:rt: )?must-fail ([\w-]+/\S+?)(?:\.edit)?: (.*)$", log, re.M))
    for crate, name, said in re.findall(r"^(?:rt: )?(?:crates/)?([\w-]+)/must-fail/(\S+?)(?:\.edit)?: (BAD EDIT.*)$", log, re.M):
        found.setdefault(f"{crate}/{name}", said)
    return found
