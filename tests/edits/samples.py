"""What a check and `rt ci` have been seen to say, and how it is to be judged."""

from said import WRONG_ANSWER, judged, refusals

FUNCTION = "rows::is_plain"
OPEN = """fn c::rows::first: proved
note: src/rows.rt:62:1: it is not proved that what the function ensures holds when it returns (`returns-clause-all`); `search` gave up
fn c::rows::is_plain: no proof: expected answers in ./proofs/rows/is_plain/Answers.antt; `search` did not prove `returns-clause-all`
note: `returns-clause-all` of proofs/rows/is_plain/Answers.antt must prove: 1 ≡ 2
only=2 proved=1
"""
ANSWER = "./proofs/rows/is_plain/Answers.antt:8:48: error: `returns`: "
WRONG = f"./proofs/rows/is_plain/Answers.antt:1:21: {WRONG_ANSWER}\n"
REFUSED = "fn c::rows::is_plain: not proved\nonly=1 proved=0\n"

# What a check says of the function, and the front of the line that it is to come to: `refused`, or why this shows nothing of its contract.
CHECKS = {
    "an open goal": (OPEN, "refused rows::is_plain: what the function ensures holds when it returns (`returns-clause-all`): 1 ≡ 2"),
    "an open goal beside the wrong answer": (
        WRONG + OPEN.replace("no proof: expected answers in ./proofs/rows/is_plain/Answers.antt; `search` did not prove", "not proved:"),
        "refused rows::is_plain: what the function ensures holds when it returns (`returns-clause-all`)",
    ),
    "the wrong answer alone": (WRONG + "fn c::rows::is_plain: not proved\nonly=1 proved=0\n", "rows::is_plain is still proved"),
    "a limit beside the wrong answer": (
        WRONG + "antt ran out of stack\nfn c::rows::is_plain: could not tell\n", "refused only by a limit of the prover",
    ),
    "an open goal of another function": (
        OPEN.replace("is_plain", "other") + "fn c::rows::is_plain: proved\n",
        "rows::is_plain is still proved",
    ),
    "an answer to something else": (
        ANSWER + "the two types first differ\n" + REFUSED,
        "refused proofs/rows/is_plain/Answers.antt:8:48: error: `returns`: the two",
    ),
    "a name that is gone": (ANSWER + "`c` has no field `push`\n" + REFUSED, "refused only because a proof file names what the edit took"),
    "a call under another name": (
        OPEN.replace("the function ensures holds when it returns", "`push` requires holds at this call").replace(
            "fn c::rows::is_plain", ANSWER + "`c` has no field `push`\nfn c::rows::is_plain"
        ),
        "refused only because a proof file names what the edit took",
    ),
    "a limit": ("antt ran out of stack\nfn c::rows::is_plain: could not tell\n", "refused only by a limit of the prover"),
    "no compilation": ("error[E0308]: mismatched types\n", "the prover was not reached (status 1): error[E0308]: mismatched types"),
}
LOG = """rt: c: trying its must-fail edits (5)
rt: must-fail c/well.edit: refused, as it must be: note: src/rows.rt:62:1: it is not proved that what the function ensures holds
rt: must-fail c/gone.edit: refused, as it must be (only because a proof file names what the edit took away, so this says little)
rt: must-fail c/limit.edit: refused, as it must be (only by a limit of the prover, which gave no verdict)
rt: must-fail c/through.edit: NOT REFUSED: the crate is still proved with this edit
rt: must-fail c/bad.edit: BAD EDIT: an 'old:' text is in src/rows.rt 0 times, and not once
rt: crates/c/must-fail/odd.txt: BAD EDIT: an edit stands right in must-fail/
rt: 1 passed, 1 failed
"""


def departures() -> dict[str, tuple[str, str]]:
    """The samples that are judged otherwise than they are to be: what they came to, and what is wanted."""
    found = {}
    for name, (output, wanted) in CHECKS.items():
        said = judged(output, 1, "c", FUNCTION)
        line = f"refused {said.line}" if said.refused else said.line
        if not line.startswith(wanted):
            found[name] = (line, wanted)
    told = " ".join(sorted(refusals(LOG)))
    if told != "c/bad c/gone c/limit c/odd.txt c/through":
        found["lines of rt ci"] = (told, "c/bad c/gone c/limit c/odd.txt c/through")
    return found
