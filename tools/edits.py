#!/usr/bin/env python3
"""Checks that every must-fail edit is refused by a fact that it makes false, and not by its own form; run by the gate on the log of `rt ci`:

    python3 tools/edits.py LOG

rt says of each edit what came of it, with the first error of the prover that names nothing which the edit took away. It is an error of the tree if
- an edit of the tree is not in the log, cannot be applied or read (BAD EDIT), was not tried or is not refused;
- rt says that it is refused only because a proof names what the edit took away, or only by a limit of the prover;
- the first error is in specs/ or is an error of the source: a definition or a function of the edit is none, so that nothing was asked of it;
- the first error is in none of the words in which a fact fails: a goal is not proved, two statements that are compared differ, or a tactic does
  not find what it was asked for;
- it says that a name, a field or a goal is not there: the edit's text does not fit the code;
- the edit changes neither src/ nor specs/: that a proof is spoilt shows nothing.
What it cannot tell from a fact: an answer to a goal that no longer fits.
"""
import pathlib
import re
import sys

ROOT = pathlib.Path(__file__).resolve().parent.parent
CHANGES = re.compile(r"^file: (?:src|specs)/", re.M)
SAID = re.compile(r"^(?:rt: )?must-fail (\S+)/(\S+)\.edit: (.*)", re.M)
REFUSED = "refused, as it must be: "
GOAL = re.compile(r"note: \S*src/\S+\.rt:\d+:\d+: it is not proved that ")
FACT = re.compile(
    r"two (?:types|values|sides) |expected type `|` ≟ `|`: `.* ≡ |`(?:omega|search|grind|cc|simp)`: |`rw`: no occurrence of|"
    r"give a proof of that as the last argument|error: `[^`]+`: `[^`]*$"
)
MISSING = re.compile(r"is not in scope|has no field|has no `|missing field|is not a field of|that can be named from here")


def fault(said):
    """What is wrong with what rt says of an edit; None where a fact refuses it."""
    if said is None:
        return "the log does not say that it was tried"
    if not said.startswith(REFUSED):
        return said[:300]
    first = said[len(REFUSED):]
    if GOAL.match(first):
        return None
    if re.match(r"(?:\./)?(?:specs|src)/", first):
        return f"it is refused before a fact is asked: {first[:300]}"
    if MISSING.search(first) or not FACT.search(first):
        return f"it is refused by its form: {first[:300]}"
    return None


def main():
    if len(sys.argv) != 2:
        sys.exit(__doc__)
    told = {f"{crate}/{label}": said for crate, label, said in SAID.findall(pathlib.Path(sys.argv[1]).read_text(encoding="utf-8"))}
    edits = sorted(ROOT.glob("crates/*/must-fail/*.edit"))
    faults = {name: fault(told.get(name)) for name in (f"{p.parts[-3]}/{p.stem}" for p in edits)}
    wrong = [f"{edit}: {what}" for edit, what in faults.items() if what] if edits else ["there is no must-fail edit"]
    wrong += [f"{p.relative_to(ROOT)} changes neither src/ nor specs/" for p in edits if not CHANGES.search(p.read_text(encoding="utf-8"))]
    if wrong:
        sys.exit("\n".join(wrong))
    print(f"Each of the {len(edits)} must-fail edits is refused by a fact.")


if __name__ == "__main__":
    main()
