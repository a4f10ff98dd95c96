"""Edits that make a crate a wrong program, which the prover must refuse.

An edit is a file of lines `file: PATH`, `old: TEXT` and `new: TEXT`, as rt reads it: each pair of `old:` and `new:` replaces the one place
of PATH that has TEXT. Those in crates/NAME/must-fail are tried by `rt ci`, and those in crates/NAME/wrong by tests/wrong, which has rt try
them likewise. Here edits are found, and what rt said of them is judged.
"""

import re
from pathlib import Path

ROOT = Path(__file__).resolve().parent.parent
PARTS = ("src", "specs", "proofs")  # of a crate, as far as the prover reads it
EDITED = ("src", "specs")  # an edit of a proof shows nothing of the promise
LOG = ROOT / "target" / "ci.log"  # what `rt ci` said in ./test


def lines():
    """The lines of crates.txt by the crate that each lists, in their order."""
    listed = [line.split("#")[0].strip() for line in (ROOT / "crates.txt").read_text(encoding="utf-8").split("\n")]
    return {line.partition(":")[0].split()[0]: line for line in listed if ":" in line}


def crates():
    """The crates that crates.txt lists, in its order, and what each stands on."""
    return {name: line.partition(":")[2].split() for name, line in lines().items()}


def of(name, folder):
    """The edits of a crate in this folder of it."""
    return sorted((ROOT / "crates" / name / folder).glob("*.edit"))


def remark(edit):
    """The lines of an edit that begin with #, without it."""
    lines = edit.read_text(encoding="utf-8").split("\n")
    return " ".join(line[1:].strip() for line in lines if line.startswith("#"))


def misplaced(edit):
    """A fault if the edit changes what shows nothing of a promise, or None."""
    for line in edit.read_text(encoding="utf-8").split("\n"):
        file = line.partition("file: ")[2] if line.startswith("file: ") else None
        if file and Path(file).parts[:1] not in [(part,) for part in EDITED]:
            return f"it edits {file}, and not src/ or specs/"
    return None


# WHAT RT SAID

# Of one edit.
SAID = re.compile(r"^rt: must-fail (\S+?)/(\S+)\.edit: (.*)$", re.MULTILINE)
# A refusal, and the first thing that is wrong in itself: where it stands, and what is said of it.
REFUSED = re.compile(r"refused, as it must be: (?:note: )?(?:\./)?(\S+?:\d+:\d+): (.*)")


def said_in(log):
    """What rt said of each edit that it tried: by the crate and the edit's name."""
    return {(name, edit): said for name, edit, said in SAID.findall(log)}


def place_of(said):
    """Where the first thing is that is wrong with a refused edit, or None."""
    found = REFUSED.match(said or "")
    return found.group(1) if found else None


def fault_of(said):
    """Why what rt said of an edit is no refusal at a fact; None if it is one."""
    if said is None:
        return "rt did not try it"
    if said.startswith("NOT REFUSED"):
        return "accepted: the crate is still proved with it"
    if said.startswith("BAD EDIT: it did not reach the prover"):
        return "it did not reach the prover"
    if said.startswith("BAD EDIT: the prover cannot read"):
        return "the prover cannot read it"
    if not said.startswith("refused, as it must be"):
        return said.removeprefix("BAD EDIT: ")
    if "names what the edit took away" in said:
        return "it only made a proof unfit for the code, and shows nothing"
    if "only by a limit" in said:
        return "it only met a limit of the prover, and shows nothing"
    place = place_of(said)
    if place is None:
        return "no fact fails"
    return "its first error is not in a proof" if place.startswith("specs/") else None
