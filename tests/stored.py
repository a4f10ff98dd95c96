"""Keeps the inputs of a test program and what it must write, and compares them with what is made anew.

What a case is, and what must come of it, the callers say: tests/make_files.py and tests/make_captures.py. Here is only the keeping.
"""

import tempfile
from pathlib import Path


def write(folder, cases, fault, lines):
    """Writes the inputs, the arguments and what the program must write; returns the faults of the cases, by name."""
    faults = {}
    written = []
    (folder / "data").mkdir(parents=True, exist_ok=True)
    for name, data, expected in cases():
        if name in faults:
            raise ValueError(f"{name}: there are two")
        faults[name] = fault(name, data, expected)
        (folder / "data" / name).write_bytes(data)
        written += lines(name, data)
    (folder / "args").write_text("".join(f"{name}\n" for name in faults))
    (folder / "stdout").write_text("".join(f"{line}\n" for line in written))
    return faults


def same(made, kept):
    return kept.is_file() and made.read_bytes() == kept.read_bytes()


def check(crate, cases, fault, lines):
    """Compares what is stored with what is made anew, file by file."""
    passed = 0
    failed = []
    with tempfile.TemporaryDirectory() as place:
        made = Path(place)
        for name, wrong in write(made, cases, fault, lines).items():
            if wrong:
                failed.append(wrong)
            elif not same(made / "data" / name, crate / "data" / name):
                failed.append(f"data/{name}: differs from what is made")
            else:
                passed += 1
        for name in ("args", "stdout"):
            if same(made / name, crate / name):
                passed += 1
            else:
                failed.append(f"{name}: differs from what is made")
        wanted = {path.name for path in (made / "data").glob("*")}
        kept = {path.name for path in (crate / "data").glob("*")}
        failed += [f"data/{name}: no case makes it" for name in sorted(kept - wanted)]
    for line in failed:
        print(line)
    print(f"{passed} passed, {len(failed)} failed")
    return 1 if failed else 0


def main(words, usage, crate, cases, fault, lines):
    """What a script of cases does: --check compares; without a word all is made anew in the crate. The answer is an exit status."""
    if words == ["--check"]:
        return check(crate, cases, fault, lines)
    if words:
        print(usage)
        return 2
    for path in (crate / "data").glob("*"):
        path.unlink()
    wrong = [text for text in write(crate, cases, fault, lines).values() if text]
    for text in wrong:
        print(text)
    return 1 if wrong else 0
