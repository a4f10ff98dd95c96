#!/usr/bin/env python3
"""Brings the repository's own definitions and lemmas to snake case: newest-inputs becomes newest_inputs.

usage: tools/snake_names.py [FOLDER]      at the top of a checkout that /opt/rattle/port/port.py has turned; rewrites files in place

A name is the repository's own if a file of specs/, of proofs/ (outside a walk, proofs/F/Proof.antt) or of src/ has it in its code and does
not import it from elsewhere. It is renamed in code wherever a file does not import the same name from elsewhere, in the edits of wrong
programs, and in the comments and pages where it stands in backticks. Names that fall together with another name of the same files are printed.
"""
import os
import re
import sys

NAME = re.compile(r"(?<![\w'])(?:[^\W\d_]|_)[\w'₀-₉]*(?:-[\w'₀-₉]+)+")
USE = re.compile(r"(?m)^\s*(?:pub )?(?:ghost )?use ([\w.'ᴰ+-]+)\.\{([^}]*)\}")
SKIP = {"antt": re.compile(r'"(?:[^"\\]|\\.)*"|(?<![^\s(){}])--[^\n]*'), "rt": re.compile(r'"(?:[^"\\]|\\.)*"|//[^\n]*')}


def parts(path, text):
    """The text in pieces: (is code, piece). Strings and comments are no code."""
    last = 0
    for m in SKIP[path.rsplit(".", 1)[1]].finditer(text):
        yield True, text[last : m.start()]
        yield False, m.group()
        last = m.end()
    yield True, text[last:]


def elsewhere(text, own):
    """The names that a file imports from outside the repository."""
    names = set()
    for m in USE.finditer(text):
        path = m.group(1).split(".")
        if not (path[0] == "Rattle" and len(path) > 1 and path[1] in own):
            names |= {item.split(" as ")[0].strip() for item in m.group(2).split(",")}
    return names


def main(root):
    crates = os.path.join(root, "crates")
    own = set(os.listdir(crates))
    texts = {}
    for folder, dirs, files in os.walk(crates):
        dirs[:] = sorted(d for d in dirs if d != "out")
        for f in sorted(files):
            if f.endswith((".rt", ".antt")):
                path = os.path.join(folder, f)
                with open(path, encoding="utf-8") as it:
                    texts[path] = it.read()
    names, words = set(), {}
    for path, text in texts.items():
        if path.endswith("/Proof.antt"):
            continue
        foreign = elsewhere(text, own)
        for code, piece in parts(path, text):
            if code:
                names |= {n for n in NAME.findall(piece) if n not in foreign}
                if path.endswith(".antt"):
                    for w in re.findall(r"[\w'₀-₉-]+", piece):
                        words.setdefault(w, path)
    for n in sorted(names):
        if n.replace("-", "_") in words:
            print(f"falls together: {n} and {n.replace('-', '_')}, of {os.path.relpath(words[n.replace('-', '_')], root)}")

    def renamed(piece, foreign):
        return NAME.sub(lambda m: m.group().replace("-", "_") if m.group() in names and m.group() not in foreign else m.group(), piece)

    def ticked(piece):
        return re.sub(r"`[^`\n]*`", lambda m: renamed(m.group(), set()), piece)

    def named(text):
        # What stands in backticks in a page, or in an edit, may also be a name that port.py has turned already.
        return NAME.sub(lambda m: m.group().replace("-", "_") if m.group() in names or m.group().replace("-", "_") in words else m.group(), text)

    for path, text in texts.items():
        foreign = elsewhere(text, own)
        new = "".join(renamed(p, foreign) if code else ticked(p) if not p.startswith('"') else p for code, p in parts(path, text))
        if new != text:
            with open(path, "w", encoding="utf-8") as it:
                it.write(new)
    pages = [os.path.join(root, "README.md")]
    for folder, dirs, files in os.walk(crates):
        dirs[:] = [d for d in dirs if d != "out"]
        pages += [os.path.join(folder, f) for f in sorted(files) if f.endswith(".edit")]
    for folder, _, files in os.walk(os.path.join(root, "docs")):
        pages += [os.path.join(folder, f) for f in sorted(files) if f.endswith(".md") and f != "PORT.md"]
    for path in pages:
        with open(path, encoding="utf-8") as it:
            text = it.read()
        new = named(text) if path.endswith(".edit") else re.sub(r"`[^`\n]*`", lambda m: named(m.group()), text)
        if new != text:
            with open(path, "w", encoding="utf-8") as it:
                it.write(new)
    print(f"{len(names)} names")


if __name__ == "__main__":
    main(sys.argv[1] if len(sys.argv) > 1 else ".")
