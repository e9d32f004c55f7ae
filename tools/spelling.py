#!/usr/bin/env python3
"""Brings the repository's own definitions and lemmas to the spelling of today's Rattle, once, right after the kit's port.py: words in snake case.

usage: python3 tools/spelling.py [--names]     at the top of the repository; --names only prints the names, old and new

It turns each name that a file of specs/ or a lemma file of proofs/ declares and that has a capital letter after a small one (rootWalk), or a dash
(walk-live), wherever it stands in crates/: in .rt files only in clauses and ghost lines. Functions of src/, types, modules and constructors keep their names,
and so do names that a library has too. Must-fail edits get the same spelling, and what port.py turned in the files that they are of.
"""

import os
import re
import subprocess
import sys

NAME = r"[A-Za-z_ℕℤ][\w'₀-₉-]*"
TOKEN = re.compile(r"(?<![\w'₀-₉-])" + NAME)
DECLARED = re.compile(r"^\s*(?:(?:abbrev|unfoldable|pub|private)\s+)*(" + NAME + r"(?:\s+" + NAME + r")*)\s+:\s")
# Two lemmas that already have the name that a definition gets.
OTHER = {"past_end": "past_end_law", "read_answer": "read_answer_law"}
# What port.py made of names of this repository, for the edits, which it leaves.
PORTED = {"getD": "get_or", "inRange": "in_range", "byteOf": "byte_of", "wordOf": "word_of", "wordsOf": "words_of", "atBlock": "at_block", "negℤ": "neg_ℤ"}


def files(ending):
    for folder, dirs, names in os.walk("crates"):
        dirs[:] = sorted(d for d in dirs if d != "out")
        for name in sorted(names):
            if name.endswith(ending):
                yield os.path.join(folder, name)


def lemmas(path):
    """Whether a file is of specs/ or a lemma file, and not the proof of a function."""
    parts = path.split(os.sep)
    return parts[2] == "specs" or (parts[2] == "proofs" and len(parts) == 4)


def snake(name):
    name = re.sub(r"(?<=[a-z0-9'])(?=[A-Z])", "_", name).lower() if not name[0].isupper() else name
    return name.replace("-", "_")


def read(path):
    with open(path, encoding="utf-8") as f:
        return f.read()


def uncommented(text):
    return re.sub(r"(?m)(^|\s)--.*$", "", text)


def names():
    declared, library, tokens = set(), set(), set()
    for path in files(".antt"):
        text = uncommented(read(path))
        tokens |= set(TOKEN.findall(text))
        for path_, group in re.findall(r"use ([\w.'-]+)\.\{([^}]*)\}", text):
            first = path_.split(".")
            own = first[0] == "Rattle" and first[1] in CRATES
            if not own:
                library |= {w.strip().split(" as ")[0] for w in group.split(",")}
        if lemmas(path):
            for line in text.splitlines():
                m = DECLARED.match(line)
                if m and not line.lstrip().startswith(("use ", "|", "let ")):
                    declared |= set(m.group(1).split())
    turned = {}
    for name in sorted(declared):
        if name in library or name in ("pub", "abbrev", "unfoldable", "record", "where", "module", "data"):
            continue
        new = OTHER.get(name, snake(name))
        if name[0].isupper() or new == name:
            continue
        turned[name] = new
    # A lemma gives way to a definition or a function of the name.
    for name in [n for n in turned if "-" in n]:
        if turned[name] in tokens or list(turned.values()).count(turned[name]) > 1:
            turned[name] += "_law"
    return turned, tokens, library, declared


CRATES = sorted(os.listdir("crates"))
TURNED, TOKENS, LIBRARY, DECLARED_NAMES = names()


def clashes():
    seen = {}
    for old, new in TURNED.items():
        seen.setdefault(new, []).append(old)
    for new, olds in sorted(seen.items()):
        if len(olds) > 1:
            yield f"{' and '.join(olds)} would both be {new}"
        if new in TOKENS and new not in TURNED:
            yield f"{olds[0]} would be {new}, which is a name already" + (" (declared)" if new in DECLARED_NAMES else "") + (" (library)" if new in LIBRARY else "")


def turn(text, dashed=True):
    return TOKEN.sub(lambda m: TURNED.get(m.group(0), m.group(0)) if dashed or "-" not in m.group(0) else m.group(0), text)


def turn_source(text):
    """Clauses and ghost lines; no name of a function has a capital letter."""
    lines = text.split("\n")
    return "\n".join(turn(l, l.lstrip().startswith(("requires", "ensures", "ghost"))) for l in lines)


def ported(text):
    """What port.py makes of a piece of a definition or a clause."""
    text = TOKEN.sub(lambda m: PORTED.get(m.group(0), m.group(0)), text).replace("′", "'")
    text = re.sub(r"\(now \((\w+) \.entry\)\)", r"\1.now", text)
    text = re.sub(r"\((" + NAME + r") \.([\w'-]+)\)", r"\1.\2", text)
    text = re.sub(r"(?<=[\w')]) \.([a-z0-9][\w'-]*)", r".\1", text)
    return text


def edits():
    for path in files(".edit"):
        text = read(path)
        base = os.path.dirname(os.path.dirname(path))
        file = re.search(r"(?m)^file: (.*)$", text).group(1)
        source = file.endswith(".rt")
        out = []
        for line in text.split("\n"):
            m = re.match(r"(old|new):( ?)(.*)$", line)
            if m:
                turned = turn_source(m.group(3)) if source else turn(ported(m.group(3)))
                line = m.group(1) + ":" + m.group(2) + turned
            elif not line.startswith("file:"):
                line = turn(TOKEN.sub(lambda m: PORTED.get(m.group(0), m.group(0)), line))
            out.append(line)
        yield path, text, "\n".join(out), os.path.join(base, file)


def main():
    for line in clashes():
        print(line)
    if "--names" in sys.argv:
        for old, new in TURNED.items():
            print(old, new)
        return
    if any(" would both " in line for line in clashes()):
        raise SystemExit("two names would fall together")
    texts = {path: turn(read(path)) for path in files(".antt")} | {path: turn_source(read(path)) for path in files(".rt")}
    changed = 0
    left = []
    for path, old, new, file in edits():
        texts[path] = new
        body = texts.get(file, "")
        for n, m in enumerate(re.findall(r"(?m)^old: ?(.*)$", new)):
            if body.count(m) != 1 and n == 0:
                left.append(f"left: {path}: {file} has {body.count(m)} times: {m}")
    for path, text in texts.items():
        if read(path) != text:
            changed += 1
            with open(path, "w", encoding="utf-8") as f:
                f.write(text)
    for crate in CRATES:
        subprocess.run(["rt", "fmt"], cwd=os.path.join("crates", crate), capture_output=True)
    print("\n".join(left))
    print(f"spelling: {len(TURNED)} names, {changed} files changed, {len(left)} edits left by hand")


if __name__ == "__main__":
    main()
