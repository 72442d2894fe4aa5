#!/usr/bin/env python3
"""Checks the texts of all must-fail edits, in a second and without the prover.

An edit is a wrong body in place of a right one: a file with a line 'file: src/..' and then pairs of lines 'old: TEXT' and
'new: TEXT'. The gate tries those in crates/NAME/must-fail/, and tools/try_edits.py those in edits/NAME/. Of each this
checks that it can be applied, by the rules of rt: each old text stands exactly once in its file, after the pairs before
it, and something changes. No other lines are allowed, each folder below edits/ has the name of a crate of crates.txt, and
the gate has few edits, since a crate with two or more is proved once more for them: at most 10 crates, 5 a crate, 45 in all.

  tools/check_edits.py

Prints one line if all is well. Else prints what is wrong, a line each, and ends with status 1."""
import argparse
import os
import re
import sys

TOP = os.path.dirname(os.path.dirname(os.path.abspath(__file__)))
MOST_CRATES, MOST_A_CRATE, MOST = 10, 5, 45
NAME = re.compile(r"[A-Za-z0-9_-][A-Za-z0-9_.-]*\.edit")


def crates(top):
    """The names of the crates that crates.txt lists."""
    with open(f"{top}/crates.txt", encoding="utf-8") as lines:
        heads = [line.partition("#")[0].partition(":")[0].split() for line in lines]
    return [head[0] for head in heads if head]


def edits_in(folder):
    """The edits of a folder, and what else is in it, both as paths."""
    good, bad = [], []
    for at, folders, files in os.walk(folder):
        folders.sort()
        for name in sorted(files):
            if at == folder and NAME.fullmatch(name):
                good.append(f"{at}/{name}")
            elif not name.endswith(".md"):
                bad.append(f"{at}/{name}")
    return good, bad


def fault_of(text, crate):
    """Why an edit of this text can't be applied to the crate in this folder, or None."""
    path, old, texts, was = "", "", {}, {}
    for line in text.split("\n"):
        if line.startswith("file: "):
            path = line.removeprefix("file: ").strip()
            if os.path.normpath(path) != path or not path.startswith(("src/", "specs/", "proofs/")):
                return f"'{path}' is no file below src/, specs/ or proofs/"
        elif line.startswith("old: "):
            old = line.removeprefix("old: ")
        elif line.startswith("new:"):
            new = line.removeprefix("new:").removeprefix(" ")
            if not path or not old:
                return "a 'new:' line stands before any 'file:' or 'old:' line"
            if path not in texts:
                if not os.path.isfile(f"{crate}/{path}"):
                    return f"there is no file {path}"
                with open(f"{crate}/{path}", encoding="utf-8") as file:
                    texts[path] = was[path] = file.read()
            found = texts[path].count(old)
            if found != 1:
                return f"its text stands {found} times in {path}, and not once: {old.strip()}"
            texts[path] = texts[path].replace(old, new)
            old = ""
        elif line.strip():
            return f"a line begins with none of 'file: ', 'old: ', 'new:': {line.strip()}"
    if old:
        return "an 'old:' line has no 'new:' line after it"
    if not texts:
        return "it has no 'old:' and 'new:' pair"
    return None if texts != was else "it changes nothing"


def read(path):
    with open(path, encoding="utf-8") as file:
        return file.read()


def check(top):
    """All that is wrong, and the numbers of edits by crate, in the gate and beside it."""
    names, wrong, gate, beside = crates(top), [], {}, {}
    places = [(name, f"{top}/crates/{name}/must-fail", gate) for name in sorted(os.listdir(f"{top}/crates"))]
    extra = f"{top}/edits"
    for name in sorted(os.listdir(extra)) if os.path.isdir(extra) else []:
        if name not in names:
            wrong.append(f"edits/{name}: crates.txt lists no such crate")
        elif os.path.isdir(f"{extra}/{name}"):
            places.append((name, f"{extra}/{name}", beside))
    for name, folder, counts in places:
        good, bad = edits_in(folder)
        wrong += [f"{os.path.relpath(it, top)}: not the name of an edit" for it in bad]
        for path in good:
            try:
                why = fault_of(read(path), f"{top}/crates/{name}")
            except (OSError, ValueError) as error:
                why = f"it, or its file, can't be read ({error})"
            if why:
                wrong.append(f"{os.path.relpath(path, top)}: {why}")
        if good:
            counts[name] = len(good)
    wrong += [f"crates/{name}/must-fail: {n} edits, and at most {MOST_A_CRATE} a crate" for name, n in gate.items() if n > MOST_A_CRATE]
    if len(gate) > MOST_CRATES:
        wrong.append(f"{len(gate)} crates have edits in the gate, and at most {MOST_CRATES}: {' '.join(gate)}")
    if sum(gate.values()) > MOST:
        wrong.append(f"the gate has {sum(gate.values())} edits, and at most {MOST}")
    return wrong, gate, beside


def main():
    head, _, rest = __doc__.partition("\n\n")
    argparse.ArgumentParser(description=head, epilog=rest, formatter_class=argparse.RawDescriptionHelpFormatter).parse_args()
    wrong, gate, beside = check(TOP)
    for line in wrong:
        print(f"edits: {line}")
    if not wrong:
        print(f"edits: {sum(gate.values())} of {len(gate)} crates in the gate, {sum(beside.values())} of {len(beside)} crates beside it: each text stands once in its file")
    return 1 if wrong else 0


if __name__ == "__main__":
    sys.exit(main())
