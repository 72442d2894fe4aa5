#!/usr/bin/env python3
"""Tries the must-fail edits of edits/, which the gate doesn't try: the prover has to refuse each.

An edit is a wrong body in place of a right one. For each crate NAME this puts the edits of edits/NAME/ into
crates/NAME/must-fail/ of a scratch clone of this repository, in place of those of the gate, and runs 'rt must-fail NAME'
there. Run it before a change of the crate lands. It takes 10 seconds to 2 minutes an edit, and first a check of the crate
and of those below it, unless rt check has just proved them in a checkout on this machine.

  tools/try_edits.py               the edits of all crates
  tools/try_edits.py NAME..        those of these crates

What is tried is what is committed: a clone has nothing else, and a line says so where something isn't committed. It prints
what rt prints, and at the end how many were refused, and which of them only by a proof file that names what the edit took
away, which says little. The exit status is 0 only if each was. The clone is removed."""
import argparse
import os
import re
import shutil
import signal
import subprocess
import sys
import tempfile

TOP = os.path.dirname(os.path.dirname(os.path.abspath(__file__)))
# What rt says of an edit, by the word under which it is counted.
SAID = {"refused": "refused, as it must be", "not refused": "NOT REFUSED", "bad": "BAD EDIT", "not tried": "NOT TRIED"}
LINE = re.compile(r"(?:rt: )?must-fail (\S+/\S+\.edit): (.*)")
# What rt adds to a refusal that shows nothing, or less, of a contract.
LITTLE = re.compile(r"says (little|less) of the contract")


def git(*words):
    return subprocess.run(["git", "-C", TOP, *words], capture_output=True, text=True, check=True).stdout


def wanted(names):
    """The crates whose edits are tried."""
    known = sorted(it for it in os.listdir(f"{TOP}/edits") if os.path.isdir(f"{TOP}/edits/{it}"))
    lost = [it for it in names if it not in known]
    if lost:
        sys.exit(f"try_edits: there is no folder edits/{lost[0]}; there are {' '.join(known)}")
    return names or known


def place(clone, name):
    """Puts a crate's edits into its must-fail folder, alone, and returns them as rt names them."""
    folder = f"{clone}/crates/{name}/must-fail"
    shutil.rmtree(folder, ignore_errors=True)
    shutil.copytree(f"{clone}/edits/{name}", folder)
    return [f"{name}/{it}" for it in sorted(os.listdir(folder)) if it.endswith(".edit")]


def run(clone, names, edits):
    """Runs rt, prints what it says, and returns what each edit came to, and which refusals say little."""
    found, little = dict.fromkeys(edits, "not tried"), []
    with subprocess.Popen(["rt", "must-fail", *names], cwd=clone, stdout=subprocess.PIPE, stderr=subprocess.STDOUT, text=True, errors="replace") as rt:
        try:
            for line in rt.stdout:
                print(line, end="", flush=True)
                said = LINE.match(line)
                if said:
                    found[said[1]] = next((word for word, text in SAID.items() if said[2].startswith(text)), "not tried")
                    little += [said[1]] if LITTLE.search(said[2]) else []
        except BaseException:
            # (rt ends what it started)
            rt.kill()
            raise
    return found, little


def main():
    head, _, rest = __doc__.partition("\n\n")
    words = argparse.ArgumentParser(description=head, epilog=rest, formatter_class=argparse.RawDescriptionHelpFormatter)
    words.add_argument("names", metavar="NAME", nargs="*", help="a crate with edits in edits/NAME; none: all")
    names = wanted(words.parse_args().names)
    for it in (signal.SIGTERM, signal.SIGHUP):
        signal.signal(it, lambda number, _: sys.exit(128 + number))
    if git("status", "--porcelain", "--", "crates", "crates.txt", "edits"):
        print("try_edits: what isn't committed is not tried", flush=True)
    with tempfile.TemporaryDirectory(prefix="try-edits-") as room:
        clone = f"{room}/clone"
        subprocess.run(["git", "clone", "-q", TOP, clone], check=True)
        edits = [it for name in names for it in place(clone, name)]
        print(f"try_edits: {len(edits)} edits of {len(names)} crates", flush=True)
        found, little = run(clone, names, edits)
    if little:
        print(f"try_edits: refused, but that says little of the contract: {' '.join(little)}")
    for word in list(SAID)[1:]:
        lost = [it for it, came_to in found.items() if came_to == word]
        if lost:
            print(f"try_edits: {word}: {' '.join(lost)}")
    counts = {word: list(found.values()).count(word) for word in SAID}
    print("try_edits: " + ", ".join(f"{n} {word}" for word, n in counts.items()))
    return 0 if counts["refused"] == len(found) else 1


if __name__ == "__main__":
    sys.exit(main())
