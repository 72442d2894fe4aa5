#!/usr/bin/env python3
"""Measures `flow gen N`, and `flow plain` and `flow check` on the text of `flow gen N --text`, beside a yardstick.

The yardstick takes the words `gen N` and `plain`. The programs are run in turn, round by round. The last line of each
output is checked, and a wrong one ends the measure.
"""
import argparse
import os
import statistics
import subprocess
import sys
import tempfile

from measure import FLOW, last_line, timed

NUMBERS = (20_000, 90_000)


def last_of_run(n):
    return "events %d items %d refused 0 status 0" % (18 * n + 10, 11 * n)


def last_of_check(n):
    return "%d [%d,%d]" % (n - 1, 3 * n, -n)


# the work, its words by the number, whether it reads the text, the last line by the number, whether the yardstick does it
WORK = [
    ("gen", lambda n: ["gen", str(n)], False, last_of_run, True),
    ("plain", lambda n: ["plain"], True, last_of_run, True),
    ("check", lambda n: ["check"], True, last_of_check, False),
]


def run_once(program, words, source_path, out_path, wanted):
    """Wall seconds and peak megabytes of one run, whose last line has to be the wanted one."""
    status, wall, _, peak = timed([program] + words, source_path, out_path)
    if status != 0 or last_line(out_path) != wanted:
        sys.exit("%s %s ended with %d and %r, not %r" % (program, " ".join(words), status, last_line(out_path), wanted))
    return wall, peak


def main():
    parser = argparse.ArgumentParser(description=__doc__)
    parser.add_argument("--flow", default=FLOW)
    parser.add_argument("--yardstick", help="a program that takes the words `gen N` and `plain`")
    parser.add_argument("--rounds", type=int, default=7)
    args = parser.parse_args()
    walls, peaks = {}, {}
    with tempfile.TemporaryDirectory() as folder:
        texts = {}
        for n in NUMBERS:
            texts[n] = os.path.join(folder, "gen_%d.json" % n)
            with open(texts[n], "wb") as out:
                subprocess.run([args.flow, "gen", str(n), "--text"], stdout=out, check=True)
        out_path = os.path.join(folder, "out")
        for turn in range(args.rounds + 1):
            for work, words, reads, last, shared in WORK:
                for n in NUMBERS:
                    for name, program in (("flow", args.flow), ("yardstick", args.yardstick)):
                        if program is None or (name == "yardstick" and not shared):
                            continue
                        wall, peak = run_once(program, words(n), texts[n] if reads else os.devnull, out_path, last(n))
                        if turn > 0:
                            walls.setdefault((work, n, name), []).append(wall)
                            peaks.setdefault((work, n, name), []).append(peak)
    print("| Work | N | Program | Wall, median | Wall, best | Peak memory | Per number |")
    print("|---|---|---|---|---|---|---|")
    for (work, n, name), seconds in walls.items():
        median = statistics.median(seconds)
        print("| %s | %d | %s | %.3f s | %.3f s | %.0f MB | %.0f ns |" % (
            work, n, name, median, min(seconds), statistics.median(peaks[work, n, name]), median / n * 1e9))
    print()
    print("| Work | Program | Time per number at %d to that at %d, medians | by the best times |" % (NUMBERS[1], NUMBERS[0]))
    print("|---|---|---|---|")
    for work, _, _, _, shared in WORK:
        for name in ("flow", "yardstick"):
            if (work, NUMBERS[0], name) in walls:
                small, large = walls[work, NUMBERS[0], name], walls[work, NUMBERS[1], name]
                scale = NUMBERS[0] / NUMBERS[1]
                print("| %s | %s | %.2f | %.2f |" % (work, name, statistics.median(large) / statistics.median(small) * scale, min(large) / min(small) * scale))
    if args.yardstick:
        print()
        print("| Work | N | flow to the yardstick: wall, median | Wall, best | Peak memory |")
        print("|---|---|---|---|---|")
        for work, _, _, _, shared in WORK:
            for n in NUMBERS:
                if shared:
                    ours, theirs = walls[work, n, "flow"], walls[work, n, "yardstick"]
                    print("| %s | %d | %.2f | %.2f | %.2f |" % (
                        work, n, statistics.median(ours) / statistics.median(theirs), min(ours) / min(theirs),
                        statistics.median(peaks[work, n, "flow"]) / statistics.median(peaks[work, n, "yardstick"])))


if __name__ == "__main__":
    main()
