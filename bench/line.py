#!/usr/bin/env python3
"""Measures commits of the shared journal (`flow_bench line`) beside a plain list behind one lock (bench/mutex.rs).

Both make the same events from 1, 2 and 4 threads, of one party and of two, in turn, round by round.
"""
import argparse
import os
import statistics
import subprocess
import tempfile
import time

HERE = os.path.dirname(os.path.abspath(__file__))
BENCH = os.path.join(HERE, "..", "crates", "flow_bench", "out", "flow_bench")


def timed(words, threads, commits, parties):
    """Seconds of one run, whose one printed number is checked."""
    begin = time.perf_counter()
    said = subprocess.run([*words, str(threads), str(commits), str(parties)], check=True, capture_output=True, text=True)
    seconds = time.perf_counter() - begin
    if said.stdout.strip() != str(threads * commits):
        raise SystemExit("%s printed %r" % (words[0], said.stdout))
    return seconds


def main():
    said = argparse.ArgumentParser(description=__doc__)
    said.add_argument("--bench", default=BENCH, help="the program; crates/flow_bench/out/flow_bench by default")
    said.add_argument("--rounds", type=int, default=7, help="counted rounds; one before them isn't counted")
    said.add_argument("--commits", type=int, default=1_000_000, help="commits in all, shared out to the threads")
    given = said.parse_args()
    cases = [(threads, parties) for parties in (1, 2) for threads in (1, 2, 4)]
    with tempfile.TemporaryDirectory() as folder:
        mutex = os.path.join(folder, "mutex")
        subprocess.run(["rustc", "--edition", "2021", "-O", "-o", mutex, os.path.join(HERE, "mutex.rs")], check=True)
        times = {}
        for number in range(given.rounds + 1):
            for case in cases:
                threads, parties = case
                for name, words in (("line", [given.bench, "line"]), ("mutex", [mutex])):
                    seconds = timed(words, threads, given.commits // threads, parties)
                    if number:
                        times.setdefault((case, name), []).append(seconds)
    print("| Threads | Parties | Line | List behind a lock | Ratio |")
    print("|---|---|---|---|---|")
    for case in cases:
        line, mutex = (statistics.median(times[case, name]) for name in ("line", "mutex"))
        print("| %d | %d | %.2f million commits a second | %.2f | %.1f |" % (
            *case, given.commits / line / 1e6, given.commits / mutex / 1e6, line / mutex))


main()
