#!/usr/bin/env python3
"""Measures puts and serves of a book over two queues in a row (`flow_bench row`) beside an ordinary program on threads.

Ours has 1, 2 and 4 threads, each of which puts and serves by turns. The yardstick reads a document of the same
two queues with as many callers, and has as many workers beside them. Both make the same puts, in turn, round by round.
"""
import argparse
import os
import re
import statistics
import subprocess
import time

HERE = os.path.dirname(os.path.abspath(__file__))
BENCH = os.path.join(HERE, "..", "crates", "flow_bench", "out", "flow_bench")


def document(callers, puts):
    """The text of a document of two queues in a row and so many callers with so many puts each."""
    steps = ",".join('{"put":"a","tag":%d,"val":5}' % tag for tag in range(puts))
    return (
        '{"version":1,"nodes":[{"name":"a","kind":"queue"},{"name":"b","kind":"queue"}],"edges":[{"from":"a","to":"b"}],'
        '"callers":[%s],"sinks":[]}' % ",".join(["[%s]" % steps] * callers)
    ).encode()


def row(program, threads, puts):
    """Seconds and events of one run of ours, from the start of the process to its end."""
    begin = time.perf_counter()
    said = subprocess.run([program, "row", str(threads), str(puts)], check=True, capture_output=True, text=True)
    seconds = time.perf_counter() - begin
    events = int(said.stdout)
    if events < 2 * threads * puts:
        raise SystemExit("%s made %d events" % (program, events))
    return seconds, events


def yardstick(program, workers, text):
    """Seconds and events of the part `run` of one run of the yardstick, without reading and printing."""
    words = [program, "run", "--workers", str(workers), "--items", "1000000000"]
    said = subprocess.run(words, input=text, check=True, capture_output=True, env={**os.environ, "BENCH_TIMES": "1"})
    seconds = float(re.search(rb"phase run ([0-9.]+)", said.stderr).group(1))
    events = int(re.search(rb"events (\d+) items \d+ refused 0 status 0", said.stdout).group(1))
    return seconds, events


def main():
    said = argparse.ArgumentParser(description=__doc__)
    said.add_argument("--bench", default=BENCH, help="the program; crates/flow_bench/out/flow_bench by default")
    said.add_argument("--yardstick", help="a program that takes the words run, --workers N and --items N")
    said.add_argument("--rounds", type=int, default=7, help="counted rounds; one before them isn't counted")
    said.add_argument("--puts", type=int, default=400_000, help="puts in all, shared out to the threads")
    given = said.parse_args()
    programs = ["row"] + (["yardstick"] if given.yardstick else [])
    texts = {threads: document(threads, given.puts // threads) for threads in (1, 2, 4)} if given.yardstick else {}
    found = {}
    for number in range(given.rounds + 1):
        for threads in (1, 2, 4):
            for name in programs:
                if name == "row":
                    one = row(given.bench, threads, given.puts // threads)
                else:
                    one = yardstick(given.yardstick, threads, texts[threads])
                if number:
                    found.setdefault((threads, name), []).append(one)
    print("| Threads | Program | Puts a second, median | best | Events a second, median | Events a put | Ratio of times a put |")
    print("|---|---|---|---|---|---|---|")
    for threads in (1, 2, 4):
        for name in programs:
            times = [seconds for seconds, _ in found[threads, name]]
            rates = [events / seconds for seconds, events in found[threads, name]]
            events = statistics.median(events for _, events in found[threads, name])
            other = statistics.median(seconds for seconds, _ in found[threads, "yardstick"]) if given.yardstick else None
            print("| %d | %s | %.2f million | %.2f | %.2f million | %.1f | %s |" % (
                threads, name, given.puts / statistics.median(times) / 1e6, given.puts / min(times) / 1e6,
                statistics.median(rates) / 1e6, events / given.puts,
                "%.1f" % (statistics.median(times) / other) if other and name == "row" else ""))


main()
