#!/usr/bin/env python3
"""Measures `flow plain` on rows of queues and functions, beside a yardstick that takes the same words.

Both programs are run in turn, round by round, so that the load of the machine falls on both alike. Every output is
checked, and a wrong one ends the measure.
"""
import argparse
import filecmp
import os
import statistics
import subprocess
import sys
import tempfile
import time

HERE = os.path.dirname(os.path.abspath(__file__))
FLOW = os.path.join(HERE, "..", "crates", "flow", "out", "flow")

# name, puts, queues in a row, functions in a row behind them, further words
CASES = [
    ("60,000 puts, 3 queues", 60_000, 3, 0, []),
    ("600,000 puts, 3 queues", 600_000, 3, 0, ["--items", "2000000"]),
    ("500 puts, 500 queues", 500, 500, 0, []),
    ("100,000 puts, a queue and 3 functions", 100_000, 1, 3, []),
]

# the bodies of functions in a row, each in turn
BODIES = [("add", 1), ("mul", 3), ("neg", 0)]


def nodes_of(queues, functions):
    for n in range(queues):
        yield '{"name":"n%d","kind":"queue"}' % n
    for k in range(functions):
        yield '{"name":"n%d","kind":"function","policy":"queueing","body":"%s","arg":%d}' % (
            (queues + k,) + BODIES[k % len(BODIES)])


def write_document(path, puts, queues, functions):
    """One caller puts 0, 1, 2 .. with rising tags into the first queue; the last queue of a row without functions is the sink."""
    nodes = queues + functions
    with open(path, "w", encoding="ascii") as out:
        out.write('{"version":1,"nodes":[')
        out.write(",".join(nodes_of(queues, functions)))
        out.write('],"edges":[')
        out.write(",".join('{"from":"n%d","to":"n%d"}' % (n, n + 1) for n in range(nodes - 1)))
        out.write('],"callers":[[')
        for k in range(puts):
            out.write('%s{"put":"n0","tag":%d,"val":%d}' % ("," if k else "", k, k))
        out.write(']],"sinks":[%s]}\n' % ("" if functions else '"n%d"' % (nodes - 1)))


class Case:
    """A document with what is known of its run."""

    def __init__(self, folder, name, puts, queues, functions, words):
        self.name, self.words = name, words
        self.path = os.path.join(folder, "%d_%d_%d.json" % (puts, queues, functions))
        write_document(self.path, puts, queues, functions)
        # an item comes to each node once, and a message is one more; a function has a start, an end and the end of the
        # message's offer for each; at last each node rests and the caller leaves
        self.events = puts * queues + 4 * puts * functions + queues + functions + 1
        items = puts * (queues + 2 * functions)
        self.last_line = "events %d items %d refused 0 status 0" % (self.events, items)


def timed(command, source_path, out_path):
    """Runs a command from a file to a file: its exit code, wall seconds, CPU seconds and peak megabytes."""
    with open(source_path, "rb") as source, open(out_path, "wb") as out:
        begin = time.perf_counter()
        child = subprocess.Popen(command, stdin=source, stdout=out)
        _, status, usage = os.wait4(child.pid, 0)
        wall = time.perf_counter() - begin
        child.returncode = os.waitstatus_to_exitcode(status)
    return child.returncode, wall, usage.ru_utime + usage.ru_stime, usage.ru_maxrss / 1024


class Program:
    """A program with its measures, by case."""

    def __init__(self, name, path):
        self.name, self.path = name, path
        self.wall, self.cpu, self.peak = {}, {}, {}

    def run(self, case, out_path, counted):
        """Runs the case once, checks the last line, and keeps the measures where the round is counted."""
        status, wall, cpu, peak = timed([self.path, "plain"] + case.words, case.path, out_path)
        if status != 0:
            sys.exit("%s ended with %d on %s" % (self.path, status, case.name))
        line = last_line(out_path)
        if line != case.last_line:
            sys.exit("%s on %s: the last line is %r and not %r" % (self.path, case.name, line, case.last_line))
        if counted:
            self.wall.setdefault(case.name, []).append(wall)
            self.cpu.setdefault(case.name, []).append(cpu)
            self.peak.setdefault(case.name, []).append(peak)

    def median(self, measures, case):
        return statistics.median(measures[case.name])

    def nanoseconds(self, measures, case):
        return self.median(measures, case) / case.events * 1e9


def last_line(path):
    with open(path, "rb") as text:
        text.seek(0, os.SEEK_END)
        text.seek(max(0, text.tell() - 300))
        return text.read().decode(errors="replace").rstrip("\n").rsplit("\n", 1)[-1]


def measure(programs, cases, rounds, folder, last_lines_alone):
    """One round that isn't counted, then so many that are."""
    outs = [os.path.join(folder, "out_%d" % k) for k in range(len(programs))]
    for turn in range(rounds + 1):
        for case in cases:
            for program, out in zip(programs, outs):
                program.run(case, out, counted=turn > 0)
            if len(programs) > 1 and not last_lines_alone and not filecmp.cmp(outs[0], outs[1], shallow=False):
                sys.exit("%s and %s print different reports for %s" % (programs[0].path, programs[1].path, case.name))


def print_table(programs, cases):
    print("| Document | Events | Program | Wall, median | Wall, best | CPU, median | Peak memory | Per event |")
    print("|---|---|---|---|---|---|---|---|")
    for case in cases:
        for p in programs:
            print("| %s | %s | %s | %.3f s | %.3f s | %.3f s | %.0f MB | %.0f ns |" % (
                case.name, format(case.events, ","), p.name, p.median(p.wall, case), min(p.wall[case.name]),
                p.median(p.cpu, case), p.median(p.peak, case), p.nanoseconds(p.wall, case)))


def print_ratios(programs, cases):
    flow, yardstick = programs
    print()
    print("| Document | Wall | Wall, best | CPU | Peak memory |")
    print("|---|---|---|---|---|")
    for case in cases:
        print("| %s, %s to %s | %.2f | %.2f | %.2f | %.2f |" % (
            case.name, flow.name, yardstick.name,
            flow.median(flow.wall, case) / yardstick.median(yardstick.wall, case),
            min(flow.wall[case.name]) / min(yardstick.wall[case.name]),
            flow.median(flow.cpu, case) / yardstick.median(yardstick.cpu, case),
            flow.median(flow.peak, case) / yardstick.median(yardstick.peak, case)))


def print_growth(programs, cases):
    small, large, long_row = cases[:3]
    print()
    print("| Time per event | " + " | ".join(p.name for p in programs) + " |")
    print("|---|" + "---|" * len(programs))
    for name, over in (("600,000 puts to 60,000", large), ("500 queues to 3", long_row)):
        for word, of in (("wall", lambda p: p.wall), ("CPU", lambda p: p.cpu)):
            ratios = ["%.2f" % (p.nanoseconds(of(p), over) / p.nanoseconds(of(p), small)) for p in programs]
            print("| %s, %s | %s |" % (name, word, " | ".join(ratios)))


def main():
    parser = argparse.ArgumentParser(description=__doc__.splitlines()[0])
    parser.add_argument("--flow", default=FLOW, help="the program (default: crates/flow/out/flow)")
    parser.add_argument("--yardstick", help="a program to compare with, which takes the same words")
    parser.add_argument("--rounds", type=int, default=7, help="counted rounds (default: 7)")
    parser.add_argument("--last-line-alone", action="store_true",
                        help="don't compare the reports, only check the last line of each")
    options = parser.parse_args()
    programs = [Program("flow", options.flow)]
    if options.yardstick:
        programs.append(Program("yardstick", options.yardstick))
    for p in programs:
        if not os.access(p.path, os.X_OK):
            sys.exit("no program at %s" % p.path)
    load = os.getloadavg()[0]
    with tempfile.TemporaryDirectory() as folder:
        cases = [Case(folder, *c) for c in CASES]
        measure(programs, cases, max(1, options.rounds), folder, options.last_line_alone)
    print("%d rounds, %d processors, load %.1f before and %.1f after" % (
        max(1, options.rounds), os.cpu_count(), load, os.getloadavg()[0]))
    print()
    print_table(programs, cases)
    if options.yardstick:
        print_ratios(programs, cases)
    print_growth(programs, cases)


if __name__ == "__main__":
    main()
