#!/usr/bin/env python3
"""Measures `flow check` on the graph whose least node on a cycle is found last, beside one of the same size without a cycle.

Both have 512 queues and 4,096 edges: a way along all nodes, and nearly all edges from the last but one to the last. In the
first an edge leads back. The answers are checked, and a wrong one ends the measure.
"""
import argparse
import os
import statistics
import sys
import tempfile

from measure import FLOW, last_line, timed

NODES, EDGES = 512, 4096
CASES = [("a cycle of the last two nodes", True, "loose N2 node 510"), ("no cycle", False, "loose N3 node 510")]


def write_document(path, has_cycle):
    edges = [(n, n + 1) for n in range(NODES - 1)] + [(NODES - 1, NODES - 2)] * has_cycle
    edges += [(NODES - 2, NODES - 1)] * (EDGES - len(edges))
    with open(path, "w", encoding="ascii") as out:
        out.write('{"version":1,"nodes":[%s],"edges":[%s],"callers":[],"sinks":[]}\n' % (
            ",".join('{"name":"n%d","kind":"queue"}' % n for n in range(NODES)),
            ",".join('{"from":"n%d","to":"n%d"}' % edge for edge in edges)))


def main():
    parser = argparse.ArgumentParser(description=__doc__)
    parser.add_argument("--flow", default=FLOW)
    parser.add_argument("--rounds", type=int, default=21)
    args = parser.parse_args()
    walls = {name: [] for name, _, _ in CASES}
    with tempfile.TemporaryDirectory() as folder:
        out_path = os.path.join(folder, "out")
        for turn in range(args.rounds + 1):
            for name, has_cycle, wanted in CASES:
                path = os.path.join(folder, "cycle" if has_cycle else "none")
                if turn == 0:
                    write_document(path, has_cycle)
                status, wall, _, _ = timed([args.flow, "check"], path, out_path)
                if status != 0 or last_line(out_path) != wanted:
                    sys.exit("%s ended with %d and %r" % (name, status, last_line(out_path)))
                if turn > 0:
                    walls[name].append(wall)
    print("| 512 queues, 4,096 edges | Wall, median | Wall, best |")
    print("|---|---|---|")
    for name, seconds in walls.items():
        print("| %s | %.1f ms | %.1f ms |" % (name, statistics.median(seconds) * 1e3, min(seconds) * 1e3))


if __name__ == "__main__":
    main()
