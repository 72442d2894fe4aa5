#!/usr/bin/env python3
"""Runs `flow run` on random documents, and has a reference program judge what was printed.

    judged_runs.py REFERENCE [--flow PATH] [--count 2000] [--from SEED] [--workers 1,2,4,16,64] [--items N]
                   [--size S] [--upto STAGE] [--seconds 60] [--keep FOLDER]

REFERENCE is the folder of a reference program in Python (`random_doc.py`, `document.py`, `judge.py`, `judge_run.py`,
`stages.py`). Each document is run with each number of workers. A run is judged whole: its journal is legal, each caller's
events are the first of its script, bodies answered what they mean, the report is that of the journal, and with status 0
nothing is open and a determinate document shows its meaning. A fault is printed with its document; so is a run that gives
no answer in so many seconds, which is ended. The exit status is 0 where there was none. The last lines say what was run.
"""
import argparse
import collections
import os
import random
import subprocess
import sys
import time

HERE = os.path.dirname(os.path.abspath(__file__))
FLOW = os.path.join(HERE, "..", "crates", "flow", "out", "flow")


def arguments():
    p = argparse.ArgumentParser(description=__doc__, formatter_class=argparse.RawDescriptionHelpFormatter)
    p.add_argument("reference")
    p.add_argument("--flow", default=FLOW)
    p.add_argument("--count", type=int, default=2000)
    p.add_argument("--from", dest="start", type=int, default=0)
    p.add_argument("--workers", default="1,2,4,16,64")
    p.add_argument("--items", type=int, default=300)
    p.add_argument("--size", type=int, default=6)
    p.add_argument("--upto", default="callers and workers", help="a stage of the reference's stages.py")
    p.add_argument("--seconds", type=float, default=60)
    p.add_argument("--keep", default="/tmp", help="where documents with a fault are kept")
    return p.parse_args()


class Judge:
    """The reference program as of a stage."""

    def __init__(self, folder, stage):
        sys.path.insert(0, folder)
        import document
        import judge
        import judge_run
        import random_doc
        import stages
        self.stages, self.stage, self.last = stages, stages.place_of(stage), len(stages.NAMES) - 1
        self.kinds, self.version = stages.kinds_until(self.stage), stages.version_until(self.stage)
        self.make, self.read_doc, self.judge, self.fault = random_doc.make, document.read_doc, judge_run.judge, judge.Fault
        self.refusals = (document.Syntax, document.Place, document.ShapeFault)

    def document(self, seed, size):
        """A document's bytes, or None where the stage refuses them."""
        self.stages.use(self.last)
        data = self.make(seed, size, self.kinds, self.version, ("any", "determinate")[seed % 2], False)
        self.stages.use(self.stage)
        try:
            self.read_doc(data)
        except self.refusals:
            return None
        return data

    def wrong_in(self, data, status, report, workers, items):
        """What is wrong in a run's answer, and what it was."""
        if status not in (0, 8):
            return "status %d: %r" % (status, report[:200]), None
        try:
            return None, self.judge(self.read_doc(data), report, workers, items, None, False)
        except self.fault as fault:
            return str(fault), None


def main():
    a = arguments()
    judge = Judge(a.reference, a.upto)
    workers = [int(w) for w in a.workers.split(",")]
    said, refused, faults, longest = collections.Counter(), 0, 0, (0, None)
    begin = time.monotonic()
    for seed in range(a.start, a.start + a.count):
        data = judge.document(seed, a.size)
        if data is None:
            refused += 1
            continue
        for w in workers:
            items = random.Random(seed * 100 + w).choice([a.items, a.items, a.items, 20, 3])
            words = [a.flow, "run", "--journal", "--workers", str(w), "--items", str(items)]
            start = time.monotonic()
            try:
                done = subprocess.run(words, input=data, stdout=subprocess.PIPE, stderr=subprocess.DEVNULL, timeout=a.seconds)
                wrong, was = judge.wrong_in(data, done.returncode, done.stdout, w, items)
            except subprocess.TimeoutExpired:
                wrong, was = "no answer in %g seconds" % a.seconds, None
            longest = max(longest, (time.monotonic() - start, "seed %d, %d workers" % (seed, w)))
            if wrong is None:
                said["status 8" if "status 8" in was else "status 0"] += 1
                said["determinate"] += "determinate" in was
                continue
            faults += 1
            path = os.path.join(a.keep, "judged_run_%d" % seed)
            with open(path, "wb") as file:
                file.write(data)
            print("seed %d: `%s` < %s: %s" % (seed, " ".join(words[1:]), path, wrong), flush=True)
    print("documents: seeds %d to %d, %d of them refused as documents; workers: %s; %g seconds in all" % (
        a.start, a.start + a.count - 1, refused, a.workers, time.monotonic() - begin))
    print("runs judged right: %d (%s); the longest took %.2f seconds (%s)" % (
        said["status 0"] + said["status 8"], ", ".join("%s: %d" % (k, n) for k, n in sorted(said.items())), *longest))
    print("%d faults" % faults)
    return 1 if faults else 0


if __name__ == "__main__":
    sys.exit(main())
