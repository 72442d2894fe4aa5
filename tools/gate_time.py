#!/usr/bin/env python3
"""Measures what the gate costs: runs 'rt ci --anew' in a fresh clone and prints a table of processor minutes by crate.

It clones this repository (what is committed), runs rt there, and looks twice a second at the processes that rt has
started: the words and the folder of each say which crate it is for, and whether it proves the crate, proves and builds its
tests, makes the proof that its must-fail edits begin with (the seed), tries an edit, makes the last check over the seed,
or runs a program or tests. Processor time is what the system counts for a process, with all that it started, when it is
last seen, so up to the last half second of each is lost. The sum of all is exact, since the system tells it at the end;
what no crate has of it is a line of its own. Memory is what the whole machine uses above what it used at the start, so
nothing else should run meanwhile; beside it stands the sum of the resident sizes, in which pages that processes share
count for each.

  tools/gate_time.py                       the whole gate, from nothing
  tools/gate_time.py --names NAME..        these crates and those below them (no gate)
  tools/gate_time.py --kept                without --anew: what earlier runs on this machine passed stays passed
  tools/gate_time.py --beside PID          starts nothing: looks at the 'rt ci' that this process starts (.ci/run does so)

The table is Markdown. The log of rt stays in a file, whose name and last line are printed. The clone is removed. The exit
status is that of rt, or 0 with --beside, where the sum is what was last seen of rt and all that it started."""
import argparse
import collections
import os
import re
import signal
import subprocess
import sys
import tempfile
import time

TOP = os.path.dirname(os.path.dirname(os.path.abspath(__file__)))
STEPS = {"proof": "Proof", "tests": "Tests", "seed": "Seed", "edits": "Edits", "last": "Last check", "runs": "Runs"}
TICKS = os.sysconf("SC_CLK_TCK")
PAGE = os.sysconf("SC_PAGE_SIZE")


def text_of(path):
    try:
        with open(path, "rb") as file:
            return file.read().decode(errors="replace")
    except OSError:
        # (the process has ended)
        return ""


def words_of(pid):
    return text_of(f"/proc/{pid}/cmdline").split("\0")


def folder_of(pid):
    try:
        return os.readlink(f"/proc/{pid}/cwd")
    except OSError:
        return ""


def memory_in_use():
    """The bytes of memory that the machine can't give to another process now."""
    found = dict(re.findall(r"^(\w+):\s+(\d+) kB", text_of("/proc/meminfo"), re.M))
    return 1024 * (int(found["MemTotal"]) - int(found["MemAvailable"]))


def after(words, flag):
    """The word after a flag."""
    return words[words.index(flag) + 1] if flag in words[:-1] else ""


class Sample:
    """The processes below one at a moment: those that it started itself, each with the time and memory of all that is below."""

    def __init__(self, top):
        self.parent, self.ticks, self.pages, self.started = {}, {}, {}, {}
        for name in os.listdir("/proc"):
            if name.isdigit():
                self.read(int(name))
        self.groups = collections.defaultdict(list)
        for pid in self.parent:
            leader = self.leader(pid, top)
            if leader:
                self.groups[leader].append(pid)

    def read(self, pid):
        # (the second field is a name in brackets, in which anything can stand)
        fields = text_of(f"/proc/{pid}/stat").rpartition(")")[2].split()
        if len(fields) > 21:
            self.parent[pid] = int(fields[1])
            # its own time, and that of the processes that it started and that have ended
            self.ticks[pid] = sum(map(int, fields[11:15]))
            self.started[pid] = int(fields[19])
            self.pages[pid] = int(fields[21])

    def leader(self, pid, top):
        """The process that the top one started itself, at or above this one."""
        for _ in range(100):
            above = self.parent.get(pid)
            if above == top:
                return pid
            if not above:
                return None
            pid = above
        return None

    def seconds(self, leader):
        return sum(self.ticks[it] for it in self.groups[leader]) / TICKS

    def whole(self, top):
        """The time of this process and of all that it started."""
        return (self.ticks.get(top, 0) + sum(self.ticks[it] for pids in self.groups.values() for it in pids)) / TICKS

    def child(self, top, *ends):
        """The process that this one started and whose words end so, if there is one."""
        return next((it for it, above in self.parent.items() if above == top and tuple(words_of(it)[:-1][-len(ends) :]) == ends), None)

    def resident(self):
        return PAGE * sum(self.pages[it] for pids in self.groups.values() for it in pids)


class Work:
    """What one process that rt started is for, and what it took."""

    def __init__(self, now):
        self.crate, self.step, self.words, self.seconds, self.begun, self.seen = None, None, None, 0.0, now, now


class Meter:
    """What rt's processes took, by crate and step."""

    def __init__(self):
        self.works, self.tried = {}, set()
        self.at_start, self.memory, self.resident, self.whole = memory_in_use(), 0, 0, 0.0

    def look(self, top, now):
        sample = Sample(top)
        for leader in sample.groups:
            work = self.works.setdefault((leader, sample.started[leader]), Work(now))
            self.name(work, leader)
            work.seconds, work.seen = max(work.seconds, sample.seconds(leader)), now
        self.memory = max(self.memory, memory_in_use() - self.at_start)
        self.resident, self.whole = max(self.resident, sample.resident()), max(self.whole, sample.whole(top))

    def name(self, work, pid):
        """Finds out what a process is for. A process can become another program, so its words are read each time."""
        words = words_of(pid)
        if words == work.words or len(words) < 2:
            return
        work.words = words
        ran = re.search(r"/rt-run-[^/]*/bin/(\w+?)(_tests)?(\0|$)", "\0".join(words))
        inside = re.search(r"/crates/(\w+)$", folder_of(pid))
        name = after(words, "--crate-name")
        if ran:
            work.crate, work.step = ran[1], "runs"
        elif name and "/rt-edit-" in folder_of(pid):
            work.crate, work.step = name, self.edit_step(name, after(words, "--incremental"), work)
        elif name or inside:
            work.crate, work.step = name or inside[1], "tests" if "--test" in words else "proof"

    def edit_step(self, crate, over, work):
        """Which check of an edited crate it is, by the kept work that it begins with."""
        if over.endswith("/seed"):
            return work.step or ("last" if crate in self.tried else "seed")
        self.tried.add(crate)
        return "edits"

    def table(self):
        """The seconds by crate and step, and those that no crate has."""
        found, rest = collections.defaultdict(collections.Counter), 0.0
        for work in self.works.values():
            if work.crate:
                found[work.crate][work.step] += work.seconds
            else:
                rest += work.seconds
        return found, rest

    def span(self, crate):
        """When the crate's proof began and ended."""
        of = [it for it in self.works.values() if (it.crate, it.step) == (crate, "proof")]
        return (min(it.begun for it in of), max(it.seen for it in of)) if of else None


def minutes(seconds):
    return f"{seconds / 60:.2f}" if seconds else ""


def row(cells):
    return f"| {' | '.join(cells)} |"


def print_table(meter, whole, wall):
    found, _ = meter.table()
    print(row(["Processor minutes", *STEPS.values(), "Sum", "Proof from", "to"]))
    print(row(["---"] * (len(STEPS) + 4)))
    for crate in sorted(found, key=lambda it: -sum(found[it].values())):
        span = meter.span(crate)
        times = [f"{it / 60:.1f}" for it in span] if span else ["", ""]
        print(row([f"`{crate}`", *[minutes(found[crate][it]) for it in STEPS], minutes(sum(found[crate].values())), *times]))
    seen = sum(sum(it.values()) for it in found.values())
    print(row(["rt itself, and what was not seen", *[""] * len(STEPS), minutes(max(whole - seen, 0)), "", ""]))
    print(row(["all", *[minutes(sum(it[step] for it in found.values())) for step in STEPS], minutes(whole), "0.0", f"{wall / 60:.1f}"]))


def print_sums(meter, whole, wall):
    gigabytes = [f"{it / 1e9:.1f}" for it in (meter.memory, meter.resident)]
    print(f"\nWall time {wall / 60:.1f} minutes, processor time {whole / 60:.1f} minutes, on {len(os.sched_getaffinity(0))} processors. Memory at most")
    print(f"{gigabytes[0]} GB above what was in use at the start; the resident sizes of rt's processes came to {gigabytes[1]} GB.\n")


def measure(words, clone, log, every):
    """Runs rt, and returns what was seen, its status, its processor seconds and its seconds."""
    meter, began = Meter(), time.monotonic()
    rt = subprocess.Popen(words, cwd=clone, stdin=subprocess.DEVNULL, stdout=log, stderr=subprocess.STDOUT)
    try:
        while True:
            ended, status, used = os.wait4(rt.pid, os.WNOHANG)
            if ended:
                rt.returncode = os.waitstatus_to_exitcode(status)
                return meter, rt.returncode, used.ru_utime + used.ru_stime, time.monotonic() - began
            meter.look(rt.pid, time.monotonic() - began)
            time.sleep(every)
    except BaseException:
        # (rt ends what it started)
        rt.kill()
        raise


def beside(shell, every):
    """Looks at the 'rt ci' that a process starts, until it ends, and returns what was seen and its seconds."""
    meter, began, rt = Meter(), time.monotonic(), None
    while rt is None and time.monotonic() - began < 60:
        rt = Sample(shell).child(shell, "ci")
        time.sleep(0 if rt else 0.1)
    began, words = time.monotonic(), words_of(rt)
    while rt and words_of(rt) == words:
        meter.look(rt, time.monotonic() - began)
        time.sleep(every)
    return meter, time.monotonic() - began


def arguments():
    head, _, rest = __doc__.partition("\n\n")
    words = argparse.ArgumentParser(description=head, epilog=rest, formatter_class=argparse.RawDescriptionHelpFormatter)
    words.add_argument("--at", metavar="FOLDER", default=tempfile.gettempdir(), help="where the clone is made, which takes some gigabytes (a temporary folder)")
    words.add_argument("--log", metavar="FILE", help="where the log of rt is kept (gate-time-DATE.log in that folder)")
    words.add_argument("--names", metavar="NAME", nargs="+", default=[], help="only these crates and those below them")
    words.add_argument("--kept", action="store_true", help="without --anew")
    words.add_argument("--beside", metavar="PID", type=int, help="looks at the 'rt ci' that this process starts, and starts nothing")
    words.add_argument("--every", metavar="SECONDS", type=float, default=0.5, help="how often to look (0.5)")
    return words.parse_args()


def main():
    asked = arguments()
    log = os.path.abspath(asked.log or f"{asked.at}/gate-time-{time.strftime('%Y%m%d-%H%M%S')}.log")
    for it in (signal.SIGTERM, signal.SIGHUP):
        signal.signal(it, lambda number, _: sys.exit(128 + number))
    if asked.beside:
        meter, wall = beside(asked.beside, asked.every)
        print_table(meter, meter.whole, wall)
        print_sums(meter, meter.whole, wall)
        return 0
    words = ["rt", "ci", *([] if asked.kept else ["--anew"]), *asked.names]
    with tempfile.TemporaryDirectory(prefix="gate-time-", dir=asked.at) as room, open(log, "wb") as out:
        subprocess.run(["git", "clone", "-q", TOP, f"{room}/clone"], check=True)
        commit = subprocess.run(["git", "-C", f"{room}/clone", "log", "-1", "--format=%h, %cs"], capture_output=True, text=True, check=True).stdout.strip()
        print(f"`{' '.join(words)}` at {commit}; the log is {log}\n", flush=True)
        meter, status, whole, wall = measure(words, f"{room}/clone", out, asked.every)
    print_table(meter, whole, wall)
    print_sums(meter, whole, wall)
    print((text_of(log).strip().splitlines() or ["rt printed nothing"])[-1])
    return status


if __name__ == "__main__":
    sys.exit(main())
