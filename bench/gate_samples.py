#!/usr/bin/env python3
"""Watches the checks of a run of the gate, and prints a table of what each crate cost: gate_samples.py PID

PID is the process of `rt ci`. Twice a second it looks at each process below it, and keeps the processor time that it took so far and
the most memory that it had. A process that lives for less than half a second may be missed, so the sums are a little low.
"""
import os
import sys
import time

TICKS = os.sysconf("SC_CLK_TCK")
KINDS = ("proof", "tests", "edits", "other")


def read(path):
    """The bytes of a file of /proc, none where the process has gone."""
    try:
        with open(path, "rb") as file:
            return file.read()
    except OSError:
        return b""


def stat_of(pid):
    """A process's parent, when it began, and its ticks."""
    fields = read(f"/proc/{pid}/stat").rpartition(b")")[2].split()
    if len(fields) < 20:
        return None
    return int(fields[1]), int(fields[19]), int(fields[11]) + int(fields[12])


def peak_of(pid):
    """The most memory that a process had, in KiB."""
    for line in read(f"/proc/{pid}/status").splitlines():
        if line.startswith(b"VmHWM:"):
            return int(line.split()[1])
    return 0


def work_of(pid):
    """Which crate a process works on, and for what."""
    words = read(f"/proc/{pid}/cmdline").split(b"\0")
    if b"--crate-name" not in words:
        return None
    crate = words[words.index(b"--crate-name") + 1].decode()
    try:
        folder = os.readlink(f"/proc/{pid}/cwd")
    except OSError:
        folder = ""
    if "/rt-edit" in folder:
        return crate, "edits"
    if b"--test" in words or b"test" in words[1:2]:
        return crate, "tests"
    return crate, "proof"


class Watch:
    def __init__(self, gate):
        self.gate = gate
        self.ticks = {}
        self.work = {}
        self.peak = {}

    def look(self):
        """Looks at each process below the gate once."""
        found = {}
        for name in os.listdir("/proc"):
            if name.isdigit():
                stat = stat_of(name)
                if stat is not None:
                    found[int(name)] = stat
        below = {self.gate}
        grown = True
        while grown:
            more = {pid for pid, (parent, _, _) in found.items() if parent in below and pid not in below}
            below |= more
            grown = bool(more)
        for pid in below & found.keys():
            self.keep(pid, found[pid])

    def keep(self, pid, stat):
        _, begun, ticks = stat
        process = (pid, begun)
        self.ticks[process] = ticks
        work = work_of(pid)
        if work is not None or process not in self.work:
            self.work[process] = work or ("", "other")
        work = self.work[process]
        self.peak[work] = max(self.peak.get(work, 0), peak_of(pid))

    def costs(self):
        """Processor seconds by crate and kind."""
        costs = {}
        for process, ticks in self.ticks.items():
            crate, kind = self.work[process]
            of = costs.setdefault(crate, dict.fromkeys(KINDS, 0.0))
            of[kind] += ticks / TICKS
        return costs


def is_running(pid):
    return read(f"/proc/{pid}/stat").rpartition(b")")[2].split()[:1] not in ([], [b"Z"])


def main():
    watch = Watch(int(sys.argv[1]))
    begun = time.time()
    while is_running(watch.gate):
        watch.look()
        time.sleep(0.5)
    minutes = (time.time() - begun) / 60
    costs = watch.costs()
    rest = costs.pop("", dict.fromkeys(KINDS, 0.0))["other"]
    print("| Crate | Proof, s | Tests, s | Edits, s | Most memory, MB |")
    print("|---|---|---|---|---|")
    sums = dict.fromkeys(KINDS, 0.0)
    for crate, of in sorted(costs.items(), key=lambda it: -sum(it[1].values())):
        peak = max(watch.peak.get((crate, kind), 0) for kind in KINDS) // 1024
        cells = [f"{of[kind]:.0f}" if of[kind] >= 0.5 else "" for kind in KINDS[:3]]
        print(f"| {crate} | {cells[0]} | {cells[1]} | {cells[2]} | {peak} |")
        for kind in KINDS:
            sums[kind] += of[kind]
    print(f"| all | {sums['proof']:.0f} | {sums['tests']:.0f} | {sums['edits']:.0f} | {max(watch.peak.values(), default=0) // 1024} |")
    print()
    total = sum(sums.values()) + rest
    print(f"In all {total:.0f} processor seconds in {minutes:.0f} minutes on {os.cpu_count()} processors, {rest:.0f} of them linking, running and rt itself.")


main()
