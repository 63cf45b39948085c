#!/usr/bin/env python3
"""Shows how many processor minutes a run of the gate takes for each crate.

    bench/proof_minutes.py [COMMAND WORD ..]

Runs the command, by default `rt ci`, passes on what it says, and prints a table at its end: of each
crate the processor minutes of its proof, of its tests (their proofs and their build) and of its
must-fail edits. What a run kept from earlier ones takes no time: for whole figures give `rt ci
--anew`. The processor time of each prover is read from /proc every half second, so a little is missed
at its end. Which edits are being tried is what the run says. It needs Linux and Python 3.9.
"""

import os
import re
import subprocess
import sys
import threading
import time

TICKS = os.sysconf("SC_CLK_TCK")
KINDS = ("proof", "tests", "edits")


class Provers:
    """The processor time of the provers below a process, by crate and kind."""

    def __init__(self, root):
        self.root = root
        self.tried = set()  # crates whose edits are being tried
        self.seen = {}  # process and start time -> crate, kind, processor seconds

    def look(self):
        parents, provers = {}, []
        for name in os.listdir("/proc"):
            if not name.isdigit():
                continue
            try:
                with open(f"/proc/{name}/stat") as it:
                    fields = it.read().rpartition(")")[2].split()
                with open(f"/proc/{name}/cmdline", "rb") as it:
                    words = it.read().decode(errors="replace").split("\0")
            except OSError:
                continue
            parents[int(name)] = int(fields[1])
            if "--crate-name" in words:
                crate = words[words.index("--crate-name") + 1]
                seconds = (int(fields[11]) + int(fields[12])) / TICKS
                provers.append((int(name), fields[19], crate, "--test" in words, seconds))
        for pid, start, crate, tests, seconds in provers:
            if self.is_below(pid, parents):
                kind = self.seen.get((pid, start), (None, None))[1]
                if kind is None:
                    kind = "edits" if crate in self.tried else "tests" if tests else "proof"
                self.seen[pid, start] = (crate, kind, seconds)

    def is_below(self, pid, parents):
        while pid in parents and pid != self.root:
            pid = parents[pid]
        return pid == self.root

    def minutes(self):
        table = {}
        for crate, kind, seconds in self.seen.values():
            row = table.setdefault(crate, dict.fromkeys(KINDS, 0.0))
            row[kind] += seconds / 60
        return table


def print_table(table):
    print("| Crate | Proof | Tests | Edits | All |")
    print("|---|---|---|---|---|")
    rows = sorted(table.items())
    rows.append(("all", {kind: sum(row[kind] for _, row in rows) for kind in KINDS}))
    for crate, row in rows:
        cells = [*(row[kind] for kind in KINDS), sum(row.values())]
        print(f"| `{crate}` | " + " | ".join(f"{minutes:.1f}" for minutes in cells) + " |")


def main():
    command = sys.argv[1:] or ["rt", "ci"]
    began = time.monotonic()
    run = subprocess.Popen(command, stdout=subprocess.PIPE, stderr=subprocess.STDOUT, text=True)
    provers = Provers(run.pid)
    ended = threading.Event()

    def watch():
        while not ended.wait(0.5):
            provers.look()

    watcher = threading.Thread(target=watch)
    watcher.start()
    for line in run.stdout:
        sys.stdout.write(line)
        sys.stdout.flush()
        tried = re.match(r"rt: ([a-z0-9_]+): trying its must-fail edits", line)
        if tried:
            provers.tried.add(tried[1])
    status = run.wait()
    ended.set()
    watcher.join()
    print(f"\nProcessor minutes; the run took {(time.monotonic() - began) / 60:.1f} minutes.\n")
    print_table(provers.minutes())
    return status


if __name__ == "__main__":
    sys.exit(main())
