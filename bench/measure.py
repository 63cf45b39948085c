#!/usr/bin/env python3
"""Measures how fast a program answers feeds of growing size, and how its time grows.

    bench/measure.py [--sizes 250000,500000,1000000] [--repeat 3] [--frame 65535]
                     [--delivery 33554432] [PROGRAM WORD ..]

The program reads a feed from standard input; without one it is the built program of this
repository with `step --workers 1`. Each output is compared with the right one. The script fails
where an output is wrong, and never because of a time.
"""

import argparse
import math
import os
import struct
import subprocess
import sys
import tempfile
import time
from concurrent.futures import ProcessPoolExecutor

TABLES = 4
EXTENTS = 256
SLOTS = EXTENTS * 16 * 64
PUTS = 8
VECTORS = PUTS + 2  # of a transaction: a begin, its puts and a commit
MOST_PAYLOAD = 33554432


def frame(tag, payload):
    return tag + struct.pack(">I", len(payload)) + payload


def record(scn, vectors):
    body = b"".join(vectors)
    length = struct.pack(">H", 13 + len(body))
    return length + struct.pack(">QB", scn, len(vectors)) + body + length


def create(table):
    """Of 256 extents, in-memory, with a column of integers and one of texts."""
    return struct.pack(">BHHBBBB", 7, table, EXTENTS, 1, 2, 1, 2)


def put(txn, table, place, number):
    block, slot = divmod(place, 64)
    text = b"row %05d" % (number % 100000)
    change = struct.pack(">BQHHBB", 2, txn, table, block, slot, 2)
    return change + struct.pack(">BqBB", 1, number, 2, len(text)) + text


def transaction(txn, table, first):
    """Eight rows at the next slots of a table, and from its end on at the first ones again."""
    puts = [put(txn, table, (first + i) % SLOTS, first + i) for i in range(PUTS)]
    return [struct.pack(">BQ", 1, txn), *puts, struct.pack(">BQB", 5, txn, 1)]


def redo_frames(redo, size):
    """The frames of thread 1 with so many redo bytes each, the last with what is left."""
    count = len(redo) // size
    if size > 64:
        pieces = [redo[at : at + size] for at in range(0, len(redo), size)]
        return b"".join(frame(b"R", b"\1" + piece) for piece in pieces)
    # Many small frames at once: byte by byte of their layout.
    head = frame(b"R", b"\1" + bytes(size))[:6]
    whole = bytearray(count * (6 + size))
    for i, byte in enumerate(head):
        whole[i :: 6 + size] = bytes([byte]) * count
    for i in range(size):
        whole[6 + i :: 6 + size] = redo[i : count * size : size]
    rest = redo[count * size :]
    return bytes(whole) + (frame(b"R", b"\1" + rest) if rest else b"")


class Feed:
    """A feed that is being written, and the output that is right for it."""

    def __init__(self, file, frame_size, most):
        self.file, self.frame_size, self.most = file, frame_size, most
        self.redo, self.payload, self.deliveries = [], 0, 0
        self.scn, self.rows = 0, [0] * TABLES
        self.output = []
        file.write(b"IMADG01\n" + frame(b"H", b"\1\1"))

    def cost(self, redo):
        """The payload bytes of redo, at most: one byte of each frame names the thread."""
        return len(redo) + -(-len(redo) // self.frame_size) + 1

    def add(self, vectors):
        redo = record(self.scn + 1, vectors)
        if self.payload + self.cost(redo) > self.most:
            self.end()
        self.scn += 1
        self.redo.append(redo)
        self.payload += self.cost(redo)

    def end(self):
        """Ends the delivery with a question, behind a SYNC."""
        self.deliveries += 1
        asked = self.deliveries % TABLES
        question = b"\1SELECT COUNT FROM t%d" % (asked + 1)
        redo = redo_frames(b"".join(self.redo), self.frame_size)
        asks = frame(b"Q", b"\1SYNC") + frame(b"Q", question)
        self.file.write(redo + asks + frame(b"E", b""))
        rows = min(self.rows[asked], SLOTS)
        self.output.append(
            f"d{self.deliveries} s1 c1 scn={self.scn} synced\n"
            f"d{self.deliveries} s1 c2 scn={self.scn} rows=1 col=0 row={rows}\n= {rows}\n"
            f"d{self.deliveries} end scn={self.scn}\n"
        )
        self.redo, self.payload = [], 0

    def stop(self):
        self.end()
        self.file.write(frame(b"X", b""))
        return "".join(self.output).encode()


def make_feed(path, vectors, frame_size, most):
    """Writes a feed of about so many vectors; gives their exact number and the right output."""
    transactions = max(1, (vectors - TABLES) // VECTORS)
    with open(path, "wb") as file:
        feed = Feed(file, frame_size, most)
        feed.add([create(table + 1) for table in range(TABLES)])
        for number in range(transactions):
            table = number % TABLES
            feed.add(transaction(number + 1, table + 1, feed.rows[table]))
            feed.rows[table] += PUTS
        return TABLES + transactions * VECTORS, feed.stop()


def run(program, path):
    """Wall seconds, processor seconds, peak memory in MiB, the status and the output."""
    with open(path, "rb") as feed, tempfile.TemporaryFile() as out:
        begun = time.perf_counter()
        process = subprocess.Popen(program, stdin=feed, stdout=out)
        _, status, use = os.wait4(process.pid, 0)
        wall = time.perf_counter() - begun
        process.returncode = os.waitstatus_to_exitcode(status)
        out.seek(0)
        cpu = use.ru_utime + use.ru_stime
        return wall, cpu, use.ru_maxrss / 1024, process.returncode, out.read()


def measure(program, path, repeat, right):
    """The least times of the repeats, and the most memory."""
    runs = [run(program, path) for _ in range(repeat)]
    for _, _, _, status, output in runs:
        if status != 0 or output != right:
            sys.exit(f"wrong: status {status}, output {output[:200]!r}, right is {right[:200]!r}")
    return min(r[0] for r in runs), min(r[1] for r in runs), max(r[2] for r in runs)


def main():
    parser = argparse.ArgumentParser(description=__doc__.split("\n")[0])
    parser.add_argument("--sizes", default="250000,500000,1000000", help="vectors")
    parser.add_argument("--repeat", type=int, default=3)
    parser.add_argument("--frame", type=int, default=65535, help="redo bytes of a frame")
    parser.add_argument("--delivery", type=int, default=MOST_PAYLOAD, help="most payload bytes")
    parser.add_argument("program", nargs=argparse.REMAINDER)
    args = parser.parse_args()
    top = os.path.dirname(os.path.dirname(os.path.abspath(__file__)))
    built = os.path.join(top, "crates", "imadg", "out", "imadg")
    program = args.program or [built, "step", "--workers", "1"]
    most = min(args.delivery, MOST_PAYLOAD) - 1025  # room for the commands
    print(f"{'vectors':>10} {'feed MiB':>9} {'seconds':>8} {'cpu s':>8} {'vectors/s':>10} {'MiB':>7} growth")
    last = None
    with tempfile.TemporaryDirectory() as folder:
        for size in map(int, args.sizes.split(",")):
            path = os.path.join(folder, "feed")
            # In a process of its own, since a run's peak memory is at least that of its parent.
            with ProcessPoolExecutor(1) as maker:
                vectors, right = maker.submit(make_feed, path, size, args.frame, most).result()
            wall, cpu, peak = measure(program, path, args.repeat, right)
            growth = f"{math.log(cpu / last[1]) / math.log(vectors / last[0]):.2f}" if last else "-"
            mib = os.path.getsize(path) / 2**20
            print(f"{vectors:>10} {mib:>9.1f} {wall:>8.3f} {cpu:>8.3f} {vectors / wall:>10.0f} {peak:>7.0f} {growth}")
            last = vectors, max(cpu, 1e-6)


if __name__ == "__main__":
    main()
