#!/usr/bin/env python3
"""Writes logs that are hard for the scans of the memory rules into a folder:

    bench/adversarial.py FOLDER [EVENTS..]        1,024, 4,096 and 16,384 events if none are given

Each is valid, so that every rule is judged to its end.
  old          a thread reads again and again the first of another's many writes
  bytes        eight threads wrote one byte each of what is read, and a ninth writes all of it many times
  own          the reader itself wrote many times after the writers
  widths       writes of 1, 2, 4 and 8 bytes overlap
  plain_past   a reader's own many plain writes stand before it synchronizes with the writers
  atomic_past  another thread's many atomic writes do
  late         atomic reads of a first write, past many plain ones
  one_thread, sixteen  this many threads on one address
  atomic       two threads, all of whose accesses are atomic on one address
"""
import argparse
import os
import random
import sys

sys.path.insert(0, os.path.join(os.path.dirname(os.path.abspath(__file__)), "../scripts"))

from wmlabtools import log


def old(n):
    run = log.LogBuilder(2)
    first = run.write(0, "un", 0, 8, 1)
    for value in range(n // 2 - 1):
        run.write(0, "un", 0, 8, value)
    for _ in range(n // 2):
        run.read(1, "un", 0, 8, [first] * 8)
    return run


def bytes_of_eight(n):
    run = log.LogBuilder(10)
    firsts = [run.write(byte, "sc", byte, 1, byte) for byte in range(8)]
    for value in range(n // 2 - 8):
        run.write(8, "un", 0, 8, value)
    for _ in range(n - n // 2):
        run.read(9, "un", 0, 8, firsts)
    return run


def own(n):
    run = log.LogBuilder(9)
    others = [run.write(byte, "un", byte, 1, byte) for byte in range(8)]
    for value in range(n // 2 - 8):
        run.write(8, "un", 0, 8, value)
    for _ in range(n - n // 2):
        run.read(8, "un", 0, 8, others)
    return run


def widths(n):
    run, r = log.LogBuilder(16), random.Random(2)
    firsts = [run.write(byte, "un", byte, 1, byte) for byte in range(8)]
    for index in range(n // 2 - 8):
        width = r.choice([1, 2, 4, 8])
        run.write(8 + index % 7, "un", r.randrange(8 // width) * width, width, index % 256)
    for _ in range(n - n // 2):
        run.read(15, "un", 0, 8, firsts)
    return run


def plain_past(n):
    run = log.LogBuilder(9)
    firsts = [run.write(byte, "sc", byte, 1, byte) for byte in range(8)]
    for value in range(n // 2 - 16):
        run.write(8, "un", 0, 8, value)
    for byte in range(8):
        run.read(8, "sc", byte, 1, [firsts[byte]])
    for _ in range(n - n // 2):
        run.read(8, "un", 0, 8, firsts)
    return run


def late(n):
    run = log.LogBuilder(3)
    first = run.write(0, "sc", 0, 8, 7)
    for value in range(n // 2 - 1):
        run.write(1, "un", 0, 8, value)
    for _ in range(n - n // 2):
        run.read(2, "sc", 0, 8, [first] * 8)
    return run


def atomic_past(n):
    run = log.LogBuilder(10)
    firsts = [run.write(byte, "sc", byte, 1, byte) for byte in range(8)]
    for value in range(n // 2 - 16):
        run.write(8, "sc", 0, 8, value)
    for byte in range(8):
        run.read(9, "sc", byte, 1, [firsts[byte]])
    for _ in range(n - n // 2):
        run.read(9, "sc", 0, 8, firsts)
    return run


def mixed(n, threads, order):
    run, r = log.LogBuilder(threads), random.Random(3)
    memory: list[log.Key] = [[]] * 8
    for index in range(n):
        thread = r.randrange(threads)
        if r.random() < 0.5:
            memory = [run.write(thread, order, 0, 8, index)] * 8
        else:
            run.read(thread, order, 0, 8, memory)
    return run


LOGS = {
    "old": old,
    "bytes": bytes_of_eight,
    "own": own,
    "widths": widths,
    "plain_past": plain_past,
    "late": late,
    "atomic_past": atomic_past,
    "one_thread": lambda n: mixed(n, 1, "un"),
    "sixteen": lambda n: mixed(n, 16, "un"),
    "atomic": lambda n: mixed(n, 2, "sc"),
}


def main():
    parser = argparse.ArgumentParser(description=__doc__, formatter_class=argparse.RawDescriptionHelpFormatter)
    parser.add_argument("folder", metavar="FOLDER")
    parser.add_argument("events", type=int, nargs="*", default=[1_024, 4_096, 16_384], metavar="EVENTS")
    options = parser.parse_args()
    os.makedirs(options.folder, exist_ok=True)
    for events in options.events:
        for name, make in LOGS.items():
            make(events).save(options.folder, f"{name}_{events}")


if __name__ == "__main__":
    main()
