#!/usr/bin/env python3
"""Times the opening of two journals, of 10,000 records of 1 KiB and of a pair of disks of 64 MiB each, and
prints the seconds, the peak of memory, and that peak without the records' own bytes, as a ratio to the
bytes of the disk that counts.

usage: journal.py PROGRAM    (make bench gives crates/host_journal_bench/out/host_journal_bench)
"""
import os
import pathlib
import subprocess
import sys
import tempfile
import time

ROUNDS = 3
MAGIC = b"PSCHJRN1"
SIZE = 1024


def write_disk(path: pathlib.Path, generation: int, records: int) -> None:
    """A disk that stands, with that many records of 1 KiB. It is written piece by piece: the peak of a
    child counts what this process holds as it starts it."""
    with open(path, "wb") as file:
        file.write(MAGIC + b"\1" + generation.to_bytes(8, "big") + bytes(4))
        for _ in range(records):
            file.write(b"\1" + SIZE.to_bytes(4, "big") + bytes(SIZE))
        file.write(b"\0")


# What it is, the records of the first disk, and those of the second, which counts.
LARGE = (64 << 20) // (SIZE + 5)
PAIRS = [("10,000 records of 1 KiB", 0, 10_000), ("a pair of 64 MiB", LARGE, LARGE)]


def opened(program: str, folder: str) -> tuple[float, int, str]:
    """The least seconds of some runs, the peak of memory in bytes, and what was printed."""
    best, peak, printed = float("inf"), 0, ""
    for _ in range(ROUNDS):
        begin = time.perf_counter()
        child = subprocess.Popen([program, folder], stdout=subprocess.PIPE, text=True)
        printed = child.stdout.read().strip()
        _, status, usage = os.wait4(child.pid, 0)
        best, peak = min(best, time.perf_counter() - begin), max(peak, usage.ru_maxrss * 1024)
        if status != 0:
            sys.exit(f"{folder}: status {status}")
    return best, peak, printed


def main() -> None:
    program = str(pathlib.Path(sys.argv[1]).resolve())
    for name, first, second in PAIRS:
        with tempfile.TemporaryDirectory() as folder:
            pair = pathlib.Path(folder, "pair")
            pair.mkdir()
            write_disk(pair / "first", 1, first)
            write_disk(pair / "second", 2, second)
            size = (pair / "second").stat().st_size
            seconds, peak, printed = opened(program, folder)
        beside = (peak - second * SIZE) / size
        print(f"{name}: {seconds:.3f} s, {peak / 2**20:.1f} MiB at most, {beside:.2f} beside the records; {printed}")


if __name__ == "__main__":
    main()
