#!/usr/bin/env python3
"""Times openings of kept hosts from pairs of disks that it writes itself (docs/specification/journal.md), and prints

- the seconds of the processor that an opening of 50,000 rows in a snapshot takes, and how many bytes a row takes at the peak beside the file;
- the seconds that 1,000 and 10,000 records behind a snapshot add to an opening, and their ratio.

What a kept step takes is told by host.py.

usage: keep.py PROGRAM    (make bench gives crates/host_trials/out/host_trials)
"""
import os
import pathlib
import struct
import subprocess
import sys
import tempfile
from collections.abc import Iterator

ROUNDS = 5
FEW_ROWS = 10_000
ROWS = 50_000
RECORDS = [1_000, 10_000]
# where files are in memory, if there is such a place
PLACE = "/dev/shm" if os.path.isdir("/dev/shm") else None

MAGIC = b"PSCHJRN1"
CLOSED, OPEN = b"\x00", b"\x01"
MISSING = b"\x00"
# Runs are booked so many at a time, each so many seconds before it starts, and have lapsed before the next ones are.
BEGIN = 1_000_000
BATCH = 1_000
BATCH_LENGTH = 1_100


def u16(n: int) -> bytes:
    return struct.pack(">H", n)


def u32(n: int) -> bytes:
    return struct.pack(">I", n)


def u64(n: int) -> bytes:
    return struct.pack(">Q", n)


def text(words: str) -> bytes:
    data = words.encode()
    return u32(len(data)) + data


def there(value: bytes) -> bytes:
    return b"\x01" + value


TEST = text('{"spec":{"duration":"PT10S"},"type":"idle"}')
TOOL = text("sleep")
PRIORITY = u16(0)
NAMES = u32(1) + text("a")
ASKER = text("127.0.0.1") + text("a")


def key(number: int) -> bytes:
    """A booking of host 1: lead, task, number, attempt."""
    return u16(1) + u32(0) + u32(number) + u16(0)


def clock_of(number: int) -> int:
    return BEGIN + (number - 1) // BATCH * BATCH_LENGTH


def row(number: int) -> bytes:
    """A run that was booked and missed."""
    clock = clock_of(number)
    start = clock + BATCH
    work = key(number) + TEST + there(TOOL) + there(u64(start) + u64(start + 10)) + PRIORITY + NAMES + ASKER
    steps = there(u64(clock)) + there(u64(clock)) + MISSING
    missed = there(u64(start + 16) + b"\x00")
    nothing_led = MISSING * 2 + u32(0) + MISSING + u32(0)
    return work + steps + MISSING * 2 + missed + nothing_led


def record(number: int) -> bytes:
    """The booking of a run: Accepted, under no epoch, and Confirmed."""
    clock = clock_of(number)
    proposal = key(number) + TEST + TOOL + u64(clock + BATCH) + PRIORITY + NAMES + ASKER
    return u64(clock) + u32(2) + b"\x03" + proposal + u32(0) + b"\x06" + key(number)


def snapshot(rows: int) -> Iterator[bytes]:
    """The book of so many rows, and a pair for each."""
    yield b"\xff" * 8 + u32(2) + u64(clock_of(rows) + BATCH_LENGTH)
    yield u32(0) + u32(rows)
    yield from (key(number) + u32(0) for number in range(1, rows + 1))
    yield u32(0) + u32(rows)
    yield from (row(number) for number in range(1, rows + 1))


def write_pair(folder: str, rows: int, records: int) -> int:
    """Writes the disks, and answers how many bytes the second has, which counts. They are written piece by piece: the peak of a
    child counts what this process holds as it starts it."""
    pair = pathlib.Path(folder, "pair")
    pair.mkdir()
    (pair / "first").write_bytes(MAGIC + OPEN + u64(1) + u32(0) + CLOSED)
    with open(pair / "second", "wb") as disk:
        disk.write(MAGIC + OPEN + u64(2) + u32(sum(map(len, snapshot(rows)))))
        disk.writelines(snapshot(rows))
        for number in range(rows + 1, rows + records + 1):
            it = record(number)
            disk.write(OPEN + u32(len(it)) + it)
        disk.write(CLOSED)
    return (pair / "second").stat().st_size


def opened(program: str, rows: int, records: int) -> tuple[float, int, int]:
    """The least seconds of the processor that some openings took, the peak of memory in bytes, and the bytes of the file."""
    best, peak = float("inf"), 0
    with tempfile.TemporaryDirectory(dir=PLACE) as folder:
        size = write_pair(folder, rows, records)
        for _ in range(ROUNDS):
            child = subprocess.Popen([program, folder], stdout=subprocess.PIPE, text=True)
            printed = child.stdout.read().strip()
            _, status, usage = os.wait4(child.pid, 0)
            best, peak = min(best, usage.ru_utime + usage.ru_stime), max(peak, usage.ru_maxrss * 1024)
            if status != 0 or printed != f"{rows + records} rows, generation 2":
                sys.exit(f"{rows} rows, {records} records: status {status}, {printed!r}")
    return best, peak, size


def main() -> None:
    program = str(pathlib.Path(sys.argv[1]).resolve())
    none, small, few_bytes = opened(program, FEW_ROWS, 0)
    seconds, peak, size = opened(program, ROWS, 0)
    beside = (peak - small - (size - few_bytes)) / (ROWS - FEW_ROWS)
    print(f"{ROWS} rows in a snapshot of {size / 2**20:.1f} MiB: {seconds:.3f} s, {peak / 2**20:.1f} MiB at most, {beside:.0f} bytes a row beside the file", flush=True)
    few, many = (opened(program, FEW_ROWS, records)[0] for records in RECORDS)
    ratio = (many - none) / (few - none)
    print(f"behind a snapshot of {FEW_ROWS} rows, which opens in {none:.3f} s: {RECORDS[0]} records {few - none:.3f} s more, {RECORDS[1]} {many - none:.3f} s, ratio {ratio:.1f}", flush=True)


if __name__ == "__main__":
    main()
