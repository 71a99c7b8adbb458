#!/usr/bin/env python3
"""Writes two sample pairs of disks whose records and snapshots are of the first format, in which no epochs stood.

usage: make.py    in this folder

`records-1.disk` and `records-2.disk` are a fresh pair of host a (1) with the records of two bookings.
`snapshot-1.disk` and `snapshot-2.disk` are the same book as a snapshot on the second disk, with no record behind it.
"""
import struct

MAGIC = b"PSCHJRN1"
CLOSED, OPEN = b"\x00", b"\x01"
MISSING = b"\x00"


def u16(n: int) -> bytes:
    return struct.pack(">H", n)


def u32(n: int) -> bytes:
    return struct.pack(">I", n)


def u64(n: int) -> bytes:
    return struct.pack(">Q", n)


def text(words: str) -> bytes:
    data = words.encode()
    return u32(len(data)) + data


def listed(items: list[bytes]) -> bytes:
    return u32(len(items)) + b"".join(items)


def there(value: bytes) -> bytes:
    return b"\x01" + value


def key(number: int) -> bytes:
    """A booking of host 1: lead, task, number, attempt."""
    return u16(1) + u32(0) + u32(number) + u16(0)


TEST = text('{"spec":{"duration":"PT10S"},"type":"idleex"}')
TOOL = text("sleep")
PRIORITY = u16(0)
NAMES = listed([text("a")])
ASKER = text("127.0.0.1") + text("a")


def accepted(number: int, start: int) -> bytes:
    """Tag 3: in the first format nothing follows who asks."""
    return b"\x03" + key(number) + TEST + TOOL + u64(start) + PRIORITY + NAMES + ASKER


def confirmed(number: int) -> bytes:
    return b"\x06" + key(number)


def record(number: int, start: int) -> bytes:
    return u64(0) + listed([accepted(number, start), confirmed(number)])


def row(number: int, start: int) -> bytes:
    work = key(number) + TEST + there(TOOL) + there(u64(start) + u64(start + 10)) + PRIORITY
    steps = NAMES + ASKER + there(u64(0)) + there(u64(0)) + MISSING
    ends = MISSING * 5
    lead = listed([]) + MISSING + listed([])
    return work + steps + ends + lead


RUNS = [(1, 100), (2, 110)]
RECORDS = [record(number, start) for number, start in RUNS]
SNAPSHOT = u64(0) + listed([]) + listed([row(number, start) for number, start in RUNS])


def disk(generation: int, snapshot: bytes, records: list[bytes]) -> bytes:
    front = MAGIC + OPEN + u64(generation) + u32(len(snapshot)) + snapshot
    return front + b"".join(OPEN + u32(len(r)) + r for r in records) + CLOSED


def main() -> None:
    images = {
        "records-1.disk": disk(1, b"", RECORDS),
        "records-2.disk": MAGIC + CLOSED,
        "snapshot-1.disk": disk(1, b"", RECORDS),
        "snapshot-2.disk": disk(2, SNAPSHOT, []),
    }
    for name, image in images.items():
        with open(name, "wb") as file:
            file.write(image)


if __name__ == "__main__":
    main()
