#!/usr/bin/env python3
"""Times steps of kept hosts by rehearsals, each beside one that lacks these steps alone, and prints microseconds a step. A step is
measured with its line of the script and with what is reported of it.

- Bookings, of each host after its own rows; and turns with nothing due: over a book of few rows, and over one of nearly as many as
  a book has, of which nothing is due.
- Proposals and confirmations of a lead, over such books. The reply to each is lost, which is a line more.
- Bookings whose keys go before all others (front), since runs of a lead with a greater number fill the book; and such whose keys
  go amid others, since these runs fill the half of it.
- Turns in which runs start or end, one run in a turn and 64, over what their bookings take.
- The bytes of memory that a row takes at the program's peak, with its two lines and what the host's disks in memory have of it.

usage: host.py PROGRAM    (make bench gives build/psched)
"""
import os
import pathlib
import subprocess
import sys
import tempfile
from collections.abc import Callable, Iterator

ROUNDS = 5
# How many hosts have few rows each, how many these are, and how many the one host with many has.
HOSTS = 10
FEW = 500
MANY = 45_000
STEPS = 5_000
TURNS = 20_000
AMONG = 2_000
LISTED = 64
BATCHES = 100
ROUNDS_OF_RUNS = 50
# where files are in memory, if there is such a place
PLACE = "/dev/shm" if os.path.isdir("/dev/shm") else None

# Runs lapse so many together as a book is filled, each so many seconds after it was booked.
BEGIN = 1_000_000
BATCH = 1_000
BATCH_LENGTH = 1_100
TWO_DAYS = 172_800
LEAD = "lead"

Lines = Iterator[str]


def names(count: int) -> list[str]:
    return [f"host{n}" for n in range(1, count + 1)]


def declared(hosts: list[str]) -> Lines:
    """The hosts, and one with a greater number than theirs."""
    for number, host in enumerate([*hosts, LEAD], 1):
        yield f"host {host} {number}"


def filled(hosts: list[str], rows: int) -> Lines:
    """Each host gets so many rows of its own, which lapse."""
    yield from declared(hosts)
    for number in range(rows):
        clock = BEGIN + number // BATCH * BATCH_LENGTH
        for host in hosts:
            yield f"{clock} {host} book background 0 {clock + BATCH} 10"


def after(rows: int) -> int:
    """The clock once so many have lapsed."""
    return BEGIN + (rows // BATCH + 1) * BATCH_LENGTH


def booked(hosts: list[str], clock: int, count: int) -> Lines:
    for _ in range(count // len(hosts)):
        for host in hosts:
            yield f"{clock} {host} book background 0 {clock + 2_000_000} 10"


class Messages:
    """The messages of a script, which are numbered as they are sent."""

    def __init__(self) -> None:
        self.last = 0

    def sent(self) -> range:
        """The next ones."""
        first = self.last + 1
        self.last += LISTED
        return range(first, self.last + 1)

    def answered(self, clock: int) -> Lines:
        """The lead sends orders in its turn; each is answered, and the answer heard."""
        yield f"{clock} {LEAD} turn"
        for word in (self.sent(), self.sent()):
            yield from (f"{clock} deliver {number}" for number in word)

    def ordered(self, clock: int, is_delivered: bool) -> Lines:
        """The lead sends orders, all of which are lost, or the answers to them."""
        yield f"{clock} {LEAD} turn"
        orders = self.sent()
        if is_delivered:
            yield from (f"{clock} deliver {number}" for number in orders)
            orders = self.sent()
        yield from (f"lose {number}" for number in orders)


def posted(hosts: list[str], clock: int) -> Lines:
    """Tasks of two hosts, as many as orders are sent in a turn. Each has a run every second day."""
    for number in range(LISTED):
        spec = f'{{"duration":"PT10S","hosts":["{LEAD}","{hosts[number % len(hosts)]}"]}}'
        schedule = '{"repeat":"P2D","slip":"PT1H"}'
        yield f'{clock} {LEAD} post 10.0.0.9 {{"schedule":{schedule},"test":{{"spec":{spec},"type":"idlemany"}}}}'


def led(hosts: list[str], clock: int, batches: int, stage: str, is_delivered: bool) -> Lines:
    """The runs of these tasks as far as their proposals or their confirmations."""
    messages = Messages()
    yield from posted(hosts, clock)
    for batch in range(batches):
        now = clock + TWO_DAYS * batch
        yield from messages.answered(now)
        if stage == "confirm":
            yield from messages.answered(now)
        yield from messages.ordered(now, is_delivered)


def peer_filled(hosts: list[str], rows: int) -> Lines:
    """Each host gets about so many rows of the lead."""
    yield from declared(hosts)
    yield from led(hosts, BEGIN, rows * len(hosts) // LISTED, "propose", True)


def half_filled(hosts: list[str], rows: int) -> Lines:
    """Each host gets about so many rows, half of them of its own, and behind them those of the lead."""
    yield from filled(hosts, rows // 2)
    yield from led(hosts, after(rows // 2), rows // 2 * len(hosts) // LISTED, "propose", True)


def runs(together: int, rounds: int, has_turns: bool) -> Lines:
    """Rounds in which so many runs are booked and, in a turn each, started and ended."""
    yield from declared(names(1))
    for number in range(rounds):
        clock = BEGIN + 100 * number
        yield from (f"{clock} host1 book background 0 {clock + 20} 10" for _ in range(together))
        if has_turns:
            yield f"{clock + 20} host1 turn"
            yield f"{clock + 40} host1 turn"


def measured(program: str, script: pathlib.Path, report: pathlib.Path) -> tuple[float, int]:
    """The seconds of the processor that a rehearsal takes, and the peak of its memory in bytes."""
    with open(script, "rb") as lines, open(report, "wb") as told:
        child = subprocess.Popen([program, "rehearse"], stdin=lines, stdout=told)
        _, status, usage = os.wait4(child.pid, 0)
    if status != 0:
        sys.exit(f"{script}: status {status}")
    return usage.ru_utime + usage.ru_stime, usage.ru_maxrss * 1024


def count_rows(report: pathlib.Path, name: str) -> int:
    """How many runs the report shows in the end; each line above is one that was wanted."""
    rows = 0
    with open(report, encoding="utf-8") as lines:
        for line in lines:
            if "denied" in line or "not in flight" in line:
                sys.exit(f"{name}: {line}")
            rows += not line[0].isdigit()
    return rows


class Rehearsals:
    def __init__(self, program: str, folder: str) -> None:
        self.program = program
        self.folder = pathlib.Path(folder)

    def written(self, name: str, *parts: Lines) -> pathlib.Path:
        """The script of these parts, line by line: the peak of a child counts what this process holds as it starts it."""
        path = self.folder / name
        with open(path, "w", encoding="utf-8") as file:
            for part in parts:
                file.writelines(f"{line}\n" for line in part)
        return path

    def least(self, scripts: list[pathlib.Path], added: int) -> list[float]:
        """The least seconds of each script in some rounds. The last one has so many more rows than the first."""
        report = self.folder / "report"
        best, rows = [float("inf")] * len(scripts), [0] * len(scripts)
        for turn in range(ROUNDS):
            for place, script in enumerate(scripts):
                best[place] = min(best[place], measured(self.program, script, report)[0])
                rows[place] = rows[place] if turn else count_rows(report, script.name)
        if rows[-1] - rows[0] != added:
            sys.exit(f"{scripts[-1].name}: {rows} rows")
        return best

    def beside(self, name: str, without: list[Lines], more: list[Lines], added: int, steps: int) -> float:
        """Microseconds for each step of a script that has more lines than another one."""
        scripts = [self.written(f"{name}-without", *without), self.written(f"{name}-with", *more)]
        before, full = self.least(scripts, added)
        return (full - before) * 1e6 / steps


def tell(name: str, few: float, many: float, books: str) -> None:
    print(f"{name}: {few:.2f} us over few rows, {many:.2f} us over many, ratio {many / few:.1f}; {books}", flush=True)


def tell_bookings(them: Rehearsals) -> None:
    few, one = names(HOSTS), names(1)
    sides = []
    for hosts, rows in ((few, FEW), (one, MANY)):
        more = [filled(hosts, rows), booked(hosts, after(rows), STEPS)]
        sides.append(them.beside("book", [filled(hosts, rows)], more, STEPS, STEPS))
    tell("book", *sides, f"{FEW} to {FEW + STEPS // HOSTS} and {MANY} to {MANY + STEPS} rows")


def tell_idle(them: Rehearsals) -> None:
    sides = []
    for rows in (FEW, MANY):
        clock = after(rows)
        # A booking first, so that the book keeps what has lapsed.
        quiet = [[filled(names(1), rows), booked(names(1), clock, 1)] for _ in range(2)]
        turns = (f"{clock} host1 turn" for _ in range(TURNS))
        sides.append(them.beside("idle", quiet[0], [*quiet[1], turns], 0, TURNS))
    tell("idle", *sides, f"{FEW + 1} and {MANY + 1} rows")


def tell_orders(them: Rehearsals, stage: str) -> None:
    sides, orders = [], BATCHES * LISTED
    for hosts, rows in ((names(HOSTS), FEW), (names(1), MANY + STEPS - orders - STEPS // HOSTS)):
        # Where they are lost, the hosts have no rows of them.
        added = orders if stage == "propose" else 0
        parts = [[filled(hosts, rows), led(hosts, after(rows), BATCHES, stage, is_there)] for is_there in (False, True)]
        sides.append(them.beside(stage, *parts, added, orders))
    tell(stage, *sides, f"{FEW} to {FEW + orders // HOSTS} and {rows} to {rows + orders} rows")


def tell_among(them: Rehearsals, name: str, fill: Callable[[list[str], int], Lines]) -> None:
    sides = []
    for hosts, rows in ((names(HOSTS), FEW), (names(1), MANY)):
        clock = after(rows) + TWO_DAYS * (rows * len(hosts) // LISTED)
        sides.append(them.beside(name, [fill(hosts, rows)], [fill(hosts, rows), booked(hosts, clock, AMONG)], AMONG, AMONG))
    tell(name, *sides, f"{FEW} to {FEW + AMONG // HOSTS} and {MANY} to {MANY + AMONG} rows")


def tell_starts(them: Rehearsals) -> None:
    turns = {}
    for together in (1, LISTED):
        rounds = ROUNDS_OF_RUNS * LISTED // together
        parts = [[runs(together, rounds, has_turns)] for has_turns in (False, True)]
        turns[together] = them.beside("starts", *parts, 0, 2 * rounds)
    one, full = turns[1], turns[LISTED]
    print(f"starts and ends: {one:.1f} us a turn with one, {full:.1f} us with {LISTED}, ratio {full / one:.1f}", flush=True)


def tell_memory(them: Rehearsals) -> None:
    peaks = []
    for rows in (10_000, 50_000):
        script = them.written("memory", filled(names(1), rows))
        peaks.append(min(measured(them.program, script, them.folder / "report")[1] for _ in range(ROUNDS)))
    print(f"a row: {(peaks[1] - peaks[0]) / 40_000:.0f} bytes with its lines and what its disks have of it", flush=True)


def main() -> None:
    program = str(pathlib.Path(sys.argv[1]).resolve())
    with tempfile.TemporaryDirectory(dir=PLACE) as folder:
        them = Rehearsals(program, folder)
        tell_memory(them)
        tell_bookings(them)
        tell_idle(them)
        tell_orders(them, "propose")
        tell_orders(them, "confirm")
        tell_starts(them)
        tell_among(them, "front", peer_filled)
        tell_among(them, "amid", half_filled)


if __name__ == "__main__":
    main()
