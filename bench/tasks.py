#!/usr/bin/env python3
"""Times `psched rehearse` on a host to which tasks are posted, with a turn after each. Their runs lie ahead, so all stay open.
Prints what a line takes in microseconds among the first hundred tasks and among the last, with their ratio, and how many bytes
a row of the book takes at the peak, beside a script of no task.

usage: tasks.py PROGRAM    (make bench gives build/psched)
"""
import os
import pathlib
import subprocess
import sys
import tempfile

TASKS = 2_000
PART = 100
ROUNDS = 60
POST = '{{"schedule":{{"start":"2001-09-09T01:46:40Z","slip":"PT1H"}},"test":{{"type":"idle","spec":{{"duration":"PT{}S"}}}}}}'


def script(tasks: int) -> str:
    lines = ["host a 1"]
    for n in range(tasks):
        moment = 999_990_000 + n
        lines += [f"{moment} a post 10.0.0.9 {POST.format(1 + n % 60)}", f"{moment} a turn"]
    return "\n".join(lines) + "\n"


def measure(program: str, folder: str, tasks: int) -> tuple[float, int, int]:
    """The least seconds of the processor of some runs, the least of their peaks in bytes, and the rows that were told."""
    path = pathlib.Path(folder, f"{tasks}.script")
    path.write_text(script(tasks))
    best, peak, rows = float("inf"), sys.maxsize, 0
    for _ in range(ROUNDS):
        with path.open("rb") as source:
            child = subprocess.Popen([program, "rehearse"], stdin=source, stdout=subprocess.PIPE, text=True)
            report = child.stdout.read().splitlines()
            _, status, usage = os.wait4(child.pid, 0)
        if status != 0:
            sys.exit(f"{tasks} tasks: status {status}")
        rows = sum(line.startswith("a ") for line in report)
        best, peak = min(best, usage.ru_utime + usage.ru_stime), min(peak, usage.ru_maxrss * 1024)
    return best, peak, rows


def main() -> None:
    program = str(pathlib.Path(sys.argv[1]).resolve())
    counts = (0, PART, TASKS - PART, TASKS)
    with tempfile.TemporaryDirectory() as folder:
        seconds, peaks, rows = zip(*(measure(program, folder, tasks) for tasks in counts))
    if rows[-1] < TASKS:
        sys.exit(f"{rows[-1]} rows of {TASKS} tasks: not all are open")
    first, last = ((seconds[to] - seconds[since]) / (2 * PART) * 1e6 for since, to in ((0, 1), (2, 3)))
    each = (seconds[-1] - seconds[0]) / (2 * TASKS) * 1e6
    print(f"{TASKS} tasks, a turn after each: {seconds[-1]:.3f} s, {each:.1f} us a line")
    print(f"a line takes {first:.1f} us among the first {PART} tasks, {last:.1f} us among the last, ratio {last / first:.1f}")
    print(f"{rows[-1]} rows: {(peaks[-1] - peaks[0]) / rows[-1]:.0f} bytes a row at the peak")


if __name__ == "__main__":
    main()
