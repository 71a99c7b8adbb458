#!/usr/bin/env python3
"""Times 200,000 requests of each of four kinds as a host understands them, and prints microseconds for each. What the
program takes without a request is taken off.

usage: interface.py PROGRAM    (make bench gives crates/api_bench/out/api_bench)
"""
import os
import subprocess
import sys

KINDS = ["home", "run", "schedule", "post"]
REQUESTS = 200_000
ROUNDS = 3


def taken(program: str, kind: str, count: int) -> float:
    """The least processor seconds of some runs."""
    best = float("inf")
    for _ in range(ROUNDS):
        child = subprocess.Popen([program, kind, str(count)], stdout=subprocess.PIPE, text=True)
        printed = child.stdout.read()
        _, status, usage = os.wait4(child.pid, 0)
        if status != 0 or printed != f"{count} understood\n":
            sys.exit(f"{kind}: status {status}, {printed!r}")
        best = min(best, usage.ru_utime + usage.ru_stime)
    return best


def main() -> None:
    program = os.path.abspath(sys.argv[1])
    for kind in KINDS:
        seconds = taken(program, kind, REQUESTS) - taken(program, kind, 0)
        print(f"{kind}: {seconds * 1e6 / REQUESTS:.2f} us a request", flush=True)


if __name__ == "__main__":
    main()
