#!/usr/bin/env python3
"""Times `psched validate-limits` on a configuration of about 1 MiB, with 20,000 identifiers and classifiers of
short names, beside Python's `json.loads` of the same text, in one run, and prints seconds and their ratio.
The start of the program, on an input of two bytes, is taken off.

usage: limits.py PROGRAM    (make bench gives build/psched)
"""
import json
import pathlib
import subprocess
import sys
import time

ROUNDS = 5
ENTRIES = 10_000


def configuration() -> bytes:
    names = range(ENTRIES)
    whole = {
        "identifiers": [{"name": f"i{n}", "type": "always", "data": {}} for n in names],
        "classifiers": [{"name": f"c{n}", "identifiers": [f"i{n}"]} for n in names],
        "limits": [{"name": "l", "type": "pass-fail", "data": {"pass": True}}],
        "applications": [{"classifier": f"c{ENTRIES - 1}", "apply": [{"require": "all", "limits": ["l"]}]}],
    }
    return json.dumps(whole).encode()


def least(work) -> float:
    """The least of some runs, in seconds."""
    best = float("inf")
    for _ in range(ROUNDS):
        begin = time.perf_counter()
        work()
        best = min(best, time.perf_counter() - begin)
    return best


def main() -> None:
    program = str(pathlib.Path(sys.argv[1]).resolve())
    text = configuration()

    def validate(input_bytes: bytes) -> bytes:
        done = subprocess.run([program, "validate-limits"], input=input_bytes, stdout=subprocess.PIPE, check=False)
        return done.stdout

    wanted = f"valid: {ENTRIES} identifiers, {ENTRIES} classifiers, 1 limits, 1 applications\n"
    if validate(text).decode() != wanted:
        sys.exit("the configuration isn't told as valid")
    ours = least(lambda: validate(text)) - least(lambda: validate(b"{}"))
    python = least(lambda: json.loads(text))
    print(f"{len(text)} bytes, {2 * ENTRIES} names: validate-limits {ours:.3f} s, json.loads {python:.4f} s, ratio {ours / python:.1f}")


main()
