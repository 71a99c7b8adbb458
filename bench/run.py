#!/usr/bin/env python3
"""Times `psched rehearse` on scripts of 5,000 to 50,000 bookings of three kinds, on one host that allows everything,
beside a plain program of the same semantics with sorted maps, in one run, and prints seconds of the processor and ratios. Both
must print the same report. For the mixed kind up to 20,000 a second plain program, which passes over all rows, must print it too.

usage: run.py PROGRAM    (make bench gives build/psched)
"""
import os
import pathlib
import subprocess
import sys
import tempfile

HERE = pathlib.Path(__file__).resolve().parent
# How many bookings of each kind.
SIZES = {kind: [5_000, 20_000, 50_000] for kind in ("mixed", "lapsing", "touching")}
ROUNDS = 9


def timed(words: list[str], script: bytes) -> tuple[float, bytes]:
    """The least of some runs, in seconds of the processor, and what was printed."""
    best, printed = float("inf"), b""
    with tempfile.TemporaryFile() as source:
        source.write(script)
        for _ in range(ROUNDS):
            source.seek(0)
            with tempfile.TemporaryFile() as target:
                child = subprocess.Popen(words, stdin=source, stdout=target)
                _, status, usage = os.wait4(child.pid, 0)
                if status != 0:
                    sys.exit(f"{words}: status {status}")
                best = min(best, usage.ru_utime + usage.ru_stime)
                target.seek(0)
                printed = target.read()
    return best, printed


def compiled(folder: str, name: str) -> str:
    program = f"{folder}/{name}"
    subprocess.run(["rustc", "-O", "-o", program, HERE / name / "main.rs"], check=True)
    return program


def measure(program: str, others: dict[str, str], kind: str) -> None:
    seconds = {}
    for size in SIZES[kind]:
        words = [sys.executable, HERE / "make_script.py", str(size), kind]
        script = subprocess.run(words, stdout=subprocess.PIPE, check=True).stdout
        ours, report = timed([program, "rehearse"], script)
        other, wanted = timed([others["sorted"]], script)
        if report != wanted:
            sys.exit(f"{kind}, {size} bookings: the reports differ")
        if kind == "mixed" and size <= 20_000 and timed([others["plain"]], script)[1] != wanted:
            sys.exit(f"{kind}, {size} bookings: the plain programs differ")
        seconds[size] = ours
        print(f"{kind}, {size} bookings: psched {ours:.3f} s, sorted maps {other:.3f} s, ratio {ours / other:.1f}", flush=True)
    least, most = SIZES[kind][0], SIZES[kind][-1]
    print(f"{kind}: {most} take {seconds[most] / seconds[least]:.1f} times as long as {least}")


def main() -> None:
    program = str(pathlib.Path(sys.argv[1]).resolve())
    with tempfile.TemporaryDirectory() as folder:
        others = {name: compiled(folder, name) for name in ("sorted", "plain")}
        for kind in SIZES:
            measure(program, others, kind)


if __name__ == "__main__":
    main()
