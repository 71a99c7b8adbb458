#!/usr/bin/env python3
"""Times 10,000 questions for free starts within a day, against 50,000 bookings of three kinds, beside a plain program that
walks over sorted maps, in one run, and prints microseconds for each question, and seconds for the bookings. Both must print
the same sum of their answers. What the bookings take is measured without questions, and taken off.

usage: timeline.py PROGRAM    (make bench gives crates/host_timeline_bench/out/host_timeline_bench)
"""
import os
import pathlib
import subprocess
import sys
import tempfile

HERE = pathlib.Path(__file__).resolve().parent
KINDS = ["normal", "mixed", "touching"]
BOOKINGS = 50_000
QUESTIONS = 10_000
ROUNDS = 3


def taken(words: list[str]) -> tuple[float, str]:
    """The least processor seconds of some runs, and what was printed."""
    best, printed = float("inf"), ""
    for _ in range(ROUNDS):
        child = subprocess.Popen(words, stdout=subprocess.PIPE, text=True)
        printed = child.stdout.read()
        _, status, usage = os.wait4(child.pid, 0)
        if status != 0:
            sys.exit(f"{words}: status {status}")
        best = min(best, usage.ru_utime + usage.ru_stime)
    return best, printed


def measured(program: str, kind: str) -> tuple[float, float, str]:
    """Seconds for the bookings and for the questions, and the sum."""
    booked, _ = taken([program, kind, str(BOOKINGS), "0"])
    asked, printed = taken([program, kind, str(BOOKINGS), str(QUESTIONS)])
    return booked, max(asked - booked, 0.0), printed


def main() -> None:
    program = str(pathlib.Path(sys.argv[1]).resolve())
    with tempfile.TemporaryDirectory() as folder:
        plain = f"{folder}/plain"
        subprocess.run(["rustc", "-O", "-o", plain, HERE / "timeline" / "main.rs"], check=True)
        for kind in KINDS:
            booked, asked, printed = measured(program, kind)
            plain_booked, plain_asked, wanted = measured(plain, kind)
            if printed != wanted:
                sys.exit(f"{kind}: the sums differ")
            each = 1e6 / QUESTIONS
            print(
                f"{kind}, {printed.split(',')[0]}: a question {asked * each:.0f} us, plain {plain_asked * each:.0f} us, "
                f"ratio {asked / plain_asked:.1f}; booked in {booked:.3f} s, plain {plain_booked:.3f} s",
                flush=True,
            )


if __name__ == "__main__":
    main()
