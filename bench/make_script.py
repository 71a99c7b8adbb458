#!/usr/bin/env python3
"""Writes a script of bookings on one host.

usage: make_script.py LINES [KIND] [SEED]

KIND is one of
  mixed     mixed classes and priorities, starts up to 5,000,000 s ahead
  lapsing   the clock rises by 20 s with each line and each run starts a second later, so a row lapses at each line
  touching  exclusive runs, each from the end of the one before
"""
import random
import sys

CLASSES = ["background-multi", "background", "normal", "exclusive"]


def mixed(lines: int, draw: random.Random) -> list[str]:
    out, moment = [], 0
    for _ in range(lines):
        moment += draw.randrange(3)
        start = moment + draw.randrange(5_000_000)
        out.append(f"{moment} a book {draw.choice(CLASSES)} {draw.randrange(-10, 11)} {start} {1 + draw.randrange(600)}")
    return out


def lapsing(lines: int, draw: random.Random) -> list[str]:
    return [f"{20 * n} a book background 0 {20 * n + 1} 1" for n in range(lines)]


def touching(lines: int, draw: random.Random) -> list[str]:
    return [f"0 a book exclusive 0 {100 + 10 * n} 10" for n in range(lines)]


KINDS = {"mixed": mixed, "lapsing": lapsing, "touching": touching}


def main() -> None:
    lines = int(sys.argv[1])
    kind = sys.argv[2] if len(sys.argv) > 2 else "mixed"
    draw = random.Random(int(sys.argv[3]) if len(sys.argv) > 3 else 1)
    sys.stdout.write("\n".join(["host a 1", *KINDS[kind](lines, draw)]) + "\n")


if __name__ == "__main__":
    main()
