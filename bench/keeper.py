#!/usr/bin/env python3
"""Times the report on a store of 100,000 results in a file, beside the same walk by Python's sqlite3 with
the same statement, whose text must be the same, and prints the seconds and their ratio. Before that it
has the program write a store, and reads it again by sqlite3: the table, the rows, and whether the file
is sound; and it hands the program files that are no stores, each of which must be refused and stay.

usage: keeper.py PROGRAM [--read-back]    with --read-back nothing is timed
       (make bench gives crates/result_keeper_bench/out/result_keeper_bench)
"""
import collections
import datetime
import pathlib
import sqlite3
import subprocess
import sys
import tempfile
import time

RECORDS = 100_000
ROUNDS = 3
PIECE = 64
DAY = 86_400
GOOD = '{"schema":1,"succeeded":true}'
BAD = '{"schema":1,"succeeded":false}'

CREATE = (
    "CREATE TABLE result (id TEXT PRIMARY KEY NOT NULL, since INTEGER NOT NULL,"
    " latest INTEGER NOT NULL, good INTEGER NOT NULL, body TEXT NOT NULL) STRICT"
)
INSERT = "INSERT INTO result (id, since, latest, good, body) VALUES (?1, ?2, ?3, ?4, ?5)"
LIST = "SELECT id, since, latest, good, body FROM result WHERE id > ?1 ORDER BY id LIMIT ?2"
COLUMNS = [
    ("id", "TEXT", 1, 1),
    ("since", "INTEGER", 1, 0),
    ("latest", "INTEGER", 1, 0),
    ("good", "INTEGER", 1, 0),
    ("body", "TEXT", 1, 0),
]


def task_id(lead: int, task: int) -> str:
    return f"{lead:04x}{task >> 16:04x}-{task & 0xffff:04x}-8000-8000-000000000000"


def run_id(lead: int, task: int, number: int, attempt: int) -> str:
    return f"{lead:04x}{task >> 16:04x}-{task & 0xffff:04x}-8001-8000-{number:08x}{attempt:04x}"


def record(number: int) -> tuple:
    """What the program puts as the result of this number."""
    moment, good = 1_000 + 60 * number, number % 3 != 2
    return run_id(1, 1 + number % 10, number, 0), moment, moment, int(good), GOOD if good else BAD


def write_store(path: pathlib.Path) -> None:
    with sqlite3.connect(path) as store:
        store.execute(CREATE)
        store.executemany(INSERT, map(record, range(RECORDS)))
    store.close()


def line(name: str, counts: list) -> str:
    return f"{name} {counts[0]:8} {counts[1]:8} {counts[2]:8}\n"


def walked(path: pathlib.Path) -> str:
    """The report on all records, read in pieces."""
    tasks = collections.defaultdict(lambda: [0, 0, 0])
    days = collections.defaultdict(lambda: [0, 0, 0])
    total, after = [0, 0, 0], ""
    store = sqlite3.connect(path)
    while rows := store.execute(LIST, (after, PIECE)).fetchall():
        for name, since, _latest, good, _body in rows:
            key = int(name[:4], 16), int(name[4:8] + name[9:13], 16)
            for counts in tasks[key], days[since // DAY], total:
                counts[0] += 1
                counts[1 if good else 2] += 1
            after = name
    store.close()
    lines = [line(f"task {task_id(*key)}", tasks[key]) for key in sorted(tasks)]
    for day in sorted(days):
        date = datetime.date(1970, 1, 1) + datetime.timedelta(days=day)
        lines.append(line(f"day {date}", days[day]))
    return "".join(lines) + line("total", total)


def run(program: str, *lines: str) -> str:
    done = subprocess.run([program], input="".join(f"{line}\n" for line in lines), capture_output=True, text=True)
    if done.returncode != 0:
        sys.exit(f"{lines}: status {done.returncode}")
    return done.stdout


def filled(program: str, path: pathlib.Path, count: int) -> str:
    """So many made results are put in the file, which is opened again and reported."""
    return run(program, f"file {path}", f"fill {count}", f"file {path}", "report")


def refused(program: str, path: pathlib.Path, why: str) -> None:
    told = run(program, f"file {path}", "fill 1", "report")
    if told != f"refused: {why}\n":
        sys.exit(f"{path}: {told!r}, and {why} is wanted")


def least(call) -> tuple[float, str]:
    """The least seconds of some calls, and what they give."""
    best, told = float("inf"), ""
    for _ in range(ROUNDS):
        begin = time.perf_counter()
        told = call()
        best = min(best, time.perf_counter() - begin)
    return best, told


def read_back(program: str, folder: str) -> None:
    path, count = pathlib.Path(folder, "written"), 200
    told = filled(program, path, count)
    if filled(program, path, count) != told:
        sys.exit("a second run of the same results tells another report")
    store = sqlite3.connect(path)
    columns = [(c[1], c[2], c[3], c[5]) for c in store.execute("PRAGMA table_info(result)")]
    tables = store.execute("SELECT count(*) FROM sqlite_master WHERE type = 'table'").fetchone()[0]
    rows = store.execute("SELECT * FROM result ORDER BY id").fetchall()
    sound = store.execute("PRAGMA integrity_check").fetchall()
    store.close()
    if (tables, columns) != (1, COLUMNS):
        sys.exit(f"another table: {tables} {columns}")
    if rows != sorted(map(record, range(count))):
        sys.exit("other rows")
    if sound != [("ok",)]:
        sys.exit(f"the file isn't sound: {sound}")
    if walked(path) != told:
        sys.exit("another report")
    print(f"{count} results written by the program and read by sqlite3 {sqlite3.sqlite_version}: the same, in a sound file")


# What makes a file that is a database and no store, or has a row that is no record.
ROW = "INSERT INTO result (id, since, latest, good, body) VALUES "
NO_STORES = {
    "other": "CREATE TABLE result (id TEXT PRIMARY KEY NOT NULL) STRICT; INSERT INTO result VALUES ('x')",
    "id": f"{CREATE}; {ROW} ('0001', 1, 1, 1, '')",
    "task": f"{CREATE}; {ROW} ('{task_id(1, 1)}', 1, 1, 1, '')",
    "capitals": f"{CREATE}; {ROW} ('{run_id(0xffff, 1, 0, 0).upper()}', 1, 1, 1, '')",
    "negative": f"{CREATE}; {ROW} ('{run_id(1, 1, 0, 0)}', -1, 1, 1, '')",
    "late": f"{CREATE}; {ROW} ('{run_id(1, 1, 0, 0)}', 1, 4102444801, 1, '')",
    "two": f"{CREATE}; {ROW} ('{run_id(1, 1, 0, 0)}', 1, 1, 2, '')",
}


def rows_in(path: pathlib.Path) -> list:
    store = sqlite3.connect(path)
    rows = store.execute("SELECT * FROM result").fetchall()
    store.close()
    return rows


def refuse_bad(program: str, folder: str) -> None:
    for name, script in NO_STORES.items():
        path = pathlib.Path(folder, name)
        store = sqlite3.connect(path)
        store.executescript(script)
        store.close()
        before = rows_in(path)
        refused(program, path, "other tables" if name == "other" else "no record")
        if len(before) != 1 or rows_in(path) != before:
            sys.exit(f"{name}: other rows")
    text = pathlib.Path(folder, "text")
    text.write_bytes(b"This is no database.\n" * 100)
    refused(program, text, "failed")
    if text.read_bytes() != b"This is no database.\n" * 100:
        sys.exit("the text was changed")
    locked = pathlib.Path(folder, "written")
    before = rows_in(locked)
    store = sqlite3.connect(locked, isolation_level=None)
    store.execute("BEGIN EXCLUSIVE")
    refused(program, locked, "failed")
    store.execute("ROLLBACK")
    store.close()
    if rows_in(locked) != before:
        sys.exit("the locked file was changed")
    print(f"refused and unchanged: {', '.join(NO_STORES)}, a text, a locked file")


def main() -> None:
    program = str(pathlib.Path(sys.argv[1]).resolve())
    with tempfile.TemporaryDirectory() as folder:
        read_back(program, folder)
        refuse_bad(program, folder)
        if "--read-back" in sys.argv[2:]:
            return
        path = pathlib.Path(folder, "store")
        write_store(path)
        plain, wanted = least(lambda: walked(path))
        seconds, told = least(lambda: run(program, f"file {path}", "report"))
        if told != wanted:
            sys.exit("another report")
    print(f"{RECORDS} records: {seconds:.3f} s, plain {plain:.3f} s, ratio {seconds / plain:.1f}")


if __name__ == "__main__":
    main()
