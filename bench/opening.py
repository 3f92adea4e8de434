#!/usr/bin/env python3
"""Times the opening of a store of eight files, with all that `check` looks at.

bench/opening.py [RUNS]                  default 50; build first with scripts/minuet prove

It makes a store of 7,600 puts over 4,000 keys on eight nodes, each of whose files has more than
1 MiB, and times `check 8` on it: beside a program that reads these files whole and hashes their
pairs, and beside SQLite, which opens a file of the same pairs and does PRAGMA integrity_check
(bench/opened.c). The digest that `check` prints is compared with that of the pairs that the puts
leave.

It prints the milliseconds of processor time, user and system together: the mean of all runs, which
go in turns, with its standard error. Progress goes to stderr.
"""
import os
import random
import shutil
import sqlite3
import statistics
import subprocess
import sys
import tempfile
from pathlib import Path

from progress import Progress

TOP = Path(__file__).resolve().parent.parent
PROGRAM = Path(os.environ.get("MINUET", TOP / "crates/minuet/out/minuet"))
CLIENTS = 4
PUTS = 1900
KEYS = 4000


def puts() -> list[tuple[bytes, bytes]]:
    draw = random.Random(8)
    return [(b"k%05d" % draw.randrange(KEYS), b"v%05d-of-some-length" % number)
            for number in range(CLIENTS * PUTS)]


def script(pairs: list[tuple[bytes, bytes]]) -> bytes:
    lines = [b"nodes 8"]
    for number, (key, value) in enumerate(pairs):
        if number % PUTS == 0:
            lines.append(b"client c%d" % (number // PUTS))
        lines.append(b"put main " + key + b" " + value)
    lines.append(b"schedule")
    lines += [b"all c%d" % client for client in range(CLIENTS)]
    return b"\n".join(lines) + b"\n"


def pair_bytes(pairs: dict[bytes, bytes]) -> bytes:
    return b"".join(bytes([len(key)]) + key + bytes([len(value)]) + value
                    for key, value in sorted(pairs.items()))


def make_stores(folder: Path) -> list[Path]:
    """The files of the store; beside them `pairs`, and `sqlite` with the same pairs."""
    made = puts()
    store = folder / "store"
    store.mkdir()
    subprocess.run([PROGRAM, "replay", "8", store], input=script(made), check=True,
                   stdout=subprocess.DEVNULL)
    left = dict(made)
    (folder / "pairs").write_bytes(pair_bytes(left))
    with sqlite3.connect(folder / "sqlite") as other:
        other.execute("CREATE TABLE pairs (key BLOB PRIMARY KEY, value BLOB) WITHOUT ROWID")
        other.executemany("INSERT INTO pairs VALUES (?, ?)", sorted(left.items()))
    other.close()
    return sorted(store.iterdir())


def run(words: list) -> tuple[float, str]:
    """Seconds of processor time, user and system, and what was printed."""
    with tempfile.TemporaryFile() as written:
        made = subprocess.Popen(words, stdout=written)
        _, status, used = os.wait4(made.pid, 0)
        if status != 0:
            sys.exit(f"{words} ended with {status}")
        written.seek(0)
        return used.ru_utime + used.ru_stime, written.read().decode()


def compile_peer(folder: Path) -> Path:
    peer = folder / "opened"
    subprocess.run([shutil.which("cc") or "gcc", "-O2", "-o", peer, TOP / "bench/opened.c",
                    "-lsqlite3"], check=True)
    return peer


def times(programs: list[tuple[str, list]], runs: int) -> list[list[float]]:
    progress = Progress("runs of each program", runs)
    found: list[list[float]] = [[] for _ in programs]
    for _ in range(runs):
        for at, (_, words) in enumerate(programs):
            found[at].append(run(words)[0])
        progress.step()
    return found


def main() -> None:
    runs = int(sys.argv[1]) if len(sys.argv) > 1 else 50
    with tempfile.TemporaryDirectory(dir="/dev/shm") as name:
        folder = Path(name)
        files = make_stores(folder)
        peer = compile_peer(folder)
        programs = [("check 8", [PROGRAM, "check", "8", folder / "store"]),
                    ("reading and hashing", [peer, "read", folder / "pairs", *files]),
                    ("sqlite", [peer, "sqlite", folder / "sqlite"])]
        digest = run(programs[1][1])[1].strip()
        if digest not in run(programs[0][1])[1]:
            sys.exit("check tells another digest than that of the pairs")
        sizes = [file.stat().st_size for file in files]
        print(f"files of {min(sizes):,} to {max(sizes):,} bytes; SQLite's has "
              f"{(folder / 'sqlite').stat().st_size:,}; milliseconds of processor time:")
        for (title, _), each in zip(programs, times(programs, runs)):
            error = statistics.stdev(each) / runs ** 0.5 if runs > 1 else 0.0
            print(f"{title:22}{statistics.mean(each) * 1e3:8.2f} ±{error * 1e3:.2f}")


if __name__ == "__main__":
    main()
