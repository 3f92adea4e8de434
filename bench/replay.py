#!/usr/bin/env python3
"""Times `replay` beside SQLite on the same scripts, one transaction an operation.

bench/replay.py [RUNS]                   default 50; build first with scripts/minuet prove
bench/replay.py --instructions           instead of times: instructions, by one run under valgrind

It compiles bench/peer.c, which plays a script against SQLite with prepared statements (and against
LMDB where its header is there) and prints the same answer lines; they are compared. A row is of one
kind of operation, on 4,000 keys that are there, with values of 1 to 64 bytes: what a script of so
many operations behind 4,000 inserts takes, less the script of the inserts alone. The first row is
the inserts, less an empty script. All processes are whole: reading, parsing and printing are in.

It prints the microseconds of processor time, user and system together, for an operation (for a
scan, for a pair): the mean of all runs, which go in turns, with its standard error.
Progress goes to stderr.
"""
import os
import shutil
import statistics
import subprocess
import sys
import tempfile
from pathlib import Path

from progress import Progress

TOP = Path(__file__).resolve().parent.parent
PROGRAM = Path(os.environ.get("MINUET", TOP / "crates/minuet/out/minuet"))
KEYS = 4000
MOST_OPERATIONS = 2000


# Scripts

def key(number: int) -> str:
    return f"key{number * 7919 % KEYS}"


def value(number: int) -> str:
    letters = "abcdefghijklmnopqrstuvwxyz0123456789"
    length = 1 + number * 37 % 64
    return "".join(letters[(number + 11 * at) % len(letters)] for at in range(length))


def put(number: int) -> str:
    return f"put main {key(number)} {value(number)}"


def get(number: int) -> str:
    return f"get main {key(3 * number)}"


def steps(number: int) -> str:
    each = [f"get {key(number * 16 + at)}" if at % 2
            else f"put {key(number * 16 + at)} {value(number + at)}" for at in range(16)]
    return "tx main " + " ; ".join(each)


def scan(number: int) -> str:
    return f"scan main {key(number)} % 100"


# What is timed: its name, how many, each operation, what comes before them
KINDS = [
    ("put", 4000, put, []),
    ("get", 4000, get, []),
    ("half and half", 4000, lambda n: put(n) if n % 2 else get(n), []),
    ("16 steps", 500, steps, []),
    ("scan of 100, a pair", 200, scan, ["snapshot main s"]),
]


def script(operations: list[str], nodes: int) -> bytes:
    lines = [f"nodes {nodes}"]
    for number, operation in enumerate(operations):
        if number % MOST_OPERATIONS == 0:
            lines.append(f"client c{number // MOST_OPERATIONS}")
        lines.append(operation)
    return ("\n".join(lines) + "\n").encode()


# Runs

def run(words: list, text: bytes) -> tuple[float, bytes]:
    """Seconds of processor time, user and system, and what was printed."""
    with tempfile.TemporaryFile() as given, tempfile.TemporaryFile() as written:
        given.write(text)
        given.seek(0)
        with tempfile.TemporaryDirectory(dir="/dev/shm") as folder:
            made = subprocess.Popen(words, stdin=given, stdout=written,
                                    env={**os.environ, "PEER_DIR": folder})
            _, status, used = os.wait4(made.pid, 0)
        if status != 0:
            sys.exit(f"{words} ended with {status}")
        written.seek(0)
        return used.ru_utime + used.ru_stime, written.read()


def instructions(words: list, text: bytes) -> float:
    with tempfile.TemporaryDirectory(dir="/dev/shm") as folder:
        done = subprocess.run(
            ["valgrind", "--tool=callgrind", "--callgrind-out-file=/dev/null", *words], input=text,
            stdout=subprocess.DEVNULL, stderr=subprocess.PIPE, check=True,
            env={**os.environ, "PEER_DIR": folder})
    line = next(it for it in done.stderr.decode().splitlines() if "Collected" in it)
    return float(line.split(":")[1])


def answers(text: bytes) -> bytes:
    return text.split(b"\nhistory ")[0].rstrip(b"\n")


def compile_peer(folder: str) -> list[tuple[str, list]]:
    """The peers that this machine has, each by its name and its words."""
    peer = f"{folder}/peer"
    has_lmdb = Path("/usr/include/lmdb.h").exists()
    extra = ["-DWITH_LMDB"] if has_lmdb else []
    libraries = ["-lsqlite3"] + (["-llmdb"] if has_lmdb else [])
    done = subprocess.run(
        [shutil.which("cc") or "gcc", "-O2", *extra, "-o", peer, TOP / "bench/peer.c", *libraries])
    if done.returncode:
        print("bench/peer.c wasn't compiled (it wants libsqlite3-dev): no peers")
        return []
    names = ["sqlite", "rowid"] + (["lmdb"] if has_lmdb else []) + ["none"]
    return [(name, [peer, name]) for name in names]


def programs(folder: str) -> list[tuple[str, list, int]]:
    """Each program by its name and words, with the number of nodes of its scripts."""
    ours = [(f"replay {nodes}", [PROGRAM, "replay", str(nodes)], nodes) for nodes in (1, 8)]
    return ours + [(name, words, 1) for name, words in compile_peer(folder)]


def check(given: list[str], all_programs: list) -> None:
    """Whether all but `none` print the same answers."""
    printed = {name: answers(run(words, script(given, nodes))[1])
               for name, words, nodes in all_programs if name != "none"}
    for name, text in printed.items():
        if text != printed["replay 1"]:
            sys.exit(f"{name} answers otherwise than replay 1")


def spans(title: str, base: list[str], more: list[str], runs: int,
          all_programs: list) -> list[list[float]]:
    """For each program the seconds that `more` takes behind `base`, of each run; all in turns."""
    progress = Progress(f"{title}: runs of each program", runs)
    texts = [(script(base + more, nodes), script(base, nodes)) for _, _, nodes in all_programs]
    found: list[list[float]] = [[] for _ in all_programs]
    for _ in range(runs):
        for at, (_, words, _) in enumerate(all_programs):
            found[at].append(run(words, texts[at][0])[0] - run(words, texts[at][1])[0])
        progress.step()
    return found


def counts(title: str, base: list[str], more: list[str], all_programs: list) -> list[float]:
    """The same in instructions, of one run."""
    progress = Progress(f"{title}: programs under valgrind", len(all_programs))
    found = []
    for _, words, nodes in all_programs:
        found.append(instructions(words, script(base + more, nodes))
                     - instructions(words, script(base, nodes)))
        progress.step()
    return found


def row(title: str, base: list[str], more: list[str], units: int, runs: int,
        all_programs: list) -> None:
    if not runs:
        cells = [f"{it / units:,.0f}" for it in counts(title, base, more, all_programs)]
    else:
        cells = []
        for each in spans(title, base, more, runs, all_programs):
            error = statistics.stdev(each) / runs ** 0.5 if runs > 1 else 0.0
            cells.append(f"{statistics.mean(each) / units * 1e6:.2f} ±{error / units * 1e6:.2f}")
    print(f"{title:22}" + "".join(f"{cell:>14}" for cell in cells), flush=True)


def main() -> None:
    # no runs: instructions are counted
    runs = 0 if sys.argv[1:] == ["--instructions"] else int(*sys.argv[1:] or ["50"])
    fill = [put(number) for number in range(KEYS)]
    with tempfile.TemporaryDirectory() as folder:
        all_programs = programs(folder)
        print(f"{'':22}" + "".join(f"{name:>14}" for name, _, _ in all_programs))
        row("insert", [], fill, KEYS, runs, all_programs)
        for title, count, make, before in KINDS:
            more = before + [make(number) for number in range(count)]
            check(fill + more, all_programs)
            units = 100 * count if title.startswith("scan") else count
            row(title, fill, more, units, runs, all_programs)


if __name__ == "__main__":
    main()
