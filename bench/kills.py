#!/usr/bin/env python3
"""Kills the program at random moments, and looks at what its files hold then.

    bench/kills.py PROGRAM [KILLS [SEED]]

Each round runs a script by `run 4` on one folder: four clients, each of which writes a number to
eight keys of its own by transactions, the next number each time. The process is killed by signal 9
at a random moment. Then `check` must write `check yes`, and a script that reads the keys must find
one number in all eight of a client, or none in any, no older than what was there before. After the
first run, which isn't killed, that is the last that it answered `ok`: others may be busy. It tells
each round that is wrong, and ends with 1 if there is one.
"""
import random
import subprocess
import sys
import tempfile
import time

from progress import Progress

NODES, CLIENTS, KEYS, WRITES = 4, 4, 8, 60
NAMES = [f"w{client}" for client in range(CLIENTS)]


def keys_of(client: int) -> list[str]:
    return [f"c{client}k{key}" for key in range(KEYS)]


def writes(first: int) -> str:
    """Each client writes these numbers one after another."""
    lines = [f"nodes {NODES}"]
    for client in range(CLIENTS):
        lines.append(f"client {NAMES[client]}")
        for number in range(first, first + WRITES):
            steps = " ; ".join(f"put {key} {number}" for key in keys_of(client))
            lines.append(f"tx main {steps}")
    return "\n".join(lines) + "\n"


def reads() -> str:
    lines = [f"nodes {NODES}", "client r"]
    for client in range(CLIENTS):
        lines.append("tx main " + " ; ".join(f"get {key}" for key in keys_of(client)))
    return "\n".join(lines) + "\n"


def run(program: str, words: list[str], text: str = "") -> tuple[int, str]:
    done = subprocess.run(
        [program, *words], input=text.encode(), stdout=subprocess.PIPE, timeout=600)
    return done.returncode, done.stdout.decode()


def found(report: str) -> list[list[str]]:
    """The values that each of the reading transactions found."""
    rows = []
    for line in report.split("\n"):
        words = line.split()
        if words[:1] == ["r"] and words[2:3] == ["ok"]:
            rows.append(words[3:])
    return rows


def whole_run(program: str, folder: str) -> tuple[float, list[int]]:
    """How long a run takes that isn't killed, and the last number of each client that it answered
    `ok`, or -1. It writes numbers from 0 on."""
    begun = time.monotonic()
    status, report = run(program, ["run", str(NODES), folder], writes(0))
    assert status == 0, report
    seconds, last = time.monotonic() - begun, [-1] * CLIENTS
    for line in report.split("\n"):
        words = line.split()
        if words[:1] and words[0] in NAMES and words[2:] == ["ok"]:
            last[NAMES.index(words[0])] = int(words[1]) - 1
    return seconds, last


def kill_once(program: str, folder: str, first: int, after: float) -> bool:
    """Whether the process was still running when it was killed."""
    process = subprocess.Popen(
        [program, "run", str(NODES), folder], stdin=subprocess.PIPE, stdout=subprocess.DEVNULL)
    process.stdin.write(writes(first).encode())
    process.stdin.close()
    time.sleep(after)
    process.kill()
    return process.wait() != 0


def wrong(program: str, folder: str, least: list[int]) -> str:
    """What is wrong with the files, if anything. `least` has the least number of each client."""
    status, text = run(program, ["check", str(NODES), folder])
    if status != 0 or not text.startswith("check yes\n"):
        return f"check: {text!r}"
    status, report = run(program, ["replay", str(NODES), folder], reads())
    rows = found(report)
    if status != 0 or len(rows) != CLIENTS:
        return f"reads: {report!r}"
    for client, row in enumerate(rows):
        number = -1 if row[0] == "-" else int(row[0][1:])
        if len(set(row)) != 1 or len(row) != KEYS or number < least[client]:
            return f"client {client}: {row}, at least {least[client]}"
        least[client] = number
    return ""


def main() -> int:
    program = sys.argv[1]
    kills = int(sys.argv[2]) if len(sys.argv) > 2 else 500
    chance = random.Random(int(sys.argv[3]) if len(sys.argv) > 3 else 1)
    bad = running = 0
    with tempfile.TemporaryDirectory() as folder:
        whole, least = whole_run(program, folder)
        what = wrong(program, folder, least[:])
        assert not what, what
        progress = Progress("kills", kills)
        for _ in range(kills):
            first = max(least) + 1
            running += kill_once(program, folder, first, chance.uniform(0, 1.1 * whole))
            what = wrong(program, folder, least)
            if what:
                print(what)
                bad += 1
            progress.step(f"{running} while it ran")
    print(f"{kills} kills, {running} while it ran, {bad} wrong")
    return 1 if bad else 0


if __name__ == "__main__":
    sys.exit(main())
