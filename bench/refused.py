#!/usr/bin/env python3
"""Refuses the program memory, one allocation after another, and looks at what it answers.

    bench/refused.py PROGRAM [EVERY]

Each of three scripts of one client is replayed on a fresh folder as often as the replay allocates:
each time another allocation is refused, alone or with all later ones. The status must be 7, or 0
with a report in which some operations are answered `nomemory`, and all else is as in a report on
the script without these. Then `check` must write `check yes`. EVERY is 1; 10 takes each tenth
allocation. It tells each replay that is wrong, and ends with 1 if there is one.
"""
import os
import subprocess
import sys
import tempfile

from progress import Progress

TOP = os.path.dirname(os.path.dirname(os.path.abspath(__file__)))
ROWS = ["first", "transactions", "versions"]


class Row:
    """A script of one client: the lines up to its operations, and these."""

    def __init__(self, name: str):
        with open(os.path.join(TOP, "examples", name + ".script")) as script:
            lines = [line for line in script.read().split("\n") if line and line[0] != "#"]
        self.name, self.nodes = name, lines[0].split()[1]
        self.front, self.operations = lines[:2], lines[2:]
        self.reports: dict[tuple[int, ...], list[str]] = {}

    def text(self, left_out: tuple[int, ...] = ()) -> str:
        kept = [line for number, line in enumerate(self.operations) if number not in left_out]
        return "\n".join(self.front + kept) + "\n"


def run(words: list[str], text: str = "", more: dict[str, str] | None = None) -> tuple[int, str]:
    done = subprocess.run(words, input=text.encode(), stdout=subprocess.PIPE, timeout=600,
                          env={**os.environ, **(more or {})})
    return done.returncode, done.stdout.decode()


def answers(report: str) -> list[str]:
    """The answers of the operations, and the versions. The client has one letter."""
    lines = report.split("\n")
    told = [" ".join(line.split()[2:]) for line in lines[:lines.index(history_of(lines))]]
    return told + [line for line in lines if line.startswith("version ")]


def history_of(lines: list[str]) -> str:
    return next(line for line in lines if line.startswith("history "))


def expected(program: str, row: Row, left_out: tuple[int, ...]) -> list[str]:
    """What is answered without these operations, each of which is then put back as `nomemory`."""
    if left_out not in row.reports:
        with tempfile.TemporaryDirectory() as folder:
            status, report = run([program, "replay", row.nodes, folder], row.text(left_out))
        assert status == 0, report
        told = answers(report)
        for number in left_out:
            told.insert(number, "nomemory")
        row.reports[left_out] = told
    return row.reports[left_out]


def wrong(program: str, row: Row, library: str, at: int, on: str) -> str:
    """What is wrong where this allocation is refused, if anything."""
    with tempfile.TemporaryDirectory() as folder:
        status, report = run([program, "replay", row.nodes, folder], row.text(),
                             {"LD_PRELOAD": library, "REFUSE_AT": str(at), "REFUSE_ON": on})
        if status != 0 and (status, report) != (7, "no memory\n"):
            return f"status {status}: {report!r}"
        if status == 0:
            told = answers(report)
            lacks = tuple(n for n, answer in enumerate(told) if answer == "nomemory")
            if told != expected(program, row, lacks):
                return f"answers {told}"
        status, text = run([program, "check", row.nodes, folder])
        return "" if status == 0 and text.startswith("check yes\n") else f"check: {text!r}"


def allocations(program: str, row: Row, library: str) -> int:
    with tempfile.TemporaryDirectory() as disks, tempfile.TemporaryDirectory() as folder:
        told = os.path.join(folder, "told")
        status, report = run([program, "replay", row.nodes, disks], row.text(),
                             {"LD_PRELOAD": library, "REFUSE_TOLD": told})
        assert status == 0, report
        with open(told, "rb") as file:
            return int.from_bytes(file.read(), "little")


def main() -> int:
    program, every = sys.argv[1], int(sys.argv[2]) if len(sys.argv) > 2 else 1
    bad = 0
    with tempfile.TemporaryDirectory() as folder:
        library = os.path.join(folder, "refused.so")
        subprocess.run(["cc", "-O2", "-shared", "-fPIC", "-o", library,
                        os.path.join(TOP, "bench", "refused.c"), "-ldl"], check=True)
        for row in map(Row, ROWS):
            places = range(1, allocations(program, row, library) + 1, every)
            progress = Progress(row.name, 2 * len(places))
            for at in places:
                for on in "01":
                    what = wrong(program, row, library, at, on)
                    if what:
                        print(f"{row.name}, allocation {at}{' and on' if on == '1' else ''}: {what}")
                        bad += 1
                    progress.step()
    print(f"{bad} wrong")
    return 1 if bad else 0


if __name__ == "__main__":
    sys.exit(main())
