#!/usr/bin/env python3
"""Runs scripts on threads and judges each report by a plain store; then times them.

bench/threads.py [RUNS]    default 200; build first with scripts/minuet prove

Each script has 8 nodes, 16 clients on two hot leaves, stops, kills and recovery coordinators. A
report is right where its history, applied in order to a store without nodes, gives each answer and
each version that the report prints, and holds just the operations that it must. At the end: the
wall and processor time of `run 8` beside `replay 8`, for 8 clients of 1,000 operations each on
keys of their own. Progress goes to stderr.
"""
import hashlib
import os
import random
import subprocess
import sys
import tempfile
import time
from pathlib import Path
from urllib.parse import unquote_to_bytes

from progress import Progress

PROGRAM = Path(os.environ.get(
    "MINUET", Path(__file__).resolve().parent.parent / "crates/minuet/out/minuet"))
# As scripts/minuet sets it.
ENVIRONMENT = {"MALLOC_TOP_PAD_": "33554432", **os.environ}
KEYS = [f"k{number}" for number in range(1, 10)]
HOT = ["k1", "k2", "k8", "k9"]
MOST_VERSIONS = 64


# Scripts

def operation(chance: random.Random, name: str) -> str:
    one, other = chance.sample(HOT, 2)
    value = f"{name}{chance.randrange(1000)}"
    return chance.choice([
        f"put main {one} {value}",
        f"get main {one}",
        f"tx main get {one} ; put {other} {value}",
        f"tx main put {one} {value} ; put {other} {value}",
        f"tx main check {one} is v ; put {other} {value}",
        f"del main {one}",
    ])


def hot_script(seed: int) -> str:
    chance = random.Random(seed)
    lines = ["nodes 8", "recoverers 2", "client s first"]
    lines += [f"put main {key} v" for key in KEYS]
    names = [f"c{number}" for number in range(14)]
    for name in names:
        lines.append(f"client {name}")
        lines += [operation(chance, name) for _ in range(12)]
    lines += ["client z last", "snapshot main w", "scan main % % 64", "get w k1"]
    for _ in range(3):
        lines.append(f"kill {chance.choice(names)} {chance.randrange(1, 13)} votes 1")
        lines.append(f"stop {chance.randrange(2)} {chance.choice(names)} "
                     f"{chance.randrange(1, 13)} {chance.choice(['before', 'half', 'after'])}")
    return "\n".join(lines) + "\n"


def own_keys_script() -> str:
    """Eight clients of 1,000 operations each, on keys of their own."""
    lines = ["nodes 8"]
    for client in range(8):
        lines.append(f"client c{client}")
        for number in range(1000):
            key = f"c{client}x{number * 7919 % 100}"
            lines.append(f"get main {key}" if number % 2 else f"put main {key} {number}")
    return "\n".join(lines) + "\n"


# A store without nodes: keys and values are kept as they are spelled

def bytes_of(word: str) -> bytes:
    return b"" if word == "%" else unquote_to_bytes(word)


class Version:
    def __init__(self, name, parent, pairs):
        self.name, self.parent, self.frozen, self.pairs = name, parent, False, dict(pairs)


class Store:
    def __init__(self):
        self.versions = [Version("main", None, {})]

    def named(self, name):
        return next((v for v in self.versions if v.name == name), None)

    def refusal(self, words):
        if words[0] == "versions":
            return None
        version = self.named(words[1])
        if version is None:
            return "noversion"
        writes = words[0] in ("put", "del", "snapshot") or (
            words[0] == "tx" and any(word in ("put", "del") for word in words[2:]))
        if version.frozen and writes:
            return "frozen"
        if not version.frozen and words[0] in ("branch", "scan"):
            return "notfrozen"
        if words[0] in ("snapshot", "branch"):
            if self.named(words[2]) is not None:
                return "nametaken"
            if len(self.versions) == MOST_VERSIONS:
                return "versionsfull"
        return None

    def steps(self, version, steps):
        pairs, found = dict(version.pairs), []
        for number, step in enumerate(steps, 1):
            if step[0] == "get":
                found.append(spelled(pairs.get(step[1])))
            elif step[0] == "put":
                pairs[step[1]] = valued(step[2])
            elif step[0] == "del":
                pairs.pop(step[1], None)
            else:
                wanted = None if step[2] == "absent" else valued(step[3])
                if pairs.get(step[1]) != wanted:
                    return f"unmet {number} {spelled(pairs.get(step[1]))}"
        version.pairs = pairs
        return " ".join(["ok", *found])

    def apply(self, line):
        words = line.split(" ")
        refused = self.refusal(words)
        if refused is not None:
            return refused
        if words[0] in ("put", "get", "del"):
            return self.steps(self.named(words[1]), [[words[0], *words[2:]]])
        if words[0] == "tx":
            steps = [step.split(" ") for step in line.split(" ", 2)[2].split(" ; ")]
            return self.steps(self.named(words[1]), steps)
        if words[0] in ("snapshot", "branch"):
            version = self.named(words[1])
            version.frozen = version.frozen or words[0] == "snapshot"
            self.versions.append(Version(words[2], version.name, version.pairs))
            return "made"
        if words[0] == "scan":
            low, high = bytes_of(words[2]), bytes_of(words[3])
            pairs = [pair for pair in in_order(self.named(words[1]).pairs)
                     if low <= bytes_of(pair[0]) and (not high or bytes_of(pair[0]) < high)]
            pairs = pairs[:int(words[4])]
            return " ".join([f"pairs {len(pairs)}", *(f"{key} ={value}" for key, value in pairs)])
        listed = [f"{v.name} {v.parent or '-'} {'frozen' if v.frozen else 'writable'}"
                  for v in self.versions]
        return " ".join([f"versions {len(listed)}", *listed])

    def lines(self):
        for version in self.versions:
            digest = hashlib.sha256()
            for pair in in_order(version.pairs):
                for word in map(bytes_of, pair):
                    digest.update(bytes([len(word)]) + word)
            yield (f"version {version.name} {version.parent or '-'} "
                   f"{'frozen' if version.frozen else 'writable'} {len(version.pairs)} "
                   f"{digest.hexdigest()}")


def in_order(pairs):
    return sorted(pairs.items(), key=lambda pair: bytes_of(pair[0]))


def valued(word):
    return "" if word == "%" else word


def spelled(value):
    return "-" if value is None else f"={value}"


# Judging

def operations_of(script: str) -> dict[tuple[str, int], str]:
    found, client, number = {}, None, 0
    for line in script.splitlines():
        words = line.split(" ")
        if words[0] == "client":
            client, number = words[1], 0
        elif words[0] in ("nodes", "recoverers", "kill", "stop"):
            continue
        else:
            number += 1
            found[client, number] = line
    return found


def order_fault(order: list, doubts: dict) -> str | None:
    """What a client learned stands in its order; what it doubts, behind all that it had learned."""
    places = {operation: place for place, operation in enumerate(order)}
    for (client, number), place in places.items():
        before = [places[client, earlier] for earlier in range(1, number)
                  if (client, earlier) in places and (client, earlier) not in doubts]
        if before and max(before) > place:
            return f"operation {number} of {client} stands before an earlier one"
    return None


def fault_of(script: str, report: str) -> str | None:
    """What is wrong with the report, if anything is."""
    operations, lines = operations_of(script), report.splitlines()
    answers = {}
    for (client, number), line in zip(operations, lines):
        words = line.split(" ", 2)
        if words[:2] != [client, str(number)]:
            return f"answers out of order: {line}"
        answers[client, number] = words[2]
    rest = lines[len(operations):]
    if not rest or not rest[0].startswith("history "):
        return "no history"
    count = int(rest[0].split(" ")[1])
    history = [tuple(line.split(" ")) for line in rest[1:count + 1]]
    order = [(client, int(number)) for _rank, client, number in history]
    if [rank for rank, _client, _number in history] != [str(k) for k in range(1, count + 1)]:
        return "ranks"
    if len(set(order)) != len(order):
        return "an operation twice"
    rest = rest[count + 1:]
    doubts = {}
    while rest and rest[0].startswith("doubt "):
        _word, client, number, outcome = rest.pop(0).split(" ")
        doubts[client, int(number)] = outcome
    while rest and rest[0].startswith("point "):
        rest.pop(0)
    for operation, answer in answers.items():
        if answer.split(" ")[0] in ("doubt", "died"):
            committed = doubts.get(operation) == "committed"
            if operation not in doubts or committed != (operation in order):
                return f"doubt of {operation}"
        else:
            has_effect = answer.split(" ")[0] not in (
                "busy", "down", "full", "worn", "nomemory", "never")
            if has_effect != (operation in order):
                return f"{operation} {answer}: in the history or not"
    fault = order_fault(order, doubts)
    if fault is not None:
        return fault
    store = Store()
    for operation in order:
        reply = store.apply(operations[operation])
        if operation not in doubts and reply != answers[operation]:
            return f"{operation} answered {answers[operation]}, not {reply}"
    if rest != [*store.lines(), "end"]:
        return "versions"
    return None


# Running

def run(words: list, script: str) -> tuple[str, float, float]:
    """The report, and seconds: by the wall, and of processors."""
    with tempfile.TemporaryFile() as given:
        given.write(script.encode())
        given.seek(0)
        begun = time.monotonic()
        made = subprocess.Popen(
            [PROGRAM, *words], stdin=given, stdout=subprocess.PIPE, env=ENVIRONMENT)
        report = made.stdout.read()
        _, status, used = os.wait4(made.pid, 0)
        wall = time.monotonic() - begun
    if status != 0:
        sys.exit(f"{words} ended with {status}")
    return report.decode(), wall, used.ru_utime + used.ru_stime


def judge(runs: int) -> int:
    wrong, kinds = 0, {}
    progress = Progress("scripts run on threads and judged", runs)
    for seed in range(runs):
        script = hot_script(seed)
        report, _wall, _used = run(["run", "8"], script)
        fault = fault_of(script, report)
        if fault is not None:
            wrong += 1
            print(f"run {seed}: {fault}")
        for line in report.splitlines()[:len(operations_of(script))]:
            kind = line.split(" ")[2]
            kinds[kind] = kinds.get(kind, 0) + 1
        progress.step(f"{wrong} wrong")
    print(f"{runs} runs, {wrong} wrong; answers: "
          + ", ".join(f"{count} {kind}" for kind, count in sorted(kinds.items())))
    return wrong


def compare_times() -> None:
    script = own_keys_script()
    for command in ("replay", "run"):
        times, progress = [], Progress(f"runs of {command} 8 timed", 3)
        for _ in range(3):
            times.append(run([command, "8"], script)[1:])
            progress.step()
        wall, used = min(times)
        print(f"{command} 8: {wall:.2f} s by the wall, {used:.2f} s of processors")


if __name__ == "__main__":
    faults = judge(int(sys.argv[1]) if len(sys.argv) > 1 else 200)
    compare_times()
    sys.exit(1 if faults else 0)
