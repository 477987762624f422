#!/usr/bin/env python3
"""Runs the program on scripts made at random, and on damaged ones.

    tests/random.py COUNT [SEED]

Every other script is whole: it must be accepted. The others are damaged in one to four bytes: each is accepted, or refused as a
script. An accepted one has status 0, nothing on standard error, lines of the right forms, and a report in which the expirations
are those called, lost and pending; and where the script was not damaged its text is the one that `tools/plain_run.py` works out
by itself. Half of the scripts suspend and resume. A refused one has status 2, no text, and one line 'script refused K', with
'step N' for 20 to 23. Every fourth pair of scripts is run in threads too: refused in the same words, or accepted with a report of
the same names, in which nothing is pending. The same seed makes the same scripts. The first faulty one is printed, and the status
is 1.
"""
import os
import sys

# this folder has a random.py that is not the library's
sys.path = [it for it in sys.path if os.path.abspath(it or ".") != os.path.dirname(os.path.abspath(__file__))]
import copy
import importlib.machinery
import importlib.util
import json
import random
import re
import subprocess

HERE = os.path.dirname(os.path.abspath(__file__))
PROGRAM = os.path.join(HERE, "..", "crates", "cyclic", "out", "cyclic")
NEVER = 2**63 - 1
SECOND = 10**9
REFUSED = re.compile(rb"script refused (?:19|2[0-3] step \d+)\n")
LINE = re.compile(
    rb"\d+ (?:ok|refused \d+|fired \d+ lost \d+|ran \d+ (?:idle|more)|kept \d+|removed [A-Za-z0-9_-]{1,32} \d+"
    rb"|(?:left )?moved \d+ bound \d+ pending \d+ refused \d+)\n")
REPORT = re.compile(rb"[A-Za-z0-9_-]{1,32} expired (\d+) called (\d+) lost (\d+) pending (\d+)\n")


def plain_run():
    """The module of tools/plain_run.py."""
    loader = importlib.machinery.SourceFileLoader("plain_run", os.path.join(HERE, "..", "tools", "plain_run.py"))
    sys.dont_write_bytecode = True
    module = importlib.util.module_from_spec(importlib.util.spec_from_loader("plain_run", loader))
    loader.exec_module(module)
    return module


class Maker:
    """Makes a script of all words. Moments are near the clock or far from it, so that no fire makes very many calls."""

    def __init__(self, chance):
        self.chance, self.clock, self.names = chance, 0, []
        self.cpus = chance.choice([1, 1, 2, 2, 3, 4, 16])
        # a chance of its own, so that the other words don't depend on whether the script suspends
        self.turns, self.suspended = random.Random(copy.copy(chance).getrandbits(64)), False

    def cpu(self):
        number = self.chance.choice([self.cpus, 15, 2**32 - 1]) if self.chance.random() < 0.03 else 0
        return number or self.chance.randrange(self.cpus)

    def near(self):
        return min(self.clock + self.chance.randint(0, 2000), NEVER)

    def moment(self):
        far = [0, -1, -2**63, min(self.clock + 4 * SECOND, NEVER), NEVER - self.chance.randint(1, 50), NEVER]
        return self.chance.choice(far) if self.chance.random() < 0.1 else self.near()

    def interval(self):
        far = [0, -1, 10**6, SECOND, 2**62, NEVER]
        return self.chance.choice(far) if self.chance.random() < 0.2 else self.chance.randint(1, 20)

    def name(self):
        letters = "abcXYZ019_-"
        return "".join(self.chance.choice(letters) for _ in range(self.chance.randint(1, 32))) + str(len(self.names))

    def skew(self):
        return self.chance.choice([0, 1, 7, 1000, NEVER])

    def add(self):
        name = self.name()[-32:]
        if name in self.names:
            return self.advance()
        self.names.append(name)
        added = [name, self.chance.choice(["low", "lock", "high"]), self.moment(), self.interval()]
        return ["add", *added] if self.chance.random() < 0.75 else ["omni", *added, self.skew()]

    def advance(self):
        jump = self.chance.random()
        if jump < 0.03:
            self.clock = min(self.clock + self.chance.choice([3 * SECOND, 2**50, 2**62]), NEVER - 1)
        elif jump < 0.9:
            self.clock = min(self.clock + self.chance.randint(0, 200), NEVER - 1)
        return ["advance", self.clock]

    def softint(self):
        budget = self.chance.choice([0, 1, 2, 8, 1000, 2**32 - 1])
        return ["softint", self.cpu(), self.chance.choice(["low", "lock"]), budget]

    def step(self):
        word = self.chance.random()
        if not self.names or word < 0.2:
            return self.add()
        if word < 0.45:
            return self.advance()
        if word < 0.7:
            return self.softint()
        name = self.chance.choice(self.names)
        if word < 0.78:
            return ["remove", name]
        if word < 0.84:
            return ["reprogram", name, self.moment()] if self.chance.random() < 0.6 else ["reprogram", name, self.moment(), self.cpu()]
        if word < 0.9:
            return ["bind", name, self.cpu()] if self.chance.random() < 0.7 else ["unbind", name]
        return [self.chance.choice(["juggle", "offline", "online"]), self.cpu()]

    def turn(self):
        """A suspend or a resume, one in six of them refused."""
        self.suspended ^= self.turns.random() > 1 / 6
        return ["suspend" if self.suspended else "resume"]

    def later(self):
        """After one turn in three the clock goes on, for many by more than a second."""
        if self.turns.random() < 1 / 3:
            self.clock = min(self.clock + self.turns.choice([0, 50, 1000, 3 * SECOND, 3 * SECOND]), NEVER - 1)
            yield ["advance", self.clock]

    def suspending(self, count):
        """So many steps with turns between them, more of them beside a fire and a CPU that goes or comes. The last is mostly a resume."""
        yield self.turn()
        yield from self.later()
        for _ in range(count):
            step = self.step()
            often = (0.12 if self.suspended else 0.04) * (2 if step[0] in ("advance", "offline", "online") else 1)
            if self.turns.random() < often:
                yield self.turn()
            yield step
            if self.turns.random() < often:
                yield self.turn()
                yield from self.later()
        while self.suspended and self.turns.random() < 0.8:
            yield self.turn()
            yield from self.later()

    def script(self):
        count = self.chance.choice([0, 3, 10, 30, 100, 300])
        steps = [*self.suspending(count)] if self.turns.random() < 0.5 else [self.step() for _ in range(count)]
        whole = {"cpus": self.cpus, "steps": steps}
        if self.chance.random() < 0.5:
            whole["ceiling"] = self.chance.choice([1, 2, 7, 2**32 - 1])
        return json.dumps(whole).encode()


def damaged(script, chance):
    """One to four bytes of the script exchanged, put in, taken out or cut off."""
    script = bytearray(script)
    for _ in range(chance.randint(1, 4)):
        at = chance.randrange(len(script)) if script else 0
        byte = chance.choice(b'0123456789-,.:[]{}" \\eEx\x00\xff') if chance.random() < 0.7 else chance.randrange(256)
        kind = chance.random()
        if kind < 0.4 and script:
            script[at] = byte
        elif kind < 0.7:
            script.insert(at, byte)
        elif kind < 0.97:
            del script[at:at + 1]
        else:
            del script[at:]
    return bytes(script)


def fault_of(text):
    """What is wrong with the text of an accepted script, or None."""
    lines = text.splitlines(keepends=True)
    report = 0
    for line in lines:
        counts = REPORT.fullmatch(line)
        if counts:
            report += 1
            expired, called, lost, pending = map(int, counts.groups())
            if expired != called + lost + pending:
                return f"the report {line!r}"
        elif report or not LINE.fullmatch(line):
            return f"the line {line!r}"
    return None


def look(script, whole, run):
    """What is wrong with the run of this script, or None. `run` is how tools/plain_run.py runs one."""
    try:
        ran = subprocess.run([PROGRAM, "replay"], input=script, capture_output=True, timeout=100)
    except subprocess.TimeoutExpired:
        return "no end within 100 seconds"
    if ran.returncode == 0:
        if whole and ran.stdout.decode().splitlines() != run(json.loads(script)).lines:
            return f"another text than that of tools/plain_run.py: {ran.stdout!r}"
        return "words on standard error" if ran.stderr else fault_of(ran.stdout)
    if whole or ran.returncode != 2 or ran.stdout or not REFUSED.fullmatch(ran.stderr):
        return f"status {ran.returncode}, text {ran.stdout[:80]!r}, words {ran.stderr[:80]!r}"
    return None


def look_in_threads(script):
    """What is wrong with the run of this script in threads, beside its replay, or None."""
    try:
        replayed, ran = (subprocess.run([PROGRAM, word], input=script, capture_output=True, timeout=100) for word in ("replay", "run"))
    except subprocess.TimeoutExpired:
        return "in threads: no end within 100 seconds"
    reports = [[REPORT.fullmatch(line) for line in it.stdout.splitlines(keepends=True)] for it in (replayed, ran)]
    names = [[counts[0].split()[0] for counts in report if counts] for report in reports]
    if (ran.returncode, ran.stderr, names[1]) != (replayed.returncode, replayed.stderr, names[0]) or None in reports[1]:
        return f"in threads: status {ran.returncode}, words {ran.stderr[:80]!r}, text {ran.stdout[:300]!r}"
    for expired, called, lost, pending in (map(int, counts.groups()) for counts in reports[1]):
        if expired != called + lost or pending:
            return f"in threads: a report {ran.stdout!r}"
    return None


def main():
    count, seed = int(sys.argv[1]), int(sys.argv[2]) if len(sys.argv) > 2 else 1
    run = plain_run().Run
    for number in range(count):
        chance = random.Random(seed * 2**32 + number)
        script, whole = Maker(chance).script(), number % 2 == 0
        if not whole:
            script = damaged(script, chance)
        fault = look(script, whole, run) or (look_in_threads(script) if number % 8 < 2 else None)
        if fault:
            print(f"random: seed {seed}, script {number}: {fault}\n{script!r}")
            return 1
    print(f"random: {count} scripts of seed {seed}: passed")
    return 0


if __name__ == "__main__":
    sys.exit(main())
