#!/usr/bin/env python3
"""Runs the program in threads on scripts made at random, and compares each report with a closed form.

    tests/threads.py COUNT [SEED]

The scripts have 1 to 16 CPUs, all words but `offline`, ceilings from 1 on, and between any two removals a word at which a run
waits until each CPU has settled. Some suspend and resume. So the report tells the same expirations whatever the schedule: each
name's are summed up here from the script's words alone. Its losses depend on the schedule, so for them there is a bound: between two
moments at which nothing is pending, the first expirations of a cyclic on a CPU, as many as the ceiling, are not lost. All others are
called or lost, and nothing is pending. This shares no code with the program. The same seed makes the same scripts. The first faulty
one is printed, and the status is 1.
"""
import os
import sys

# this folder has a random.py that is not the library's
sys.path = [it for it in sys.path if os.path.abspath(it or ".") != os.path.dirname(os.path.abspath(__file__))]
import copy
import json
import random
import re
import subprocess

HERE = os.path.dirname(os.path.abspath(__file__))
PROGRAM = os.path.join(HERE, "..", "crates", "cyclic", "out", "cyclic")
NEVER = 2**63 - 1
SECOND = 10**9
GREATEST = 2**32 - 1
REPORT = re.compile(r"([A-Za-z0-9_-]{1,32}) expired (\d+) called (\d+) lost (\d+) pending 0")
ENDLESS = 30  # no run takes so many seconds


# ---- the closed form


def first(start, interval, now):
    """The first expiration of a cyclic that is added now."""
    return start or min((now // interval + 1) * interval, NEVER)


def fired(moment, interval, now):
    """How often a cyclic expires in one fire, and its expiration after it."""
    if moment > now:
        return 0, moment
    missed = (now - moment) // interval + 1
    return (1 if now - moment - interval > SECOND else missed), min(moment + missed * interval, NEVER)


class Cyclic:
    """A name's cyclic: the next expiration of each component, one alone where it is not omnipresent."""

    def __init__(self):
        self.level, self.interval, self.moments, self.is_omni = "high", 1, [], False
        self.since = []  # the expirations of each component since nothing was pending
        self.expired, self.lost = 0, 0

    def begin(self, level, interval, moments, is_omni):
        self.level, self.interval, self.moments, self.is_omni = level, interval, moments, is_omni
        self.since = [0] * len(moments)

    def advance(self, now):
        for position, moment in enumerate(self.moments):
            count, self.moments[position] = fired(moment, self.interval, now)
            self.expired += count
            self.since[position] += count

    def settle(self, ceiling):
        """Nothing is pending now. What stood at the ceiling may have been lost before."""
        if self.level != "high":
            self.lost += sum(max(count - ceiling, 0) for count in self.since)
        self.since = [0] * len(self.since)


def expected(script):
    """For each name, in order, its expirations and the most of them that can be lost."""
    ceiling, clock, suspended, cyclics = script.get("ceiling", GREATEST), 0, False, {}
    for word, *words in script["steps"]:
        if word not in ("advance", "remove"):
            for cyclic in cyclics.values():
                cyclic.settle(ceiling)
        if word in ("add", "omni"):
            name, level, start, interval, *skew = words
            cyclic = cyclics.setdefault(name, Cyclic())
            if start >= 0 and interval >= 1:
                starts = [min(start + cpu * skew[0], NEVER) for cpu in range(script["cpus"])] if skew else [start]
                cyclic.begin(level, interval, [first(it, interval, clock) for it in starts], bool(skew))
        elif word == "reprogram":
            name, moment, *cpu = words
            cyclic = cyclics[name]
            # where the cyclic isn't there, no component is
            if moment >= 0 and cyclic.is_omni == bool(cpu) and (cpu or [0])[0] < len(cyclic.moments):
                cyclic.moments[(cpu or [0])[0]] = moment
        elif word == "remove":
            cyclics[words[0]].moments = []
        elif word in ("suspend", "resume"):
            suspended = word == "suspend"
        elif word == "advance":
            clock = words[0]
            for cyclic in [] if suspended else cyclics.values():
                cyclic.advance(clock)
    for cyclic in cyclics.values():
        cyclic.settle(ceiling)
    return [(name, cyclic.expired, cyclic.lost) for name, cyclic in cyclics.items()]


# ---- scripts


class Maker:
    """Makes a script. Moments are near the clock, or so far that a fire makes one expiration, so none makes very many."""

    def __init__(self, chance):
        self.chance, self.clock, self.names, self.removed = chance, 0, [], False
        self.cpus = chance.choice([1, 1, 2, 2, 3, 4, 8, chance.randint(1, 16)])
        self.longest = chance.choice([20, 200, 2000])
        # a chance of its own, so that the other words don't depend on whether the script suspends
        self.turns, self.suspended = random.Random(copy.copy(chance).getrandbits(64)), False

    def cpu(self):
        far = self.chance.choice([self.cpus, 15, GREATEST]) if self.chance.random() < 0.03 else 0
        return far or self.chance.randrange(self.cpus)

    def moment(self):
        far = [0, -1, -2**63, min(self.clock + 4 * SECOND, NEVER), NEVER - self.chance.randint(1, 50), NEVER]
        if self.chance.random() < 0.1:
            return self.chance.choice(far)
        return min(self.clock + self.chance.randint(0, self.longest), NEVER)

    def interval(self):
        far = [0, -1, 10**6, SECOND, 2**62, NEVER]
        return self.chance.choice(far) if self.chance.random() < 0.1 else self.chance.randint(1, 20)

    def add(self):
        name = "".join(self.chance.choice("abcXYZ019_-") for _ in range(self.chance.randint(1, 28)))
        self.names.append(f"{name}{len(self.names):04}")
        added = [self.names[-1], self.chance.choice(["low", "lock", "high"]), self.moment(), self.interval()]
        return ["add", *added] if self.chance.random() < 0.7 else ["omni", *added, self.chance.choice([0, 1, 7, 1000, NEVER])]

    def advance(self):
        jump = self.chance.random()
        far = self.chance.choice([3 * SECOND, 2**50, 2**62]) if jump < 0.03 else self.chance.randint(0, self.longest)
        self.clock = min(self.clock + far, NEVER - 1)
        return ["advance", self.clock]

    def other(self):
        """A step of another word than `advance` and `remove`."""
        word = self.chance.random()
        if not self.names or len(self.names) < 256 and word < 0.4:
            return self.add()
        if word < 0.5:
            return ["softint", self.cpu(), self.chance.choice(["low", "lock"]), self.chance.choice([0, 1, 8, GREATEST])]
        name = self.chance.choice(self.names)
        if word < 0.7:
            moved = ["reprogram", name, self.moment()]
            return moved if self.chance.random() < 0.6 else [*moved, self.cpu()]
        if word < 0.85:
            return ["bind", name, self.cpu()] if self.chance.random() < 0.7 else ["unbind", name]
        return [self.chance.choice(["juggle", "juggle", "online"]), self.cpu()]

    def step(self):
        word = self.chance.random()
        if word < 0.45:
            return self.advance()
        if word < 0.55 and self.names and not self.removed:
            self.removed = True
            return ["remove", self.chance.choice(self.names)]
        self.removed = False
        return self.other()

    def turn(self):
        """A suspend or a resume, one in six of them refused. After one in four more than a second goes by."""
        self.suspended ^= self.turns.random() > 1 / 6
        self.removed = False
        yield ["suspend" if self.suspended else "resume"]
        if self.turns.random() < 1 / 4:
            self.clock = min(self.clock + 3 * SECOND, NEVER - 1)
            yield ["advance", self.clock]

    def suspending(self, count):
        """So many steps with turns between them."""
        for _ in range(count):
            if self.turns.random() < (0.25 if self.suspended else 0.1):
                yield from self.turn()
            yield self.step()

    def script(self):
        count = self.chance.choice([0, 3, 10, 30, 100])
        steps = [*self.suspending(count)] if self.turns.random() < 0.5 else [self.step() for _ in range(count)]
        whole = {"cpus": self.cpus, "steps": steps}
        if self.chance.random() < 0.7:
            whole["ceiling"] = self.chance.choice([1, 2, 3, 7, 50, GREATEST])
        return whole


# ---- runs


def fault_of(script):
    """What is wrong with the run of this script, or None."""
    try:
        ran = subprocess.run([PROGRAM, "run"], input=json.dumps(script).encode(), capture_output=True, timeout=ENDLESS)
    except subprocess.TimeoutExpired:
        return f"no end within {ENDLESS} seconds"
    if ran.returncode or ran.stderr:
        return f"status {ran.returncode}, words {ran.stderr[:80]!r}"
    lines, wanted = ran.stdout.decode().splitlines(), expected(script)
    if len(lines) != len(wanted) or ran.stdout and not ran.stdout.endswith(b"\n"):
        return f"{len(lines)} lines for {len(wanted)} names"
    for line, (name, expired, most) in zip(lines, wanted):
        told = REPORT.fullmatch(line)
        if not told or told[1] != name or int(told[2]) != expired:
            return f"the line {line!r} for {expired} expirations of {name}"
        called, lost = int(told[3]), int(told[4])
        if called + lost != expired or lost > most:
            return f"the line {line!r} where at most {most} are lost"
    return None


def main():
    count, seed = int(sys.argv[1]), int(sys.argv[2]) if len(sys.argv) > 2 else 1
    for number in range(count):
        script = Maker(random.Random(seed * 2**32 + number)).script()
        fault = fault_of(script)
        if fault:
            print(f"threads: seed {seed}, script {number}: {fault}\n{json.dumps(script)}")
            return 1
    print(f"threads: {count} scripts of seed {seed}: passed")
    return 0


if __name__ == "__main__":
    sys.exit(main())
