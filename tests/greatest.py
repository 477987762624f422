#!/usr/bin/env python3
"""Runs the program on scripts as great as they may be: 16 CPUs with 4,096 cyclics together, or 4,096 components; with 2,048 cyclics each, which
move from one to another; and with 4,096 components each, which is all that they hold.

    tests/greatest.py [--compare]

The first is run in threads too.

Each text is worked out here: how often a cyclic expires up to a moment is a quotient, what a level loses is what its pend would
have above the ceiling, and which CPU is empty says where a juggle goes. Between the advances the CPUs go offline one after
another, bound cyclics and such with calls outstanding stay, and removals wait for their calls. With --compare the text of those with
4,096 together is also compared with that of tools/plain_run.py, which works out each step. The first line that differs is printed, and the status is 1.
"""
import importlib.machinery
import importlib.util
import json
import os
import subprocess
import sys

HERE = os.path.dirname(os.path.abspath(__file__))
PROGRAM = os.path.join(HERE, "..", "crates", "cyclic", "out", "cyclic")
CPUS, EACH, MOST, ALL = 16, 256, 4096, 2**32 - 1
LEVELS = ["low", "lock", "high"]


class Cyclic:
    """A cyclic on one CPU, or a component there: with `since` the moment at which it was placed."""

    def __init__(self, name, cpu, level, start, interval, since=0):
        self.name, self.cpu, self.level, self.start, self.interval, self.since = name, cpu, level, start, interval, since
        self.expired = self.called = self.lost = self.pend = 0

    def due(self, now):
        """How often it expires from its placing up to this moment: a start of 0 is aligned to the interval."""
        if self.start == 0:
            return now // self.interval - self.since // self.interval
        return (now - self.start) // self.interval + 1 if now >= self.start else 0

    def fire(self, now, ceiling):
        expired = self.due(now) - self.expired
        held = expired if self.level == "high" else min(expired, ceiling - self.pend)
        self.expired, self.lost = self.expired + expired, self.lost + expired - held
        if self.level == "high":
            self.called += held
        else:
            self.pend += held
        return expired, expired - held

    def serve(self):
        calls, self.pend = self.pend, 0
        self.called += calls
        return calls


class Script:
    """The steps of a script, each with its lines."""

    def __init__(self, ceiling):
        self.ceiling, self.now, self.steps, self.lines, self.report = ceiling, 0, [], [], {}
        self.here = [[] for _ in range(CPUS)]  # what is on each CPU
        self.open = {}  # the cyclic whose removal is open, by its CPU

    def step(self, said, *step):
        self.steps.append(step)
        self.lines.append(f"{len(self.steps)} {said}")

    def put(self, cyclic):
        self.here[cyclic.cpu].append(cyclic)
        self.report.setdefault(cyclic.name, []).append(cyclic)

    def advance(self, by):
        self.now += by
        fired = [cyclic.fire(self.now, self.ceiling) for cpu in self.here for cyclic in cpu]
        self.step(f"fired {sum(it[0] for it in fired)} lost {sum(it[1] for it in fired)}", "advance", self.now)

    def serve(self, cpu):
        for level in ("low", "lock"):
            calls = sum(cyclic.serve() for cyclic in self.here[cpu] if cyclic.level == level)
            self.step(f"ran {calls} idle", "softint", cpu, level, ALL)
            if cpu in self.open and self.open[cpu].level == level:
                ended = self.open.pop(cpu)
                self.here[cpu].remove(ended)
                self.lines.append(f"{len(self.steps)} removed {ended.name} {ended.called}")

    def serve_all(self):
        for cpu in range(CPUS):
            self.serve(cpu)

    def follow(self):
        """Both levels of each CPU follow to the banks that they fill, so that all can grow again."""
        for cpu in range(CPUS):
            self.step("ran 0 idle", "softint", cpu, "low", 1)
            self.step("ran 0 idle", "softint", cpu, "lock", 1)

    def leave(self, word, cpu, free):
        """A juggle of the CPU, or its offline: what neither is bound nor has calls outstanding goes to the one with room."""
        bound = [it for it in self.here[cpu] if it.name in self.bound]
        pending = [it for it in self.here[cpu] if it.pend and it.name not in self.bound]
        others = [it for it in self.here[cpu] if not it.pend and it.name not in self.bound]
        moved = others if free is not None else []
        shares = f"moved {len(moved)} bound {len(bound)} pending {len(pending)} refused {len(others) - len(moved)}"
        for cyclic in moved:
            self.here[cpu].remove(cyclic)
            self.here[free].append(cyclic)
        gone = word == "offline" and not self.here[cpu]
        self.step("ok" if gone else f"left {shares}" if word == "offline" else shares, word, cpu)

    bound = ()

    def text(self):
        for name, parts in self.report.items():
            expired, called, lost, pend = (sum(counts) for counts in zip(*[(it.expired, it.called, it.lost, it.pend) for it in parts]))
            self.lines.append(f"{name} expired {expired} called {called} lost {lost} pending {pend}")
        return "".join(f"{line}\n" for line in self.lines)

    def json(self):
        return json.dumps({"cpus": CPUS, "ceiling": self.ceiling, "steps": self.steps}).encode()


def all_follow(made, each, count):
    """The CPUs have so many each: where they fill a bank, and one more would need a greater one, their levels follow to it."""
    if 1 < count < each and count & (count - 1) == 0:
        made.follow()


def full_cpus(each):
    """So many high cyclics on each CPU, and one more; then all expire at once."""
    made = Script(ALL)
    for k in range(CPUS * each):
        made.put(Cyclic(f"c{k}", k % CPUS, "high", 10, 10))
        made.step("ok", "add", f"c{k}", "high", 10, 10)
        if (k + 1) % CPUS == 0:
            all_follow(made, each, (k + 1) // CPUS)
    made.step("refused 6", "add", "more", "high", 10, 10)
    made.advance(10)
    made.report["more"] = [Cyclic("more", 0, "high", 10, 10)]
    return made


def one_at_a_time(made, source, free):
    """The CPU goes offline in four tries: one cyclic is bound, the soft ones have calls outstanding, and then none does."""
    first = made.here[source][0].name
    made.bound = (first,)
    made.step("ok", "bind", first, source)
    made.leave("offline", source, free)
    made.leave("juggle", source, free)
    made.serve(source)
    made.leave("offline", source, free)
    made.bound = ()
    made.step("ok", "unbind", first)
    made.leave("offline", source, free)
    made.advance(29)
    made.step("ok", "online", source)


def moving(each):
    """So many cyclics of all levels on each: those of one CPU are removed, and then each other CPU in turn goes offline and comes back."""
    made = Script(5)
    for k in range(CPUS * each):
        n = k // CPUS
        cyclic = Cyclic(f"c{k}", k % CPUS, LEVELS[n % 3], 10 + n % 5, 7 + n % 11)
        made.put(cyclic)
        made.step("ok", "add", cyclic.name, cyclic.level, cyclic.start, cyclic.interval)
        if (k + 1) % CPUS == 0:
            all_follow(made, each, (k + 1) // CPUS)
    made.advance(100)
    made.leave("juggle", 3, None)
    made.advance(31)
    made.leave("offline", 4, None)
    made.serve_all()
    for cyclic in list(made.here[CPUS - 1]):
        made.here[CPUS - 1].remove(cyclic)
        made.step(f"removed {cyclic.name} {cyclic.called}", "remove", cyclic.name)
    free = CPUS - 1
    for source in range(CPUS - 1):
        made.advance(17 + source)
        if source % 3 == 0:
            one_at_a_time(made, source, free)
        else:
            made.serve_all()
            made.leave("juggle" if source % 3 == 1 else "offline", source, free)
            if source % 3 == 2:
                made.advance(5)
                made.step("ok", "online", source)
        made.serve_all()
        free = source
    made.advance(40)
    for cpu in range(CPUS):
        waiting = [it for it in made.here[cpu] if it.pend][cpu:cpu + 1]
        for cyclic in waiting:
            made.step(f"kept {cyclic.pend}", "remove", cyclic.name)
            made.open[cpu] = cyclic
    made.serve_all()
    made.advance(23)
    return made


def components(each):
    """So many omnipresent cyclics, which are 16 times as many components: each CPU in turn goes offline and comes back."""
    made = Script(3)
    omni = [(f"o{n}", LEVELS[n % 3], 20 * (n % 2), 9 + n % 13, 4 * (n % 2)) for n in range(each)]

    def put_all_on(cpu, since):
        for name, level, start, interval, skew in omni:
            made.put(Cyclic(name, cpu, level, start + cpu * skew, interval, since))

    for n, it in enumerate(omni):
        made.step("ok", "omni", *it)
        all_follow(made, each, n + 1)
    for cpu in range(CPUS):
        put_all_on(cpu, 0)
    made.step("refused 5" if each == MOST else "refused 6", "omni", "more", "low", 1, 1, 0)
    made.advance(120)
    for cpu in range(CPUS):
        made.step("refused 9", "offline", cpu)
        made.step("moved 0 bound 0 pending 0 refused 0", "juggle", cpu)
        made.serve(cpu)
        made.step("ok", "offline", cpu)
        made.here[cpu].clear()
        made.advance(11 + cpu)
        made.serve_all()
        made.step("ok", "online", cpu)
        put_all_on(cpu, made.now)
        made.advance(35)
    made.serve_all()
    for name, *_ in omni[:5]:
        parts = made.report[name]
        for cpu in made.here:
            cpu[:] = [it for it in cpu if it.name != name]
        made.step(f"removed {name} {sum(it.called for it in parts)}", "remove", name)
    made.advance(50)
    made.report["more"] = [Cyclic("more", 0, "low", 1, 1)]
    return made


def plain_text(script):
    """The text that tools/plain_run.py works out."""
    loader = importlib.machinery.SourceFileLoader("plain_run", os.path.join(HERE, "..", "tools", "plain_run.py"))
    sys.dont_write_bytecode = True
    module = importlib.util.module_from_spec(importlib.util.spec_from_loader("plain_run", loader))
    loader.exec_module(module)
    return "".join(f"{line}\n" for line in module.Run(json.loads(script)).lines)


def report_of(made):
    """What a run in threads writes of a script whose calls are all made: the report alone."""
    return "".join(f"{line}\n" for line in made.lines[-len(made.report):])


def differs(name, found, wanted):
    if found == wanted:
        return False
    lines = zip([*found.splitlines(), None], [*wanted.splitlines(), None])
    print(f"greatest: {name}: wrote {next(it for it in lines if it[0] != it[1])}")
    return True


def main():
    failed = False
    for make, each in (full_cpus, EACH), (moving, EACH), (components, EACH), (moving, 2048), (components, MOST):
        made = make(each)
        wanted = made.text()
        ran = subprocess.run([PROGRAM, "replay"], input=made.json(), capture_output=True, timeout=60)
        failed |= ran.returncode != 0 or differs(f"{make.__name__} with {each} on each", ran.stdout.decode(), wanted)
        if make is full_cpus:
            # there each word waits until the levels have followed, so that one more has room
            wanted_there = report_of(made).replace("more expired 0 called 0 ", "more expired 1 called 1 ")
            ran = subprocess.run([PROGRAM, "run"], input=made.json(), capture_output=True, timeout=60)
            failed |= ran.returncode != 0 or differs("full_cpus in threads", ran.stdout.decode(), wanted_there)
        if "--compare" in sys.argv and each == EACH:
            failed |= differs(f"{make.__name__} by tools/plain_run.py", plain_text(made.json()), wanted)
    if not failed:
        print("greatest: passed")
    return failed


if __name__ == "__main__":
    sys.exit(main())
