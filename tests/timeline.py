#!/usr/bin/env python3
"""Tries tools/timeline: the pictures' numbers are the report's, and a text that is not the script's is refused.

    tests/timeline.py [COUNT [SEED]]     with so many scripts made at random; without numbers 100 of seed 1
    tests/timeline.py --write            writes the pictures of the examples anew

The picture of each example is the one that stands beside it. The scripts of WORKED have the text that is worked out by hand, which the
program writes too. Of scripts made at random (tests/random.py) the program writes the text: so the run that the picture is made of,
which shares no code with the program, comes to the same lines.
"""
import os
import sys

# this folder has a random.py that is not the library's
sys.path = [it for it in sys.path if os.path.abspath(it or ".") != os.path.dirname(os.path.abspath(__file__))]
import glob
import importlib.machinery
import importlib.util
import json
import random
import re
import subprocess
import tempfile
import xml.etree.ElementTree

sys.dont_write_bytecode = True
TOP = os.path.abspath(os.path.join(os.path.dirname(__file__), ".."))
PROGRAM = f"{TOP}/crates/cyclic/out/cyclic"
MARK = re.compile(r'data-kind="(\w+)" data-name="([^"]+)" data-count="(\d+)"')
REPORT = re.compile(r"(\S+) expired (\d+) called (\d+) lost (\d+) pending \d+")

# scripts of several CPUs, and of some that are suspended: the CPUs, the steps, and the lines with the counts of the report
WORKED = {
    "offline leaves what is bound or has no room": (
        2, "add a high 10 10; add b high 10 10; add c high 10 10; bind a 0; offline 0; unbind a; offline 0; softint 1 low 1; "
        "softint 1 lock 1; offline 0; offline 1; offline 0",
        "1 ok/2 ok/3 ok/4 ok/5 left moved 1 bound 1 pending 0 refused 0/6 ok/7 left moved 0 bound 0 pending 0 refused 1/8 ran 0 idle/"
        "9 ran 0 idle/10 ok/11 refused 15/12 refused 14/a 0 0 0 0/b 0 0 0 0/c 0 0 0 0"),
    "a cyclic with calls outstanding is not moved": (
        2, "add a low 10 10; advance 10; juggle 0; softint 0 low 8; juggle 0; advance 20; softint 1 low 8",
        "1 ok/2 fired 1 lost 0/3 moved 0 bound 0 pending 1 refused 0/4 ran 1 idle/5 moved 1 bound 0 pending 0 refused 0/"
        "6 fired 1 lost 0/7 ran 1 idle/a 2 2 0 0"),
    "a component begins again at its start": (
        2, "omni a high 10 10 3; advance 23; offline 1; online 1; advance 33",
        "1 ok/2 fired 4 lost 0/3 ok/4 ok/5 fired 4 lost 0/a 8 8 0 0"),
    "online places all components at once": (
        2, "omni a high 10 10 0; omni b high 10 10 0; offline 1; softint 0 low 1; softint 0 lock 1; omni c high 10 10 0; online 1; "
        "softint 1 low 1; softint 1 lock 1; online 1; advance 10; online 1",
        "1 ok/2 ok/3 ok/4 ran 0 idle/5 ran 0 idle/6 ok/7 refused 6/8 ran 0 idle/9 ran 0 idle/10 ok/11 fired 6 lost 0/12 refused 24/"
        "a 2 2 0 0/b 2 2 0 0/c 2 2 0 0"),
    "offline waits for a component's calls": (
        2, "omni a low 10 10 0; advance 10; offline 1; softint 1 low 8; offline 1",
        "1 ok/2 fired 2 lost 0/3 refused 9/4 ran 1 idle/5 ok/a 2 1 0 1"),
    "what bind and reprogram refuse": (
        2, "add a low 10 10; advance 10; bind a 1; bind a 2; softint 0 low 8; bind a 1; offline 0; bind a 0; omni o high 10 10 0; "
        "bind o 1; reprogram o 50; reprogram o 50 1",
        "1 ok/2 fired 1 lost 0/3 refused 9/4 refused 13/5 ran 1 idle/6 ok/7 ok/8 refused 14/9 ok/10 refused 16/11 refused 16/12 ok/"
        "a 1 1 0 0/o 0 0 0 0"),
    "one fire after a resume makes all that is due": (
        1, "add a high 10 10; suspend; advance 35; suspend; resume; resume; advance 36",
        "1 ok/2 ok/3 refused 25/4 refused 25/5 ok/6 refused 26/7 fired 3 lost 0/a 3 3 0 0"),
    "a fire after a resume may be more than a second late": (
        1, "add a high 100000000 100000000; suspend; advance 1200000001; resume; advance 1200000001",
        "1 ok/2 ok/3 refused 25/4 ok/5 fired 1 lost 0/a 1 1 0 0"),
    "a refused advance sets the clock": (
        1, "suspend; advance 25; add a high 0 10; resume; advance 30",
        "1 ok/2 refused 25/3 ok/4 ok/5 fired 1 lost 0/a 1 1 0 0"),
    "calls are made while the clock is suspended": (
        1, "add a low 10 10; advance 10; suspend; softint 0 low 8; remove a",
        "1 ok/2 fired 1 lost 0/3 ok/4 ran 1 idle/5 removed a 1/a 1 1 0 0"),
    "a CPU that comes online is suspended": (
        2, "omni a high 10 10 0; offline 1; suspend; online 1; advance 20; resume; advance 20",
        "1 ok/2 ok/3 ok/4 ok/5 refused 25/6 ok/7 fired 4 lost 0/a 4 4 0 0"),
}


def load(name, path):
    loader = importlib.machinery.SourceFileLoader(name, path)
    module = importlib.util.module_from_spec(importlib.util.spec_from_loader(name, loader))
    loader.exec_module(module)
    return module


def step_of(words):
    word, *more = words.split()
    return [word, *[int(it) if it.lstrip("-").isdigit() else it for it in more]]


def whole(line):
    """A line, with a shortened line of the report written out."""
    counts = re.fullmatch(r"(\w+) (\d+) (\d+) (\d+) (\d+)", line)
    return "{} expired {} called {} lost {} pending {}".format(*counts.groups()) if counts and not line[0].isdigit() else line


def picture(script, text, work):
    """The status, the picture and the words of tools/timeline."""
    with open(f"{work}/script", "wb") as file:
        file.write(script)
    ran = subprocess.run([f"{TOP}/tools/timeline", f"{work}/script"], input=text, capture_output=True, timeout=60)
    return ran.returncode, ran.stdout.decode(), ran.stderr.decode()


def fault_of(script, text, work):
    """What is wrong with the picture of this script and its text, or None."""
    status, drawn, said = picture(script, text, work)
    if status or said:
        return f"status {status}: {said}"
    xml.etree.ElementTree.fromstring(drawn)
    sums = {}
    for kind, name, count in MARK.findall(drawn):
        sums[kind, name] = sums.get((kind, name), 0) + int(count)
    for name, *counts in REPORT.findall(text.decode()):
        for kind, count in zip(("expired", "called", "lost"), counts):
            if sums.get((kind, name), 0) != int(count):
                return f"{name} has {sums.get((kind, name), 0)} {kind} in the picture, and {count} in the report"
    return None


def replayed(script):
    return subprocess.run([PROGRAM, "replay"], input=script, capture_output=True, timeout=100).stdout


def read(path):
    with open(path, "rb") as file:
        return file.read()


def examples(work, writes):
    for path in sorted(glob.glob(f"{TOP}/examples/*.json")):
        if os.path.basename(path) == "threads.json":  # run by `cyclic run`, whose text tells no order to draw
            continue
        script, beside = read(path), path[:-5] + ".svg"
        text = replayed(script)
        drawn = picture(script, text, work)[1].encode()
        if writes:
            with open(beside, "wb") as file:
                file.write(drawn)
        if not os.path.exists(beside) or read(beside) != drawn:
            yield path, "the picture beside it is another"
        yield path, fault_of(script, text, work)


def worked(work):
    for name, (cpus, steps, lines) in WORKED.items():
        script = json.dumps({"cpus": cpus, "steps": [step_of(it) for it in steps.split("; ")]}).encode()
        text = "".join(whole(line) + "\n" for line in lines.split("/")).encode()
        written = replayed(script)
        yield name, fault_of(script, text, work) if written == text else f"the program writes {written!r}"


def at_random(work, count, seed):
    maker = load("maker", f"{TOP}/tests/random.py").Maker
    for number in range(count):
        script = maker(random.Random(seed * 2**32 + number)).script()
        fault = fault_of(script, replayed(script), work)
        yield f"seed {seed}, script {number}", fault and f"{fault}\n{script!r}"


def refusals(work):
    script = read(f"{TOP}/examples/first.json")
    text = replayed(script)
    for name, other in (("another count", text.replace(b"fired 1", b"fired 2")), ("a line less", text[text.index(b"\n") + 1:]),
                        ("a line more", text + b"b expired 0 called 0 lost 0 pending 0\n"), ("no text", b"")):
        status, drawn, said = picture(script, other, work)
        yield name, None if status == 1 and not drawn and said.startswith("timeline: line") else f"status {status}: {said}"


def main():
    given = [int(it) for it in sys.argv[1:] if it != "--write"]
    numbers = given + [100, 1][len(given):]
    subprocess.run([f"{TOP}/cyclic", "replay"], stdin=subprocess.DEVNULL, capture_output=True)
    with tempfile.TemporaryDirectory(prefix="timeline-") as work:
        tried = [*examples(work, "--write" in sys.argv), *worked(work), *refusals(work), *at_random(work, *numbers)]
    faults = [(name, fault) for name, fault in tried if fault]
    for name, fault in faults:
        print(f"timeline: {name}: {fault}")
    print(f"timeline: {len(tried)} pictures, {len(faults)} faults")
    return 1 if faults else 0


if __name__ == "__main__":
    sys.exit(main())
