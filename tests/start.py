#!/usr/bin/env python3
"""Tries the start scripts `cyclic` and `look`, and `tools/is-built` under them, over a kit's command that only pretends: what they
say, when they build, what a stop leaves.

    tests/start.py

In a scratch copy of the start scripts the program stands on two crates, a third has no part in it, and `replay` has a program of
its own, which stands on one. The pretended `rt` notes each call, and can be told to hang, to fail, to build a program that writes
another text, or to change a file meanwhile. Each fault is printed, and the status is then 1.
"""
import os
import sys

# this folder has a random.py that is not the library's
sys.path = [it for it in sys.path if os.path.abspath(it or ".") != os.path.dirname(os.path.abspath(__file__))]
import ctypes
import shutil
import re
import signal
import subprocess
import tempfile
import time

# of linux/prctl.h
PR_SET_CHILD_SUBREAPER = 36
TOP = os.path.join(os.path.dirname(os.path.abspath(__file__)), "..")
RT = r"""#!/usr/bin/env bash
crate=$(basename "$PWD")
case $PWD in "$FAKE"/scratch/*) copy=", in a copy" ;; esac
echo "$crate: $*$copy" >> "$FAKE/calls"
echo "the kit's line"  >&2
is() { [ "$(cat "$FAKE/does" 2> /dev/null)" = "$1" ]; }
[ "$1" != try ] || { shift; echo "look $*"; cat; exit 3; }
is hang && exec sleep 100
is fail && exit 1
[ "$1" != lib ] || exit 0
is none && exit 1
is change && echo changed > "$FAKE/crates/low/src/lib.rt"
mkdir -p out
is other && printf '#!/bin/sh\necho other\n' > "out/$crate" || cat > "out/$crate" <<PROGRAM
#!/bin/sh
text=\$(cat)
[ "\$text" != example ] || { echo "the example's text"; exit 0; }
echo "$crate \$*, \$text"
exit 7
PROGRAM
chmod +x "out/$crate"
shift
[ "$1" != -- ] || shift
exec "out/$crate" "$@"
"""
WRONG = "usage: cyclic replay|run\n"
FIRST = {
    name: f"{name}: proving and building the program first, with all that it stands on; "
    f"./look {word} < SCRIPT runs it unproved in a minute\n"
    for name, word in (("cyclic_replay", "replay"), ("cyclic", "run"))
}
PROVED = {"cyclic_replay": "proved 1 of 1: low, T\n", "cyclic": "proved 1 of 2: low, T\nproved 2 of 2: high, T\n"}
REPLAY = ["low: lib --jobs 2", "cyclic_replay: run"]
RUN = ["low: lib --jobs 2", "high: lib --jobs 2", "cyclic: run -- replay"]


class Start:
    """A scratch copy, and what was seen to be wrong in it."""

    def __init__(self, top):
        self.top, self.faults = top, 0
        for name in ("low", "high", "apart"):
            self.write(f"crates/{name}/src/lib.rt", name)
        for name in ("cyclic", "cyclic_replay"):
            self.write(f"crates/{name}/src/main.rt", name)
        self.write("crates.txt", "# lowest first\nlow: thiserror\napart staticlib: low\nhigh: low\ncyclic_replay: low\ncyclic: high low\n")
        self.write("examples/first.json", "example\n")
        self.write("examples/first.txt", "the example's text\n")
        self.write("kit/rt", RT)
        os.chmod(f"{top}/kit/rt", 0o755)
        os.mkdir(f"{top}/tools")
        os.mkdir(f"{top}/scratch")
        for name in ("cyclic", "look", "tools/is-built", "tools/libs"):
            shutil.copy(f"{TOP}/{name}", f"{top}/{name}")
        self.env = {**os.environ, "FAKE": top, "PATH": f"{top}/kit:{os.environ['PATH']}", "TMPDIR": f"{top}/scratch"}

    def write(self, file, text):
        os.makedirs(os.path.dirname(f"{self.top}/{file}") or self.top, exist_ok=True)
        with open(f"{self.top}/{file}", "w", encoding="utf-8") as it:
            it.write(text)

    def calls(self):
        """The calls of the kit's command since the last time."""
        try:
            with open(f"{self.top}/calls", encoding="utf-8") as it:
                found = it.read().splitlines()
        except FileNotFoundError:
            return []
        os.remove(f"{self.top}/calls")
        return found

    def want(self, name, got, wanted):
        if got != wanted:
            print(f"start: {name}: {got!r}, and not {wanted!r}")
            self.faults += 1

    def run(self, name, words, status, out, said, calls, script="cyclic"):
        """Runs a start script, and wants of it this status, this output, these words on standard error and these calls of `rt`."""
        ran = subprocess.run([f"{self.top}/{script}", *words], input="script", capture_output=True, text=True, env=self.env, timeout=60)
        self.want(f"{name}, status", ran.returncode, status)
        self.want(f"{name}, output", ran.stdout, out)
        self.want(f"{name}, words", re.sub(r"\b\d+m\d\d$", "T", ran.stderr, flags=re.M), said)
        self.want(f"{name}, calls", self.calls(), calls)
        self.want(f"{name}, left behind", os.listdir(f"{self.top}/scratch"), [])

    def builds(self, name, word="replay"):
        """A start that builds the program of the word first."""
        program, calls = ("cyclic", RUN) if word == "run" else ("cyclic_replay", REPLAY)
        self.run(name, [word], 7, "cyclic run, script\n" if word == "run" else "cyclic_replay , script\n", FIRST[program] + PROVED[program], calls)

    def is_there(self, name, program, word="replay"):
        """A start of a program that is built."""
        self.run(name, [word], 7, f"{program}, script\n", "", [])

    def fails(self, name, does, said, calls):
        """A start whose program can't be built."""
        self.write("does", does)
        self.run(name, ["run"], 4, "", FIRST["cyclic"] + said + "cyclic: not proved and built\n", calls)
        os.remove(f"{self.top}/does")

    def side_by_side(self, name, calls):
        """A start of the program that two crates stand below which don't wait for each other."""
        ran = subprocess.run([f"{self.top}/cyclic", "run"], input="script", capture_output=True, text=True, env=self.env, timeout=60)
        self.want(f"{name}, status", ran.returncode, 7)
        self.want(f"{name}, calls", sorted(self.calls()), sorted(calls))
        self.want(f"{name}, left behind", os.listdir(f"{self.top}/scratch"), [])

    def is_left(self, group):
        """Whether a process of this group is there, after twenty seconds at the most."""
        for _ in range(400):
            try:
                while os.waitpid(-group, os.WNOHANG)[0]:
                    pass
            except ChildProcessError:
                pass
            try:
                os.killpg(group, 0)
            except ProcessLookupError:
                return False
            time.sleep(0.05)
        return True

    def stop(self, number):
        """Starts the program, and stops it and the kit's command by a signal while that is at work, as a terminal's key does."""
        self.write("does", "hang")
        words = [f"{self.top}/cyclic", "run"]
        ran = subprocess.Popen(words, stdin=subprocess.DEVNULL, stderr=subprocess.PIPE, env=self.env, start_new_session=True)
        for _ in range(200):
            if os.path.exists(f"{self.top}/calls"):
                break
            time.sleep(0.05)
        os.killpg(ran.pid, number)
        ran.communicate(timeout=20)
        self.want(f"{number.name}, stopped", ran.returncode != 0, True)
        self.want(f"{number.name}, a process left", self.is_left(ran.pid), False)
        self.calls()
        os.remove(f"{self.top}/does")


def tries(start):
    for words in ([], ["--help"], ["help"], ["replay", "x"], ["--", "replay"], [""]):
        start.run(f"the words {words}", words, 1, "", WRONG, [])
    start.builds("first")
    start.is_there("again", "cyclic_replay ")
    start.fails("not proved", "fail", "the kit's line\nlow: not proved\n", RUN[:1])
    start.fails("another text", "other", PROVED["cyclic"] + "the kit's line\n", RUN)
    start.fails("no program", "none", PROVED["cyclic"] + "the kit's line\n", RUN)
    shutil.rmtree(f"{start.top}/crates/cyclic/out", ignore_errors=True)
    start.builds("the other word", "run")
    start.is_there("the whole program for both", "cyclic replay")
    start.write("crates/apart/src/lib.rt", "other")
    start.is_there("a crate apart", "cyclic run", "run")
    for file in ("crates/high/src/more.rt", "crates/high/specs/Lib.antt", "crates/low/proofs/Lib.antt", "crates/cyclic/src/main.rt"):
        start.write(file, "more")
        start.builds(file, "run")
    os.remove(f"{start.top}/crates/high/src/more.rt")
    start.builds("a file less", "run")
    with open(f"{start.top}/crates.txt", "a", encoding="utf-8") as it:
        it.write("another: low\n")
    start.builds("the list of crates", "run")
    start.write("crates/low/src/lib.rt", "of an old time")
    os.utime(f"{start.top}/crates/low/src/lib.rt", (0, 0))
    start.builds("a file of an old time", "run")
    start.write("crates/low/src/lib.rt", "changed")
    start.builds("the whole program is old")
    start.write("does", "change")
    start.builds("a file that changes meanwhile", "run")
    os.remove(f"{start.top}/does")
    start.builds("and is seen", "run")
    for number in (signal.SIGINT, signal.SIGTERM, signal.SIGHUP):
        start.write("crates/low/src/lib.rt", number.name)
        start.stop(number)
        for left in os.listdir(f"{start.top}/scratch"):
            start.want(f"{number.name}, left behind", left, None)
            os.remove(f"{start.top}/scratch/{left}")
        start.builds(f"after {number.name}", "run")
    start.write("crates/wide/src/lib.rt", "w")
    start.write("crates.txt", "low: thiserror\nhigh: low\nwide: low\ncyclic_replay: low\ncyclic: high wide low\n")
    start.side_by_side("side by side", [*RUN, "wide: lib --jobs 2, in a copy", "wide: lib"])
    said, calls = "the kit's line\n", ["cyclic: try -- replay x"]
    start.run("a look", ["replay", "x"], 3, "look -- replay x\nscript", said, calls, script="look")
    start.write("crates/low/src/lib.rt", "no kit")
    os.remove(f"{start.top}/kit/rt")
    os.symlink("/bin/false", f"{start.top}/kit/rt")
    start.run("no kit", ["run"], 4, "", FIRST["cyclic"] + "low: not proved\ncyclic: not proved and built\n", [])


def main():
    # what a stop leaves without a parent comes to this process, which waits for it: not every machine's first process does so soon
    ctypes.CDLL(None).prctl(PR_SET_CHILD_SUBREAPER, 1, 0, 0, 0)
    # a shell can't trap what was ignored when it began, as these are below nohup or in the background
    for number in (signal.SIGINT, signal.SIGTERM, signal.SIGHUP):
        signal.signal(number, signal.SIG_DFL)
    with tempfile.TemporaryDirectory(prefix="start-") as top:
        start = Start(top)
        tries(start)
    if not start.faults:
        print("start: passed")
    return 1 if start.faults else 0


if __name__ == "__main__":
    sys.exit(main())
