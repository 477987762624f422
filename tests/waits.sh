#!/usr/bin/env bash
# No step and no call of a ring waits. The prover counts the functions of a crate that may wait, as `may-wait=` on the last line of
# `rt check`, and of `ring_steps` and `cyc_ring` there must be none. A step that takes a lock has to be counted:
# tests/waits/locks_the_level.edit, of the form of the other wrong bodies. All is checked in a copy.
set -u
cd "$(dirname "$0")/.."
failed=0
work=$(mktemp -d)
trap 'rm -rf "$work"' EXIT

# copied CRATE: the crate and those below it, lowest first
copied() {
  local name
  for name in $(sed -n "s/^$1\( [a-z]*\)*: *//p" crates.txt); do
    [ ! -d "crates/$name" ] || copied "$name"
  done
  [ -d "$work/crates/$1" ] && return
  mkdir -p "$work/crates/$1"
  cp -r "crates/$1"/{src,specs,proofs} "$work/crates/$1" 2> /dev/null
  grep "^$1[ :]" crates.txt >> "$work/crates.txt"
}

# last CRATE: the prover's last line on a crate of the copy
last() {
  (cd "$work/crates/$1" && rt check) 2>&1 | grep '^logic=' | tail -n 1
}

copied cyc_ring
for crate in ring_steps cyc_ring; do
  line=$(last "$crate")
  case $line in
    *may-wait=*) echo "waits: $crate: $line"; failed=1 ;;
    logic=proved*) ;;
    *) echo "waits: $crate: not proved"; failed=1 ;;
  esac
done

python3 - "$work/crates/ring_steps" tests/waits/locks_the_level.edit <<'PY' || exit 1
import sys
folder, edit = sys.argv[1:]
file = old = None
for line in open(edit):
    kind, _, text = line.rstrip("\n").partition(": ")
    if kind == "file":
        file = f"{folder}/{text}"
    elif kind == "old":
        old = text
    else:
        whole = open(file).read()
        if whole.count(old) != 1:
            sys.exit(f"waits: not once in {file}: {old}")
        open(file, "w").write(whole.replace(old, text))
PY
line=$(last ring_steps)
case $line in
  *may-wait=[1-9]*) ;;
  *) echo "waits: a step that takes a lock is not counted: $line"; failed=1 ;;
esac
[ "$failed" -eq 0 ] && echo 'waits: no step and no call of a ring waits'
exit "$failed"
