#!/usr/bin/env bash
# Tries the proved facility inside programs in C, C++ and Rust: every function of include/cyclic.h with good and bad arguments,
# under valgrind and the sanitizers, on one thread and between three, with each request for memory refused once; the Rust crate with
# its worked runs and its examples, and without the standard library; the programs of docs/embedding.md; and examples/kernel. With
# EMBED_BUILT set it takes the library as it was built before.
set -u
cd "$(dirname "$0")/.."
failed=0
work=$(mktemp -d)
trap 'rm -rf "$work"' EXIT

if [ -z "${EMBED_BUILT:-}" ] && ! (cd crates/cyclic_c && rt lib) > "$work/lib" 2>&1; then
  cat "$work/lib"
  echo "embed: cyclic_c is not built"
  exit 1
fi
archive=$PWD/crates/cyclic_c/out/libcyclic_c.a
heap=$(dirname "$(rt doc)")/c/liblibc_c.a

# have COMMAND PACKAGE: whether it is there, else it is said and what needs it is skipped
have() {
  command -v "$1" > /dev/null && return 0
  echo "embed: skipped what needs $1, which is not on this machine (Debian: apt-get install $2)"
  return 1
}

# passes NAME COMMAND..: a run that has to end with 0, within two minutes
passes() {
  local name=$1
  shift
  if ! timeout 120 "$@" > "$work/out" 2>&1; then
    echo "embed: $name failed"
    tail -n 20 "$work/out"
    failed=1
  fi
}

# build OUTPUT SOURCE FLAG..: the warnings that a user may have switched on are errors
build() {
  local output=$1 source=$2
  shift 2
  passes "compiling $source $*" cc -std=${standard:-c99} -O2 -g -Wall -Wextra -Wpedantic -Werror -Iinclude "$@" "tests/embed/$source.c" -o "$work/$output" "$archive" "$heap"
}

if have cc gcc; then
  passes "the header alone" cc -std=c99 -Wall -Wextra -Wpedantic -Werror -x c -fsyntax-only include/cyclic.h
  build cpu cpu
  passes cpu "$work/cpu"
  have valgrind valgrind && passes "cpu under valgrind" valgrind -q --leak-check=full --error-exitcode=9 "$work/cpu"
  build cpu_sane cpu -fsanitize=address,undefined -fno-sanitize-recover=all
  passes "cpu with the sanitizers" "$work/cpu_sane"
  build refusals refusals
  passes "the table of refusals" "$work/refusals"
  # the names and numbers of the definition, in the lines of number() of Refusal, and the version of the package in Rust
  sed -nE 's/^ *Refusal::([A-Za-z]+)(\(_\))? => ([0-9]+),$/\3 \1/p' crates/cyc_types/src/refusal.rt > "$work/defined"
  sed -nE 's/^version = "(.*)"$/version \1/p' rust/cyclic/Cargo.toml >> "$work/defined"
  printf '64 Misused\n65 Taken\n' >> "$work/defined"
  if [ "$(grep -c '' "$work/out")" -ne 14 ] || grep -vxFf "$work/defined" "$work/out"; then
    echo "embed: a refusal has another name or number in the definition, or the version is another one"
    failed=1
  fi
  build memory memory -Wl,--wrap=malloc,--wrap=realloc,--wrap=free
  passes memory "$work/memory"
  cat "$work/out"
fi
# block LANGUAGE: the one block of this language in docs/embedding.md
block() {
  sed -n '/^```'"$1"'$/,/^```$/p' docs/embedding.md | sed '/^```/d'
}

# says NAME WANTED: what the last run wrote
says() {
  if [ "$(cat "$work/out")" != "$2" ]; then
    echo "embed: $1 wrote '$(head -c 300 "$work/out")'"
    failed=1
  fi
}

if have cc gcc; then
  block c > "$work/page.c"
  passes "the page's program in C" cc -std=c99 -Wall -Wextra -Wpedantic -Werror -Iinclude "$work/page.c" -o "$work/page" "$archive" "$heap"
  passes "the page's program" "$work/page"
  if have make make; then
    mkdir "$work/made" "$work/made/examples"
    ln -s "$PWD/examples/embed" "$work/made/examples/embed"
    cp "$work/page.c" "$work/made/timer.c"
    block make > "$work/made/Makefile"
    passes "the page's Makefile" make -s -C "$work/made" timer
    passes "the page's program, made" "$work/made/timer"
  fi
  says "the page's program" 'high handler of cyclic 1
high handler of cyclic 1
high handler of cyclic 1
next at 40
low handler of cyclic 2'
fi
if have cc gcc; then
  standard=c11
  build pair pair -pthread
  passes "pair, ten million hand-overs" "$work/pair" 10000000
  cat "$work/out"
  have valgrind valgrind && passes "pair under valgrind" valgrind -q --fair-sched=yes --leak-check=full --error-exitcode=9 "$work/pair" 2000
  build pair_sane pair -pthread -fsanitize=address,undefined -fno-sanitize-recover=all
  passes "pair with the sanitizers" "$work/pair_sane" 100000
  build pair_threads pair -pthread -fsanitize=thread
  passes "pair with the sanitizer of threads" "$work/pair_threads" 100000
  have make make && passes "the ticker" env EMBED_BUILT=1 examples/embed/ticker 1
fi
# The kernel: two runs of it, one with soft sides that are starved, one that steps, and the stack of each call, which may be no deeper than
# docs/embedding.md says.
kernel() {
  passes "the kernel: $*" env EMBED_BUILT=1 examples/kernel/run "$@"
  if [ "$(tail -n 1 "$work/out")" != "kernel: all sums are equal" ]; then
    echo "embed: the kernel: $*: its sums aren't equal"
    failed=1
  fi
}
if have cc gcc && have make make && have qemu-system-x86_64 qemu-system-x86; then
  kernel run 3 1
  kernel run 3
  kernel starved 1
  kernel stepped
  kernel stack
  if ! awk 'NR == FNR { for (k = 2; k < NF; k += 2) if (gsub(/[` ]/, "", $k)) most[$k] = $(k + 1) + 0; next }
            $1 ~ /^cyclic_/ { seen++; if (!($1 in most) || $2 > most[$1]) { print "embed: " $1 " is " $2 " bytes deep"; bad = 1 } }
            END { exit bad || seen != 34 }' FS='|' docs/embedding.md FS=' ' "$work/out"; then
    echo "embed: the stack is not as docs/embedding.md says"
    failed=1
  fi
fi
if have objdump binutils; then
  passes "the library's instructions" tests/embed/instructions "$archive"
fi
if have c++ g++; then
  passes "compiling cpu as C++" c++ -std=c++17 -Wall -Wextra -Wpedantic -Werror -Iinclude -x c++ tests/embed/cpu.c -x none -o "$work/cpu_cpp" "$archive" "$heap"
  passes "cpu as C++" "$work/cpu_cpp"
fi
if have cargo cargo; then
  export CARGO_TARGET_DIR=$work/target
  # --locked: the lock's version is the package's
  passes "the Rust crate" cargo test --offline --locked --quiet --manifest-path rust/cyclic/Cargo.toml
  if have cargo-clippy rust-clippy; then
    passes "the Rust crate, by clippy" cargo clippy --offline --locked --quiet --all-targets --manifest-path rust/cyclic/Cargo.toml -- -D warnings
  fi
  # package NAME WORDS: makes a package of the source that stands there, over the Rust crate with these words, and runs it
  package() {
    printf '[package]\nname = "%s"\nversion = "0.0.0"\nedition = "2021"\n[dependencies]\ncyclic = { path = "%s"%s }\n[profile.dev]\npanic = "abort"\n' \
      "$1" "$PWD/rust/cyclic" "$2" > "$work/$1/Cargo.toml"
    passes "the Rust program $1" cargo run --offline --quiet --manifest-path "$work/$1/Cargo.toml"
  }
  mkdir -p "$work/page_rs/src" "$work/bare/src"
  block rust > "$work/page_rs/src/main.rs"
  package page_rs ''
  says "the page's program in Rust" '3 high, 1 low, next at 40'
  cp tests/embed/bare.rs "$work/bare/src/main.rs"
  package bare ', default-features = false'
  for example in profiler timerfd workers; do
    passes "the example $example" cargo run --offline --locked --quiet --example "$example" --manifest-path rust/cyclic/Cargo.toml -- 1
  done
fi
[ "$failed" -eq 0 ] && echo "embed: all passed"
exit "$failed"
