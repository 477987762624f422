#!/usr/bin/env bash
# Runs programs with their Nth request for memory refused, for each N until a run meets none, and a run in threads with its Nth
# thread refused too. It needs a C compiler, since it puts a shim before the C library.
#
# The program `cyclic`: `replay` of the first example and of three other texts, `--help` and a wrong word. Each run ends with
# status 3 and 'fault 1', having written a prefix of what it writes with ample memory, or as it ends with ample memory. And `run` of the
# example of threads: it ends with status 3 and 'fault 1', having written nothing; or with the report, in which a name has zeros
# where the step that adds it was refused.
#
# The program `refused_memory`: each call of the library that may ask for memory. Where a request of the call is refused, it
# answers Memory, has changed nothing that can be seen, and made again it is done. A juggle and an offline count a cyclic as refused:
# each stands where it was or at its destination, with its counts and its next expiration. A run may go on without a
# step or a move where memory is refused to it, and ends where a thread is.
set -u
cd "$(dirname "$0")/.."
./cyclic run < examples/threads.json > /dev/null || exit 1
program=crates/cyclic/out/cyclic
work=$(mktemp -d)
trap 'rm -rf "$work"' EXIT
${CC:-cc} -shared -fPIC -O1 -o "$work/shim.so" tests/shim.c || exit 2
failed=0

# the first example with a ceiling behind its steps, with its CPUs there, and with a null in its last step
sed 's/]}$/],"ceiling":4}/' examples/first.json > "$work/ceiling_behind.json"
sed 's/^{"cpus":1,/{/; s/}$/,"cpus":1}/' examples/first.json > "$work/cpus_behind.json"
sed 's/8]]}$/null]]}/' examples/first.json > "$work/null_last.json"

for asked in {replay,--help,wrong}:examples/first.json replay:"$work"/{ceiling_behind,cpus_behind,null_last}.json; do
  word=${asked%%:*} input=${asked#*:}
  "$program" "$word" < "$input" > "$work/text" 2> "$work/words"
  wanted=$?
  for ((n = 1; ; n++)); do
    timeout 10 env FAIL_ALLOC="$n" LD_PRELOAD="$work/shim.so" "$program" "$word" \
      < "$input" > "$work/got" 2> "$work/said" 9> "$work/refused"
    status=$?
    [ -s "$work/refused" ] || break
    if [ "$status" -eq "$wanted" ] && cmp -s "$work/words" "$work/said" && cmp -s "$work/text" "$work/got"; then
      continue
    fi
    if [ "$status" -ne 3 ] || [ "$(cat "$work/said")" != 'fault 1' ] \
      || ! cmp -s -n "$(stat -c %s "$work/got")" "$work/text" "$work/got"; then
      echo "memory: $word, request $n: status $status, wrote '$(cat "$work/got")' and '$(cat "$work/said")'"
      failed=1
    fi
  done
  if [ "$status" -ne "$wanted" ] || ! cmp -s "$work/text" "$work/got"; then
    echo "memory: $word: status $status with ample memory"
    failed=1
  fi
  echo "memory: $word of ${input##*/}: $((n - 1)) requests refused in turn"
done

# refused VARIABLE N WORD..: a program with its Nth request refused, of this kind
refused() {
  local variable=$1 n=$2
  shift 2
  timeout 20 env "$variable=$n" LD_PRELOAD="$work/shim.so" "$@" > "$work/got" 2> "$work/said" 9> "$work/refused"
}

# each line of the report is that with ample memory, or has zeros
is_report() {
  awk 'NR == FNR { want[++lines] = $0; next }
    { split(want[FNR], word, " "); if ($0 != want[FNR] && $0 != word[1] " expired 0 called 0 lost 0 pending 0") exit 1 }
    END { if (FNR != lines) exit 1 }' examples/threads.txt "$work/got"
}

# nothing but a fault of memory
is_fault() { [ "$1" -eq 3 ] && [ "$(cat "$work/said")" = 'fault 1' ] && [ ! -s "$work/got" ]; }

for variable in FAIL_ALLOC FAIL_THREAD; do
  ended=0 whole=0
  for ((n = 1; ; n++)); do
    refused "$variable" "$n" "$program" run < examples/threads.json
    status=$?
    [ -s "$work/refused" ] || break
    if is_fault "$status"; then
      ended=$((ended + 1))
    elif [ "$variable" = FAIL_THREAD ] || [ "$status" -ne 0 ] || [ -s "$work/said" ] || ! is_report; then
      echo "memory: run, $variable=$n: status $status, wrote '$(cat "$work/got")' and '$(cat "$work/said")'"
      failed=1
    elif cmp -s examples/threads.txt "$work/got"; then
      whole=$((whole + 1))
    fi
  done
  if [ "$status" -ne 0 ] || ! cmp -s examples/threads.txt "$work/got" || [ "$ended" -eq 0 ]; then
    echo "memory: run: status $status, '$(cat "$work/got")' with ample memory"
    failed=1
  fi
  echo "memory: run, $variable: $((n - 1)) refused in turn; $ended ended the run, $whole changed no report, the others took a name away"
done

tools/is-built refused_memory || (cd crates/refused_memory && rt run -- Hard::add) > "$work/said" 2>&1 ||
  { cat "$work/said"; exit 1; }
program=crates/refused_memory/out/refused_memory

# calls VARIABLE CALL: a call of the library with each of its requests refused in turn
calls() {
  local variable=$1 call=$2 count=0 without=0 same=0 status n
  for ((n = 1; ; n++)); do
    refused "$variable" "$n" "$program" "$call"
    status=$?
    [ -s "$work/refused" ] || break
    case "$status $(cat "$work/got")" in
      '0 refused') count=$((count + 1)) ;;
      '0 without') without=$((without + 1)); [ "$call" = run ] || failed=1 ;;
      '0 before' | '1 ') [ "$count" -eq 0 ] || failed=1 ;;
      '0 done') same=$((same + 1)); [ "$call" = run ] || { echo "memory: $call, request $n: done"; failed=1; } ;;
      *) echo "memory: $call, request $n: status $status, $(cat "$work/got")"; failed=1 ;;
    esac
  done
  if [ "$status" -ne 0 ] || [ "$(cat "$work/got")" != done ] || [ "$count" -eq 0 ]; then
    echo "memory: $call: $(cat "$work/got") with ample memory"
    failed=1
  fi
  echo "memory: $call, $variable: $((count + without + same)) refused in turn"
}

for call in Tally::new ExpiryHeap::new ExpiryHeap::reserve LevelCore::new Ring::open Hard::new Hard::reserve Hard::add \
  System::new System::add System::add_omni System::bind System::online System::juggle_of_two System::juggle System::offline \
  command_of read_input read_script read_script::ceiling_behind read_script::cpus_behind read_script::null_last replay run; do
  calls FAIL_ALLOC "$call"
done
calls FAIL_THREAD run
exit "$failed"
