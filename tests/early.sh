#!/usr/bin/env bash
# Runs in threads that end early, or meet a refusal: an output that nobody takes, a script that is refused in its middle, a thread
# or memory that is refused, a signal. Each has the status and the words of the program, is over within its time, and leaves no
# thread and no process behind. It needs a C compiler, since it puts a shim before the C library.
set -u
cd "$(dirname "$0")/.."
./cyclic run < examples/threads.json > /dev/null || exit 1
work=$(mktemp -d)
trap 'rm -rf "$work"' EXIT
${CC:-cc} -shared -fPIC -O1 -o "$work/shim.so" tests/shim.c || exit 2
program=$PWD/crates/cyclic/out/cyclic
failed=0

# go SCRIPT [SETTING..]: a run in threads, for at most 20 seconds, in a group of processes of its own; its threads are counted at its
# end
go() {
  local script=$1
  shift
  setsid timeout 20 env LEFT=1 "$@" LD_PRELOAD="$work/shim.so" "$program" run \
    < "$script" 2> "$work/said" 7> "$work/left" 9> "$work/refused" &
  echo "$!" > "$work/group"
  wait "$!"
}

# over NAME: no process of the last run's group is there
over() {
  if kill -0 -- "-$(cat "$work/group")" 2> /dev/null; then
    echo "early: $1: a process is left"
    failed=1
  fi
}

# say NAME STATUS WANTED WORDS: how the last run ended, without a thread that is left
say() {
  if [ "$2" -ne "$3" ] || [ "$(cat "$work/said")" != "$4" ] || ! grep -q ' made, 0 left$' "$work/left"; then
    echo "early: $1: status $2, '$(head -c 300 "$work/said")', threads: $(cat "$work/left")"
    failed=1
  fi
  over "$1"
}

script() { printf '{"cpus":%s,"steps":[%s]}' "$1" "$2" > "$work/script"; }
# lines FORMAT COUNT: a step for each number from 1 on
lines() { seq "$2" | sed "s/.*/$1/" | paste -sd,; }

# an output that is not taken: closed, a full device, a pipe that nobody reads, one whose reader goes away
go examples/threads.json >&-
say a_closed_output "$?" 3 'fault write'
if [ -e /dev/full ]; then
  go examples/threads.json > /dev/full
  say a_full_device "$?" 3 'fault write'
fi
mkfifo "$work/pipe"
sleep 20 < "$work/pipe" & reader=$!
exec 8> "$work/pipe"
kill "$reader"
wait "$reader" 2> /dev/null
go examples/threads.json >&8
say a_pipe_that_nobody_reads "$?" 3 'fault write'
exec 8>&-
script 16 "$(lines '["add","name_&","low",1,1]' 4096),[\"advance\",3]"
go "$work/script" | head -c 100 > "$work/got"
say a_reader_that_goes_away "${PIPESTATUS[0]}" 3 'fault write'

# a script that is refused in its middle starts no thread
script 4 '["add","a","low",1,1],["advance",100],["add","a","low",1,1],["advance",200]'
go "$work/script" > "$work/got"
say a_script_refused_in_its_middle "$?" 2 'script refused 22 step 3'
head -c 100 examples/threads.json > "$work/script"
go "$work/script" >> "$work/got"
say a_script_cut_in_its_middle "$?" 2 'script refused 19'
grep -q '^0 made' "$work/left" && [ ! -s "$work/got" ] || { echo "early: a refused script started threads, or wrote"; failed=1; }

# partly: each line of the last report is the wanted one, or one of a name whose add was refused
sed 's/expired .*/expired 0 called 0 lost 0 pending 0/' examples/threads.txt > "$work/none"
partly() { paste -d'\n' - "$work/none" examples/threads.txt < "$work/got" | awk 'NR % 3 == 1 { line = $0; ok = 0 }
  $0 == line { ok++ } NR % 3 == 0 && ok < 2 { exit 1 }'; }

# refuse VARIABLE SCRIPT REPORT: each thread, or each request for memory, is refused in turn. The run ends with a fault of memory
# and writes nothing; where memory is refused to a step alone, the report is that of the other steps.
refuse() {
  local variable=$1 script=$2 report=$3 n status
  for ((n = 1; ; n++)); do
    go "$script" "$variable=$n" > "$work/got"
    status=$?
    [ -s "$work/refused" ] || break
    if [ "$variable" = FAIL_ALLOC ] && [ "$status" -eq 0 ] && partly; then
      say "$variable=$n" "$status" 0 ''
    else
      [ ! -s "$work/got" ] || { echo "early: $variable=$n: it wrote '$(cat "$work/got")'"; failed=1; }
      say "$variable=$n" "$status" 3 'fault 1'
    fi
  done
  say "$variable" "$status" 0 ''
  cmp -s "$work/got" "$report" || { echo "early: $variable: another report"; failed=1; }
  echo "early: $variable: $((n - 1)) refused in turn"
}

# made NAME COUNT: the last run made so many threads
made() { grep -q "^$2 made" "$work/left" || { echo "early: $1: $(cat "$work/left"), and $2 were wanted"; failed=1; }; }

refuse FAIL_ALLOC examples/threads.json examples/threads.txt
refuse FAIL_THREAD examples/threads.json examples/threads.txt
made four_cpus_and_two_advances $((8 + 4 + 4))
script 1 '["add","a","high",1,1],["advance",3],["advance",5]'
echo 'a expired 5 called 5 lost 0 pending 0' > "$work/report"
refuse FAIL_THREAD "$work/script" "$work/report"
made one_cpu_and_two_advances $((2 + 1 + 1))
script 2 '["omni","a","high",1,1,0],["advance",9],["offline",1],["advance",99],["online",1],["advance",100]'
echo 'a expired 209 called 209 lost 0 pending 0' > "$work/report"
refuse FAIL_THREAD "$work/script" "$work/report"
made a_cpu_that_is_offline_for_one_advance $((4 + 2 + 1 + 2))
script 2 '["omni","a","high",1,1,0],["suspend"],["advance",9],["resume"],["advance",10]'
echo 'a expired 20 called 20 lost 0 pending 0' > "$work/report"
refuse FAIL_THREAD "$work/script" "$work/report"
made an_advance_that_is_refused $((4 + 2))

# a signal in the middle of a run
script 4 "[\"omni\",\"a\",\"low\",1,1,0],$(lines '["advance",&]' 60000)"
for signal in TERM KILL; do
  setsid "$program" run < "$work/script" > "$work/got" 2> "$work/said" & run=$!
  echo "$run" > "$work/group"
  sleep 0.3
  kill -s "$signal" "$run"
  wait "$run" 2> /dev/null
  status=$?
  if [ "$status" -ne $((128 + $(kill -l "$signal"))) ] || [ -s "$work/got" ]; then
    echo "early: $signal: status $status, wrote '$(head -c 300 "$work/got")'"
    failed=1
  fi
  over "$signal"
done
exit "$failed"
