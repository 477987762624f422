#!/usr/bin/env bash
# What the program does that a stored run doesn't show: its exit statuses, the words on standard error, and the examples.
set -u
cd "$(dirname "$0")/.."
failed=0

# where the program isn't built yet, this builds it
./cyclic run < examples/threads.json > /dev/null || exit 1

program=$PWD/crates/cyclic/out/cyclic
work=$(mktemp -d)
trap 'rm -rf "$work"' EXIT

# say NAME STATUS WANTED: the run whose outputs stand in got and said, against those that stand in text and words
say() {
  if [ "$2" != "$3" ] || ! cmp -s "$work/text" "$work/got" || ! cmp -s "$work/words" "$work/said"; then
    echo "program: $1: status $2, wrote '$(head -c 300 "$work/got")' and '$(head -c 300 "$work/said")'"
    failed=1
  fi
}

# want STDOUT STDERR: what the next run writes
want() {
  printf '%s' "$1" > "$work/text"
  printf '%s' "${2:+$2
}" > "$work/words"
}

# ran NAME STATUS WORD..: runs the program on standard input, for at most 60 seconds
ran() {
  local name=$1 status=$2
  shift 2
  timeout 60 "$program" "$@" > "$work/got" 2> "$work/said"
  say "$name" "$?" "$status"
}

# expect NAME STATUS STDOUT STDERR INPUT WORD..
expect() {
  local name=$1 status=$2 input=$5
  want "$3" "$4"
  shift 5
  ran "$name" "$status" "$@" < <(printf '%s' "$input")
}

# refuse NAME WORDS INPUT: a script that both commands refuse
refuse() {
  expect "$1, replay" 2 '' "$2" "$3" replay
  expect "$1, run" 2 '' "$2" "$3" run
}

usage='usage: cyclic replay|run'
expect no_word 1 '' "$usage" ''
expect other_word 1 '' "$usage" '' help
expect option 1 '' "$usage" '' --help
expect two_words 1 '' "$usage" '' replay x
expect end_of_options 1 '' "$usage" '' -- replay
refuse not_json 'script refused 19' '{"cpus":1,"steps":['
refuse no_cpus 'script refused 20 step 0' '{"cpus":0,"steps":[]}'
refuse time_back 'script refused 21 step 2' '{"cpus":1,"steps":[["advance",5],["advance",4]]}'
refuse name_twice 'script refused 22 step 2' '{"cpus":1,"steps":[["add","a","low",1,1],["add","a","low",1,1]]}'
refuse no_name 'script refused 23 step 1' '{"cpus":1,"steps":[["remove","a"]]}'
refuse time_back_while_suspended 'script refused 21 step 3' '{"cpus":1,"steps":[["suspend"],["advance",5],["advance",4]]}'
refuse at_never 'script refused 20 step 1' '{"cpus":1,"steps":[["advance",9223372036854775807]]}'
expect no_steps 0 '' '' '{"cpus":1,"steps":[]}' replay
expect no_steps_in_threads 0 '' '' '{"cpus":1,"steps":[]}' run
expect a_removal_in_threads 0 $'a expired 100 called 100 lost 0 pending 0\n' '' '{"cpus":1,"steps":[["add","a","low",1,1],["advance",100],["remove","a"],["advance",200]]}' run
expect a_suspension_in_threads 0 $'a expired 3 called 3 lost 0 pending 0\n' '' '{"cpus":1,"steps":[["add","a","high",10,10],["suspend"],["advance",35],["suspend"],["resume"],["resume"],["advance",36]]}' run
expect a_late_resume_in_threads 0 $'a expired 1 called 1 lost 0 pending 0\n' '' '{"cpus":1,"steps":[["add","a","high",100000000,100000000],["suspend"],["advance",1200000001],["resume"],["advance",1200000001]]}' run
expect the_clock_while_suspended_in_threads 0 $'a expired 1 called 1 lost 0 pending 0\n' '' '{"cpus":1,"steps":[["suspend"],["advance",25],["add","a","high",0,10],["resume"],["advance",30]]}' run
expect a_removal_while_suspended_in_threads 0 $'a expired 1 called 1 lost 0 pending 0\n' '' '{"cpus":1,"steps":[["add","a","low",10,10],["advance",10],["suspend"],["softint",0,"low",8],["remove","a"]]}' run
expect a_cpu_comes_back_suspended_in_threads 0 $'a expired 4 called 4 lost 0 pending 0\n' '' '{"cpus":2,"steps":[["omni","a","high",10,10,0],["offline",1],["suspend"],["online",1],["advance",20],["resume"],["advance",20]]}' run

# scripts that are refused, or as great as they may be
first=$(cat crates/cyclic/stdin)
for ((n = 0; n < ${#first}; n++)); do
  refuse "first_$n" 'script refused 19' "${first:0:n}"
done
step() { refuse "$1" "$2" '{"cpus":1,"steps":['"$3"']}'; }
nested=$(printf '[%.0s' {1..200})$(printf ']%.0s' {1..200})
step nested_arrays 'script refused 19' "$nested"
step past_never 'script refused 20 step 1' '["add","a","low",9223372036854775808,1]'
step form_before_name 'script refused 20 step 2' '["add","a","low",1,1],["add","a","low",1]'
step name_before_time 'script refused 23 step 2' '["advance",5],["remove","z"],["advance",4]'
step name_of_33 'script refused 20 step 1' '["add","abcdefghijklmnopqrstuvwxyz0123456","low",1,1]'
step empty_name 'script refused 20 step 1' '["add","","low",1,1]'
step suspend_with_a_cpu 'script refused 20 step 1' '["suspend",0]'
step resume_with_a_name 'script refused 20 step 1' '["resume","a"]'
step spaced_name 'script refused 20 step 1' '["add","a b","low",1,1]'
longest='{"cpus":1,"steps":[["add","abcdefghijklmnopqrstuvwxyz012345","low",1,1]]}'
report=$'abcdefghijklmnopqrstuvwxyz012345 expired 0 called 0 lost 0 pending 0\n'
expect name_of_32 0 $'1 ok\n'"$report" '' "$longest" replay
expect name_of_32_in_threads 0 "$report" '' "$longest" run
for head in '"cpus":17' '"cpus":1,"ceiling":0' '"cpus":1,"ceiling":4294967296' '"cpus":1,"more":1'; do
  refuse "$head" 'script refused 20 step 0' "{$head,\"steps\":[]}"
done
printf '%s' "$first" | sed 's/"a"/"\xff"/' > "$work/no_utf8"
head -c 16777216 /dev/zero | tr '\0' ' ' > "$work/greatest"
head -c 16777217 /dev/zero | tr '\0' ' ' > "$work/longer"
head -c 16777218 /dev/zero | tr '\0' ' ' > "$work/longest"

# steps COUNT: a script of so many steps
steps() { printf '{"cpus":1,"steps":['; yes '["advance",0]' | head -n "$1" | paste -sd,; printf ']}'; }
steps 65536 > "$work/steps"
steps 65537 > "$work/one_step_more"

mkfifo "$work/pipe"
for word in replay run; do
  want '' 'script refused 19'
  ran "no_utf8, $word" 2 "$word" < "$work/no_utf8"
  ran "as_many_bytes_as_may_be, $word" 2 "$word" < "$work/greatest"
  want '' 'script refused 20 step 0'
  ran "one_byte_more, $word" 2 "$word" < "$work/longer"

  # a reading stops one byte after the last that a script may have
  { ran "two_bytes_more, $word" 2 "$word"; left=$(wc -c); } < "$work/longest"
  [ "$left" -eq 1 ] || { echo "program: two_bytes_more, $word: $left bytes are left"; failed=1; }
  ran "endless, $word" 2 "$word" < <(tr '\0' ' ' < /dev/zero)

  ran "one_step_more, $word" 2 "$word" < "$work/one_step_more"
  want '' ''
  [ "$word" = run ] || seq 65536 | sed 's/$/ fired 0 lost 0/' > "$work/text"
  ran "as_many_steps_as_may_be, $word" 0 "$word" < "$work/steps"

  # an input that is not read
  want '' 'fault read'
  ran "a_directory, $word" 3 "$word" < /tmp
  ran "a_closed_input, $word" 3 "$word" <&-

  # an output that is not written: closed, a full device, a pipe that nobody reads
  want '' 'fault write'
  : > "$work/got"
  timeout 20 "$program" "$word" < examples/threads.json 2> "$work/said" >&-
  say "a_closed_output, $word" "$?" 3
  if [ -e /dev/full ]; then
    timeout 20 "$program" "$word" < examples/threads.json 2> "$work/said" > /dev/full
    say "a_full_device, $word" "$?" 3
    want '' ''
    : > "$work/said"
    timeout 20 "$program" "$word" < examples/threads.json > /dev/full 2>&1
    say "nowhere_to_say_it, $word" "$?" 3
    want '' 'fault write'
  fi
  sleep 20 < "$work/pipe" & reader=$!
  exec 8> "$work/pipe"
  kill "$reader"
  wait "$reader" 2> /dev/null
  timeout 20 "$program" "$word" < examples/threads.json 2> "$work/said" >&8
  say "a_pipe_that_nobody_reads, $word" "$?" 3
  exec 8>&-
done
if [ -e /dev/full ]; then
  timeout 20 "$program" replay < "$work/steps" 2> "$work/said" > /dev/full
  say a_full_device_and_a_long_text "$?" 3
fi

# reads and writes that are interrupted, and requests for memory that are refused; these put a shim before the C library
if ${CC:-cc} -shared -fPIC -O1 -o "$work/shim.so" tests/shim.c 2> /dev/null; then
  interrupted() {
    timeout 20 env "$2" LD_PRELOAD="$work/shim.so" "$program" "$word" < "$script" > "$work/got" 2> "$work/said"
    say "$1, $word" "$?" "$3"
  }
  for word in replay run; do
    case $word in run) script=examples/threads.json ;; *) script=examples/first.json ;; esac
    cp "${script%.json}.txt" "$work/text"
    : > "$work/words"
    interrupted reads_interrupted_every_other_time HALF=0 0
    interrupted writes_interrupted_every_other_time HALF=1 0
    want '' 'fault write'
    interrupted writes_always_interrupted INTERRUPT=1 3
    want '' 'fault read'
    interrupted reads_always_interrupted INTERRUPT=0 3
  done
  tests/memory.sh || failed=1
  # runs in threads that end early
  tests/early.sh || failed=1
else
  echo 'program: no C compiler: interrupted reads and writes, refused memory, and early ends in threads are not tried'
fi

# scripts made at random, whole and damaged
tests/random.py 2000 1 || failed=1

# scripts made at random, in threads, with reports worked out in closed form
tests/threads.py 500 1 || failed=1

# scripts as great as they may be, with texts worked out in closed form
tests/greatest.py || failed=1

# each example that the program runs so far gives the text beside it
for script in examples/*.json; do
  text=${script%.json}.txt
  case $script in */threads.json) word=run ;; *) word=replay ;; esac
  if ! ./cyclic $word < "$script" 2>/dev/null | cmp -s - "$text"; then
    echo "program: $script: other text than $text"
    failed=1
  fi
done

# the program of the word `replay` alone does what the whole one does
tools/is-built cyclic_replay || (cd crates/cyclic_replay && rt run < stdin) > "$work/said" 2>&1 || { cat "$work/said"; exit 1; }
alone=$PWD/crates/cyclic_replay/out/cyclic_replay
for script in examples/*.json "$work"/{no_utf8,greatest,longer,one_step_more,steps} /tmp; do
  timeout 60 "$program" replay < "$script" > "$work/text" 2> "$work/words"
  status=$?
  timeout 60 "$alone" < "$script" > "$work/got" 2> "$work/said"
  say "the word alone, $script" "$?" "$status"
done
want '' 'fault write'
: > "$work/got"
timeout 20 "$alone" < "$work/steps" 2> "$work/said" >&-
say 'the word alone, a closed output' "$?" 3
if [ -e /dev/full ]; then
  # a text that is written by the last flush alone
  timeout 20 "$alone" < examples/first.json 2> "$work/said" > /dev/full
  say 'the word alone, a full device' "$?" 3
fi

# a run in threads gives the same bytes whatever the schedule
for _ in $(seq 100); do
  if ! timeout 20 "$program" run < examples/threads.json 2> "$work/said" | cmp -s - examples/threads.txt; then
    echo "program: examples/threads.json: another report, and '$(head -c 300 "$work/said")'"
    failed=1
    break
  fi
done

# the same sources unproved
if ! ./look replay < examples/first.json 2>/dev/null | cmp -s - examples/first.txt; then
  echo 'program: ./look: other text than examples/first.txt'
  failed=1
fi

# the pictures of runs, and the run that they are made of beside the program's
tests/timeline.py || failed=1

# the examples of the pages
tests/pages.py || failed=1

# what the start scripts say, when they build, and what a stop leaves
tests/start.py || failed=1

[ "$failed" -eq 0 ] && echo 'program: passed'
exit "$failed"
