# Parts of tests/programs: scripts and runs, by one thread and by many, and what the benchmarks find.

# scripts: their first bad line, the greatest and one byte more, how much of them is read, and the trace that is printed
scripts() {
  local line text left file="$work/script"
  for text in '00 resolve 0x0' '64 resolve 0x0' '0 map 4K 0x800000000000 0x1000 wux' 'step 0  call' 'step 0 call ' 'step 64 call' \
    '0 resolve 0x00000000000000000' '0 resolve 0X0' '0 Resolve 0x0' 'step 0 take' 'step 0 call 0' '0 access x r 0x0' ' #'; do
    printf '%s' "$text" >"$file"
    tells "the script '$text'" 2 "bad line 1" sh -c "'$program' simulate <'$file'"
  done
  for line in 1 2 17 18; do
    { head -n $((line - 1)) "$script"; printf 'step 0 call\r\n'; tail -n +$line "$script"; echo step; } >"$file"
    tells "a carriage return in line $line" 2 "bad line $line" sh -c "'$program' simulate <'$file'"
  done
  printf '0 map 4K 0x800000000000 0x1000 wux\n' >"$file"
  printf 'yes\norder\n' >"$work/no_call"
  answers "a map that is well formed at five levels" 0 "$work/no_call" "$file" "$program" simulate --levels 5
  { seq -f '0 resolve 0x%g' 0 9; for line in $(seq 65527); do echo '63 unmap 0x0'; done; } >"$file"
  tells "65,537 requests" 2 "bad line 65537" sh -c "'$program' simulate <'$file'"
  yes 'step 63 take 9' | head -n 1000001 >"$file"
  tells "1,000,001 steps" 2 "bad line 1000001" sh -c "'$program' simulate <'$file'"
  head -n 1000000 "$file" >"$work/steps"
  answers "1,000,000 steps" 0 "$work/no_call" "$work/steps" "$program" simulate
  { cat "$script"; head -c $((16777216 - $(wc -c <"$script"))) /dev/zero | tr '\0' '#'; } >"$work/long"
  printf 'yes\norder 0 1\n' >"$work/simulated"
  answers "the longest script" 0 "$work/simulated" "$work/long" "$program" simulate
  { cat "$work/long"; head -c 10000 /dev/zero; } >"$file"
  tells "a script that is too long" 2 "input too long" sh -c "'$program' simulate <'$file'"
  left=$({ "$program" simulate 2>"$work/error"; cat; } <"$file" | wc -c)
  [ "$left" -eq 9999 ] && ok || no "more than 16,777,217 bytes were read: $left were left"
  tells "an input without an end" 2 "input too long" sh -c "timeout 60 '$program' simulate </dev/zero"
  "$program" simulate --trace <"$script" >"$work/simulated.trace"
  answers "the trace that is printed" 0 "$work/simulated" "$work/simulated.trace" "$program" audit
  python3 tests/models/model_auditor.py audit <"$work/simulated.trace" | cmp -s - "$work/simulated" && ok || no "the second auditor says no to the trace"
}

# a script's ends that fail, are interrupted or fall short
ends_of_scripts() {
  local at each shim="env LD_PRELOAD=$work/fail_ends.so"
  for at in 0 20 200; do
    tells "simulate, a read that fails at byte $at" 2 "cannot read" env FAIL_AT=$at LD_PRELOAD="$work/fail_ends.so" "$program" simulate <"$script"
  done
  tells "simulate, a second read that fails" 2 "cannot read" env FAIL_READ=2 LD_PRELOAD="$work/fail_ends.so" "$program" simulate <"$work/long"
  tells "simulate, a full device" 2 "cannot write" sh -c "'$program' simulate <'$script' >/dev/full"
  tells "a trace into a full device" 2 "cannot write" sh -c "'$program' simulate --trace <'$script' >/dev/full"
  tells "simulate, a closed output" 2 "cannot write" sh -c "'$program' simulate <'$script' >&-"
  tells "simulate, a closed input" 2 "cannot read" sh -c "'$program' simulate <&-"
  tells "simulate, an input that is a folder" 2 "cannot read" sh -c "'$program' simulate <."
  for each in 1 2 5; do
    answers "simulate, interrupted $each times" 0 "$work/simulated" "$script" $shim INTERRUPTS=$each SHORT_READ=77 SHORT_WRITE=2 "$program" simulate
    answers "a trace, interrupted $each times" 0 "$work/simulated.trace" "$script" \
      $shim INTERRUPTS=$each SHORT_READ=5 SHORT_WRITE=100 "$program" simulate --trace
  done
  tells "a bad line, interrupted" 2 "bad line 1" sh -c "echo x | $shim INTERRUPTS=2 SHORT_WRITE=2 '$program' simulate"
}

# a thread that makes as many calls as there can be, all answered NotMapped: reads, and updates
most_calls() {
  local kind
  for kind in read update; do
    PYTHONPATH=tests/drawn python3 - $kind >"$work/most" <<'P'
import sys

from recording import NOT_MAPPED, RESOLVE, UNMAP, call, dump, reply, trace

update = sys.argv[1] == "update"
numbers = range(0, 131072, 2)
events = [it for k, number in enumerate(numbers)
          for it in (call(0, 0, UNMAP if update else RESOLVE, 0), reply(number, k if update else 0, NOT_MAPPED))]
log = list(numbers) if update else []
sys.stdout.buffer.write(trace(1, 1, 1, log, events, [dump(len(log), {1: {}})]))
P
    answers "most calls, each an $kind" 0 "$work/whole" "$work/most" "$program" audit
  done
}

# runs: what is no script for one, the trace that is printed, and ends that fail
runs() {
  local file=$work/script text each shim="env LD_PRELOAD=$work/fail_ends.so"
  for text in '00 resolve 0x0' '64 resolve 0x0' '0 map 4K 0x800000000000 0x1000 wux' 'step 0 call'; do
    printf '%s\n' "$text" >"$file"
    tells "a run of '$text'" 2 "bad line 1" sh -c "'$program' run <'$file'"
  done
  printf '0 resolve 0x0\nstep 0 call\n\nstep 0 look\n' >"$file"
  tells "a run of steps" 2 "bad line 2" sh -c "'$program' run <'$file'"
  printf '0 resolve 0x0\nstep 0 call\n\n0 resolve\n' >"$file"
  tells "a run of steps before a bad line" 2 "bad line 4" sh -c "'$program' run <'$file'"
  "$program" run --trace <"$lines" >"$work/run.trace"
  printf 'yes\norder 0 2 4 6\n' >"$work/run_order"
  answers "the trace of a run" 0 "$work/run_order" "$work/run.trace" "$program" audit
  python3 tests/models/model_auditor.py audit <"$work/run.trace" | cmp -s - "$work/run_order" && ok || no "the second auditor says no to the run"
  tells "run, a read that fails" 2 "cannot read" env FAIL_AT=20 LD_PRELOAD="$work/fail_ends.so" "$program" run <"$lines"
  tells "run, a full device" 2 "cannot write" sh -c "'$program' run <'$lines' >/dev/full"
  tells "the trace of a run into a full device" 2 "cannot write" sh -c "'$program' run --trace <'$lines' >/dev/full"
  tells "run, a closed input" 2 "cannot read" sh -c "'$program' run <&-"
  for each in "--turns 0" "--turns 4294967296" "--turns x" "--replicas 0" "--replicas 5" "--tables 0" "--tables 4097" "--levels 3"; do
    complains "run $each" "$program" run $each
  done
  for each in 1 3; do
    answers "run, interrupted $each times" 0 tests/cases/run_of_four_lines/output "$lines" \
      $shim INTERRUPTS=$each SHORT_READ=7 SHORT_WRITE=3 "$program" run
  done
}

# runs in segments: their answers as they come, what is no script for one, the chain that is printed, and ends that fail
runs_in_segments() {
  local file=$work/script each words="run --chain --segment" of_four=tests/cases/run_of_four_lines/output
  local shim="env LD_PRELOAD=$work/fail_ends.so" of_two=$'0 done\n0 mapped 0x1123 4K wux'
  for each in 1 2 3 4 65536; do
    answers "$words $each" 0 $of_four "$lines" "$program" $words "$each"
    answers "$words $each, interrupted" 0 $of_four "$lines" $shim INTERRUPTS=3 SHORT_READ=7 SHORT_WRITE=3 "$program" $words "$each"
    "$program" $words "$each" --trace <"$lines" >"$work/run.chain"
    python3 -B tests/models/model_chains.py <"$work/run.chain" >"$work/chain_order" || no "the second auditor says no to $words $each"
    answers "the chain of $words $each" 0 "$work/chain_order" "$work/run.chain" "$program" audit --chain
    [ "$(tail -n 1 "$work/chain_order")" = "segments $((4 / each + 1))" ] && ok || no "$words $each: $(tail -n 1 "$work/chain_order")"
  done
  remarks "$words 2, a bad line" 2 "$of_two" "bad line 4" "$program" $words 2 < <(head -n 2 "$lines"; printf '\n64 resolve 0x0\n')
  remarks "$words 2, a step" 2 "$of_two" "bad line 4" "$program" $words 2 < <(head -n 2 "$lines"; printf '# none\nstep 0 call')
  remarks "$words 2, a bad line before it is full" 2 "$of_two" "bad line 4" "$program" $words 2 < <(head -n 3 "$lines"; echo 0 resolve)
  tells "$words 3, a bad line" 2 "bad line 3" "$program" $words 3 < <(head -n 2 "$lines"; echo 0 resolve 0x800000000000)
  remarks "$words 2, a second read that fails" 2 "$of_two" "cannot read" \
    $shim FAIL_READ=2 SHORT_READ="$(head -n 2 "$lines" | wc -c)" "$program" $words 2 <"$lines"
  tells "$words 2, a read that fails" 2 "cannot read" $shim FAIL_AT=20 "$program" $words 2 <"$lines"
  tells "$words 2, a closed input" 2 "cannot read" sh -c "'$program' $words 2 <&-"
  tells "$words 2, a full device" 2 "cannot write" sh -c "'$program' $words 2 <'$lines' >/dev/full"
  tells "$words 2 --trace, a closed output" 2 "cannot write" sh -c "'$program' $words 2 --trace <'$lines' >&-"
  for each in 0 65537 x ""; do
    complains "$words '$each'" "$program" $words "$each"
  done
  printf 'verified\n' >"$file"
  answers "$words 1 of nothing" 0 "$file" /dev/null "$program" $words 1
  answers "$words 1 of 17 MB" 0 $of_four <(yes '# a line that asks nothing' | head -n 650000; cat "$lines") "$program" $words 1
  printf '%s\n' "$of_two" >"$work/of_two"
  { head -n 2 "$lines"
    timeout 60 sh -c "until cmp -s '$work/come' '$work/of_two'; do sleep 0.1; done" || touch "$work/late"
    tail -n +3 "$lines"; } | "$program" $words 2 >"$work/come"
  cmp -s "$work/come" $of_four && [ ! -e "$work/late" ] && ok || no "$words 2: the answers of a segment are late"
}

# the sums of the benchmark against those of a script that has no page table, and its own edge
benchmark() {
  python3 benchmarks/space_sums.py 1 >"$work/sums"
  "$timed" page_table 1 >"$work/output" 2>"$work/error"
  check "the benchmark's sums" $? "$work/output" 0 "$work/sums"
  "$timed" page_table 1 raw >"$work/output" 2>"$work/error"
  check "the benchmark's sums over one block of memory" $? "$work/output" 0 "$work/sums"
  "$timed" page_table >"$work/output" 2>"$work/error"
  check "the benchmark with no word" $? "$work/output" 0 "$work/sums"
  python3 benchmarks/space_sums.py 1 five >"$work/sums_of_five"
  "$timed" page_table 1 five >"$work/output" 2>"$work/error"
  check "the benchmark's sums at five levels" $? "$work/output" 0 "$work/sums_of_five"
  "$timed" page_table 1 raw five >"$work/output" 2>"$work/error"
  check "the benchmark's sums at five levels over one block of memory" $? "$work/output" 0 "$work/sums_of_five"
  complains "the benchmark with two words" "$timed" page_table 1 2
  complains "the benchmark with a bad word" "$timed" page_table many
  complains "the benchmark with its words in another order" "$timed" page_table 1 five raw
  "$timed" page_table 1 >/dev/full 2>"$work/error"
  [ $? -ne 0 ] && ok || no "the benchmark writes into a full device"
}

# what threads find that look at one log or append to it, which no schedule changes, and the program's own edge
shared_log() {
  local threads calls replica words
  for threads in 1 2 3 4; do
    printf 'looks %d\ntails %d\n' $((1000 * threads)) $((16000 * threads)) >"$work/found"
    "$timed" log looks $threads 1000 >"$work/output" 2>"$work/error"
    check "looks of $threads threads" $? "$work/output" 0 "$work/found"
    for calls in 0 1 100 $((65536 / threads)); do
      {
        printf 'tail %d\ncompleted %d\n' $((threads * calls)) $((threads * calls))
        for replica in $(seq $threads); do
          printf 'taken %d calls %d\n' $((threads * calls)) $((threads * calls * (calls - 1) / 2))
        done
      } >"$work/found"
      "$timed" log appends $threads $calls >"$work/output" 2>"$work/error"
      check "$calls appends of each of $threads threads" $? "$work/output" 0 "$work/found"
    done
  done
  complains "the ring's benchmark with no word" "$timed" log
  for words in "looks" "looks 1" "looks 0 1" "looks 5 1" "looks 1 1 1" "looks x 1" "looks 1 x" "looks 1 4294967296" "fetches 1 1" \
    "appends 1 65537" "appends 3 21846" "appends 4 4294967295"; do
    complains "the ring's benchmark with $words" "$timed" log $words
  done
  for words in "looks 1 1" "appends 2 1"; do
    tells "the ring's benchmark with $words into a full device" 2 "cannot write" sh -c "'$timed' log $words >/dev/full"
  done
}

# what threads that share replicas print, which no schedule changes; what has not ended in time has failed
shared_replicas() {
  local seed test
  printf '72 runs, 21504 calls\n\ntest result: ok\n' >"$work/found"
  for test in drawn_calls drawn_calls_that_stop; do
    for seed in 2 3 4; do
      answers "$test from seed $seed" 0 "$work/found" "$work/nothing" \
        env SEED=$seed ROUNDS=8 timeout 600 "$calls_of_replicas" "threads::$test"
    done
  done
}

# runs of threads that wait for each other, are counted, are stopped, or are in each other's way; what has not ended in time has failed
runs_of_threads() {
  local test ran=0
  for test in $("$calls_of_core" --list | sed -n 's/^\(serve::\(runs\|hostile\|points\|turns\)::.*\): test$/\1/p'); do
    timeout 600 "$calls_of_core" "$test" >"$work/output" 2>&1
    check "$test" $? "$work/nothing" 0 "$work/nothing"
    ran=$((ran + 1))
  done
  [ "$ran" -ge 16 ] && ok || no "only $ran runs of threads were tried"
}

# the steps of the core's benchmark: one entry a step is applied for each replica, each update is at its own place, and each
# read comes after all updates of its turn
core_steps() {
  local words threads replicas calls turns updates enabled places
  for words in "1 1 0" "1 1 2" "4 2 104" "4 4 65536" "64 1 128" "64 4 65536"; do
    read -r threads replicas calls <<<"$words"
    turns=$((calls / threads / 2)) updates=$((calls / 2))
    enabled=$((turns * ((15 + replicas) * threads + replicas - 1)))
    places=$((updates * (updates - 1) / 2 + threads * threads * turns * (turns + 1) / 2))
    {
      printf 'steps %d enabled %d\n' $((updates * (16 + 2 * replicas))) $enabled
      printf 'events %d entries %d places %d\n' $((2 * calls)) $updates $places
    } >"$work/found"
    "$timed" core $words >"$work/output" 2>"$work/error"
    check "the core's steps of $words" $? "$work/output" 0 "$work/found"
  done
  complains "the core's benchmark with no word" "$timed" core
  for words in "1 1" "0 1 1" "1 0 1" "65 1 1" "5 5 5" "3 2 6" "1 2 2" "1 1 65537" "1 1 x" "1 1 1 1"; do
    complains "the core's benchmark with $words" "$timed" core $words
  done
  tells "the core's benchmark into a full device" 2 "cannot write" sh -c "'$timed' core 1 1 2 >/dev/full"
}

# what the threads of the replicas' benchmark find, against a script that has no replica
replicated() {
  local words threads layout calls reads
  for words in "1 1 0 0" "1 1 1000 50" "2 2 1000 0" "3 4 1000 50" "4 1 1000 50" "4 2 1000 90" "4 4 1000 100" "8 4 500 50" "64 4 100 50" \
    "1 1 1000 0 maps" "4 4 1000 50 maps" "64 3 100 50 maps"; do
    read -r threads layout calls reads _ <<<"$words"
    python3 benchmarks/replicas_sums.py $threads $calls $reads >"$work/found"
    timeout 600 "$timed" replicas $words >"$work/output" 2>"$work/error"
    check "the replicas' benchmark with $words" $? "$work/output" 0 "$work/found"
  done
  complains "the replicas' benchmark with no word" "$timed" replicas
  for words in "1 1 1" "0 1 1 1" "65 1 1 1" "1 0 1 1" "1 5 1 1" "1 1 x 1" "1 1 1 101" "1 1 1 1 1" "1 1 1 1 maps 1"; do
    complains "the replicas' benchmark with $words" "$timed" replicas $words
  done
  tells "the replicas' benchmark past the log's end" 2 "the log has ended" "$timed" replicas 1 1 50000 0
  tells "the replicas' benchmark into a full device" 2 "cannot write" sh -c "'$timed' replicas 1 1 1 1 >/dev/full"
}
