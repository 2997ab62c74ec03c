# Parts of tests/programs: each growth of memory refused in turn, and calls that allocate nothing.

# refuse_each NAME WANTED_STATUS WANTED_OUTPUT MAY_PRINT INPUT COMMAND..: each growth refused in turn: out of memory, with
# no more output than the beginning of MAY_PRINT, or the right answer where the program does without; never another answer. A run
# says that there is no thread where the growth was that of a thread's start, of which a thread has few.
refuse_each() {
  local name=$1 wanted=$2 output=$3 may_print=$4 input=$5
  shift 5
  local n status said refusals=0 unstarted=0 starts=0
  [ "${2-}" = run ] && starts=$((${STARTS:-1} * GROWTHS_OF_A_START))
  for n in $(seq 1 2000); do
    rm -f "$work/refused"
    REFUSE_GROWTH=$n REFUSED="$work/refused" LD_PRELOAD="$work/refuse_growth.so" \
      "$@" <"$input" >"$work/output" 2>"$work/error"
    status=$?
    [ -e "$work/refused" ] || break
    if [ $status -eq 3 ]; then
      refusals=$((refusals + 1))
      head -c "$(wc -c <"$work/output")" "$may_print" | cmp -s - "$work/output" ||
        no "$name, growth $n: it printed $(cat "$work/output")"
      # a benchmark prints its times before that
      if [ "$1" = "$program" ]; then said=$(cat "$work/error"); else said=$(tail -n 1 "$work/error"); fi
      [ "$said" = "out of memory" ] || no "$name, growth $n: it said $(cat "$work/error")"
    elif [ $status -eq 2 ] && [ "$(cat "$work/error")" = "no thread" ] &&
      head -c "$(wc -c <"$work/output")" "$may_print" | cmp -s - "$work/output"; then
      unstarted=$((unstarted + 1))
    elif [ $status -ne "$wanted" ] || ! cmp -s "$work/output" "$output"; then
      no "$name, growth $n: status $status, $(cat "$work/output")"
    fi
  done
  check "$name, after $refusals refused growths" $status "$work/output" "$wanted" "$output"
  [ "$refusals" -gt 10 ] && ok || no "$name: only $refusals refused growths"
  [ "$unstarted" -le "$starts" ] && ok || no "$name: no thread at $unstarted refused growths"
  [ "$starts" -eq 0 ] || [ "$unstarted" -gt 0 ] || no "$name: no refused growth left it without a thread"
}

growths() {
  local case folder
  for case in map_then_resolve protect_changes_rights map_then_resolve_with_3_tables malformed_without_the_last_byte \
    dump_with_fewer_rights faulty_dump_stray_frame faulty_dump_shared_frame; do
    folder=tests/cases/$case
    refuse_each "$case" "$(cat "$folder/status")" "$folder/output" "$work/nothing" "$folder/input" "$program" audit
  done
  for case in faulty_dump_shared_frame faulty_dump_reserved_bit faulty_dump_differs malformed_magic; do
    folder=tests/cases/$case
    python3 -B tests/models/model_evidence.py <"$folder/input" >"$work/explained"
    refuse_each "explain $case" 1 "$work/explained" "$work/nothing" "$folder/input" "$program" explain
    python3 -B tests/models/model_evidence.py --json <"$folder/input" >"$work/explained"
    refuse_each "explain --json $case" 1 "$work/explained" "$work/nothing" "$folder/input" "$program" explain --json
  done
  for case in stale_read wrong_answer map_then_resolve; do
    python3 -B tests/models/model_evidence.py <examples/$case.trace >"$work/explained"
    refuse_each "explain $case" $? "$work/explained" "$work/nothing" examples/$case.trace "$program" explain
    python3 -B tests/models/model_evidence.py --json <examples/$case.trace >"$work/explained"
    refuse_each "explain --json $case" $? "$work/explained" "$work/nothing" examples/$case.trace "$program" explain --json
  done
  "$program" simulate --trace --tables 4 <"$script" >"$work/simulated_of_4"
  refuse_each "resolve" 0 "$work/mapped" "$work/nothing" $trace "$program" resolve --address 0x400123
  refuse_each "resolve, the steps" 0 "$work/walked" "$work/nothing" $trace "$program" resolve --steps --address 0x400123
  refuse_each "resolve, no such replica" 2 "$work/nothing" "$work/nothing" $trace "$program" resolve --address 0x1 --replica 1
  printf '0x400000 4K 0x1000 wux\n' >"$work/listed"
  refuse_each "pages" 0 "$work/listed" "$work/nothing" $trace "$program" pages
  folder=tests/cases/both_halves_of_the_address_space
  python3 -B tests/models/model_pages.py --ranges <$folder/input >"$work/listed"
  refuse_each "pages, the ranges" 0 "$work/listed" "$work/nothing" $folder/input "$program" pages --ranges
  folder=tests/cases/faulty_dump_shared_frame
  python3 -B tests/models/model_pages.py <$folder/input >"$work/listed"
  refuse_each "pages, a fault" 1 "$work/listed" "$work/nothing" $folder/input "$program" pages
  refuse_each "simulate" 0 "$work/simulated" "$work/nothing" $script "$program" simulate --replicas 1 --tables 4
  refuse_each "simulate, the trace" 0 "$work/simulated_of_4" "$work/nothing" $script "$program" simulate --trace --tables 4
  refuse_each "simulate, a bad line" 2 "$work/nothing" "$work/nothing" $trace "$program" simulate
  refuse_each "run" 0 tests/cases/run_of_four_lines/output "$work/nothing" $lines "$program" run --tables 4
  # two segments of 64 threads; what came of the first may be printed
  folder=tests/cases/run_of_four_lines
  STARTS=128 refuse_each "run --chain" 0 $folder/output $folder/output $lines "$program" run --chain --segment 3 --tables 4
  "$program" run --chain --segment 2 --tables 4 --trace <$lines >"$work/run.chain"
  STARTS=192 refuse_each "run --chain --trace" 0 "$work/run.chain" "$work/run.chain" $lines \
    "$program" run --chain --segment 2 --tables 4 --trace
  refuse_each "no words" 2 "$work/nothing" "$work/nothing" $trace "$program"
  refuse_each "the benchmark" 0 "$work/sums" "$work/sums" "$work/nothing" "$timed" page_table 1
  printf 'looks 200\ntails 3200\n' >"$work/found"
  refuse_each "looks of two threads" 0 "$work/found" "$work/found" "$work/nothing" "$timed" log looks 2 100
  printf 'tail 100\ncompleted 100\ntaken 100 calls 4950\n' >"$work/found"
  refuse_each "appends of a thread" 0 "$work/found" "$work/found" "$work/nothing" "$timed" log appends 1 100
  printf 'steps 40 enabled 35\nevents 8 entries 2 places 5\n' >"$work/found"
  refuse_each "the core's benchmark" 0 "$work/found" "$work/found" "$work/nothing" "$timed" core 2 2 4
  python3 benchmarks/replicas_sums.py 1 10 50 >"$work/found"
  refuse_each "the replicas' benchmark" 0 "$work/found" "$work/found" "$work/nothing" "$timed" replicas 1 2 10 50
  refuse_each "the benchmark over one block of memory" 0 "$work/sums" "$work/sums" "$work/nothing" "$timed" page_table 1 raw
}

# refuse_in_tests NAME LEAST PROGRAM TEST..: each growth of these tests of a crate refused in turn, at least so many in all: out
# of memory, or what the test asks for where the call does without; or no thread where that was the growth of a thread's start, of one
# thread or of so many. What has not ended in time has failed
refuse_in_tests() {
  local name=$1 least=$2 tests=$3
  shift 3
  local test n status refusals=0 unstarted=0
  for test; do
    for n in $(seq 1 400); do
      rm -f "$work/refused"
      timeout 600 env REFUSE_GROWTH=$n REFUSED="$work/refused" LD_PRELOAD="$work/refuse_growth.so" \
        "$tests" "$test" >"$work/output" 2>&1
      status=$?
      [ -e "$work/refused" ] || break
      [ $status -eq 0 ] && continue
      if grep -q '^error: Refused(NoThread)' "$work/output"; then
        unstarted=$((unstarted + 1))
        continue
      fi
      refusals=$((refusals + 1))
      grep -qE '^(error|memory): (Memory|AllocFailed|AllocError)' "$work/output" && ok || no "$test, growth $n: $(head -c 300 "$work/output")"
    done
    check "$test, with no growth refused" $status "$work/nothing" 0 "$work/nothing"
  done
  [ "$refusals" -ge "$least" ] && ok || no "$name met $refusals refused growths"
  [ "$unstarted" -le $((${starts:-1} * GROWTHS_OF_A_START)) ] && ok || no "$name: no thread at $unstarted refused growths"
}

# without_growths NAME WANTED_OUTPUT LEAST NONE.. -- SOME..: as many growths of memory by one command as by another, at least so many. What the
# second prints has to be that file
without_growths() {
  local name=$1 wanted=$2 least=$3 growth status none=()
  shift 3
  while [ "$1" != -- ]; do none+=("$1"); shift; done
  shift
  for growth in $(seq 1 200); do
    rm -f "$work/refused"
    REFUSE_GROWTH=$growth REFUSED="$work/refused" LD_PRELOAD="$work/refuse_growth.so" "${none[@]}" >/dev/null 2>&1
    [ -e "$work/refused" ] || break
  done
  [ "$growth" -gt "$least" ] && [ ! -e "$work/refused" ] && ok || no "$name: $growth growths without"
  REFUSE_GROWTH=$growth REFUSED="$work/refused" LD_PRELOAD="$work/refuse_growth.so" "$@" >"$work/output" 2>"$work/error"
  status=$?
  check "$name" $status "$work/output" 0 "$wanted"
  [ ! -e "$work/refused" ] && ok || no "$name: they take memory"
}

# updates, reads and accesses of replicas, and two calls of a pen with their replies, allocate nothing
calls_without_growths() {
  python3 benchmarks/replicas_sums.py 1 1000 50 >"$work/found"
  without_growths "updates and reads" "$work/found" 10 "$timed" replicas 1 2 0 50 -- "$timed" replicas 1 2 1000 50
  printf '\ntest result: ok\n' >"$work/found"
  without_growths "accesses" "$work/found" 20 "$calls_of_replicas" growths::reads_after_a_map -- "$calls_of_replicas" growths::tries_after_a_map
  without_growths "calls of a pen" "$work/found" 3 "$calls_of_core" recorder_growths::pen_without_calls -- \
    "$calls_of_core" recorder_growths::pen_of_two_calls
}

# calls that no program here makes
growths_of_calls() {
  refuse_in_tests "the listings and gathered dumps" 48 "$calls" walk::dumps_of_four_levels walk::faulty_dumps \
    walk::dumps_of_five_levels walk::gathered
  refuse_in_tests "a feed of units" 20 "$calls_of_audit" units::what_stands_behind_the_last_unit
  refuse_in_tests "segments" 40 "$calls_of_chains" segments::a_first_segment segments::a_segment_with_a_start segments::a_touch_of_nothing
  refuse_in_tests "chains" 30 "$calls_of_chains" whole::one_chain pieces::pieces_without_a_byte
  refuse_in_tests "a new log" 5 "$calls_of_replicas" log::ring::ring_fills_and_frees
  refuse_in_tests "new slots" 1 "$calls_of_replicas" log::slots::slot_round_trip
  refuse_in_tests "the protocol's core" 20 "$calls_of_core" growths::goes_on_from_the_same_state growths::whole_run
  refuse_in_tests "a run that is recorded" 14 "$calls_of_core" recorder::two_pens_one_thread
  refuse_in_tests "a node" 12 "$calls_of_replicas" node::node::node_alone_over_a_vector node::node::node_alone_over_one_region
  refuse_in_tests "replicas, and what is left of them" 180 "$calls_of_replicas" examples::one_replica examples::nothing_was_done \
    examples::five_levels ends::settling_without_passes
  refuse_in_tests "a whole run" 60 "$calls_of_core" serve::growths::whole_run
  starts=2 refuse_in_tests "a run in two segments" 80 "$calls_of_core" serve::growths::run_in_two_segments
}

# the block of an arena is freed once, also where a growth is refused
blocks() {
  local test n taken=0
  for test in $("$calls" --list | sed -n 's/^\(arena::.*\): test$/\1/p'); do
    for n in $(seq 0 8); do
      REFUSE_GROWTH=$n BLOCKS="$work/blocks" LD_PRELOAD="$work/count_blocks.so $work/refuse_growth.so" \
        "$calls" "$test" >"$work/output" 2>"$work/error"
      grep -qE '^[0-9]+ taken, 0 left$' "$work/blocks" && ok || no "$test, growth $n: blocks $(cat "$work/blocks")"
      taken=$((taken + $(cut -d' ' -f1 "$work/blocks")))
    done
  done
  [ "$taken" -ge 50 ] && ok || no "the arenas took $taken blocks"
  command -v valgrind >/dev/null || { echo "skipped: the arenas under valgrind"; return; }
  valgrind -q --leak-check=full --error-exitcode=9 "$calls" arena::arenas_of_two >"$work/output" 2>"$work/error"
  check "the arenas under valgrind" $? "$work/nothing" 0 "$work/nothing"
}
