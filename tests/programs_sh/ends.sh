# Parts of tests/programs: reads and writes that fail, are interrupted or fall short, and headers that promise much.

# ends that fail, each for some commands
ends() {
  local command
  local at
  for command in "audit" "explain" "explain --json" "resolve --address 0x400123" "pages" "pages --ranges"; do
    for at in 0 20 16551; do
      tells "$command, a read that fails at byte $at" 2 "cannot read" \
        env FAIL_AT=$at LD_PRELOAD="$work/fail_ends.so" "$program" $command <"$trace"
    done
    tells "$command, a full device" 2 "cannot write" sh -c "'$program' $command <'$trace' >/dev/full"
    tells "$command, a closed output" 2 "cannot write" sh -c "'$program' $command <'$trace' >&-"
    tells "$command, a closed input" 2 "cannot read" sh -c "'$program' $command <&-"
    tells "$command, an input that is a folder" 2 "cannot read" sh -c "'$program' $command <."
    tells "$command, a second read that fails" 2 "cannot read" \
      env FAIL_READ=2 LD_PRELOAD="$work/fail_ends.so" "$program" $command <"$work/generated/run_4_64.trace"
  done
}

# what reads after a refusal would give is never asked for
refusals_end_reading() {
  local command left
  { printf 'NRVX'; head -c 8188 /dev/zero; } >"$work/bad_magic"
  for command in "audit" "explain" "explain --json" "resolve --address 0x400123" "pages --ranges"; do
    printf 'no 1 Format BadMagic\n' >"$work/wanted_of_magic"
    [ "${command%% *}" = explain ] && python3 -B tests/models/model_evidence.py ${command#explain} <"$work/bad_magic" >"$work/wanted_of_magic"
    answers "$command, a bad magic, and a second read that would fail" 1 "$work/wanted_of_magic" "$work/bad_magic" \
      env FAIL_READ=2 LD_PRELOAD="$work/fail_ends.so" "$program" $command
    [ "${command%% *}" = explain ] && head -c 4096 /dev/zero | python3 -B tests/models/model_evidence.py ${command#explain} >"$work/wanted_of_magic"
    answers "$command, an input without an end" 1 "$work/wanted_of_magic" /dev/zero timeout 60 "$program" $command
    left=$({ "$program" $command >"$work/output"; cat; } <"$work/bad_magic" | wc -c)
    [ "$left" -eq 4096 ] && ok || no "$command read on after a bad magic: $left bytes were left"
  done
  { cat "$work/greatest"; head -c 10000 /dev/zero; } >"$work/too_long"
  left=$({ "$program" audit >"$work/output"; cat; } <"$work/too_long" | wc -c)
  cmp -s "$work/output" "$work/trailing" && ok || no "the greatest trace and much more: $(cat "$work/output")"
  [ "$left" -eq 9999 ] && ok || no "more than 70,647,893 bytes were read: $left were left"
}

# reads and writes that are interrupted or fall short, and more reads than blocks of the greatest trace
interrupted() {
  local each shim="env LD_PRELOAD=$work/fail_ends.so" file=$work/generated/run_4_64.trace
  for each in 1 2 5; do
    answers "audit, interrupted $each times" 0 "$work/right" "$trace" $shim INTERRUPTS=$each SHORT_READ=1000 SHORT_WRITE=3 "$program" audit
    answers "resolve, interrupted $each times" 0 "$work/mapped" "$trace" \
      $shim INTERRUPTS=$each SHORT_READ=77 SHORT_WRITE=2 "$program" resolve --address 0x400123
    answers "a large run, interrupted $each times" 0 "${file%.trace}.output" "$file" \
      $shim INTERRUPTS=$each SHORT_WRITE=1000 "$program" audit
  done
  answers "a large run in reads of 5 bytes" 0 "${file%.trace}.output" "$file" $shim SHORT_READ=5 "$program" audit
  answers "the greatest trace in reads of 1,000 bytes" 0 "$work/whole" "$work/greatest" $shim SHORT_READ=1000 "$program" audit
  "$program" --help >"$work/help"
  answers "help, interrupted" 0 "$work/help" "$work/nothing" $shim INTERRUPTS=2 SHORT_WRITE=7 "$program" --help
  tells "an error, interrupted" 2 "bad address" $shim INTERRUPTS=2 SHORT_WRITE=2 "$program" resolve --address x
}

# a write that fails once: what was written is the beginning of the text, and nothing comes behind it
failed_writes() {
  local file command each
  while read -r file command; do
    "$program" $command <"$file" >"$work/uncut"
    for each in 1 2 3; do
      head -c $((3 * (each - 1))) "$work/uncut" >"$work/wanted"
      env LD_PRELOAD="$work/fail_ends.so" SHORT_WRITE=3 FAIL_WRITE=$each "$program" $command <"$file" >"$work/output" 2>"$work/error"
      check "$command, whose write $each fails" $? "$work/output" 2 "$work/wanted"
      [ "$(cat "$work/error")" = "cannot write" ] && ok || no "$command, whose write $each fails: it said $(cat "$work/error")"
    done
  done <<E
$trace audit
$trace explain
$trace explain --json
$trace resolve --address 0x400123
$trace pages
$trace pages --ranges
$script simulate
$script simulate --trace
$lines run
$lines run --trace
$lines run --chain --segment 1
$lines run --chain --segment 3 --trace
/dev/null --help
E
}

# the longest order: 65,568 calls, of which 64 are updates that were never answered
longest_order() {
  PYTHONPATH=tests/drawn python3 - "$work/longest" >"$work/longest_order" <<'P'
import sys

from recording import NOT_MAPPED, RESOLVE, UNMAP, call, dump, reply, trace

events, log = [], []
for i in range(65504):
    number, update = len(events), i >= 32
    events += [call(0, i % 64, UNMAP if update else RESOLVE, 0), reply(number, len(log), NOT_MAPPED)]
    log += [number] * update
order = list(range(0, 2 * 65504, 2))
for thread in range(64):
    log.append(len(events))
    order.append(len(events))
    events.append(call(0, thread, UNMAP, 0))
with open(sys.argv[1], "wb") as out:
    out.write(trace(1, 64, 1, log, events, [dump(len(log), {1: {}})]))
print("yes")
print("order", *order)
P
  [ "$(wc -w <"$work/longest_order")" -eq 65570 ] && ok || no "the longest order has another length"
  answers "the longest order" 0 "$work/longest_order" "$work/longest" "$program" audit
  answers "the longest order in short writes" 0 "$work/longest_order" "$work/longest" \
    env LD_PRELOAD="$work/fail_ends.so" INTERRUPTS=1 SHORT_WRITE=100 "$program" audit
  answers "the longest order into a pipe" 0 "$work/longest_order" "$work/longest" sh -c "'$program' audit | cat"
}

# reads that fall short; an answer that is longer than what the output holds back, into a full device
short_ends() {
  local size
  printf 'yes\norder 0 2\n' >"$work/right"
  for size in $(seq 1 64) 511 4095 4096; do
    answers "reads of $size bytes" 0 "$work/right" "$trace" env SHORT_READ=$size LD_PRELOAD="$work/fail_ends.so" "$program" audit
  done
  tells "a long answer into a full device" 2 "cannot write" sh -c "'$program' audit <'$work/greatest' >/dev/full"
}

# a header that promises much, and nothing after it: at once, and in little memory
promises() {
  local case=tests/cases/malformed_header_alone
  printf 'yes\norder\n' >"$work/no_call"
  answers "a header alone" 1 $case/output $case/input env BLOCKS="$work/blocks" LD_PRELOAD="$work/count_blocks.so" "$program" audit
  grep -qE '^[01] taken, ' "$work/blocks" && ok || no "a header alone: blocks $(cat "$work/blocks")"
  PYTHONPATH=tests/drawn python3 -c '
import struct, sys
from recording import dump, trace
whole = trace(1, 1, 4096, [], [], [dump(0, {1: {}})])
sys.stdout.buffer.write(whole[:24] + struct.pack(">I", 4096) + whole[28:])' >"$work/promise"
  answers "a dump that promises 4,096 frames and has one" 1 "$work/truncated" "$work/promise" \
    sh -c "ulimit -v 12000; exec '$program' audit"
  # tables without a page: the root, 512 below it, and the others below four of these
  PYTHONPATH=tests/drawn python3 -c '
import sys
from recording import dump, trace
frames = {number: {} for number in range(1, 2101)}
for number in range(2, 2101):
    frames[1 + (number - 2) // 512][(number - 2) % 512] = number << 12 | 7
sys.stdout.buffer.write(trace(4, 1, 4096, [], [], [dump(0, frames)] * 4))' >"$work/many_frames"
  answers "dumps of 2,100 frames in 1.15 times their memory, and 8 MB" 0 "$work/no_call" "$work/many_frames" \
    sh -c "ulimit -v 49000; exec '$program' audit"
  answers "the greatest trace in 1.15 times its memory, and 8 MB" 0 "$work/whole" "$work/greatest" \
    sh -c "ulimit -v 90000; exec '$program' audit"
}
