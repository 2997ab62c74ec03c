# Parts of tests/programs: verdicts and walks, on cases, on the greatest trace, of named files.

cases() {
  local folder told=0
  for folder in tests/cases/*/; do
    of_case "$folder" "$program"
    [ -e "$folder/errors" ] && told=$((told + 1))
  done
  [ $told -ge 20 ] && ok || no "few cases write to standard error"
}

# what shows the fault of each case that is audited, as the second auditor has it, in lines and as JSON; all faults and all format
# faults come up
explained() {
  local folder name words
  for folder in tests/cases/*/ examples/; do
    [ "$folder" = examples/ ] || grep -qx audit "$folder/args" || continue
    for name in "$folder"input "$folder"*.trace; do
      [ -e "$name" ] || continue
      for words in "--all" "--all --json" "--json" ""; do
        python3 -B tests/models/model_evidence.py $words <"$name" >"$work/explained"
        answers "explain $words $name" $? "$work/explained" "$name" "$program" explain $words
      done
      awk 'NR == 1 { print $3 == "Format" ? $3 " " $4 : $1 $3 }' "$work/explained" >>"$work/faults"
    done
  done
  for name in BadMagic BadVersion BadCount BadEvent BadFrame Truncated Trailing; do
    grep -qx "Format $name" "$work/faults" && ok || no "no case has the format fault $name"
  done
  [ "$(grep -v '^Format' "$work/faults" | sort -u | wc -l)" -ge 17 ] && ok || no "few faults are explained"
}

# runs of many threads, whose verdicts follow from how they are made
generated() {
  local file output status
  mkdir "$work/generated"
  python3 tests/drawn/generate.py "$work/generated"
  for file in "$work"/generated/*.trace; do
    output=${file%.trace}.output
    status=0
    grep -q '^no' "$output" && status=1
    answers "$(basename "$file")" $status "$output" "$file" "$program" audit
  done
  [ "$(ls "$work/generated" | wc -l)" -ge 50 ] && ok || no "few runs were generated"
}

# the longest trace that there is, a byte less, a byte more, and much more
greatest() {
  python3 benchmarks/traces.py greatest >"$work/greatest"
  [ "$(wc -c <"$work/greatest")" -eq 70647892 ] && ok || no "the greatest trace has another length"
  python3 -c 'print("yes"); print("order", *range(0, 131072, 2))' >"$work/whole"
  answers "the greatest trace" 0 "$work/whole" "$work/greatest" "$program" audit
  printf 'no 1 Format Trailing\n' >"$work/trailing"
  answers "a byte more" 1 "$work/trailing" <(cat "$work/greatest"; printf 'x') "$program" audit
  answers "the greatest trace twice" 1 "$work/trailing" <(cat "$work/greatest" "$work/greatest") "$program" audit
  printf 'no 1 Format Truncated\n' >"$work/truncated"
  answers "a byte less" 1 "$work/truncated" <(head -c 70647891 "$work/greatest") "$program" audit
}

# a pipe that gives its bytes in odd pieces
pieces() {
  local file=$work/generated/run_4_64.trace
  answers "in pieces" 0 "${file%.trace}.output" <(python3 tests/ends/in_pieces.py 1 7 4095 4097 3 30001 <"$file") "$program" audit
  answers "resolve in pieces" 0 "$work/mapped" <(python3 tests/ends/in_pieces.py 19 1 8191 <"$trace") \
    "$program" resolve --address 0x400123
}

# walk TEXT STATUS INPUT WORD..: what `nrvs resolve` has to print
walk() {
  local text=$1 status=$2 input=$3
  shift 3
  printf '%s\n' "$text" >"$work/walk"
  answers "resolve $*" "$status" "$work/walk" "$input" "$program" resolve "$@"
}

# walk_in_steps INPUT ADDRESS REPLICA: what `nrvs resolve --steps` has to print, as the second auditor has it
walk_in_steps() {
  python3 -B tests/models/model_evidence.py resolve "$2" "$3" <"$1" >"$work/walk"
  answers "the steps of $2 in $1" $? "$work/walk" "$1" "$program" resolve --address "$2" --replica "$3" --steps
}

steps_of_walks() {
  local cases=tests/cases
  printf '%s\n' "mapped 0x1123 4K wux" "level 4, frame 0x1, index 0: 0x2007" "level 3, frame 0x2, index 0: 0x3007" \
    "level 2, frame 0x3, index 2: 0x4007" "level 1, frame 0x4, index 0: 0x1007" >"$work/walked"
  answers "the steps of a walk" 0 "$work/walked" $trace "$program" resolve --steps --address 0x400123
  walk_in_steps $trace 0x400123 0
  walk_in_steps $trace 0xFFFFFFFFFFFFFFFF 0
  walk_in_steps $cases/gigabyte_page/input 0x40001234 0
  walk_in_steps $cases/faulty_dump_reserved_bit/input 0x200000 0
  walk_in_steps $cases/faulty_dump_missing_frame/input 0x0 0
  walk_in_steps $cases/faulty_dump_missing_root/input 0x0 0
  walk_in_steps $cases/five_levels_high_half/input 0xFF00000000000123 0
  walk_in_steps $cases/malformed_magic/input 0x0 0
  tells "the steps in replica 1 of 1" 2 "no such replica" "$program" resolve --steps --address 0x400123 --replica 1 <$trace
}

walks() {
  local cases=tests/cases
  walk "mapped 0x1123 4K wux" 0 $trace --address 0x400123
  walk "mapped 0x1fff 4K wux" 0 $trace --replica 0 --address=0x0000000000400FFF
  walk "not mapped" 0 $trace --address 0x401000
  walk "not mapped" 0 $trace --address 0xFFFFFFFFFFFFFFFF
  walk "mapped 0x2fff 4K wux" 0 $cases/both_halves_of_the_address_space/input --address 0x7fffFFFFffff
  walk "mapped 0x3000 4K wux" 0 $cases/both_halves_of_the_address_space/input --address 0xFFFF800000000000
  walk "mapped 0x1000 4K w-x" 0 $cases/dump_with_fewer_rights/input --address 0x400000
  walk "mapped 0x40001234 1G w--" 0 $cases/gigabyte_page/input --address 0x40001234
  walk "reserved" 0 $cases/faulty_dump_reserved_bit/input --address 0x200000
  walk "mapped 0x200000 2M wux" 0 $cases/faulty_dump_differs/input --address 0x200000
  walk "missing" 0 $cases/faulty_dump_missing_frame/input --address 0x0
  walk "missing" 0 $cases/faulty_dump_missing_root/input --address 0x0
  walk "no 1 Format Truncated" 1 $cases/malformed_without_the_last_byte/input --address 0x0
  walk "no 1 Format Trailing" 1 $cases/malformed_with_a_byte_more/input --address 0x0 --replica 3
  walk "no 1 Format BadMagic" 1 $cases/malformed_magic/input --address 0x0
  walk "no 1 Format BadVersion" 1 $cases/malformed_version_3/input --address 0x0
  walk "no 1 Format BadCount" 1 $cases/malformed_six_levels/input --address 0x0
  walk "no 1 Format BadEvent 0" 1 $cases/not_well_formed_unaligned/input --address 0x0
  walk "no 1 Format BadFrame 0 1" 1 $cases/malformed_frame_number/input --address 0x0
  walk "no 1 Format BadFrame 0 3" 1 $cases/malformed_last_frame_number/input --address 0x0
  walk "no 1 Format BadMagic" 1 $cases/malformed_magic/input --address 0x800000000000 --replica 9
  walk "mapped 0x3123 4K wux" 0 $cases/five_levels_high_half/input --address 0xFF00000000000123
  walk "not mapped" 0 $cases/five_levels_high_half/input --address 0x800000000000
  walk "reserved" 0 $cases/five_levels_reserved_bit/input --address 0x0
}

# the address's spelling is tested first, then the trace, then whether the address is canonical at its depth, then the replica
walks_not_made() {
  local word
  for word in 400123 0X400123 0x 0x00000000000400123 0x+400123 "0x40 0123" 0x40012g " 0x400123" "0x400123 " "" 0x-1; do
    tells "the address '$word'" 2 "bad address" "$program" resolve --address="$word" --replica 9 <&-
  done
  local five=tests/cases/five_levels_high_half/input
  for word in 0x800000000000 0xFFFF7FFFFFFFFFFF 0x8000000000000000; do
    tells "the address $word" 2 "not canonical" "$program" resolve --address "$word" --replica 9 <$trace
  done
  for word in 0x100000000000000 0xFEFFFFFFFFFFFFFF 0x8000000000000000; do
    tells "the address $word of five levels" 2 "not canonical" "$program" resolve --address "$word" --replica 9 <$five
  done
  tells "no input, and an address that is not canonical" 2 "cannot read" "$program" resolve --address 0x800000000000 <&-
  tells "replica 1 of 1" 2 "no such replica" "$program" resolve --address 0x400123 --replica 1 <$trace
  tells "replica 255 of 1" 2 "no such replica" "$program" resolve --address 0x400123 --replica 255 <$trace
  complains "replica 256" "$program" resolve --address 0x400123 --replica 256
  complains "replica -1" "$program" resolve --address 0x400123 --replica=-1
  complains "replica x" "$program" resolve --address 0x400123 --replica x
  complains "no address" "$program" resolve
}

# the audit alone says the same of each case that is its
audit_alone() {
  local folder words
  for folder in tests/cases/*/; do
    case $(head -n 1 "$folder/args") in
      audit | explain | resolve | pages) of_case "$folder" "$alone" ;;
    esac
  done
  for words in "audit" "explain" "resolve" "pages"; do
    "$program" $words --help >"$work/help_of_both" && sed -i 's/nrvs /nrvs_audit /' "$work/help_of_both"
    answers "help of $words, by the audit alone" 0 "$work/help_of_both" /dev/null "$alone" $words --help
  done
  complains "a run, by the audit alone" "$alone" run
}

# files that are named in place of standard input: what is printed of one is what is printed of its bytes, of several a line each
named_files() {
  local stale=examples/stale_read.trace
  printf 'yes\norder 0 2\n' >"$work/right"
  cp "$trace" "$work/-"
  answers "audit of a file" 0 "$work/right" /dev/null "$program" audit "$trace"
  answers "audit of standard input by its name" 0 "$work/right" "$trace" "$program" audit -
  answers "audit of a file that is named -" 0 "$work/right" "$stale" "$program" audit "$work/-"
  answers "audit of a file behind --" 0 "$work/right" /dev/null "$program" audit -- "$trace"
  answers "resolve in a file" 0 "$work/mapped" /dev/null "$program" resolve --address 0x400123 "$trace"
  answers "resolve in a file, which is named first" 0 "$work/mapped" /dev/null "$program" resolve "$trace" --address 0x400123
  "$program" explain <"$stale" >"$work/explained_stale"
  answers "explain of a file" 1 "$work/explained_stale" /dev/null "$program" explain "$stale"
  "$program" explain --json <"$stale" >"$work/explained_stale"
  answers "explain of a file, as JSON" 1 "$work/explained_stale" /dev/null "$program" explain "$stale" --json
  printf '%s: yes\n' "$trace" "$trace" >"$work/lines"
  answers "audit of two files" 0 "$work/lines" /dev/null "$program" audit "$trace" "$trace"
  printf '%s: yes\n%s: no 9 Early 3\n-: yes\n' "$trace" "$stale" >"$work/lines"
  answers "audit of three, one of them standard input" 1 "$work/lines" "$trace" "$program" audit "$trace" "$stale" -
  tells "audit of no file" 2 "$work/none: $no_file" "$program" audit "$work/none"
  tells "audit of a folder" 2 ".: $is_folder" "$program" audit .
  tells "explain of no file" 2 "$work/none: $no_file" "$program" explain "$work/none"
  tells "resolve in no file" 2 "$work/none: $no_file" "$program" resolve --address 0x400123 "$work/none"
  tells "resolve in a file, of a replica that there is not" 2 "$trace: no such replica" \
    "$program" resolve --address 0x400123 --replica 1 "$trace"
  tells "audit of a file into a full device" 2 "cannot write" sh -c "'$program' audit '$trace' >/dev/full"
  tells "audit of two files into a full device" 2 "cannot write" sh -c "'$program' audit '$trace' '$stale' >/dev/full"
  "$program" audit "$stale" "$work/none" "$trace" >"$work/output" 2>"$work/error"
  local status=$?
  printf '%s: no 9 Early 3\n%s: yes\n' "$stale" "$trace" >"$work/lines"
  check "audit of three, one of which there is not" "$status" "$work/output" 2 "$work/lines"
  printf '%s: %s\n' "$work/none" "$no_file" >"$work/lines"
  cmp -s "$work/error" "$work/lines" && ok || no "what is said of a file that there is not: $(cat "$work/error")"
  tells "a word that is no address, and a file" 2 "bad address
$trace: \"400123\" doesn't begin with 0x" "$program" resolve --address 400123 "$trace"
  complains "explain of two files" "$program" explain "$trace" "$trace"
  complains "a file for a run" "$program" run "$trace"
}

# several files as tests: a plan, and a line for each, whatever comes of it; by both programs
tests_of_files() {
  local each stale=examples/stale_read.trace other broken
  printf 'TAP version 13\n1..4\nok 1 - %s: yes\nnot ok 2 - %s: no 9 Early 3\nnot ok 3 - %s: cannot read\nok 4 - -: yes\n' \
    "$trace" "$stale" "$work/none" >"$work/lines"
  printf '%s: %s\n' "$work/none" "$no_file" >"$work/wanted"
  for each in "$program" "$alone"; do
    says "four files as tests, by $each" 2 "$work/lines" "$work/wanted" "$trace" "$each" audit --tap "$trace" "$stale" "$work/none" -
  done
  printf 'TAP version 13\n1..1\nok 1 - %s: yes\n' "$trace" >"$work/lines"
  answers "one file as a test" 0 "$work/lines" /dev/null "$program" audit "$trace" --tap
  printf 'TAP version 13\n1..2\nnot ok 1 - %s: no 9 Early 3\nok 2 - %s: yes\n' "$stale" "$trace" >"$work/lines"
  answers "two files as tests, the first of which is wrong" 1 "$work/lines" /dev/null "$program" audit --tap "$stale" "$trace"
  tells "tests into a full device" 2 "cannot write" sh -c "'$program' audit --tap '$trace' >/dev/full"
  broken="$(printf 'a\nok 2')"
  for other in --json --chain --quiet --progress '--least-overlap 3'; do
    complains "tests with $other" "$program" audit --tap $other "$trace"
  done
  complains "a test with a name of two lines" "$program" audit --tap "$trace" "$broken"
  complains "a test with a carriage return in its name" "$program" audit --tap "$trace" "$(printf 'a\rok 2')"
  complains "tests of no file" "$program" audit --tap
}
