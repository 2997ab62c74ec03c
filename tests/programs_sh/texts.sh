# Parts of tests/programs: JSON, progress, pages, chains, and what is said on a terminal, of bad lines, and of words.

# the verdicts as JSON: each has what its text has, as Python's own module writes it; by both programs
as_json() {
  local folder name each word count=0
  local stale=examples/stale_read.trace chain=examples/stale_touch.chain
  for folder in tests/cases/*/; do
    [ "$(cat "$folder/args")" = audit ] || continue
    python3 -B tests/models/json_of_text.py "$folder/input" <"$folder/output" >"$work/object"
    for each in "$program" "$alone"; do
      answers "$(basename "$folder") as JSON, by $each" "$(cat "$folder/status")" "$work/object" "$folder/input" "$each" audit --json
    done
    count=$((count + 1))
  done
  [ $count -ge 50 ] && ok || no "few verdicts are compared as JSON"
  while IFS=$'\t' read -r name word; do
    [ -e "tests/chains/$name.chain" ] && [ "$name" != a_trace ] || continue
    tr / '\n' <<<"$word" >"$work/of_chain"
    python3 -B tests/models/json_of_text.py --chain "tests/chains/$name.chain" <"$work/of_chain" >"$work/object"
    each=0
    grep -q '^no' "$work/of_chain" && each=1
    answers "the chain $name as JSON" $each "$work/object" "tests/chains/$name.chain" "$program" audit --chain --json
    tail -n 1 "$work/object" >"$work/last_object"
    answers "the end of the chain $name as JSON" $each "$work/last_object" "tests/chains/$name.chain" \
      "$alone" audit --json --quiet --chain
  done < <(grep -v '^#' tests/chains/EXPECTED)
  printf '%s: yes\n%s: no 9 Early 3\n-: yes\n' "$trace" "$stale" >"$work/lines"
  python3 -B tests/models/json_of_text.py --named "$trace=$trace" "-=$trace" <"$work/lines" >"$work/object"
  answers "audit of three files as JSON" 1 "$work/object" "$trace" "$program" audit --json "$trace" "$stale" -
  name=$'quoted " \\ and\ttab\nä'
  cp "$trace" "$work/$name"
  python3 -c 'import json, sys
for _ in range(2): print(json.dumps({"calls": 2, "file": sys.argv[1], "overlapping": 0, "verdict": "yes"}, separators=(",", ":"), ensure_ascii=False))' \
    "$work/$name" >"$work/object"
  answers "names with quotes, as JSON" 0 "$work/object" /dev/null "$program" audit --json "$work/$name" "$work/$name"
  tells "audit of no file, as JSON" 2 "$work/none: $no_file" "$program" audit --json "$work/none"
  tells "audit as JSON into a full device" 2 "cannot write" sh -c "'$program' audit --json '$trace' >/dev/full"
  tells "a chain as JSON into a full device" 2 "cannot write" sh -c "'$program' audit --json --chain '$chain' >/dev/full"
  complains "--quiet and --json without --chain" "$program" audit --json --quiet
  complains "two chains as JSON" "$program" audit --json --chain "$chain" "$chain"
}

# how many calls of a right trace overlap: asked for, and shown on a terminal; the output is as ever
overlaps() {
  local each stale=examples/stale_read.trace run=tests/cases/read_before_and_after/input chain=tests/chains/begins_with_a_page.chain
  printf 'yes\norder 2 0 1\n' >"$work/verdict"
  printf 'no 9 Early 3\n' >"$work/wrong"
  for each in "$program" "$alone"; do
    answers "a trace of which three calls overlap, to $each" 0 "$work/verdict" "$run" "$each" audit --least-overlap 3
    answers "the same, of which none is asked for, to $each" 0 "$work/verdict" "$run" "$each" audit --least-overlap 0 "$run"
    printf 'fewer than 4 calls overlapped\n' >"$work/few"
    says "fewer calls than are asked for overlap, to $each" 2 "$work/verdict" "$work/few" "$run" "$each" audit --least-overlap 4
    says "the same of a file, to $each" 2 "$work/verdict" "$work/few" /dev/null "$each" audit --least-overlap 4 "$run"
    printf '{"calls":3,"overlapping":3,"verdict":"yes"}\n' >"$work/object"
    says "the same as JSON, to $each" 2 "$work/object" "$work/few" "$run" "$each" audit --least-overlap 4 --json
    printf 'fewer than 4294967295 calls overlapped\n' >"$work/few"
    says "the most that can be asked for, to $each" 2 "$work/verdict" "$work/few" "$run" "$each" audit --least-overlap 4294967295
    answers "a wrong trace of which many are to overlap, to $each" 1 "$work/wrong" "$stale" "$each" audit --least-overlap 100
    complains "a number of calls that is none, to $each" "$each" audit --least-overlap many "$run"
    complains "a number of calls that is too great, to $each" "$each" audit --least-overlap 4294967296 "$run"
    complains "calls of two traces that are to overlap, to $each" "$each" audit --least-overlap 1 "$run" "$run"
    printf 'segments 1\n' >"$work/of_chain"
    printf 'fewer than 1 calls overlapped\n' >"$work/few"
    answers "a chain of which no call is to overlap, to $each" 0 "$work/of_chain" $chain "$each" audit --chain --quiet --least-overlap 0
    says "a chain of which a call is to overlap, to $each" 2 "$work/of_chain" "$work/few" $chain "$each" audit --chain --quiet --least-overlap 1
    shows "a right chain, to $each" 0 "1 calls, 0 overlapping, 0 touches beside an update" $chain "$each" audit --chain
    shows "a wrong chain, to $each" 1 "" examples/stale_touch.chain "$each" audit --chain
    shows "a chain with late faults that is watched, to $each" 0 "1 calls, 0 overlapping, 0 touches beside an update
excuses: 0 open, 2 kept, 0 lagging, 2 repeated" tests/chains/fault_twice_after_more_rights_were_given.chain "$each" audit --chain --progress
    shows "a right trace, to $each" 0 "3 calls, 3 overlapping" "$run" "$each" audit
    shows "a right trace as JSON, to $each" 0 "3 calls, 3 overlapping" "$run" "$each" audit --json
    shows "three traces, to $each" 1 "5 calls, 3 overlapping" /dev/null "$each" audit "$run" "$stale" "$trace"
    shows "a right trace that overlaps too little, to $each" 2 "3 calls, 3 overlapping
fewer than 4 calls overlapped" "$run" "$each" audit --least-overlap 4
    shows "a wrong trace, to $each" 1 "" "$stale" "$each" audit
  done
}

# how far an audit has come: shown on a terminal, and removed at the end; the output stays the same, and nothing is shown elsewhere
progress() {
  local each
  seq 1 400 | while read -r each; do cat tests/chains/begins_with_a_page.chain; done >"$work/many.chain"
  "$program" audit --chain --quiet <"$work/many.chain" >"$work/of_chain"
  each=$?
  answers "a chain whose progress isn't shown" $each "$work/of_chain" "$work/many.chain" "$program" audit --chain --quiet --progress
  (head -c 3000000 "$work/many.chain"; sleep 1.3; tail -c +3000001 "$work/many.chain") |
    "$program" audit --chain --quiet --progress >"$work/output" 2>"$work/error"
  check "a slow chain, its progress where there is no terminal" $? "$work/output" $each "$work/of_chain"
  [ -s "$work/error" ] && no "progress is shown where there is no terminal: $(head -c 300 "$work/error")" || ok
  python3 -B tests/ends/on_terminal.py 0.3 "$work/many.chain" "$program" audit --chain --progress >"$work/output"
  check "the status of a chain whose progress is shown" $? "$work/nothing" $each "$work/nothing"
  # a segment has a call and 16,512 bytes
  tests/ends/progress_lines.py 16512 <"$work/output" >"$work/wrong" && ok || no "the progress: $(cat "$work/wrong")"
  python3 -B tests/ends/on_terminal.py 0 /dev/null env LD_PRELOAD="$work/fail_ends.so" SLOW_READ=2000 \
    "$program" audit --chain --progress "$work/many.chain" >"$work/output"
  tests/ends/progress_lines.py 16512 "$(wc -c <"$work/many.chain")" <"$work/output" >"$work/wrong" && ok ||
    no "the progress of a file: $(cat "$work/wrong")"
  python3 -B tests/ends/on_terminal.py 0 tests/chains/begins_with_a_page.chain "$program" audit --chain --progress >"$work/output"
  grep -q ' a second' "$work/output" && no "progress is shown before a second has passed" || ok
  python3 -B tests/ends/on_terminal.py 0.2 "$work/many.chain" "$program" audit --chain >"$work/output"
  grep -q ' a second' "$work/output" && no "progress is shown that nobody asked for" || ok
}

# the pages of the dumps of all cases and of Linux's tables, as the second implementation has them; more of them are in
# tests/against_pages
listed() {
  local name words status
  xz -dc examples/linux-4-level.trace.xz >"$work/linux.trace"
  for name in tests/cases/*/input examples/*.trace "$work/linux.trace"; do
    for words in "" "--ranges" "--ranges --replica 1"; do
      python3 -B tests/models/model_pages.py $words <"$name" >"$work/listed" 2>"$work/listed_error"
      status=$?
      if [ $status -eq 2 ]; then
        tells "pages $words $name" 2 "$(cat "$work/listed_error")" "$program" pages $words <"$name"
      else
        answers "pages $words $name" $status "$work/listed" "$name" "$program" pages $words
      fi
    done
  done
  python3 -B tests/models/model_pages.py --ranges <"$work/linux.trace" >"$work/listed"
  [ "$(wc -l <"$work/listed")" -ge 200 ] && ok || no "Linux has few ranges of pages"
  answers "pages in a file, by the audit alone" 0 "$work/listed" /dev/null "$alone" pages --ranges "$work/linux.trace"
  answers "pages, interrupted" 0 "$work/listed" "$work/linux.trace" \
    env LD_PRELOAD="$work/fail_ends.so" INTERRUPTS=2 SHORT_READ=77 SHORT_WRITE=5 "$program" pages --ranges
  tells "pages of replica 1 of 1, in a file" 2 "$trace: no such replica" "$program" pages --replica 1 "$trace"
  tells "pages of no file" 2 "$work/none: $no_file" "$program" pages "$work/none"
  complains "pages of replica 256" "$program" pages --replica 256
  complains "pages of two files" "$program" pages "$trace" "$trace"
}

# a chain, by both programs; more of them are in tests/against_chains
chains() {
  local each
  printf 'segment 0\nyes\norder 0\nsegment 1\nno 24 Stale 4\n' >"$work/of_chain"
  tail -n 2 "$work/of_chain" >"$work/of_chain_quiet"
  for each in "$program" "$alone"; do
    answers "a chain by $each" 1 "$work/of_chain" examples/stale_touch.chain "$each" audit --chain
    answers "a chain by $each, quiet" 1 "$work/of_chain_quiet" /dev/null "$each" audit --quiet --chain examples/stale_touch.chain
    complains "--quiet without --chain, to $each" "$each" audit --quiet
  done
}

# `remarks NAME WANTED_STATUS WANTED_OUTPUT WANTED_ERROR COMMAND..`: standard output and the status, and a line on standard error
remarks() {
  local name=$1 status=$2 got
  printf '%s\n' "$3" >"$work/wanted_output"
  printf '%s\n' "$4" >"$work/wanted_error"
  shift 4
  "$@" >"$work/output" 2>"$work/error"
  got=$?
  check "$name" $got "$work/output" "$status" "$work/wanted_output"
  check "$name, what it remarks" $got "$work/error" "$status" "$work/wanted_error"
}

# an input that is no recording, or one of the other kind: of a named file a line says what it is, of standard input none, as far as no
# terminal is there
other_kinds() {
  local each chain=examples/stale_touch.chain refused="no 1 Format BadMagic" text=README.md input
  local use="this is a chain: use --chain" leave="this is a trace: leave out --chain" none="this is text, and no recording of a run"
  gzip -c "$trace" >"$work/trace.gz"
  xz -c "$trace" >"$work/trace.xz"
  printf '%s\n' "$refused" >"$work/refused_magic"
  printf 'segment 0\n%s\n' "$refused" >"$work/refused_segment"
  printf 'no 1 Format Truncated\n' >"$work/truncated"
  for each in "$program" "$alone"; do
    for input in "$chain" "$text" "$work/trace.gz" "$work/trace.xz"; do
      answers "$input on standard input, to $each" 1 "$work/refused_magic" "$input" "$each" audit
      answers "an address in $input on standard input, to $each" 1 "$work/refused_magic" "$input" "$each" resolve --address 0x0
    done
    answers "nothing on standard input, to $each" 1 "$work/truncated" /dev/null "$each" audit
    answers "a trace as a chain, to $each" 1 "$work/refused_segment" "$trace" "$each" audit --chain
    remarks "a chain as a trace in a file, to $each" 1 "$refused" "$chain: $use" "$each" audit "$chain"
    remarks "pages of a chain as of a trace, to $each" 1 "$refused" "$chain: $use" "$each" pages "$chain"
    remarks "an address in a chain, to $each" 1 "$refused" "$chain: this is a chain, and resolve reads traces" "$each" resolve --address 0x0 "$chain"
    remarks "a trace as a chain in a file, to $each" 1 "segment 0
$refused" "$trace: $leave" "$each" pages --chain --end "$trace"
    remarks "a trace and a chain, to $each" 1 "$trace: yes
$chain: $refused" "$chain: $use" "$each" audit "$trace" "$chain"
    remarks "a text in a file, to $each" 1 "$refused" "$text: $none" "$each" audit "$text"
    remarks "a text as a chain, to $each" 1 "segment 0
$refused" "$text: $none" "$each" audit --chain "$text"
    remarks "a file of gzip, to $each" 1 "$refused" "$work/trace.gz: this is compressed: unpack it with gzip -dc" "$each" audit "$work/trace.gz"
    remarks "a file of xz, to $each" 1 "$refused" "$work/trace.xz: this is compressed: unpack it with xz -dc" "$each" pages "$work/trace.xz"
    remarks "an empty file, to $each" 1 "no 1 Format Truncated" "$work/nothing: the input is empty" "$each" audit "$work/nothing"
    "$each" explain "$chain" >"$work/output" 2>"$work/error"
    [ "$(cat "$work/error")" = "$chain: $use" ] && ok || no "what $each explain says of a chain: $(cat "$work/error")"
    "$each" explain --chain "$trace" >"$work/output" 2>"$work/error"
    [ "$(cat "$work/error")" = "$trace: $leave" ] && ok || no "what $each explain --chain says of a trace: $(cat "$work/error")"
  done
}

# shows NAME WANTED_STATUS WANTED_ERRORS INPUT COMMAND..: what a terminal shows of standard error
shows() {
  local name=$1 status=$2 input=$4 got
  printf '%s' "${3:+$3
}" >"$work/wanted"
  shift 4
  python3 -B tests/ends/on_terminal.py 0 "$input" "$@" >"$work/shown"
  got=$?
  tr -d '\r' <"$work/shown" >"$work/output"
  check "$name, on a terminal" $got "$work/output" "$status" "$work/wanted"
}

# on a terminal a further line says why, of standard input too; and nothing is said of a pipe that its reader has closed
on_a_terminal() {
  local each line why chain=examples/stale_touch.chain shim="env LD_PRELOAD=$work/fail_ends.so"
  gzip -c "$trace" >"$work/trace.gz"
  for each in "$program" "$alone"; do
    shows "a chain as a trace, to $each" 1 "this is a chain: use --chain" "$chain" "$each" audit
    shows "a trace as a chain, to $each" 1 "this is a trace: leave out --chain" "$trace" "$each" audit --chain
    shows "a text, to $each" 1 "this is text, and no recording of a run" README.md "$each" audit
    shows "a file of gzip, to $each" 1 "this is compressed: unpack it with gzip -dc" "$work/trace.gz" "$each" pages
    shows "nothing, to $each" 1 "the input is empty" /dev/null "$each" audit
    shows "a read that fails, to $each" 2 "cannot read
Input/output error (os error 5)" "$trace" $shim FAIL_AT=20 "$each" audit
    while read -r line why; do
      shows "the address $line, to $each" 2 "bad address
\"$line\" $why" /dev/null "$each" resolve --address "$line"
    done <<'E'
400123 doesn't begin with 0x
0X1 doesn't begin with 0x
0x has no digits after 0x
0x40012g has other characters than hexadecimal digits after 0x
0x00000000000400123 has more than 16 digits after 0x
E
    shows "a replica that there is not, to $each" 2 "no such replica" "$trace" "$each" resolve --address 0x1 --replica 1
    CLOSED_PIPE=1 shows "a closed pipe, to $each" 2 "" "$trace" "$each" audit
    CLOSED_PIPE=1 shows "a closed pipe for a chain, to $each" 2 "" "$chain" "$each" audit --chain
    CLOSED_PIPE=1 shows "a closed pipe for files, to $each" 2 "" /dev/null "$each" audit "$trace" "$trace"
    CLOSED_PIPE=1 shows "a closed pipe for help, to $each" 2 "" /dev/null "$each" --help
    shows "a full device, to $each" 2 "cannot write" "$trace" sh -c "exec '$each' audit >/dev/full"
    tells "a closed pipe without a terminal, to $each" 2 "cannot write" python3 -B tests/ends/closed_pipe.py "$each" audit "$trace"
  done
}

# why a line of a script is bad, on a terminal
bad_lines_on_a_terminal() {
  local each line why
  while IFS='|' read -r line why; do
    printf '# a comment\n%b\n' "$line" >"$work/script"
    for each in simulate run "run --chain"; do
      shows "the line '$line', to $each" 2 "bad line 2
$why" "$work/script" "$program" $each
    done
  done <<'E'
0 map 4K 0x1000 0x2000|a map is written THREAD map SIZE ADDRESS PHYSICAL RIGHTS
0 map 4k 0x1000 0x2000 wux|a size is 4K, 2M or 1G
0 map 4K 0x1000 0x2000 rwx|rights are wux, with a dash for each that isn't given
0 unmap 1000|an address is 0x and 1 to 16 hexadecimal digits
0 unmap 0x1001|an address isn't canonical or aligned, or the page isn't below physical 2^51
0 protect 0x1000|a protect is written THREAD protect ADDRESS RIGHTS
0 resolve|a resolve is written THREAD resolve ADDRESS
0 resolve 0x800000000000|an address isn't canonical or aligned, or the page isn't below physical 2^51
0 access x r 0x0|a mode is s or u
0 access s f 0x0|an access is r, w or x
0 access s r|an access is written THREAD access MODE ACCESS ADDRESS
0 read 0x0|a request is map, unmap, protect, resolve or access
0|no request comes after the thread
64 resolve 0x0|a line begins with a thread, 0 to 63, with step, or with #
00 resolve 0x0|a line begins with a thread, 0 to 63, with step, or with #
0  resolve 0x0|one space separates two words, and none begins or ends a line
0 resolve 0x0 |one space separates two words, and none begins or ends a line
0 resolve 0x0\r|it ends with a carriage return
E
  printf 'step 0 take\n' >"$work/script"
  shows "a bad step" 2 "bad line 1
a step is written step THREAD ACT, or step THREAD ACT NUMBER for take, collect and answer" "$work/script" "$program" simulate
  printf '0 resolve 0x0\nstep 0 call\n' >"$work/script"
  for each in run "run --chain"; do
    shows "a step, to $each" 2 "bad line 2
it is a step, and a run takes none" "$work/script" "$program" $each
  done
  for line in $(seq 65537); do echo '63 unmap 0x0'; done >"$work/script"
  shows "65,537 requests" 2 "bad line 65537
it is request 65,537, and a script has at most 65,536" "$work/script" "$program" simulate
  yes 'step 63 take 9' | head -n 1000001 >"$work/script"
  shows "1,000,001 steps" 2 "bad line 1000001
it is step 1,000,001, and a script has at most 1,000,000" "$work/script" "$program" simulate
  { yes '# a line that asks nothing' | head -n 650000; echo 0 unmap; } >"$work/script"
  shows "a bad line behind 17 MB" 2 "bad line 650001
an unmap is written THREAD unmap ADDRESS" "$work/script" "$program" run --chain
  shows "a trace as a script" 2 "bad line 1
this is a trace, and no script: use audit" "$trace" "$program" simulate
  shows "a chain as a script" 2 "bad line 1
this is a chain, and no script: use audit --chain" examples/stale_touch.chain "$program" run
}

# what the program says of its words: tests/words.txt has commands, each with all that is printed and the status; help and the
# version go to standard output, a fault to standard error
words() {
  local line command status
  while read -r line; do
    command=${line#\$ nrvs}
    eval "'$program' $command" <"$trace" >"$work/output" 2>"$work/error"
    status=$?
    { printf '%s\n' "$line"; cat "$work/output" "$work/error"; printf '[%d]\n' $status; } >>"$work/said"
    [ $status -eq 0 ] && [ -s "$work/error" ] && no "$line writes to standard error"
    [ $status -ne 0 ] && [ -s "$work/output" ] && no "$line writes to standard output"
  done < <(grep '^\$ ' tests/words.txt)
  grep -v '^$' tests/words.txt >"$work/wanted"
  grep -v '^$' "$work/said" >"$work/said_alone"
  diff "$work/wanted" "$work/said_alone" >"$work/output" && ok || no "the words: $(head -c 500 "$work/output")"
  [ "$(grep -c '^\$ ' tests/words.txt)" -ge 25 ] && ok || no "few words are tried"
  tells "help into a full device" 2 "cannot write" sh -c "'$program' --help >/dev/full"
  tells "help into a closed output" 2 "cannot write" sh -c "'$program' --help >&-"
}
