# How tests in shell count, read by each of them at the top of the repository: into `passed` and `failed`, in a folder `work`.
work=$(mktemp -d)
trap 'rm -rf "$work"' EXIT
passed=0 failed=0

# check NAME COMMAND..: counts one test, and shows the end of the log of one that fails
check() {
  local name=$1
  shift
  if "$@"; then
    passed=$((passed + 1))
  else
    failed=$((failed + 1))
    printf 'failed: %s\n' "$name"
    tail -n 20 "$work/log"
  fi
}

# try NAME COMMAND..: the same of a command whose output is the log
try() { check "$1" logged "${@:2}"; }
logged() { "$@" > "$work/log" 2>&1; }

# counts: the last line of all, and the status
counts() {
  printf '%d passed, %d failed\n' "$passed" "$failed"
  [ "$failed" -eq 0 ]
}
