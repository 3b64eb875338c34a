# shellcheck shell=bash
# What the scripts of ./test, tests/ and bench/ share. It sets `top` to the repository's folder.
top=$(readlink -f "$(dirname "${BASH_SOURCE[0]}")/..")
. "$top/release/functions.sh"
passed=0 failed=0

# makes a folder that goes at the end; `make_room /dev/shm` makes it in memory if that can be, since there no
# save has to wait for the disk
make_room() {
  room=$(mktemp -d -p "${1:-${TMPDIR:-/tmp}}" 2>/dev/null || mktemp -d)
  trap 'rm -rf "$room"' EXIT
}

# Sets `program` to the one that is tried: the one that AWARI names, or the one that the gate has built, or
# else the one that is shipped. Nothing tries what was shipped of other sources.
find_program() {
  local kept
  program=${AWARI:-$top/crates/awari/out/awari}
  if [ -z "${AWARI-}" ] && [ ! -e "$program" ]; then
    kept=$(kept_folder) || exit
    [ "$(known_digest "$kept")" = "$(manifest sources)" ] || fail "there is no program of these sources: ./test builds it, or AWARI names one"
    program=$(shipped "$kept") || exit
  fi
  program=$(command -v "$program") || fail "AWARI names no program: ${AWARI-}"
  program=$(readlink -f "$program")
}

# the path without the toolchain
without_rt() {
  local folder path=
  for folder in ${PATH//:/ }; do
    [ -e "$folder/rt" ] || path=$path:$folder
  done
  echo "${path#:}"
}

pass() { passed=$((passed + 1)); }

fault() {
  failed=$((failed + 1))
  echo "$*"
}

# counts whether a command says yes to what is told
expect() {
  local what=$1
  shift
  if "$@"; then pass; else fault "$what: not so"; fi
}

# counts whether a command says yes; shows what it said if not, and what it has not tried
expect_quiet() {
  local what=$1 said
  shift
  if said=$("$@" 2>&1); then pass; else fault "$what: $(tail -n 20 <<<"$said")"; fi
  grep 'not tried' <<<"$said" || :
}

# Runs a command on no input, and compares its status and what it prints on both streams.
expect_said() {
  local what=$1 status=$2 output=$3 found printed
  shift 3
  printed=$("$@" 2>&1 </dev/null)
  found=$?
  if [ "$found" -eq "$status" ] && [ "$printed" = "$output" ]; then pass; else
    fault "$what: ended with $found, and not $status, or did not print \"$output\": $printed"
  fi
}

# ends with the last line, and with this status or 1 if anything failed
finish() {
  echo "$passed passed, $failed failed"
  [ "$failed" -eq 0 ] || exit 1
  exit "${1:-0}"
}
