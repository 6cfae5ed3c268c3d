#!/usr/bin/env bash
# Runs the compiler with the words given, as in: ./psc compile < examples/answer.scm
# The proved program runs, where it is there and not older than its sources. Else the sources are built with checks and run without
# a proof, which takes some 40 seconds each time and is for C texts of at most 1 MiB; ./build makes the proved program.
top="$(cd "$(dirname "${BASH_SOURCE[0]}")" && pwd)" || exit 1

if program="$("$top/.ci/proved-program")"; then
  exec "$program" "$@"
fi

echo "not proved yet, so the sources are run without a proof, in some 40 seconds: ./build makes the proved program" >&2
log="$(mktemp)" || exit 125
trap 'rm -f "$log"' EXIT
cd "$top/crates/psc" || exit 125
rt try -- "$@" 2> "$log"
status=$?
if grep -q "^checked: ended status=$status\$" "$log"; then
  # All that the compiler itself writes to standard error are lines that begin so.
  grep '^psc: ' "$log" >&2
  exit "$status"
fi
if grep -q '^checked: no-answer: the program wrote more than' "$log"; then
  echo "the C text has more than 1 MiB, which only the proved program writes" >&2
else
  cat "$log" >&2
fi
exit 125
