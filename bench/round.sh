#!/usr/bin/env bash
# The printed round of n = 8 against a plain C program that prints the same bytes: the best of nine runs of each, in turn, as a ratio of
# processor times, so that other work on the machine is left out.
set -eu
cd "$(dirname "$0")/.."
sheet=$(mktemp)
trap 'rm -f "$sheet"' EXIT
printf 'n rule top spacing start\n8 1 -1000 100 1,1,1,1,1,1,1,1\n' >"$sheet"
time_of() { # time_of PROGRAM: the processor time of a run in milliseconds
  local TIMEFORMAT='%3U %3S' user system
  read -r user system < <({ time "$1" <"$sheet" >/dev/null; } 2>&1)
  echo $((10#${user/./} + 10#${system/./}))
}
[ "$(target/bin/round <"$sheet" | cksum)" = "$(target/host/print_round <"$sheet" | cksum)" ] || echo "THE BYTES DIFFER"
ours=999999
theirs=999999
for _ in 1 2 3 4 5 6 7 8 9; do
  t=$(time_of target/host/print_round)
  [ "$t" -lt "$theirs" ] && theirs=$t
  t=$(time_of target/bin/round)
  [ "$t" -lt "$ours" ] && ours=$t
done
printf '\nThe printed round of n = 8, 545,835 lines: C %d ms, round %d ms (%d.%02d of C)\n' \
  "$theirs" "$ours" $((ours / theirs)) $((ours * 100 / theirs % 100))
