#!/bin/sh
# Nothing is lost silently: what round, replay, replay_events and step_kinds could not read or write, they say in one line on standard error; of a
# good run they say nothing.
set -u
round=target/bin/round
said=target/host/said
input=target/host/input
trap 'rm -f $said $input' EXIT
status=0
says() { # says CASE LINE: the run, whose standard error is kept in $said, said that line; an empty one stands for nothing
  [ "$2" = "$(cat $said)" ] && return
  echo "$1: said '$(cat $said)', not '$2'"
  status=1
}

$round <crates/round/stdin 2>$said | cmp - crates/round/stdout || status=1
says "round" ""
$round <. 2>$said | cmp - /dev/null || status=1
says "round of a directory" "round: could not read the sheet: Is a directory"
$round <crates/round/stdin >&- 2>$said
says "round with no standard output" "round: could not write the round: Bad file descriptor"

target/bin/step_kinds 2>$said | cmp - crates/step_kinds/stdout || status=1
says "step_kinds" ""
target/bin/step_kinds >&- 2>$said
says "step_kinds with no standard output" "step_kinds: could not write the numbers: Bad file descriptor"

# The two programs that play records. A frame's record is the same for both, but for the F in front of replay_events'.
for program in replay replay_events; do
  play=target/bin/$program
  f=
  [ $program = replay ] || f=F
  [ "$(printf '%b' "$f\0000\0000$f\0001\0000" | $play 2>$said | wc -c)" -eq 3 ] || { echo "$program of two records: not 3 bytes" && status=1; }
  says "$program of two records" ""
  $play </dev/null 2>$said
  says "$program of no records" ""
  $play <. 2>$said
  says "$program of a directory" "$program: could not read a record: Is a directory"
  $play <crates/$program/stdin >&- 2>$said
  says "$program with no standard output" "$program: could not write an answer: Bad file descriptor"
  if [ -c /dev/full ]; then
    $play <crates/$program/stdin >/dev/full 2>$said
    says "$program to a full device" "$program: could not write an answer: No space left on device"
  fi

  # The stored run ends with a record that is cut off. The others are cut off elsewhere, behind a whole record.
  $play <crates/$program/stdin 2>$said | cmp - crates/$program/stdout || status=1
  says "$program of its stored run" "$program: the last record is cut off"
  for rest in "$f\0050" "$f\0050\0050" "$f\0050\0050WKO1Q"; do
    printf '%b' "$f\0000\0000$rest" | $play >/dev/null 2>$said
    says "$program of a record cut to $rest" "$program: the last record is cut off"
  done

  # A million records of two zeros, and one byte more.
  yes "${f}00" | head -n 1000000 | tr -d '\n' | tr 0 '\000' >$input
  $play <$input >/dev/null 2>$said
  says "$program of a million records" ""
  printf '\000' >>$input
  $play <$input >/dev/null 2>$said
  says "$program of more than a million records" "$program: stopped after 1000000 records"
done

# Only replay_events has first bytes and level files.
for rest in F L 'L\0001' 'L\0001\0000' 'L\0000\0001d level'; do
  printf 'F\000\000%b' "$rest" | $play >/dev/null 2>$said
  says "replay_events of a record cut to $rest" "replay_events: the last record is cut off"
done
[ "$(printf 'L\000\000f' | $play 2>$said | wc -c)" -eq 1 ] || { echo "replay_events of an empty level file: not 1 byte" && status=1; }
says "replay_events of an unknown record" "replay_events: a record starts with neither F nor L"

if [ -c /dev/full ]; then
  $round <crates/round/stdin >/dev/full 2>$said
  says "round to a full device" "round: could not write the round: No space left on device"
  target/bin/step_kinds >/dev/full 2>$said
  says "step_kinds to a full device" "step_kinds: could not write the numbers: No space left on device"
  for goal in run kinds; do
    ! make --no-print-directory $goal >/dev/full 2>/dev/null || { echo "make $goal to a full device: passed" && status=1; }
  done
fi

# A reader that leaves early: where the pipe's signal is ignored the write fails.
printf 'n rule top spacing start\n8 1 -1000 100 1,1,1,1,1,1,1,1\n' >$input
(
  trap '' PIPE
  timeout 60 $round <$input 2>$said
  [ $? -ne 124 ] || echo "timed out" >>$said
) | head -c 1000 >/dev/null
says "round whose reader leaves" "round: could not write the round: Broken pipe"
[ $status -eq 0 ] && echo "round, replay, replay_events and step_kinds: what is not read or written is said"
exit $status
