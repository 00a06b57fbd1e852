#!/bin/sh
# The whole printed round of n = 8 under each rule: the program round and a plain C program print the same bytes.
set -eu
sheet=target/host/sheet
printed=target/host/printed
trap 'rm -f $sheet $printed' EXIT
for second in '8 1 -1000 100 1,1,1,1,1,1,1,1' '8 2 -1013 37 0,0,0,0,0,0,0,0' '8 3 113 26 0,0,0,0,0,0,0,0'; do
  printf 'n rule top spacing start\n%s\n' "$second" >$sheet
  target/host/print_round <$sheet >$printed
  target/bin/round <$sheet | cmp - $printed
  echo "printed round of $second: $(wc -l <$printed) lines, as plain C prints them"
done
