#!/bin/sh
# What the README shows is what there is: outputs of programs, texts of files, and commands, which are run. Each stands in it whole.
set -u
readme=$(cat README.md)
status=0
shows() { # shows NAME INDENT: the text on standard input, indented so, stands in the README
  text=$(sed "s/^\(.\)/$2\1/")
  case $text in
  *[!\ ]*) ;;
  *) echo "README: nothing to look for as $1" && status=1 && return ;;
  esac
  case $readme in
  *"$text"*) ;;
  *) echo "README: does not show $1" && status=1 ;;
  esac
}
look() { # look NAME COMMAND: the README shows what the command prints, indented
  if eval "$2" >"$room/printed"; then
    shows "$1" "    " <"$room/printed"
  else
    echo "README: cannot look for $1" && status=1
  fi
}
runs() { # runs NAME COMMAND: the README shows the command, and it prints or leaves something
  printf '%s\n' "$2" | shows "$1" "    "
  (cd "$room" && rm -f saved.txt && eval "$2") >"$room/printed" 2>"$room/errors"
  if [ -s "$room/errors" ] || ! cat "$room/printed" "$room/saved.txt" 2>/dev/null | grep -q .; then
    echo "README: $1 does nothing, or says: $(cat "$room/errors")" && status=1
  fi
}
room=$(mktemp -d)
trap 'rm -rf "$room"' EXIT
ln -s "$PWD/docs" "$PWD/target" "$room"

cmp docs/sample.sheet crates/round/stdin || status=1
look "docs/sample.sheet" 'cat docs/sample.sheet'
look "docs/sample.levels" 'cat docs/sample.levels'
look "what make run prints" 'target/bin/round <docs/sample.sheet'
look "what round says of a tab" 'tr " " "\t" <docs/sample.sheet | target/bin/round 2>&1 >/dev/null'
look "the first steps of a round" 'target/bin/round <docs/picture/sheet | awk -f docs/picture/steps.awk'
look "the rings of a round" 'target/bin/round <docs/picture/sheet | awk -f docs/picture/rings.awk'
look "what step_kinds prints for n = 3" "target/bin/step_kinds | awk 'NR == 1 || \$1 == 3'"
look "what the crates need (make graph)" 'awk -f docs/picture/graph.awk crates.txt'
look "the counts (make tables)" 'target/host/tables counts'
look "the refusals (make tables)" 'target/host/tables refusals'
look "the bytes of frames, as wko.h has them" "sed -n '/^ \*   bytes /,/^ \*\$/s/^ \*   //p' include/wko.h"
look "what host/link.c prints" 'target/host/link'
look "the pattern of host/fill.c" "sed -n '/const uint8_t pattern/,/wko_fill/s/^    //p' host/fill.c"
look "what is to be believed (make trust)" 'tools/trust.sh'
look "the contract of wko_next_symbol" "grep -A 1 'fn wko_next_symbol' crates/wko/src/lib.rt"
look "the definition judged" "sed -n '/^judged rule n w =/,/^\$/p' crates/successors/specs/NextSymbol.antt"
shows "host/example.c" "" <host/example.c

runs "how to keep a sheet with its round" '{ cat docs/sample.sheet; target/bin/round <docs/sample.sheet; } >saved.txt'
runs "how to compare two rounds" 'target/bin/round <docs/sample.sheet >saved.txt; target/bin/round <docs/picture/sheet | diff saved.txt -'
runs "how to plot the levels" "target/bin/round <docs/picture/sheet | awk 'NR > 1 { printf \"%3d %6d %*s\\n\", \$1, \$3, (2000 - \$3) / 50, \"*\" }'"
runs "how to line up two rounds" "target/bin/round <docs/picture/sheet | awk '\$4 == \"1,3,1\" { print \$1 }'"
exit $status
