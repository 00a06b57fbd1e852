#!/bin/sh
# host/link.c meets every weak order. Hosts that break its rules do not: each is made from it here, and must not end well.
set -eu
room=$(mktemp -d)
trap 'rm -rf "$room"' EXIT
library=target/staticlib/libwko.a
count=0
wrong() { # wrong NAME ENDS SCRIPT: the host that the sed script makes ends with this line
  sed "$3" host/link.c >"$room/host.c"
  ! cmp -s host/link.c "$room/host.c" || { echo "$1: no line of host/link.c is changed" && exit 1; }
  gcc -std=c11 -Iinclude -o "$room/host" "$room/host.c" $library
  if "$room/host" >"$room/out" 2>&1; then
    echo "$1: ends well" && exit 1
  fi
  case $(tail -n 1 "$room/out") in
  "$2"*) ;;
  *) echo "$1: ends with '$(tail -n 1 "$room/out")', not '$2'" && exit 1 ;;
  esac
  count=$((count + 1))
}

# the session's own count stands for a query and its answer in these two
wrong "on refusal 11 the host asks how far the device is, and goes on behind that" "9 of 13 weak orders met once;" '
/while (receive(link, answer))/a\
            if (answer->refusal == WKO_STEP_NUMBER)\
                return 0;\
            else
/int sent = take_step/a\
        if (sent == 0) {\
            done = link.session.done;\
            continue;\
        }'
wrong "a host that starts again asks how far the device is, and goes on behind that" "8 of 13 weak orders met once;" \
  's/done = steps_logged(&log)/done = link.session.done/'
# These two log what they measure wherever the tone is. The first needs that, since a look at the tone would tell it of the wrong answer; its device does
# not lose power, so that this answer alone makes it fail.
wrong "an answer is taken by its round and its steps done" "13 of 13 weak orders met once, not all at their level;" '
s/if (wko_is_step_answer(.*$/if (answer->refusal == 0 \&\& answer->round == ROUND \&\& answer->done == k)/
s/if (link->tone != answer->level)/if (0)/
s/ p\. / . /'
wrong "what is measured is logged, wherever the tone is" "11 of 13 weak orders met once, not all at their level;" \
  's/if (link->tone != answer->level)/if (0)/'
wrong "the start window is not played" "11 of 13 weak orders met once;" \
  '/^    play_start(&log);$/d; s/CRASH = 8/CRASH = 0/'
echo "hosts: $count that break the README's rules, and none of them measures every weak order at its levels"
