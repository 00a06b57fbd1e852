#!/bin/sh
# What people get wrong in a sheet. For each mistake the program round prints the refusal, two lines as document 01 has them, and says in one
# line on standard error what is wrong.
set -u
round=target/bin/round
sheet=target/host/sheet
said=target/host/said
trap 'rm -f $sheet $said' EXIT
status=0
count=0
title='n rule top spacing start\n'

mistake() { # mistake NUMBER LINE NAME TEXT: the sheet, a format of printf, is refused with that number, and that line is said
  count=$((count + 1))
  # shellcheck disable=SC2059 # the text is the format
  printf "$4" >$sheet
  [ "$($round <$sheet 2>$said)" = "refused
$1" ] || { echo "$3: not refused with $1" && status=1; }
  [ "round: $2" = "$(cat $said)" ] || { echo "$3: said '$(cat $said)', not 'round: $2'" && status=1; }
}

line="the sheet is empty"
mistake 14 "$line" "an empty file" ""

line="the sheet is longer than 128 bytes"
mistake 14 "$line" "spaces behind the second line" "${title}2 1 -1000 100 1,1%101s\n"
mistake 14 "$line" "three sheets in a file" "${title}2 1 -1000 100 1,1\n${title}2 2 -1000 100 0,0\n${title}2 3 -1000 100 0,0\n"
mistake 14 "$line" "a round for a sheet" "step symbol level window\n$(printf '%s %s -1100 1,2\\n' 1 2 3 4 5 6 7 8 9 1 2 3 4 5 6 7 8 9)"

line="the sheet has a carriage return: end its lines with a line feed alone"
mistake 14 "$line" "line ends of Windows" 'n rule top spacing start\r\n2 1 -1000 100 1,1\r\n'
mistake 14 "$line" "one line end of Windows" "${title}2 1 -1000 100 1,1\r\n"
mistake 14 "$line" "carriage returns alone" 'n rule top spacing start\r2 1 -1000 100 1,1\r'
mistake 14 "$line" "a carriage return and a tab" "${title}2\t1 -1000 100 1,1\r\n"

line="the sheet has a tab: put single spaces between its fields"
mistake 14 "$line" "tabs between the fields" "${title}2\t1\t-1000\t100\t1,1\n"
mistake 14 "$line" "tabs in the first line" 'n\trule\ttop\tspacing\tstart\n2 1 -1000 100 1,1\n'
mistake 14 "$line" "a tab at the end" "${title}2 1 -1000 100 1,1\t\n"

line="the sheet has a byte above 127: write it in plain ASCII, without a byte order mark"
mistake 14 "$line" "a byte order mark" "\357\273\277${title}2 1 -1000 100 1,1\n"
mistake 14 "$line" "a printed minus" "${title}2 1 \342\210\2221000 100 1,1\n"
mistake 14 "$line" "a hard space" "${title}2\302\2401 -1000 100 1,1\n"

line="the sheet does not end with a line feed"
mistake 14 "$line" "no line feed at the end" "${title}2 1 -1000 100 1,1"
mistake 14 "$line" "the first line alone, without its line feed" "n rule top spacing start"
mistake 14 "$line" "a space behind the last line feed" "${title}2 1 -1000 100 1,1\n "

line="the first line is not: n rule top spacing start"
mistake 14 "$line" "no first line" '2 1 -1000 100 1,1\n'
mistake 14 "$line" "capitals" 'N Rule Top Spacing Start\n2 1 -1000 100 1,1\n'
mistake 14 "$line" "an empty line in front" "\n${title}2 1 -1000 100 1,1\n"
mistake 14 "$line" "a remark in front" "! bench 3\n${title}2 1 -1000 100 1,1\n"
mistake 14 "$line" "two spaces in the first line" 'n rule top spacing  start\n2 1 -1000 100 1,1\n'
mistake 14 "$line" "a space at the end of the first line" 'n rule top spacing start \n2 1 -1000 100 1,1\n'
mistake 14 "$line" "commas in the first line" 'n,rule,top,spacing,start\n2 1 -1000 100 1,1\n'
mistake 14 "$line" "other names" 'n rule top step start\n2 1 -1000 100 1,1\n'
mistake 14 "$line" "both lines in one" 'n rule top spacing start 2 1 -1000 100 1,1\n'

line="the second line is not five fields such as 3 1 -1000 100 1,1,1 (single spaces, decimals of at most 6 digits without leading zeros, 1 to 16 symbols with commas), or more follows it"
second() { # second NAME TEXT: a mistake in the shape of the second line, or behind it
  mistake 14 "$line" "$1" "$title$2\n"
}
mistake 14 "$line" "no second line" "$title"
second "an empty second line" ''
second "an empty line at the end" '2 1 -1000 100 1,1\n'
second "an empty line between" '\n2 1 -1000 100 1,1'
second "a second round" '2 1 -1000 100 1,1\n2 2 -1000 100 0,0'
second "two spaces" '2 1  -1000 100 1,1'
second "a space in front" ' 2 1 -1000 100 1,1'
second "a space at the end" '2 1 -1000 100 1,1 '
second "a plus" '2 1 +1000 100 1,1'
second "minus zero" '2 1 -0 100 1,1'
second "a leading zero" '2 1 -1000 0100 1,1'
second "decibels with a point" '2 1 -10.00 1.00 1,1'
second "decibels with a comma" '2 1 -10,00 100 1,1'
second "a unit" '2 1 -1000cdBm 100 1,1'
second "a space between sign and number" '2 1 - 1000 100 1,1'
second "a negative n" '-2 1 -1000 100 1,1'
second "a negative spacing" '2 1 -1000 -100 1,1'
second "seven digits" '2 1 -1000 1000000 1,1'
second "a space behind a comma" '2 1 -1000 100 1, 1'
second "spaces for commas" '2 1 -1000 100 1 1'
second "semicolons" '2 1 -1000 100 1;1'
second "a comma at the end" '2 1 -1000 100 1,1,'
second "two commas" '2 1 -1000 100 1,,1'
second "brackets" '2 1 -1000 100 [1,1]'
second "quotes" '2 1 -1000 100 "1,1"'
second "no start" '2 1 -1000 100'
second "no spacing" '2 1 -1000 1,1'
second "a sixth field" '2 1 -1000 100 1,1 7'
second "seventeen symbols" '2 1 -1000 100 1,1,1,1,1,1,1,1,1,1,1,1,1,1,1,1,1'
second "hexadecimal" '0x2 1 -1000 100 1,1'
second "words" 'two one -1000 100 1,1'

line="n is not 1 to 8"
mistake 6 "$line" "n = 0" "${title}0 1 -1000 100 1\n"
mistake 6 "$line" "n = 9, which only calls take" "${title}9 1 -1000 100 1,1,1,1,1,1,1,1,1\n"

line="the rule is not 1, 2 or 3"
mistake 7 "$line" "rule 0" "${title}2 0 -1000 100 1,1\n"
mistake 7 "$line" "rule 4" "${title}2 4 -1000 100 1,1\n"
mistake 7 "$line" "n and rule swapped" "${title}2 8 -1000 100 1,1,1,1,1,1,1,1\n"

line="the start has not n symbols"
mistake 8 "$line" "a symbol too few" "${title}3 1 -1000 100 1,1\n"
mistake 8 "$line" "a symbol too many" "${title}2 1 -1000 100 1,1,1\n"
mistake 8 "$line" "no commas" "${title}3 1 -1000 100 111\n"

line="the start is not in rank form, as rule 1 asks: each symbol is 1 plus the number of smaller ones, such as 1,1,3"
mistake 8 "$line" "1,1,2 for 1,1,3" "${title}3 1 -1000 100 1,1,2\n"
mistake 8 "$line" "heights for ranks" "${title}3 1 -1000 100 0,0,1\n"
mistake 8 "$line" "a symbol above n" "${title}2 1 -1000 100 1,257\n"

line="the start is not in height form, as rules 2 and 3 ask: its symbols are 0 to some height without a gap, such as 0,0,1"
mistake 8 "$line" "ranks for heights" "${title}3 2 -1000 100 1,1,3\n"
mistake 8 "$line" "a gap" "${title}3 3 -1000 100 0,2,2\n"

line="top is not -10000 to 2000, in hundredths of a dBm"
mistake 9 "$line" "top too high" "${title}2 1 2001 100 1,1\n"
mistake 9 "$line" "top too low" "${title}2 1 -10001 100 1,1\n"
mistake 9 "$line" "thousandths of a dBm" "${title}2 1 -90000 1000 1,1\n"

line="spacing is not 25 to 500, in hundredths of a dB"
mistake 9 "$line" "spacing 0" "${title}2 1 -1000 0 1,1\n"
mistake 9 "$line" "top and spacing 0, which asks for a table in a frame" "${title}2 1 0 0 1,1\n"
mistake 9 "$line" "a tenth of a dB" "${title}2 1 -1000 10 1,1\n"
mistake 9 "$line" "spacing too small for one level" "${title}1 1 -1000 24 1\n"
mistake 9 "$line" "spacing too large" "${title}2 1 -1000 501 1,1\n"

line="top - (n - 1) * spacing, the lowest level before it is rounded, is below -12000"
mistake 9 "$line" "a lowest level that would round to -12000" "${title}6 1 -10000 401 1,1,1,1,1,1\n"
mistake 9 "$line" "a lowest level of -12500" "${title}6 1 -10000 500 1,1,1,1,1,1\n"

# make run takes a file name with spaces; it fails where its sheet is refused, and says why; a terminal is told that a sheet is read.
spaced="target/host/bench 3's sheet.txt"
cp docs/sample.sheet "$spaced"
make --no-print-directory run SHEET="$spaced" | cmp - crates/round/stdout || status=1
rm "$spaced"
if make --no-print-directory run SHEET=$sheet >/dev/null 2>$said; then
  echo "make run of a refused sheet: passed" && status=1
fi
grep -qxF "round: $line" $said || { echo "make run of a refused sheet: said '$(cat $said)'" && status=1; }
if command -v script >/dev/null; then
  printf '\004' | script -qec "$round" /dev/null 2>&1 | grep -q "^round: reading a sheet from standard input" ||
    { echo "round on a terminal: does not say that it reads a sheet" && status=1; }
fi
[ $status -eq 0 ] && echo "round: $count mistaken sheets, each refused with a line that says what is wrong"
exit $status
