# Draws the first steps of a round from the lines that the program round prints: each window stands one symbol further to the right.
NR > 1 { gsub(",", "", $4); window[NR - 1] = $4 }
END {
  # a round ends at its start
  window[0] = window[NR - 1]
  print window[0]
  for (k = 1; k <= 5; k++) {
    dropped = substr(window[k - 1], 1, 1)
    appended = substr(window[k], length(window[k]))
    line = sprintf("%" k "s%s", "", window[k])
    printf "%-12s%s is dropped and %s appended: %s\n", line, dropped, appended, dropped == appended ? "the ring turns" : "to another ring"
  }
}
