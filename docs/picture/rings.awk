# Draws a round from the lines that the program round prints: one row for each ring of rotations, in the order in which the walk first
# meets them, and one column for each window, the start in front. A ring is named after its least rotation.
function least(w,    i, r, best) {
  best = w
  for (i = 1; i < length(w); i++) {
    r = substr(w, i + 1) substr(w, 1, i)
    if (r < best) best = r
  }
  return best
}
function add(w,    ring) {
  ring = least(w)
  if (!(ring in row)) {
    row[ring] = ++rings
    name[rings] = ring
  }
  window[++columns] = w
}
NR > 1 { gsub(",", "", $4); met[NR - 1] = $4 }
END {
  # a round ends at its start
  add(met[NR - 1])
  for (k = 1; k < NR; k++) add(met[k])
  for (i = 1; i <= rings; i++) {
    line = "ring " name[i] "  "
    for (k = 1; k <= columns; k++)
      line = line " " (row[least(window[k])] == i ? window[k] : sprintf("%" length(window[k]) "s", ""))
    sub(/ +$/, "", line)
    print line
  }
}
