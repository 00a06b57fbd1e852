# Draws what each crate needs from crates.txt: one line a layer, from the ground up. A crate stands one layer above the highest that it
# needs. Crates of the toolchain are left out, and so are needs that follow from others.
function layer(c,    d, k, most) {
  for (k = 1; k <= count; k++) {
    d = name[k]
    if (needs[c, d] && layer(d) > most) most = layer(d)
  }
  return most + 1
}
# whether c needs d by way of another crate
function follows(c, d,    k, e) {
  for (k = 1; k <= count; k++) {
    e = name[k]
    if (needs[c, e] && (needs[e, d] || follows(e, d))) return 1
  }
  return 0
}
function direct(c,    d, k, list) {
  for (k = 1; k <= count; k++) {
    d = name[k]
    if (needs[c, d] && !follows(c, d)) list = list (list ? ", " : " → ") d
  }
  return list
}
{ sub(/#.*/, "") }
NF {
  sub(/:/, " ")
  name[++count] = $1
  for (k = 2; k <= NF; k++) needs[$1, $k] = 1
}
END {
  for (k = 1; k <= count; k++) {
    l = layer(name[k])
    line[l] = line[l] (line[l] ? "   " : "") name[k] direct(name[k])
    if (l > top) top = l
  }
  for (l = 1; l <= top; l++) print l "  " line[l]
}
