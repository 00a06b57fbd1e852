#!/bin/sh
# Every id that docs/TRACE.md cites is defined in docs/REQUIREMENTS.md, once, and every one defined is cited. `F-3 … F-5` cites all three.
awk '
function fail(text) { print "docs: " text; failed = 1 }
function is_id(word) { return word ~ /^[A-Z][0-9]*-[0-9]+$/ }
FILENAME == "docs/REQUIREMENTS.md" {
  if ($1 == "-" && is_id($2) && defined[$2]++) fail($2 " is defined twice")
  next
}
{
  gsub(/[|,;.:()]/, " ")
  for (i = 1; i <= NF; i++) {
    if (!is_id($i)) continue
    split($i, last, "-")
    first = last[2] + 0
    if (i > 2 && $(i - 1) == "…" && is_id($(i - 2))) first = substr($(i - 2), length(last[1]) + 2) + 0
    for (k = first; k <= last[2] + 0; k++) cited[last[1] "-" k] = 1
  }
}
END {
  for (id in cited) if (!(id in defined)) fail("TRACE.md cites " id ", and nothing defines it")
  for (id in defined) { count++; if (!(id in cited)) fail("TRACE.md has nothing on " id) }
  if (!failed) print "requirements: " count " defined, and each is traced"
  exit failed
}' docs/REQUIREMENTS.md docs/TRACE.md
