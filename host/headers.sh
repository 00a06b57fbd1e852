#!/bin/sh
# The headers compile without a warning as C99, C11 and C++17, with the examples, by each compiler at hand; and the refusals that they name are
# those of crates/refusals.
set -eu
room=$(mktemp -d)
trap 'rm -rf "$room"' EXIT
flags="-O2 -Wall -Wextra -Wpedantic -Wconversion -Wredundant-decls -Werror -Iinclude"
# each header in the other's company, and twice; and a setting without a table
printf '#include "wko_frames.h"\n#include "wko.h"\nextern const struct wko_setting even;\nconst struct wko_setting even = WKO_EVEN(-1000, 100);\n' >"$room/headers.c"
tried=
compile() { # compile COMPILER...: the headers and the examples, one by one
  command -v "$1" >/dev/null || { echo "headers: no $1 here" && return; }
  for file in "$room/headers.c" host/example.c host/link.c host/fill.c host/tables.c; do
    # shellcheck disable=SC2086 # the flags are several words
    "$@" $flags -c -o "$room/object" "$file"
  done
  tried="$tried${tried:+, }$1 $(echo "$*" | sed 's/.*-std=//')"
}
for compiler in gcc clang; do
  compile $compiler -std=c99
  compile $compiler -std=c11
done
for compiler in g++ clang++; do
  compile $compiler -x c++ -std=c++17
done
[ -n "$tried" ]

# On a machine of 32 bits the structs are laid out otherwise: the headers do not compile there, but for a host that only sends frames.
printf 'void *memcpy(void *, const void *, unsigned), *memset(void *, int, unsigned);\nint memcmp(const void *, const void *, unsigned);\n' >"$room/string.h"
# shellcheck disable=SC2086 # the flags are several words
narrow() { # narrow FLAG...: the headers for 32 bits, with no more of a C library than the three functions that they use
  gcc -m32 -std=c11 -ffreestanding -nostdinc -isystem "$(gcc -print-file-name=include)" -I"$room" $flags -fsyntax-only "$@" "$room/headers.c"
}
if command -v gcc >/dev/null; then
  narrow -DWKO_FRAMES_ONLY
  if narrow 2>"$room/errors"; then
    echo "headers: another layout of the structs compiles" && exit 1
  fi
  grep -q "not laid out as in libwko.a" "$room/errors"
  tried="$tried; for frames only, 32 bits"
fi

# A cause such as ShortBuffer is WKO_SHORT_BUFFER in C.
sed -n 's/^ *Cause::\([A-Za-z]*\) => \([0-9]*\),$/\1 \2/p' crates/refusals/src/lib.rt |
  sed -e 's/\([a-z]\)\([A-Z]\)/\1_\2/g' | tr '[:lower:]' '[:upper:]' | sed 's/^\([A-Z_]*\) \(.*\)$/WKO_\1 = \2/' >"$room/causes"
sed -n 's/^ *\(WKO_[A-Z_]* = [0-9]*\),\{0,1\}$/\1/p' include/wko.h | cmp - "$room/causes"
[ -s "$room/causes" ]
echo "headers: no warning from $tried; $(wc -l <"$room/causes") refusals as in crates/refusals"
