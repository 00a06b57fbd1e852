#!/bin/sh
# What `make install` puts in place is enough for a host: the example is built from there, as C and as C++, and runs. The manual page is
# rendered and names each call of the header. The library needs memcpy alone and has no writable data. Tools that are not at hand are said.
set -eu
room=$(mktemp -d)
trap 'rm -rf "$room"' EXIT
unset MAKEFLAGS # nothing of the make that this may run in
make --no-print-directory install DESTDIR= PREFIX="$room/usr" >/dev/null
pc=$room/usr/lib/pkgconfig/wko.pc

if command -v pkg-config >/dev/null; then
  flags=$(PKG_CONFIG_PATH=$(dirname "$pc") pkg-config --cflags --libs wko)
else
  echo "install: no pkg-config here, the flags are read from wko.pc"
  eval "$(grep '=' "$pc")"
  eval "flags=\"$(sed -n -e 's/^Cflags: //p' -e 's/^Libs: //p' "$pc" | tr '\n' ' ')\""
fi

build() { # build NAME COMPILER...: the example, against what is installed alone
  name=$1
  shift
  # shellcheck disable=SC2086 # the flags are several words
  (cp host/example.c "$room" && cd "$room" && "$@" -Wall -Wextra -o "$name" example.c $flags)
  "$room/$name" | cmp - host/example.out
}
built=C
build c "${CC:-gcc}" -std=c11
if command -v "${CXX:-g++}" >/dev/null; then
  build cpp "${CXX:-g++}" -x c++
  built="C and C++"
else
  echo "install: no C++ compiler here"
fi

library=$room/usr/lib/libwko.a
[ "$(nm -u "$library" | awk '$1 == "U" { print $2 }' | sort -u)" = memcpy ] || { echo "install: the library needs more than memcpy" && exit 1; }
size "$library" | awk 'NR > 1 && $2 + $3 > 0 { exit 1 }' || { echo "install: the library has writable data" && exit 1; }

page=$room/usr/share/man/man3/wko.3
if command -v groff >/dev/null; then
  groff -man -ww -Tascii -P-cbou "$page" >"$room/page" 2>"$room/warnings"
elif command -v man >/dev/null; then
  man --warnings -l "$page" >"$room/page" 2>"$room/warnings"
else
  echo "install: neither groff nor man here, the manual page is read as it is"
  cp "$page" "$room/page"
  : >"$room/warnings"
fi
cat "$room/warnings"
[ ! -s "$room/warnings" ]
for call in $(grep -o 'wko_[a-z_]*(' include/wko.h | tr -d '(' | sort -u); do
  grep -q "$call(" "$room/page" || { echo "install: the manual page does not name $call" && exit 1; }
done

make --no-print-directory uninstall DESTDIR= PREFIX="$room/usr"
[ -z "$(find "$room/usr" -type f)" ] || { echo "install: make uninstall leaves files" && exit 1; }
echo "installed files: the example built from them as $built, and the manual page names each call"
