#!/bin/sh
# Proves and builds the program, unless it is there and newer than each source: `rt ci` builds it, too.
cd "$(dirname "$0")/../crates" || exit 2
program=illcanon/out/illcanon
newer=$(find . -name out -prune -o \( -name '*.rt' -o -name '*.antt' \) -newer "$program" -print 2>/dev/null | head -n 1)
[ -x "$program" ] && [ -z "$newer" ] && exit 0
cd illcanon && exec rt run -- --version
