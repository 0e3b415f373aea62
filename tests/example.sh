#!/bin/sh
# What include/pot.h says, tried out in C. Wants the library: `sh tests/staticlib.sh`.
set -e
cd "$(dirname "$0")/.."
library=target/staticlib/libhost.a
work=$(mktemp -d)
trap 'rm -rf "$work"' EXIT
compile() { cc -std=c11 -Wall -Wextra -Werror -O2 -Iinclude "$1" "$library" -o "$2"; }
# The example at its head is the program, and the program prints what is stored.
sed -n '/^ \*     #include <stdio.h>$/,/^ \*     }$/p' include/pot.h | sed 's/^ \*     //; s/^ \*$//' | cmp - examples/evening.c
compile examples/evening.c "$work/evening"
"$work/evening" | cmp - examples/evening.out
# No call uses more stack than it says.
compile tests/stack.c "$work/stack"
"$work/stack"
# The library has fewer than 22,000 bytes, and asks for memcpy and memset alone.
size "$library" | awk 'NR == 2 { print $4 " bytes in all"; exit !($4 < 22000) }'
nm --undefined-only "$library" | awk 'NF == 2 && $2 != "memcpy" && $2 != "memset" { print "asks for " $2; bad = 1 } END { exit bad }'
