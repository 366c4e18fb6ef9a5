#!/usr/bin/env bash
# Builds and runs the tests of the package for C, and the program of its README, over a folder with libdisruptor.a.
#
#   bindings/c/test.sh LIBRARY
set -eu
here=$(cd "$(dirname "$0")" && pwd)
library=$(realpath "$1")
room=$(mktemp -d)
trap 'rm -rf "$room"' EXIT
sed -n '/^```c$/,/^```$/p' "$here/README.md" | sed '1d;$d' > "$room/readme.c"
build=("${CC:-cc}" -std=c11 -O2 -Wall -Wextra -Werror -Wno-unused-parameter -I "$here/../../include")
try() { # PROGRAM EXPECTED
    "${build[@]}" -o "$room/program" "$1" "$library/libdisruptor.a" -lpthread
    [ "$(timeout 60 "$room/program" | tee /dev/stderr)" = "$2" ]
}
try "$room/readme.c" 'each handler had every order'
try "$here/tests/graph.c" 'each test passed'
# A graph over a pointer, whose events nobody can count, is not built, whatever is warned of.
plain=("${CC:-cc}" -std=c11 -c -o "$room/object.o" -I "$here/../../include")
printf '#include <disruptor_threads.h>\nuint64_t size(int *it) { return %s.size; }\n' 'disruptor_graph_of(it, 1, sizeof *it)' > "$room/one.c"
sed 's/graph_of([^)]*)/GRAPH(it)/; s/disruptor_G/DISRUPTOR_G/' "$room/one.c" > "$room/pointer.c"
"${plain[@]}" "$room/one.c"
! "${plain[@]}" "$room/pointer.c" 2> "$room/said" && grep -q DISRUPTOR_GRAPH "$room/said"
