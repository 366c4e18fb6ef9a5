#!/usr/bin/env bash
# Makes of the proved crate dr_c what programs in other languages link: in the folder OUT libdisruptor.a, libdisruptor.so with
# its versions, and disruptor.pc for pkg-config, whose prefix is PREFIX. ARCHIVE is the crate's, where `make lib` did not leave it.
#
#   tools/library.sh OUT PREFIX [ARCHIVE]
set -eu
top=$(cd "$(dirname "$0")/.." && pwd)
mkdir -p "$1"
out=$(cd "$1" && pwd) prefix=$2
proved=${3:-$top/crates/dr_c/out/libdr_c.a}
# (allocations of the library go through the kit's heap.c, which calls malloc and free)
kit=$(dirname "$(rt doc)")
version=$(sed -n 's/^const VERSION: &str = "\([^,"]*\).*/\1/p' "$top/crates/dr_command_line/src/words.rt")
[ -n "$version" ] || { echo "crates/dr_command_line/src/words.rt has no line with the version"; exit 1; }
[ -f "$proved" ] || { echo "$proved is not there: make lib proves it"; exit 1; }
grep -q "^#define DISRUPTOR_VERSION \"$version\"" "$top/include/disruptor.h" || { echo "include/disruptor.h has not the version $version"; exit 1; }
# (a release with another name breaks programs that are linked already: while the first number is 0, each with another second)
named=libdisruptor.so.$(printf '%s' "$version" | cut -d. -f1-2)

rm -f "$out/libdisruptor.a"
printf '%s\n' "CREATE $out/libdisruptor.a" "ADDLIB $proved" "ADDLIB $kit/c/liblibc_c.a" SAVE END | ar -M
printf '{ global: disruptor_*; local: *; };\n' > "$out/exports.map"
rm -f "$out"/libdisruptor.so*
"${CC:-cc}" -shared -o "$out/libdisruptor.so.$version" -Wl,-soname,"$named" -Wl,--version-script="$out/exports.map" \
    -Wl,--whole-archive "$out/libdisruptor.a" -Wl,--no-whole-archive
rm "$out/exports.map"
ln -s "libdisruptor.so.$version" "$out/$named"
ln -s "libdisruptor.so.$version" "$out/libdisruptor.so"
cat > "$out/disruptor.pc" <<END
prefix=$prefix
libdir=\${prefix}/lib
includedir=\${prefix}/include

Name: disruptor
Description: The proved rings of one sender or several and a graph of handlers
Version: $version
Libs: -L\${libdir} -ldisruptor
Libs.private: -lpthread
Cflags: -I\${includedir}
END
