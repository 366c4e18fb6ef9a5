#!/usr/bin/env bash
# Builds and runs programs in C and C++ over libdisruptor, in a new folder, and compares what they print: C also under the sanitizers
# of addresses, of undefined behaviour and of threads, where the compiler has them. Among them are tests after LMAX's own, of `tests/lmax`. Then it builds and tests each package of `bindings`, without a
# network, and runs the programs of `examples` over it. A language whose compiler is not here is skipped, and named. It prints a line
# for each failure, and then a count; its status is 0 where none failed.
#
#   tests/other_languages.sh FOLDER      that of `make lib`, with libdisruptor.a and libdisruptor.so
set -u
library=$(realpath "$1") || exit 2
top=$(cd "$(dirname "$0")/.." && pwd) || exit 2
room=$(mktemp -d) || exit 2
trap 'rm -rf "$room"' EXIT
cases=0 failed=0 skipped=

# Whether a compiler is here and makes a program with these words.
has() { # COMPILER SUFFIX WORD..
    local compiler=$1 suffix=$2
    shift 2
    command -v "$compiler" > "$room/null" 2>&1 || return 1
    printf 'int main(void) { return 0; }\n' > "$room/empty.$suffix"
    "$compiler" "$@" -o "$room/empty" "$room/empty.$suffix" > "$room/null" 2>&1 && "$room/empty"
}

skip() { # NAME
    skipped="$skipped $1"
}

# Builds a program, and compares what it prints with the text beside its source.
try() { # NAME EXPECTED COMMAND-THAT-BUILDS.. -- COMMAND-THAT-RUNS..
    local name=$1 expected=$2 build=()
    shift 2
    while [ "$1" != -- ]; do build+=("$1"); shift; done
    shift
    cases=$((cases + 1))
    if [ ${#build[@]} -gt 0 ] && ! "${build[@]}" > "$room/said" 2>&1; then
        failed=$((failed + 1))
        printf 'FAILED: %s is not built: %s\n' "$name" "$(head -c 600 "$room/said")"
        return
    fi
    timeout 120 "$@" > "$room/out" 2> "$room/err"
    local status=$?
    if [ $status -ne 0 ] || ! printf '%s\n' "$expected" | cmp -s - "$room/out"; then
        failed=$((failed + 1))
        printf 'FAILED: %s: status %s, %s%s\n' "$name" $status "$(head -c 600 "$room/out")" "$(head -c 600 "$room/err")"
    fi
}

all='each handler had every event'
size='a ring of 1000 slots: bad-size'
warns=(-Wall -Wextra -Werror -I"$top/include")
c=(-std=c11 -O2 "${warns[@]}")
guard=(-g -fsanitize=address,undefined -fno-sanitize-recover=all)

# A ring of too many bytes asks for more memory than there is.
lacks=(env ASAN_OPTIONS=allocator_may_return_null=1)

# What each program in C prints.
orders='each handler had every order, whole'
declare -A prints=([ring]=$all [senders]=$all [bell]=$'the handler had every event\neach came in time\nidleness costs next to nothing'
    [refusals]='every misuse is refused by its number' [bytes]=$orders
    [refusals_of_bytes]='every misuse of bytes is refused by its number'
    [refusals_of_slots]='every misuse of slots is refused by its number'
    [lmax/rings]="each of LMAX's tests passed" [lmax/graphs]="each of LMAX's tests passed")

# Builds and runs each program in C with these words more.
try_c() { # WHAT WORD..
    local what=$1 program source run
    shift
    for program in ring senders bell refusals bytes refusals_of_bytes refusals_of_slots lmax/rings lmax/graphs; do
        run=("$room/${program#lmax/}")
        source=$top/examples/c/$program.c
        [[ $program != lmax/* ]] || source=$top/tests/$program.c
        [[ $program != refusals_of_bytes ]] || run=("${lacks[@]}" "${run[@]}")
        try "C $program$what" "${prints[$program]}" \
            cc "${c[@]}" "$@" -o "$room/${program#lmax/}" "$source" "$library/libdisruptor.a" -lpthread -- "${run[@]}"
    done
}

if has cc c; then
    try_c ''
    if has cc c "${guard[@]}"; then
        try_c ', with sanitizers' "${guard[@]}"
    else
        skip 'C with sanitizers'
    fi
    # Over a stand-in, since this one sees no atomic of the proved archive.
    threads=(-g -fsanitize=thread)
    if has cc c "${threads[@]}" && cc "${c[@]}" "${threads[@]}" -c -o "$room/stand_in.o" "$top/tests/seen_by_sanitizers.c"; then
        lmax=${prints[lmax/rings]}
        for it in "tests/lmax/rings.c:$lmax" "tests/lmax/graphs.c:$lmax" 'bindings/c/tests/graph.c:each test passed'; do
            try "C ${it%%:*}, with the sanitizer of threads" "${it#*:}" \
                cc "${c[@]}" "${threads[@]}" -o "$room/raced" "$top/${it%%:*}" "$room/stand_in.o" -lpthread -- "$room/raced"
        done
        if has c++ cpp "${threads[@]}"; then
            try 'C++ bindings/cpp/tests/ring.cpp, with the sanitizer of threads' 'each test passed' \
                c++ -std=c++17 -O1 "${warns[@]}" "${threads[@]}" -o "$room/raced" "$top/bindings/cpp/tests/ring.cpp" "$room/stand_in.o" \
                -lpthread -- "$room/raced"
        fi
    else
        skip 'C with the sanitizer of threads'
    fi
    # Each request of the library for memory comes to the program.
    wraps=(-Wl,--wrap=malloc,--wrap=realloc)
    if has cc c "${wraps[@]}"; then
        try 'C takes_no_memory' 'no call but an opening takes memory' \
            cc "${c[@]}" "${wraps[@]}" -o "$room/memory" "$top/tests/takes_no_memory.c" "$library/libdisruptor.a" -lpthread -- "$room/memory"
    else
        skip 'C whose requests for memory are counted'
    fi
else
    skip C
fi
if has c++ cpp; then
    try C++ "$size: the size is no power of two from 1 to 65536"$'\n'"$all" \
        c++ -std=c++17 -O2 "${warns[@]}" -o "$room/cpp" "$top/examples/cpp/ring.cpp" "$library/libdisruptor.a" -lpthread -- "$room/cpp"
    try 'C++, bytes' "$orders" \
        c++ -std=c++17 -O2 "${warns[@]}" -o "$room/bytes_cpp" "$top/examples/cpp/bytes.cpp" "$library/libdisruptor.a" -lpthread -- "$room/bytes_cpp"
else
    skip C++
fi
# The home of a Java compiler that has the header of Java's native interface too.
java_home() {
    local javac=${JAVA_HOME:+$JAVA_HOME/bin/javac} home
    javac=$(readlink -f "${javac:-$(command -v javac)}" 2> "$room/null") || return 1
    home=${javac%/bin/javac}
    [ -x "$javac" ] && [ -f "$home/include/jni.h" ] && printf '%s' "$home"
}

# The home of a Java whose own calls of foreign functions are tried too, from 22 on: JAVA22_HOME, the one in use, or another one here.
java22_home() {
    local home
    for home in ${JAVA22_HOME:+"$JAVA22_HOME"} $(java_home) /usr/lib/jvm/*; do
        [ -x "$home/bin/javac" ] && [ "$("$home/bin/javac" -version 2>&1 | sed 's/[^0-9]*\([0-9]*\).*/\1/')" -ge 22 ] &&
            printf '%s' "$home" && return
    done
    return 1
}

# Builds and tests a package, which says by its status whether it passed.
package() { # NAME COMMAND..
    local name=$1
    shift
    cases=$((cases + 1))
    if ! (export DISRUPTOR_LIB=$library; "$@") > "$room/said" 2>&1; then
        failed=$((failed + 1))
        printf 'FAILED: the package for %s: %s\n' "$name" "$(tail -c 1200 "$room/said")"
    fi
}

# Runs `make install-lib` where the library is, beside a copy of the sources: `-o lib` spares its proof, which may have been elsewhere.
install_lib() { # WORD..
    local from=$room/from
    rm -rf "$from" && mkdir -p "$from/crates" "$from/bindings" "$from/out" && cp -r "$top/bindings/cpp" "$from/bindings" &&
        cp -r "$top/Makefile" "$top/include" "$top/tools" "$from" && cp -P "$library"/libdisruptor.* "$library/disruptor.pc" "$from/out" &&
        env -u MAKEFLAGS make -C "$from" -o lib install-lib "$@"
}

# What is installed is found by pkg-config, for a program in C and one in C++; before the prefix may stand a folder that it does not name.
test_installed() {
    local prefix=$room/found language
    export PKG_CONFIG_PATH=$prefix/lib/pkgconfig
    install_lib PREFIX=/opt/it DESTDIR="$room/staged" && grep -x 'prefix=/opt/it' "$room/staged/opt/it/lib/pkgconfig/disruptor.pc" &&
        install_lib PREFIX="$prefix" && [ "$(pkg-config --variable=libdir disruptor)" = "$prefix/lib" ] || return 1
    for language in c cpp; do
        local compiler=(c++ -std=c++17)
        [ $language != c ] || compiler=(cc -std=c11)
        has "${compiler[0]}" $language || continue
        sed -n "/^\`\`\`$language\$/,/^\`\`\`\$/p" "$top/bindings/$language/README.md" | sed '1d;$d' > "$room/found.$language"
        # shellcheck disable=SC2046
        "${compiler[@]}" -o "$room/found_$language" "$room/found.$language" $(pkg-config --cflags --libs disruptor) -lpthread &&
            LD_LIBRARY_PATH=$prefix/lib prints 'each handler had every order' "$room/found_$language" || return 1
    done
}

# Its tests, and a program that finds what is installed.
test_cpp() {
    local prefix=$room/prefix
    cmake -S "$top/bindings/cpp" -B "$room/cmake" -DDISRUPTOR_LIB="$library" && cmake --build "$room/cmake" &&
        ctest --test-dir "$room/cmake" --output-on-failure --timeout 120 && install_lib PREFIX="$prefix" &&
        cmake -S "$top/bindings/cpp/tests/installed" -B "$room/installed" -DCMAKE_PREFIX_PATH="$prefix" &&
        cmake --build "$room/installed" && ctest --test-dir "$room/installed" --output-on-failure --timeout 120
}

# Whether a program prints just this.
prints() { # EXPECTED COMMAND..
    local expected=$1
    shift
    [ "$(timeout 120 "$@" | tee /dev/stderr)" = "$expected" ]
}
ends="$size"$'\n''a claim after the halt: halted'$'\n'"$all"
told="$size: the size is no power of two from 1 to 65536"$'\n'
told+='a claim after the halt: halted: the ring is halted, for good: publish what is claimed, and end'$'\n'$all

# The packages' tests, and the programs of `examples` over them.
test_rust() {
    mkdir "$room/crates" && cp -r "$top/bindings" "$top/examples" "$room/crates" && export CARGO_TARGET_DIR=$room/cargo &&
        (cd "$room/crates/bindings/rust" && timeout 600 cargo test --offline --quiet) && cd "$room/crates/examples/rust" &&
        prints "$ends" cargo run --offline --quiet --bin ends && prints "$all" cargo run --offline --quiet --bin senders
}

# The wheel and the jar are built as `make lib` does, and tested as they are unpacked.
test_python() {
    "$1" -m zipfile -e "$room"/packages/*.whl "$room/unpacked" && unset DISRUPTOR_LIB &&
        export PYTHONPATH=$room/unpacked PYTHONDONTWRITEBYTECODE=1 &&
        (cd "$top/bindings/python" && timeout 120 "$1" -W error -m unittest discover -s tests) &&
        prints "$told" "$1" "$top/examples/python/ends.py" &&
        prints 'each handler had every record' "$1" "$top/examples/python/records.py"
}

test_java() {
    local classes=$room/tests_of_java jar=$room/packages/disruptor.jar homes=("$java") home run
    if [ -n "$JAVA22_HOME" ]; then
        [ "$JAVA22_HOME" = "$java" ] || homes+=("$JAVA22_HOME")
        python3 -m zipfile -l "$jar" | grep 'META-INF/versions/22/.*/Native.class' || return 1
    fi
    mkdir -p "$classes" && sed -n '/^```java$/,/^```$/p' "$top/bindings/java/README.md" | sed '1d;$d' > "$classes/Orders.java" &&
        "$java/bin/javac" --release 11 -cp "$jar" -d "$classes" "$classes/Orders.java" "$top"/bindings/java/src/test/java/*.java \
            "$top"/examples/java/*.java || return 1
    for home in "${homes[@]}"; do
        run=("$home/bin/java" -Xmx64m -cp "$jar:$classes")
        prints 'each test passed' "${run[@]}" -Xcheck:jni RingTest && prints 'each handler had every order' "${run[@]}" Orders &&
            prints "$told" "${run[@]}" Ends && prints "$all" "${run[@]}" Senders || return 1
    done
}

# A page for each call that the header names, in which groff finds nothing to warn of; two headers with one name are refused.
test_man_pages() {
    mkdir -p "$room/twice/tools" && cp "$top/tools/man_pages.py" "$room/twice/tools" && cp -r "$top/include" "$room/twice" &&
        sed -i 's/disruptor_completed_by/disruptor_completed/' "$room/twice/include/disruptor.h" &&
        ! "$room/twice/tools/man_pages.py" "$room/twice/man" || return 1
    "$top/tools/man_pages.py" "$room/man/man3" && cd "$room/man" && [ -z "$(groff -man -ww -z man3/*.3 2>&1)" ] &&
        [ -f man3/disruptor_publish_slots.3 ] && [ -f man3/disruptor_finish.3 ] && grep -q '^uint32_t disruptor_claim(' man3/disruptor_claim.3
}

# What is packed has all that its READMEs name, and a program is built of it alone.
test_dist() {
    local to=$room/dist
    mkdir -p "$to" && tar -C "$to" -xzf "$("$top/tools/dist.sh" "$room/packages" | tail -1)" --strip-components=1 && cd "$to" || return 1
    ! grep -n 'bindings/\|make \|`out`' README share/doc/disruptor/*.md rust/README.md || return 1
    [ -f examples/c/senders.c ] && [ -f disruptor-sources.jar ] && [ -f disruptor.pom ] && grep -q '"../../rust"' examples/rust/Cargo.toml || return 1
    sed -n '/^```c$/,/^```$/p' share/doc/disruptor/c.md | sed '1d;$d' > readme.c
    cc -std=c11 -Iinclude -o readme readme.c lib/libdisruptor.a -lpthread && prints 'each handler had every order' ./readme
}

# Where Maven finds its plugins without a network, as Debian has them.
debian=/usr/share/maven-repo
has_maven() {
    command -v mvn > "$room/null" 2>&1 && [ -d $debian/org/codehaus/mojo/exec-maven-plugin/3.1.0 ] &&
        [ -d $debian/org/apache/maven/plugins/maven-compiler-plugin/3.10.1 ] && [ -d $debian/org/apache/maven/plugins/maven-jar-plugin/3.3.0 ]
}

test_maven() {
    mkdir "$room/maven" && cp -r "$top/bindings" "$top/include" "$room/maven" && cd "$room/maven/bindings/java" &&
        printf '<settings><localRepository>%s</localRepository><mirrors><mirror><id>debian</id><url>file://%s</url>%s' \
            "$room/m2" $debian '<mirrorOf>*</mirrorOf></mirror></mirrors></settings>' > settings.xml &&
        JAVA_HOME=$java timeout 300 mvn -q -B -s settings.xml package && [ -f target/disruptor-*.jar ]
}

# Each package has the version of the header, and where it has texts of its refusals, those of the header.
test_versions() {
    local version text
    sed -n '/^#define DISRUPTOR_REFUSALS/,/[^\\]$/s/^    of(.*, \("[^"]*"\)).*/\1/p' "$top/include/disruptor.h" > "$room/texts"
    while read -r text; do
        grep -F "$text" "$top/bindings/python/src/verified_disruptor/_library.py" &&
            grep -F "$text" "$top"/bindings/java/src/main/java/org/verified/disruptor/Refusal.java || return 1
    done < "$room/texts"
    [ "$(wc -l < "$room/texts")" -gt 20 ] || return 1
    version=$(sed -n 's/^#define DISRUPTOR_VERSION "\(.*\)"/\1/p' "$top/include/disruptor.h")
    grep -x "version = \"$version\"" "$top/bindings/rust/Cargo.toml" && grep -x "version = \"$version\"" "$top/bindings/python/pyproject.toml" &&
        grep -x "  <version>$version</version>" "$top/bindings/java/pom.xml"
}

# A copy of the library, beside which the wheel and the jar come.
build_packages() {
    mkdir -p "$room/packages" && cp -P "$library"/libdisruptor.* "$library/disruptor.pc" "$room/packages" && "$top/tools/packages.sh" "$room/packages"
}

JAVA22_HOME=$(java22_home)
export JAVA22_HOME
package 'each language: the versions' test_versions
package 'Python and Java: the build' build_packages
if has cc c; then
    package C "$top/bindings/c/test.sh" "$library"
    package 'what is packed' test_dist
fi
if command -v groff > "$room/null" 2>&1; then package 'C: the man pages' test_man_pages; else skip 'the man pages'; fi
if has c++ cpp && command -v cmake > "$room/null" 2>&1; then package C++ test_cpp; else skip 'the package for C++'; fi
if command -v make > "$room/null" 2>&1 && command -v pkg-config > "$room/null" 2>&1; then
    package 'C and C++: what is installed' test_installed
else
    skip 'what is installed, by pkg-config'
fi
if command -v cargo > "$room/null" 2>&1; then package Rust test_rust; else skip 'the crate for Rust'; fi
if ls "$room"/packages/*.whl > "$room/null" 2>&1; then package Python test_python python3; else skip 'the package for Python'; fi
python3 -c 'import numpy' > "$room/null" 2>&1 || skip 'numpy over records of Python'
if [ -f "$room/packages/disruptor.jar" ] && java=$(java_home); then
    package Java test_java
    [ -n "$JAVA22_HOME" ] || skip 'the package for Java by its own calls of foreign functions, of a JDK from 22 on'
    if has_maven; then package 'Java by Maven' test_maven; else skip 'the package for Java by Maven'; fi
else
    skip 'the package for Java'
fi
[ -z "$skipped" ] || printf 'not here, and skipped:%s\n' "$skipped"
printf 'other languages: %s programs, %s failed\n' $cases $failed
[ $failed -eq 0 ] && [ $cases -gt 0 ]
