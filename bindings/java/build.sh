#!/usr/bin/env bash
# Builds disruptor.jar in a folder: the classes, and the native side with the proved library of DISRUPTOR_LIB, or of `out`. Where
# JAVA22_HOME, or else the JDK in use, is from 22 on, the jar also has the calls by java.lang.foreign. With --native it puts the native
# side alone beside the classes in a folder, as pom.xml does.
#
#   bindings/java/build.sh OUT
#   bindings/java/build.sh --native CLASSES
set -eu
here=$(cd "$(dirname "$0")" && pwd)
library=${DISRUPTOR_LIB:-$here/../../out}
[ -f "$library/libdisruptor.a" ] || { echo "$library/libdisruptor.a is not there: run make lib"; exit 1; }
javac=$(readlink -f "$(command -v "${JAVA_HOME:+$JAVA_HOME/bin/}javac")")
java=${javac%/bin/javac}

build_native() { # CLASSES
    local machine to
    # (as Java names this machine)
    machine=$("$java/bin/java" -XshowSettings:properties -version 2>&1 | sed -n 's/^ *os\.\(name\|arch\) = //p' | tac | paste -sd-)
    to=$1/org/verified/disruptor/$machine
    mkdir -p "$to"
    "${CC:-cc}" -std=c11 -O2 -Wall -Wextra -Werror -shared -fPIC -I "$here/../../include" -I "$java/include" \
        -I "$(dirname "$java"/include/*/jni_md.h)" -o "$to/libdisruptor_jni.so" "$here/src/main/c/disruptor_jni.c" \
        "$library/libdisruptor.a" -lpthread
}

if [ "$1" = --native ]; then
    build_native "$2"
    exit
fi
mkdir -p "$1"
out=$(cd "$1" && pwd)
room=$(mktemp -d)
trap 'rm -rf "$room"' EXIT
"$javac" --release 11 -Xlint:all -Werror -d "$room/classes" $(find "$here/src/main/java" -name '*.java')
build_native "$room/classes"
new=${JAVA22_HOME:-$java}
if [ "$("$new/bin/javac" -version 2>&1 | sed 's/[^0-9]*\([0-9]*\).*/\1/')" -ge 22 ]; then
    "$new/bin/javac" --release 22 -Xlint:all,-restricted -Werror -cp "$room/classes" -d "$room/classes/META-INF/versions/22" \
        "$here/src/main/java22/org/verified/disruptor/Native.java"
fi
printf 'Multi-Release: true\n' > "$room/manifest"
"$java/bin/jar" --create --file "$out/disruptor.jar" --manifest "$room/manifest" -C "$room/classes" .
