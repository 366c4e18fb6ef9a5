#!/usr/bin/env bash
# Builds over the library in the folder OUT the packages that have a form of their own, where their tools are here: a wheel for Python
# and a jar for Java. The crate for Rust and the headers for C and C++ are used as they lie in `bindings` and `include`.
#
#   tools/packages.sh OUT
set -eu
top=$(cd "$(dirname "$0")/.." && pwd)
out=$(cd "$1" && pwd)
export DISRUPTOR_LIB=$out
room=$(mktemp -d)
trap 'rm -rf "$room"' EXIT

# A Python that builds a wheel without a network.
python_with_wheel() {
    local python
    for python in python3 /usr/bin/python3; do
        "$python" -I -c 'import setuptools, wheel, pip, sys; sys.exit(sys.version_info < (3, 9))' 2> "$room/null" &&
            printf '%s' "$python" && return 0
    done
    return 1
}

if python=$(python_with_wheel); then
    cp -r "$top/bindings/python" "$room/python"
    (cd "$room/python" && "$python" -m pip -q wheel --no-build-isolation --no-index --no-deps --wheel-dir "$room/wheel" .)
    rm -f "$out"/*.whl
    mv "$room"/wheel/*.whl "$out"
else
    echo 'not here, and skipped: a Python with pip, setuptools and wheel'
fi
if command -v "${JAVA_HOME:+$JAVA_HOME/bin/}javac" > "$room/null" 2>&1; then
    "$top/bindings/java/build.sh" "$out"
else
    echo 'not here, and skipped: a JDK'
fi
