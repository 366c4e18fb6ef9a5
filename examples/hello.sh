#!/usr/bin/env bash
# Starts a repository of your own: copies of the library's crates, with what is proved of them here, of tools/prove.py, and of
# the program of crates/example_orders, or of another example, as its crate `hello`. It proves, builds and runs that, tells how
# far it is, and compares what it prints.
#
#   examples/hello.sh [FOLDER [EXAMPLE]]      without FOLDER in a new folder, whose path is printed
set -u
top=$(cd "$(dirname "$0")/.." && pwd) || exit 2
own=${1:-$(mktemp -d)/hello}
example=${2:-example_orders}
if [ ! -f "$top/crates/$example/src/main.rt" ]; then
    echo "there is no $example: name one of" "$top"/crates/example_* | sed 's|[^ ]*/||g'
    exit 1
fi
if [ -e "$own" ]; then
    echo "$own is there already: name a new folder"
    exit 1
fi
mkdir -p "$own/crates/hello" && own=$(cd "$own" && pwd) || exit 2
case $own/ in
    "$top"/*) echo "$own lies within this repository, whose checks would then refuse it: name a folder elsewhere"; rm -r "$own"; exit 1 ;;
esac

# The library's crates that a crate stands on, each after those that it stands on itself, some more than once.
below() {
    local crate
    for crate in $(sed -n "s/^$1://p" "$top/crates.txt"); do
        if [ -d "$top/crates/$crate" ]; then
            below "$crate"
            echo "$crate"
        fi
    done
}

for crate in $(below "$example" | awk '!seen[$0]++'); do
    mkdir -p "$own/crates/$crate/out"
    cp -r "$top/crates/$crate/src" "$top/crates/$crate/specs" "$own/crates/$crate/" || exit 2
    [ -d "$top/crates/$crate/proofs" ] && cp -r "$top/crates/$crate/proofs" "$own/crates/$crate/"
    # (what was proved here is not proved again: that is out/rlib, and the rest of out/ is for who changes the crate)
    [ -d "$top/crates/$crate/out/rlib" ] && cp -r "$top/crates/$crate/out/rlib" "$own/crates/$crate/out/"
    grep "^$crate:" "$top/crates.txt" >> "$own/crates.txt" || exit 2
done
for part in src specs proofs stdout; do
    [ ! -e "$top/crates/$example/$part" ] || cp -r "$top/crates/$example/$part" "$own/crates/hello/" || exit 2
done
sed -n "s/^$example:/hello:/p" "$top/crates.txt" >> "$own/crates.txt"
# (its own files name it by its crate)
grep -rl "$example" "$own/crates/hello" | xargs -r sed -i "s/\b$example\b/hello/g"
mkdir "$own/tools" && cp "$top/HANDLES" "$own/" && cp "$top/tools/prove.py" "$top/tools/together.py" "$own/tools/" || exit 2
printf '%s\n' out/ __pycache__/ /hello.log > "$own/.gitignore"

echo "proving and building $own/crates/hello; what rt says goes to $own/hello.log"
"$own/tools/prove.py" --log "$own/hello.log" --try hello || exit 1
cd "$own/crates/hello" || exit 2
printf '\n$ crates/hello/out/hello\n'
out/hello | tee out/printed
if ! cmp -s out/printed stdout; then
    echo "FAILED: it was to print what stands in $own/crates/hello/stdout"
    exit 1
fi
