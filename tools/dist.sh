#!/usr/bin/env bash
# Packs what `make lib` left in the folder OUT for those who use it without the kit: a tarball with the library, the headers, the
# packages, their examples, and in README what it is and which kit proved it.
#
#   tools/dist.sh OUT
set -eu
top=$(cd "$(dirname "$0")/.." && pwd)
out=$(cd "$1" && pwd)
said=$(sed -n 's/^const VERSION: &str = "\(.*\)";$/\1/p' "$top/crates/dr_command_line/src/words.rt")
[ -n "$said" ] || { echo "crates/dr_command_line/src/words.rt has no line with the version"; exit 1; }
proved=${said#*, proved with }
kit=${proved%% *} logic=${proved##* }
name=disruptor-${said%%,*}-$(uname -s | tr '[:upper:]' '[:lower:]')-$(uname -m)
room=$(mktemp -d)
trap 'rm -rf "$room"' EXIT

to=$room/$name
mkdir -p "$to/lib/pkgconfig" "$to/lib/cmake/disruptor" "$to/include"
cp -P "$out"/libdisruptor.* "$to/lib"
# (it may be unpacked anywhere)
sed 's|^prefix=.*|prefix=${pcfiledir}/../..|' "$out/disruptor.pc" > "$to/lib/pkgconfig/disruptor.pc"
cp "$top"/include/* "$to/include"
cp "$top"/bindings/cpp/*.cmake "$to/lib/cmake/disruptor"
"$top/tools/man_pages.py" "$to/share/man/man3"
cp -r "$top/bindings/rust" "$to/rust"
rm -rf "$to/rust/target" "$to/rust/Cargo.lock"
for it in "$out"/*.whl "$out/disruptor.jar"; do
    if [ -f "$it" ]; then cp "$it" "$to"; fi
done
# The examples, and for Java the sources and the model of the project for a repository.
cp "$top/bindings/java/pom.xml" "$to/disruptor.pom"
(cd "$top/bindings/java/src/main/java" && python3 -m zipfile -c "$to/disruptor-sources.jar" module-info.java org)
mkdir -p "$to/examples" "$to/share/doc/disruptor"
for it in c cpp java python rust; do cp -r "$top/examples/$it" "$to/examples"; done
rm -rf "$to/examples/rust/target" "$to/examples/rust/Cargo.lock" "$to/examples/python/__pycache__"
sed -i 's|\.\./\.\./bindings/rust|../../rust|' "$to/examples/rust/Cargo.toml"

# The README of a package, which says how to use what is packed.
say() { # PACKAGE FILE
    "$top/tools/dist_readme.py" "$top/bindings/$1/README.md" > "$to/$2"
}
say c share/doc/disruptor/c.md <<'END'
In the folder where this was unpacked:

```sh
export PKG_CONFIG_PATH=$PWD/lib/pkgconfig
cc -O2 my.c $(pkg-config --cflags --libs disruptor) -lpthread -o my
```

Where the loader does not look in `lib`, set `LD_LIBRARY_PATH`, or link `lib/libdisruptor.a`. `man -M share/man disruptor` begins the man pages.
END
say cpp share/doc/disruptor/cpp.md <<'END'
`CMAKE_PREFIX_PATH` names the folder where this was unpacked, for CMake from 3.10 on, or `PKG_CONFIG_PATH` its `lib/pkgconfig`:

```cmake
find_package(disruptor REQUIRED)
target_link_libraries(mine disruptor::static)   # or disruptor::shared
```

```sh
export PKG_CONFIG_PATH=$PWD/lib/pkgconfig
c++ -std=c++17 -O2 my.cpp $(pkg-config --cflags --libs disruptor) -lpthread -o my
```

Where the loader does not look in `lib`, set `LD_LIBRARY_PATH`, or link `lib/libdisruptor.a`.
END
say java share/doc/disruptor/java.md <<'END'
`disruptor.jar` is for the class path or the module path, as the module `org.verified.disruptor`, and has the library in it: it runs on Linux, on the same processor. `mvn install:install-file -Dfile=disruptor.jar -Dsources=disruptor-sources.jar -DpomFile=disruptor.pom` puts it into the local repository as `org.verified:disruptor`. From Java 24 on, `--enable-native-access=org.verified.disruptor` (or `ALL-UNNAMED` on the class path) spares a warning.
END
say python share/doc/disruptor/python.md <<'END'
`python3 -m pip install --no-index verified_disruptor-*.whl` in the folder where this was unpacked, for a Python that Debian manages in a virtual environment (`python3 -m venv DIR`). The library lies in the wheel; it wants Python 3.9 or later, and nothing else.
END
say rust rust/README.md <<'END'
`rust` is the crate, for a dependency by path. It links `lib/libdisruptor.a`, which lies beside it; `DISRUPTOR_LIB` names another folder. It wants Rust 1.63 or later and no other crate. `cargo test` tests it, offline too.
END
cat > "$to/README" <<END
disruptor ${said%%,*}: a verified LMAX Disruptor, as a library for five languages. One sender or several hand events to a graph of
handlers, each on a thread of its own; each handler has every event once, in order, and only after those that it follows.

The library is written in Rattle, which is Rust with contracts, and each of its functions is proved to keep its contract: the kit
$kit checked the proofs, by its logic $logic. The headers and packages are tested.

C, C++   include and lib: PKG_CONFIG_PATH names lib/pkgconfig, CMAKE_PREFIX_PATH this folder; man -M share/man disruptor
Rust     rust is the crate verified-disruptor: cargo add --path rust
Python   the wheel: pip install --no-index verified_disruptor-*.whl
Java     disruptor.jar, for the class path or the module path; disruptor.pom and disruptor-sources.jar for a repository

Each begins with a whole program: rust/README.md, and share/doc/disruptor of the others; examples has more.
END
tar -C "$room" -czf "$out/$name.tar.gz" "$name"
echo "$out/$name.tar.gz"
