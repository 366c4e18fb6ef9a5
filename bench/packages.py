"""Programs over what `make lib` left in a folder, and over LMAX's library: each is built where its tools are here."""

import os
import shutil
import subprocess
import sys

from exchanges import TOP

RATES_OF_C = os.path.join(TOP, "bench", "c", "rates.c")
OF_SLOTS = os.path.join(TOP, "bench", "slots")
OF_JAVA = os.path.join(TOP, "bench", "java")
# Debian's package librust-crossbeam-channel-dev leaves them there; each stands on those before it.
CARGO = "/usr/share/cargo/registry"
CROSSBEAM = {"cfg_if": "cfg-if-1", "crossbeam_utils": "crossbeam-utils-0", "crossbeam_channel": "crossbeam-channel-0"}


def of_c(folder, library):
    """How the programs in C and C++ over a library are started, by the names that tables have for them."""
    archive, flags = os.path.join(library, "libdisruptor.a"), ["-O2", "-I", os.path.join(TOP, "include"), "-o"]
    in_c, in_cpp = os.path.join(folder, "rates"), os.path.join(folder, "rates_of_cpp")
    subprocess.run(["cc", "-std=c11", *flags, in_c, RATES_OF_C, archive, "-lpthread"], check=True)
    found = {"c": [in_c], "c-slots": [in_c, "slots"]}
    if shutil.which("c++"):
        subprocess.run(["c++", "-std=c++17", *flags, in_cpp, f"{OF_SLOTS}/rates.cpp", archive, "-lpthread"], check=True)
        found["cpp-slots"] = [in_cpp]
    return found


def of_rust(folder, library):
    """The folder of the programs in Rust over a library's ring of slots, or None."""
    if not shutil.which("cargo"):
        return None
    # (cargo leaves files beside what it builds)
    top = os.path.join(folder, "copy")
    for it in ("bench/slots", "bindings/rust"):
        shutil.copytree(os.path.join(TOP, it), os.path.join(top, it))
    words = ["cargo", "build", "--release", "--offline", "--quiet", "--target-dir", os.path.join(folder, "cargo")]
    subprocess.run(words, cwd=os.path.join(top, "bench/slots"), env={**os.environ, "DISRUPTOR_LIB": library}, check=True)
    return os.path.join(folder, "cargo/release")


def of_java(folder, lmax, library=None):
    """How a class of bench/java is started, before its name, and over which libraries it can run: `slots` and `lmax`."""
    jars = {"slots": os.path.join(library, "disruptor.jar") if library else "", "lmax": lmax}
    jars = {name: jar for name, jar in jars.items() if os.path.exists(jar)}
    if not jars or not shutil.which("javac"):
        return [], ()
    classes, path = os.path.join(folder, "java"), os.pathsep.join(jars.values())
    missing = {"OverSlots.java", "OverLmax.java"} - {f"Over{name.capitalize()}.java" for name in jars}
    sources = [os.path.join(OF_JAVA, it) for it in sorted(os.listdir(OF_JAVA)) if it not in missing]
    subprocess.run(["javac", "-cp", path, "-sourcepath", f"{TOP}/bench/lmax", "-d", classes, *sources], check=True)
    return ["java", "-cp", f"{path}{os.pathsep}{classes}"], tuple(jars)


def of_python(library):
    """How the program in Python is started."""
    words = ["env", f"DISRUPTOR_LIB={library}", f"PYTHONPATH={TOP}/bindings/python/src", "PYTHONDONTWRITEBYTECODE=1"]
    return [*words, sys.executable, f"{OF_SLOTS}/rates.py"]


def of_crossbeam(folder, main):
    """The plain program with crossbeam's own channels in place of std's, or None where Debian's package is not here."""
    here = sorted(os.listdir(CARGO)) if os.path.isdir(CARGO) else []
    found = {name: [it for it in here if it.startswith(start)] for name, start in CROSSBEAM.items()}
    if not all(found.values()):
        return None
    rustc, given = ["rustc", "-O", "--cap-lints", "allow", "-L", folder], []
    for name, folders in found.items():
        built = os.path.join(folder, f"lib{name}.rlib")
        words = ["--edition", "2018", "--crate-type", "rlib", "--crate-name", name, "--cfg", 'feature="std"', "-o", built]
        subprocess.run([*rustc, *given, *words, os.path.join(CARGO, folders[-1], "src", "lib.rs")], check=True)
        given += ["--extern", f"{name}={built}"]
    program = os.path.join(folder, "crossbeam")
    subprocess.run([*rustc, *given, "--edition", "2021", "--cfg", "crossbeam", "-o", program, main], check=True)
    return program
