//! Finds the proved library: in the folder DISRUPTOR_LIB, in `out` of the repository, beside the crate as `make dist` packs it, or where
//! pkg-config says.

use std::env;
use std::path::PathBuf;
use std::process::Command;

const NAME: &str = "libdisruptor.a";

fn by_pkg_config() -> Option<PathBuf> {
    let said = Command::new("pkg-config").args(["--variable=libdir", "disruptor"]).output().ok()?;
    let folder = String::from_utf8(said.stdout).ok()?;
    (said.status.success() && !folder.trim().is_empty()).then(|| PathBuf::from(folder.trim()))
}

fn main() {
    println!("cargo:rerun-if-env-changed=DISRUPTOR_LIB");
    let here = PathBuf::from(env::var_os("CARGO_MANIFEST_DIR").expect("cargo names it"));
    let folder = env::var_os("DISRUPTOR_LIB")
        .map(PathBuf::from)
        .or_else(|| ["../../out", "../lib"].iter().map(|it| here.join(it)).find(|it| it.join(NAME).exists()))
        .or_else(by_pkg_config)
        .filter(|folder| folder.join(NAME).exists())
        .unwrap_or_else(|| panic!("{} is not found: run `make lib`, or name its folder in DISRUPTOR_LIB", NAME));
    println!("cargo:rerun-if-changed={}", folder.join(NAME).display());
    println!("cargo:rustc-link-search=native={}", folder.display());
    println!("cargo:rustc-link-lib=static=disruptor");
}
