//! Links the proved archive, which is for x86-64 alone. Elsewhere nothing is linked.

use std::env;
use std::path::PathBuf;

fn main() {
    println!("cargo::rustc-check-cfg=cfg(archive)");
    println!("cargo::rerun-if-env-changed=LAYOUT_ARCHIVE");
    if env::var("CARGO_CFG_TARGET_ARCH").is_ok_and(|arch| arch != "x86_64") {
        return;
    }
    let home = PathBuf::from(env::var_os("CARGO_MANIFEST_DIR").expect("cargo names the package"));
    let made = || home.join("../target/staticlib/liblayout.a");
    let named = env::var_os("LAYOUT_ARCHIVE").map_or_else(made, PathBuf::from);
    println!("cargo::rerun-if-changed={}", named.display());
    let archive = named.canonicalize().unwrap_or_else(|_| {
        panic!("no archive at {}: run `tools/archive` or set LAYOUT_ARCHIVE", named.display())
    });
    let folder = archive.parent().expect("a file stands in a folder");
    let file = archive.file_name().expect("an archive has a name");
    println!("cargo::rustc-link-search=native={}", folder.display());
    println!("cargo::rustc-link-lib=static:+verbatim={}", file.display());
    println!("cargo::rustc-cfg=archive");
}
