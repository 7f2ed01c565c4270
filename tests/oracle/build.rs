//! Finds the Rust text, which is never copied here, and has the crate compile it where it stands.

use std::path::PathBuf;
use std::{env, fs};

/// Where the text stands beside the repository.
const BESIDE: &str = "../../../shared/docs/src/crates/rucc-codegen/src/layout.rs";

fn main() {
    println!("cargo::rustc-check-cfg=cfg(text)");
    println!("cargo::rerun-if-env-changed=RUCC_TEXT");
    let home = PathBuf::from(env::var_os("CARGO_MANIFEST_DIR").expect("cargo names the crate"));
    let text = env::var_os("RUCC_TEXT").map_or_else(|| home.join(BESIDE), PathBuf::from);
    println!("cargo::rerun-if-changed={}", text.display());
    let Ok(text) = text.canonicalize() else { return };
    println!("cargo::rustc-cfg=text");
    // The text is not ours to mend, so what the compiler would say of it alone is not asked for.
    let module = format!("#[allow(warnings)]\n#[path = {text:?}]\npub mod layout;\n");
    let out = PathBuf::from(env::var_os("OUT_DIR").expect("cargo names a folder"));
    fs::write(out.join("text.rs"), module).expect("cargo's folder can be written to");
}
