//! C programs over the archive: compiled, linked and run on this machine. And the programs that the
//! kit built.

use std::env;
use std::path::{Path, PathBuf};
use std::process::Command;

/// What is asked of every compiler.
const STRICT: [&str; 5] = ["-std=c11", "-Wall", "-Wextra", "-Werror", "-O2"];

/// The root of the repository.
#[must_use]
pub fn repository() -> PathBuf {
    Path::new(env!("CARGO_MANIFEST_DIR")).join("../..")
}

/// The archive under test: what LAYOUT_ARCHIVE names, or what `tools/archive` made.
fn archive() -> PathBuf {
    let made = || repository().join("target/staticlib/liblayout.a");
    let archive = env::var_os("LAYOUT_ARCHIVE").map_or_else(made, PathBuf::from);
    let shown = archive.display();
    assert!(archive.is_file(), "no archive at {shown}: run `tools/archive` or set LAYOUT_ARCHIVE");
    archive
}

/// The functions that the archive takes from whatever it is linked with, each once, sorted.
#[must_use]
pub fn asked_for() -> Vec<String> {
    let listed = Command::new("nm").arg("--undefined-only").arg(archive()).output();
    let listed = listed.expect("nm runs");
    assert!(listed.status.success(), "nm reads the archive");
    let lines = String::from_utf8(listed.stdout).expect("nm writes text");
    let names = lines.lines().filter_map(|line| line.trim().strip_prefix("U "));
    let mut names: Vec<String> = names.map(str::to_owned).collect();
    names.sort();
    names.dedup();
    names
}

/// A program for the archive's processor, x86-64.
#[derive(Debug)]
pub struct Program(PathBuf);

impl Program {
    /// The listing program: what BLOCKLIST names, or what `rt ci` or `rt run` built.
    #[must_use]
    pub fn blocklist() -> Self {
        let built = || repository().join("crates/blocklist/out/blocklist");
        let file = env::var_os("BLOCKLIST").map_or_else(built, PathBuf::from);
        let shown = file.display();
        assert!(
            file.is_file(),
            "no program at {shown}: run `tools/run blocklist < FILE` or set BLOCKLIST"
        );
        Program(file)
    }

    /// Compiles `tests/c/NAME.c` and links it with the archive, to a file in `folder`.
    #[must_use]
    pub fn made(name: &str, folder: &str) -> Self {
        std::fs::create_dir_all(folder).expect("the folder can be made");
        let file = Path::new(folder).join(name);
        done(compiler().arg(source(name)).arg(archive()).arg("-o").arg(&file));
        Program(file)
    }

    /// The command that runs it.
    #[must_use]
    pub fn command(&self) -> Command {
        Command::new(&self.0)
    }
}

/// Has `cc` compile `tests/c/NAME.c`, which must not warn.
pub fn compiled_by_cc(name: &str, folder: &str) {
    std::fs::create_dir_all(folder).expect("the folder can be made");
    let object = Path::new(folder).join(name).with_extension("cc.o");
    done(compiler().arg("-c").arg(source(name)).arg("-o").arg(object));
}

fn source(name: &str) -> PathBuf {
    repository().join("tests/c").join(name).with_extension("c")
}

/// The compiler with everything that is asked of it, and the way to the header.
fn compiler() -> Command {
    let mut command = Command::new("cc");
    command.args(STRICT).arg("-I").arg(repository().join("include"));
    command
}

/// Runs a command to its end, which must be a good one.
fn done(command: &mut Command) {
    let output =
        command.output().unwrap_or_else(|error| panic!("{command:?} did not run: {error}"));
    let said = String::from_utf8_lossy(&output.stderr);
    assert!(output.status.success(), "{command:?} failed:\n{said}");
}
