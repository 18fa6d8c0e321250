//! Programs compiled and run by the tests of what embeds the archives.
// Each test file has need of some of it.
#![allow(dead_code)]

use std::path::{Path, PathBuf};
use std::process::Command;

pub const C: [&str; 3] = ["cc", "-xc", "-std=c99"];
pub const CPP: [&str; 3] = ["c++", "-xc++", "-std=c++11"];

pub fn repository() -> &'static Path {
    Path::new(concat!(env!("CARGO_MANIFEST_DIR"), "/.."))
}

/// What it prints; its status is 0 and it complains of nothing.
pub fn printed(command: &mut Command) -> String {
    let output = command.output().expect("a command that can be run");
    let text = |bytes| String::from_utf8(bytes).expect("text");
    let (out, err) = (text(output.stdout), text(output.stderr));
    assert!(output.status.success(), "{command:?}: {out}{err}");
    assert_eq!(err, "", "{command:?}");
    out
}

/// Compiles a program as the headers say, with every warning an error, and links these archives
/// alone. Tests run at the same time: each has a name of its own for the program.
pub fn compile(language: [&str; 3], source: &Path, archives: &[&str], name: &str) -> PathBuf {
    let program = Path::new(env!("CARGO_TARGET_TMPDIR")).join(name);
    let [compiler, flags @ ..] = language;
    let mut command = Command::new(compiler);
    command
        .current_dir(repository())
        .args(["-Wall", "-Wextra", "-pedantic", "-Werror", "-Iinclude"])
        .arg("-o")
        .arg(&program)
        .args(flags)
        .arg(source)
        .arg("-xnone");
    for archive in archives {
        command.arg(format!("target/staticlib/lib{archive}.a"));
    }
    assert_eq!(printed(&mut command), "");
    program
}

/// What a program of the workspace prints.
pub fn printed_by_package(package: &str) -> String {
    let mut cargo = Command::new(env!("CARGO"));
    cargo
        .current_dir(repository())
        .args(["run", "--quiet", "--offline", "-p", package]);
    printed(&mut cargo)
}
