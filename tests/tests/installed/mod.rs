//! `make install` and `make uninstall`, on what `./prove` has built.
// Each test file has need of some of it.
#![allow(dead_code)]

use super::programs::{printed, repository};
use std::path::Path;
use std::process::Command;

/// Where each file that `./prove` writes is installed.
pub const BUILT: [(&str, &str); 4] = [
    ("target/staticlib/libabi.a", "lib/librazidkot.a"),
    (
        "target/staticlib/libclient_abi.a",
        "lib/librazidkot_client.a",
    ),
    ("target/bin/bill", "bin/razidkot-bill"),
    ("target/bin/audit_program", "bin/razidkot-audit"),
];

/// `make` with these words, on what `./prove` has built, whatever its age.
pub fn make(words: &[String]) {
    let mut make = Command::new("make");
    make.current_dir(repository()).arg("--silent").args(words);
    for (built, _) in BUILT {
        make.args(["-o", built]);
    }
    // A make that runs the tests hands its own flags down.
    make.env_remove("MAKEFLAGS").env_remove("MAKELEVEL");
    assert_eq!(printed(&mut make), "");
}

pub fn prefix(folder: &Path) -> String {
    format!("PREFIX={}", folder.display())
}

pub fn install(folder: &Path) {
    make(&["install".to_string(), prefix(folder)]);
}
