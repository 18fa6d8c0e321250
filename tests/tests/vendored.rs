//! The Rust crates as a vendored copy: out of the repository, with the archives found by
//! `RAZIDKOT_LIB_DIR` or by pkg-config, and what they say where neither has them.

mod installed;
mod programs;
mod scratch;

use installed::install;
use programs::{printed, repository};
use scratch::{files_below, Scratch};
use std::fs;
use std::path::{Path, PathBuf};
use std::process::{Command, Output};

const CRATES: [&str; 3] = ["rust", "rust-client", "rust-status"];
const EXPECTED: &str = include_str!("../../examples/client-expected.txt");

fn copy_folder(from: &Path, to: &Path) {
    for file in files_below(from) {
        let copy = to.join(&file);
        fs::create_dir_all(copy.parent().expect("a folder")).expect("a folder");
        fs::copy(from.join(file), copy).expect("a copied file");
    }
}

/// A package with the Rust client's example as its program and the crates below `vendor/`.
fn vendored(test: &str) -> Scratch {
    let scratch = Scratch::new(test);
    for name in CRATES {
        let from = repository().join("bindings").join(name);
        copy_folder(&from, &scratch.path().join("vendor").join(name));
    }
    let example = repository().join("examples/rust-client/src");
    copy_folder(&example, &scratch.path().join("src"));
    scratch.write(
        "Cargo.toml",
        "[package]\nname = \"consumer\"\nversion = \"1.0.0\"\nedition = \"2021\"\n\n\
         [dependencies]\nrazidkot = { path = \"vendor/rust\" }\n\
         razidkot-client = { path = \"vendor/rust-client\" }\n\n[workspace]\n",
    );
    scratch
}

/// Runs the package with no archive to be found but by what the test adds.
fn run(package: &Scratch) -> Command {
    let mut cargo = Command::new(env!("CARGO"));
    cargo
        .current_dir(package.path())
        .args(["run", "--quiet", "--offline"])
        .env("CARGO_TARGET_DIR", package.path().join("built"))
        .env("PKG_CONFIG_LIBDIR", package.path().join("nothing"))
        .env_remove("PKG_CONFIG_PATH")
        .env_remove("PKG_CONFIG")
        .env_remove("RAZIDKOT_LIB_DIR");
    cargo
}

/// An installation in a folder of the package.
fn with_installed(package: &Scratch) -> PathBuf {
    let folder = package.path().join("installed");
    install(&folder);
    folder
}

/// Text of a pkg-config file for each crate, of that version, with the archives in that folder.
fn with_pc_files(package: &Scratch, version: &str, libdir: &Path) -> PathBuf {
    for name in ["razidkot", "razidkot-client"] {
        let text = fs::read_to_string(repository().join(format!("pkgconfig/{name}.pc.in")));
        let text = text.expect("a template").replace("@VERSION@", version);
        let text = text.replace("@LIBDIR@", libdir.to_str().expect("UTF-8"));
        package.write(&format!("pc/{name}.pc"), &text);
    }
    package.path().join("pc")
}

fn expect_refused(command: &mut Command, words: &[&str]) {
    let Output { status, stderr, .. } = command.output().expect("cargo");
    let said = String::from_utf8_lossy(&stderr);
    assert!(!status.success(), "{said}");
    for word in words {
        assert!(said.contains(word), "{word:?} is not in: {said}");
    }
}

#[test]
fn the_crates_build_with_the_folder_of_the_installed_archives() {
    let package = vendored("lib-dir");
    let folder = with_installed(&package).join("lib");
    let text = printed(run(&package).env("RAZIDKOT_LIB_DIR", folder));
    assert_eq!(text, EXPECTED);
}

#[test]
fn the_crates_build_with_the_folder_that_rt_writes_to() {
    let package = vendored("rt-dir");
    let folder = repository().join("target/staticlib");
    let text = printed(run(&package).env("RAZIDKOT_LIB_DIR", folder));
    assert_eq!(text, EXPECTED);
}

#[test]
fn the_crates_build_with_pkg_config() {
    let package = vendored("pkg-config");
    let files = with_installed(&package).join("lib/pkgconfig");
    let text = printed(run(&package).env("PKG_CONFIG_LIBDIR", files));
    assert_eq!(text, EXPECTED);
}

#[test]
fn a_crate_whose_archive_is_nowhere_says_how_it_is_found() {
    let package = vendored("nowhere");
    let how = ["RAZIDKOT_LIB_DIR", "make install", "pkg-config"];
    expect_refused(&mut run(&package), &how);
    let nothing = package.path().join("nothing");
    expect_refused(
        run(&package).env("RAZIDKOT_LIB_DIR", &nothing),
        &["RAZIDKOT_LIB_DIR is ", "where neither librazidkot"],
    );
    expect_refused(
        run(&package).env("RAZIDKOT_LIB_DIR", "archives"),
        &["RAZIDKOT_LIB_DIR has to begin with /"],
    );
    expect_refused(
        run(&package).env("PKG_CONFIG", "no-such-program"),
        &["no-such-program", "RAZIDKOT_LIB_DIR"],
    );
}

#[test]
fn an_archive_of_another_version_is_not_linked() {
    let package = vendored("version");
    let libdir = with_installed(&package).join("lib");
    let files = with_pc_files(&package, "99.0.0", &libdir);
    expect_refused(
        run(&package).env("PKG_CONFIG_LIBDIR", files),
        &["has version '99.0.0'", "RAZIDKOT_LIB_DIR"],
    );
}

#[test]
fn an_installed_package_without_its_archive_is_refused() {
    let package = vendored("no-archive");
    let files = with_pc_files(&package, env!("CARGO_PKG_VERSION"), package.path());
    expect_refused(
        run(&package).env("PKG_CONFIG_LIBDIR", files),
        &["it is not in ", "RAZIDKOT_LIB_DIR"],
    );
}

#[test]
fn both_crates_have_one_build_script() {
    let [service, client] = ["rust", "rust-client"].map(|name| {
        let file = repository().join("bindings").join(name).join("build.rs");
        fs::read_to_string(file).expect("a build script")
    });
    assert_eq!(service, client);
}
