//! The C header and the programs under examples/: they compile, run and print what is expected.

mod programs;

use programs::{compile, printed, printed_by_package, C};
use std::path::Path;
use std::process::Command;

const EXPECTED: &str = include_str!("../../examples/expected.txt");

#[test]
fn the_c_example_prints_what_is_expected() {
    let program = compile(C, Path::new("examples/c/keys.c"), &["abi"], "keys");
    assert_eq!(printed(&mut Command::new(program)), EXPECTED);
}

#[test]
fn the_rust_example_prints_what_is_expected() {
    assert_eq!(printed_by_package("razidkot-example"), EXPECTED);
}

#[test]
fn the_header_holds_of_the_archive() {
    let program = compile(C, Path::new("tests/c/interface.c"), &["abi"], "interface");
    assert_eq!(printed(&mut Command::new(program)), "");
}
