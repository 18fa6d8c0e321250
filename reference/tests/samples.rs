//! The bills of the sample streams. `samples/make.py` counts the same bills by itself.
//! Document 01, "The bill"; document 02, "Keys we ship".

use reference::bill;
use std::fs;
use std::path::{Path, PathBuf};

fn sample(name: &str) -> PathBuf {
    Path::new(env!("CARGO_MANIFEST_DIR"))
        .join("../samples")
        .join(name)
}

fn read(name: &str) -> Vec<u8> {
    fs::read(sample(name)).expect("a sample")
}

fn expect_bill(name: &str) {
    let roster = read("servers.roster");
    let stream = read(&format!("{name}.stream"));
    let text = bill(Some(&roster), Some(&stream), Some(&read("servers.list")));
    let expected = read(&format!("{name}.bill"));
    assert_eq!(
        String::from_utf8(text).unwrap(),
        String::from_utf8(expected).unwrap()
    );
}

#[test]
fn a_day_with_every_operation_and_a_held_rest() {
    expect_bill("day");
}

#[test]
fn what_is_asked_of_listed_keys() {
    expect_bill("shipped");
}

#[test]
fn a_stream_that_closes_the_connection() {
    expect_bill("closed");
}
