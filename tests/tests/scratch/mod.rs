//! A folder outside the repository, removed with all that is in it when the test is over.
// Each test file has need of some of it.
#![allow(dead_code)]

use std::fs;
use std::path::{Path, PathBuf};
use std::process;

pub struct Scratch(PathBuf);

impl Scratch {
    /// Tests run at the same time: each has a name of its own.
    pub fn new(test: &str) -> Scratch {
        let name = format!("razidkot-{test}-{}", process::id());
        let folder = std::env::temp_dir().join(name);
        fs::create_dir(&folder).expect("a folder for scratch files");
        Scratch(folder)
    }

    pub fn path(&self) -> &Path {
        &self.0
    }

    /// A file below the folder.
    pub fn write(&self, name: &str, text: &str) {
        let file = self.0.join(name);
        fs::create_dir_all(file.parent().expect("a folder")).expect("a folder");
        fs::write(file, text).expect("a scratch file");
    }
}

impl Drop for Scratch {
    fn drop(&mut self) {
        // What is left of a folder that can't be removed fails no test.
        let _ = fs::remove_dir_all(&self.0);
    }
}

/// Every file below a folder, by its path from there, in order.
pub fn files_below(folder: &Path) -> Vec<String> {
    let mut files = Vec::new();
    let mut folders = vec![folder.to_path_buf()];
    while let Some(next) = folders.pop() {
        for entry in fs::read_dir(&next).expect("a folder") {
            let path = entry.expect("an entry").path();
            if path.is_dir() {
                folders.push(path);
                continue;
            }
            let below = path.strip_prefix(folder).expect("a path below the folder");
            files.push(below.to_str().expect("a name in UTF-8").to_string());
        }
    }
    files.sort();
    files
}
