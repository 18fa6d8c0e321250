//! The code in README.md and docs/INTEGRATOR.md: each C program compiles as it stands there, and no
//! block escapes its test. Those in Rust are tests of the documentation (src/lib.rs).

mod programs;
mod scratch;

use programs::{printed, repository, C};
use scratch::Scratch;
use std::fs;
use std::path::Path;
use std::process::Command;

const DOCUMENTS: [&str; 2] = ["README.md", "docs/INTEGRATOR.md"];
const FENCE: &str = "```";

struct Block {
    language: String,
    text: String,
}

fn read(path: &Path) -> String {
    fs::read_to_string(path).unwrap_or_else(|error| panic!("{}: {error}", path.display()))
}

/// The blocks between fences; one in a list is as far to the right as its fence.
fn blocks(document: &str) -> Vec<Block> {
    let mut blocks = Vec::new();
    let mut lines = document.lines();
    while let Some(line) = lines.next() {
        let Some((margin, language)) = line.split_once(FENCE) else {
            continue;
        };
        let end = format!("{margin}{FENCE}");
        let inside = lines.by_ref().take_while(|line| *line != end);
        let inside = inside.map(|line| line.strip_prefix(margin).unwrap_or(line));
        blocks.push(Block {
            language: language.to_string(),
            text: inside.collect::<Vec<_>>().join("\n") + "\n",
        });
    }
    blocks
}

/// What a document has of a language.
fn texts_in(document: &str, language: &str) -> Vec<String> {
    let blocks = blocks(&read(&repository().join(document))).into_iter();
    blocks
        .filter(|block| block.language == language)
        .map(|block| block.text)
        .collect()
}

/// The C programs of a document: a block that begins with no header goes on from the one before.
fn programs_in(document: &str) -> Vec<String> {
    let mut programs: Vec<String> = Vec::new();
    for text in texts_in(document, "c") {
        match programs.last_mut() {
            Some(program) if !text.starts_with("#include") => *program += &text,
            _ => programs.push(text),
        }
    }
    programs
}

fn compile_alone(source: &Path) {
    let [compiler, flags @ ..] = C;
    let mut command = Command::new(compiler);
    command
        .current_dir(repository())
        .args(["-Wall", "-Wextra", "-pedantic", "-Werror", "-Iinclude"])
        .args(flags)
        .args(["-c", "-o"])
        .arg(source.with_extension("o"))
        .arg(source);
    assert_eq!(printed(&mut command), "");
}

#[test]
fn the_c_of_each_document_compiles_as_it_stands() {
    let scratch = Scratch::new("documents");
    for document in DOCUMENTS {
        let programs = programs_in(document);
        let heads = programs.iter().map(|text| text.lines().next());
        let heads: Vec<_> = heads.map(|line| line.expect("a line")).collect();
        let both = ["#include \"razidkot.h\"", "#include \"razidkot_client.h\""];
        assert_eq!(heads, both, "{document}: the service's and the client's");
        for (number, program) in programs.iter().enumerate() {
            let name = format!("{}-{number}.c", document.replace('/', "-"));
            scratch.write(&name, program);
            compile_alone(&scratch.path().join(name));
        }
    }
}

/// A block of another language would not be tested, and rustdoc takes an indented one for Rust.
#[test]
fn every_block_is_of_a_language_that_is_known() {
    for document in DOCUMENTS {
        let mut of_rust = 0;
        for Block { language, text } in blocks(&read(&repository().join(document))) {
            let known = ["c", "console", "mermaid", "rust", "sh"].contains(&language.as_str());
            assert!(known, "{document}: {language:?}\n{text}");
            of_rust += usize::from(language == "rust");
        }
        assert_eq!(of_rust, 2, "{document}: the service's and the client's");
    }
}

/// What README's C does, and not only that it compiles: sample streams are served, the rest held.
#[test]
fn readmes_service_serves_the_samples() {
    let scratch = Scratch::new("readme-service");
    let program = programs_in("README.md").swap_remove(0);
    scratch.write(
        "served.c",
        &(program + include_str!("../c/readme_service.c")),
    );
    let source = scratch.path().join("served.c");
    let program = programs::compile(C, &source, &["abi"], "readme-service");
    let samples = repository().join("samples");
    for name in ["day", "shipped"] {
        let mut served = Command::new(&program);
        served
            .arg(samples.join("servers.roster"))
            .arg(samples.join(format!("{name}.stream")))
            .arg(samples.join("servers.list"));
        let expected = read(&samples.join(format!("{name}.bill")));
        assert_eq!(printed(&mut served), expected);
    }
    // An ill-formed list: a roster is tagged so, and has no data behind its names.
    let mut served = Command::new(&program);
    let roster = samples.join("servers.roster");
    served.args([&roster, &samples.join("day.stream"), &roster]);
    let output = served.output().expect("a program that can be run");
    assert!(!output.status.success());
    assert_eq!(String::from_utf8_lossy(&output.stderr), "not started\n");
}
