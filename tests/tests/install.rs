//! What `make install` puts below a prefix: all of it, and programs that are built from there alone.

mod installed;
mod programs;
mod scratch;

use installed::{install, make, prefix, BUILT};
use programs::{printed, repository, C, CPP};
use scratch::{files_below, Scratch};
use std::fs;
use std::path::{Path, PathBuf};
use std::process::Command;

const HEADERS: [&str; 3] = ["razidkot.h", "razidkot_client.h", "razidkot_status.h"];
const PAGES: [(&str, &str); 2] = [
    ("razidkot.h", "razidkot.3"),
    ("razidkot_client.h", "razidkot_client.3"),
];
fn read(path: PathBuf) -> String {
    fs::read_to_string(&path).unwrap_or_else(|error| panic!("{}: {error}", path.display()))
}

// ---- The files

/// The functions that a header declares, each with its declaration, blanks evened out.
fn declarations(header: &str) -> Vec<(String, String)> {
    let text = read(repository().join("include").join(header));
    let declared = text.split("\n\n").filter_map(|part| {
        let code = part.rsplit("*/\n").next()?;
        let (front, _) = code.split_once('(')?;
        let (kind, name) = front.split_once(' ')?;
        let is_function = name.starts_with("razidkot_") && !kind.starts_with(['#', '/', ' ']);
        is_function.then(|| (name.to_string(), even(code)))
    });
    declared.collect()
}

fn even(text: &str) -> String {
    text.split_whitespace().collect::<Vec<_>>().join(" ")
}

fn expected_files() -> Vec<String> {
    let mut files = ["razidkot-bill", "razidkot-audit"]
        .map(|name| format!("share/man/man1/{name}.1"))
        .to_vec();
    files.extend(BUILT.map(|(_, installed)| installed.to_string()));
    files.extend(HEADERS.map(|header| format!("include/{header}")));
    files.extend(["razidkot", "razidkot-client"].map(|name| format!("lib/pkgconfig/{name}.pc")));
    for (header, page) in PAGES {
        files.push(format!("share/man/man3/{page}"));
        let functions = declarations(header).into_iter();
        files.extend(functions.map(|(name, _)| format!("share/man/man3/{name}.3")));
    }
    files.sort();
    files
}

#[test]
fn install_and_uninstall_have_the_same_files() {
    let scratch = Scratch::new("files");
    install(scratch.path());
    assert_eq!(files_below(scratch.path()), expected_files());
    for (built, installed) in BUILT {
        let bytes = |path: PathBuf| fs::read(path).expect("a file that ./prove wrote");
        let same = bytes(repository().join(built)) == bytes(scratch.path().join(installed));
        assert!(same, "{installed} is not {built}");
    }
    make(&["uninstall".to_string(), prefix(scratch.path())]);
    assert_eq!(files_below(scratch.path()), [""; 0]);
}

#[test]
fn a_staged_installation_names_the_prefix_alone() {
    let scratch = Scratch::new("staged");
    let destdir = format!("DESTDIR={}", scratch.path().display());
    let stage = |what: &str| make(&[what.to_string(), destdir.clone(), "PREFIX=/opt/keys".into()]);
    stage("install");
    assert_eq!(
        files_below(&scratch.path().join("opt/keys")),
        expected_files()
    );
    assert_eq!(files_below(scratch.path()).len(), expected_files().len());
    let file = scratch.path().join("opt/keys/lib/pkgconfig/razidkot.pc");
    let text = read(file);
    assert!(text.starts_with("prefix=/opt/keys\n"), "{text}");
    assert!(!text.contains(scratch.path().to_str().expect("UTF-8")));
    stage("uninstall");
    assert_eq!(files_below(scratch.path()), [""; 0]);
}

#[test]
fn a_prefix_that_is_not_absolute_is_refused() {
    let mut make = Command::new("make");
    make.current_dir(repository())
        .args(["--silent", "uninstall", "PREFIX=here"]);
    let output = make.output().expect("make");
    assert!(!output.status.success());
    assert!(String::from_utf8_lossy(&output.stderr).contains("PREFIX has to begin with /"));
}

#[test]
fn the_installed_program_prints_the_samples_bills() {
    let scratch = Scratch::new("program");
    install(scratch.path());
    let samples = repository().join("samples");
    for name in ["day", "closed", "shipped"] {
        let mut bill = Command::new(scratch.path().join("bin/razidkot-bill"));
        bill.arg(samples.join("servers.roster"))
            .arg(samples.join(format!("{name}.stream")))
            .arg(samples.join("servers.list"));
        let expected = read(samples.join(format!("{name}.bill")));
        assert_eq!(printed(&mut bill), expected);
    }
}

/// What the rules answer to a sample is accepted, and with a byte changed it is not.
#[test]
fn the_installed_auditor_has_the_verdict_and_the_bill() {
    let scratch = Scratch::new("auditor");
    install(scratch.path());
    let samples = repository().join("samples");
    let file = |name: &str| fs::read(samples.join(name)).expect("a sample");
    let [roster, list, requests] = ["servers.roster", "servers.list", "day.stream"].map(file);
    let mut registry = vec![0; reference::REGISTRY_SIZE];
    reference::load_roster(&roster, &mut registry).expect("a good roster");
    let outcome = reference::rules::run_with_list(&registry, &list, &requests);
    let mut responses = outcome.responses.concat();
    let captured = scratch.path().join("responses");
    for verdict in ["accepted", "wrong 1 24"] {
        fs::write(&captured, &responses).expect("a folder");
        let mut audit = Command::new(scratch.path().join("bin/razidkot-audit"));
        audit
            .args(["servers.roster", "servers.list"].map(|name| samples.join(name)))
            .arg("/dev/null")
            .arg(samples.join("day.stream"))
            .arg(&captured);
        let bill = read(samples.join("day.bill"));
        assert_eq!(printed(&mut audit), format!("{verdict}\n{bill}"));
        responses[24] ^= 1;
    }
}

// ---- The version

fn pkg_config(installed: &Path, words: &[&str]) -> String {
    let mut command = Command::new("pkg-config");
    command
        .env("PKG_CONFIG_LIBDIR", installed.join("lib/pkgconfig"))
        .env_remove("PKG_CONFIG_PATH")
        .args(words);
    printed(&mut command).trim().to_string()
}

/// The value of a macro that the header, which includes the one with the version, has.
fn version_by(header: &str) -> String {
    let scratch = Scratch::new(&format!("version-{header}"));
    let source = format!(
        "#include \"{header}\"\n#include <stdio.h>\n\
         int main(void) {{ printf(\"%d.%d.%d %s\", RAZIDKOT_VERSION_MAJOR, RAZIDKOT_VERSION_MINOR, \
         RAZIDKOT_VERSION_PATCH, RAZIDKOT_VERSION); return 0; }}\n"
    );
    scratch.write("version.c", &source);
    // A program that is named as a header would be included for it.
    let name = format!("version-by-{header}");
    let program = programs::compile(C, &scratch.path().join("version.c"), &[], &name);
    let text = printed(&mut Command::new(program));
    let (numbers, string) = text.split_once(' ').expect("two versions");
    assert_eq!(numbers, string, "{header}");
    string.to_string()
}

/// The packages of the workspace, each with its version.
fn packages() -> Vec<(String, String)> {
    let workspace = read(repository().join("Cargo.toml"));
    let members = workspace.split("members = [").nth(1).expect("members");
    let members = members.split(']').next().expect("the members' end");
    let folders = members.split('"').skip(1).step_by(2);
    let version = |folder: &str| {
        let text = read(repository().join(folder).join("Cargo.toml"));
        let line = text
            .lines()
            .find_map(|line| line.strip_prefix("version = "));
        line.expect("a version").trim_matches('"').to_string()
    };
    folders
        .map(|folder| (folder.to_string(), version(folder)))
        .collect()
}

#[test]
fn there_is_one_version() {
    let version = version_by("razidkot_status.h");
    for header in ["razidkot.h", "razidkot_client.h"] {
        assert_eq!(version_by(header), version, "{header}");
    }
    let packages = packages();
    assert!(packages.len() >= 9, "{packages:?}");
    for (folder, its) in packages {
        assert_eq!(its, version, "{folder}/Cargo.toml");
    }
    let scratch = Scratch::new("versions");
    install(scratch.path());
    for name in ["razidkot", "razidkot-client"] {
        let its = pkg_config(scratch.path(), &["--modversion", name]);
        assert_eq!(its, version, "{name}.pc");
    }
    let changes = read(repository().join("CHANGELOG.md"));
    assert!(
        changes.contains(&format!("\n## {version}\n")),
        "CHANGELOG.md"
    );
}

// ---- The examples, built from what is installed

const SANITIZED: [&str; 3] = [
    "-g",
    "-fsanitize=address,undefined",
    "-fno-sanitize-recover=all",
];

/// Builds an example with what pkg-config says of these packages, every warning an error, and
/// compares what it prints.
fn expect_example(name: &str, packages: &[&str], expected: &str) {
    let scratch = Scratch::new(name);
    install(scratch.path());
    let flags = pkg_config(
        scratch.path(),
        &[&["--cflags", "--libs"], packages].concat(),
    );
    let source = repository().join(format!("examples/c/{name}.c"));
    for [compiler, language @ ..] in [C, CPP] {
        for checks in [&[][..], &SANITIZED] {
            let program = scratch.path().join("program");
            let mut command = Command::new(compiler);
            command
                .current_dir(scratch.path())
                .args(["-Wall", "-Wextra", "-pedantic", "-Werror"])
                .args(checks)
                .args(language)
                .arg(&source)
                .args(["-xnone", "-o"])
                .arg(&program)
                .args(flags.split(' '));
            assert_eq!(printed(&mut command), "");
            let text = printed(&mut Command::new(&program));
            assert_eq!(text, expected, "{compiler} {checks:?}");
        }
    }
}

#[test]
fn the_service_builds_from_what_is_installed() {
    let expected = include_str!("../../examples/expected.txt");
    expect_example("keys", &["razidkot"], expected);
}

#[test]
fn the_client_builds_from_what_is_installed() {
    let expected = include_str!("../../examples/client-expected.txt");
    expect_example("client", &["razidkot-client", "razidkot"], expected);
}

// ---- The pages

#[test]
fn the_pages_have_each_function_as_its_header_declares_it() {
    for ((header, page), least) in PAGES.into_iter().zip([7, 9]) {
        let declared = declarations(header);
        assert!(declared.len() >= least, "{header}: {declared:?}");
        let text = even(&read(repository().join("man").join(page)));
        let names = text.split(" \\- ").next().expect("the names");
        for (name, declaration) in declared {
            let named = names.split([' ', ',']).any(|word| word == name);
            assert!(named, "{page} does not name {name}");
            let said = text.contains(&declaration);
            assert!(said, "{page} does not have {declaration}");
        }
    }
}

/// Constants that a page names and its header does not have would be of another version.
#[test]
fn the_pages_name_constants_of_the_headers_alone() {
    let headers = HEADERS.map(|header| read(repository().join("include").join(header)));
    let words = headers.concat();
    let words: Vec<&str> = words
        .split(|c: char| c != '_' && !c.is_alphanumeric())
        .collect();
    for (_, page) in PAGES {
        let text = read(repository().join("man").join(page));
        let named = text.split(|c: char| c != '_' && !c.is_ascii_uppercase());
        let named: Vec<&str> = named.filter(|word| word.starts_with("RAZIDKOT_")).collect();
        assert!(named.len() >= 10, "{page}: {named:?}");
        for constant in named.into_iter().filter(|name| *name != "RAZIDKOT_CLIENT") {
            assert!(words.contains(&constant), "{page}: {constant}");
        }
    }
}

#[test]
fn man_shows_every_installed_page_without_a_warning() {
    let scratch = Scratch::new("pages");
    install(scratch.path());
    let mut shown = 0;
    for file in files_below(&scratch.path().join("share/man")) {
        let mut man = Command::new("man");
        man.current_dir(scratch.path().join("share/man"))
            .env("LC_ALL", "C.UTF-8")
            .env("MANWIDTH", "80")
            .args(["--warnings", "--local-file", "--pager=cat"])
            .arg(&file);
        let name = file.split('/').next_back().expect("a name");
        let name = &name[..name.len() - ".3".len()];
        assert!(printed(&mut man).contains(name), "{file}");
        shown += 1;
    }
    assert_eq!(shown, 24);
}
