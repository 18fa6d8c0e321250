//! The page's text: tables, fenced blocks, and the lines of a block.

use super::Fault;
use std::fs;
use std::path::Path;

pub fn repository_file(name: &str) -> String {
    let path = Path::new(concat!(env!("CARGO_MANIFEST_DIR"), "/..")).join(name);
    fs::read_to_string(&path).unwrap_or_else(|error| panic!("{name}: {error}"))
}

pub fn page() -> String {
    repository_file("docs/PROTOCOL.md")
}

// ---- Tables

fn cells(row: &str) -> Vec<String> {
    let inner = row.trim_start_matches('|').trim_end_matches('|');
    inner.split('|').map(|cell| cell.trim().into()).collect()
}

/// The rows of the first table below a heading that has these columns.
pub fn table(page: &str, heading: &str, columns: &str) -> Vec<Vec<String>> {
    let mut lines = page.lines().skip_while(|line| *line != heading);
    assert!(lines.next().is_some(), "no heading {heading}");
    let mut lines = lines.skip_while(|line| *line != columns);
    assert!(lines.next().is_some(), "no table {columns}");
    let rows = lines.skip(1).take_while(|line| line.starts_with('|'));
    let rows: Vec<Vec<String>> = rows.map(cells).collect();
    assert!(!rows.is_empty(), "an empty table {columns}");
    rows
}

/// A number with commas between thousands, or without.
pub fn number(text: &str) -> u64 {
    let digits = text.replace(',', "");
    digits
        .parse()
        .unwrap_or_else(|_| panic!("{text}: a number"))
}

// ---- Examples

/// A fenced block of the page.
#[derive(Clone)]
pub struct Example {
    pub title: String,
    pub lines: Vec<String>,
}

/// Every fenced block. One that is no example, or has no end, is a fault: it would not be played.
pub fn examples(page: &str) -> Result<Vec<Example>, Fault> {
    let mut examples = Vec::new();
    let mut lines = page.lines();
    while let Some(line) = lines.next() {
        let Some(fence) = line.trim_start().strip_prefix("```") else {
            continue;
        };
        let title = fence.strip_prefix("example ");
        let title = title.ok_or(format!("a block that is no example: {line}"))?;
        let mut block = Vec::new();
        loop {
            match lines.next() {
                Some("```") => break,
                Some(line) => block.push(line.to_string()),
                None => return Err(format!("{title}: no end")),
            }
        }
        examples.push(Example {
            title: title.to_string(),
            lines: block,
        });
    }
    Ok(examples)
}

const NAMES_BYTES: &str = "bytes ";

/// The example with bytes in the place of the names that its `bytes` give them.
pub fn without_names(example: &Example) -> Result<Example, Fault> {
    let mut named: Vec<(&str, String)> = Vec::new();
    let mut lines = Vec::new();
    for step in steps(example)? {
        let Some(name) = step.says.strip_prefix(NAMES_BYTES) else {
            lines.push(said_with(&named, step.says));
            lines.extend(step.lines.iter().map(|line| line_with(&named, line)));
            continue;
        };
        let mut digits = Vec::new();
        for line in &step.lines {
            let bytes = line_of(line)?.bytes;
            digits.extend(bytes.iter().map(|byte| format!("{byte:02X}")));
        }
        named.push((name, digits.join(" ")));
    }
    let title = example.title.clone();
    Ok(Example { title, lines })
}

/// Parts of a request in words, such as `data KEY`.
fn said_with(named: &[(&str, String)], says: &str) -> String {
    let part = |part: &str| {
        let value = part.split_once(' ').map_or("", |(_, value)| value);
        match named.iter().find(|(name, _)| *name == value) {
            Some((name, digits)) => part.replace(name, digits),
            None => part.to_string(),
        }
    };
    says.split(", ").map(part).collect::<Vec<_>>().join(", ")
}

/// A line of bytes, which may be a name's.
fn line_with(named: &[(&str, String)], line: &str) -> String {
    let is_named = |(name, _): &&(&str, String)| {
        line.split_once("  ")
            .is_some_and(|(bytes, _)| bytes == *name)
    };
    let line = match named.iter().find(is_named) {
        Some((name, digits)) => line.replacen(name, digits, 1),
        None => line.to_string(),
    };
    format!("  {line}")
}

/// What an example says, and the indented lines below it.
pub struct Step<'a> {
    pub says: &'a str,
    pub lines: Vec<&'a str>,
}

pub fn steps(example: &Example) -> Result<Vec<Step<'_>>, Fault> {
    let mut steps: Vec<Step> = Vec::new();
    for line in &example.lines {
        match (line.strip_prefix("  "), steps.last_mut()) {
            (None, _) => steps.push(Step {
                says: line,
                lines: Vec::new(),
            }),
            (Some(below), Some(step)) => step.lines.push(below),
            (Some(_), None) => return Err(format!("nothing says what this is: {line}")),
        }
    }
    Ok(steps)
}

/// A line of bytes: they, and what is said of them.
pub struct Line<'a> {
    pub bytes: Vec<u8>,
    pub label: &'a str,
}

fn hexadecimal(text: &str) -> Result<Vec<u8>, Fault> {
    let pair = |pair: &str| match pair.len() {
        2 => u8::from_str_radix(pair, 16).map_err(|_| format!("{pair}: no byte")),
        _ => Err(format!("{pair}: no byte")),
    };
    text.split_whitespace().map(pair).collect()
}

/// `0A 01 61`, or `61 x 4096` for one byte so many times.
pub fn bytes_of(text: &str) -> Result<Vec<u8>, Fault> {
    let Some((byte, count)) = text.split_once(" x ") else {
        return hexadecimal(text);
    };
    let count = count
        .trim()
        .parse()
        .map_err(|_| format!("{text}: how many?"))?;
    Ok(hexadecimal(byte)?.repeat(count))
}

pub fn line_of(text: &str) -> Result<Line<'_>, Fault> {
    let (bytes, label) = text.split_once("  ").ok_or(format!("no label: {text}"))?;
    Ok(Line {
        bytes: bytes_of(bytes)?,
        label: label.trim(),
    })
}
