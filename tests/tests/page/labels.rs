//! The labels beside a message's bytes: in a header, the fields of the page's table with their
//! values; behind it, which part the bytes belong to.

use super::text::{table, Line};
use super::Fault;
use razidkot::Status;
use razidkot_client::{Opcode, Provider};

/// A row of a header's table.
pub struct Field {
    pub at: usize,
    pub size: usize,
    pub name: String,
}

pub fn header_fields(page: &str, heading: &str) -> Vec<Field> {
    let rows = table(page, heading, "| Offset | Bytes | Field | Holds |");
    let field = |row: &Vec<String>| Field {
        at: row[0].parse().expect("an offset"),
        size: row[1].parse().expect("a size"),
        name: row[2].clone(),
    };
    rows.iter().map(field).collect()
}

/// The tables of both headers.
pub struct Headers {
    pub request: Vec<Field>,
    pub response: Vec<Field>,
}

impl Headers {
    pub fn of(page: &str) -> Headers {
        Headers {
            request: header_fields(page, "## The request"),
            response: header_fields(page, "## The response"),
        }
    }
}

fn little_endian(bytes: &[u8]) -> u64 {
    let digits = bytes.iter().rev();
    digits.fold(0, |value, &byte| value << 8 | u64::from(byte))
}

/// A provider as the page writes it: `0 core`.
pub fn provider_text(number: u64) -> String {
    let provider = u32::try_from(number).ok().and_then(Provider::from_number);
    let name = provider.map(|case| format!(" {case:?}").to_lowercase());
    format!("{number}{}", name.unwrap_or_default())
}

fn opcode_text(number: u64) -> String {
    let opcode = u32::try_from(number).ok().and_then(Opcode::from_number);
    let name = opcode.map(|case| format!(" {case:?}"));
    format!("{number}{}", name.unwrap_or_default())
}

fn status_text(number: u64) -> String {
    let status = u16::try_from(number).ok().and_then(Status::from_number);
    let name = status.map(|case| format!(" {case:?}"));
    format!("{number}{}", name.unwrap_or_default())
}

impl Field {
    fn label(&self, value: u64) -> String {
        let value = match self.name.as_str() {
            "magic" => format!("0x{value:08X}"),
            "provider" => provider_text(value),
            "opcode" => opcode_text(value),
            "status" => status_text(value),
            _ => value.to_string(),
        };
        format!("{} {value}", self.name)
    }

    pub fn value(&self, message: &[u8]) -> Option<u64> {
        let bytes = message.get(self.at..self.at + self.size)?;
        Some(little_endian(bytes))
    }
}

/// What must stand beside the bytes from `at` to `end`.
fn header_label(fields: &[Field], message: &[u8], at: usize, end: usize) -> Option<String> {
    let here = fields.iter().filter(|field| (at..end).contains(&field.at));
    let within = here.clone().all(|field| field.at + field.size <= end);
    let labels: Option<Vec<String>> = here
        .map(|field| field.value(message).map(|value| field.label(value)))
        .collect();
    labels.filter(|_| within).map(|labels| labels.join(", "))
}

/// A field's value, 0 if the message is cut before it or has none.
fn value_of(fields: &[Field], name: &str, message: &[u8]) -> usize {
    let field = fields.iter().find(|field| field.name == name);
    field.and_then(|field| field.value(message)).unwrap_or(0) as usize
}

/// The parts of a message behind its known header, and where each ends.
fn parts(fields: &[Field], message: &[u8]) -> [(&'static str, usize); 3] {
    let ignored = 6 + value_of(fields, "header size", message);
    let body = ignored + value_of(fields, "content length", message);
    let auth = body + value_of(fields, "auth length", message);
    [("ignored: ", ignored), ("body: ", body), ("auth: ", auth)]
}

fn part_label<'a>(parts: &[(&'a str, usize)], at: usize, end: usize) -> Option<&'a str> {
    let (label, part_end) = parts.iter().find(|(_, part_end)| at < *part_end)?;
    (end <= *part_end).then_some(*label)
}

/// Whether a line begins a message with labels.
pub fn begins_message(line: &Line) -> bool {
    line.label.starts_with("magic ")
}

/// Checks every label of a message, which may be cut. A whole one ends where its lengths say.
pub fn check(fields: &[Field], lines: &[Line], whole: bool) -> Result<(), Fault> {
    let message: Vec<u8> = lines.iter().flat_map(|line| line.bytes.clone()).collect();
    let known = fields.last().map_or(0, |field| field.at + field.size);
    let parts = parts(fields, &message);
    let mut at = 0;
    for line in lines {
        let end = at + line.bytes.len();
        let right = if at < known {
            header_label(fields, &message, at, end).is_some_and(|label| label == line.label)
        } else {
            part_label(&parts, at, end).is_some_and(|label| line.label.starts_with(label))
        };
        if !right {
            return Err(format!("not what the bytes are: {}", line.label));
        }
        at = end;
    }
    match whole && at != parts[2].1 {
        true => Err(format!("{at} bytes, and its lengths say {}", parts[2].1)),
        false => Ok(()),
    }
}
