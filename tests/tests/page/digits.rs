//! Examples that are wrong by one digit, wherever that must show.

use super::text::Example;

/// The step that a line belongs to.
#[derive(Clone, Copy)]
struct Group<'a> {
    says: &'a str,
    /// It is a message, whose header's labels are checked.
    message: bool,
}

/// Where the label of an indented line begins.
fn label_at(line: &str) -> usize {
    let place = line[2..].find("  ").map_or(line.len(), |at| at + 2);
    place + line[place..].len() - line[place..].trim_start().len()
}

impl Group<'_> {
    /// Whether a changed byte shows: what the client writes and the service answers is compared, a
    /// named byte that is changed makes a good signature a bad one, and listed keys are exported.
    fn bytes_count(&self, label: &str) -> bool {
        let beginnings = ["client writes", "bytes ", "list lent"];
        let begins = beginnings.iter().any(|says| self.says.starts_with(says));
        begins || self.says == "service answers" || self.label_counts(label)
    }

    fn label_counts(&self, label: &str) -> bool {
        let behind = ["body: ", "auth: ", "ignored: "];
        self.message && !behind.iter().any(|part| label.starts_with(part))
    }

    /// In which digits the change at this place shows, if in any.
    fn radix(&self, line: &str, place: usize) -> Option<u32> {
        if !line.starts_with("  ") {
            let session_is_free = ["client awaits", "client refuses to write"];
            let free = session_is_free.iter().any(|says| line.starts_with(says));
            return (!free).then_some(10);
        }
        if matches!(self.says, "counters" | "bill") {
            return Some(10);
        }
        let at = label_at(line);
        let label = &line[at..];
        match place < at {
            true => self.bytes_count(label).then_some(16),
            false => self.label_counts(label).then_some(10),
        }
    }

    /// The line with the digit at this place one higher, if that must show.
    fn one_higher(&self, line: &str, place: usize) -> Option<String> {
        let radix = self.radix(line, place)?;
        let digit = char::from(line.as_bytes()[place]).to_digit(radix)?;
        let higher = char::from_digit((digit + 1) % radix, radix)?.to_ascii_uppercase();
        Some(format!("{}{higher}{}", &line[..place], &line[place + 1..]))
    }
}

/// Every example that differs from this one in a digit that must show.
pub fn one_digit_off(example: &Example) -> Vec<Example> {
    let mut group = Group {
        says: "",
        message: false,
    };
    let mut all = Vec::new();
    for (at, line) in example.lines.iter().enumerate() {
        if !line.starts_with("  ") {
            group = Group {
                says: line,
                message: false,
            };
        }
        group.message |= line.starts_with("  ") && line[label_at(line)..].starts_with("magic ");
        let changed = (0..line.len()).filter_map(|place| group.one_higher(line, place));
        all.extend(changed.map(|line| {
            let mut other = example.clone();
            other.lines[at] = line;
            other
        }));
    }
    all
}
