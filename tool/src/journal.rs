//! `journal show`: a journal shown record by record. The compiled reader judges the CRCs and, with a
//! roster, what the journal restores.

use crate::arguments::Arguments;
use crate::{input, roster, Failure};
use razidkot::{raw, JournalFault, JournalReader, Registry, JOURNAL_STATE_SIZE, REGISTRY_SIZE};
use std::fs::File;
use std::io::{self, Write};
use std::path::PathBuf;

const SHOW: &str = "journal show";

/// How many bytes are read at a time: no record is longer.
const CHUNK: usize = 1 << 17;

const HEAD_LENGTH: usize = 3;
const CRC_LENGTH: usize = 4;

/// Does `journal ..`.
pub fn run(mut arguments: Arguments, out: &mut dyn Write) -> Result<(), Failure> {
    let command = arguments.word("journal", "a command")?;
    if command != "show" {
        return Err(Failure::unknown("journal", "command", &command));
    }
    let file = PathBuf::from(arguments.word(SHOW, "FILE")?);
    let roster = arguments.path("--roster");
    arguments.end(SHOW)?;

    let registry = roster.map(|roster| roster::load(&roster)).transpose()?;
    let failed = |error| Failure::at(&file, error);
    let mut journal = File::open(&file).map_err(failed)?;
    let mut shown = Shown::new(registry);
    let mut chunk = vec![0; CHUNK];
    let mut length = input::read(&mut journal, &mut chunk).map_err(failed)?;
    heading(out).map_err(Failure::output)?;
    while length > 0 {
        let done = shown.show(&chunk[..length], out);
        done.map_err(Failure::output)?;
        length = input::read(&mut journal, &mut chunk).map_err(failed)?;
    }
    shown.end(out).map_err(Failure::output)
}

/// What is shown so far.
struct Shown {
    /// Where the bytes begin that are not shown yet.
    offset: u64,
    rest: Vec<u8>,
    judge: Judge,
    /// What the journal restores, where there is a roster.
    restoring: Option<JournalReader>,
}

impl Shown {
    fn new(registry: Option<Registry>) -> Shown {
        Shown {
            offset: 0,
            rest: Vec::new(),
            judge: Judge::new(),
            restoring: registry.map(JournalReader::begin),
        }
    }

    /// Shows the records that end in this chunk.
    fn show(&mut self, chunk: &[u8], out: &mut dyn Write) -> io::Result<()> {
        let mut rest = std::mem::take(&mut self.rest);
        rest.extend(chunk);
        let mut at = 0;
        while let Some(length) =
            record_length(&rest[at..]).filter(|&length| at + length <= rest.len())
        {
            self.show_record(&rest[at..at + length], out)?;
            at += length;
        }
        rest.drain(..at);
        self.rest = rest;
        Ok(())
    }

    fn show_record(&mut self, record: &[u8], out: &mut dyn Write) -> io::Result<()> {
        if let Some(reader) = &mut self.restoring {
            // A fault is kept, and said at the end.
            let _ = reader.read(record);
        }
        let crc = match self.judge.crc_is_right(record) {
            true => "good",
            false => "bad",
        };
        let value = &record[HEAD_LENGTH..record.len() - CRC_LENGTH];
        let operation = match record[0] {
            IMPORT => "import".to_string(),
            DESTROY => "destroy".to_string(),
            tag => format!("tag-{tag}"),
        };
        let application = value.first().map(|&line| self.application(line));
        let application = application.unwrap_or_else(|| "unread".into());
        let key = key_of(record[0], value).unwrap_or_else(|| "unread".into());
        let (offset, length) = (self.offset, record.len());
        self.offset += length as u64;
        writeln!(
            out,
            "{offset:>10} {length:>10} {crc:>4} {operation:<9} {application} {key}"
        )
    }

    /// The name in that line of the roster; without one, the line's number.
    fn application(&self, line: u8) -> String {
        let registry = self.restoring.as_ref().map(JournalReader::registry);
        let named = registry.and_then(|registry| registry.applications().nth(line.into()));
        named.map_or(format!("line-{line}"), |named| quoted(named.name))
    }

    /// Shows what is behind the last record, and what the journal restores.
    fn end(self, out: &mut dyn Write) -> io::Result<()> {
        let (offset, length) = (self.offset, self.rest.len());
        if length > 0 {
            let what = match record_length(&self.rest) {
                Some(whole) => format!("bytes to go: {}", whole - length),
                None => "its length is not whole".to_string(),
            };
            writeln!(
                out,
                "{offset:>10} {length:>10}  cut a record not finished: {what}"
            )?;
        }
        let Some(reader) = self.restoring else {
            return Ok(());
        };
        let keys = reader.registry().applications();
        let keys = keys.flat_map(|application| application.slots.into_iter().flatten());
        let keys = keys.count();
        match reader.finish() {
            Ok(restored) => writeln!(out, "restores {keys} keys from {} bytes", restored.kept),
            Err(refused) => {
                let (kept, why) = (refused.kept, said(refused.fault));
                writeln!(
                    out,
                    "restores {keys} keys from {kept} bytes, and refuses the next record: {why}"
                )
            }
        }
    }
}

const IMPORT: u8 = 2;
const DESTROY: u8 = 3;

/// The length of the first record, its CRC included, once its head is there.
fn record_length(bytes: &[u8]) -> Option<usize> {
    let &[_, low, high] = bytes.first_chunk()?;
    Some(HEAD_LENGTH + usize::from(u16::from_le_bytes([low, high])) + CRC_LENGTH)
}

/// The key's name and, of an import, what it may be used for; `None` where the value can't be read.
fn key_of(tag: u8, value: &[u8]) -> Option<String> {
    match tag {
        IMPORT => {
            let (&[_, low, high, export, verify, length], rest) = value.split_first_chunk()?;
            let (name, data) = rest.split_at_checked(length.into())?;
            let bits = u16::from_le_bytes([low, high]);
            let [export, verify] = [(export, ", export"), (verify, ", verify")]
                .map(|(flag, word)| if flag == 0 { "" } else { word });
            let (name, size) = (quoted(name), data.len());
            Some(format!("{name} {size} bytes, {bits} bits{export}{verify}"))
        }
        DESTROY => Some(quoted(value.get(1..)?)),
        _ => None,
    }
}

fn quoted(name: &[u8]) -> String {
    format!("\"{}\"", name.escape_ascii())
}

/// Asks the compiled reader of one record at a time, on a registry of nobody, where no record is
/// carried out.
struct Judge {
    state: [u8; JOURNAL_STATE_SIZE],
    registry: Vec<u8>,
}

impl Judge {
    fn new() -> Judge {
        Judge {
            state: [0; JOURNAL_STATE_SIZE],
            registry: vec![0; REGISTRY_SIZE],
        }
    }

    fn crc_is_right(&mut self, record: &[u8]) -> bool {
        raw::journal_begin(&mut self.state).expect("memory of the exact size");
        let answer = raw::journal_read(&mut self.state, &mut self.registry, record);
        let wrong = raw::JournalEnd::Refused(JournalFault::WrongCrc);
        answer.result() != Ok(wrong)
    }
}

/// The fault by its number, and in words.
fn said(fault: JournalFault) -> String {
    let why = match fault {
        JournalFault::WrongCrc => "its CRC is wrong",
        JournalFault::WrongLayout => "no import or destroy",
        JournalFault::NotAllowed => "Import or Destroy would refuse it, or its line is not in use",
    };
    format!("J{}, {why}", fault.number())
}

fn heading(out: &mut dyn Write) -> io::Result<()> {
    let [offset, length, crc] = ["offset", "length", "crc"];
    let operation = "operation";
    writeln!(
        out,
        "{offset:>10} {length:>10} {crc:>4} {operation:<9} application key"
    )
}
