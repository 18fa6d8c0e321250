//! Keys changed through the call, which writes a record for each, and journals read back in chunks of
//! 64 KiB.

use crate::calls;
use crate::registries::{Registry, EIGHT_NAMES, FULL, ONE_KEY};
use crate::rows::{digest, Row, Turn};
use razidkot::{raw, JOURNAL_STATE_SIZE};
use razidkot_tests::ask::{import_body, name_body, request, DESTROY, IMPORT};
use razidkot_tests::journals::{destroy_record, import_record, key};
use razidkot_tests::layout::Key;
use std::hint::black_box;
use std::rc::Rc;
use std::time::Instant;

/// Of changes in a turn; each is a destroy and an import.
const CHANGES: usize = 20_000;
/// Of records in a journal.
const RECORDS: usize = 20_000;
const CHUNK: usize = 65_536;

pub fn rows() -> Vec<Row> {
    let changes = [FULL, ONE_KEY].into_iter().map(changes);
    let reads = [("longest", 600), ("shortest", 1)].into_iter();
    changes
        .chain(reads.map(|(title, length)| read(title, length)))
        .collect()
}

/// Each key in turn is destroyed and imported again.
fn changes(registry: Registry) -> Row {
    let requests: Vec<_> = registry
        .places()
        .flat_map(|(line, slot)| {
            let application = registry.application_name(line);
            let name = registry.key_name(line, slot);
            let key = Key {
                data: vec![0xDD; 600],
                ..key(&name)
            };
            [(DESTROY, name_body(&name)), (IMPORT, import_body(&key))]
                .map(|(opcode, body)| request(opcode, Some(&application), &body))
        })
        .collect();
    let name = format!("changes, {}", registry.title);
    calls::row_of(name, (&registry.bytes(), &[]), &requests, CHANGES)
}

/// A journal in which eight applications import eight keys and destroy them, over and over.
fn journal(data_length: usize) -> Vec<u8> {
    let mut records = Vec::new();
    for step in 0..RECORDS / 2 {
        let (line, number) = ((step % 8) as u8, step / 8 % 8);
        let name = vec![b'a' + number as u8; if data_length > 1 { 32 } else { 1 }];
        let key = Key {
            data: vec![step as u8; data_length],
            ..key(&name)
        };
        records.extend(import_record(line, &key));
        records.extend(destroy_record(line, &name));
    }
    records
}

fn read(title: &str, data_length: usize) -> Row {
    let (registry, file): (Vec<u8>, Rc<[u8]>) = (EIGHT_NAMES.bytes(), journal(data_length).into());
    Row {
        name: format!("journal read, {title} records"),
        digest: digest(&[&registry, &file]),
        each_turn: RECORDS,
        programs: vec![
            ("proved", turn(&registry, &file, proved)),
            ("reference", turn(&registry, &file, second)),
        ],
    }
}

/// Reads a chunk, and says how many bytes are kept.
type Read = fn(&mut [u8], &mut [u8], &[u8]) -> u64;

fn proved(state: &mut [u8], registry: &mut [u8], chunk: &[u8]) -> u64 {
    raw::journal_read(state, registry, chunk).kept
}

fn second(state: &mut [u8], registry: &mut [u8], chunk: &[u8]) -> u64 {
    let answer = reference::journal_read(state, registry, chunk);
    answer.expect("well-formed memory").kept
}

fn turn(registry: &[u8], file: &Rc<[u8]>, read: Read) -> Turn {
    let (mut registry, file) = (registry.to_vec(), Rc::clone(file));
    Box::new(move || {
        let mut state = [0; JOURNAL_STATE_SIZE];
        raw::journal_begin(&mut state).expect("memory of the exact size");
        let start = Instant::now();
        let mut kept = 0;
        for chunk in file.chunks(CHUNK) {
            kept = read(&mut state, &mut registry, black_box(chunk));
        }
        let time = start.elapsed();
        assert_eq!(kept, file.len() as u64, "all records are carried out");
        time
    })
}
