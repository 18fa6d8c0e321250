//! Message bodies: document 01, "Operations and their fields", Reading, as document 02, "Unlisted
//! fields", amends it.

use razidkot_tests::ask::{self, ask, import_body, registry_of, Answer};
use razidkot_tests::bodies::{bytes_of, is_read_as_the_oracle_reads_it};
use razidkot_tests::foreign::{self, Schema};
use razidkot_tests::generate::{import_message, message, mutated, Random};
use razidkot_tests::layout::{slot_bytes, Key, Place};
use razidkot_tests::oracle;
use razidkot_tests::run::{assert_agree, for_seeds, Outcomes};

const APPLICATION: &[u8] = b"application";

/// A message of the schema, one with a slip, or any bytes.
fn some_body(random: &mut Random, schema: Schema) -> Vec<u8> {
    let wire_types = schema.wire_types();
    match random.below(8) {
        0 => {
            let length = random.below(24);
            random.bytes(length)
        }
        1 | 2 => {
            let body = message(random, wire_types);
            mutated(random, body)
        }
        3 if schema == Schema::Import => {
            let body = import_message(random);
            mutated(random, body)
        }
        4 | 5 if schema == Schema::Import => import_message(random),
        _ => message(random, wire_types),
    }
}

/// Runs both on so many bodies; `agrees` says whether the reference does as well.
fn compare(schema: Schema, count: u64, agrees: impl Fn(&[u8]) -> bool) -> Outcomes {
    let mut outcomes = Outcomes::default();
    for_seeds(count, |random| {
        let body = some_body(random, schema);
        assert_agree(&body, |body| is_read_as_the_oracle_reads_it(body, schema));
        assert_agree(&body, &agrees);
        outcomes.count(foreign::read_body(&body, schema).is_ok());
    });
    outcomes
}

#[test]
fn a_message_with_no_input_skips_all_its_fields() {
    let registry = registry_of(&[]);
    let outcomes = compare(Schema::NoFields, 10_000, |body| {
        let readable = foreign::read_body(body, Schema::NoFields).is_ok();
        [ask::PING, ask::LIST_PROVIDERS].into_iter().all(|opcode| {
            let status = ask(&registry, opcode, None, body).status;
            (status != ask::DESERIALIZING_BODY_FAILED) == readable
        })
    });
    outcomes.assert_often(&[true, false], 500);
}

#[test]
fn list_opcodes_has_the_low_32_bits_of_its_provider() {
    let registry = registry_of(&[]);
    let outcomes = compare(Schema::ListOpcodes, 10_000, |body| {
        let Answer {
            status,
            body: answer,
            ..
        } = ask(&registry, ask::LIST_OPCODES, None, body);
        match foreign::read_body(body, Schema::ListOpcodes) {
            Err(_) => status == ask::DESERIALIZING_BODY_FAILED,
            Ok([provider, ..]) => match provider.number {
                0 => answer == [0x0A, 3, 1, 8, 9],
                1 => answer == [0x0A, 4, 3, 5, 6, 7],
                _ => status == ask::PROVIDER_DOES_NOT_EXIST,
            },
        }
    });
    outcomes.assert_often(&[true, false], 1_000);
}

#[test]
fn an_import_has_the_last_of_each_of_its_five_fields() {
    let registry = registry_of(&[APPLICATION.to_vec()]);
    let allowed = std::cell::Cell::new(0);
    let outcomes = compare(Schema::Import, 20_000, |body| {
        let answer = ask(&registry, ask::IMPORT, Some(APPLICATION), body);
        let Ok([name, data, bits, export_allowed, verify_allowed]) =
            foreign::read_body(body, Schema::Import)
        else {
            return answer.status == ask::DESERIALIZING_BODY_FAILED;
        };
        let (name, data) = (bytes_of(body, &name), bytes_of(body, &data));
        if let Some(status) = oracle::import_refusal(name, data, bits.number) {
            return answer.status == status;
        }
        allowed.set(allowed.get() + 1);
        let key = Key {
            name: name.to_vec(),
            data: data.to_vec(),
            bits: bits.number as u16,
            export_allowed: export_allowed.number == 1,
            verify_allowed: verify_allowed.number == 1,
        };
        let slot = slot_bytes(&answer.outcome.registry, Place { line: 0, slot: 0 });
        answer.status == ask::SUCCESS && slot == oracle::slot_of(&key)
    });
    outcomes.assert_often(&[true, false], 3_000);
    assert!(allowed.get() > 500, "{allowed:?}");
}

/// The application's registry with a key of each of these names.
fn registry_with(names: &[&[u8]]) -> Vec<u8> {
    let empty = registry_of(&[APPLICATION.to_vec()]);
    names.iter().fold(empty, |registry, name| {
        let key = Key {
            name: name.to_vec(),
            data: b"data".to_vec(),
            bits: 2_048,
            export_allowed: true,
            verify_allowed: true,
        };
        let body = import_body(&key);
        ask(&registry, ask::IMPORT, Some(APPLICATION), &body)
            .outcome
            .registry
    })
}

#[test]
fn destroy_and_export_have_a_name() {
    const NAMES: [&[u8]; 2] = [b"k", &[b'k'; 32]];
    let registry = registry_with(&NAMES);
    let found = std::cell::Cell::new(0);
    let agrees = |body: &[u8]| {
        let expected = match foreign::read_body(body, Schema::Name) {
            Err(_) => ask::DESERIALIZING_BODY_FAILED,
            Ok([name, ..]) => match bytes_of(body, &name) {
                name if NAMES.contains(&name) => ask::SUCCESS,
                name if oracle::key_name_is_legal(name) => ask::DOES_NOT_EXIST,
                _ => ask::INVALID_ARGUMENT,
            },
        };
        found.set(found.get() + u32::from(expected == ask::SUCCESS));
        [ask::DESTROY, ask::EXPORT]
            .into_iter()
            .all(|opcode| ask(&registry, opcode, Some(APPLICATION), body).status == expected)
    };
    let outcomes = compare(Schema::Name, 10_000, agrees);
    outcomes.assert_often(&[true, false], 1_000);
    // The generated names are seldom those of the keys.
    for_seeds(1_000, |random| {
        let name = random.pick(&NAMES);
        let body = [message(random, &[2]), ask::name_body(name)].concat();
        assert_agree(&body, agrees);
    });
    assert!(found.get() > 300, "{found:?}");
}
