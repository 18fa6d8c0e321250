//! Fields written: document 01, "Operations and their fields", Writing.

use razidkot_tests::ask::{self, ask, import_body, name_body, registry_of};
use razidkot_tests::foreign::{self, Refused, Schema};
use razidkot_tests::generate;
use razidkot_tests::layout::Key;
use razidkot_tests::oracle;
use razidkot_tests::run::{for_seeds, Outcomes};

const LARGEST_NUMBER: u64 = 0x1FFF_FFFF;

#[test]
fn a_number_is_written_as_tag_and_varint_and_zero_is_left_out() {
    let mut outcomes = Outcomes::default();
    for_seeds(10_000, |random| {
        let number = random.pick(&[0, 1, 2, 15, 16, 2_047, 2_048, LARGEST_NUMBER]);
        let value = if random.once_in(4) {
            0
        } else {
            random.number()
        };
        let size = 20 + random.below(4);
        let before = random.bytes(size);
        let mut out = before.clone();
        let written = foreign::write_number_field(&mut out, number, value).expect("room for it");
        assert_eq!(out[..written], oracle::number_field(number, value));
        assert_eq!(out[written..], before[written..], "what is behind stays");
        outcomes.count(written == 0);
    });
    outcomes.assert_often(&[true, false], 1_000);
}

#[test]
fn bytes_are_written_as_tag_length_and_bytes_and_none_are_left_out() {
    let mut outcomes = Outcomes::default();
    for_seeds(10_000, |random| {
        let number = random.pick(&[0, 1, 2, 15, 16, 2_047, 2_048, LARGEST_NUMBER]);
        let length = random.pick(&[0, 0, 1, 2, 127, 128, 600, 4_096]);
        let bytes = random.bytes(length);
        let size = length + 20 + random.below(4);
        let before = random.bytes(size);
        let mut out = before.clone();
        let written = foreign::write_bytes_field(&mut out, number, &bytes).expect("room for it");
        assert_eq!(out[..written], oracle::bytes_field(number, &bytes));
        assert_eq!(out[written..], before[written..], "what is behind stays");
        outcomes.count(written == 0);
    });
    outcomes.assert_often(&[true, false], 1_000);
}

#[test]
fn fields_that_may_not_fit_are_not_written() {
    let mut outcomes = Outcomes::default();
    for_seeds(5_000, |random| {
        let size = random.below(40);
        let length = random.below(20);
        let number = random.pick(&[1, 1, LARGEST_NUMBER, LARGEST_NUMBER + 1, u64::MAX]);
        let legal = number <= LARGEST_NUMBER;
        let mut out = vec![0x55; size];
        let written = foreign::write_number_field(&mut out, number, 1);
        assert_eq!(written.is_ok(), legal && size >= 20);
        if written == Err(Refused) {
            assert_eq!(out, vec![0x55; size]);
        }
        let mut out = vec![0x55; size];
        let written = foreign::write_bytes_field(&mut out, number, &vec![7; length]);
        assert_eq!(written.is_ok(), legal && size >= length + 20);
        if written == Err(Refused) {
            assert_eq!(out, vec![0x55; size]);
        }
        outcomes.count(written.is_ok());
    });
    outcomes.assert_often(&[true, false], 500);
}

#[test]
fn an_export_of_the_reference_has_the_same_field() {
    let name = b"application".to_vec();
    let registry = registry_of(std::slice::from_ref(&name));
    for_seeds(1_000, |random| {
        let key = Key {
            export_allowed: true,
            ..generate::importable_key(random, 0)
        };
        let imported = ask(&registry, ask::IMPORT, Some(&name), &import_body(&key));
        assert_eq!(imported.status, ask::SUCCESS);
        let registry = imported.outcome.registry;
        let exported = ask(&registry, ask::EXPORT, Some(&name), &name_body(&key.name));
        let mut out = [0; 620];
        let written = foreign::write_bytes_field(&mut out, 1, &key.data).expect("room for it");
        assert_eq!(exported.body, out[..written]);
    });
}

#[test]
fn an_import_written_field_by_field_is_read_as_itself() {
    for_seeds(5_000, |random| {
        let key = generate::any_key(random);
        let mut body = vec![0; 800];
        let mut at = 0;
        at += foreign::write_bytes_field(&mut body[at..], 1, &key.name).expect("room");
        at += foreign::write_bytes_field(&mut body[at..], 2, &key.data).expect("room");
        for (number, value) in [
            (3, u64::from(key.bits)),
            (4, key.export_allowed.into()),
            (5, key.verify_allowed.into()),
        ] {
            at += foreign::write_number_field(&mut body[at..], number, value).expect("room");
        }
        body.truncate(at);
        assert_eq!(body, import_body(&key));
        let values = foreign::read_body(&body, Schema::Import).expect("a readable body");
        let bytes = |place: usize| &body[values[place].start..][..values[place].length];
        assert_eq!(bytes(0), key.name);
        assert_eq!(bytes(1), key.data);
        assert_eq!(values[2].number, key.bits.into());
        assert_eq!(values[3].number, key.export_allowed.into());
        assert_eq!(values[4].number, key.verify_allowed.into());
    });
}
