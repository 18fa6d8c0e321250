//! Headers of requests and responses: document 01, "Bytes on the wire".

use razidkot_tests::ask::registry_of;
use razidkot_tests::foreign::{self, Refused};
use razidkot_tests::oracle;
use razidkot_tests::run::{for_seeds, Outcomes};
use reference::rules;

#[test]
fn a_header_of_28_bytes_or_more_has_its_fields() {
    let mut outcomes = Outcomes::default();
    for_seeds(10_000, |random| {
        let length = random.below(64);
        let bytes = random.bytes(length);
        let expected = oracle::read_header(&bytes).ok_or(Refused);
        assert_eq!(foreign::read_header(&bytes), expected, "{bytes:02X?}");
        outcomes.count(expected.is_ok());
    });
    outcomes.assert_often(&[true, false], 2_000);
}

#[test]
fn a_response_header_has_26_bytes() {
    for_seeds(10_000, |random| {
        let [provider, session, content_length, opcode, status] = [(); 5].map(|()| random.number());
        let (provider, content_length) = (provider as u8, content_length as u32);
        let (opcode, status) = (opcode as u16, status as u16);
        assert_eq!(
            foreign::response_header(provider, session, content_length, opcode, status)[..],
            oracle::response_header(provider, session, content_length, opcode, status)
        );
    });
}

#[test]
fn a_response_of_the_reference_repeats_provider_session_and_opcode() {
    let registry = registry_of(&[]);
    let mut outcomes = Outcomes::default();
    for_seeds(5_000, |random| {
        let mut request = random.bytes(28);
        request[..6].copy_from_slice(&[0x10, 0xA7, 0xC0, 0x5E, 22, 0]);
        request[20..26].fill(0);
        if random.once_in(2) {
            // A Ping, or nearly one.
            request[6..9].copy_from_slice(&[1, 0, 0]);
            request[17..20].copy_from_slice(&[1, 1, 0]);
            request[26..28].copy_from_slice(&[1, 0]);
            request[random.pick(&[6, 7, 8, 9, 17, 18, 19, 26])] ^= random.pick(&[0, 1, 2]);
        }
        let outcome = rules::run(&registry, &request);
        let (header, body) = outcome.responses[0].split_at(26);
        let status = u16::from_le_bytes([header[24], header[25]]);
        let fields = foreign::read_header(&request).expect("28 bytes");
        let [.., provider, session, _, _, _, _, _, opcode] = fields;
        let mut expected = foreign::response_header(
            provider as u8,
            session,
            body.len() as u32,
            opcode as u16,
            status,
        );
        // The accept type, where it is one.
        expected[17] = if request[18] == 2 { 2 } else { 1 };
        assert_eq!(header, expected, "{request:02X?}");
        outcomes.count(status);
    });
    outcomes.assert_often(&[0, 1, 2, 3, 4, 6, 9, 12], 20);
}
