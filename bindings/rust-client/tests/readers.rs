//! Responses read through the safe types: outputs, refusals, and chunks.

use razidkot_client::{
    BodyFormat, Import, Opcode, Operation, Output, ReadRefusal, Reader, Reading, Request, Response,
    Status, Verify, LONGEST_RESPONSE, MOST_ENTRIES, STATE_SIZE,
};

const SESSION: u64 = 0x0102_0304_0506_0708;

fn operation(opcode: Opcode) -> Operation<'static> {
    let name = b"a";
    match opcode {
        Opcode::Ping => Operation::Ping,
        Opcode::ListProviders => Operation::ListProviders,
        Opcode::ListOpcodes => Operation::ListOpcodes { provider: 1 },
        Opcode::PsaDestroyKey => Operation::DestroyKey { name },
        Opcode::PsaExportPublicKey => Operation::ExportPublicKey { name },
        Opcode::PsaAsymmetricVerify => {
            Operation::AsymmetricVerify(Verify::new(name, &[0; 32], b"\xCC"))
        }
        Opcode::PsaImportKey => Operation::ImportKey(Import {
            name,
            data: b"\xAA",
            bits: 2_048,
            export_allowed: true,
            verify_allowed: false,
        }),
    }
}

fn reader(opcode: Opcode) -> Reader {
    Reader::begin(&Request::new(SESSION, None, operation(opcode)))
}

/// One that has asked for tagged records.
fn tagged_reader(opcode: Opcode) -> Reader {
    let request = Request::new(SESSION, None, operation(opcode));
    Reader::begin(&request.in_format(BodyFormat::Tagged))
}

/// Magic, H, version, provider, session, content type, content length, opcode, status, body.
fn response(opcode: Opcode, status: u16, body: &[u8]) -> Vec<u8> {
    [
        &b"\x10\xA7\xC0\x5E\x14\x00\x01\x00"[..],
        &[opcode.provider().number() as u8],
        &SESSION.to_le_bytes(),
        &[1],
        &(body.len() as u32).to_le_bytes(),
        &opcode.number().to_le_bytes(),
        &status.to_le_bytes(),
        body,
    ]
    .concat()
}

/// The output of a status 0 response with this body, which must be all that is taken.
fn expect_output(opcode: Opcode, body: &[u8], expect: impl Fn(Output)) {
    let bytes = response(opcode, 0, body);
    let mut reader = reader(opcode);
    let answer = reader.read(&[&bytes[..], b"more"].concat());
    assert_eq!(answer.taken, bytes.len());
    let Ok(Reading::Response(Response { status: 0, output })) = answer.said else {
        panic!("{answer:?}");
    };
    expect(output);
}

#[test]
fn a_version_is_read() {
    expect_output(Opcode::Ping, b"\x08\x81\x02\x10\x07", |output| {
        let (major, minor) = (257, 7);
        assert_eq!(output, Output::Version { major, minor });
    });
    expect_output(Opcode::Ping, b"", |output| {
        assert_eq!(output, Output::Version { major: 0, minor: 0 });
    });
}

#[test]
fn imports_destroys_and_verifies_are_answered_with_nothing() {
    for opcode in [
        Opcode::PsaImportKey,
        Opcode::PsaDestroyKey,
        Opcode::PsaAsymmetricVerify,
    ] {
        expect_output(opcode, b"", |output| assert_eq!(output, Output::Nothing));
    }
}

#[test]
fn lists_are_read_in_their_order() {
    // 0, 300, 1 in two bytes, 2^32 - 1, and 2^32 + 5, of which the low 32 bits count.
    let packed = b"\x0A\x10\x00\xAC\x02\x81\x00\xFF\xFF\xFF\xFF\x0F\x85\x80\x80\x80\x10\x09";
    let entries = [0, 300, 1, u32::MAX, 5, 9];
    expect_output(Opcode::ListProviders, packed, |output| {
        let Output::Providers(mut list) = output else {
            panic!("{output:?}");
        };
        assert_eq!(list.len(), 6);
        assert_eq!(format!("{list:?}"), format!("{entries:?}"));
        assert!(list.clone().eq(entries));
        assert_eq!(list.next(), Some(0));
        assert_eq!((list.len(), list.nth(4)), (5, Some(9)));
        assert_eq!((list.len(), list.next(), list.next()), (0, None, None));
    });
    expect_output(Opcode::ListOpcodes, b"\x0A\x02\x03\x06", |output| {
        let Output::Opcodes(list) = output else {
            panic!("{output:?}");
        };
        assert!(list.eq([3, 6]));
    });
}

#[test]
fn the_longest_list_has_as_many_entries_as_is_said() {
    let body = [&b"\x0A\xE3\x07"[..], &[7; MOST_ENTRIES]].concat();
    assert_eq!(26 + body.len(), LONGEST_RESPONSE);
    expect_output(Opcode::ListOpcodes, &body, |output| {
        let Output::Opcodes(list) = output else {
            panic!("{output:?}");
        };
        assert!(list.eq([7; MOST_ENTRIES]));
    });
}

#[test]
fn an_absent_list_is_empty_and_the_last_one_counts() {
    expect_output(Opcode::ListProviders, b"", |output| {
        let Output::Providers(list) = output else {
            panic!("{output:?}");
        };
        assert_eq!((list.len(), list.max()), (0, None));
    });
    expect_output(
        Opcode::ListProviders,
        b"\x0A\x01\x05\x0A\x01\x06",
        |output| {
            let Output::Providers(list) = output else {
                panic!("{output:?}");
            };
            assert!(list.eq([6]));
        },
    );
}

#[test]
fn lists_are_equal_by_their_numbers() {
    let list = |packed: &[u8]| {
        let body = [&[0x0A, packed.len() as u8], packed].concat();
        let mut reader = reader(Opcode::ListOpcodes);
        reader.read(&response(Opcode::ListOpcodes, 0, &body));
        reader
    };
    let equal = |one: &[u8], other: &[u8]| list(one).said() == list(other).said();
    assert!(equal(b"\x01\x02", b"\x81\x00\x02"));
    assert!(!equal(b"\x01\x02", b"\x01\x03"));
    assert!(!equal(b"\x01\x02", b"\x01"));
}

#[test]
fn data_is_handed_out_where_it_lies() {
    let mut reader = reader(Opcode::PsaExportPublicKey);
    let body = b"\x0A\x03\xAA\xBB\xCC";
    reader.read(&response(Opcode::PsaExportPublicKey, 0, body));
    let Ok(Reading::Response(Response {
        output: Output::Data(data),
        ..
    })) = reader.said()
    else {
        panic!("{reader:?}");
    };
    assert_eq!(data, [0xAA, 0xBB, 0xCC]);
    let place = 13 + 26 + 2;
    assert_eq!(data.as_ptr(), reader.memory()[place..].as_ptr());
}

#[test]
fn any_status_but_0_and_7_is_read_as_a_number_with_nothing() {
    for number in (1..=u16::MAX).filter(|&number| number != 7) {
        let mut reader = reader(Opcode::Ping);
        let answer = reader.read(&response(Opcode::Ping, number, b""));
        let Ok(Reading::Response(response)) = answer.said else {
            panic!("{answer:?}");
        };
        assert_eq!(
            (response.status, &response.output),
            (number, &Output::Nothing)
        );
        assert_eq!(response.listed_status(), Status::from_number(number));
    }
}

/// A response whose body is tagged records.
fn tagged(opcode: Opcode, status: u16, body: &[u8]) -> Vec<u8> {
    let mut bytes = response(opcode, status, body);
    bytes[17] = 2;
    bytes
}

#[test]
fn outputs_are_read_from_tagged_records() {
    let said = |opcode, body: &[u8], expect: &dyn Fn(Output)| {
        let mut reader = tagged_reader(opcode);
        match reader.read(&tagged(opcode, 0, body)).said {
            Ok(Reading::Response(Response { status: 0, output })) => expect(output),
            other => panic!("{other:?}"),
        }
    };
    let version = b"\x01\x04\x00\x01\x01\x00\x00\x02\x04\x00\x07\x00\x00\x00";
    said(Opcode::Ping, version, &|output| {
        let (major, minor) = (257, 7);
        assert_eq!(output, Output::Version { major, minor });
    });
    let list = b"\x01\x0C\x00\x00\x00\x00\x00\x2C\x01\x00\x00\xFF\xFF\xFF\xFF";
    said(Opcode::ListProviders, list, &|output| {
        let Output::Providers(mut list) = output else {
            panic!("{output:?}");
        };
        assert_eq!(list.len(), 3);
        assert!(list.clone().eq([0, 300, u32::MAX]));
        assert_eq!((list.nth(1), list.len()), (Some(300), 1));
        assert_eq!((list.next(), list.next()), (Some(u32::MAX), None));
    });
    said(Opcode::ListOpcodes, b"", &|output| {
        let Output::Opcodes(list) = output else {
            panic!("{output:?}");
        };
        assert_eq!(list.len(), 0);
    });
    let data = b"\x01\x03\x00\xAA\xBB\xCC";
    said(Opcode::PsaExportPublicKey, data, &|output| {
        assert_eq!(output, Output::Data(&[0xAA, 0xBB, 0xCC]));
    });
}

#[test]
fn lists_of_both_formats_are_equal_by_their_numbers() {
    let mut one = reader(Opcode::ListOpcodes);
    one.read(&response(Opcode::ListOpcodes, 0, b"\x0A\x02\x03\x06"));
    let mut other = tagged_reader(Opcode::ListOpcodes);
    let body = b"\x01\x08\x00\x03\x00\x00\x00\x06\x00\x00\x00";
    other.read(&tagged(Opcode::ListOpcodes, 0, body));
    assert_eq!(one.said(), other.said());
}

#[test]
fn tagged_records_are_read_strictly() {
    for body in [
        // A 0 that is there, a record that is repeated, an unlisted one, other lengths, a cut.
        &b"\x01\x04\x00\x00\x00\x00\x00"[..],
        b"\x01\x04\x00\x01\x00\x00\x00\x01\x04\x00\x01\x00\x00\x00",
        b"\x02\x04\x00\x01\x00\x00\x00\x01\x04\x00\x01\x00\x00\x00",
        b"\x03\x04\x00\x01\x00\x00\x00",
        b"\x01\x03\x00\x01\x00\x00",
        b"\x01\x05\x00\x01\x00\x00\x00\x00",
        b"\x01\x04\x00\x01\x00\x00",
        b"\x01\x04",
    ] {
        let mut reader = tagged_reader(Opcode::Ping);
        let answer = reader.read(&tagged(Opcode::Ping, 0, body));
        assert_eq!(answer.said, Err(ReadRefusal::UnreadableBody), "{body:?}");
    }
    let mut reader = tagged_reader(Opcode::ListOpcodes);
    let answer = reader.read(&tagged(Opcode::ListOpcodes, 0, b"\x01\x03\x00\x03\x00\x00"));
    assert_eq!(answer.said, Err(ReadRefusal::UnreadableBody));
}

#[test]
fn a_content_type_other_than_the_accept_type_is_refused() {
    let refused = Err(ReadRefusal::WrongContentType);
    let opcode = Opcode::PsaDestroyKey;
    for number in 0..=u8::MAX {
        let mut bytes = response(opcode, 1140, b"");
        bytes[17] = number;
        for format in BodyFormat::ALL {
            let mut reader = Reader::awaiting(opcode, SESSION, format);
            let said = reader.read(&bytes).said;
            assert_eq!(
                said == refused,
                number != format.number(),
                "{format:?} {number}"
            );
        }
    }
}

#[test]
fn status_17_has_content_type_1_whatever_was_asked_for() {
    let mut zeros = *b"\x10\xA7\xC0\x5E\x14\0\x01\0\0\0\0\0\0\0\0\0\0\x01\0\0\0\0\0\0\x11\0";
    let mut reader = tagged_reader(Opcode::Ping);
    let Ok(Reading::Response(response)) = reader.read(&zeros).said else {
        panic!("{reader:?}");
    };
    assert_eq!(response.listed_status(), Some(Status::InvalidHeader));
    zeros[17] = 2;
    let refused = Err(ReadRefusal::WrongContentType);
    assert_eq!(tagged_reader(Opcode::Ping).read(&zeros).said, refused);
    assert_eq!(reader_of_status_17_with_its_own_session().said(), refused);
}

/// A status 17 of type 2 that repeats its request's session and opcode.
fn reader_of_status_17_with_its_own_session() -> Reader {
    let mut reader = tagged_reader(Opcode::Ping);
    reader.read(&tagged(Opcode::Ping, 17, b""));
    reader
}

/// What a status 7 response with this body says, to a request of this opcode.
fn said_of_7(opcode: Opcode, body: &[u8]) -> Result<u32, ReadRefusal> {
    let mut reader = Reader::awaiting(opcode, SESSION, BodyFormat::Protobuf);
    match reader.read(&response(opcode, 7, body)).said? {
        Reading::Response(Response {
            status: 7,
            output: Output::Offset(at),
        }) => Ok(at),
        other => panic!("{other:?}"),
    }
}

#[test]
fn status_7_says_where_the_body_broke() {
    for opcode in Opcode::ALL {
        assert_eq!(said_of_7(opcode, b""), Ok(0), "left out");
        assert_eq!(said_of_7(opcode, b"\x08\x0C"), Ok(12));
        assert_eq!(said_of_7(opcode, b"\x08\xFF\x1F"), Ok(4_095));
        // The last counts, of its varint the low 32 bits; what is not listed is skipped.
        assert_eq!(said_of_7(opcode, b"\x08\x05\x08\x07"), Ok(7));
        assert_eq!(said_of_7(opcode, b"\x08\x85\x80\x80\x80\x10"), Ok(5));
        assert_eq!(said_of_7(opcode, b"\x08\x05\x10\x07\x0A\x01\x09"), Ok(5));
    }
}

#[test]
fn the_offset_is_read_from_tagged_records() {
    let mut reader = tagged_reader(Opcode::PsaImportKey);
    let body = b"\x01\x04\x00\x0C\x00\x00\x00";
    let answer = reader.read(&tagged(Opcode::PsaImportKey, 7, body));
    let Ok(Reading::Response(response)) = answer.said else {
        panic!("{answer:?}");
    };
    assert_eq!((response.status, response.output), (7, Output::Offset(12)));
}

#[test]
fn a_status_7_body_that_is_no_offset_is_unreadable() {
    for body in [&b"\x08"[..], b"\x08\x80", b"\x0E", b"\x08\x01\x00"] {
        let said = said_of_7(Opcode::PsaImportKey, body);
        assert_eq!(said, Err(ReadRefusal::UnreadableBody), "{body:?}");
    }
}

#[test]
fn status_17_with_zeros_is_read_for_any_request() {
    let zeros = b"\x10\xA7\xC0\x5E\x14\0\x01\0\0\0\0\0\0\0\0\0\0\x01\0\0\0\0\0\0\x11\0";
    for opcode in Opcode::ALL {
        let mut reader = reader(opcode);
        let Ok(Reading::Response(response)) = reader.read(zeros).said else {
            panic!("{opcode:?}");
        };
        assert_eq!(response.listed_status(), Some(Status::InvalidHeader));
    }
}

/// Each refusal's damage to a good response, in the order of judgement, and the bytes taken then.
fn damages() -> [(ReadRefusal, usize, usize, u8); 7] {
    use ReadRefusal::*;
    [
        (WrongMagic, 3, 6, 0x5F),
        (WrongHeaderSize, 4, 6, 22),
        (WrongVersion, 7, 26, 1),
        (WrongContentType, 17, 26, 2),
        (NotItsRequests, 9, 26, 7),
        (ContentTooLong, 19, 26, 0xFF),
        (UnreadableBody, 26, 28, 0x0E),
    ]
}

#[test]
fn the_first_refusal_that_applies_is_said_and_its_byte_is_taken() {
    let good = response(Opcode::PsaExportPublicKey, 0, b"\x0A\x00");
    for first in 0..damages().len() {
        let mut bytes = good.clone();
        for (_, at, _, byte) in &damages()[first..] {
            bytes[*at] = *byte;
        }
        let (refusal, _, taken, _) = damages()[first];
        let mut reader = reader(Opcode::PsaExportPublicKey);
        let answer = reader.read(&bytes);
        assert_eq!((answer.taken, answer.said), (taken, Err(refusal)));
        let answer = reader.read(&good);
        assert_eq!((answer.taken, answer.said), (0, Err(refusal)));
    }
}

#[test]
fn a_body_on_a_refused_status_is_unreadable() {
    let mut reader = reader(Opcode::PsaExportPublicKey);
    let answer = reader.read(&response(Opcode::PsaExportPublicKey, 1140, b"\x0A\x00"));
    let refused = Err(ReadRefusal::UnreadableBody);
    assert_eq!((answer.taken, answer.said), (28, refused));
}

#[test]
fn chunks_cut_anywhere_say_what_the_whole_says() {
    let bytes = response(Opcode::PsaExportPublicKey, 0, b"\x0A\x04\x01\x02\x03\x04");
    let mut whole = reader(Opcode::PsaExportPublicKey);
    whole.read(&bytes);
    for cut in 0..bytes.len() {
        let mut reader = reader(Opcode::PsaExportPublicKey);
        let answer = reader.read(&bytes[..cut]);
        assert_eq!((answer.taken, answer.said), (cut, Ok(Reading::Waiting)));
        let answer = reader.read(&bytes[cut..]);
        assert_eq!(
            (answer.taken, answer.said),
            (bytes.len() - cut, whole.said())
        );
        assert_eq!(reader, whole, "cut at {cut}");
    }
}

#[test]
fn past_a_response_nothing_is_taken() {
    let bytes = response(Opcode::PsaDestroyKey, 1140, b"");
    let mut reader = reader(Opcode::PsaDestroyKey);
    reader.read(&bytes);
    let before = reader.clone();
    let answer = reader.read(&bytes);
    assert_eq!((answer.taken, answer.said), (0, before.said()));
    assert_eq!(reader, before);
    assert_ne!(reader.said(), Ok(Reading::Waiting));
}

#[test]
fn a_fresh_reader_has_its_request_and_waits() {
    for opcode in Opcode::ALL {
        let mut reader = reader(opcode);
        let memory = [
            &opcode.number().to_le_bytes()[..],
            &SESSION.to_le_bytes(),
            &[1],
            &[0; STATE_SIZE - 11],
        ];
        assert_eq!(reader.memory(), memory.concat());
        assert_eq!(reader.said(), Ok(Reading::Waiting));
        assert_eq!(reader.read(b"").taken, 0);
    }
}

#[test]
fn read_refusals_are_errors_with_texts_of_their_own() {
    let texts: Vec<String> = ReadRefusal::ALL
        .iter()
        .map(|refusal| {
            let error: &dyn std::error::Error = refusal;
            error.to_string()
        })
        .collect();
    for (place, text) in texts.iter().enumerate() {
        assert!(text.starts_with("response not read: "), "{text}");
        assert!(!texts[..place].contains(text), "{text}");
        assert_eq!(ReadRefusal::ALL[place].number(), place as u32 + 3);
    }
}
