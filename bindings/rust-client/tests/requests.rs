//! Requests written through the safe types: their bytes, their bounds and what is refused.

use razidkot_client::{
    BodyFormat, Import, Opcode, Operation, Request, Verify, WriteRefusal, BITS_STEP, HASH_SIZE,
    LEAST_BITS, LEAST_REQUEST_BUFFER, LONGEST_APPLICATION_NAME, LONGEST_BODY, LONGEST_DATA,
    LONGEST_KEY_NAME, LONGEST_REQUEST, MOST_BITS,
};

const SESSION: u64 = 0x0102_0304_0506_0708;

const IMPORT: Import = Import {
    name: b"a",
    data: b"\xAA\xBB",
    bits: 2_048,
    export_allowed: true,
    verify_allowed: true,
};

const VERIFY: Verify = Verify::new(b"a", &[0x5A; HASH_SIZE], b"\xCC\xDD");

fn request<'a>(application: Option<&'a [u8]>, operation: Operation<'a>) -> Request<'a> {
    Request::new(SESSION, application, operation)
}

/// Writes to a buffer that had other bytes, and gives it whole.
fn written(request: &Request) -> (Result<usize, WriteRefusal>, Vec<u8>) {
    let mut buffer = vec![0xEE; LEAST_REQUEST_BUFFER + 1];
    let result = request.write(&mut buffer);
    (result, buffer)
}

/// Header size, version, provider, session, types, content length, auth length, opcode, body, auth.
fn expected(provider: u8, auth_type: u8, opcode: u16, body: &[u8], auth: &[u8]) -> Vec<u8> {
    typed([1, 1], provider, auth_type, opcode, body, auth)
}

/// The same with another content and accept type.
fn typed(
    [content_type, accept_type]: [u8; 2],
    provider: u8,
    auth_type: u8,
    opcode: u16,
    body: &[u8],
    auth: &[u8],
) -> Vec<u8> {
    [
        &b"\x10\xA7\xC0\x5E\x16\x00\x01\x00"[..],
        &[provider],
        &SESSION.to_le_bytes(),
        &[content_type, accept_type, auth_type],
        &(body.len() as u32).to_le_bytes(),
        &(auth.len() as u16).to_le_bytes(),
        &opcode.to_le_bytes(),
        body,
        auth,
    ]
    .concat()
}

/// Written as these bytes, and the buffer past them stays.
fn expect_written(request: Request, bytes: &[u8]) {
    let (result, buffer) = written(&request);
    assert_eq!(result, Ok(bytes.len()), "{request:?}");
    assert_eq!(&buffer[..bytes.len()], bytes, "{request:?}");
    assert!(buffer[bytes.len()..].iter().all(|&byte| byte == 0xEE));
}

/// Refused, and the buffer is as it was.
fn expect_refused(request: Request, refusal: WriteRefusal) {
    let (result, buffer) = written(&request);
    assert_eq!(result, Err(refusal), "{request:?}");
    assert!(buffer.iter().all(|&byte| byte == 0xEE));
}

#[test]
fn each_operation_is_written_as_asked() {
    use Operation::*;
    let import = b"\x0A\x01a\x12\x02\xAA\xBB\x18\x80\x10\x20\x01\x28\x01";
    let hash = [0x5A; 32];
    let verify = [b"\x0A\x01a\x12\x20", &hash[..], b"\x1A\x02\xCC\xDD"].concat();
    let named: [(Operation, u8, u16, &[u8]); 8] = [
        (Ping, 0, 1, b""),
        (ListProviders, 0, 8, b""),
        (ListOpcodes { provider: 1 }, 0, 9, b"\x08\x01"),
        (ListOpcodes { provider: 0 }, 0, 9, b""),
        (ImportKey(IMPORT), 1, 6, import),
        (DestroyKey { name: b"key" }, 1, 3, b"\x0A\x03key"),
        (ExportPublicKey { name: b"key" }, 1, 7, b"\x0A\x03key"),
        (AsymmetricVerify(VERIFY), 1, 5, &verify),
    ];
    for (operation, provider, opcode, body) in named {
        assert_eq!(operation.opcode().number(), opcode);
        assert_eq!(operation.opcode().provider().number(), provider.into());
        let by_scanner = expected(provider, 1, opcode, body, b"scanner");
        expect_written(request(Some(b"scanner"), operation), &by_scanner);
        let by_nobody = expected(provider, 0, opcode, body, b"");
        expect_written(request(None, operation), &by_nobody);
    }
}

#[test]
fn each_operation_is_written_as_tagged_records() {
    use Operation::*;
    let import = b"\x01\x01\x00a\x02\x02\x00\xAA\xBB\x03\x04\x00\x00\x08\x00\x00\x04\x01\x00\x01\x05\x01\x00\x01";
    let hash = [0x5A; 32];
    let verify = [
        b"\x01\x01\x00a\x02\x20\x00",
        &hash[..],
        b"\x03\x02\x00\xCC\xDD",
    ];
    let verify = verify.concat();
    let named: [(Operation, u8, u16, &[u8]); 8] = [
        (Ping, 0, 1, b""),
        (ListProviders, 0, 8, b""),
        (
            ListOpcodes { provider: 1 },
            0,
            9,
            b"\x01\x04\x00\x01\x00\x00\x00",
        ),
        (ListOpcodes { provider: 0 }, 0, 9, b""),
        (ImportKey(IMPORT), 1, 6, import),
        (DestroyKey { name: b"key" }, 1, 3, b"\x01\x03\x00key"),
        (ExportPublicKey { name: b"key" }, 1, 7, b"\x01\x03\x00key"),
        (AsymmetricVerify(VERIFY), 1, 5, &verify),
    ];
    for (operation, provider, opcode, body) in named {
        let by_scanner = typed([2, 2], provider, 1, opcode, body, b"scanner");
        let tagged = request(Some(b"scanner"), operation).in_format(BodyFormat::Tagged);
        expect_written(tagged, &by_scanner);
        // The response in the other format: no byte but the accept type changes.
        let accept_type = BodyFormat::Protobuf;
        let by_scanner = typed([2, 1], provider, 1, opcode, body, b"scanner");
        expect_written(
            Request {
                accept_type,
                ..tagged
            },
            &by_scanner,
        );
    }
}

#[test]
fn each_permission_stands_in_its_own_field() {
    let body = |export_allowed, verify_allowed| {
        let import = Import {
            export_allowed,
            verify_allowed,
            ..IMPORT
        };
        let (result, buffer) = written(&request(None, Operation::ImportKey(import)));
        buffer[28..result.unwrap()].to_vec()
    };
    let first = b"\x0A\x01a\x12\x02\xAA\xBB\x18\x80\x10";
    assert_eq!(body(false, false), first);
    assert_eq!(body(true, false), [&first[..], b"\x20\x01"].concat());
    assert_eq!(body(false, true), [&first[..], b"\x28\x01"].concat());
}

#[test]
fn bounds_themselves_are_written() {
    let application = vec![b'~'; LONGEST_APPLICATION_NAME];
    let longest = Import {
        name: &[b'!'; LONGEST_KEY_NAME],
        data: &[0; LONGEST_DATA],
        bits: MOST_BITS,
        ..IMPORT
    };
    let (result, _) = written(&request(Some(&application), Operation::ImportKey(longest)));
    assert_eq!(result, Ok(28 + 644 + LONGEST_APPLICATION_NAME));
    for bits in (LEAST_BITS..=MOST_BITS).step_by(BITS_STEP as usize) {
        let data = &[0];
        let least = Import {
            data,
            bits,
            ..IMPORT
        };
        let (result, _) = written(&request(Some(b"b"), Operation::ImportKey(least)));
        assert_eq!(result, Ok(28 + 13 + 1), "{bits}");
    }
}

/// In Protocol Buffers the name's field has 2 bytes more than the name, the hash's 34, the
/// signature's 3 more than it. As tagged records each has 3 more.
fn longest_signature(format: BodyFormat, name: &[u8]) -> usize {
    let heads = match format {
        BodyFormat::Protobuf => 2 + 2 + 3,
        BodyFormat::Tagged => 3 + 3 + 3,
    };
    LONGEST_BODY - heads - name.len() - HASH_SIZE
}

#[test]
fn a_signature_may_fill_the_body_and_not_a_byte_more() {
    let application = [b'~'; LONGEST_APPLICATION_NAME];
    let names = [&b"a"[..], &[b'!'; LONGEST_KEY_NAME]];
    for (format, name) in BodyFormat::ALL.iter().flat_map(|&f| names.map(|n| (f, n))) {
        let signature = vec![0xFF; longest_signature(format, name) + 1];
        let verify = |length: usize| {
            let signature = &signature[..length];
            let verify = Verify {
                name,
                signature,
                ..VERIFY
            };
            request(Some(&application), Operation::AsymmetricVerify(verify)).in_format(format)
        };
        let (result, buffer) = written(&verify(signature.len() - 1));
        assert_eq!(result, Ok(LONGEST_REQUEST));
        assert_eq!(buffer[20..24], (LONGEST_BODY as u32).to_le_bytes());
        expect_refused(verify(signature.len()), WriteRefusal::BodyTooLong);
    }
    // The least bound of all names: what the header promises.
    let longest = |format| longest_signature(format, &[b'!'; LONGEST_KEY_NAME]);
    assert_eq!(BodyFormat::ALL.map(longest), [4_025, 4_023]);
}

#[test]
fn a_signature_without_bytes_is_left_out() {
    let verify = Verify {
        signature: b"",
        ..VERIFY
    };
    let body = [b"\x0A\x01a\x12\x20", &[0x5A; 32][..]].concat();
    let bytes = expected(1, 1, 5, &body, b"b");
    expect_written(
        request(Some(b"b"), Operation::AsymmetricVerify(verify)),
        &bytes,
    );
}

#[test]
fn past_the_bounds_requests_are_refused() {
    use WriteRefusal::*;
    for name in [&b""[..], &[b'b'; LONGEST_APPLICATION_NAME + 1], b"b b"] {
        expect_refused(request(Some(name), Operation::Ping), ApplicationNameIllegal);
    }
    for name in [&b""[..], &[b'a'; LONGEST_KEY_NAME + 1], b"\x7F", b"a\n"] {
        let import = Operation::ImportKey(Import { name, ..IMPORT });
        let destroy = Operation::DestroyKey { name };
        let export = Operation::ExportPublicKey { name };
        let verify = Operation::AsymmetricVerify(Verify { name, ..VERIFY });
        for operation in [import, destroy, export, verify] {
            expect_refused(request(Some(b"b"), operation), KeyNameIllegal);
        }
    }
    for data in [&b""[..], &[0; LONGEST_DATA + 1]] {
        let import = Operation::ImportKey(Import { data, ..IMPORT });
        expect_refused(request(Some(b"b"), import), DataIllegal);
    }
    let taken = [2_048, 3_072, 4_096];
    let others = (0..=5_000).filter(|bits| !taken.contains(bits));
    for bits in others.chain([u32::MAX]) {
        let import = Operation::ImportKey(Import { bits, ..IMPORT });
        expect_refused(request(Some(b"b"), import), BitsIllegal);
    }
    for length in [0, 1, HASH_SIZE - 1, HASH_SIZE + 1, 64, LEAST_REQUEST_BUFFER] {
        let hash = &vec![0x5A; length];
        let verify = Operation::AsymmetricVerify(Verify { hash, ..VERIFY });
        expect_refused(request(Some(b"b"), verify), HashIllegal);
    }
    for length in [4_057, LEAST_REQUEST_BUFFER, 70_000] {
        let signature = &vec![0; length];
        let verify = Operation::AsymmetricVerify(Verify {
            signature,
            ..VERIFY
        });
        expect_refused(request(Some(b"b"), verify), BodyTooLong);
    }
}

#[test]
fn the_first_refusal_that_applies_is_said() {
    use WriteRefusal::*;
    let all = Import {
        name: b"",
        data: b"",
        bits: 0,
        ..IMPORT
    };
    let by_none = request(Some(b""), Operation::ImportKey(all));
    let mut short = [0xEE; LEAST_REQUEST_BUFFER - 1];
    assert_eq!(by_none.write(&mut short), Err(BufferTooSmall));
    assert_eq!(short, [0xEE; LEAST_REQUEST_BUFFER - 1]);
    expect_refused(by_none, ApplicationNameIllegal);
    expect_refused(
        request(Some(b"b"), Operation::ImportKey(all)),
        KeyNameIllegal,
    );
    let named = Import { name: b"a", ..all };
    expect_refused(
        request(Some(b"b"), Operation::ImportKey(named)),
        DataIllegal,
    );
    let with_data = Import {
        data: b"\xAA",
        ..named
    };
    expect_refused(
        request(Some(b"b"), Operation::ImportKey(with_data)),
        BitsIllegal,
    );
}

#[test]
fn a_verify_is_refused_for_its_names_then_its_hash_then_its_body() {
    use WriteRefusal::*;
    let all = Verify {
        name: b"",
        hash: b"",
        signature: &[0; LONGEST_BODY],
    };
    let by = |application, verify| request(Some(application), Operation::AsymmetricVerify(verify));
    let mut short = [0xEE; LEAST_REQUEST_BUFFER - 1];
    assert_eq!(by(b"", all).write(&mut short), Err(BufferTooSmall));
    expect_refused(by(b"", all), ApplicationNameIllegal);
    expect_refused(by(b"b", all), KeyNameIllegal);
    let named = Verify { name: b"a", ..all };
    expect_refused(by(b"b", named), HashIllegal);
    let hash = &[0; HASH_SIZE];
    expect_refused(by(b"b", Verify { hash, ..named }), BodyTooLong);
}

#[test]
fn a_buffer_of_exactly_the_least_size_is_taken() {
    let ping = request(None, Operation::Ping);
    assert_eq!(ping.write(&mut [0; LEAST_REQUEST_BUFFER]), Ok(28));
    assert_eq!(ping.write(&mut []), Err(WriteRefusal::BufferTooSmall));
}

#[test]
fn write_refusals_are_errors_with_texts_of_their_own() {
    let texts: Vec<String> = WriteRefusal::ALL
        .iter()
        .map(|refusal| {
            let error: &dyn std::error::Error = refusal;
            error.to_string()
        })
        .collect();
    for (place, text) in texts.iter().enumerate() {
        assert!(text.starts_with("request not written: "), "{text}");
        assert!(!texts[..place].contains(text), "{text}");
        assert_eq!(WriteRefusal::ALL[place].number(), place as u32 + 1);
    }
}

#[test]
fn opcodes_are_found_by_their_numbers_alone() {
    for number in 0..=u32::from(u16::MAX) + 9 {
        let listed = Opcode::ALL
            .into_iter()
            .find(|opcode| u32::from(*opcode as u16) == number);
        assert_eq!(Opcode::from_number(number), listed);
    }
}
