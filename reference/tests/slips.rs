//! Cases that a bid with one of the known slips would fail; each says what the slip would answer.
//! Document 01, "Slips we have seen in bids".

mod common;

use common::*;
use reference::{bill, Counters, Status};

fn statuses_of(responses: &[Vec<u8>]) -> Vec<u16> {
    let status = |response: &Vec<u8>| Response::read(response).status;
    responses.iter().map(status).collect()
}

/// Puts these eight bytes between the known header and the body of a request with H = 30.
fn with_past_the_22nd(request: &Request, past: [u8; 8]) -> Vec<u8> {
    let request = Request {
        header_size: 30,
        ..request.clone()
    };
    let mut bytes = request.bytes();
    bytes[28..36].copy_from_slice(&past);
    bytes
}

/// The slip reads provider 0 from the eight bytes and answers `0A 03 01 08 09`.
#[test]
fn with_h_of_30_the_body_starts_eight_bytes_later() {
    let mut service = Service::new();
    let past = [0x08, 0x00, 0x08, 0x00, 0x08, 0x00, 0x08, 0x00];
    let responses = service.send(&with_past_the_22nd(&list_opcodes(1), past));
    assert_eq!(responses.len(), 1);
    assert_eq!(
        Response::read(&responses[0]).body,
        [0x0A, 0x04, 0x03, 0x05, 0x06, 0x07]
    );
}

/// The slip takes eight bytes too few, answers 11 for a name read from the body, and then 17.
#[test]
fn with_h_of_30_the_next_request_is_in_step() {
    let mut service = Service::new();
    let import = with_past_the_22nd(&import(&key(b"a")), [FILLER; 8]);
    let ping = with_past_the_22nd(&ping(), [FILLER; 8]);
    let stream = [import, ping, export(b"a").bytes()].concat();
    assert_eq!(statuses_of(&service.send(&stream)), [0, 0, 0]);
    assert_eq!(service.slot(0, 0)[..USES_AT], key(b"a").slot()[..USES_AT]);
    assert_eq!(service.counters.answered, stream.len() as u64);
}

/// The slip answers 20 at the header, then Success to each Ping inside the skipped bytes.
#[test]
fn an_oversized_request_is_answered_at_its_last_byte_and_the_stream_stays_in_step() {
    let pings = PING_REQUEST.repeat(147);
    let request = Request {
        body: pings[..4_097].to_vec(),
        ..ping()
    };
    let bytes = request.bytes();
    let none = Vec::<Vec<u8>>::new();
    let mut service = Service::new();
    assert_eq!(service.send(&bytes[..28]), none);
    assert_eq!(service.send(&bytes[28..2_000]), none);
    assert_eq!(service.send(&bytes[2_000..bytes.len() - 1]), none);
    let last_and_ping = [&bytes[bytes.len() - 1..], &PING_REQUEST].concat();
    assert_eq!(statuses_of(&service.send(&last_and_ping)), [20, 0]);
    assert_eq!(service.counters.unauthenticated, 1);
    assert_eq!(service.refused_with(Status::BodySizeExceedsLimit), 1);
}

/// The same with A too large: the slip answers 11 at the header, then 17 to the letters.
#[test]
fn an_oversized_auth_is_answered_at_its_last_byte_and_the_stream_stays_in_step() {
    let bytes = ping_of_size(3, 257).bytes();
    let mut service = Service::new();
    let stream = [&bytes[..], &PING_REQUEST].concat();
    let taken = service.call(&stream).unwrap();
    assert_eq!(taken.taken, bytes.len());
    assert_eq!(Response::read(&service.response[..26]).status, 11);
    assert_eq!(statuses_of(&service.send(&stream[taken.taken..])), [0]);
}

/// The slip judges the bytes that have arrived and answers 17 to a good magic cut short.
#[test]
fn a_good_magic_cut_at_every_place_is_read() {
    for cut in 0..=6 {
        let mut service = Service::new();
        assert_eq!(service.send(&PING_REQUEST[..cut]), Vec::<Vec<u8>>::new());
        assert_eq!(service.connection, open_holding(&PING_REQUEST[..cut]));
        assert_eq!(service.send(&PING_REQUEST[cut..]), [PING_RESPONSE]);
    }
}

/// The slip answers 17 at the first wrong byte and counts fewer than six bytes as answered.
#[test]
fn a_wrong_magic_cut_at_every_place_is_judged_at_the_sixth_byte() {
    for cut in 0..6 {
        let mut service = Service::new();
        assert_eq!(service.send(&[0xFF; 6][..cut]), Vec::<Vec<u8>>::new());
        assert_eq!(service.connection, open_holding(&[0xFF; 6][..cut]));
        assert_eq!(statuses_of(&service.send(&[0xFF; 6][cut..])), [17]);
        assert_eq!(service.counters.answered, 6);
        assert_eq!(service.connection, closed());
    }
}

/// The slip judges H by its low byte: it answers 17 to 21 at the fifth, and reads 278 as 22.
#[test]
fn a_header_size_cut_in_half_is_judged_at_the_sixth_byte() {
    let none = Vec::<Vec<u8>>::new();
    for (header_size, statuses) in [(22 + 256, vec![17]), (21, vec![17]), (22, vec![])] {
        let request = Request {
            header_size,
            ..ping()
        };
        let start = &request.bytes()[..6];
        let mut service = Service::new();
        assert_eq!(service.send(&start[..5]), none);
        assert_eq!(statuses_of(&service.send(&start[5..])), statuses);
    }
}

/// One slip counts the refused export as served on line 0, the other has `dropped` at 0.
#[test]
fn a_refused_request_is_not_served_and_dropped_bytes_are_counted() {
    let mut service = Service::new();
    let refused = export(b"a").bytes();
    let served = ping().sent_by(SECOND).bytes();
    let stream = [&refused[..], &served, &[0; 6], &PING_REQUEST].concat();
    assert_eq!(statuses_of(&service.send(&stream)), [1_140, 0, 17]);
    let mut expected = Counters {
        taken: stream.len() as u64,
        answered: (refused.len() + served.len() + 6) as u64,
        dropped: 28,
        served: [0, 1, 0, 0, 0, 0, 0, 0],
        ..Counters::default()
    };
    let place_of = |status| {
        let place = Status::REFUSED.iter().position(|&other| other == status);
        place.unwrap()
    };
    expected.refused[place_of(Status::PsaErrorDoesNotExist)] = 1;
    expected.refused[place_of(Status::InvalidHeader)] = 1;
    assert_eq!(service.counters, expected);
}

/// The slips print `line 0 b 1` or `dropped 0` here.
#[test]
fn the_bill_shows_refused_requests_and_dropped_bytes() {
    let refused = Request {
        opcode: 0,
        ..ping().sent_by(b"b")
    };
    let stream = [&refused.bytes()[..], &[0xFF; 9]].concat();
    let expected = "taken 38\nline 0 b 0\nopen 0\nrefused 9 1\nrefused 17 1\ndropped 3\nheld 0\n";
    assert_eq!(
        bill(Some(&roster_of(&[b"b"])), Some(&stream), Some(&[])),
        expected.as_bytes()
    );
}

/// The slip answers 1139 to the second import, then the first application's data to both.
#[test]
fn one_key_name_under_two_applications_is_two_keys() {
    let mut service = Service::new();
    let applications = [(FIRST, vec![1]), (SECOND, vec![2, 2])];
    for (application, data) in &applications {
        let key = Key {
            data: data.clone(),
            ..key(b"same")
        };
        let request = import(&key).sent_by(application);
        service.expect_status(&request, Status::Success);
    }
    for (application, data) in &applications {
        let response = service.ask(&export(b"same").sent_by(application));
        assert_eq!(response.body, Body::new().field(1, data).bytes());
    }
}

/// The slip exports and destroys the other application's key with Success.
#[test]
fn a_key_of_another_application_does_not_exist() {
    for (owner, other) in [(FIRST, SECOND), (SECOND, FIRST)] {
        let mut service = Service::new();
        let request = import(&key(b"a")).sent_by(owner);
        service.expect_status(&request, Status::Success);
        for request in [export(b"a"), destroy(b"a")] {
            let request = request.sent_by(other);
            service.expect_status(&request, Status::PsaErrorDoesNotExist);
        }
        let request = export(b"a").sent_by(owner);
        service.expect_status(&request, Status::Success);
    }
}

/// The slip frees the slot of the first application that holds the name.
#[test]
fn destroying_a_key_leaves_the_other_applications_alone() {
    let mut service = Service::new();
    for application in [FIRST, SECOND] {
        let request = import(&key(b"a")).sent_by(application);
        service.expect_status(&request, Status::Success);
    }
    let request = destroy(b"a").sent_by(SECOND);
    service.expect_status(&request, Status::Success);
    assert_eq!(service.slot(0, 0), key(b"a").slot());
    assert_eq!(service.slot(1, 0), vec![0; SLOT_SIZE]);
}
