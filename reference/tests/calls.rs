//! What one call takes, writes, holds and leaves alone.
//! Document 01, "When a call is not taken" and "A whole stream under the rules".

mod common;

use common::*;
use reference::{rules, Counters, Status, Taken};

#[test]
fn an_empty_chunk_is_taken_and_alters_nothing() {
    let header = ping().header_with_lengths(4_097, 0);
    let connections = [
        open_holding(&[]),
        open_holding(&PING_REQUEST[..27]),
        skipping(&header, 1),
        closed(),
    ];
    for connection in connections {
        let mut service = Service::with_keys(&[b"a"]);
        service.connection = connection;
        let before = service.clone();
        let nothing = Taken {
            taken: 0,
            written: 0,
            recorded: 0,
        };
        assert_eq!(service.call(&[]), Ok(nothing));
        assert_eq!(service, before);
    }
}

#[test]
fn a_call_takes_bytes_until_it_has_written_one_response() {
    let mut service = Service::new();
    let two = [PING_REQUEST, PING_REQUEST].concat();
    let first = Taken {
        taken: 28,
        written: 28,
        recorded: 0,
    };
    assert_eq!(service.call(&two), Ok(first));
    assert_eq!(service.counters.taken, 28);
    assert_eq!(service.connection, open_holding(&[]));
    assert_eq!(service.call(&two[28..]), Ok(first));
    assert_eq!(service.counters.taken, 56);
    assert_eq!(service.counters.unauthenticated, 2);
}

#[test]
fn a_call_that_ends_a_held_request_takes_only_its_bytes() {
    let mut service = Service::new();
    service.send(&PING_REQUEST[..20]);
    let rest = [&PING_REQUEST[20..], &PING_REQUEST].concat();
    let taken = Taken {
        taken: 8,
        written: 28,
        recorded: 0,
    };
    assert_eq!(service.call(&rest), Ok(taken));
    assert_eq!(service.response[..28], PING_RESPONSE);
}

#[test]
fn a_call_that_closes_takes_up_to_the_sixth_byte() {
    for held in 0..6 {
        let mut service = Service::new();
        service.send(&[0xFF; 6][..held]);
        let taken = Taken {
            taken: 6 - held,
            written: 26,
            recorded: 0,
        };
        assert_eq!(service.call(&[0xFF; 100]), Ok(taken));
        assert_eq!(service.connection, closed());
        assert_eq!(service.counters.answered, 6);
        assert_eq!(service.counters.dropped, 0);
    }
}

#[test]
fn a_closed_connection_takes_and_drops_all() {
    let mut service = Service::new();
    service.connection = closed();
    let taken = Taken {
        taken: 28,
        written: 0,
        recorded: 0,
    };
    assert_eq!(service.call(&PING_REQUEST), Ok(taken));
    let expected = Counters {
        taken: 28,
        dropped: 28,
        ..Counters::default()
    };
    assert_eq!(service.counters, expected);
    assert_eq!(service.connection, closed());
}

#[test]
fn bytes_of_the_response_buffer_past_the_response_stay() {
    let refused = Request {
        opcode: 0,
        ..ping()
    };
    let closing = Request {
        header_size: 0,
        ..ping()
    };
    for request in [
        ping(),
        export(b"a"),
        list_opcodes(1),
        list_opcodes(2),
        refused,
        closing,
        ping_of_size(4_097, 0),
        ping_of_size(0, 257),
        keystore(EXPORT, vec![0xFF]),
    ] {
        for buffer_size in [1_024, 5_000] {
            let mut service = Service::with_keys(&[b"a"]);
            service.response = vec![0x77; buffer_size];
            let taken = service.call(&request.bytes()).unwrap();
            assert!(taken.written >= 26);
            let past = &service.response[taken.written..];
            assert!(past.iter().all(|&byte| byte == 0x77));
        }
    }
}

#[test]
fn a_call_without_a_response_leaves_the_response_buffer_alone() {
    let mut service = Service::new();
    let before = service.response.clone();
    service.call(&PING_REQUEST[..27]).unwrap();
    assert_eq!(service.response, before);
}

#[test]
fn an_unfinished_request_is_held_as_it_came() {
    let request = import(&key(b"a")).bytes();
    for length in 0..request.len() {
        let mut service = Service::new();
        service.send(&request[..length]);
        assert_eq!(service.connection, open_holding(&request[..length]));
        assert_eq!(service.counters.taken, length as u64);
        assert_eq!(service.counters.answered, 0);
    }
}

#[test]
fn an_oversized_request_is_answered_within_one_chunk() {
    let mut service = Service::new();
    let request = ping_of_size(4_097, 300).bytes();
    let stream = [&request[..], &PING_REQUEST].concat();
    let taken = Taken {
        taken: request.len(),
        written: 26,
        recorded: 0,
    };
    assert_eq!(service.call(&stream), Ok(taken));
    assert_eq!(service.connection, open_holding(&[]));
    assert_eq!(service.counters.answered, request.len() as u64);
    assert_eq!(service.refused_with(Status::BodySizeExceedsLimit), 1);
}

#[test]
fn an_oversized_requests_bytes_are_counted_down_from_its_header() {
    let request = ping_of_size(4_097, 0);
    let bytes = request.bytes();
    for held in [0, 1, 5, 6, 7, 27, 28] {
        let mut service = Service::new();
        service.send(&bytes[..held]);
        service.send(&bytes[held..28]);
        assert_eq!(service.connection, skipping(&request.header(), 4_097));
        service.send(&bytes[28..128]);
        assert_eq!(service.connection, skipping(&request.header(), 3_997));
        assert_eq!(service.counters.taken, 128);
        assert_eq!(service.counters.answered, 0);
        assert_eq!(service.send(&bytes[128..]).len(), 1);
        assert_eq!(service.connection, open_holding(&[]));
        assert_eq!(service.counters.answered, bytes.len() as u64);
    }
}

#[test]
fn the_largest_content_and_auth_are_counted_without_overflow() {
    let header = ping().header_with_lengths(u32::MAX, u16::MAX);
    let payload = u64::from(u32::MAX) + u64::from(u16::MAX);
    let mut service = Service::new();
    service.send(&header);
    assert_eq!(service.connection, skipping(&header, payload));
    service.send(&[0; 1_000]);
    assert_eq!(service.connection, skipping(&header, payload - 1_000));
    let outcome = rules::run(&service.registry, &[&header[..], &[0; 1_000]].concat());
    assert_eq!(outcome.connection.to_memory(), service.connection);
    service.connection = skipping(&header, 1);
    assert_eq!(service.send(&[0]).len(), 1);
    assert_eq!(service.counters.answered, payload + 28);
}

#[test]
fn the_rules_give_a_fresh_connection_for_an_empty_stream() {
    let service = Service::new();
    let outcome = rules::run(&service.registry, &[]);
    assert_eq!(outcome.responses, Vec::<Vec<u8>>::new());
    assert_eq!(outcome.registry, service.registry);
    assert_eq!(outcome.counters, Counters::default());
    assert_eq!(outcome.connection, rules::ConnectionState::Open(Vec::new()));
    assert_eq!(outcome.connection.to_memory(), open_holding(&[]));
}

#[test]
fn the_rules_end_in_each_state_of_a_connection() {
    let registry = Service::new().registry;
    let end = |stream: &[u8]| rules::run(&registry, stream).connection;
    let open = rules::ConnectionState::Open(PING_REQUEST[..9].to_vec());
    assert_eq!(end(&PING_REQUEST[..9]), open);
    assert_eq!(open.to_memory(), open_holding(&PING_REQUEST[..9]));
    let header = ping().header_with_lengths(5_000, 0);
    let skipped = rules::ConnectionState::Skipping {
        header: header.clone(),
        to_go: 4_999,
    };
    assert_eq!(end(&[&header[..], &[0]].concat()), skipped);
    assert_eq!(skipped.to_memory(), skipping(&header, 4_999));
    assert_eq!(end(&[0; 6]), rules::ConnectionState::Closed);
    assert_eq!(rules::ConnectionState::Closed.to_memory(), closed());
}
