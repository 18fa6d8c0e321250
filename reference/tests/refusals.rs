//! Every refused call with nothing changed, their order, and every ill-formed memory.
//! Document 01, "When a call is not taken" and "Roster, registry, connection, tally"; document 02, "Keys
//! we ship", whose bad lists listed_keys.rs has, and "Surviving a power cut".

mod common;

use common::*;
use reference::{
    connection_is_well_formed, open_connection, registry_is_well_formed, Refusal, CONNECTION_SIZE,
    MAX_CHUNK, REGISTRY_SIZE,
};

#[test]
fn refusals_are_numbered_from_1_to_7() {
    let refusals = [
        Refusal::ResponseBufferTooSmall,
        Refusal::ChunkTooLong,
        Refusal::ConnectionIllFormed,
        Refusal::RegistryIllFormed,
        Refusal::CounterTooHigh,
        Refusal::ListIllFormed,
        Refusal::JournalBufferTooSmall,
    ];
    assert_eq!(refusals.map(Refusal::number), [1, 2, 3, 4, 5, 6, 7]);
}

#[test]
fn a_small_response_buffer_is_c1() {
    for size in [0, 26, 629, 1_023] {
        let mut service = Service::new();
        service.response = vec![0x55; size];
        service.expect_refusal(&PING_REQUEST, Refusal::ResponseBufferTooSmall);
    }
}

#[test]
fn a_long_chunk_is_c2() {
    let chunk = vec![0; MAX_CHUNK + 1];
    Service::new().expect_refusal(&chunk, Refusal::ChunkTooLong);
}

#[test]
fn every_counter_above_2_to_the_62_is_c5() {
    let too_high = (1 << 62) + 1;
    let mut services = vec![Service::new(); 4 + 8 + 19];
    services[0].counters.taken = too_high;
    services[1].counters.answered = too_high;
    services[2].counters.dropped = too_high;
    services[3].counters.unauthenticated = too_high;
    for line in 0..8 {
        services[4 + line].counters.served[line] = too_high;
    }
    for status in 0..19 {
        services[12 + status].counters.refused[status] = u64::MAX;
    }
    for mut service in services {
        service.expect_refusal(&PING_REQUEST, Refusal::CounterTooHigh);
        service.expect_refusal(&[], Refusal::CounterTooHigh);
    }
}

#[test]
fn every_counter_at_2_to_the_62_is_taken() {
    let mut service = Service::new();
    service.counters.taken = 1 << 62;
    service.counters.answered = 1 << 62;
    service.counters.dropped = 1 << 62;
    service.counters.served = [1 << 62; 8];
    service.counters.unauthenticated = 1 << 62;
    service.counters.refused = [1 << 62; 19];
    let before = service.clone();
    assert!(service.call(&[]).is_ok());
    assert_eq!(service, before);
}

// The order: each service has the fault of its name and every later one.

fn with_small_journal_buffer() -> Service {
    let mut service = Service::new();
    service.journal = vec![0x55; 1_023];
    service
}

fn with_bad_list() -> Service {
    with_small_journal_buffer().with_list(&lists::record(1, b"a"))
}

fn with_high_counter() -> Service {
    let mut service = with_bad_list();
    service.counters.dropped = u64::MAX;
    service
}

fn with_ill_formed_registry() -> Service {
    let mut service = with_high_counter();
    service.registry[line_at(7)] = 1;
    service
}

fn with_ill_formed_connection() -> Service {
    let mut service = with_ill_formed_registry();
    service.connection[0] = 3;
    service
}

#[test]
fn c1_comes_before_c2() {
    let mut service = with_ill_formed_connection();
    service.response = vec![0x55; 1_023];
    service.expect_refusal(&vec![0; MAX_CHUNK + 1], Refusal::ResponseBufferTooSmall);
}

#[test]
fn c2_comes_before_c3() {
    let chunk = vec![0; MAX_CHUNK + 1];
    with_ill_formed_connection().expect_refusal(&chunk, Refusal::ChunkTooLong);
}

#[test]
fn c3_comes_before_c4() {
    with_ill_formed_connection().expect_refusal(&PING_REQUEST, Refusal::ConnectionIllFormed);
}

#[test]
fn c4_comes_before_c5() {
    with_ill_formed_registry().expect_refusal(&PING_REQUEST, Refusal::RegistryIllFormed);
}

#[test]
fn c5_comes_before_c6() {
    with_high_counter().expect_refusal(&PING_REQUEST, Refusal::CounterTooHigh);
}

#[test]
fn c6_comes_before_c7() {
    with_bad_list().expect_refusal(&PING_REQUEST, Refusal::ListIllFormed);
}

#[test]
fn c7_comes_last() {
    with_small_journal_buffer().expect_refusal(&PING_REQUEST, Refusal::JournalBufferTooSmall);
}

#[test]
fn a_bad_list_is_c6_whatever_the_connection_and_the_chunk() {
    for connection in [open_holding(&PING_REQUEST[..9]), closed()] {
        let mut service = with_bad_list();
        service.connection = connection;
        for chunk in [&PING_REQUEST[..], &[0xFF; 6], &[]] {
            service.expect_refusal(chunk, Refusal::ListIllFormed);
        }
    }
}

#[test]
fn an_empty_chunk_is_refused_like_any_other() {
    with_ill_formed_connection().expect_refusal(&[], Refusal::ConnectionIllFormed);
    with_ill_formed_registry().expect_refusal(&[], Refusal::RegistryIllFormed);
    with_high_counter().expect_refusal(&[], Refusal::CounterTooHigh);
    with_bad_list().expect_refusal(&[], Refusal::ListIllFormed);
    with_small_journal_buffer().expect_refusal(&[], Refusal::JournalBufferTooSmall);
}

// C3.

fn expect_ill_formed_connection(connection: Vec<u8>) {
    assert!(!connection_is_well_formed(&connection));
    let mut service = Service::new();
    service.connection = connection;
    service.expect_refusal(&PING_REQUEST, Refusal::ConnectionIllFormed);
}

fn expect_well_formed_connection(connection: Vec<u8>) {
    assert!(connection_is_well_formed(&connection));
    let mut service = Service::new();
    service.connection = connection;
    let before = service.clone();
    assert!(service.call(&[]).is_ok());
    assert_eq!(service, before);
}

/// Sets one byte of memory that was zero.
fn with_byte(mut memory: Vec<u8>, at: usize) -> Vec<u8> {
    assert_eq!(memory[at], 0);
    memory[at] = 1;
    memory
}

fn oversized_header(header_size: u16, content_length: u32, auth_length: u16) -> Vec<u8> {
    let request = Request {
        header_size,
        ..ping()
    };
    request.header_with_lengths(content_length, auth_length)
}

#[test]
fn an_open_connection_holding_any_beginning_of_a_request_is_well_formed() {
    let request = import(&key(b"a")).bytes();
    for length in 0..request.len() {
        expect_well_formed_connection(open_holding(&request[..length]));
    }
}

#[test]
fn an_open_connection_holding_five_bytes_of_any_content_is_well_formed() {
    expect_well_formed_connection(open_holding(&[0xFF; 5]));
    expect_well_formed_connection(open_holding(&[0; 5]));
}

#[test]
fn an_open_connection_holding_all_but_one_of_4422_bytes_is_well_formed() {
    let longest = Request {
        header_size: 64,
        ..ping_of_size(4_096, 256)
    };
    expect_well_formed_connection(open_holding(&longest.bytes()[..4_421]));
    expect_ill_formed_connection(open_holding(&longest.bytes()));
}

#[test]
fn a_connection_of_another_size_is_ill_formed() {
    for size in [0, 1, 9, CONNECTION_SIZE - 1, CONNECTION_SIZE + 1] {
        expect_ill_formed_connection(vec![0; size]);
    }
}

#[test]
fn a_connection_of_another_kind_is_ill_formed() {
    for kind in [3, 4, 255] {
        expect_ill_formed_connection(connection_memory(kind, 0, &[]));
    }
}

#[test]
fn six_held_bytes_with_bad_magic_or_header_size_are_ill_formed() {
    expect_well_formed_connection(open_holding(&PING_REQUEST[..6]));
    for place in 0..4 {
        let mut start = PING_REQUEST[..6].to_vec();
        start[place] ^= 1;
        expect_ill_formed_connection(open_holding(&start));
    }
    for header_size in [0, 21, 65, 22 + 256] {
        let request = Request {
            header_size,
            ..ping()
        };
        expect_ill_formed_connection(open_holding(&request.bytes()[..6]));
        expect_ill_formed_connection(open_holding(&request.bytes()[..27]));
    }
}

#[test]
fn a_whole_request_held_is_ill_formed() {
    expect_ill_formed_connection(open_holding(&PING_REQUEST));
    expect_ill_formed_connection(open_holding(&import(&key(b"a")).bytes()));
    let and_more = [&PING_REQUEST[..], &[0x10]].concat();
    expect_ill_formed_connection(open_holding(&and_more));
}

#[test]
fn an_oversized_header_held_open_is_ill_formed() {
    for (content_length, auth_length) in [(4_097, 0), (0, 257)] {
        let header = oversized_header(22, content_length, auth_length);
        expect_well_formed_connection(open_holding(&header[..27]));
        expect_ill_formed_connection(open_holding(&header));
    }
}

#[test]
fn an_open_connection_with_nonzero_unused_bytes_is_ill_formed() {
    expect_ill_formed_connection(with_byte(open_holding(&[]), 9));
    expect_ill_formed_connection(with_byte(open_holding(&PING_REQUEST[..10]), 9 + 10));
    for at in [9 + 10, CONNECTION_SIZE - 1] {
        expect_ill_formed_connection(with_byte(open_holding(&PING_REQUEST[..10]), at));
    }
}

#[test]
fn an_open_connection_with_a_count_past_its_memory_is_ill_formed() {
    for count in [4_422, 4_423, 1 << 32, u64::MAX] {
        expect_ill_formed_connection(connection_memory(0, count, &PING_REQUEST));
        expect_ill_formed_connection(connection_memory(0, count, &[]));
    }
}

#[test]
fn a_count_whose_high_bytes_are_not_zero_is_not_cut_down() {
    expect_ill_formed_connection(connection_memory(0, 1 << 32 | 3, &[1, 2, 3]));
    let header = oversized_header(22, 4_097, 0);
    expect_ill_formed_connection(skipping(&header, 1 << 32 | 3));
}

#[test]
fn a_skipping_connection_with_1_to_all_bytes_to_go_is_well_formed() {
    for (content_length, auth_length) in [(4_097, 0), (0, 257), (u32::MAX, u16::MAX), (9, 300)] {
        let payload = u64::from(content_length) + u64::from(auth_length);
        for header_size in [22, 64] {
            let header = oversized_header(header_size, content_length, auth_length);
            expect_well_formed_connection(skipping(&header, 1));
            expect_well_formed_connection(skipping(&header, payload));
            expect_ill_formed_connection(skipping(&header, 0));
            expect_ill_formed_connection(skipping(&header, payload + 1));
            expect_ill_formed_connection(skipping(&header, u64::MAX));
        }
    }
}

#[test]
fn a_header_with_good_lengths_in_skipping_is_ill_formed() {
    for (content_length, auth_length) in [(4_096, 256), (1, 0), (0, 1)] {
        let header = oversized_header(22, content_length, auth_length);
        expect_ill_formed_connection(skipping(&header, 1));
    }
}

#[test]
fn a_skipping_connection_with_bad_magic_or_header_size_is_ill_formed() {
    let mut bad_magic = oversized_header(22, 4_097, 0);
    bad_magic[3] = 0;
    expect_ill_formed_connection(skipping(&bad_magic, 1));
    for header_size in [0, 21, 65, u16::MAX] {
        let header = oversized_header(header_size, 4_097, 0);
        expect_ill_formed_connection(skipping(&header, 1));
    }
    expect_ill_formed_connection(skipping(&[], 1));
}

#[test]
fn a_skipping_connection_with_nonzero_unused_bytes_is_ill_formed() {
    for header_size in [22, 30, 64] {
        let header = oversized_header(header_size, 4_097, 0);
        for at in [9 + header.len(), CONNECTION_SIZE - 1] {
            expect_ill_formed_connection(with_byte(skipping(&header, 1), at));
        }
    }
}

#[test]
fn a_closed_connection_holds_nothing() {
    expect_well_formed_connection(closed());
    for at in 1..CONNECTION_SIZE {
        assert!(!connection_is_well_formed(&with_byte(closed(), at)));
    }
    expect_ill_formed_connection(with_byte(closed(), 1));
    expect_ill_formed_connection(connection_memory(2, 3, &PING_REQUEST[..3]));
}

#[test]
fn opening_makes_any_memory_of_the_exact_size_a_fresh_connection() {
    for came in [vec![0xFF; CONNECTION_SIZE], closed(), open_holding(b"abc")] {
        let mut connection = came;
        assert_eq!(open_connection(&mut connection), Ok(()));
        assert_eq!(connection, vec![0; CONNECTION_SIZE]);
    }
}

#[test]
fn opening_memory_of_another_size_is_refused_and_it_stays() {
    for size in [0, CONNECTION_SIZE - 1, CONNECTION_SIZE + 1] {
        let mut connection = vec![0x5A; size];
        let refused = open_connection(&mut connection);
        assert_eq!(refused, Err(Refusal::ConnectionIllFormed));
        assert_eq!(connection, vec![0x5A; size]);
    }
}

// C4.

fn expect_ill_formed_registry(registry: Vec<u8>) {
    assert!(!registry_is_well_formed(&registry));
    let mut service = Service::new();
    service.registry = registry;
    service.expect_refusal(&PING_REQUEST, Refusal::RegistryIllFormed);
}

fn write(mut memory: Vec<u8>, at: usize, bytes: &[u8]) -> Vec<u8> {
    memory[at..at + bytes.len()].copy_from_slice(bytes);
    memory
}

fn with_line_name(registry: Vec<u8>, line: usize, name: &[u8]) -> Vec<u8> {
    let registry = write(registry, line_at(line), &[0; 65]);
    let field = [&[name.len() as u8], name].concat();
    write(registry, line_at(line), &field)
}

fn with_key(registry: Vec<u8>, line: usize, slot: usize, key: &Key) -> Vec<u8> {
    write(registry, slot_at(line, slot), &key.slot())
}

/// Lines 0 and 1 in use, no keys.
fn two_lines() -> Vec<u8> {
    Service::new().registry
}

/// Lines 0 and 1 in use, key `a` in slot 2 of line 1.
fn one_key() -> Vec<u8> {
    with_key(two_lines(), 1, 2, &key(b"a"))
}

/// The place of an offset within the key of `one_key`.
fn in_the_key(offset: usize) -> usize {
    slot_at(1, 2) + offset
}

#[test]
fn a_registry_of_any_used_lines_and_slots_is_well_formed() {
    assert!(registry_is_well_formed(&vec![0; REGISTRY_SIZE]));
    assert!(registry_is_well_formed(&two_lines()));
    assert!(registry_is_well_formed(&one_key()));
}

#[test]
fn a_registry_of_another_size_is_ill_formed() {
    // 21,096 is the size with four slots a line, 20,968 that without counts of uses.
    for size in [0, 20_968, 21_096, REGISTRY_SIZE - 1, REGISTRY_SIZE + 1] {
        expect_ill_formed_registry(vec![0; size]);
    }
}

#[test]
fn an_unused_line_before_a_used_one_is_ill_formed() {
    expect_ill_formed_registry(with_line_name(two_lines(), 3, b"gap"));
    expect_ill_formed_registry(with_line_name(vec![0; REGISTRY_SIZE], 7, b"last"));
}

#[test]
fn an_illegal_application_name_is_ill_formed() {
    for name in [&b"a b"[..], b"\x7F", b"\x80", b"a\0"] {
        expect_ill_formed_registry(with_line_name(two_lines(), 1, name));
    }
}

#[test]
fn an_application_name_longer_than_64_bytes_is_ill_formed() {
    let longest = with_line_name(two_lines(), 1, &[b'n'; 64]);
    assert!(registry_is_well_formed(&longest));
    for length in [65, 66, 255] {
        expect_ill_formed_registry(write(longest.clone(), line_at(1), &[length]));
    }
}

#[test]
fn an_application_name_followed_by_nonzero_bytes_is_ill_formed() {
    expect_ill_formed_registry(write(two_lines(), line_at(1) + 64, b"x"));
    expect_ill_formed_registry(write(two_lines(), line_at(0) + 1 + FIRST.len(), &[1]));
}

#[test]
fn a_repeated_application_name_is_ill_formed() {
    expect_ill_formed_registry(with_line_name(two_lines(), 1, FIRST));
    let third = with_line_name(two_lines(), 2, b"third");
    expect_ill_formed_registry(with_line_name(third, 2, FIRST));
}

#[test]
fn an_unused_line_with_bytes_of_a_name_is_ill_formed() {
    expect_ill_formed_registry(write(two_lines(), line_at(2) + 1, b"x"));
    expect_ill_formed_registry(write(two_lines(), line_at(7) + 64, b"x"));
}

#[test]
fn a_used_slot_in_an_unused_line_is_ill_formed() {
    expect_ill_formed_registry(with_key(two_lines(), 2, 0, &key(b"a")));
    expect_ill_formed_registry(with_key(two_lines(), 7, 3, &key(b"a")));
}

#[test]
fn a_free_slot_that_is_not_all_zero_is_ill_formed() {
    for offset in [1, 32, 33, 34, 35, 634].into_iter().chain(635..SLOT_SIZE) {
        expect_ill_formed_registry(write(two_lines(), slot_at(0, 3) + offset, &[1]));
    }
    let name_taken_away = write(one_key(), in_the_key(0), &[0; 33]);
    expect_ill_formed_registry(name_taken_away);
}

#[test]
fn a_key_name_out_of_bounds_is_ill_formed() {
    let longest = with_key(two_lines(), 1, 2, &key(&[b'k'; 32]));
    assert!(registry_is_well_formed(&longest));
    for length in [33, 34, 255] {
        expect_ill_formed_registry(write(longest.clone(), in_the_key(0), &[length]));
    }
    for byte in [0x00, 0x20, 0x7F, 0xFF] {
        expect_ill_formed_registry(write(longest.clone(), in_the_key(1 + 31), &[byte]));
        expect_ill_formed_registry(write(longest.clone(), in_the_key(1), &[byte]));
    }
}

#[test]
fn a_key_name_followed_by_nonzero_bytes_is_ill_formed() {
    expect_ill_formed_registry(write(one_key(), in_the_key(2), b"x"));
    expect_ill_formed_registry(write(one_key(), in_the_key(32), b"x"));
}

#[test]
fn a_data_length_out_of_bounds_is_ill_formed() {
    let no_data = Key {
        data: Vec::new(),
        ..key(b"a")
    };
    expect_ill_formed_registry(with_key(two_lines(), 1, 2, &no_data));
    let longest = Key {
        data: vec![0xDA; 600],
        ..key(b"a")
    };
    let longest = with_key(two_lines(), 1, 2, &longest);
    assert!(registry_is_well_formed(&longest));
    for length in [601_u16, 602, u16::MAX] {
        let registry = write(longest.clone(), in_the_key(33), &length.to_le_bytes());
        expect_ill_formed_registry(registry);
    }
}

#[test]
fn data_followed_by_nonzero_bytes_is_ill_formed() {
    expect_ill_formed_registry(write(one_key(), in_the_key(37), &[1]));
    expect_ill_formed_registry(write(one_key(), in_the_key(634), &[1]));
}

#[test]
fn data_of_zeros_is_well_formed() {
    let zeros = Key {
        data: vec![0; 600],
        ..key(b"a")
    };
    assert!(registry_is_well_formed(&with_key(
        two_lines(),
        1,
        2,
        &zeros
    )));
}

#[test]
fn bits_out_of_bounds_are_ill_formed() {
    for bits in [0_u16, 1_016, 1_028, 2_049, 4_104, u16::MAX] {
        expect_ill_formed_registry(write(one_key(), in_the_key(635), &bits.to_le_bytes()));
    }
    for bits in [1_024_u16, 1_032, 4_096] {
        let registry = write(one_key(), in_the_key(635), &bits.to_le_bytes());
        assert!(registry_is_well_formed(&registry));
    }
}

#[test]
fn flags_of_2_are_ill_formed() {
    for offset in [637, 638] {
        for flag in [0, 1] {
            let registry = write(one_key(), in_the_key(offset), &[flag]);
            assert!(registry_is_well_formed(&registry));
        }
        for flag in [2, 255] {
            expect_ill_formed_registry(write(one_key(), in_the_key(offset), &[flag]));
        }
    }
}

#[test]
fn any_count_of_uses_in_a_used_slot_is_well_formed() {
    for uses in [0, 1, 255, 256, 1 << 31, u32::MAX - 1, u32::MAX] {
        let registry = write(one_key(), in_the_key(USES_AT), &uses.to_le_bytes());
        assert!(registry_is_well_formed(&registry), "{uses}");
    }
}

#[test]
fn a_count_of_uses_in_a_free_slot_is_ill_formed() {
    for slot in [slot_at(0, 0), slot_at(1, 3), slot_at(2, 0), slot_at(7, 3)] {
        for uses in [1, 1 << 8, 1 << 16, 1 << 24, u32::MAX] {
            let registry = write(two_lines(), slot + USES_AT, &uses.to_le_bytes());
            expect_ill_formed_registry(registry);
        }
    }
}

#[test]
fn one_key_name_twice_in_a_line_is_ill_formed() {
    for slot in [0, 1, 3, 7] {
        let other_data = Key {
            data: vec![1],
            ..key(b"a")
        };
        expect_ill_formed_registry(with_key(one_key(), 1, slot, &other_data));
    }
}

#[test]
fn one_key_name_in_two_lines_is_well_formed() {
    let registry = with_key(one_key(), 0, 2, &key(b"a"));
    assert!(registry_is_well_formed(&registry));
}

#[test]
fn a_used_slot_behind_a_free_one_is_well_formed() {
    let registry = with_key(two_lines(), 0, 7, &key(b"a"));
    assert!(registry_is_well_formed(&registry));
}

// Any memory: a call is refused and changes nothing, or it is taken and leaves memory well formed.

fn expect_refused_or_well_formed(mut service: Service) {
    let before = service.clone();
    let is_well_formed = |service: &Service| {
        connection_is_well_formed(&service.connection) && registry_is_well_formed(&service.registry)
    };
    match service.call(&PING_REQUEST) {
        Ok(_) => assert!(is_well_formed(&before) && is_well_formed(&service)),
        Err(_) => assert!(!is_well_formed(&before) && service == before),
    }
}

#[test]
fn a_connection_with_any_byte_changed_is_refused_or_stays_well_formed() {
    let header = oversized_header(30, 4_097, 1);
    let connections = [
        open_holding(&import(&key(b"a")).bytes()[..40]),
        skipping(&header, 20),
        closed(),
    ];
    for connection in connections {
        for at in (0..100).chain([CONNECTION_SIZE - 1]) {
            for bit in 0..8 {
                let mut service = Service::new();
                service.connection = connection.clone();
                service.connection[at] ^= 1 << bit;
                expect_refused_or_well_formed(service);
            }
        }
    }
}

#[test]
fn a_registry_with_any_byte_changed_is_refused_or_stays_well_formed() {
    let keys = Service::with_keys(&[b"a", b"b", b"c"]);
    for at in (0..REGISTRY_SIZE).step_by(5) {
        let mut service = keys.clone();
        service.registry[at] ^= 1 << (at % 8);
        expect_refused_or_well_formed(service);
    }
}
