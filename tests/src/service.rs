//! A caller of the compiled service through the types of the bindings, held to the uncut rules of
//! the reference: document 01, "A whole stream under the rules"; document 02, "Keys we ship".

use crate::ask::{record, registry_of};
use crate::lent::to_reference;
use razidkot::{Buffers, Connection, List, NoJournal, Registry, Service, LONGEST_CHUNK};
use reference::rules;

/// A service with a roster of these names, no keys, and a good list.
fn service_of(names: &[Vec<u8>], list: &[u8]) -> Service<NoJournal> {
    let roster: Vec<u8> = names.iter().flat_map(|name| record(1, name)).collect();
    let registry = Registry::load(&roster).expect("a good roster");
    let list = List::from_bytes(list).expect("a good list");
    Service::new(registry, list, NoJournal)
}

/// Hands the stream over in chunks of these sizes, over and over; gives the responses.
pub fn send(
    service: &mut Service<NoJournal>,
    connection: &mut Connection,
    stream: &[u8],
    sizes: &[usize],
) -> Vec<Vec<u8>> {
    let (mut responses, mut buffers) = (Vec::new(), Buffers::new());
    let mut sizes = sizes.iter().copied().cycle();
    let mut rest = stream;
    while !rest.is_empty() {
        let size = sizes.next().unwrap_or(LONGEST_CHUNK).min(rest.len());
        let answer = service.call(connection, &rest[..size], &mut buffers);
        let answer = answer.expect("a call that is taken");
        responses.extend(answer.response.map(<[u8]>::to_vec));
        rest = &rest[answer.taken..];
    }
    responses
}

/// `responses_with_list` with the empty list.
pub fn responses(names: &[Vec<u8>], stream: &[u8], sizes: &[usize]) -> Vec<Vec<u8>> {
    responses_with_list(names, &[], stream, sizes)
}

/// The responses to a stream that begins on a fresh connection with a registry of these names and
/// no keys, the list being good; all that they and the calls come to is what the rules give for the
/// uncut stream.
pub fn responses_with_list(
    names: &[Vec<u8>],
    list: &[u8],
    stream: &[u8],
    sizes: &[usize],
) -> Vec<Vec<u8>> {
    let (mut service, mut connection) = (service_of(names, list), Connection::open());
    let responses = send(&mut service, &mut connection, stream, sizes);
    let expected = rules::run_with_list(&registry_of(names), list, stream);
    assert_eq!(responses, expected.responses);
    assert!(service.registry().memory() == expected.registry, "registry");
    let held = expected.connection.to_memory();
    assert!(connection.memory() == held, "connection");
    let is_closed = expected.connection == rules::ConnectionState::Closed;
    assert_eq!(connection.is_closed(), is_closed);
    assert_eq!(to_reference(service.counters()), expected.counters);
    responses
}
