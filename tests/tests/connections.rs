//! Which connection memory is well formed: document 01, "Roster, registry, connection, tally".

use razidkot::raw;
use razidkot_tests::ask::registry_of;
use razidkot_tests::connections::{damage, some_connection};
use razidkot_tests::foreign;
use razidkot_tests::run::{for_seeds, Outcomes};
use reference::rules::ConnectionState;
use reference::CONNECTION_SIZE;

fn kind_of(state: &ConnectionState) -> &'static str {
    match state {
        ConnectionState::Open(_) => "open",
        ConnectionState::Skipping { .. } => "skipping",
        ConnectionState::Closed => "closed",
    }
}

#[test]
fn what_a_stream_leaves_is_well_formed() {
    let registry = registry_of(&[]);
    let mut outcomes = Outcomes::default();
    for_seeds(2_000, |random| {
        let state = some_connection(random, &registry);
        assert!(
            foreign::connection_is_well_formed(&state.to_memory()),
            "{state:?}"
        );
        outcomes.count(kind_of(&state));
    });
    outcomes.assert_often(&["open", "skipping", "closed"], 50);
}

#[test]
fn damaged_connections_are_judged_alike() {
    let registry = registry_of(&[]);
    let mut outcomes = Outcomes::default();
    for_seeds(2_000, |random| {
        let state = some_connection(random, &registry);
        for _ in 0..10 {
            let mut connection = state.to_memory();
            damage(random, &mut connection);
            let proved = foreign::connection_is_well_formed(&connection);
            let judged = reference::connection_is_well_formed(&connection);
            let shown = &connection[..connection.len().min(79)];
            assert_eq!(proved, judged, "{shown:02X?} of {}", connection.len());
            outcomes.count(format!("{} {proved}", kind_of(&state)));
        }
    });
    for kind in ["open", "skipping"] {
        outcomes.assert_often(&[format!("{kind} true"), format!("{kind} false")], 100);
    }
    outcomes.assert_often(&["closed false"], 100);
}

#[test]
fn every_number_of_bytes_held_or_to_go_is_judged_alike() {
    let registry = registry_of(&[]);
    let mut outcomes = Outcomes::default();
    for_seeds(20, |random| {
        let state = some_connection(random, &registry);
        let mut connection = state.to_memory();
        for count in (0..4_500).chain((4_500..90_000).step_by(997)) {
            for kind in 0..2 {
                connection[0] = kind;
                connection[1..9].copy_from_slice(&u64::to_le_bytes(count));
                let proved = foreign::connection_is_well_formed(&connection);
                let judged = reference::connection_is_well_formed(&connection);
                assert_eq!(proved, judged, "{:02X?}", &connection[..79]);
                outcomes.count(proved);
            }
        }
    });
    outcomes.assert_often(&[true, false], 1_000);
}

#[test]
fn memory_of_the_exact_size_becomes_a_fresh_connection_and_any_other_stays() {
    let mut outcomes = Outcomes::default();
    for_seeds(500, |random| {
        let size = random.pick(&[CONNECTION_SIZE, CONNECTION_SIZE, 0, 4_430, 4_432]);
        let before = random.bytes(size);
        let [mut leaf, mut service, mut second] = [(); 3].map(|()| before.clone());
        let opened = reference::open_connection(&mut second).is_ok();
        assert_eq!(foreign::open_connection(&mut leaf).is_ok(), opened);
        assert_eq!(raw::open_connection(&mut service).is_ok(), opened);
        assert!(leaf == second && service == second);
        if !opened {
            assert!(service == before);
        }
        outcomes.count(opened);
    });
    outcomes.assert_often(&[true, false], 100);
}
