//! The count of uses of a key, through the compiled call and the reference's: what adds to it, what does
//! not, and where it stays. Document 02, "Use per key".

use razidkot_tests::ask::*;
use razidkot_tests::generate::{registry, uses, Filling};
use razidkot_tests::layout::*;
use razidkot_tests::lent::Lent;
use razidkot_tests::listed::MOST_USES;
use razidkot_tests::lists::pair;
use razidkot_tests::oracle;
use razidkot_tests::requests::applications;
use razidkot_tests::run::{for_seeds, Outcomes};
use razidkot_tests::shipped::{own_names, some_list};
use razidkot_tests::signatures::{verify_body, Signed};
use reference::rules;

const APPLICATION: &[u8] = b"scanner";
const OTHER: &[u8] = b"archive";
const REGISTRY_ILL_FORMED: u32 = 4;
/// Where the tests have their key `k`.
const PLACE: Place = Place { line: 0, slot: 1 };

/// A request of the first application: opcode and body.
type Asked = (u16, Vec<u8>);

/// Key `k`, which may be exported and verified with.
fn key() -> Key {
    Key {
        export_allowed: true,
        ..signed().key(b"k")
    }
}

/// A key of another name, which may be exported.
fn other_key(name: &[u8]) -> Key {
    Key {
        name: name.to_vec(),
        ..key()
    }
}

fn signed() -> &'static Signed {
    &Signed::supported()[0]
}

/// An Export and a Verify that are served.
fn both_uses() -> [Asked; 2] {
    [(EXPORT, name_body(b"k")), (VERIFY, signed().body(b"k"))]
}

/// This key between two others, used so often; of the others one has been used 5 times and one as often
/// as is counted.
fn registry_with(key: &Key, uses: u32) -> Vec<u8> {
    let stream: Vec<u8> = [&other_key(b"a"), key, &other_key(b"b")]
        .iter()
        .flat_map(|key| request(IMPORT, Some(APPLICATION), &import_body(key)))
        .collect();
    let start = registry_of(&[APPLICATION.to_vec(), OTHER.to_vec()]);
    let mut registry = rules::run(&start, &stream).registry;
    for (slot, uses) in [5, uses, MOST_USES].into_iter().enumerate() {
        set_uses(&mut registry, Place { line: 0, slot }, uses);
    }
    registry
}

fn with_uses(registry: &[u8], place: Place, uses: u32) -> Vec<u8> {
    let mut registry = registry.to_vec();
    set_uses(&mut registry, place, uses);
    registry
}

/// What both answer is this status, and what both leave is this registry.
fn expect(lent: &mut Lent, application: &[u8], asked: &Asked, status: u16, registry: &[u8]) {
    let (answered, _) = lent.ask_both(asked.0, Some(application), &asked.1);
    assert_eq!(answered, status, "{asked:?}");
    assert!(lent.registry == registry, "{asked:?}");
}

// ---- what counts

#[test]
fn a_served_export_or_verify_adds_one_and_changes_nothing_else() {
    let start = registry_with(&key(), 0);
    for asked in both_uses() {
        let lent = &mut Lent::fresh(&start, b"");
        for uses in 1..=300 {
            let expected = with_uses(&start, PLACE, uses);
            expect(lent, APPLICATION, &asked, SUCCESS, &expected);
        }
    }
}

#[test]
fn a_count_of_any_magnitude_is_one_higher() {
    for_seeds(500, |random| {
        for asked in both_uses() {
            let uses = uses(random);
            let start = registry_with(&key(), uses);
            let expected = with_uses(&start, PLACE, uses.saturating_add(1));
            let lent = &mut Lent::fresh(&start, b"");
            expect(lent, APPLICATION, &asked, SUCCESS, &expected);
        }
    });
}

#[test]
fn a_count_comes_to_4_294_967_295_and_stays_there() {
    for asked in both_uses() {
        let start = registry_with(&key(), 4_294_967_293);
        let lent = &mut Lent::fresh(&start, b"");
        for uses in [4_294_967_294, 4_294_967_295, 4_294_967_295, 4_294_967_295] {
            let expected = with_uses(&start, PLACE, uses);
            expect(lent, APPLICATION, &asked, SUCCESS, &expected);
        }
    }
}

#[test]
fn a_use_cut_into_chunks_is_counted_once() {
    let start = registry_with(&key(), 7);
    let expected = with_uses(&start, PLACE, 8);
    for (opcode, body) in both_uses() {
        let request = request(opcode, Some(APPLICATION), &body);
        for cut in [1, 6, 28, request.len() - 1] {
            let lent = &mut Lent::fresh(&start, b"");
            let (first, second) = request.split_at(cut);
            lent.call_both(first);
            assert!(lent.registry == start);
            assert_eq!(lent.call_both(second).taken, second.len());
            assert!(lent.registry == expected);
        }
    }
}

#[test]
fn each_applications_key_of_one_name_has_a_count_of_its_own() {
    let lent = &mut Lent::fresh(&registry_with(&key(), 0), b"");
    lent.ask_both(IMPORT, Some(OTHER), &import_body(&key()));
    let others = Place { line: 1, slot: 0 };
    for (count, asked) in (1..).zip(both_uses()) {
        let expected = with_uses(&lent.registry, others, count);
        expect(lent, OTHER, &asked, SUCCESS, &expected);
    }
}

// ---- what does not

#[test]
fn a_refused_use_is_not_counted() {
    let good = key();
    let sealed = Key {
        export_allowed: false,
        verify_allowed: false,
        ..key()
    };
    let no_key = Key {
        data: b"no key".to_vec(),
        ..key()
    };
    let Signed {
        hash, signature, ..
    } = signed();
    let [export, verify] = both_uses();
    let short_hash = (VERIFY, verify_body(b"k", &hash[1..], signature));
    let short_signature = (VERIFY, verify_body(b"k", hash, &signature[1..]));
    let other_hash = (VERIFY, verify_body(b"k", &[0; 32], signature));
    let cases = [
        (&sealed, export, NOT_PERMITTED),
        (&sealed, verify.clone(), NOT_PERMITTED),
        (&good, (EXPORT, name_body(b"")), INVALID_ARGUMENT),
        (&good, (EXPORT, name_body(b"kk")), DOES_NOT_EXIST),
        (&good, (EXPORT, vec![0x0A]), DESERIALIZING_BODY_FAILED),
        (&good, short_hash, INVALID_ARGUMENT),
        (&no_key, verify, NOT_SUPPORTED),
        (&good, short_signature, INVALID_SIGNATURE),
        (&good, other_hash, INVALID_SIGNATURE),
    ];
    for (key, asked, status) in cases {
        for uses in [0, 7, MOST_USES - 1, MOST_USES] {
            let start = registry_with(key, uses);
            let lent = &mut Lent::fresh(&start, b"");
            expect(lent, APPLICATION, &asked, status, &start);
        }
    }
}

#[test]
fn another_applications_or_nobodys_request_counts_nothing() {
    let start = registry_with(&key(), 7);
    let lent = &mut Lent::fresh(&start, b"");
    for asked in both_uses() {
        expect(lent, OTHER, &asked, DOES_NOT_EXIST, &start);
        expect(lent, b"nobody", &asked, AUTHENTICATION_ERROR, &start);
        lent.ask_both(asked.0, None, &asked.1);
        assert!(lent.registry == start);
    }
}

#[test]
fn core_operations_count_nothing() {
    let start = registry_with(&key(), 7);
    let lent = &mut Lent::fresh(&start, b"");
    for opcode in [PING, LIST_PROVIDERS, LIST_OPCODES] {
        expect(lent, APPLICATION, &(opcode, Vec::new()), SUCCESS, &start);
    }
}

#[test]
fn counts_are_kept_while_other_keys_come_and_go() {
    let lent = &mut Lent::fresh(&registry_with(&key(), 7), b"");
    let import = |name: &[u8]| (IMPORT, import_body(&other_key(name)));
    // Slots 3 to 6, unused; slot 7 is watched with the first three.
    for name in [b"e", b"f", b"g", b"h"] {
        let (answered, _) = lent.ask_both(IMPORT, Some(APPLICATION), &import(name).1);
        assert_eq!(answered, SUCCESS);
    }
    let steps = [
        (import(b"c"), SUCCESS, [5, 7, MOST_USES, 0]),
        (import(b"d"), 1142, [5, 7, MOST_USES, 0]),
        (import(b"k"), ALREADY_EXISTS, [5, 7, MOST_USES, 0]),
        ((EXPORT, name_body(b"b")), SUCCESS, [5, 7, MOST_USES, 0]),
        ((EXPORT, name_body(b"c")), SUCCESS, [5, 7, MOST_USES, 1]),
        ((DESTROY, name_body(b"b")), SUCCESS, [5, 7, 0, 1]),
        ((DESTROY, name_body(b"b")), DOES_NOT_EXIST, [5, 7, 0, 1]),
        (import(b"d"), SUCCESS, [5, 7, 0, 1]),
        ((EXPORT, name_body(b"a")), SUCCESS, [6, 7, 0, 1]),
    ];
    for (asked, status, uses) in steps {
        let (answered, _) = lent.ask_both(asked.0, Some(APPLICATION), &asked.1);
        assert_eq!(answered, status, "{asked:?}");
        let counted = [0, 1, 2, 7].map(|slot| uses_at(&lent.registry, Place { line: 0, slot }));
        assert_eq!(counted, uses, "{asked:?}");
    }
}

#[test]
fn a_key_destroyed_and_imported_again_has_not_been_used() {
    for uses in [1, 7, MOST_USES] {
        let start = registry_with(&key(), uses);
        let lent = &mut Lent::fresh(&start, b"");
        let mut freed = start.clone();
        freed[slot_at(PLACE)..][..SLOT_SIZE].fill(0);
        expect(
            lent,
            APPLICATION,
            &(DESTROY, name_body(b"k")),
            SUCCESS,
            &freed,
        );
        let import = (IMPORT, import_body(&key()));
        let imported = with_uses(&start, PLACE, 0);
        expect(lent, APPLICATION, &import, SUCCESS, &imported);
    }
}

// ---- listed keys

#[test]
fn a_listed_keys_use_changes_no_byte_of_the_registry() {
    let start = registry_with(&other_key(b"own"), 7);
    let lent = &mut Lent::fresh(&start, &pair(b"k", &signed().data));
    for asked in both_uses() {
        for application in [APPLICATION, OTHER] {
            expect(lent, application, &asked, SUCCESS, &start);
        }
    }
}

#[test]
fn an_own_key_of_a_listed_name_is_counted_for_its_application_alone() {
    let start = registry_with(&key(), 7);
    let lent = &mut Lent::fresh(&start, &pair(b"k", &signed().data));
    for (count, asked) in (8..).zip(both_uses()) {
        let expected = with_uses(&start, PLACE, count);
        expect(lent, APPLICATION, &asked, SUCCESS, &expected);
        expect(lent, OTHER, &asked, SUCCESS, &expected);
    }
}

// ---- which memory is well formed

/// Whether a Ping is taken on this registry; a refused call says C4 and changes nothing.
fn is_taken(registry: &[u8]) -> bool {
    let mut lent = Lent::fresh(registry, b"");
    let answer = lent.call_both(&request(PING, None, &[]));
    assert!(lent.registry == registry);
    assert!([0, REGISTRY_ILL_FORMED].contains(&answer.code));
    answer.code == 0
}

#[test]
fn any_count_in_a_used_slot_is_well_formed() {
    for_seeds(500, |random| {
        let registry = registry(random, Filling::Some);
        for place in used_places(&registry) {
            assert!(is_taken(&with_uses(&registry, place, uses(random))));
        }
    });
}

/// In a used line and in an unused one, each byte of the count by itself too.
#[test]
fn a_count_in_a_free_slot_is_c4() {
    for start in [registry_with(&key(), 0), registry_of(&[])] {
        let used = used_places(&start);
        for place in Place::all().filter(|place| !used.contains(place)) {
            for uses in [1, 1 << 8, 1 << 16, 1 << 24, MOST_USES] {
                assert!(!is_taken(&with_uses(&start, place, uses)), "{place:?}");
            }
            assert!(is_taken(&with_uses(&start, place, 0)), "{place:?}");
        }
    }
}

// ---- generated registries

/// Where an application holds a key of this name.
fn place_of(registry: &[u8], application: &[u8], name: &[u8]) -> Option<Place> {
    let line = oracle::find_application(registry, application)?;
    let slot = oracle::find_slot(registry, line, name)?;
    Some(Place { line, slot })
}

/// Asks for the use of a key that lies there, if it is an own one, and checks the counts of all keys.
fn use_key(lent: &mut Lent, application: &[u8], asked: &Asked, own: Option<Place>) -> u16 {
    let before = lent.registry.clone();
    let (status, _) = lent.ask_both(asked.0, Some(application), &asked.1);
    let used = own.filter(|_| status == SUCCESS);
    for place in Place::all() {
        let uses = uses_at(&before, place);
        let more = u32::from(used == Some(place) && uses < MOST_USES);
        assert_eq!(uses_at(&lent.registry, place), uses + more, "{asked:?}");
    }
    status
}

#[test]
fn on_generated_registries_no_count_changes_but_that_of_the_key_used() {
    let mut outcomes = Outcomes::default();
    let outcome = |opcode: u16, is_served: bool, is_own: bool| {
        format!("opcode {opcode}, served {is_served}, own {is_own}")
    };
    for_seeds(300, |random| {
        let registry = registry(random, Filling::Some);
        let names = own_names(&registry);
        let lent = &mut Lent::fresh(&registry, &some_list(random, names.clone()));
        for application in applications(&registry) {
            for name in names.iter().take(8) {
                let own = place_of(&registry, application.name(), name);
                let verify = Signed::of_name(name).body(name);
                for asked in [(EXPORT, name_body(name)), (VERIFY, verify)] {
                    let status = use_key(lent, application.name(), &asked, own);
                    outcomes.count(outcome(asked.0, status == SUCCESS, own.is_some()));
                }
            }
        }
    });
    for opcode in [EXPORT, VERIFY] {
        let ways = [(true, true), (true, false), (false, true), (false, false)];
        let ways = ways.map(|(is_served, is_own)| outcome(opcode, is_served, is_own));
        outcomes.assert_often(&ways, 100);
    }
}
