//! The list of shipped keys through the compiled call and the reference's: every kind of bad list, each
//! cut of a good one, and own keys of a listed name. Document 02, "Keys we ship".

use razidkot::raw::Answer;
use razidkot::{List, Refusal};
use razidkot_tests::ask::*;
use razidkot_tests::generate::{registry, Filling};
use razidkot_tests::layout::Key;
use razidkot_tests::lent::{Lengths, Lent};
use razidkot_tests::lists::*;
use razidkot_tests::run::{for_seeds, Outcomes};
use razidkot_tests::service;
use razidkot_tests::shipped::{damage, own_names, some_list};
use razidkot_tests::signatures::{verify_body, Signed};
use reference::rules;

const APPLICATION: &[u8] = b"scanner";
const OTHER: &[u8] = b"archive";
const LIST_ILL_FORMED: u32 = 6;

fn ping() -> Vec<u8> {
    request(PING, None, &[])
}

/// Whether a Ping with this list is taken; a refused call says C6 and changes nothing.
fn is_taken(registry: &[u8], list: &[u8]) -> bool {
    let mut lent = Lent::fresh(registry, list);
    lent.renew_buffers(Lengths::LEAST, 0x55);
    let before = lent.clone();
    let answer = lent.call_both(&ping());
    if answer.code == 0 {
        assert_eq!((answer.taken, answer.written), (28, 28));
        return true;
    }
    let refused = Answer {
        code: LIST_ILL_FORMED,
        taken: 0,
        written: 0,
        recorded: 0,
    };
    assert_eq!(answer, refused);
    assert!(lent == before, "a refused call changes nothing");
    false
}

// ---- good and bad lists

#[test]
fn a_list_has_0_to_64_pairs() {
    let registry = registry_of(&[]);
    for count in 0..=64 {
        assert!(is_taken(&registry, &list_of(&pairs(count))), "{count}");
    }
    for count in 65..70 {
        assert!(!is_taken(&registry, &list_of(&pairs(count))), "{count}");
    }
    assert!(is_taken(&registry, &longest_list()));
}

#[test]
fn every_kind_of_bad_list_is_c6() {
    let registry = registry_of(&[APPLICATION.to_vec()]);
    let bad = bad_lists();
    assert!(bad.len() > 200);
    for (title, list) in bad {
        assert!(!is_taken(&registry, &list), "{title}");
    }
}

#[test]
fn a_good_list_cut_anywhere_but_behind_a_pair_is_c6() {
    let registry = registry_of(&[]);
    let all_lengths = list_of(&pairs(33));
    for list in [list_of(&pairs(1)), all_lengths, longest_list()] {
        let ends = ends_of_pairs(&list);
        for cut in 0..=list.len() {
            let is_good = ends.contains(&cut);
            assert_eq!(is_taken(&registry, &list[..cut]), is_good, "{cut}");
        }
    }
}

#[test]
fn each_byte_of_a_name_and_each_length_is_judged_alike() {
    let registry = registry_of(&[]);
    for byte in 0..=255 {
        for name in [&[byte][..], &[b'n', byte], &[byte; 32]] {
            let is_good = (0x21..=0x7E).contains(&byte);
            assert_eq!(is_taken(&registry, &pair(name, b"d")), is_good, "{name:?}");
        }
    }
    for length in 0..=70 {
        let list = pair(&vec![b'n'; length], b"d");
        let is_good = (1..=32).contains(&length);
        assert_eq!(is_taken(&registry, &list), is_good, "{length}");
    }
    for length in (0..=5).chain(250..=260).chain(590..=610) {
        let list = pair(b"n", &vec![0; length]);
        let is_good = (1..=600).contains(&length);
        assert_eq!(is_taken(&registry, &list), is_good, "{length}");
    }
}

/// Every pair of places, in names of one length that differ in one byte.
#[test]
fn a_name_that_repeats_any_other_is_c6() {
    let registry = registry_of(&[]);
    for differ_at in [0, 7, 8, 31] {
        let name = |number: u8| {
            let mut name = vec![b'n'; 32];
            name[differ_at] = b'!' + number;
            name
        };
        let keys: Vec<_> = (0..64).map(|number| (name(number), vec![7])).collect();
        assert!(is_taken(&registry, &list_of(&keys)));
        for second in 1..64 {
            for first in [0, 1, second / 2, second - 1] {
                if first < second {
                    let mut repeated = keys.clone();
                    repeated[second].0.clone_from(&keys[first].0);
                    let list = list_of(&repeated);
                    assert!(!is_taken(&registry, &list), "{first} {second}");
                }
            }
        }
    }
}

#[test]
fn generated_and_damaged_lists_are_judged_alike() {
    let mut outcomes = Outcomes::default();
    for_seeds(20_000, |random| {
        let mut list = some_list(random, Vec::new());
        if !random.once_in(4) {
            damage(random, &mut list);
        }
        let taken = is_taken(&registry_of(&[]), &list);
        assert_eq!(taken, reference::list_is_well_formed(&list));
        outcomes.count(taken);
    });
    outcomes.assert_often(&[true, false], 2_000);
}

#[test]
fn any_bytes_are_judged_alike() {
    for_seeds(20_000, |random| {
        let length = random.below(24);
        let list: Vec<u8> = (0..length)
            .map(|_| random.pick(b"\x01\x02\x01\x02\x00\x00\x00\x01abc"))
            .collect();
        is_taken(&registry_of(&[]), &list);
    });
}

/// Judged on every call: on a connection that holds, skips or is closed, and for an empty chunk.
#[test]
fn a_bad_list_is_c6_whatever_the_connection() {
    let registry = registry_of(&[APPLICATION.to_vec()]);
    let oversized = razidkot_tests::requests::with_lengths(&ping(), 5_000, 0);
    for sent in [&[][..], &ping()[..9], &oversized[..400], &[0xFF; 6]] {
        let connection = rules::run(&registry, sent).connection.to_memory();
        for chunk in [&[][..], &ping(), &[0xFF; 6]] {
            let mut lent = Lent::fresh(&registry, &[1]);
            lent.connection.clone_from(&connection);
            assert_eq!(lent.call_both(chunk).code, LIST_ILL_FORMED);
            lent.list.clear();
            assert_eq!(lent.call_both(chunk).code, 0);
        }
    }
}

// ---- the wrapper's type

#[test]
fn sizes_and_refusals_are_those_of_the_reference() {
    assert_eq!(razidkot::MOST_LISTED_KEYS, reference::MOST_LISTED_KEYS);
    assert_eq!(razidkot::LONGEST_LIST, longest_list().len());
    assert_eq!(Refusal::ListIllFormed.number(), LIST_ILL_FORMED as u8);
    assert_eq!(reference::Refusal::ListIllFormed.number(), 6);
}

/// What the wrapper says of bytes: the pairs of a good list, or that they are none.
fn expect_list(bytes: &[u8], title: &str) {
    let list = List::from_bytes(bytes);
    assert_eq!(
        list.is_ok(),
        reference::list_is_well_formed(bytes),
        "{title}"
    );
    if let Ok(list) = list {
        let keys = list
            .keys()
            .map(|key| (key.name.to_vec(), key.data.to_vec()));
        assert_eq!(keys.collect::<Vec<_>>(), pairs_in(bytes), "{title}");
        assert_eq!(list.bytes(), bytes);
    }
}

#[test]
fn the_wrappers_list_takes_what_the_call_takes() {
    for (title, list) in bad_lists() {
        expect_list(&list, &title);
    }
    let list = list_of(&pairs(33));
    for cut in 0..=list.len() {
        expect_list(&list[..cut], "cut");
    }
    for_seeds(5_000, |random| {
        let mut list = some_list(random, Vec::new());
        if random.once_in(2) {
            damage(random, &mut list);
        }
        expect_list(&list, "generated");
    });
}

/// A list made key by key takes a key where the call takes the longer list.
#[test]
fn a_key_is_pushed_where_the_longer_list_is_taken() {
    let mut outcomes = Outcomes::default();
    for_seeds(200, |random| {
        let mut list = List::new();
        for (name, mut data) in pairs(67) {
            let name = match random.below(40) {
                0 => Vec::new(),
                1 => b"a b".to_vec(),
                2 => list.keys().last().map_or(name, |key| key.name.to_vec()),
                _ => name,
            };
            if random.once_in(40) {
                data.resize(random.pick(&[0, 601]), 0);
            }
            let longer = [list.bytes(), &pair(&name, &data)].concat();
            let pushed = list.push(&name, &data).is_ok();
            assert_eq!(pushed, reference::list_is_well_formed(&longer));
            assert_eq!(pushed, list.bytes() == longer);
            outcomes.count(pushed);
        }
    });
    outcomes.assert_often(&[true, false], 100);
}

// ---- own and listed keys

/// A registry from before the list: the first application holds this key, the other none.
fn registry_with(own: Option<&Key>) -> Vec<u8> {
    let registry = registry_of(&[APPLICATION.to_vec(), OTHER.to_vec()]);
    match own {
        Some(key) => {
            let import = request(IMPORT, Some(APPLICATION), &import_body(key));
            rules::run(&registry, &import).registry
        }
        None => registry,
    }
}

fn asked(lent: &mut Lent, opcode: u16, application: &[u8], body: &[u8]) -> (u16, Vec<u8>) {
    lent.ask_both(opcode, Some(application), body)
}

/// Key `k` with these uses.
fn own_key(signed: &Signed, export_allowed: bool, verify_allowed: bool) -> Key {
    Key {
        export_allowed,
        verify_allowed,
        ..signed.key(b"k")
    }
}

const USES: [(bool, bool); 4] = [(false, false), (false, true), (true, false), (true, true)];

/// `k` among others.
fn list_with(data: &[u8]) -> Vec<u8> {
    [list_of(&pairs(9)), pair(b"k", data), pair(b"kk", b"other")].concat()
}

fn status_of(allowed: bool) -> u16 {
    match allowed {
        true => SUCCESS,
        false => NOT_PERMITTED,
    }
}

#[test]
fn an_own_key_comes_before_a_listed_one_whatever_it_allows() {
    let (first, second) = (&Signed::supported()[0], &Signed::supported()[1]);
    for (export_allowed, verify_allowed) in USES {
        let registry = registry_with(Some(&own_key(first, export_allowed, verify_allowed)));
        let lent = &mut Lent::fresh(&registry, &list_with(&second.data));
        let name = &name_body(b"k");

        let (status, body) = asked(lent, EXPORT, APPLICATION, name);
        assert_eq!(status, status_of(export_allowed));
        if export_allowed {
            assert_eq!(body, razidkot_tests::oracle::bytes_field(1, &first.data));
        }
        let (status, _) = asked(lent, VERIFY, APPLICATION, &first.body(b"k"));
        assert_eq!(status, status_of(verify_allowed));
        let (status, _) = asked(lent, VERIFY, APPLICATION, &second.body(b"k"));
        let wrong = if verify_allowed {
            INVALID_SIGNATURE
        } else {
            NOT_PERMITTED
        };
        assert_eq!(status, wrong);

        // The other application has the listed one.
        let (status, body) = asked(lent, EXPORT, OTHER, name);
        assert_eq!((status, body), (SUCCESS, bytes_of(&second.data)));
        let (status, _) = asked(lent, VERIFY, OTHER, &second.body(b"k"));
        assert_eq!(status, SUCCESS);
        let (status, _) = asked(lent, VERIFY, OTHER, &first.body(b"k"));
        assert_eq!(status, INVALID_SIGNATURE);
    }
}

fn bytes_of(data: &[u8]) -> Vec<u8> {
    razidkot_tests::oracle::bytes_field(1, data)
}

#[test]
fn import_and_destroy_under_a_listed_name() {
    let signed = &Signed::supported()[0];
    for (export_allowed, verify_allowed) in USES {
        let own = own_key(signed, export_allowed, verify_allowed);
        let lent = &mut Lent::fresh(&registry_with(Some(&own)), &list_with(b"listed"));
        let (import, name) = (&import_body(&own), &name_body(b"k"));
        for application in [APPLICATION, OTHER] {
            let (status, _) = asked(lent, IMPORT, application, import);
            assert_eq!(status, ALREADY_EXISTS);
        }
        let steps = [
            (DESTROY, OTHER, NOT_PERMITTED),
            (DESTROY, APPLICATION, SUCCESS),
            (DESTROY, APPLICATION, NOT_PERMITTED),
            (EXPORT, APPLICATION, SUCCESS),
        ];
        for (opcode, application, expected) in steps {
            let (status, _) = asked(lent, opcode, application, name);
            assert_eq!(status, expected);
        }
        let (status, _) = asked(lent, IMPORT, APPLICATION, import);
        assert_eq!(status, ALREADY_EXISTS);
        assert!(lent.registry == registry_with(None), "all slots are free");
    }
}

#[test]
fn every_key_of_a_full_list_is_exported_as_it_lies() {
    for list in [list_of(&pairs(64)), longest_list()] {
        let lent = &mut Lent::fresh(&registry_with(None), &list);
        for (name, data) in pairs_in(&list) {
            let (status, body) = asked(lent, EXPORT, APPLICATION, &name_body(&name));
            assert_eq!((status, body), (SUCCESS, bytes_of(&data)));
            // Near it there is none.
            let longer = [&name[..name.len().min(31)], b"~"].concat();
            let (status, _) = asked(lent, EXPORT, APPLICATION, &name_body(&longer));
            assert_eq!(status, DOES_NOT_EXIST);
        }
    }
}

#[test]
fn on_generated_registries_own_and_listed_keys_are_asked_for_alike() {
    for_seeds(300, |random| {
        let registry = registry(random, Filling::Some);
        let list = some_list(random, own_names(&registry));
        let names: Vec<_> = pairs_in(&list).into_iter().map(|(name, _)| name).collect();
        let lent = &mut Lent::fresh(&registry, &list);
        for application in razidkot_tests::requests::applications(&registry) {
            for name in names.iter().take(12) {
                let signed = Signed::of_name(name);
                asked(lent, EXPORT, application.name(), &name_body(name));
                asked(lent, VERIFY, application.name(), &signed.body(name));
                let import = import_body(&signed.key(name));
                let (status, _) = asked(lent, IMPORT, application.name(), &import);
                let held = signed.status_or_unsupported(ALREADY_EXISTS);
                assert!([held, AUTHENTICATION_ERROR].contains(&status));
                asked(lent, DESTROY, application.name(), &name_body(name));
            }
        }
    });
}

// ---- signatures of listed keys

/// The status that the compiled service answers to each one's signature, its key listed.
fn listed_statuses(all: &[Signed]) -> Vec<u16> {
    all.iter()
        .map(|signed| {
            let list = list_with(&signed.data);
            let stream = request(VERIFY, Some(APPLICATION), &signed.body(b"k"));
            let names = [APPLICATION.to_vec()];
            let responses = service::responses_with_list(&names, &list, &stream, &[4_096]);
            u16::from_le_bytes([responses[0][24], responses[0][25]])
        })
        .collect()
}

#[test]
fn signatures_of_listed_keys_are_good_or_bad_as_those_of_own_ones() {
    for (all, status) in [
        (Signed::good(), SUCCESS),
        (Signed::bad(), INVALID_SIGNATURE),
    ] {
        for (signed, answered) in all.iter().zip(listed_statuses(all)) {
            let expected = signed.status_or_unsupported(status);
            assert_eq!(answered, expected, "{}", signed.title);
        }
    }
}

/// A listed key has its modulus's bits: what other stored bits alone made bad is good where they are
/// Import's.
#[test]
fn listed_data_that_is_no_rsa_public_key_is_not_supported() {
    let all = Signed::unsupported();
    let mut outcomes = Outcomes::default();
    for (signed, status) in all.iter().zip(listed_statuses(all)) {
        let bits = reference::rsa::modulus_bits(&signed.data);
        let is_key = signed.title.ends_with("stored") && bits == 2_048;
        let expected = if is_key { SUCCESS } else { NOT_SUPPORTED };
        assert_eq!(status, expected, "{}", signed.title);
        outcomes.count(status);
    }
    outcomes.assert_often(&[SUCCESS, NOT_SUPPORTED], 1);
}

#[test]
fn a_listed_modulus_has_2048_3072_or_4096_bits() {
    let ends = (2_040..2_060).chain(3_060..3_080).chain(4_080..4_130);
    for bits in (8..4_200).step_by(8).chain(1_000..1_050).chain(ends) {
        let is_supported = [2_048, 3_072, 4_096].contains(&bits);
        let lent = &mut Lent::fresh(&registry_with(None), &list_with(&rsa_public_key(bits)));
        let body = verify_body(b"k", &[0; 32], &vec![0; bits.div_ceil(8)]);
        let (status, _) = asked(lent, VERIFY, APPLICATION, &body);
        let expected = if is_supported {
            INVALID_SIGNATURE
        } else {
            NOT_SUPPORTED
        };
        assert_eq!(status, expected, "{bits}");
    }
}

/// Name, then who holds it, then the hash, then the data, then the signature.
#[test]
fn the_order_of_a_listed_keys_statuses() {
    let lent = &mut Lent::fresh(&registry_with(None), &list_with(b"no key"));
    let rows = [
        (&b"a b"[..], 31, INVALID_ARGUMENT),
        (b"nobody", 31, DOES_NOT_EXIST),
        (b"k", 31, INVALID_ARGUMENT),
        (b"k", 32, NOT_SUPPORTED),
    ];
    for (name, length, expected) in rows {
        let body = verify_body(name, &vec![0; length], b"");
        assert_eq!(asked(lent, VERIFY, APPLICATION, &body).0, expected);
    }
}
