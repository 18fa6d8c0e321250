//! Lists of shipped keys, good and bad: document 02, "Keys we ship".
//! The second program's own tests read them with this file too.

/// As many pairs as a list may have.
pub const MOST_PAIRS: usize = 64;
pub const LONGEST_NAME: usize = 32;
pub const LONGEST_DATA: usize = 600;

/// A name and its data.
pub type Pair = (Vec<u8>, Vec<u8>);

pub fn record(tag: u8, value: &[u8]) -> Vec<u8> {
    let length = (value.len() as u16).to_le_bytes();
    [&[tag], &length[..], value].concat()
}

pub fn pair(name: &[u8], data: &[u8]) -> Vec<u8> {
    [record(1, name), record(2, data)].concat()
}

pub fn list_of(pairs: &[Pair]) -> Vec<u8> {
    pairs
        .iter()
        .flat_map(|(name, data)| pair(name, data))
        .collect()
}

/// So many pairs of distinct names, of other lengths each, and any data.
pub fn pairs(count: usize) -> Vec<Pair> {
    let name = |number: usize| {
        let mut name = vec![b'!'; 2 + number % (LONGEST_NAME - 1)];
        let last = name.len() - 1;
        name[last - 1] += (number / 10) as u8;
        name[last] += (number % 10) as u8;
        name
    };
    let data = |number: usize| vec![number as u8; 1 + 97 * number % LONGEST_DATA];
    (0..count)
        .map(|number| (name(number), data(number)))
        .collect()
}

/// The longest good list: 64 names of 32 bytes, alike but for the last, and data of 600.
pub fn longest_list() -> Vec<u8> {
    let name = |number| [&[b'n'; LONGEST_NAME - 1][..], &[b'!' + number]].concat();
    let pairs = (0..MOST_PAIRS as u8).map(|number| (name(number), vec![number; LONGEST_DATA]));
    list_of(&pairs.collect::<Vec<_>>())
}

/// The pairs of a good list.
pub fn pairs_in(list: &[u8]) -> Vec<Pair> {
    let mut values = Vec::new();
    let mut rest = list;
    while let [_, low, high, behind @ ..] = rest {
        let length = usize::from(u16::from_le_bytes([*low, *high]));
        values.push(behind[..length].to_vec());
        rest = &behind[length..];
    }
    let pair = |pair: &[Vec<u8>]| (pair[0].clone(), pair[1].clone());
    values.chunks(2).map(pair).collect()
}

/// Where the pairs of a good list end: cut there and nowhere else, it is good. 0 is one of them.
pub fn ends_of_pairs(list: &[u8]) -> Vec<usize> {
    let mut ends = vec![0];
    let mut end = 0;
    for (name, data) in pairs_in(list) {
        end += 6 + name.len() + data.len();
        ends.push(end);
    }
    ends
}

/// Every kind of bad list, each with what is wrong with it.
pub fn bad_lists() -> Vec<(String, Vec<u8>)> {
    let mut bad = bad_order();
    bad.extend(bad_values());
    bad.extend(bad_ends());
    bad.extend(too_much());
    bad
}

/// The fault at the front of a list, behind one pair and behind 63, good pairs behind it too.
fn everywhere(title: &str, fault: &[u8]) -> Vec<(String, Vec<u8>)> {
    let before = [0, 1, MOST_PAIRS - 1].map(|count| (count, list_of(&pairs(count))));
    let behind = [vec![], pair(b"~behind", b"B")];
    before
        .iter()
        .flat_map(|(count, before)| {
            behind.iter().map(move |behind| {
                let title = format!("{title}, behind {count}, {} bytes follow", behind.len());
                (title, [&before[..], fault, behind].concat())
            })
        })
        .collect()
}

fn bad_order() -> Vec<(String, Vec<u8>)> {
    let (name, data) = (record(1, b"~n"), record(2, b"d"));
    let faults = [
        ("data before its name", [&data[..], &name].concat()),
        ("data alone", data.clone()),
        ("two names", [&name[..], &record(1, b"~m"), &data].concat()),
        ("two data", [&name[..], &data, &data].concat()),
        ("tag 0 for a name", [&record(0, b"~n")[..], &data].concat()),
        ("tag 3 for a name", [&record(3, b"~n")[..], &data].concat()),
        (
            "tag 255 for a name",
            [&record(255, b"~n")[..], &data].concat(),
        ),
        ("tag 0 for data", [&name[..], &record(0, b"d")].concat()),
        ("tag 3 for data", [&name[..], &record(3, b"d")].concat()),
        ("tag 130 for data", [&name[..], &record(130, b"d")].concat()),
        (
            "another record between",
            [&name[..], &record(3, b""), &data].concat(),
        ),
        (
            "an empty record first",
            [&record(0, b"")[..], &name, &data].concat(),
        ),
    ];
    let mut bad: Vec<_> = faults
        .iter()
        .flat_map(|(title, fault)| everywhere(title, fault))
        .collect();
    bad.push(("a name and no data".to_string(), name.clone()));
    let behind = [list_of(&pairs(7)), name].concat();
    bad.push(("seven pairs, a name and no data".to_string(), behind));
    bad
}

fn bad_values() -> Vec<(String, Vec<u8>)> {
    let names: [&[u8]; 8] = [
        b"",
        &[b'n'; LONGEST_NAME + 1],
        &[b'n'; 256 + LONGEST_NAME],
        b" ",
        b"~n\x7F",
        b"~\0n",
        b"\x20~n",
        b"~n\xFF",
    ];
    let names = names.map(|name| (format!("the name {name:02X?}"), pair(name, b"d")));
    let lengths = [
        0,
        LONGEST_DATA + 1,
        LONGEST_DATA + 256,
        1 << 15,
        65_535,
        512 + 256,
    ];
    let data = lengths.map(|length| {
        let title = format!("data of {length} bytes");
        (title, pair(b"~n", &vec![0xDA; length]))
    });
    names
        .iter()
        .chain(&data)
        .flat_map(|(title, fault)| everywhere(title, fault))
        .collect()
}

/// Cut records, and bytes behind the last pair.
fn bad_ends() -> Vec<(String, Vec<u8>)> {
    let whole = pair(b"~n", b"data");
    let cuts = (1..whole.len()).map(|length| whole[..length].to_vec());
    let left_over = [
        vec![0],
        vec![1],
        vec![2],
        vec![0; 3],
        vec![1, 0, 0],
        vec![0xFF; 4],
    ];
    cuts.chain(left_over)
        .flat_map(|end| {
            [0, 1, MOST_PAIRS].map(|count| {
                let title = format!("{count} pairs, then {end:02X?}");
                (title, [&list_of(&pairs(count))[..], &end].concat())
            })
        })
        .collect()
}

/// A name that is there already, and a 65th pair.
fn too_much() -> Vec<(String, Vec<u8>)> {
    let mut bad = Vec::new();
    for (first, second) in [(0, 1), (0, 2), (1, 2), (0, 63), (31, 32), (62, 63)] {
        let mut repeated = pairs(MOST_PAIRS.min(second + 2));
        repeated[second].0 = repeated[first].0.clone();
        let title = format!("the name of pair {first} again in pair {second}");
        bad.push((title.clone(), list_of(&repeated)));
        repeated[second].1 = repeated[first].1.clone();
        bad.push((format!("{title}, the data too"), list_of(&repeated)));
    }
    let longest = longest_list();
    bad.push(("65 pairs".to_string(), list_of(&pairs(65))));
    bad.push(("66 pairs".to_string(), list_of(&pairs(66))));
    bad.push((
        "a 65th pair behind the longest".to_string(),
        [&longest[..], &pair(b"~", b"d")].concat(),
    ));
    bad.push(("the longest list twice".to_string(), longest.repeat(2)));
    bad
}

/// An RSAPublicKey with an odd modulus of so many bits, nearly all of them 0, and exponent 3.
pub fn rsa_public_key(bits: usize) -> Vec<u8> {
    let mut modulus = vec![0; bits.div_ceil(8)];
    modulus[0] = 1 << ((bits - 1) % 8);
    *modulus.last_mut().expect("one bit at least") |= 1;
    if modulus[0] >= 0x80 {
        modulus.insert(0, 0);
    }
    let integers = [der(0x02, &modulus), der(0x02, &[3])];
    der(0x30, &integers.concat())
}

fn der(tag: u8, content: &[u8]) -> Vec<u8> {
    let length = match content.len() {
        length @ 0..0x80 => vec![length as u8],
        length @ 0x80..0x100 => vec![0x81, length as u8],
        length => vec![0x82, (length >> 8) as u8, length as u8],
    };
    [&[tag], &length[..], content].concat()
}
