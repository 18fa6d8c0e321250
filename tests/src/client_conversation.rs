//! A client and a service in conversation, each of them the compiled one or the reference's: the
//! client writes requests, the service answers their joined bytes, and readers read its joined
//! responses. Document 02, "The client's half"; document 01, "A whole stream under the rules".

use crate::ask::{record, EXPORT, IMPORT, OPCODES, VERIFY};
use crate::client_asked::{legal_name, some_session, Asked};
use crate::client_program::{Program, Said, WAITING};
use crate::client_states::STATE_SIZE;
use crate::generate::{name, Random, KEY_NAMES};
use crate::layout::{IMPORT_BITS, SLOTS};
use crate::lent::{Lengths, Lent};
use crate::oracle::key_name_is_legal;
use crate::shipped::some_list;
use crate::signatures::Signed;
use crate::tagged::LISTED_TYPES;
use razidkot::{Counters, CONNECTION_SIZE, LONGEST_CHUNK, REGISTRY_SIZE};
use razidkot_client::raw::Request;
use razidkot_client::LEAST_REQUEST_BUFFER;

/// What happens to a stream behind the one who wrote it: a bit of the byte at this place, counted
/// around its length, is changed.
#[derive(Clone, Copy, Debug, PartialEq, Eq)]
pub struct Changed {
    place: usize,
    bit: u8,
}

impl Changed {
    fn generate(random: &mut Random) -> Changed {
        Changed {
            place: random.word() as usize,
            bit: 1 << random.below(8),
        }
    }

    fn apply(self, bytes: &mut [u8]) {
        if !bytes.is_empty() {
            let place = self.place % bytes.len();
            bytes[place] ^= self.bit;
        }
    }
}

#[derive(Clone, Copy, Debug, PartialEq, Eq)]
pub enum Damage {
    None,
    /// The magic or H of one request.
    Start {
        request: usize,
        changed: Changed,
    },
    Requests(Changed),
    Responses(Changed),
}

#[derive(Clone, Debug)]
pub struct Conversation {
    pub names: Vec<Vec<u8>>,
    pub list: Vec<u8>,
    pub asked: Vec<Asked>,
    pub damage: Damage,
    /// The seed of the cuts.
    pub cuts: u64,
}

/// All that comes of it: a request that is not written has no response, and is not read.
#[derive(Debug, PartialEq, Eq)]
pub struct Outcome {
    pub written: Vec<Request>,
    pub requests: Vec<Vec<u8>>,
    pub responses: Vec<Vec<u8>>,
    /// Of each request that was written, and how many bytes of response it took in all.
    pub read: Vec<Said>,
    pub registry: Vec<u8>,
    pub connection: Vec<u8>,
    pub counters: Counters,
}

impl Conversation {
    /// Of a few applications with a few keys each, so that names meet again.
    pub fn generate(random: &mut Random) -> Conversation {
        let names: Vec<_> = (0..random.below(9))
            .map(|line| {
                let length = random.pick(&[1, 2, 17, 63, 64]);
                name(random, line, length)
            })
            .collect();
        let few = random.pick(&[1, 2, 8]);
        let count = 1 + random.below(40);
        let mut asked: Vec<_> = (0..count)
            .map(|_| some_asked(random, &names, few))
            .collect();
        if random.once_in(4) {
            asked.splice(..0, filling(random, &names));
        }
        let key_names = asked.iter().map(|asked| asked.name.clone());
        let key_names = key_names.filter(|name| key_name_is_legal(name)).collect();
        let list = some_list(random, key_names);
        let changed = Changed::generate(random);
        let damage = match random.below(8) {
            0 => Damage::Start {
                request: random.below(count),
                changed,
            },
            1 => Damage::Requests(changed),
            2 => Damage::Responses(changed),
            _ => Damage::None,
        };
        Conversation {
            names,
            list,
            asked,
            damage,
            cuts: random.word() >> 1,
        }
    }

    /// The conversation of these two; each pairing cuts the streams in its own way.
    pub fn run(&self, client: Program, service: Program) -> Outcome {
        let pairing = (client as u64) << 1 | service as u64;
        let random = &mut Random::new(self.cuts ^ pairing);
        let (written, requests) = self.write(client);
        let mut lent = Lent::new(
            vec![0; CONNECTION_SIZE],
            registry_of(service, &self.names),
            self.list.clone(),
            Counters::default(),
        );
        let responses = answer(service, &mut lent, &self.sent(&requests), random);
        let mut received = responses.concat();
        if let Damage::Responses(changed) = self.damage {
            changed.apply(&mut received);
        }
        let sent = self.asked.iter().zip(&written);
        let sent = sent.filter(|(_, written)| written.code == 0);
        let mut rest = &received[..];
        let read = sent
            .map(|(asked, _)| {
                let said = read(client, asked, rest, random);
                rest = &rest[said.taken..];
                said
            })
            .collect();
        Outcome {
            written,
            requests,
            responses,
            read,
            registry: lent.registry,
            connection: lent.connection,
            counters: lent.counters,
        }
    }

    /// What the client says of each request, and those that it wrote.
    fn write(&self, client: Program) -> (Vec<Request>, Vec<Vec<u8>>) {
        let mut requests = Vec::new();
        let mut buffer = [0x55; LEAST_REQUEST_BUFFER];
        let mut write = |asked: &Asked| {
            let written = client.write(asked, &mut buffer);
            if written.code == 0 {
                requests.push(buffer[..written.written].to_vec());
            }
            written
        };
        let written = self.asked.iter().map(&mut write).collect();
        (written, requests)
    }

    /// The joined requests as they come to the service.
    fn sent(&self, requests: &[Vec<u8>]) -> Vec<u8> {
        let mut requests = requests.to_vec();
        if let Damage::Start { request, changed } = self.damage {
            let count = requests.len().max(1);
            if let Some(request) = requests.get_mut(request % count) {
                changed.apply(&mut request[..6]);
            }
        }
        let mut stream = requests.concat();
        if let Damage::Requests(changed) = self.damage {
            changed.apply(&mut stream);
        }
        stream
    }
}

/// Imports that fill the slots of the first application, if there is one.
fn filling(random: &mut Random, names: &[Vec<u8>]) -> Vec<Asked> {
    let keys = names.first().into_iter().cycle().zip(KEY_NAMES).take(SLOTS);
    keys.map(|(application, &name)| Asked {
        session: some_session(random),
        application: application.clone(),
        name: vec![name],
        data: random.bytes(9),
        ..Asked::good(IMPORT)
    })
    .collect()
}

/// Most often one that can be served, by one of the first few applications.
fn some_asked(random: &mut Random, names: &[Vec<u8>], few: usize) -> Asked {
    let known = random.below(few.min(names.len()).max(1));
    let application = match names.get(known) {
        Some(name) if !random.once_in(20) => name.clone(),
        _ => legal_name(random, 9),
    };
    let any = Asked::generate(random);
    let asked = Asked {
        session: some_session(random),
        named: !random.once_in(8),
        application,
        opcode: match random.below(4) {
            0 => random.pick(&OPCODES),
            1 => EXPORT,
            2 => VERIFY,
            _ => IMPORT,
        },
        provider: random.pick(&[0, 0, 1, 1, 2, u32::MAX]),
        name: vec![random.pick(KEY_NAMES)],
        bits: random.pick(&IMPORT_BITS).into(),
        content_type: random.pick(&LISTED_TYPES),
        accept_type: random.pick(&LISTED_TYPES),
        ..any.clone()
    };
    let asked = match random.below(3) {
        0 => asked,
        _ => with_signed_key(random, asked),
    };
    // Now and then one that the client refuses.
    match random.below(30) {
        0 => any,
        _ => asked,
    }
}

/// The same with the key, the hash and the signature of its name.
fn with_signed_key(random: &mut Random, asked: Asked) -> Asked {
    let signed = Signed::of_name(&asked.name);
    Asked {
        data: signed.data.clone(),
        bits: signed.bits.into(),
        verify_allowed: !random.once_in(4),
        hash: signed.hash.clone(),
        signature: signed.signature.clone(),
        ..asked
    }
}

/// A registry that the service loads from a roster of these names.
fn registry_of(service: Program, names: &[Vec<u8>]) -> Vec<u8> {
    let roster: Vec<u8> = names.iter().flat_map(|name| record(1, name)).collect();
    let mut registry = vec![0xEE; REGISTRY_SIZE];
    match service {
        Program::Proved => assert!(razidkot::raw::load_roster(&roster, &mut registry).is_ok()),
        Program::Reference => assert!(reference::load_roster(&roster, &mut registry).is_ok()),
    }
    registry
}

/// A chunk off the front, as long as `longest` at most and empty now and then.
fn chunk<'a>(random: &mut Random, rest: &'a [u8], longest: usize) -> &'a [u8] {
    &rest[..rest.len().min(random.below(longest + 1))]
}

fn some_longest(random: &mut Random, length: usize) -> usize {
    random
        .pick(&[30, 300, 5_000, LONGEST_CHUNK])
        .max(length / 60)
}

/// The responses of the service to the stream in random cuts.
fn answer(service: Program, lent: &mut Lent, stream: &[u8], random: &mut Random) -> Vec<Vec<u8>> {
    let longest = some_longest(random, stream.len());
    let mut responses = Vec::new();
    let mut rest = stream;
    while !rest.is_empty() {
        lent.renew_buffers(Lengths::LEAST, 0x55);
        let chunk = chunk(random, rest, longest);
        let answer = match service {
            Program::Proved => lent.call_proved(chunk),
            Program::Reference => lent.call_reference(chunk),
        };
        assert_eq!(answer.code, 0, "a call that is taken");
        if answer.written > 0 {
            responses.push(lent.response()[..answer.written].to_vec());
        }
        rest = &rest[answer.taken..];
    }
    responses
}

/// What a reader says of the bytes in random cuts, and how many it took in all.
fn read(client: Program, asked: &Asked, bytes: &[u8], random: &mut Random) -> Said {
    let longest = random.pick(&[1, 3, 30, 300, 5_000]);
    let mut state = vec![0xEE; STATE_SIZE];
    let begun = client.begin(&mut state, asked.opcode, asked.session, asked.accept_type);
    assert_eq!(begun, 0);
    let mut said = client.read(&mut state, &[]);
    let mut taken = 0;
    while said.code == WAITING && taken < bytes.len() {
        let chunk = chunk(random, &bytes[taken..], longest);
        said = client.read(&mut state, chunk);
        taken += said.taken;
    }
    Said { taken, ..said }
}
