//! What came of the keystore requests of a generated test, by who held the key of that name: document
//! 02, "Keys we ship"; and which of them were a use that counts, by the count before it: document 02,
//! "Use per key". The second program's own tests count with this file too.

use super::lists::pairs_in;
use reference::rsa::modulus_bits;

const DESTROY: u16 = 3;
const VERIFY: u16 = 5;
const IMPORT: u16 = 6;
const EXPORT: u16 = 7;

const CONTENT_TYPE_AT: usize = 17;
/// Document 02, "A second body format".
const TAGGED: u8 = 2;

/// "staying at 4,294,967,295 once there"
pub const MOST_USES: u32 = 4_294_967_295;

/// What a request asks for.
pub struct Asked<'a> {
    opcode: u16,
    pub application: &'a [u8],
    pub name: &'a [u8],
}

impl Asked<'_> {
    /// None for other requests than a keystore operation's, or with a body that is not written plainly.
    pub fn read(request: &[u8]) -> Option<Asked<'_>> {
        let number = |at: usize| usize::from(u16::from_le_bytes([request[at], request[at + 1]]));
        if request.len() < 28 || number(22) != 0 {
            return None;
        }
        let opcode = number(26) as u16;
        let payload = request.get(6 + number(4)..)?;
        let (body, application) = payload.split_at_checked(number(20))?;
        let is_keystore = [DESTROY, VERIFY, IMPORT, EXPORT].contains(&opcode);
        let name = match request[CONTENT_TYPE_AT] {
            TAGGED => tagged_name(body),
            _ => plain_name(body),
        };
        let name = name.filter(|_| is_keystore)?;
        Some(Asked {
            opcode,
            application,
            name,
        })
    }

    /// The outcome's name. `own` has what the application's slots hold, empty names for free ones.
    pub fn outcome(&self, own: &[Vec<u8>], list: &[u8], status: u16) -> String {
        let listed = pairs_in(list)
            .into_iter()
            .find(|(name, _)| name == self.name);
        let is_own = !self.name.is_empty() && own.iter().any(|name| name == self.name);
        let holder = match (is_own, &listed) {
            (false, None) => "nobody's",
            (true, None) => "own",
            (false, Some(_)) => "listed",
            (true, Some(_)) => "own and listed",
        };
        let is_full = !own.is_empty() && own.iter().all(|name| !name.is_empty());
        let more = match (self.opcode, status, listed) {
            (IMPORT, _, _) if is_full => ", no slot free",
            (VERIFY, 1134, Some((_, data))) if !is_own => match modulus_bits(&data) {
                0 => ", no RSAPublicKey",
                2_048 | 3_072 | 4_096 => ", Import's bits",
                _ => ", other bits",
            },
            _ => "",
        };
        outcome(self.opcode, holder, status, more)
    }

    /// The slot of an own key that a served request used; `own` as above.
    pub fn used_slot(&self, own: &[Vec<u8>], status: u16) -> Option<usize> {
        let is_use = [EXPORT, VERIFY].contains(&self.opcode) && status == 0;
        let slot = own.iter().position(|name| name == self.name);
        slot.filter(|_| is_use)
    }

    /// The name of a use that counts, where the key had been used so often before.
    pub fn use_outcome(&self, uses: u32) -> String {
        use_outcome(self.opcode, uses)
    }
}

fn outcome(opcode: u16, holder: &str, status: u16, more: &str) -> String {
    format!("{} of {holder}: {status}{more}", operation(opcode))
}

fn operation(opcode: u16) -> &'static str {
    match opcode {
        DESTROY => "Destroy",
        VERIFY => "Verify",
        IMPORT => "Import",
        _ => "Export",
    }
}

fn use_outcome(opcode: u16, uses: u32) -> String {
    let uses = match uses {
        0 => "no use",
        MOST_USES => "the most uses",
        _ if uses == MOST_USES - 1 => "one use less than the most",
        _ => "some uses",
    };
    format!("{} counted after {uses}", operation(opcode))
}

/// Every use that a long enough run counts.
pub fn expected_uses() -> Vec<String> {
    let uses = [0, 1, MOST_USES - 1, MOST_USES];
    let outcomes = |opcode| uses.map(|uses| use_outcome(opcode, uses));
    [EXPORT, VERIFY].into_iter().flat_map(outcomes).collect()
}

/// Opcode, holder, and the statuses with what is said beside them.
type Row<'a> = (u16, &'a str, &'a [(u16, &'a str)]);

/// Every outcome that a long enough run has.
pub fn expected() -> Vec<String> {
    let statuses = [1134, 1135, 1139];
    let room = statuses.map(|status| (status, ""));
    let full = statuses.map(|status| (status, ", no slot free"));
    let held = [room, full].concat();
    let new = [(0, ""), (1134, ""), (1135, ""), (1142, ", no slot free")];
    let used = [(0, ""), (1133, ""), (1134, ""), (1135, ""), (1149, "")];
    let listed = [
        (0, ""),
        (1134, ", no RSAPublicKey"),
        (1134, ", other bits"),
        (1135, ""),
        (1149, ""),
    ];
    let rows: [Row; 16] = [
        (IMPORT, "nobody's", &new),
        (IMPORT, "own", &held),
        (IMPORT, "listed", &held),
        (IMPORT, "own and listed", &held),
        (DESTROY, "nobody's", &[(1135, ""), (1140, "")]),
        (DESTROY, "own", &[(0, "")]),
        (DESTROY, "listed", &[(1133, "")]),
        (DESTROY, "own and listed", &[(0, "")]),
        (EXPORT, "nobody's", &[(1135, ""), (1140, "")]),
        (EXPORT, "own", &[(0, ""), (1133, "")]),
        (EXPORT, "listed", &[(0, "")]),
        (EXPORT, "own and listed", &[(0, ""), (1133, "")]),
        (VERIFY, "nobody's", &[(1135, ""), (1140, "")]),
        (VERIFY, "own", &used),
        (VERIFY, "listed", &listed),
        (VERIFY, "own and listed", &used),
    ];
    rows.iter()
        .flat_map(|(opcode, holder, outcomes)| {
            let name = |&(status, more): &(u16, &str)| outcome(*opcode, holder, status, more);
            outcomes.iter().map(name)
        })
        .collect()
}

/// Field 1 of a body that has each field once, of the wire type that some operation has for it, so that
/// the name is the one that is read. None for any other.
fn plain_name(body: &[u8]) -> Option<&[u8]> {
    let mut name = None;
    let mut seen = Vec::new();
    let mut rest = body;
    while let [tag, behind @ ..] = rest {
        if !matches!(tag, 0x0A | 0x12 | 0x18 | 0x1A | 0x20 | 0x28) || seen.contains(tag) {
            return None;
        }
        seen.push(*tag);
        let (number, behind) = varint(behind)?;
        let length = if tag & 7 == 2 { number } else { 0 };
        let (value, behind) = behind.split_at_checked(length)?;
        if *tag == 0x0A {
            name = Some(value);
        }
        rest = behind;
    }
    name
}

/// Field 1 of a body of the second format, which comes first.
fn tagged_name(body: &[u8]) -> Option<&[u8]> {
    let (&[tag, low, high], rest) = body.split_first_chunk()?;
    let length = u16::from_le_bytes([low, high]);
    rest.get(..length.into()).filter(|_| tag == 1)
}

/// Of up to eight bytes.
fn varint(bytes: &[u8]) -> Option<(usize, &[u8])> {
    let end = bytes.iter().take(8).position(|byte| *byte < 0x80)?;
    let (varint, rest) = bytes.split_at(end + 1);
    let join = |number, byte: &u8| number << 7 | usize::from(byte & 0x7F);
    Some((varint.iter().rev().fold(0, join), rest))
}
