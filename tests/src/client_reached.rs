//! What the responses of a differential test reached, taken from their bytes and from what the
//! reference said of them.

use crate::ask::{DESTROY, IMPORT, OPCODES, VERIFY};
use crate::client_asked::each_with_each;
use crate::client_program::*;
use crate::client_responses::*;
use crate::client_states::{hand_over, Awaited, LONGEST_RESPONSE};
use crate::generate::Random;
use crate::run::{shortest, Outcomes};
use razidkot::Status;
use reference::Output;

#[derive(Debug)]
pub struct Reached {
    pub outcomes: Outcomes,
    /// How often a first chunk of so many bytes was taken whole.
    cuts: Vec<u64>,
}

impl Default for Reached {
    fn default() -> Reached {
        Reached {
            outcomes: Outcomes::default(),
            cuts: vec![0; LONGEST_RESPONSE + 1],
        }
    }
}

impl Reached {
    /// Hands the bytes over uncut, cut in two at every place, and in chunks of these sizes.
    pub fn compare(&mut self, awaited: Awaited, bytes: &[u8], sizes: &[usize]) {
        match compare(awaited, bytes, sizes) {
            Ok(cuts) => cuts.into_iter().for_each(|cut| self.cuts[cut] += 1),
            Err(_) => panic!("{}", show(awaited, bytes, sizes)),
        }
        self.count(awaited, bytes);
    }

    /// As `compare`, with some sizes.
    pub fn compare_cut(&mut self, random: &mut Random, awaited: Awaited, bytes: &[u8]) {
        let longest = random.pick(&[1, 3, 30, 400]);
        let mut sizes: Vec<_> = (0..8).map(|_| random.below(longest + 1)).collect();
        sizes.push(longest);
        self.compare(awaited, bytes, &sizes);
    }

    fn count(&mut self, awaited: Awaited, bytes: &[u8]) {
        let said = awaited.uncut(bytes);
        match said.code {
            WAITING => self.outcomes.count("waiting at the end"),
            RESPONSE => self.count_response(awaited, bytes, &said),
            code => self.count_refusal(awaited, bytes, code),
        }
        if said.taken < bytes.len() {
            self.outcomes.count("bytes behind");
        }
    }

    fn count_response(&mut self, awaited: Awaited, bytes: &[u8], said: &Said) {
        let opcode = awaited.opcode;
        self.outcomes.count(status_reached(opcode, said.status));
        if said.status == 0 || said.status == 7 {
            self.outcomes.count(shape_of(&said.output));
        }
        if bytes[..BODY_AT] == invalid_header(&[]) {
            self.outcomes.count(invalid_header_reached(opcode));
        }
        if said.taken == LONGEST_RESPONSE {
            self.outcomes.count("content of 998 bytes");
        }
    }

    /// The refusal, and each later one that would apply as well.
    fn count_refusal(&mut self, awaited: Awaited, bytes: &[u8], code: u32) {
        let opcode = awaited.opcode;
        self.outcomes.count(refusal_reached(opcode, code));
        for later in applying(awaited, bytes) {
            if later > code {
                self.outcomes.count(order_reached(opcode, code, later));
            }
        }
        if code == NOT_ITS_REQUESTS {
            self.outcomes.count(not_its(awaited, bytes));
        }
    }

    /// Every refusal, every order of two, every status and kind of output.
    pub fn assert_all(&self, least: u64) {
        for opcode in OPCODES {
            let statuses = Status::REFUSED.map(|status| status.number().into());
            let statuses = statuses.map(|status| status_reached(opcode, status));
            self.outcomes.assert_often(&statuses, least);
            let others = [
                status_reached(opcode, 0),
                status_reached(opcode, UNLISTED_STATUS),
                invalid_header_reached(opcode),
            ];
            self.outcomes.assert_often(&others, least);
        }
        self.outcomes.assert_often(&SHAPES, least);
        self.outcomes.assert_often(&NOT_ITS, least);
        let others = ["waiting at the end", "bytes behind", "content of 998 bytes"];
        self.outcomes.assert_often(&others, least);
    }

    /// Every refusal, by whatever opcode is awaited.
    pub fn assert_refusals(&self, least: u64) {
        for opcode in OPCODES {
            let refusals = REFUSALS.map(|code| refusal_reached(opcode, code));
            self.outcomes.assert_often(&refusals, least);
        }
    }

    /// Every refusal, and every order of two that apply at once.
    pub fn assert_orders(&self, least: u64) {
        self.assert_refusals(least);
        for opcode in OPCODES {
            let orders: Vec<_> = orders()
                .into_iter()
                .map(|(code, later)| order_reached(opcode, code, later))
                .collect();
            self.outcomes.assert_often(&orders, least);
        }
    }

    /// Cuts at every place of the longest response.
    pub fn assert_cuts(&self) {
        let missing: Vec<_> = (0..=LONGEST_RESPONSE)
            .filter(|&place| self.cuts[place] == 0)
            .collect();
        assert!(missing.is_empty(), "no cut at {missing:?}");
    }
}

/// Each refusal with each later one.
pub fn orders() -> Vec<(u32, u32)> {
    let pairs = each_with_each(&REFUSALS, &REFUSALS);
    pairs.into_iter().filter(|(a, b)| a < b).collect()
}

/// Any status that no table lists is counted under this one.
const UNLISTED_STATUS: u32 = 5;

const SHAPES: [&str; 12] = [
    "nothing",
    "a version",
    "version 0.0",
    "providers, none",
    "providers",
    "opcodes, none",
    "opcodes",
    "data, none",
    "data",
    "data of 995 bytes",
    "offset 0",
    "an offset",
];

fn shape_of(output: &Output) -> &'static str {
    match output {
        Output::Nothing => SHAPES[0],
        Output::Version { major: 0, minor: 0 } => SHAPES[2],
        Output::Version { .. } => SHAPES[1],
        Output::Providers(entries) if entries.is_empty() => SHAPES[3],
        Output::Providers(_) => SHAPES[4],
        Output::Opcodes(entries) if entries.is_empty() => SHAPES[5],
        Output::Opcodes(_) => SHAPES[6],
        Output::Data(data) => match data.len() {
            0 => SHAPES[7],
            LONGEST_FIELD => SHAPES[9],
            _ => SHAPES[8],
        },
        Output::Offset(0) => SHAPES[10],
        Output::Offset(_) => SHAPES[11],
    }
}

const NOT_ITS: [&str; 5] = [
    "another opcode alone",
    "another session alone",
    "another provider alone",
    "status 17 with those three zero and content",
    "several of those three",
];

/// In which way opcode, session or provider are not the request's.
fn not_its(awaited: Awaited, bytes: &[u8]) -> &'static str {
    let expected = response(awaited, 0, &[]);
    let same = |at: usize, width: usize| bytes[at..at + width] == expected[at..at + width];
    let is_17 = bytes[STATUS_AT..BODY_AT] == [17, 0];
    let all_zero = bytes[PROVIDER_AT..CONTENT_TYPE_AT]
        .iter()
        .all(|&byte| byte == 0)
        && bytes[OPCODE_AT..STATUS_AT] == [0, 0];
    match (
        same(OPCODE_AT, 2),
        same(SESSION_AT, 8),
        same(PROVIDER_AT, 1),
    ) {
        _ if is_17 && all_zero => NOT_ITS[3],
        (false, true, true) => NOT_ITS[0],
        (true, false, true) => NOT_ITS[1],
        (true, true, false) => NOT_ITS[2],
        _ => NOT_ITS[4],
    }
}

fn status_reached(opcode: u16, status: u32) -> String {
    let listed = Status::REFUSED.map(|status| u32::from(status.number()));
    match status {
        0 => format!("opcode {opcode} with status 0"),
        status if listed.contains(&status) => format!("opcode {opcode} with status {status}"),
        _ => format!("opcode {opcode} with an unlisted status"),
    }
}

fn invalid_header_reached(opcode: u16) -> String {
    format!("opcode {opcode}, status 17 as it stands")
}

fn refusal_reached(opcode: u16, code: u32) -> String {
    format!("opcode {opcode} refused with {code}")
}

fn order_reached(opcode: u16, code: u32, later: u32) -> String {
    format!("opcode {opcode} refused with {code} before {later}")
}

/// The refusals that apply to bytes with a whole header, not the first one alone.
fn applying(awaited: Awaited, bytes: &[u8]) -> Vec<u32> {
    if bytes.len() < BODY_AT {
        return Vec::new();
    }
    let status = u16::from_le_bytes([bytes[STATUS_AT], bytes[STATUS_AT + 1]]);
    let good = response(awaited, status, &[]);
    let differs = |at: usize, width: usize| bytes[at..at + width] != good[at..at + width];
    let field = |at: usize| u32::from_le_bytes(bytes[at..at + 4].try_into().expect("four bytes"));
    let is_its = !differs(OPCODE_AT, 2) && !differs(PROVIDER_AT, 9);
    let content_length = field(CONTENT_LENGTH_AT);
    let applies = [
        differs(0, 4),
        differs(H_AT, 2),
        differs(MAJOR_AT, 2),
        differs(CONTENT_TYPE_AT, 1),
        !is_its && bytes[PROVIDER_AT..BODY_AT] != invalid_header(&[])[PROVIDER_AT..],
        content_length > LONGEST_CONTENT as u32,
        is_unreadable(awaited, bytes, content_length),
    ];
    REFUSALS
        .into_iter()
        .zip(applies)
        .filter_map(|(code, applies)| applies.then_some(code))
        .collect()
}

/// Would the body be unreadable behind a header that is good? Of content that is too long only
/// where the first tag says so, or no body can be read.
fn is_unreadable(awaited: Awaited, bytes: &[u8], content_length: u32) -> bool {
    let status = u16::from_le_bytes([bytes[STATUS_AT], bytes[STATUS_AT + 1]]);
    let Some(body) = bytes[BODY_AT..].get(..content_length as usize) else {
        return false;
    };
    if body.len() > LONGEST_CONTENT {
        let is_refused = status != 0 && status != Status::DeserializingBodyFailed.number();
        let has_none =
            is_refused || status == 0 && matches!(awaited.opcode, IMPORT | DESTROY | VERIFY);
        // In the second format a length above all content is a cut field.
        return has_none || BAD_TAGS.contains(&body[0]);
    }
    awaited.uncut(&response(awaited, status, body)).code == UNREADABLE_BODY
}

/// Uncut, cut in two everywhere, and in chunks of these sizes, over and over. Gives the cuts up to
/// which all was taken.
fn compare(awaited: Awaited, bytes: &[u8], sizes: &[usize]) -> Result<Vec<usize>, String> {
    hand_over(awaited, &[bytes])?;
    let mut cuts = Vec::new();
    for cut in 0..=bytes.len().min(LONGEST_RESPONSE + 2) {
        let (first, second) = bytes.split_at(cut);
        let said = hand_over(awaited, &[first, second])
            .map_err(|difference| format!("cut at {cut}: {difference}"))?;
        if said[0].taken == cut {
            cuts.push(cut);
        }
    }
    hand_over(awaited, &chunks_of(bytes, sizes)).map(|_| cuts)
}

fn chunks_of<'a>(bytes: &'a [u8], sizes: &[usize]) -> Vec<&'a [u8]> {
    let mut chunks = Vec::new();
    let mut rest = bytes;
    for size in sizes.iter().copied().cycle() {
        let (chunk, behind) = rest.split_at(size.min(rest.len()));
        chunks.push(chunk);
        rest = behind;
        if rest.is_empty() {
            break;
        }
    }
    chunks
}

fn show(awaited: Awaited, bytes: &[u8], sizes: &[usize]) -> String {
    let difference = |bytes: &[u8]| compare(awaited, bytes, sizes).err();
    let bytes = shortest(bytes, |bytes| difference(bytes).is_some());
    let difference = difference(&bytes).expect("shrinking keeps it");
    format!("{difference}\n{awaited:?} on {bytes:02X?} in chunks of {sizes:?}")
}
