//! Requests with every choice of faults, for the order in which they are judged.

/// An Import by `ct`, whose slots are full, in the parts that a fault may change.
#[derive(Clone, Copy, Debug)]
pub struct Draft {
    major: u8,
    content_type: u8,
    accept_type: u8,
    opcode: u8,
    provider: u8,
    auth: (u8, &'static [u8]),
    body: &'static [u8],
}

/// A new key; a key that is held; the same with other bits than are taken, then without data, and
/// then cut.
const NEW: &[u8] = b"\x0A\x01z\x12\x02\xAA\xBB\x18\x80\x10";
const HELD: &[u8] = b"\x0A\x01a\x12\x02\xAA\xBB\x18\x80\x10";
const OTHER_BITS: &[u8] = b"\x0A\x01a\x12\x02\xAA\xBB\x18\x80\x08";
const ILLEGAL: &[u8] = b"\x0A\x01a\x18\x80\x08";
const CUT: &[u8] = b"\x0A\x01a\x18\x80\x08\x0A";

impl Draft {
    pub fn bytes(&self) -> Vec<u8> {
        let (auth_type, auth) = self.auth;
        [
            &[0x10, 0xA7, 0xC0, 0x5E, 22, 0, self.major, 0, self.provider][..],
            &[0; 8],
            &[self.content_type, self.accept_type, auth_type],
            &(self.body.len() as u32).to_le_bytes(),
            &(auth.len() as u16).to_le_bytes(),
            &[self.opcode, 0],
            self.body,
            auth,
        ]
        .concat()
    }

    /// Whether what this status is for is there; the page's order says which one is answered.
    pub fn has(&self, status: u64) -> bool {
        match status {
            4 => self.major != 1,
            2 => self.content_type > 2,
            3 => self.accept_type > 2,
            9 => self.opcode != 6,
            6 => self.provider > 1,
            1 => self.provider != 1,
            12 => self.auth.0 > 1,
            11 => matches!(self.auth, (0, [_, ..])) || (self.auth.0 == 1 && self.auth.1 != b"ct"),
            19 => self.auth.0 == 0,
            7 => self.body == CUT,
            1135 => [ILLEGAL, CUT].contains(&self.body),
            1134 => [OTHER_BITS, ILLEGAL, CUT].contains(&self.body),
            1139 => self.body != NEW,
            1142 => true,
            _ => panic!("no fault is known for {status}"),
        }
    }
}

/// The draft with each of these put into it.
fn each<T: Copy>(drafts: Vec<Draft>, values: &[T], put: fn(&mut Draft, T)) -> Vec<Draft> {
    let changed = |draft: Draft| {
        values.iter().map(move |&value| {
            let mut draft = draft;
            put(&mut draft, value);
            draft
        })
    };
    drafts.into_iter().flat_map(changed).collect()
}

/// Every choice of faults.
pub fn drafts() -> Vec<Draft> {
    let drafts = vec![Draft {
        major: 1,
        content_type: 1,
        accept_type: 1,
        opcode: 6,
        provider: 1,
        auth: (1, b"ct"),
        body: NEW,
    }];
    let auths: [(u8, &[u8]); 5] = [(1, b"ct"), (1, b"us"), (0, b""), (0, b"ct"), (2, b"ct")];
    let drafts = each(drafts, &[1, 2], |draft, major| draft.major = major);
    let drafts = each(drafts, &[1, 3], |draft, kind| draft.content_type = kind);
    let drafts = each(drafts, &[1, 2, 3], |draft, kind| draft.accept_type = kind);
    let drafts = each(drafts, &[6, 0], |draft, opcode| draft.opcode = opcode);
    let drafts = each(drafts, &[1, 0, 2], |draft, provider| {
        draft.provider = provider
    });
    let drafts = each(drafts, &auths, |draft, auth| draft.auth = auth);
    let bodies = [NEW, HELD, OTHER_BITS, ILLEGAL, CUT];
    each(drafts, &bodies, |draft, body| draft.body = body)
}
