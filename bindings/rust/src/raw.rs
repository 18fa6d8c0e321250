//! The same functions on any memory, for callers that keep registry, connection, list and journal
//! themselves. Memory of a wrong size or content is refused, and stays as it was.

use crate::{foreign, Counters, JournalFault, Refusal, RosterFault};

/// The memory of a connection has another size than [`CONNECTION_SIZE`](crate::CONNECTION_SIZE), or
/// that of a journal's reader another than [`JOURNAL_STATE_SIZE`](crate::JOURNAL_STATE_SIZE).
#[derive(Clone, Copy, Debug, PartialEq, Eq)]
pub struct WrongSize;

/// Makes `registry` a registry of the file's names and no keys, whatever it held.
///
/// ```
/// use razidkot::{raw, RosterFault, REGISTRY_SIZE};
///
/// let mut memory = [0xEE; REGISTRY_SIZE];
/// assert_eq!(raw::load_roster(b"\x01\x01\x00b", &mut memory), Ok(()));
/// assert_eq!(memory[..3], [1, b'b', 0]);
///
/// let fault = raw::load_roster(b"", &mut memory[1..]);
/// assert_eq!(fault, Err(RosterFault::WrongMemorySize));
/// ```
pub fn load_roster(file: &[u8], registry: &mut [u8]) -> Result<(), RosterFault> {
    match foreign::load_roster(file, registry) {
        0 => Ok(()),
        code => Err(RosterFault::ALL[code as usize - 1]),
    }
}

/// Makes `memory` a fresh connection, whatever it held.
///
/// ```
/// use razidkot::{raw, CONNECTION_SIZE};
///
/// let mut memory = [0xEE; CONNECTION_SIZE];
/// assert_eq!(raw::open_connection(&mut memory), Ok(()));
/// assert_eq!(memory, [0; CONNECTION_SIZE]);
/// assert_eq!(raw::open_connection(&mut memory[1..]), Err(raw::WrongSize));
/// ```
pub fn open_connection(memory: &mut [u8]) -> Result<(), WrongSize> {
    match foreign::open_connection(memory) {
        0 => Ok(()),
        _ => Err(WrongSize),
    }
}

/// What a call says, as it comes from the archive: the header's `razidkot_answer`.
#[derive(Clone, Copy, Debug, PartialEq, Eq)]
#[repr(C)]
pub struct Answer {
    /// 0 for a call that is taken, else the digit of C1 to C7.
    pub code: u32,
    /// Bytes of the chunk; 0 if the call is not taken.
    pub taken: usize,
    /// Bytes of response; 0 if none is due yet or the call is not taken.
    pub written: usize,
    /// Bytes of record; 0 but for an import or destroy that was served. Put them on disk before the
    /// response is sent.
    pub recorded: usize,
}

impl Answer {
    /// The answer of a call that is taken; else why it is not.
    pub fn result(self) -> Result<Answer, Refusal> {
        match self.code {
            0 => Ok(self),
            code => Err(Refusal::ALL[code as usize - 1]),
        }
    }
}

/// [`Service::call`](crate::Service::call) on any memory. The response is written to the front of
/// `response` and the record to the front of `journal`; bytes past them stay. The response buffer and
/// the chunk are judged before connection, registry, counters and list, and the journal's buffer after
/// them.
///
/// ```
/// use razidkot::{raw, Counters, Refusal, CONNECTION_SIZE, REGISTRY_SIZE};
///
/// let (mut connection, mut registry) = ([0; CONNECTION_SIZE], [0; REGISTRY_SIZE]);
/// let (mut response, mut journal) = ([0; 1_024], [0; 1_024]);
/// let mut counters = Counters::default();
/// let mut judge = |kind, list: &[u8], journal: &mut [u8]| {
///     connection[0] = kind;
///     let (connection, registry) = (&mut connection, &mut registry);
///     raw::call(b"", connection, registry, list, &mut counters, &mut response, journal).result()
/// };
/// assert_eq!(judge(3, b"", &mut journal), Err(Refusal::ConnectionIllFormed)); // No such kind.
/// let name = b"\x01\x01\x00k"; // And no data behind it.
/// assert_eq!(judge(0, name, &mut journal), Err(Refusal::ListIllFormed));
/// assert_eq!(judge(0, b"", &mut journal[1..]), Err(Refusal::JournalBufferTooSmall));
/// assert_eq!(judge(0, b"", &mut journal).map(|answer| answer.recorded), Ok(0));
/// ```
pub fn call(
    chunk: &[u8],
    connection: &mut [u8],
    registry: &mut [u8],
    list: &[u8],
    counters: &mut Counters,
    response: &mut [u8],
    journal: &mut [u8],
) -> Answer {
    foreign::call(
        chunk, connection, registry, list, counters, response, journal,
    )
}

/// Makes `state` a journal's reader that has read nothing, whatever it held.
///
/// ```
/// use razidkot::{raw, JOURNAL_STATE_SIZE};
///
/// let mut state = [0xEE; JOURNAL_STATE_SIZE];
/// assert_eq!(raw::journal_begin(&mut state), Ok(()));
/// assert_eq!(raw::journal_begin(&mut state[1..]), Err(raw::WrongSize));
/// ```
pub fn journal_begin(state: &mut [u8]) -> Result<(), WrongSize> {
    match foreign::journal_begin(state) {
        0 => Ok(()),
        _ => Err(WrongSize),
    }
}

/// What reading a journal says, as it comes from the archive: the header's `razidkot_journal_answer`.
#[derive(Clone, Copy, Debug, PartialEq, Eq)]
#[repr(C)]
pub struct JournalAnswer {
    /// 0 where the bytes so far end with a record, 1 to 3 for J1 to J3, 4 where they end within a
    /// record, 5 for an ill-formed registry, 6 for an ill-formed state.
    pub code: u32,
    /// Bytes of the chunk; 0 if nothing is read.
    pub taken: usize,
    /// Bytes of the records that are carried out; 0 if nothing is read.
    pub kept: u64,
}

/// What the bytes of a journal so far are.
#[derive(Clone, Copy, Debug, PartialEq, Eq)]
pub enum JournalEnd {
    /// Whole records.
    AtRecord,
    /// Whole records, and the beginning of another.
    WithinRecord,
    /// Whole records, and one that is refused. Nothing behind it is read.
    Refused(JournalFault),
}

/// Why nothing of a journal is read, in the order in which it is judged.
#[derive(Clone, Copy, Debug, PartialEq, Eq)]
pub enum NotRead {
    /// As C4 of a call.
    RegistryIllFormed,
    /// The state has another size than [`JOURNAL_STATE_SIZE`](crate::JOURNAL_STATE_SIZE), or no
    /// reader in it.
    StateIllFormed,
}

impl JournalAnswer {
    /// What the bytes so far are; else why nothing is read.
    pub fn result(self) -> Result<JournalEnd, NotRead> {
        match self.code {
            0 => Ok(JournalEnd::AtRecord),
            4 => Ok(JournalEnd::WithinRecord),
            5 => Err(NotRead::RegistryIllFormed),
            6 => Err(NotRead::StateIllFormed),
            code => Ok(JournalEnd::Refused(JournalFault::ALL[code as usize - 1])),
        }
    }
}

/// [`JournalReader::read`](crate::JournalReader::read) on any memory: reads on in a journal, and carries
/// out in `registry` each record that ends in this chunk. The registry is judged on every call, so
/// that long chunks are quicker: 64 KiB, say.
///
/// ```
/// use razidkot::{raw, JOURNAL_STATE_SIZE, REGISTRY_SIZE};
///
/// let (mut state, mut registry) = ([0; JOURNAL_STATE_SIZE], [0; REGISTRY_SIZE]);
/// raw::load_roster(b"\x01\x01\x00b", &mut registry).expect("a good roster");
/// raw::journal_begin(&mut state).expect("a state of the right size");
/// let answer = raw::journal_read(&mut state, &mut registry, b"\x02\x09\x00\x00");
/// assert_eq!(answer.result(), Ok(raw::JournalEnd::WithinRecord));
/// assert_eq!((answer.taken, answer.kept), (4, 0));
/// ```
pub fn journal_read(state: &mut [u8], registry: &mut [u8], chunk: &[u8]) -> JournalAnswer {
    foreign::journal_read(state, registry, chunk)
}

/// Why there is no bill, in the order in which it is judged.
#[derive(Clone, Copy, Debug, PartialEq, Eq)]
pub enum NoBill {
    /// The buffer has fewer than [`LEAST_BILL_BUFFER`](crate::LEAST_BILL_BUFFER) bytes.
    BufferTooSmall,
    /// As C3 of a call.
    ConnectionIllFormed,
    /// As C4 of a call.
    RegistryIllFormed,
}

impl NoBill {
    const ALL: [Self; 3] = [
        Self::BufferTooSmall,
        Self::ConnectionIllFormed,
        Self::RegistryIllFormed,
    ];
}

/// What billing says, as it comes from the archive: the header's `razidkot_bill_answer`.
#[derive(Clone, Copy, Debug, PartialEq, Eq)]
#[repr(C)]
pub(crate) struct BillAnswer {
    code: u32,
    written: usize,
}

/// Writes a bill to the front of `out` and says how many bytes it has; bytes past it stay. Where
/// there is no bill, `out` stays as it was.
///
/// ```
/// use razidkot::{raw, Counters, CONNECTION_SIZE, LEAST_BILL_BUFFER, REGISTRY_SIZE};
///
/// let (connection, registry) = ([0; CONNECTION_SIZE], [0; REGISTRY_SIZE]);
/// let (mut out, counters) = ([0; LEAST_BILL_BUFFER], Counters::default());
/// let written = raw::bill(&mut out, &counters, &registry, &connection);
/// assert_eq!(written, Ok(32));
/// assert_eq!(&out[..32], b"taken 0\nopen 0\ndropped 0\nheld 0\n");
/// let none = raw::bill(&mut out, &counters, &registry, &[]);
/// assert_eq!(none, Err(raw::NoBill::ConnectionIllFormed));
/// ```
pub fn bill(
    out: &mut [u8],
    counters: &Counters,
    registry: &[u8],
    connection: &[u8],
) -> Result<usize, NoBill> {
    let answer = foreign::bill(out, counters, registry, connection);
    match answer.code {
        0 => Ok(answer.written),
        code => Err(NoBill::ALL[code as usize - 1]),
    }
}

/// How far an audit is, and the counters of the requests that it took: the header's `razidkot_audit`.
#[derive(Clone, Debug, PartialEq, Eq)]
#[repr(C)]
pub struct AuditPlace {
    /// The number, from 1, of the last response that the rules gave; 0 before the first.
    pub number: u64,
    /// Its bytes.
    pub size: usize,
    /// How many of them were compared.
    pub place: usize,
    /// 1 once a byte is wrong, else 0: then number and place stay at it. Any other number is taken for 1.
    pub wrong: u32,
    /// Those of the requests that the steps took.
    pub counters: Counters,
}

/// A chunk of each stream.
#[derive(Clone, Copy, Debug, PartialEq, Eq)]
pub struct AuditChunks<'a> {
    /// Captured requests, that follow those taken before.
    pub requests: &'a [u8],
    /// Captured responses, that follow those taken before.
    pub responses: &'a [u8],
    /// Whether no response byte comes behind this chunk.
    pub is_last: bool,
}

/// The memory that a step of an audit is lent.
#[derive(Debug)]
pub struct AuditLent<'a> {
    /// The connection that the requests came on.
    pub connection: &'a mut [u8],
    /// The registry.
    pub registry: &'a mut [u8],
    /// The list of shipped keys.
    pub list: &'a [u8],
    /// A buffer for the response that is compared, the same in all steps.
    pub pending: &'a mut [u8],
    /// A buffer for records of the journal, which nobody keeps.
    pub journal: &'a mut [u8],
}

/// What a step says, as it comes from the archive: the header's `razidkot_audited`.
#[derive(Clone, Debug, PartialEq, Eq)]
#[repr(C)]
pub struct AuditStep {
    /// 0, or 1 to 7 for C1 to C7, or [`AUDIT_ILL_FORMED`].
    pub code: u32,
    /// Bytes of the requests; 0 where bytes of the responses were compared.
    pub requests: usize,
    /// Bytes of the responses.
    pub responses: usize,
    /// For the next step.
    pub audit: AuditPlace,
}

/// What is said of a place that is ill formed.
pub const AUDIT_ILL_FORMED: u32 = 8;

/// The verdict, as it comes from the archive: the header's `razidkot_verdict`.
#[derive(Clone, Copy, Debug, PartialEq, Eq)]
#[repr(C)]
pub struct AuditEnd {
    /// 0 if every response is right, 1 if one is wrong, or [`AUDIT_ILL_FORMED`].
    pub code: u32,
    /// The first wrong response's number, from 1.
    pub response: u64,
    /// Its first wrong byte, from 0.
    pub byte: usize,
}

/// An audit that has taken nothing.
///
/// ```
/// use razidkot::{raw, Counters};
///
/// let audit = raw::audit_begin();
/// assert_eq!((audit.number, audit.size, audit.place, audit.wrong), (0, 0, 0, 0));
/// assert_eq!(audit.counters, Counters::default());
/// ```
pub fn audit_begin() -> AuditPlace {
    foreign::audit_begin()
}

/// [`Audit::step`](crate::Audit::step) on any memory: compares bytes of the responses while a response
/// is pending, else takes bytes of the requests.
///
/// ```
/// use razidkot::{raw, CONNECTION_SIZE, LEAST_JOURNAL_BUFFER, LEAST_RESPONSE_BUFFER, REGISTRY_SIZE};
///
/// let (mut connection, mut registry) = ([0; CONNECTION_SIZE], [0; REGISTRY_SIZE]);
/// let (mut pending, mut journal) = ([0; LEAST_RESPONSE_BUFFER], [0; LEAST_JOURNAL_BUFFER]);
/// let chunks = raw::AuditChunks { requests: b"GET / HTTP/1.0", responses: b"", is_last: true };
/// let mut lent = raw::AuditLent {
///     connection: &mut connection,
///     registry: &mut registry,
///     list: b"",
///     pending: &mut pending,
///     journal: &mut journal,
/// };
/// let stepped = raw::audit_step(raw::audit_begin(), &chunks, &mut lent);
/// assert_eq!((stepped.code, stepped.requests, stepped.responses), (0, 6, 0));
/// // A response is due, and none was captured.
/// let end = raw::audit_end(stepped.audit, &pending, b"");
/// assert_eq!((end.code, end.response, end.byte), (1, 1, 0));
/// ```
pub fn audit_step(audit: AuditPlace, chunks: &AuditChunks, lent: &mut AuditLent) -> AuditStep {
    foreign::audit_step(audit, chunks, lent)
}

/// The verdict once all requests are taken; `rest` is what no step took of the responses.
pub fn audit_end(audit: AuditPlace, pending: &[u8], rest: &[u8]) -> AuditEnd {
    foreign::audit_end(audit, pending, rest)
}
