//! Plays an example: the compiled client writes, the compiled service answers, the client reads.

use super::labels::{self, Field, Headers};
use super::text::{line_of, steps, without_names, Example, Line, Step};
use super::wanted::Wanted;
use super::Fault;
use razidkot::LONGEST_CHUNK;
use razidkot::{Buffers, Connection, Counters, List, NoJournal, Registry, Service, Status};
use razidkot_client::{Output, Reader, Reading, Response};
use razidkot_tests::lent::Lent;
use std::collections::{BTreeSet, VecDeque};
use std::mem;

/// What the page gives all examples.
pub struct Setting {
    pub headers: Headers,
    pub roster: Vec<u8>,
    /// The longest chunk, of requests and of responses.
    pub cut: usize,
}

pub struct Play<'a> {
    setting: &'a Setting,
    service: Service<NoJournal>,
    connection: Connection,
    /// What is sent and not yet handed over: several requests may share a chunk.
    unsent: Vec<u8>,
    /// How many bytes were sent in all at the end of each group that has no verdict yet.
    ends: VecDeque<u64>,
    sent: u64,
    /// Responses that the example has not shown yet, each with how many bytes were taken for it.
    responses: VecDeque<(u64, Vec<u8>)>,
    /// The client's readers, the oldest request's first.
    awaiting: VecDeque<Reader>,
    /// What the oldest of them is handed.
    received: Vec<u8>,
    /// What the example has shown, for the page to show all there is.
    pub shown: BTreeSet<String>,
}

type Done = Result<(), Fault>;
type Action<'a> = fn(&mut Play<'a>, rest: &str, lines: &[&str]) -> Done;

/// Plays all of an example and gives what it has shown.
pub fn play(example: &Example, setting: &Setting) -> Result<BTreeSet<String>, Fault> {
    let faulty = |fault: Fault| format!("{}: {fault}", example.title);
    let mut play = Play::begin(setting).map_err(faulty)?;
    let example = &without_names(example).map_err(faulty)?;
    for step in steps(example).map_err(faulty)? {
        let done = play.step(&step);
        done.map_err(|fault| format!("{}: {}: {fault}", example.title, step.says))?;
    }
    play.end().map_err(faulty)?;
    Ok(play.shown)
}

fn same<T: PartialEq + std::fmt::Debug>(said: T, expected: T) -> Done {
    match said == expected {
        true => Ok(()),
        false => Err(format!(
            "the page has {expected:02X?}, but it is {said:02X?}"
        )),
    }
}

fn parsed<'a>(lines: &[&'a str]) -> Result<Vec<Line<'a>>, Fault> {
    lines.iter().map(|line| line_of(line)).collect()
}

fn joined(lines: &[Line]) -> Vec<u8> {
    lines.iter().flat_map(|line| line.bytes.clone()).collect()
}

/// The bytes of a whole message, every label checked.
fn whole(fields: &[Field], lines: &[&str]) -> Result<Vec<u8>, Fault> {
    let lines = parsed(lines)?;
    labels::check(fields, &lines, true)?;
    Ok(joined(&lines))
}

/// Bytes that need be no message; if they begin as one, its labels are checked.
fn any(fields: &[Field], lines: &[&str]) -> Result<Vec<u8>, Fault> {
    let lines = parsed(lines)?;
    if lines.first().is_some_and(labels::begins_message) {
        labels::check(fields, &lines, false)?;
    }
    Ok(joined(&lines))
}

impl<'a> Play<'a> {
    /// The longer of two beginnings comes first.
    const ACTIONS: [(&'static str, Action<'a>); 18] = [
        ("roster loaded", Self::load),
        ("roster refused ", Self::refuse_roster),
        ("list lent", Self::lend),
        ("list refused ", Self::refuse_list),
        ("client writes ", Self::write),
        ("client refuses to write ", Self::refuse_to_write),
        ("client awaits ", Self::await_response),
        ("client reads ", Self::read),
        ("client refuses ", Self::refuse_to_read),
        ("client waits", Self::wait),
        ("received", Self::receive),
        ("sent", Self::send),
        ("service answers nothing", Self::answer_nothing),
        ("service answers", Self::answer),
        ("connection opened", Self::open),
        ("connection ", Self::connection_is),
        ("counters", Self::counters_are),
        ("bill", Self::bill_is),
    ];

    fn begin(setting: &'a Setting) -> Result<Play<'a>, Fault> {
        let registry = Registry::load(&setting.roster).map_err(|fault| fault.to_string())?;
        Ok(Play {
            setting,
            service: Service::new(registry, List::new(), NoJournal),
            connection: Connection::open(),
            unsent: Vec::new(),
            ends: VecDeque::new(),
            sent: 0,
            responses: VecDeque::new(),
            awaiting: VecDeque::new(),
            received: Vec::new(),
            shown: BTreeSet::new(),
        })
    }

    fn step(&mut self, step: &Step) -> Done {
        let action = Self::ACTIONS
            .iter()
            .find_map(|(begins, action)| Some((step.says.strip_prefix(begins)?, action)));
        let (rest, action) = action.ok_or("no step of an example")?;
        action(self, rest, &step.lines)
    }

    fn end(&mut self) -> Done {
        self.hand_over()?;
        same(self.responses.len(), 0)?;
        same(self.ends.len(), 0)?;
        same(self.awaiting.len(), 0)
    }

    // ---- The roster and the list

    fn load(&mut self, _: &str, lines: &[&str]) -> Done {
        let loaded = Registry::load(&joined(&parsed(lines)?));
        let registry = loaded.map_err(|fault| fault.to_string())?;
        let counters = self.service.counters().clone();
        self.service = Service::new(registry, self.service.list().clone(), NoJournal);
        *self.service.counters_mut() = counters;
        Ok(())
    }

    fn refuse_roster(&mut self, fault: &str, lines: &[&str]) -> Done {
        match Registry::load(&joined(&parsed(lines)?)) {
            Ok(_) => Err("it is loaded".to_string()),
            Err(said) => {
                self.shown.insert(format!("fault R{}", said.number()));
                same(format!("R{}", said.number()).as_str(), fault)
            }
        }
    }

    fn lend(&mut self, _: &str, lines: &[&str]) -> Done {
        self.hand_over()?;
        let lent = List::from_bytes(&joined(&parsed(lines)?));
        self.service
            .set_list(lent.map_err(|fault| fault.to_string())?);
        Ok(())
    }

    /// With an empty chunk, which a call that is taken does nothing with. The service keeps good
    /// lists only, so its memory is copied, and lent with this one.
    fn refuse_list(&mut self, code: &str, lines: &[&str]) -> Done {
        let mut lent = Lent::new(
            self.connection.memory().to_vec(),
            self.service.registry().memory().to_vec(),
            joined(&parsed(lines)?),
            self.service.counters().clone(),
        );
        match lent.call_both(b"").result() {
            Ok(_) => Err("it is taken".to_string()),
            Err(said) => {
                self.shown.insert(format!("call C{}", said.number()));
                same(format!("C{}", said.number()).as_str(), code)
            }
        }
    }

    // ---- Bytes to the service, and its answers

    fn put(&mut self, bytes: Vec<u8>) {
        self.sent += bytes.len() as u64;
        self.ends.push_back(self.sent);
        self.unsent.extend(bytes);
    }

    fn send(&mut self, _: &str, lines: &[&str]) -> Done {
        let bytes = any(&self.setting.headers.request, lines)?;
        self.put(bytes);
        Ok(())
    }

    fn hand_over(&mut self) -> Done {
        let bytes = mem::take(&mut self.unsent);
        for chunk in bytes.chunks(self.setting.cut.min(LONGEST_CHUNK)) {
            self.call_until_taken(chunk)?;
        }
        Ok(())
    }

    fn call_until_taken(&mut self, chunk: &[u8]) -> Done {
        let (mut rest, mut buffers) = (chunk, Buffers::new());
        while !rest.is_empty() {
            let answer = self.service.call(&mut self.connection, rest, &mut buffers);
            let answer = answer.map_err(|error| error.to_string())?;
            let taken = self.service.counters().taken;
            let response = answer.response.map(|response| (taken, response.to_vec()));
            self.responses.extend(response);
            rest = &rest[answer.taken..];
        }
        Ok(())
    }

    fn answer(&mut self, _: &str, lines: &[&str]) -> Done {
        self.hand_over()?;
        let expected = whole(&self.setting.headers.response, lines)?;
        let (taken, response) = self.responses.pop_front().ok_or("no response came")?;
        let end = self.ends.pop_front().ok_or("nothing was sent")?;
        same(response, expected.clone())?;
        self.show_answer(&expected);
        self.received = expected;
        same(taken, end)
    }

    fn show_answer(&mut self, response: &[u8]) {
        let at = |place: usize| u16::from_le_bytes([response[place], response[place + 1]]);
        self.shown.insert(format!("status {}", at(24)));
        if at(24) == Status::Success.number() {
            self.shown.insert(format!("served {}", at(22)));
        }
    }

    fn answer_nothing(&mut self, _: &str, _: &[&str]) -> Done {
        self.hand_over()?;
        self.ends.pop_front().ok_or("nothing was sent")?;
        same(self.responses.len(), 0)
    }

    // ---- The client

    fn write(&mut self, rest: &str, lines: &[&str]) -> Done {
        let expected = whole(&self.setting.headers.request, lines)?;
        let wanted = Wanted::parse(rest)?;
        same(wanted.written()?, expected.clone())?;
        self.awaiting.push_back(Reader::begin(&wanted.request()));
        self.put(expected);
        Ok(())
    }

    fn refuse_to_write(&mut self, rest: &str, _: &[&str]) -> Done {
        let (wanted, refusal) = rest.split_once(": ").ok_or("why not?")?;
        self.shown.insert(format!("write {refusal}"));
        same(Wanted::parse(wanted)?.written(), Err(refusal.to_string()))
    }

    fn await_response(&mut self, rest: &str, _: &[&str]) -> Done {
        let wanted = Wanted::parse(rest)?;
        self.awaiting.push_back(Reader::begin(&wanted.request()));
        Ok(())
    }

    fn receive(&mut self, _: &str, lines: &[&str]) -> Done {
        self.received = any(&self.setting.headers.response, lines)?;
        Ok(())
    }

    /// Hands what was received to the oldest reader, with a byte more, which it must not take where
    /// it reads or refuses.
    fn hand_to_reader(&mut self) -> Result<(Reader, usize), Fault> {
        let mut reader = self.awaiting.pop_front().ok_or("no request awaits one")?;
        let mut bytes = mem::take(&mut self.received);
        bytes.push(0x10);
        let mut taken = 0;
        for chunk in bytes.chunks(self.setting.cut) {
            taken += reader.read(chunk).taken;
        }
        Ok((reader, taken))
    }

    fn read(&mut self, expected: &str, _: &[&str]) -> Done {
        let length = self.received.len();
        let (reader, taken) = self.hand_to_reader()?;
        match reader.said() {
            Ok(Reading::Response(response)) => same(described(&response).as_str(), expected)?,
            Ok(Reading::Waiting) => return Err("it waits".to_string()),
            Err(refusal) => return Err(refusal.to_string()),
        }
        same(taken, length)
    }

    fn refuse_to_read(&mut self, expected: &str, _: &[&str]) -> Done {
        let (reader, taken) = self.hand_to_reader()?;
        let refusal = reader.said().err().ok_or("it is not refused")?;
        self.shown.insert(format!("read {refusal:?}"));
        same(format!("{refusal:?}, {taken} taken").as_str(), expected)
    }

    fn wait(&mut self, _: &str, _: &[&str]) -> Done {
        self.hand_over()?;
        let reader = self.awaiting.pop_front().ok_or("no request awaits one")?;
        same(self.received.len(), 0)?;
        same(reader.said(), Ok(Reading::Waiting))
    }

    // ---- What is left

    fn open(&mut self, _: &str, _: &[&str]) -> Done {
        self.hand_over()?;
        self.connection = Connection::open();
        Ok(())
    }

    /// docs/LAYOUT.md: the kind, then how many bytes are held or to go.
    fn connection_is(&mut self, expected: &str, _: &[&str]) -> Done {
        self.hand_over()?;
        let (kind, rest) = self.connection.memory().split_at(1);
        let count = rest[..8].iter().rev();
        let count = count.fold(0, |value, &byte| value << 8 | u64::from(byte));
        let said = match kind {
            [0] => format!("open, {count} held"),
            [1] => format!("skips, {count} to go"),
            _ => "closed".to_string(),
        };
        same(said.as_str(), expected)
    }

    fn counters_are(&mut self, _: &str, lines: &[&str]) -> Done {
        self.hand_over()?;
        let said = counted(self.service.counters());
        same(said.iter().map(String::as_str).collect(), lines.to_vec())
    }

    fn bill_is(&mut self, _: &str, lines: &[&str]) -> Done {
        self.hand_over()?;
        let bill = self.service.bill(&self.connection);
        same(bill.lines().collect(), lines.to_vec())
    }
}

/// The counters that are not 0.
fn counted(counters: &Counters) -> Vec<String> {
    let single = |name: &str, count: u64| vec![(name.to_string(), count)];
    let served = counters.served.iter().enumerate();
    let refused = Status::REFUSED.into_iter().zip(counters.refused);
    let all = [
        single("taken", counters.taken),
        single("answered", counters.answered),
        single("dropped", counters.dropped),
        served
            .map(|(line, &count)| (format!("served {line}"), count))
            .collect(),
        single("unauthenticated", counters.unauthenticated),
        refused
            .map(|(status, count)| (format!("refused {}", status.number()), count))
            .collect(),
    ];
    let all = all.into_iter().flatten().filter(|(_, count)| *count > 0);
    all.map(|(name, count)| format!("{name} {count}")).collect()
}

fn described(response: &Response) -> String {
    let list = |entries: Vec<String>| entries.iter().map(|entry| format!(" {entry}")).collect();
    let output: String = match &response.output {
        Output::Nothing => "nothing".to_string(),
        Output::Version { major, minor } => format!("version {major}.{minor}"),
        Output::Providers(entries) => {
            let entries: String = list(entries.clone().map(|entry| entry.to_string()).collect());
            format!("providers{entries}")
        }
        Output::Opcodes(entries) => {
            let entries: String = list(entries.clone().map(|entry| entry.to_string()).collect());
            format!("opcodes{entries}")
        }
        Output::Data(data) => {
            let bytes: String = list(data.iter().map(|byte| format!("{byte:02X}")).collect());
            format!("data{bytes}")
        }
        Output::Offset(at) => format!("offset {at}"),
    };
    format!("status {}, {output}", response.status)
}
