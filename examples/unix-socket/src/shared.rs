//! One service, with its journal, and one capture for all connections.

use crate::{Capture, Captured, Records, Rest};
use razidkot::{Answer, Buffers, CallError, Connection, Counters, Service};
use std::io;
use std::sync::mpsc::Sender;
use std::sync::{Mutex, MutexGuard};

/// All that connections share, behind one lock, so that each call is whole: no other connection sees
/// or changes any of it in the middle of one.
pub struct Shared {
    locked: Mutex<Locked>,
}

struct Locked {
    service: Service<Records>,
    capture: Option<Capture>,
    stop: Sender<String>,
    /// What the journal failed with.
    fault: Option<String>,
}

impl Shared {
    /// Nothing is captured yet. `stop` is told why, if the journal fails.
    pub fn new(service: Service<Records>, stop: Sender<String>) -> Shared {
        Shared {
            locked: Mutex::new(Locked {
                service,
                capture: None,
                stop,
                fault: None,
            }),
        }
    }

    /// From now on requests are captured.
    pub fn capture(&self, capture: Capture) {
        self.lock().capture = Some(capture);
    }

    /// [`Service::call`] on what is shared; `rest` is the connection's own. The lock is free again
    /// before the response is sent, so that a slow peer holds no other one up.
    ///
    /// A request and its response are captured under the lock of the call that answers it, so that they
    /// are captured in the order in which requests changed the registry. Its record is on disk by then: all
    /// other connections wait for it, since what they are answered may rest on it.
    pub fn call<'a>(
        &self,
        connection: &mut Connection,
        rest: &mut Rest,
        chunk: &[u8],
        buffers: &'a mut Buffers,
    ) -> Result<Answer<'a>, CallError<io::Error>> {
        let locked = &mut *self.lock();
        let answer = locked.service.call(connection, chunk, buffers);
        let answer = answer.inspect_err(|error| locked.note(error))?;
        rest.add(&chunk[..answer.taken]);
        match answer.response {
            // A bad start is answered too, and would close the captured stream in front of all others.
            Some(response) if connection.is_closed() => rest.answer(response),
            Some(response) => {
                if let Some(capture) = &mut locked.capture {
                    capture.append(rest, response);
                }
                rest.clear();
            }
            None => {}
        }
        Ok(answer)
    }

    /// A connection has ended, and left this.
    pub fn end(&self, rest: Rest) {
        if let Some(capture) = &mut self.lock().capture {
            capture.keep(rest);
        }
    }

    /// Ends the capture, if there is one.
    pub fn end_capture(&self) -> Option<Captured> {
        self.lock().capture.take().map(Capture::finish)
    }

    /// What the journal failed with, if it did.
    pub fn journal_fault(&self) -> Option<String> {
        self.lock().fault.clone()
    }

    /// The counters between two calls.
    pub fn counters(&self) -> Counters {
        self.lock().service.counters().clone()
    }

    /// The bill of all connections, which together hold so many bytes. That of a fresh connection
    /// has all but those.
    pub fn bill(&self, held: u64) -> String {
        let bill = self.lock().service.bill(&Connection::open());
        let front = bill.strip_suffix("held 0\n");
        let front = front.expect("a fresh connection holds nothing");
        format!("{front}held {held}\n")
    }

    fn lock(&self) -> MutexGuard<'_, Locked> {
        self.locked.lock().expect("no call panics")
    }
}

impl Locked {
    /// A journal that fails stops the server: its memory is ahead of the disk.
    fn note(&mut self, error: &CallError<io::Error>) {
        if let CallError::NotRecorded(error) = error {
            let why = format!("the journal can't be written: {error}");
            self.fault = Some(why.clone());
            // Without a receiver nobody waits for it, and calls are refused all the same.
            let _ = self.stop.send(why);
        }
    }
}
