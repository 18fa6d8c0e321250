//! The thread that accepts connections, with a thread for each.

use crate::{serve, Ended, Say, Shared};
use std::io::{self, ErrorKind};
use std::net::Shutdown;
use std::os::unix::net::{UnixListener, UnixStream};
use std::sync::{Arc, OnceLock, Weak};
use std::thread::{self, JoinHandle};
use std::time::{Duration, Instant};

/// How long to wait when a connection can't be accepted, as for want of descriptors.
const PAUSE: Duration = Duration::from_millis(50);
/// How long none has to wait before it is said again that they wait.
const QUIET: Duration = Duration::from_secs(60);
/// How often it is looked whether connections have ended, once the server stops.
const STEP: Duration = Duration::from_millis(5);

pub struct Listener {
    socket: UnixListener,
    shared: Arc<Shared>,
    patience: Duration,
    say: Say,
    /// Once the server stops: when it ends the connections that have not ended by then.
    stopping: Arc<OnceLock<Instant>>,
    running: Vec<Running>,
    waited: Option<Instant>,
    sum: Sum,
}

/// A connection with its thread, which alone keeps the socket open.
struct Running {
    number: u64,
    stream: Weak<UnixStream>,
    thread: JoinHandle<Ended>,
}

/// What connections have come to, beside the counters.
#[derive(Clone, Copy, Default)]
pub struct Sum {
    pub connections: u64,
    pub unfinished: u64,
    pub undelivered: u64,
}

impl Listener {
    pub fn new(
        socket: UnixListener,
        shared: Arc<Shared>,
        patience: Duration,
        say: Say,
        stopping: Arc<OnceLock<Instant>>,
    ) -> Listener {
        Listener {
            socket,
            shared,
            patience,
            say,
            stopping,
            running: Vec::new(),
            waited: None,
            sum: Sum::default(),
        }
    }

    /// Accepts until the server stops and all clients that had connected are accepted; then ends
    /// the connections that are left.
    pub fn listen(mut self) -> Sum {
        loop {
            match self.socket.accept() {
                Ok((stream, _)) => self.begin(stream),
                Err(error) => match error.kind() {
                    // What a socket says that is shut down, when no client waits any more.
                    ErrorKind::InvalidInput if self.stopping.get().is_some() => break,
                    ErrorKind::Interrupted | ErrorKind::ConnectionAborted => {}
                    _ => self.wait(&error),
                },
            }
            self.collect();
        }
        while !self.running.is_empty() {
            self.end_connections();
            thread::sleep(STEP);
            self.collect();
        }
        self.sum
    }

    /// A client that is accepted is served, if need be later.
    fn begin(&mut self, stream: UnixStream) {
        let number = self.sum.connections;
        self.sum.connections += 1;
        if let Err(error) = stream.set_write_timeout(Some(self.patience)) {
            return (self.say)(&format_args!("connection {number}: not served: {error}"));
        }
        let stream = Arc::new(stream);
        loop {
            match self.spawn(number, &stream) {
                Ok(running) => return self.running.push(running),
                Err(error) => self.wait(&error),
            }
            self.collect();
        }
    }

    fn spawn(&self, number: u64, stream: &Arc<UnixStream>) -> io::Result<Running> {
        let (weak, say) = (Arc::downgrade(stream), self.say);
        let (stream, shared) = (Arc::clone(stream), Arc::clone(&self.shared));
        let thread = thread::Builder::new().spawn(move || {
            let ended = serve(&stream, &shared);
            ended.report(number, say);
            ended
        })?;
        Ok(Running {
            number,
            stream: weak,
            thread,
        })
    }

    /// Waits for other connections to end, which frees what the next one needs. A client that is not
    /// accepted yet waits meanwhile, and what it sends is kept by the system.
    fn wait(&mut self, error: &io::Error) {
        let now = Instant::now();
        let is_said = self.waited.is_some_and(|waited| now - waited < QUIET);
        if !is_said {
            (self.say)(&format_args!("clients wait to be accepted: {error}"));
        }
        self.waited = Some(now);
        if self.stopping.get().is_some() {
            self.end_connections();
        }
        thread::sleep(PAUSE);
    }

    /// Ends what peers send; what has arrived is still read, and its responses are sent. Once the time
    /// for that is over, it is read and counted, and no more is sent.
    fn end_connections(&self) {
        let is_over = self
            .stopping
            .get()
            .is_some_and(|end| Instant::now() >= *end);
        let how = match is_over {
            true => Shutdown::Both,
            false => Shutdown::Read,
        };
        for running in &self.running {
            // To a peer that is gone it fails, and there is nothing more to end.
            if let Some(stream) = running.stream.upgrade() {
                let _ = stream.shutdown(how);
            }
        }
    }

    /// Adds up what the connections that have ended came to.
    fn collect(&mut self) {
        let all = std::mem::take(&mut self.running);
        let (ended, running): (Vec<_>, Vec<_>) =
            all.into_iter().partition(|one| one.thread.is_finished());
        self.running = running;
        for Running { number, thread, .. } in ended {
            match thread.join() {
                Ok(ended) => self.sum.add(&ended),
                Err(_) => (self.say)(&format_args!("connection {number}: its thread panicked")),
            }
        }
    }
}

impl Sum {
    fn add(&mut self, ended: &Ended) {
        self.unfinished += ended.unfinished;
        let undelivered = ended.undelivered.as_ref();
        self.undelivered += undelivered.map_or(0, |undelivered| undelivered.responses);
    }
}
