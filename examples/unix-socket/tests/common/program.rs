//! The program, run as a supervisor would run it, in a folder of its own.

use super::{roster, socket_path, TOO_LONG};
use std::ffi::OsStr;
use std::fs;
use std::io::{BufRead, BufReader, Read};
use std::path::{Path, PathBuf};
use std::process::{Child, Command, ExitStatus, Stdio};
use std::sync::mpsc::{self, Receiver};
use std::thread;
use std::time::{Duration, Instant};

/// A folder of a test, short enough in name for a socket in it. It is removed with all that is there.
pub struct Folder(pub PathBuf);

impl Folder {
    pub fn new(test: &str) -> Folder {
        let path = socket_path(test);
        let _ = fs::remove_dir_all(&path);
        fs::create_dir(&path).expect("a folder for the test");
        fs::write(path.join("roster"), roster()).expect("a roster file");
        Folder(path)
    }

    pub fn at(&self, name: &str) -> PathBuf {
        self.0.join(name)
    }

    pub fn socket(&self) -> PathBuf {
        self.at("socket")
    }

    pub fn roster(&self) -> PathBuf {
        self.at("roster")
    }

    /// What the program is run with: its options, the socket and the roster.
    pub fn arguments(&self, options: &[&str]) -> Vec<PathBuf> {
        let mut arguments: Vec<_> = options.iter().map(PathBuf::from).collect();
        arguments.extend([self.socket(), self.roster()]);
        arguments
    }
}

impl Drop for Folder {
    fn drop(&mut self) {
        let _ = fs::remove_dir_all(&self.0);
    }
}

/// A running program; one that a failed test leaves is killed.
pub struct Program {
    child: Child,
    messages: Receiver<String>,
    said: Vec<String>,
}

/// What it came to.
#[derive(Debug)]
pub struct Output {
    pub status: ExitStatus,
    pub stdout: String,
    pub messages: Vec<String>,
}

impl Program {
    /// Runs it to the point where it listens, with nothing on its standard input.
    pub fn start(folder: &Folder, options: &[&str]) -> Program {
        Program::start_limited("true", folder, options)
    }

    /// The same behind shell commands, such as `ulimit -n 64`.
    pub fn start_limited(limits: &str, folder: &Folder, options: &[&str]) -> Program {
        let mut program = Program::run(limits, &folder.arguments(options));
        let heard = program.wait_for("unix-socket: listening at ");
        assert!(heard.ends_with("/socket"), "{heard}");
        program
    }

    pub fn run(limits: &str, arguments: &[impl AsRef<OsStr>]) -> Program {
        Program::spawn(command(limits, arguments).stdin(Stdio::null()))
    }

    pub fn spawn(command: &mut Command) -> Program {
        let mut child = command
            .stdout(Stdio::piped())
            .stderr(Stdio::piped())
            .spawn()
            .expect("a program that can be run");
        let stderr = child.stderr.take().expect("a pipe");
        let (sender, messages) = mpsc::channel();
        thread::spawn(move || {
            for line in BufReader::new(stderr).lines() {
                let _ = sender.send(line.expect("messages are text"));
            }
        });
        Program {
            child,
            messages,
            said: Vec::new(),
        }
    }

    /// The first message that begins so.
    pub fn wait_for(&mut self, start: &str) -> String {
        loop {
            let message = self.messages.recv_timeout(TOO_LONG);
            let message = message.unwrap_or_else(|_| panic!("{start:?} not in {:?}", self.said));
            self.said.push(message.clone());
            if message.starts_with(start) {
                return message;
            }
        }
    }

    pub fn is_running(&mut self) -> bool {
        self.child.try_wait().expect("a program").is_none()
    }

    pub fn signal(&self, name: &str) {
        signal(self.child.id(), name);
    }

    /// Stops it by a signal; it ends well.
    pub fn stop(self, signal: &str) -> Output {
        self.signal(signal);
        let output = self.end();
        assert_eq!(output.status.code(), Some(0), "{output:?}");
        output
    }

    /// Waits for its end.
    pub fn end(mut self) -> Output {
        let begun = Instant::now();
        let status = loop {
            if let Some(status) = self.child.try_wait().expect("a program") {
                break status;
            }
            assert!(begun.elapsed() < TOO_LONG, "it ends; {:?}", self.said);
            thread::sleep(Duration::from_millis(5));
        };
        let mut stdout = String::new();
        let mut pipe = self.child.stdout.take().expect("a pipe");
        pipe.read_to_string(&mut stdout).expect("text");
        let mut messages = std::mem::take(&mut self.said);
        messages.extend(self.messages.iter());
        Output {
            status,
            stdout,
            messages,
        }
    }
}

impl Drop for Program {
    fn drop(&mut self) {
        let _ = self.child.kill();
        let _ = self.child.wait();
    }
}

impl Output {
    /// How many messages have this in them.
    pub fn count(&self, part: &str) -> usize {
        let with = self
            .messages
            .iter()
            .filter(|message| message.contains(part));
        with.count()
    }
}

/// Sends a signal; the standard library can send none but KILL.
pub fn signal(process: u32, name: &str) {
    let sent = Command::new("sh")
        .args(["-c", "kill -s \"$0\" \"$1\"", name, &process.to_string()])
        .status();
    assert!(sent.expect("a shell").success());
}

pub fn command(limits: &str, arguments: &[impl AsRef<OsStr>]) -> Command {
    let mut command = Command::new("sh");
    command
        .args(["-c", &format!("{limits}; exec \"$0\" \"$@\"")])
        .arg(env!("CARGO_BIN_EXE_unix-socket"))
        .args(arguments);
    command
}

/// What the program says that is run with these and does not start.
pub fn refused(arguments: &[impl AsRef<OsStr>]) -> Output {
    Program::run("true", arguments).end()
}

/// The list of none, as a file.
pub const NO_LIST: &str = "/dev/null";

/// The lines of a bill that `bill` prints of these files, and of no list.
pub fn bill(roster: &Path, capture: &Path) -> String {
    bill_with_list(roster, capture, Path::new(NO_LIST))
}

/// The same, and of this list.
pub fn bill_with_list(roster: &Path, capture: &Path, list: &Path) -> String {
    razidkot_tests::bill::text(razidkot_tests::bill::printed(&[roster, capture, list]))
}
