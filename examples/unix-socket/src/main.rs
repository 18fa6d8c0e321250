//! `unix-socket SOCKET ROSTER`: serves the roster's applications at SOCKET until a signal stops it,
//! and then prints the bill. An example, and no part of what is proved.

mod arguments;
#[allow(unsafe_code)]
mod signals;

use arguments::{Arguments, Asked, HELP};
use signals::StopSignals;
use std::env;
use std::fs;
use std::io::{self, Write};
use std::path::{self, Path};
use std::process::ExitCode;
use std::sync::mpsc::{self, Sender};
use std::thread;
use std::time::Duration;
use unix_socket::{say_on_stderr as say, Server, Settings, StartError, Totals};

const PATIENCE: Duration = Duration::from_secs(10);
const WRONG_ARGUMENTS: u8 = 2;

fn main() -> ExitCode {
    let done = match arguments::read(env::args_os().skip(1)) {
        Ok(Asked::Help) => print(HELP),
        Ok(Asked::Serve(arguments)) => run(&arguments),
        Err(fault) => {
            say(&format_args!("{fault}; --help says more"));
            return ExitCode::from(WRONG_ARGUMENTS);
        }
    };
    match done {
        Ok(()) => ExitCode::SUCCESS,
        Err(message) => {
            say(&message);
            ExitCode::FAILURE
        }
    }
}

fn run(arguments: &Arguments) -> Result<(), String> {
    let roster = read(&arguments.roster)?;
    let list = arguments.list.as_deref().map_or(Ok(Vec::new()), read)?;
    let (sender, stop) = mpsc::channel();
    await_stop(arguments.stdin, &sender).map_err(|error| format!("no signals: {error}"))?;
    let server = Server::start(Settings {
        socket: &arguments.socket,
        roster: &roster,
        list: &list,
        journal: arguments.journal.as_deref(),
        capture: arguments.capture.as_deref(),
        capture_responses: arguments.capture_responses.as_deref(),
        patience: PATIENCE,
        say,
        stop: sender,
    });
    let server = server.map_err(|error| match (&error, &arguments.list) {
        (StartError::Roster(_), _) => format!("{}: {error}", arguments.roster.display()),
        (StartError::List(_), Some(file)) => format!("{}: {error}", file.display()),
        _ => error.to_string(),
    })?;
    let socket = path::absolute(&arguments.socket).unwrap_or(arguments.socket.clone());
    say(&format_args!("listening at {}", socket.display()));
    let why = stop.recv().expect("the thread that waits for signals");
    say(&format_args!("stopping: {why}"));
    report(&server.stop())
}

fn read(file: &Path) -> Result<Vec<u8>, String> {
    fs::read(file).map_err(|error| format!("{}: {error}", file.display()))
}

/// Has `stop` told of a signal. It is to be called before any other thread is started.
fn await_stop(stdin: bool, stop: &Sender<String>) -> io::Result<()> {
    let sender = stop.clone();
    let signals = StopSignals::block()?;
    let of_signals = sender.clone();
    thread::Builder::new().spawn(move || {
        let why = match signals.wait() {
            Ok(name) => name.to_string(),
            Err(error) => format!("no signals: {error}"),
        };
        of_signals.send(why)
    })?;
    if stdin {
        thread::Builder::new().spawn(move || {
            let why = match io::copy(&mut io::stdin().lock(), &mut io::sink()) {
                Ok(_) => "standard input has ended".to_string(),
                Err(error) => format!("standard input: {error}"),
            };
            sender.send(why)
        })?;
    }
    Ok(())
}

/// Prints the bill, says the rest, and fails where the bill or the capture is not whole.
fn report(totals: &Totals) -> Result<(), String> {
    let Totals {
        counters,
        connections,
        unfinished,
        undelivered,
        ..
    } = totals;
    let (answered, dropped) = (counters.answered, counters.dropped);
    say(&format_args!(
        "{connections} connections; bytes answered {answered}, dropped {dropped}, unfinished {unfinished}; \
         responses not delivered {undelivered}"
    ));
    let printed = print(&totals.bill);
    if printed.is_err() {
        // Else it would be lost.
        totals.bill.lines().for_each(|line| say(&line));
    }
    let captured = match &totals.captured {
        Some(captured) if captured.fault.is_some() => Err(captured.to_string()),
        Some(captured) => {
            say(captured);
            Ok(())
        }
        None => Ok(()),
    };
    let journal = match &totals.journal_fault {
        Some(fault) => Err(format!(
            "{fault}; the last change is not answered, though counted"
        )),
        None => Ok(()),
    };
    journal.and(printed).and(captured)
}

fn print(text: &str) -> Result<(), String> {
    let mut out = io::stdout().lock();
    let written = out.write_all(text.as_bytes()).and_then(|()| out.flush());
    written.map_err(|error| format!("standard output: {error}"))
}
