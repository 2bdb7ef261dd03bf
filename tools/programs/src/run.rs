//! One run of a program through its standard input and output.

use std::io::{Read, Write};
use std::os::unix::process::ExitStatusExt;
use std::process::{Child, Command, ExitStatus, Stdio};
use std::sync::mpsc::{channel, RecvTimeoutError};
use std::thread::{sleep, spawn};
use std::time::Duration;

/// How the input arrives: at once, or so many bytes at a time with a pause after each.
#[derive(Clone, Copy, Debug)]
pub enum Feed {
    Whole,
    Pieces(usize, Duration),
}

/// Where standard output leads when it cannot be written.
#[derive(Clone, Copy, Debug)]
pub enum Broken {
    ReaderGone,
    Full,
    Closed,
}

const PATIENCE: Duration = Duration::from_secs(20);
const SIGPIPE: i32 = 13;

/// Stops the whole test when a program does not end.
fn within<T>(what: &str, f: impl FnOnce() -> T) -> T {
    let (done, waits) = channel::<()>();
    let name = what.to_string();
    let watch = spawn(move || {
        if waits.recv_timeout(PATIENCE) == Err(RecvTimeoutError::Timeout) {
            eprintln!("{name}: the program does not end");
            std::process::exit(1);
        }
    });
    let result = f();
    drop(done);
    watch.join().unwrap();
    result
}

/// Writes the input; a program that has seen enough may stop reading.
fn feed(child: &mut Child, input: &[u8], how: Feed) {
    let mut pipe = child.stdin.take().unwrap();
    match how {
        Feed::Whole => drop(pipe.write_all(input)),
        Feed::Pieces(size, pause) => {
            // the program waits for its first byte, so that none is gathered before it reads
            sleep(Duration::from_millis(5));
            for piece in input.chunks(size) {
                if pipe.write_all(piece).is_err() {
                    return;
                }
                sleep(pause);
            }
        }
    }
}

fn said(child: &mut Child) -> Vec<u8> {
    let mut bytes = Vec::new();
    child.stderr.take().unwrap().read_to_end(&mut bytes).unwrap();
    bytes
}

fn start(command: &mut Command, what: &str) -> Child {
    command.stdin(Stdio::piped()).stderr(Stdio::piped()).spawn().unwrap_or_else(|e| panic!("{what}: {e}"))
}

/// What the program writes for this input; it must end with status 0 and say nothing beside.
pub fn answer(program: &str, input: &[u8], how: Feed) -> Result<Vec<u8>, String> {
    within(program, || {
        let mut child = start(Command::new(program).stdout(Stdio::piped()), program);
        feed(&mut child, input, how);
        let mut out = Vec::new();
        child.stdout.take().unwrap().read_to_end(&mut out).unwrap();
        let said = said(&mut child);
        quiet(child.wait().unwrap(), &said, false)?;
        Ok(out)
    })
}

/// The same with an output that cannot be written: the program ends, quietly.
pub fn unheard(program: &str, input: &[u8], broken: Broken) -> Result<(), String> {
    within(program, || {
        let mut command = Command::new(program);
        match broken {
            Broken::ReaderGone => drop(command.stdout(Stdio::piped())),
            Broken::Full => drop(command.stdout(std::fs::File::create("/dev/full").unwrap())),
            Broken::Closed => {
                command = Command::new("sh");
                command.args(["-c", "exec \"$0\" >&-", program]);
            }
        }
        let mut child = start(&mut command, program);
        drop(child.stdout.take());
        feed(&mut child, input, Feed::Whole);
        let said = said(&mut child);
        quiet(child.wait().unwrap(), &said, true)
    })
}

/// Ended with status 0, or by the signal that a pipe without a reader sends, and said nothing on standard error.
fn quiet(status: ExitStatus, said: &[u8], unheard: bool) -> Result<(), String> {
    if !said.is_empty() {
        return Err(format!("it said {:?}", String::from_utf8_lossy(said)));
    }
    if status.success() || unheard && status.signal() == Some(SIGPIPE) {
        return Ok(());
    }
    Err(format!("it ended with {status}"))
}
