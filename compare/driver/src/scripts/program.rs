//! A program fed with a script.

use std::ffi::{c_int, c_ulong};
use std::io::{self, Read, Write};
use std::os::fd::AsRawFd;
use std::path::Path;
use std::process::{Child, ChildStdin, Command, Stdio};
use std::sync::mpsc;
use std::thread;
use std::time::Duration;

/// A script and how it is fed.
#[derive(Debug, Clone, PartialEq, Eq)]
pub struct Trial {
    pub script: Vec<u8>,
    /// The bytes of one piece, when it comes in pieces, each after the last one was read.
    pub piece: Option<usize>,
}

/// What was printed, or how it went wrong.
pub type Printed = Result<Vec<u8>, String>;

const PAUSE: Duration = Duration::from_micros(50);
/// How many pauses to wait for a piece to be read, about a tenth of a second.
const MOST_PAUSES: usize = 1_000;
const PATIENCE: Duration = Duration::from_secs(10);

/// Far more than any script makes the program print.
const MOST_PRINTED: u64 = 1 << 20;

/// Run the program and feed it.
pub fn run(program: &Path, trial: &Trial) -> Printed {
    let child = Command::new(program)
        .stdin(Stdio::piped())
        .stdout(Stdio::piped())
        .stderr(Stdio::null())
        .spawn()
        .map_err(|error| format!("{}: {error}", program.display()))?;
    printed(child, trial).map_err(|error| error.to_string())?
}

fn printed(mut child: Child, trial: &Trial) -> io::Result<Printed> {
    let (stdin, stdout) = (child.stdin.take(), child.stdout.take());
    let (sender, receiver) = mpsc::channel();
    thread::scope(|scope| {
        scope.spawn(|| stdin.map(|stdin| feed(stdin, trial)));
        scope.spawn(move || {
            let mut bytes = vec![];
            let read = stdout.map(|stdout| stdout.take(MOST_PRINTED).read_to_end(&mut bytes));
            // Nobody listens any more when the patience is over.
            let _ = sender.send(read.map(|_| bytes));
        });
        let Ok(Some(bytes)) = receiver.recv_timeout(PATIENCE) else {
            child.kill()?;
            child.wait()?;
            return Ok(Err(format!("not done in {PATIENCE:?}")));
        };
        let status = child.wait()?;
        Ok(if status.success() { Ok(bytes) } else { Err(status.to_string()) })
    })
}

/// Write the script. The program needn't read all of one that is too long.
fn feed(mut stdin: ChildStdin, trial: &Trial) -> io::Result<()> {
    let Some(piece) = trial.piece else { return stdin.write_all(&trial.script) };
    for piece in trial.script.chunks(piece) {
        stdin.write_all(piece)?;
        stdin.flush()?;
        wait_until_read(&stdin);
    }
    Ok(())
}

fn wait_until_read(stdin: &ChildStdin) {
    for _ in 0..MOST_PAUSES {
        if unread(stdin) == 0 {
            return;
        }
        thread::sleep(PAUSE);
    }
}

unsafe extern "C" {
    fn ioctl(file: c_int, request: c_ulong, ...) -> c_int;
}

/// Linux's request for the number of bytes that wait in a pipe.
const FIONREAD: c_ulong = 0x541b;

fn unread(stdin: &ChildStdin) -> c_int {
    let mut waiting: c_int = 0;
    // SAFETY: the file is open, and the request writes one int.
    let done = unsafe { ioctl(stdin.as_raw_fd(), FIONREAD, &raw mut waiting) };
    if done == 0 { waiting } else { 0 }
}
