//! Runs of the program `deck`: how its input is delivered, what it writes, and how it ends.

use std::io::{Read, Write};
use std::path::Path;
use std::process::{Child, ChildStdin, Command, Stdio};
use std::sync::mpsc::{channel, Receiver};
use std::time::{Duration, Instant};

/// Bytes that are written at once, and the pause after them.
pub type Piece<'a> = (&'a [u8], Duration);

/// What a run wrote and how it ended.
#[derive(PartialEq, Debug)]
pub struct Ending {
    pub lines: String,
    pub complaints: String,
    pub status: String,
}

impl Ending {
    /// A run that prints these lines, complains of nothing and succeeds.
    pub fn good(lines: String) -> Self {
        Ending {
            lines,
            complaints: String::new(),
            status: "exit status: 0".to_string(),
        }
    }

    /// A run that succeeds as far as it goes and names this fault on standard error.
    pub fn faulty(lines: String, fault: &str) -> Self {
        Ending {
            complaints: fault.to_string(),
            ..Ending::good(lines)
        }
    }

    /// The same with the complaints cut down to this fault, if it is named.
    pub fn naming(mut self, fault: &str) -> Self {
        if self.complaints.contains(fault) {
            self.complaints = fault.to_string();
        }
        self
    }
}

/// A run that is still going on; what it writes is collected meanwhile.
pub struct Run {
    child: Child,
    lines: Receiver<Vec<u8>>,
    complaints: Receiver<Vec<u8>>,
}

/// How long a run may take after its last piece of input.
const LIMIT: Duration = Duration::from_secs(10);

impl Run {
    pub fn start(program: &Path, input: Stdio, output: Stdio) -> std::io::Result<Run> {
        let mut child = Command::new(program)
            .stdin(input)
            .stdout(output)
            .stderr(Stdio::piped())
            .spawn()?;
        Ok(Run {
            lines: collected(child.stdout.take()),
            complaints: collected(child.stderr.take()),
            child,
        })
    }

    pub fn input(&mut self) -> ChildStdin {
        self.child.stdin.take().expect("the input is a pipe")
    }

    /// Waits for the end; a run that does not come to it is stopped.
    pub fn end(mut self) -> std::io::Result<Ending> {
        let deadline = Instant::now() + LIMIT;
        let left = || deadline.saturating_duration_since(Instant::now());
        let lines = self.lines.recv_timeout(left());
        let complaints = self.complaints.recv_timeout(left());
        let status = if lines.is_ok() && complaints.is_ok() {
            self.child.wait()?.to_string()
        } else {
            self.child.kill()?;
            self.child.wait()?;
            format!("did not end within {LIMIT:?}")
        };
        let text = |early: Result<Vec<u8>, _>, late: Receiver<Vec<u8>>| {
            let bytes = early.or_else(|_| late.recv()).unwrap_or_default();
            String::from_utf8_lossy(&bytes).into_owned()
        };
        Ok(Ending {
            lines: text(lines, self.lines),
            complaints: text(complaints, self.complaints),
            status,
        })
    }
}

/// Everything that comes out of a pipe, once it is closed; nothing where there is no pipe.
fn collected(pipe: Option<impl Read + Send + 'static>) -> Receiver<Vec<u8>> {
    let (sender, receiver) = channel();
    std::thread::spawn(move || {
        let mut bytes = vec![];
        if let Some(mut pipe) = pipe {
            let _ = pipe.read_to_end(&mut bytes);
        }
        let _ = sender.send(bytes);
    });
    receiver
}

/// A run whose input comes through a pipe in these pieces.
pub fn delivered(program: &Path, pieces: &[Piece]) -> std::io::Result<Ending> {
    let mut run = Run::start(program, Stdio::piped(), Stdio::piped())?;
    let mut input = run.input();
    for (bytes, pause) in pieces {
        // the program may stop before it has read everything
        if input.write_all(bytes).and_then(|_| input.flush()).is_err() {
            break;
        }
        if !pause.is_zero() {
            std::thread::sleep(*pause);
        }
    }
    drop(input);
    run.end()
}

/// A run whose input comes through a pipe at once.
pub fn at_once(program: &Path, deck: &[u8]) -> std::io::Result<Ending> {
    delivered(program, &[(deck, Duration::ZERO)])
}
