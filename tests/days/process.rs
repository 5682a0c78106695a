//! Running the program under test and comparing its output.

use std::fmt;
use std::fs::File;
use std::io::{self, Read, Seek, Write};
use std::path::Path;
use std::process::{Child, ChildStdin, Command, ExitStatus, Stdio};
use std::sync::mpsc;
use std::thread;
use std::time::Duration;

/// A run longer than this counts as one that does not finish.
const LONGEST_RUN: Duration = Duration::from_secs(20);

/// Long enough that a program waiting for input sees the pieces singly.
const PAUSE_BETWEEN_PIECES: Duration = Duration::from_millis(4);

/// How a text reaches the program's standard input.
pub enum Feed {
    Pipe(Vec<Vec<u8>>),
    File(File),
}

impl Feed {
    pub fn whole(text: &[u8]) -> Feed {
        Feed::Pipe(vec![text.to_vec()])
    }
}

/// Writes the pieces and closes the pipe. A write error is fine: the program
/// may end before it has read everything.
fn write_pieces(mut pipe: ChildStdin, pieces: Vec<Vec<u8>>) {
    for (index, piece) in pieces.iter().enumerate() {
        if index > 0 {
            thread::sleep(PAUSE_BETWEEN_PIECES);
        }
        if pipe.write_all(piece).and_then(|()| pipe.flush()).is_err() {
            return;
        }
    }
}

fn read_whole(stream: Option<impl Read>) -> Vec<u8> {
    let mut bytes = Vec::new();
    if let Some(mut stream) = stream {
        // What came before an error is compared like any other output.
        let _ = stream.read_to_end(&mut bytes);
    }
    bytes
}

fn start(program: &str, arguments: &[&Path], feed: Feed) -> Result<Child, String> {
    let (stdin, pieces) = match feed {
        Feed::Pipe(pieces) => (Stdio::piped(), pieces),
        Feed::File(file) => (Stdio::from(file), Vec::new()),
    };
    let mut command = Command::new(program);
    command.args(arguments).stdin(stdin).stdout(Stdio::piped()).stderr(Stdio::piped());
    let mut child =
        command.spawn().map_err(|error| format!("{program} does not start: {error}"))?;
    if let Some(pipe) = child.stdin.take() {
        // A thread of its own, lest both sides wait for the other to read.
        thread::spawn(move || write_pieces(pipe, pieces));
    }
    Ok(child)
}

/// What a run has left.
pub struct Ended {
    pub status: ExitStatus,
    pub output: Vec<u8>,
    pub errors: Vec<u8>,
}

impl fmt::Display for Ended {
    fn fmt(&self, f: &mut fmt::Formatter) -> fmt::Result {
        let (output, errors) = (escaped(&self.output), escaped(&self.errors));
        write!(f, "{}, standard error \"{errors}\", output \"{output}\"", self.status)
    }
}

/// Runs a program to its end, whatever that is.
pub fn run_to_end(program: &str, arguments: &[&Path], feed: Feed) -> Result<Ended, String> {
    let mut child = start(program, arguments, feed)?;
    let (output, errors) = (child.stdout.take(), child.stderr.take());
    let (sender, receiver) = mpsc::channel();
    thread::spawn(move || sender.send((read_whole(output), read_whole(errors))));
    let streams = receiver.recv_timeout(LONGEST_RUN);
    if streams.is_err() {
        // It may end just now by itself; then there is nothing to stop.
        let _ = child.kill();
    }
    let status = child.wait().map_err(|error| format!("no exit status: {error}"))?;
    let Ok((output, errors)) = streams else {
        return Err(format!("no end within {LONGEST_RUN:?}"));
    };
    Ok(Ended { status, output, errors })
}

/// The program's standard output, or what went wrong beside it.
pub fn run(program: &str, feed: Feed) -> Result<Vec<u8>, String> {
    let ended = run_to_end(program, &[], feed)?;
    if ended.status.code() != Some(0) || !ended.errors.is_empty() {
        return Err(ended.to_string());
    }
    Ok(ended.output)
}

/// Runs the program and compares; an error says what differs.
pub fn compare(program: &str, feed: Feed, expected: &[u8]) -> Result<(), String> {
    match run(program, feed) {
        Ok(output) if output == expected => Ok(()),
        Ok(output) => Err(format!("\"{}\"", escaped(&output))),
        Err(what) => Err(what),
    }
}

/// From a file the program could read on as far as it likes. It shares its
/// place in the file with us, which shows how much it has read: no more than `most`.
pub fn compare_file(
    program: &str,
    path: &Path,
    expected: &[u8],
    most: usize,
) -> Result<(), String> {
    let complain = |error: io::Error| format!("{}: {error}", path.display());
    let mut file = File::open(path).map_err(complain)?;
    let shared = file.try_clone().map_err(complain)?;
    compare(program, Feed::File(shared), expected)?;
    match file.stream_position().map_err(complain)? {
        place if place <= most as u64 => Ok(()),
        place => Err(format!("the right output, but {place} bytes were read")),
    }
}

/// Bytes as one printable line, shortened where nobody would read on.
pub fn escaped(bytes: &[u8]) -> String {
    let shown = &bytes[..bytes.len().min(6000)];
    let more = match bytes.len() - shown.len() {
        0 => String::new(),
        more => format!(" (and {more} bytes more)"),
    };
    format!("{}{more}", shown.escape_ascii())
}
