//! Running a console: bytes to its standard input, bytes from its standard output.

use std::io::{Read, Write};
use std::path::PathBuf;
use std::process::{Child, Command, Stdio};
use std::sync::mpsc;
use std::thread;
use std::time::Duration;

/// A console that has not ended by then is stopped.
const LIMIT: Duration = Duration::from_secs(300);

#[derive(Clone, Debug)]
pub struct Console {
    pub path: PathBuf,
    pub arguments: Vec<String>,
}

/// How the input is handed over.
#[derive(Clone, Copy, Debug, PartialEq)]
pub enum Feed {
    AtOnce,
    /// In pieces of so many bytes, with a pause after each, so that reads end there.
    Pieces(usize),
}

impl Console {
    /// What the console wrote, or why it gave no whole output.
    pub fn run(&self, input: Vec<u8>, feed: Feed) -> Result<Vec<u8>, String> {
        let mut child = Command::new(&self.path)
            .args(&self.arguments)
            .stdin(Stdio::piped())
            .stdout(Stdio::piped())
            .spawn()
            .map_err(|e| format!("{}: {e}", self.path.display()))?;
        let mut stdin = child.stdin.take().expect("a piped input");
        let mut stdout = child.stdout.take().expect("a piped output");
        // A console that stops at a malformed line need not read on, so a closed pipe is no fault.
        let writer = thread::spawn(move || {
            let _ = hand_over(&mut stdin, &input, feed);
        });
        let (sender, receiver) = mpsc::channel();
        thread::spawn(move || {
            let mut output = Vec::new();
            let read = stdout.read_to_end(&mut output);
            let _ = sender.send(read.map(|_| output));
        });
        let output = receiver.recv_timeout(LIMIT);
        let Ok(output) = output else {
            let _ = child.kill();
            let _ = child.wait();
            return Err(format!("did not end within {} seconds", LIMIT.as_secs()));
        };
        let _ = writer.join();
        ended(child)?;
        output.map_err(|e| e.to_string())
    }
}

fn hand_over(stdin: &mut impl Write, input: &[u8], feed: Feed) -> std::io::Result<()> {
    match feed {
        Feed::AtOnce => stdin.write_all(input),
        Feed::Pieces(size) => input.chunks(size).try_for_each(|piece| {
            stdin.write_all(piece)?;
            thread::sleep(Duration::from_micros(200));
            Ok(())
        }),
    }
}

fn ended(mut child: Child) -> Result<(), String> {
    let status = child.wait().map_err(|e| e.to_string())?;
    if status.success() {
        return Ok(());
    }
    Err(format!("ended with {status}"))
}
