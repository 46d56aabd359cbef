//! A program of the product with the words before it, such as an emulator's.

use std::io::{self, Read, Write};
use std::process::{Child, Command as Process, Stdio};
use std::sync::mpsc::{channel, Receiver};
use std::thread;
use std::time::Duration;

/// A process that says nothing for so long has failed.
const PATIENCE: Duration = Duration::from_secs(120);

#[derive(Clone, Debug)]
pub struct Command {
    words: Vec<String>,
}

/// What a process wrote, and how it ended if not well.
pub struct Said {
    pub bytes: Vec<u8>,
    pub failed: Option<String>,
}

impl Command {
    /// The words of a command, separated by blanks; None if there is none.
    pub fn read(text: &str) -> Option<Self> {
        let words: Vec<String> = text.split_whitespace().map(str::to_string).collect();
        (!words.is_empty()).then_some(Command { words })
    }

    /// Starts the program, hands it the input and takes all it writes.
    pub fn ask(&self, input: Vec<u8>) -> io::Result<Said> {
        let mut child = Process::new(&self.words[0])
            .args(&self.words[1..])
            .stdin(Stdio::piped())
            .stdout(Stdio::piped())
            .spawn()?;
        write_aside(&mut child, input);
        let said = read_aside(&mut child);
        let Ok(bytes) = said.recv_timeout(PATIENCE) else {
            child.kill()?;
            child.wait()?;
            return Ok(Said {
                bytes: Vec::new(),
                failed: Some(format!("no end within {} s", PATIENCE.as_secs())),
            });
        };
        let status = child.wait()?;
        let failed = (!status.success()).then(|| status.to_string());
        Ok(Said { bytes, failed })
    }
}

/// Writes the input in a thread, so that a full pipe on the other side stops nobody.
fn write_aside(child: &mut Child, input: Vec<u8>) {
    let mut pipe = child.stdin.take().expect("standard input is piped");
    thread::spawn(move || {
        // A program that ends before it has read all is judged by what it said.
        let _ = pipe.write_all(&input);
    });
}

/// Reads the output in a thread, so that the wait for it can end.
fn read_aside(child: &mut Child) -> Receiver<Vec<u8>> {
    let mut pipe = child.stdout.take().expect("standard output is piped");
    let (sender, receiver) = channel();
    thread::spawn(move || {
        let mut bytes = Vec::new();
        // What came before an error is compared all the same.
        let _ = pipe.read_to_end(&mut bytes);
        let _ = sender.send(bytes);
    });
    receiver
}
