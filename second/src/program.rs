//! Running the program under test on one stream.

use std::io::{self, Read, Write};
use std::process::{Child, Command, ExitStatus, Stdio};
use std::thread;
use std::time::{Duration, Instant};

/// The program under test, with its own arguments.
pub struct Program {
    pub path: String,
    pub arguments: Vec<String>,
}

/// What the program did with a stream.
pub struct Outcome {
    pub output: Vec<u8>,
    pub errors: String,
    /// None if it had to be stopped.
    pub status: Option<ExitStatus>,
}

impl Outcome {
    /// How it ended, if not by itself.
    pub fn crash(&self) -> Option<String> {
        match self.status {
            None => Some("did not end in time".to_string()),
            Some(status) if status.code().is_none() => Some(format!("crashed: {status}")),
            // A Rust program that panics ends with 101.
            Some(status) if status.code() == Some(101) => Some("panicked".to_string()),
            _ => None,
        }
    }

    pub fn succeeded(&self) -> bool {
        self.status.is_some_and(|status| status.success())
    }

    pub fn says_bad_case(&self) -> bool {
        self.errors.contains("bad case")
    }
}

/// Waits for the end, or stops the program at the time limit.
fn wait_for(child: &mut Child, limit: Duration) -> io::Result<Option<ExitStatus>> {
    let started = Instant::now();
    let mut pause = Duration::from_micros(100);
    loop {
        if let Some(status) = child.try_wait()? {
            return Ok(Some(status));
        }
        if started.elapsed() > limit {
            child.kill()?;
            child.wait()?;
            return Ok(None);
        }
        thread::sleep(pause);
        pause = (pause * 2).min(Duration::from_millis(5));
    }
}

impl Program {
    /// Feeds the stream while reading at most `most` bytes of output.
    pub fn call(&self, stream: &[u8], most: usize, limit: Duration) -> io::Result<Outcome> {
        let mut child = Command::new(&self.path)
            .args(&self.arguments)
            .stdin(Stdio::piped())
            .stdout(Stdio::piped())
            .stderr(Stdio::piped())
            .spawn()?;
        let mut stdin = child.stdin.take().expect("stdin is piped");
        let stdout = child.stdout.take().expect("stdout is piped");
        let stderr = child.stderr.take().expect("stderr is piped");
        thread::scope(|scope| {
            // A program that ends early closes its input; its output tells.
            scope.spawn(move || {
                let _ = stdin.write_all(stream);
            });
            let output = scope.spawn(move || read_up_to(stdout, most));
            let errors = scope.spawn(move || read_up_to(stderr, 1 << 16));
            let status = wait_for(&mut child, limit)?;
            let output = output.join().expect("reader does not panic");
            let errors = errors.join().expect("reader does not panic");
            let errors = String::from_utf8_lossy(&errors).into_owned();
            Ok(Outcome { output, errors, status })
        })
    }
}

fn read_up_to(from: impl Read, most: usize) -> Vec<u8> {
    let mut bytes = Vec::new();
    let _ = from.take(most as u64).read_to_end(&mut bytes);
    bytes
}
