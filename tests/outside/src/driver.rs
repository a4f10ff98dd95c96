//! The proved code, reached through a driver process: requests on its standard input, answers on its
//! standard output. A writer thread sends, a reader thread gathers what comes, and whoever waits for an
//! answer waits for so long and no longer.

use crate::case::{Answer, Case};
use crate::wire::{get_answer, request};
use std::io::{self, Read, Write};
use std::os::unix::process::CommandExt;
use std::process::{Child, Command, ExitStatus, Stdio};
use std::sync::mpsc::{channel, Receiver, RecvTimeoutError, Sender};
use std::sync::Arc;
use std::thread;
use std::time::{Duration, Instant};

/// Why there is no answer, and whether the driver still runs without giving one.
#[derive(Debug, PartialEq)]
pub struct Lost {
    pub why: String,
    pub hangs: bool,
}

/// A driver at work. Dropping it ends its process.
pub struct Driver {
    process: Child,
    patience: Duration,
    requests: Option<Sender<Arc<Vec<Case>>>>,
    answers: Incoming,
}

impl Driver {
    pub fn start(path: &str, arguments: &[String], patience: Duration) -> io::Result<Driver> {
        // A group of its own: the driver may be a script, and what it starts must end with it.
        let mut process =
            Command::new(path).args(arguments).stdin(Stdio::piped()).stdout(Stdio::piped()).process_group(0).spawn()?;
        let mut input = process.stdin.take().ok_or(io::ErrorKind::BrokenPipe)?;
        let mut output = process.stdout.take().ok_or(io::ErrorKind::BrokenPipe)?;
        let (requests, to_send) = channel::<Arc<Vec<Case>>>();
        thread::spawn(move || {
            for batch in to_send {
                for case in batch.iter() {
                    // A driver that has gone is seen where its answer is missing.
                    if input.write_all(&request(case)).is_err() {
                        return;
                    }
                }
            }
        });
        let (gathered, chunks) = channel();
        thread::spawn(move || {
            let mut chunk = vec![0; 1 << 16];
            loop {
                match output.read(&mut chunk) {
                    Ok(length) if length > 0 => {
                        if gathered.send(chunk[..length].to_vec()).is_err() {
                            return;
                        }
                    }
                    _ => return,
                }
            }
        });
        let answers = Incoming { chunks, patience, at: Vec::new(), used: 0 };
        Ok(Driver { process, patience, requests: Some(requests), answers })
    }

    /// Hands over a batch of cases. It returns at once, even if the driver does not listen.
    pub fn send(&mut self, batch: Arc<Vec<Case>>) {
        if let Some(requests) = &self.requests {
            // A writer that has gone is seen where an answer is missing.
            let _ = requests.send(batch);
        }
    }

    /// The answer to the next case, in the order in which the cases were sent.
    pub fn answer(&mut self, case: &Case) -> Result<Answer, Lost> {
        get_answer(case, &mut self.answers).map_err(|error| match error.kind() {
            io::ErrorKind::TimedOut => Lost { why: format!("no answer for {:?}", self.patience), hangs: true },
            io::ErrorKind::UnexpectedEof => {
                Lost { why: String::from("the driver ended before its answer did"), hangs: false }
            }
            _ => Lost { why: error.to_string(), hangs: false },
        })
    }

    /// Ends the input: the driver must end too, well, and with nothing more to say.
    pub fn finish(mut self) -> Result<(), String> {
        self.requests = None;
        let mut byte = [0];
        match self.answers.read(&mut byte) {
            Ok(0) => {}
            Ok(_) => return Err(String::from("the driver said more than it was asked")),
            Err(_) => return Err(String::from("the driver did not end with its input")),
        }
        let status = self.ended()?;
        if status.success() {
            Ok(())
        } else {
            Err(format!("the driver ended with {status}"))
        }
    }

    fn ended(&mut self) -> Result<ExitStatus, String> {
        let begun = Instant::now();
        while begun.elapsed() < self.patience {
            match self.process.try_wait() {
                Ok(Some(status)) => return Ok(status),
                Ok(None) => thread::sleep(Duration::from_millis(10)),
                Err(error) => return Err(error.to_string()),
            }
        }
        Err(String::from("the driver closed its output and did not end"))
    }
}

impl Drop for Driver {
    fn drop(&mut self) {
        if let Ok(Some(_)) = self.process.try_wait() {
            return;
        }
        // The group may have ended in between; then there is nothing to end, and that is no fault.
        let group = format!("-{}", self.process.id());
        let _ = Command::new("kill").args(["-KILL", "--", &group]).stderr(Stdio::null()).status();
        let _ = self.process.kill();
        let _ = self.process.wait();
    }
}

/// What the reader thread has gathered.
struct Incoming {
    chunks: Receiver<Vec<u8>>,
    patience: Duration,
    at: Vec<u8>,
    used: usize,
}

impl Read for Incoming {
    fn read(&mut self, into: &mut [u8]) -> io::Result<usize> {
        if self.used == self.at.len() {
            match self.chunks.recv_timeout(self.patience) {
                Ok(chunk) => {
                    self.at = chunk;
                    self.used = 0;
                }
                Err(RecvTimeoutError::Timeout) => return Err(io::ErrorKind::TimedOut.into()),
                Err(RecvTimeoutError::Disconnected) => return Ok(0),
            }
        }
        let length = into.len().min(self.at.len() - self.used);
        into[..length].copy_from_slice(&self.at[self.used..self.used + length]);
        self.used += length;
        Ok(length)
    }
}

#[cfg(test)]
mod tests {
    use super::*;

    /// The first case's answer from a program that is no driver.
    fn asked(path: &str, arguments: &[&str]) -> Result<Answer, Lost> {
        let arguments: Vec<String> = arguments.iter().map(|argument| argument.to_string()).collect();
        let mut driver = Driver::start(path, &arguments, Duration::from_millis(500)).expect("a program");
        let cases = Arc::new(vec![Case::List { file: vec![0; 512] }; 1000]);
        driver.send(cases.clone());
        driver.answer(&cases[0])
    }

    #[test]
    fn drivers_that_end_answer_short_or_hang_are_told() {
        assert_eq!(asked("false", &[]).map_err(|lost| lost.hangs), Err(false));
        assert_eq!(asked("printf", &["%20s", ""]).map_err(|lost| lost.hangs), Err(false));
        assert_eq!(asked("sleep", &["3"]).map_err(|lost| lost.hangs), Err(true));
    }
}
