//! A filter as a child: turns go to its standard input, and its answers come from its standard output.
#![forbid(unsafe_code)]

use crate::answers::{Answers, Parcel};
use crate::inbox::Inboxes;
use crate::system;
use std::fs::{self, File};
use std::io::{ErrorKind, Read, Result, Write};
use std::os::unix::io::OwnedFd;
use std::os::unix::process::ExitStatusExt;
use std::process::{Child, Command, ExitStatus, Stdio};
use std::thread::sleep;
use std::time::{Duration, Instant, SystemTime, UNIX_EPOCH};

const PIPE: i32 = 1 << 20; // bytes that a pipe holds
const PATIENCE: Duration = Duration::from_secs(2); // that a filter has to end
const LONG: Duration = Duration::from_secs(10); // that a turn takes seldom
const TURN: usize = 12; // bytes of a turn's time and count
const KEPT: usize = 1 << 20; // bytes of room that stay for the next turn

/// What came of a filter's output.
pub enum Came {
    Nothing,
    /// Parcels, or a part of one.
    Some,
    /// It has ended.
    End,
    /// Bytes that are no answer.
    Rubbish,
}

/// The child, and the turn that it is at.
pub struct Filter {
    child: Child,
    pub into: Option<File>,
    pub out: File,
    turn: Vec<u8>,
    sent: usize, // bytes of that turn
    answers: Answers,
    is_busy: bool,
    since: Instant,
    turns: u64,
}

impl Filter {
    pub fn start(program: &str, words: &[String]) -> Result<Filter> {
        let mut command = Command::new(program);
        system::set_apart(&mut command);
        let mut child = command.args(words).stdin(Stdio::piped()).stdout(Stdio::piped()).spawn()?;
        let (into, out) = match (child.stdin.take(), child.stdout.take()) {
            (Some(into), Some(out)) => (File::from(OwnedFd::from(into)), File::from(OwnedFd::from(out))),
            _ => return Err(ErrorKind::BrokenPipe.into()),
        };
        for pipe in [&into, &out] {
            system::never_wait(pipe)?;
            system::widen(pipe, PIPE);
        }
        let now = Instant::now();
        Ok(Filter { child, into: Some(into), out, turn: Vec::new(), sent: 0, answers: Answers::default(), is_busy: false, since: now, turns: 0 })
    }

    pub fn is_busy(&self) -> bool {
        self.is_busy
    }

    /// Whether some of a turn could not be written yet.
    pub fn has_unsent(&self) -> bool {
        self.sent < self.turn.len()
    }

    /// Whether it has been at one turn for long.
    pub fn is_stuck(&self) -> bool {
        self.is_busy && self.since.elapsed() > LONG
    }

    /// Sends a turn of what waits, with the time.
    pub fn begin_turn(&mut self, inboxes: &mut Inboxes) -> Result<()> {
        self.turn.clear();
        self.turn.shrink_to(KEPT);
        self.turn.resize(TURN, 0);
        let frames = inboxes.take(&mut self.turn);
        let time = SystemTime::now().duration_since(UNIX_EPOCH).unwrap_or_default();
        let head = [time.as_secs() as u32, time.subsec_micros(), frames];
        for (bytes, number) in self.turn.chunks_exact_mut(4).zip(head) {
            bytes.copy_from_slice(&number.to_be_bytes());
        }
        self.sent = 0;
        self.is_busy = true;
        self.since = Instant::now();
        self.turns += 1;
        self.send()
    }

    /// Writes what the pipe takes of the turn.
    pub fn send(&mut self) -> Result<()> {
        let into = match &mut self.into {
            Some(into) => into,
            None => return Ok(()),
        };
        while let Some(unsent) = self.turn.get(self.sent..).filter(|unsent| !unsent.is_empty()) {
            match into.write(unsent) {
                Ok(0) => return Err(ErrorKind::WriteZero.into()),
                Ok(written) => self.sent += written,
                Err(fault) if fault.kind() == ErrorKind::WouldBlock => return Ok(()),
                Err(fault) if fault.kind() == ErrorKind::Interrupted => {}
                Err(fault) => return Err(fault),
            }
        }
        Ok(())
    }

    /// Takes what it has written, and puts its parcels to the others.
    pub fn read(&mut self, buffer: &mut [u8], parcels: &mut Vec<Parcel>) -> Came {
        let count = match self.out.read(buffer) {
            Ok(0) => return Came::End,
            Ok(count) => count,
            Err(fault) if matches!(fault.kind(), ErrorKind::WouldBlock | ErrorKind::Interrupted) => return Came::Nothing,
            Err(_) => return Came::End,
        };
        match self.answers.take(buffer.get(..count).unwrap_or_default(), parcels) {
            // an answer to a turn that it can't have read
            _ if !self.is_busy || self.has_unsent() => Came::Rubbish,
            Err(_) => Came::Rubbish,
            Ok(is_over) => {
                self.is_busy = !is_over;
                Came::Some
            }
        }
    }

    /// What it can't know of itself, for its report.
    pub fn report(&self) -> String {
        let kibibytes = self.memory().unwrap_or_default();
        format!(" turns={} memory={:.1}M", self.turns, kibibytes as f64 / 1024.0)
    }

    /// The KiB of memory that it has, where the system tells.
    fn memory(&self) -> Option<u64> {
        let status = fs::read_to_string(format!("/proc/{}/status", self.child.id())).ok()?;
        let line = status.lines().find(|line| line.starts_with("VmRSS:"))?;
        line.split_whitespace().nth(1)?.parse().ok()
    }

    /// Ends it where it has not ended yet, and tells how it ended. At the end of its input a filter ends, behind the answer that it is at, whose parcels are put
    /// to the others.
    pub fn end(&mut self, by_force: bool, buffer: &mut [u8], parcels: &mut Vec<Parcel>) -> String {
        self.into = None;
        let begun = Instant::now();
        let mut is_killed = false;
        loop {
            if !is_killed && (by_force || begun.elapsed() >= PATIENCE) {
                let _ = self.child.kill();
                is_killed = true;
            }
            while matches!(self.read(buffer, parcels), Came::Some | Came::Rubbish) && begun.elapsed() < PATIENCE {}
            match self.child.try_wait() {
                Ok(Some(status)) => return how_it_ended(status),
                Ok(None) => {}
                Err(fault) => return format!("it can't be waited for: {fault}"),
            }
            sleep(Duration::from_millis(5));
        }
    }
}

fn how_it_ended(status: ExitStatus) -> String {
    match (status.code(), status.signal()) {
        (Some(code), _) => format!("it ended with status {code}"),
        (None, Some(number)) => format!("it was ended by signal {number}"),
        (None, None) => "it ended".to_string(),
    }
}

#[cfg(test)]
mod tests {
    use super::*;
    use crate::inbox::Source;

    #[test]
    fn a_program_that_gives_back_what_it_gets_is_no_filter() {
        let mut filter = Filter::start("/bin/cat", &[]).unwrap();
        let mut inboxes = Inboxes::default();
        inboxes.put(Source::Kernels, b"\x01\0\0\0\0", 1);
        filter.begin_turn(&mut inboxes).unwrap();
        assert!(filter.is_busy() && !filter.has_unsent() && !filter.is_stuck() && inboxes.is_empty());
        let (mut buffer, mut parcels) = (vec![0; 100], Vec::new());
        let came = loop {
            match filter.read(&mut buffer, &mut parcels) {
                Came::Nothing => sleep(Duration::from_millis(1)),
                came => break came,
            }
        };
        // its count of parcels is the seconds of the time
        assert!(matches!(came, Came::Rubbish | Came::Some));
        assert!(filter.report().starts_with(" turns=1 memory="));
        assert_eq!(filter.end(false, &mut buffer, &mut parcels), "it ended with status 0");
    }

    #[test]
    fn one_that_does_not_end_is_ended() {
        let mut filter = Filter::start("/bin/sleep", &["60".to_string()]).unwrap();
        assert_eq!(filter.end(true, &mut [0; 100], &mut Vec::new()), "it was ended by signal 9");
        assert!(Filter::start("/nowhere/there", &[]).is_err());
    }
}
