//! What is waited for: descriptors, each with a token that says whose it is.
#![forbid(unsafe_code)]

use crate::system::{Event, Watcher, IS_BROKEN, IS_OVER, READS, WRITES};
use std::io::Result;
use std::os::unix::io::AsRawFd;
use std::time::Duration;

const MOST_FOUND: usize = 256; // at a time
const KIND: u32 = 56; // bits of a number below its kind

/// Whose a descriptor is.
#[derive(Clone, Copy, Debug, PartialEq, Eq)]
pub enum Token {
    /// Standard input.
    Parent,
    FilterInput,
    FilterOutput,
    /// Where other transports connect.
    Listener,
    /// A connection of that number.
    Connection(u64),
    /// Where kernels connect, and where they send datagrams, by the place of the door.
    Door(usize),
    Datagrams(usize),
    /// A stream of that number.
    Stream(u64),
}

impl Token {
    fn number(self) -> u64 {
        let (kind, number) = match self {
            Token::Parent => (0, 0),
            Token::FilterInput => (1, 0),
            Token::FilterOutput => (2, 0),
            Token::Listener => (3, 0),
            Token::Connection(id) => (4, id),
            Token::Door(place) => (5, place as u64),
            Token::Datagrams(place) => (6, place as u64),
            Token::Stream(id) => (7, id),
        };
        kind << KIND | number
    }

    fn of(number: u64) -> Token {
        let below = number & ((1 << KIND) - 1);
        match number >> KIND {
            0 => Token::Parent,
            1 => Token::FilterInput,
            2 => Token::FilterOutput,
            3 => Token::Listener,
            4 => Token::Connection(below),
            5 => Token::Door(below as usize),
            6 => Token::Datagrams(below as usize),
            _ => Token::Stream(below),
        }
    }
}

/// What is waited for at one descriptor, as was said last.
#[derive(Default)]
pub struct Watch {
    wanted: Option<u32>,
}

/// What was found at a descriptor. One that is broken is seen as such by whoever reads from it.
#[derive(Clone, Copy)]
pub struct Ready {
    pub reads: bool,
    pub writes: bool,
    pub is_broken: bool,
}

/// All descriptors that are waited for, and what was found.
pub struct Waits {
    watcher: Watcher,
    events: Vec<Event>,
}

impl Waits {
    pub fn new() -> Result<Waits> {
        Ok(Waits { watcher: Watcher::new()?, events: vec![Event::default(); MOST_FOUND] })
    }

    /// Waits at this one until it can be read or written; where it isn't to be read, until the other side has ended it.
    pub fn set(&self, watch: &mut Watch, file: &impl AsRawFd, token: Token, reads: bool, writes: bool) -> Result<()> {
        let wanted = if reads { READS } else { IS_OVER } | if writes { WRITES } else { 0 };
        if watch.wanted != Some(wanted) {
            self.watcher.set(file, watch.wanted.is_none(), wanted, token.number())?;
            watch.wanted = Some(wanted);
        }
        Ok(())
    }

    /// Waits until something is found, at most that time, and tells at how many places.
    pub fn wait(&mut self, most: Duration) -> Result<usize> {
        self.watcher.wait(&mut self.events, most)
    }

    /// What was found there.
    pub fn at(&self, place: usize) -> Option<(Token, Ready)> {
        let Event { found, number } = *self.events.get(place)?;
        let has = |what| found & what != 0;
        Some((Token::of(number), Ready { reads: has(READS), writes: has(WRITES), is_broken: has(IS_BROKEN) }))
    }
}

#[cfg(test)]
mod tests {
    use super::*;

    #[test]
    fn tokens_are_told_apart() {
        let tokens = [
            Token::Parent,
            Token::FilterInput,
            Token::FilterOutput,
            Token::Listener,
            Token::Connection(7),
            Token::Door(1),
            Token::Datagrams(1),
            Token::Stream(1 << 40),
        ];
        assert!(tokens.iter().all(|token| Token::of(token.number()) == *token));
    }
}
