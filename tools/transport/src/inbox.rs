//! Frames that wait for a turn of the filter, by whom they are from.
#![forbid(unsafe_code)]

use std::collections::{HashMap, VecDeque};

const SHARE: usize = 1 << 20; // bytes that a turn takes of one source, or a little more
const CALLS: usize = 64 << 10; // bytes of kernels' calls that a turn takes: so replicas order the first ones while the relay signs the next
const MOST_TURN: usize = 16 << 20; // bytes of all sources that a turn takes, or a little more
const MOST_PIECE: usize = 64 << 10; // bytes to which more frames are put
const OVERHEAD: usize = 64; // bytes that are counted for a piece beside its own

/// Whom frames are from.
#[derive(Clone, Copy, Debug, PartialEq, Eq, Hash)]
pub enum Source {
    Replica(usize),
    /// The connection of a relay, by its number.
    Relay(u64),
    Operators,
    Kernels,
}

/// Some whole frames.
struct Piece {
    bytes: Vec<u8>,
    frames: u32,
}

#[derive(Default)]
struct Inbox {
    pieces: VecDeque<Piece>,
    size: usize,
}

impl Inbox {
    fn put(&mut self, bytes: &[u8], frames: u32) {
        self.size += bytes.len();
        if let Some(last) = self.pieces.back_mut().filter(|last| last.bytes.len() + bytes.len() <= MOST_PIECE) {
            last.bytes.extend_from_slice(bytes);
            last.frames += frames;
            return;
        }
        self.size += OVERHEAD;
        self.pieces.push_back(Piece { bytes: bytes.to_vec(), frames });
    }

    /// Moves the first ones to a turn, and tells how many they are.
    fn take(&mut self, turn: &mut Vec<u8>, most: usize) -> u32 {
        let (mut frames, mut size) = (0, 0);
        while let Some(piece) = self.pieces.pop_front() {
            turn.extend_from_slice(&piece.bytes);
            frames += piece.frames;
            size += piece.bytes.len() + OVERHEAD;
            if size > most {
                break;
            }
        }
        self.size -= size;
        frames
    }
}

/// All that waits. A turn takes some of each source; the one of which some is left waits behind all others.
#[derive(Default)]
pub struct Inboxes {
    by_source: HashMap<Source, Inbox>,
    ready: VecDeque<Source>,
}

impl Inboxes {
    /// So many frames have come.
    pub fn put(&mut self, source: Source, bytes: &[u8], frames: u32) {
        let inbox = self.by_source.entry(source).or_insert_with(|| {
            self.ready.push_back(source);
            Inbox::default()
        });
        inbox.put(bytes, frames);
    }

    /// How many bytes of that source wait.
    pub fn waiting(&self, source: Source) -> usize {
        self.by_source.get(&source).map_or(0, |inbox| inbox.size)
    }

    /// Drops what waits of a source.
    pub fn forget(&mut self, source: Source) {
        if self.by_source.remove(&source).is_some() {
            self.ready.retain(|other| *other != source);
        }
    }

    pub fn is_empty(&self) -> bool {
        self.ready.is_empty()
    }

    /// Moves what one turn takes behind its head, and tells how many frames these are.
    pub fn take(&mut self, turn: &mut Vec<u8>) -> u32 {
        let mut frames = 0;
        for _ in 0..self.ready.len() {
            if turn.len() > MOST_TURN {
                break;
            }
            if let Some(source) = self.ready.pop_front() {
                frames += self.take_of(source, turn);
            }
        }
        frames
    }

    fn take_of(&mut self, source: Source, turn: &mut Vec<u8>) -> u32 {
        let inbox = match self.by_source.get_mut(&source) {
            Some(inbox) => inbox,
            None => return 0,
        };
        let frames = inbox.take(turn, if source == Source::Kernels { CALLS } else { SHARE });
        if inbox.pieces.is_empty() {
            self.by_source.remove(&source);
        } else {
            self.ready.push_back(source);
        }
        frames
    }
}

#[cfg(test)]
mod tests {
    use super::*;

    #[test]
    fn each_source_has_its_share() {
        let mut inboxes = Inboxes::default();
        let (loud, quiet) = (Source::Replica(1), Source::Relay(7));
        for _ in 0..100 {
            inboxes.put(loud, &[1; 60_000], 3);
        }
        inboxes.put(quiet, b"quiet", 1);
        assert!(inboxes.waiting(loud) > 6_000_000 && inboxes.waiting(quiet) == 5 + OVERHEAD);
        let mut turn = Vec::new();
        let first = inboxes.take(&mut turn);
        assert!(turn.ends_with(b"quiet") && turn.len() < SHARE + 100_000);
        let mut frames = first;
        while !inboxes.is_empty() {
            frames += inboxes.take(&mut turn);
        }
        assert_eq!((frames, turn.len(), inboxes.waiting(loud)), (301, 6_000_005, 0));
    }

    #[test]
    fn a_turn_has_an_end() {
        let mut inboxes = Inboxes::default();
        for number in 0..40 {
            for _ in 0..20 {
                inboxes.put(Source::Replica(number), &[0; 60_000], 1);
            }
        }
        let mut turn = Vec::new();
        inboxes.take(&mut turn);
        assert!(turn.len() < MOST_TURN + 2 * SHARE);
        // those that had no turn come first
        let late = Source::Replica(20);
        let before = inboxes.waiting(late);
        inboxes.take(&mut Vec::new());
        assert!(before > SHARE && inboxes.waiting(late) < SHARE);
    }

    #[test]
    fn what_is_forgotten_is_gone() {
        let mut inboxes = Inboxes::default();
        inboxes.put(Source::Relay(1), b"one", 1);
        inboxes.put(Source::Kernels, b"two", 1);
        inboxes.forget(Source::Relay(1));
        let mut turn = Vec::new();
        assert_eq!((inboxes.take(&mut turn), &turn[..]), (1, &b"two"[..]));
        assert!(inboxes.is_empty() && inboxes.by_source.is_empty());
    }
}
