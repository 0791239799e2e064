//! Frames that wait for a receiver.
#![forbid(unsafe_code)]

use crate::frames::Frame;
use std::collections::VecDeque;
use std::io::{ErrorKind, IoSlice, Result, Write};

pub const OVERHEAD: usize = 64; // bytes that are counted for a frame beside its own
const MOST_PIECES: usize = 64; // frames that are written at a time
const MOST_WRITES: usize = 4; // that are made before others have their turn

/// Frames for one receiver. Where there are too many, the oldest are dropped.
#[derive(Default)]
pub struct Queue {
    frames: VecDeque<Frame>,
    size: usize,
    written: usize, // bytes of the first frame
    dropped: usize,
}

impl Queue {
    /// A frame goes behind the others, of which no more than so many bytes are kept.
    pub fn put(&mut self, frame: Frame, most: usize) {
        self.size += frame.len() + OVERHEAD;
        self.frames.push_back(frame);
        self.keep(most);
    }

    /// Drops the oldest frames above so many bytes, but never the last one, nor one that is being written.
    pub fn keep(&mut self, most: usize) {
        let first = usize::from(self.written > 0);
        while self.size > most && self.frames.len() > first + 1 {
            if let Some(frame) = self.frames.remove(first) {
                self.size -= frame.len() + OVERHEAD;
                self.dropped += 1;
            }
        }
    }

    pub fn is_empty(&self) -> bool {
        self.frames.is_empty()
    }

    /// How many were dropped since this was asked.
    pub fn take_dropped(&mut self) -> usize {
        std::mem::take(&mut self.dropped)
    }

    /// Another connection gets the first frame whole.
    pub fn begin_anew(&mut self) {
        self.written = 0;
    }

    /// Writes what the receiver takes now.
    pub fn write(&mut self, to: &mut impl Write) -> Result<()> {
        for _ in 0..MOST_WRITES {
            if self.frames.is_empty() {
                return Ok(());
            }
            let mut pieces = [IoSlice::new(&[]); MOST_PIECES];
            let mut from = self.written;
            for (piece, frame) in pieces.iter_mut().zip(&self.frames) {
                *piece = IoSlice::new(frame.get(from..).unwrap_or_default());
                from = 0;
            }
            let count = self.frames.len().min(MOST_PIECES);
            match to.write_vectored(&pieces[..count]) {
                Ok(0) => return Err(ErrorKind::WriteZero.into()),
                Ok(written) => self.have_written(written),
                Err(fault) if fault.kind() == ErrorKind::WouldBlock => return Ok(()),
                Err(fault) if fault.kind() == ErrorKind::Interrupted => {}
                Err(fault) => return Err(fault),
            }
        }
        Ok(())
    }

    fn have_written(&mut self, written: usize) {
        self.written += written;
        while let Some(length) = self.frames.front().map(|frame| frame.len()).filter(|length| *length <= self.written) {
            self.frames.pop_front();
            self.written -= length;
            self.size -= length + OVERHEAD;
        }
    }
}

#[cfg(test)]
mod tests {
    use super::*;

    /// Takes so many bytes at a time, and so many in all.
    struct Receiver {
        taken: Vec<u8>,
        at_a_time: usize,
        most: usize,
    }

    impl Write for Receiver {
        fn write(&mut self, data: &[u8]) -> Result<usize> {
            let count = data.len().min(self.at_a_time).min(self.most - self.taken.len());
            self.taken.extend_from_slice(&data[..count]);
            if count == 0 {
                Err(ErrorKind::WouldBlock.into())
            } else {
                Ok(count)
            }
        }

        fn flush(&mut self) -> Result<()> {
            Ok(())
        }
    }

    fn frame(byte: u8, length: usize) -> Frame {
        vec![byte; length].into()
    }

    #[test]
    fn the_newest_stay() {
        let mut queue = Queue::default();
        for number in 0..100 {
            queue.put(frame(number, 100_000), 4 << 20);
        }
        assert!(queue.size <= 4 << 20 && queue.frames.len() > 40);
        assert_eq!(queue.take_dropped(), 100 - queue.frames.len());
        assert!(queue.frames.iter().rev().zip((0..100).rev()).all(|(frame, number)| frame[0] == number));
        queue.put(frame(0, 8 << 20), 4 << 20);
        assert!(queue.frames.len() == 1 && queue.frames[0].len() == 8 << 20);
        let mut receiver = Receiver { taken: Vec::new(), at_a_time: usize::MAX, most: usize::MAX };
        queue.write(&mut receiver).unwrap();
        assert!(receiver.taken.len() == 8 << 20 && queue.size == 0 && queue.is_empty());
    }

    #[test]
    fn what_is_being_written_is_written_whole() {
        let mut queue = Queue::default();
        queue.put(frame(1, 10), 1_000);
        let mut receiver = Receiver { taken: Vec::new(), at_a_time: 3, most: 6 };
        queue.write(&mut receiver).unwrap();
        for number in 2..100 {
            queue.put(frame(number, 10), 1_000);
        }
        receiver.most = 10_000;
        while !queue.is_empty() {
            queue.write(&mut receiver).unwrap();
        }
        assert!(receiver.taken[..10] == [1; 10] && receiver.taken.len() % 10 == 0 && receiver.taken.ends_with(&[99; 10]));
        assert!(receiver.taken.chunks(10).all(|each| each == [each[0]; 10]));
        queue.put(frame(1, 10), 1_000);
        receiver.most = receiver.taken.len() + 5;
        queue.write(&mut receiver).unwrap();
        queue.begin_anew();
        let mut next = Receiver { taken: Vec::new(), at_a_time: 100, most: 100 };
        queue.write(&mut next).unwrap();
        assert_eq!(next.taken, [1; 10]);
    }
}
