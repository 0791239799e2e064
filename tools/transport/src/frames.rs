//! What goes over pipes and sockets: frames, alone or in turns, answers and parcels. All numbers are big-endian.
#![forbid(unsafe_code)]

use std::rc::Rc;

pub const REQUEST: u8 = 1;
pub const STATUS: u8 = 6;
pub const ASK_STATE: u8 = 7;
pub const STATE: u8 = 8;
pub const ASK_REPORT: u8 = 9;
pub const REPORT: u8 = 10;
pub const CALL: u8 = 11;
pub const ANSWER: u8 = 12;
pub const LOG: u8 = 13;

pub const REPLICA: u8 = 0; // the roles of those that say hello
pub const RELAY: u8 = 1;
pub const OPERATOR: u8 = 2;

pub const MAGIC: [u8; 4] = *b"BFS1";
pub const HELLO: usize = 13; // bytes of a hello
pub const HEAD: usize = 5; // bytes before a payload
pub const TICKET: usize = 8; // bytes of a ticket, with which the payload of CALL and ANSWER begins
pub const MOST_FRAME: usize = 64 << 20; // bytes of a payload between transports

/// A whole frame: its head and its payload. Several receivers share one.
pub type Frame = Rc<[u8]>;

/// What stands before a payload.
#[derive(Clone, Copy, Debug, PartialEq, Eq)]
pub struct Head {
    pub kind: u8,
    pub length: usize,
}

impl Head {
    /// The head that begins at that place, where the bytes have it whole.
    pub fn at(bytes: &[u8], at: usize) -> Option<Head> {
        let kind = *bytes.get(at)?;
        let length = number_at(bytes, at + 1)? as usize;
        Some(Head { kind, length })
    }

    /// Whether it is of a kind that passes between a filter and its own transport alone.
    pub fn is_own(&self) -> bool {
        (ASK_REPORT..=LOG).contains(&self.kind)
    }
}

/// The number of four bytes at that place, where they are there.
pub fn number_at(bytes: &[u8], at: usize) -> Option<u32> {
    let four = bytes.get(at..at.checked_add(4)?)?;
    four.try_into().ok().map(u32::from_be_bytes)
}

/// The number of eight bytes at that place, where they are there.
pub fn long_number_at(bytes: &[u8], at: usize) -> Option<u64> {
    let eight = bytes.get(at..at.checked_add(8)?)?;
    eight.try_into().ok().map(u64::from_be_bytes)
}

/// The frame of a payload in parts.
pub fn framed(kind: u8, parts: &[&[u8]]) -> Vec<u8> {
    let length: usize = parts.iter().map(|part| part.len()).sum();
    let mut frame = Vec::with_capacity(HEAD + length);
    frame.push(kind);
    frame.extend_from_slice(&(length as u32).to_be_bytes());
    parts.iter().for_each(|part| frame.extend_from_slice(part));
    frame
}

/// What a dialer says first: what it is, and the first number and the count of those for which it speaks.
#[derive(Clone, Copy, Debug, PartialEq, Eq)]
pub struct Hello {
    pub role: u8,
    pub first: u32,
    pub count: u32,
}

impl Hello {
    pub fn bytes(&self) -> Vec<u8> {
        let (first, count) = (self.first.to_be_bytes(), self.count.to_be_bytes());
        [&MAGIC[..], &[self.role], &first, &count].concat()
    }

    /// The hello with which the bytes begin, if they do.
    pub fn of(bytes: &[u8]) -> Option<Hello> {
        if !bytes.starts_with(&MAGIC) {
            return None;
        }
        Some(Hello { role: *bytes.get(4)?, first: number_at(bytes, 5)?, count: number_at(bytes, 9)? })
    }

    /// Whether more bytes may make a hello of these.
    pub fn may_begin_with(bytes: &[u8]) -> bool {
        bytes.len() < HELLO && bytes.iter().zip(MAGIC.iter()).all(|(one, other)| one == other)
    }
}

#[cfg(test)]
mod tests {
    use super::*;

    #[test]
    fn a_frame_and_its_head() {
        let frame = framed(CALL, &[b"12345678", b"call"]);
        assert_eq!(frame, b"\x0b\0\0\0\x0c12345678call");
        assert_eq!(Head::at(&frame, 0), Some(Head { kind: CALL, length: 12 }));
        assert_eq!(Head::at(&frame[..4], 0), None);
        assert_eq!(number_at(&frame, usize::MAX), None);
        assert!((0..=255u8).filter(|kind| Head { kind: *kind, length: 0 }.is_own()).eq(9..=13));
    }

    #[test]
    fn a_hello_in_pieces() {
        let hello = Hello { role: RELAY, first: 3, count: 1 << 20 };
        let bytes = hello.bytes();
        assert_eq!(bytes.len(), HELLO);
        for cut in 0..HELLO {
            assert!(Hello::may_begin_with(&bytes[..cut]) && Hello::of(&bytes[..cut]).is_none());
        }
        assert_eq!(Hello::of(&bytes), Some(hello));
        assert!(!Hello::may_begin_with(&bytes) && !Hello::may_begin_with(b"BFT") && Hello::of(b"BFS2\0\0\0\0\0\0\0\0\0").is_none());
    }
}
