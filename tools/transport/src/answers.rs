//! What a filter writes: answers, each of some parcels.
#![forbid(unsafe_code)]

use crate::frames::{long_number_at, number_at, Frame, Head, HEAD};
use crate::rest::{Read, Rest};

const ADDRESS: usize = 9; // bytes of `to` and `number`, before a parcel's frame
const COUNT: usize = 4; // bytes of an answer's count
const MOST_PARCEL: usize = 1 << 30; // bytes

/// Whom a parcel is for.
#[derive(Clone, Copy, Debug, PartialEq, Eq)]
pub enum To {
    Replicas,
    Replica,
    Client,
    Operator,
    Caller,
}

impl To {
    fn of(byte: u8) -> Option<To> {
        [To::Replicas, To::Replica, To::Client, To::Operator, To::Caller].get(usize::from(byte)).copied()
    }
}

/// A frame for a receiver of that number.
#[derive(Debug, PartialEq, Eq)]
pub struct Parcel {
    pub to: To,
    pub number: u64,
    pub frame: Frame,
}

impl Parcel {
    pub fn kind(&self) -> u8 {
        self.frame.first().copied().unwrap_or_default()
    }

    pub fn payload(&self) -> &[u8] {
        self.frame.get(HEAD..).unwrap_or_default()
    }
}

/// What was written is no answer.
#[derive(Debug, PartialEq, Eq)]
pub struct NoAnswer;

/// Reads answers.
#[derive(Default)]
pub struct Answers {
    rest: Rest,
    left: Option<u32>, // parcels of the answer that has begun
}

impl Answers {
    /// Takes what came of an answer, and puts its whole parcels to the others. It tells whether the answer has ended.
    pub fn take(&mut self, came: &[u8], parcels: &mut Vec<Parcel>) -> Result<bool, NoAnswer> {
        let left = &mut self.left;
        let mut is_over = false;
        self.rest.feed(came, |bytes| {
            let mut at = 0;
            if left.is_none() {
                *left = number_at(bytes, at);
                at = if left.is_some() { COUNT } else { 0 };
            }
            let wanted = match left {
                None => COUNT,
                Some(left) => take_parcels(bytes, &mut at, left, parcels)?,
            };
            if *left == Some(0) {
                is_over = true;
                *left = None;
                // nothing may stand behind it, since no turn was sent to answer
                return if at == bytes.len() { Ok(Read { used: at, wanted }) } else { Err(NoAnswer) };
            }
            Ok(Read { used: at, wanted })
        })?;
        Ok(is_over)
    }
}

/// Takes the parcels that are whole. It gives how many bytes the next one wants.
fn take_parcels(bytes: &[u8], at: &mut usize, left: &mut u32, parcels: &mut Vec<Parcel>) -> Result<usize, NoAnswer> {
    while *left > 0 {
        let head = match Head::at(bytes, *at + ADDRESS) {
            Some(head) => head,
            None => return Ok(ADDRESS + HEAD),
        };
        let wanted = ADDRESS + HEAD + head.length;
        let to = bytes.get(*at).copied().and_then(To::of).filter(|_| wanted <= MOST_PARCEL).ok_or(NoAnswer)?;
        let frame = match bytes.get(*at + ADDRESS..*at + wanted) {
            Some(frame) => frame,
            None => return Ok(wanted),
        };
        let number = long_number_at(bytes, *at + 1).ok_or(NoAnswer)?;
        parcels.push(Parcel { to, number, frame: frame.into() });
        *at += wanted;
        *left -= 1;
    }
    Ok(COUNT)
}

#[cfg(test)]
mod tests {
    use super::*;
    use crate::frames::{framed, ANSWER, REPORT};

    fn answer(parcels: &[(u8, u64, Vec<u8>)]) -> Vec<u8> {
        let mut bytes = (parcels.len() as u32).to_be_bytes().to_vec();
        for (to, number, frame) in parcels {
            bytes.push(*to);
            bytes.extend_from_slice(&number.to_be_bytes());
            bytes.extend_from_slice(frame);
        }
        bytes
    }

    #[test]
    fn an_answer_in_pieces() {
        let frames = [framed(1, &[&[7; 300]]), framed(ANSWER, &[b"ticket"]), framed(REPORT, &[])];
        let bytes = answer(&[(0, 0, frames[0].clone()), (4, 1 << 40, frames[1].clone()), (3, 0, frames[2].clone())]);
        for size in 1..=bytes.len() {
            let (mut answers, mut parcels) = (Answers::default(), Vec::new());
            for _ in 0..2 {
                let pieces: Vec<_> = bytes.chunks(size).collect();
                for (place, piece) in pieces.iter().enumerate() {
                    assert_eq!(answers.take(piece, &mut parcels), Ok(place + 1 == pieces.len()));
                }
            }
            assert_eq!(parcels.len(), 6);
            assert!(parcels.iter().zip(frames.iter().cycle()).all(|(parcel, frame)| parcel.frame[..] == frame[..]));
            assert_eq!((parcels[1].to, parcels[1].number, parcels[1].kind(), parcels[1].payload()), (To::Caller, 1 << 40, ANSWER, &b"ticket"[..]));
        }
        assert_eq!(Answers::default().take(&answer(&[]), &mut Vec::new()), Ok(true));
    }

    #[test]
    fn what_is_no_answer() {
        let take = |bytes: &[u8]| Answers::default().take(bytes, &mut Vec::new());
        assert_eq!(take(b"y\ny\ny\ny\ny\ny\ny\ny\ny\n"), Err(NoAnswer));
        assert_eq!(take(&answer(&[(5, 0, framed(1, &[]))])), Err(NoAnswer));
        assert_eq!(take(b"\0\0\0\0more"), Err(NoAnswer));
        assert_eq!(take(b"\0\0\0\x01\0\0\0\0\0\0\0\0\0\x01\xff\xff\xff\xff"), Err(NoAnswer));
    }
}
