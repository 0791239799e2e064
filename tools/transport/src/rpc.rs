//! Messages of RPC version 2 (RFC 5531 section 9), and records of TCP (section 11).
#![forbid(unsafe_code)]

use crate::frames::number_at;
use crate::rest::{Read, Rest};

const LAST: u32 = 1 << 31; // the mark of a record's last fragment
const MARK: usize = 4; // bytes before a fragment
pub const MOST_RECORD: usize = 16_384; // bytes of a call
const MOST_FRAGMENTS: usize = 1_024; // of a record
const MOST_AUTH: usize = 400; // bytes of a credential or verifier
const CREDENTIAL: usize = 24; // where it begins

/// What stands in a call before its arguments.
#[derive(Clone, Copy, Debug, PartialEq, Eq)]
pub struct Header {
    pub xid: u32,
    pub rpc_version: u32,
    pub program: u32,
    pub version: u32,
    pub procedure: u32,
    /// Where the arguments begin.
    pub arguments: usize,
}

impl Header {
    /// That of a message which is a call whose header can be read. Anything else has no reply, so nobody waits for one.
    pub fn of(record: &[u8]) -> Option<Header> {
        let word = |place: usize| number_at(record, 4 * place);
        if word(1)? != 0 {
            return None;
        }
        let arguments = behind_auth(record, behind_auth(record, CREDENTIAL)?)?;
        Some(Header { xid: word(0)?, rpc_version: word(2)?, program: word(3)?, version: word(4)?, procedure: word(5)?, arguments })
    }
}

/// Where the credential or verifier that begins there ends, if it does.
fn behind_auth(record: &[u8], at: usize) -> Option<usize> {
    let length = number_at(record, at + 4)? as usize;
    let end = at + 8 + length.checked_add(3)? / 4 * 4;
    (length <= MOST_AUTH && end <= record.len()).then_some(end)
}

/// The mark of a record in one fragment.
pub fn mark_of(record: &[u8]) -> [u8; MARK] {
    (record.len() as u32 | LAST).to_be_bytes()
}

/// What came is no record of a call.
#[derive(Debug, PartialEq, Eq)]
pub struct TooLong;

/// The records of a stream.
#[derive(Default)]
pub struct Records {
    rest: Rest,
    record: Vec<u8>, // fragments before the last one
    fragments: usize,
}

impl Records {
    /// Gives the records that are whole to `take`, until that says that no more may be taken; the others wait for the next time.
    pub fn feed(&mut self, came: &[u8], mut take: impl FnMut(&[u8]) -> bool) -> Result<(), TooLong> {
        let Records { rest, record, fragments } = self;
        rest.feed(came, |bytes| {
            let mut at = 0;
            while let Some(mark) = number_at(bytes, at) {
                let length = (mark & !LAST) as usize;
                if record.len() + length > MOST_RECORD || *fragments >= MOST_FRAGMENTS {
                    return Err(TooLong);
                }
                let wanted = MARK + length;
                let fragment = match bytes.get(at + MARK..at + wanted) {
                    Some(fragment) => fragment,
                    None => return Ok(Read { used: at, wanted }),
                };
                at += wanted;
                if mark & LAST == 0 {
                    record.extend_from_slice(fragment);
                    *fragments += 1;
                } else if !take_last(record, fragments, fragment, &mut take) {
                    break;
                }
            }
            Ok(Read { used: at, wanted: MARK })
        })
    }
}

fn take_last(record: &mut Vec<u8>, fragments: &mut usize, fragment: &[u8], take: &mut impl FnMut(&[u8]) -> bool) -> bool {
    *fragments = 0;
    if record.is_empty() {
        return take(fragment);
    }
    record.extend_from_slice(fragment);
    let goes_on = take(record);
    record.clear();
    goes_on
}

#[cfg(test)]
pub mod tests {
    use super::*;

    /// A call without a credential.
    pub fn call(xid: u32, program: u32, version: u32, procedure: u32, arguments: &[u32]) -> Vec<u8> {
        let words = [xid, 0, 2, program, version, procedure, 0, 0, 0, 0];
        words.iter().chain(arguments).flat_map(|word| word.to_be_bytes()).collect()
    }

    #[test]
    fn headers() {
        let good = call(7, 100_003, 2, 1, &[5]);
        let header = Header { xid: 7, rpc_version: 2, program: 100_003, version: 2, procedure: 1, arguments: 40 };
        assert_eq!(Header::of(&good), Some(header));
        assert!((0..40).all(|cut| Header::of(&good[..cut]).is_none()));
        let with = |place: usize, byte| {
            let mut record = good.clone();
            record.resize(1_000, 0);
            record[place] = byte;
            Header::of(&record)
        };
        assert!(with(7, 1).is_none()); // a reply
        assert_eq!(with(31, 5).map(|header| header.arguments), Some(48)); // a credential of five bytes and three more
        assert!(with(30, 1).is_some() && with(30, 2).is_none()); // 256 bytes, and 512
        assert!(with(28, 255).is_none());
    }

    #[test]
    fn fragments() {
        let mut bytes = Vec::new();
        for (part, is_last) in [(&b"one"[..], false), (b"", false), (b"two", true), (b"three", true), (b"", true)] {
            let mark = part.len() as u32 | if is_last { LAST } else { 0 };
            bytes.extend_from_slice(&mark.to_be_bytes());
            bytes.extend_from_slice(part);
        }
        for size in 1..=bytes.len() {
            let (mut records, mut found) = (Records::default(), Vec::new());
            for piece in bytes.chunks(size) {
                records
                    .feed(piece, |record| {
                        found.push(record.to_vec());
                        true
                    })
                    .unwrap();
            }
            assert_eq!(found, [&b"onetwo"[..], b"three", b""]);
        }
        let (mut records, mut found) = (Records::default(), Vec::new());
        let mut came = &bytes[..];
        for _ in 0..3 {
            records
                .feed(came, |record| {
                    found.push(record.to_vec());
                    false
                })
                .unwrap();
            came = &[];
        }
        assert_eq!(found, [&b"onetwo"[..], b"three", b""]);
    }

    #[test]
    fn records_that_are_too_long() {
        let feed = |bytes: &[u8]| Records::default().feed(bytes, |_| true);
        assert_eq!(feed(&[255; 4]), Err(TooLong));
        assert_eq!(feed(&[0; 4 * MOST_FRAGMENTS]), Ok(()));
        assert_eq!(feed(&[0; 4 * MOST_FRAGMENTS + 4]), Err(TooLong));
        let mut two = vec![0, 0, 0x40, 0];
        two.extend_from_slice(&[0; MOST_RECORD]);
        assert_eq!(feed(&two), Ok(()));
        two.extend_from_slice(&[0x80, 0, 0, 1]);
        assert_eq!(feed(&two), Err(TooLong));
    }
}
