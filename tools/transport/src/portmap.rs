//! A port mapper of version 2 (RFC 1833 section 3), which knows where NFS, MOUNT and itself are, and learns nothing.
#![forbid(unsafe_code)]

use crate::frames::number_at;
use crate::rpc::Header;

const PROGRAM: u32 = 100_000;
const VERSION: u32 = 2;
const NFS: (u32, u32) = (100_003, 2); // program and version
const MOUNT: (u32, u32) = (100_005, 1);
const TCP: u32 = 6;
const UDP: u32 = 17;

const SUCCESS: u32 = 0; // statuses of replies (RFC 5531 section 9)
const PROG_UNAVAIL: u32 = 1;
const PROG_MISMATCH: u32 = 2;
const PROC_UNAVAIL: u32 = 3;
const GARBAGE_ARGS: u32 = 4;

/// Where the programs are, by TCP and by UDP.
#[derive(Clone, Copy)]
pub struct Ports {
    pub files: u16,
    pub own: u16,
}

impl Ports {
    /// The programs with their versions and ports.
    fn known(self) -> [((u32, u32), u32); 3] {
        [((PROGRAM, VERSION), self.own.into()), (NFS, self.files.into()), (MOUNT, self.files.into())]
    }
}

/// The reply to a message, if it has one.
pub fn answer(record: &[u8], ports: Ports) -> Option<Vec<u8>> {
    let header = Header::of(record)?;
    let Header { xid, rpc_version, program, version, procedure, arguments } = header;
    if rpc_version != 2 {
        return Some(words(&[xid, 1, 1, 0, 2, 2])); // denied: RPC_MISMATCH
    }
    let accepted = |status: u32, results: &[u32]| Some(words(&[&[xid, 1, 0, 0, 0, status], results].concat()));
    match (program, version, procedure) {
        (PROGRAM, VERSION, 0) => accepted(SUCCESS, &[]),
        (PROGRAM, VERSION, 1 | 2) => accepted(SUCCESS, &[0]), // SET and UNSET: refused
        (PROGRAM, VERSION, 3) => match mapping(record, arguments) {
            Some((wanted, protocol)) => {
                let found = ports.known().iter().find(|(known, _)| *known == wanted && [TCP, UDP].contains(&protocol)).map(|(_, port)| *port);
                accepted(SUCCESS, &[found.unwrap_or(0)])
            }
            None => accepted(GARBAGE_ARGS, &[]),
        },
        (PROGRAM, VERSION, 4) => {
            let mut list = Vec::new();
            for ((program, version), port) in ports.known() {
                for protocol in [TCP, UDP] {
                    list.extend_from_slice(&[1, program, version, protocol, port]);
                }
            }
            list.push(0);
            accepted(SUCCESS, &list)
        }
        (PROGRAM, VERSION, 5) => None, // CALLIT: nothing is called for others
        (PROGRAM, VERSION, _) => accepted(PROC_UNAVAIL, &[]),
        (PROGRAM, _, _) => accepted(PROG_MISMATCH, &[VERSION, VERSION]),
        _ => accepted(PROG_UNAVAIL, &[]),
    }
}

/// The program, its version and the protocol that are asked for.
fn mapping(record: &[u8], at: usize) -> Option<((u32, u32), u32)> {
    let word = |place: usize| number_at(record, at + 4 * place);
    word(3)?; // a port stands behind them
    Some(((word(0)?, word(1)?), word(2)?))
}

fn words(words: &[u32]) -> Vec<u8> {
    words.iter().flat_map(|word| word.to_be_bytes()).collect()
}

#[cfg(test)]
mod tests {
    use super::*;
    use crate::rpc::tests::call;

    const PORTS: Ports = Ports { files: 2049, own: 111 };

    fn answered(program: u32, version: u32, procedure: u32, arguments: &[u32]) -> Option<Vec<u32>> {
        let reply = answer(&call(9, program, version, procedure, arguments), PORTS)?;
        Some(reply.chunks(4).map(|word| number_at(word, 0).unwrap()).collect())
    }

    #[test]
    fn ports() {
        let port = |program, version, protocol| answered(PROGRAM, 2, 3, &[program, version, protocol, 0]).unwrap();
        let good = |results: &[u32]| [&[9, 1, 0, 0, 0, SUCCESS], results].concat();
        for protocol in [TCP, UDP] {
            assert_eq!(port(100_003, 2, protocol), good(&[2049]));
            assert_eq!(port(100_005, 1, protocol), good(&[2049]));
            assert_eq!(port(PROGRAM, 2, protocol), good(&[111]));
            assert_eq!(port(100_003, 3, protocol), good(&[0]));
            assert_eq!(port(100_021, 1, protocol), good(&[0]));
        }
        assert_eq!(port(100_003, 2, 7), good(&[0]));
        assert_eq!(answered(PROGRAM, 2, 0, &[]), Some(good(&[])));
        assert_eq!(answered(PROGRAM, 2, 1, &[1, 2, 3, 4]), Some(good(&[0])));
        assert_eq!(answered(PROGRAM, 2, 4, &[]).unwrap().len(), 6 + 6 * 5 + 1);
    }

    #[test]
    fn what_else_is_asked() {
        assert_eq!(answered(PROGRAM, 2, 3, &[1, 2, 3]), Some(vec![9, 1, 0, 0, 0, GARBAGE_ARGS]));
        assert_eq!(answered(PROGRAM, 2, 5, &[]), None);
        assert_eq!(answered(PROGRAM, 2, 6, &[]), Some(vec![9, 1, 0, 0, 0, PROC_UNAVAIL]));
        assert_eq!(answered(PROGRAM, 4, 3, &[]), Some(vec![9, 1, 0, 0, 0, PROG_MISMATCH, 2, 2]));
        assert_eq!(answered(100_003, 2, 0, &[]), Some(vec![9, 1, 0, 0, 0, PROG_UNAVAIL]));
        let mut old = call(9, PROGRAM, 2, 0, &[]);
        old[11] = 3;
        assert_eq!(answer(&old, PORTS), Some(words(&[9, 1, 1, 0, 2, 2])));
        assert!((0..40).all(|cut| answer(&call(9, PROGRAM, 2, 0, &[])[..cut], PORTS).is_none()));
    }

    #[test]
    fn rubbish_does_no_harm() {
        let mut number = 1u64;
        let mut next = |most: usize| {
            number = number.wrapping_mul(6_364_136_223_846_793_005).wrapping_add(1_442_695_040_888_963_407);
            (number >> 33) as usize % most
        };
        for _ in 0..100_000 {
            let mut record = call(9, PROGRAM, 2, next(7) as u32, &[100_003, 2, 6, 0]);
            for _ in 0..next(4) {
                let place = next(record.len());
                record[place] = next(256) as u8;
            }
            record.truncate(next(2 * record.len()));
            assert!(answer(&record, PORTS).map_or(true, |reply| reply.len() <= 148 && reply.len() % 4 == 0));
        }
    }
}
