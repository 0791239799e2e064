//! A connection with another transport, or with an operator.
#![forbid(unsafe_code)]

use crate::frames::{number_at, Frame, Head, ASK_REPORT, ASK_STATE, HEAD, MOST_FRAME, REQUEST, STATE, STATUS};
use crate::inbox::Source;
use crate::queue::Queue;
use crate::rest::{Read, Rest};
use crate::wait::Watch;
use std::net::{IpAddr, TcpStream};
use std::time::Instant;

const MOST_QUEUED: usize = 64 << 20; // bytes that wait for a replica
const MOST_QUEUED_ELSE: usize = 4 << 20; // and for another
const MOST_REQUEST: usize = 64 << 10; // bytes of a frame of a relay

/// Who is at the other side.
#[derive(Clone, Copy, Debug, PartialEq, Eq)]
pub enum Role {
    /// The replica of that number, if it takes the connection that was begun.
    Dialed(usize),
    /// One who has said no hello yet.
    Stranger,
    Replica(usize),
    /// A relay of so many clients, from the first one on.
    Relay {
        first: u32,
        count: u32,
    },
    Operator,
}

impl Role {
    /// Whether a frame may come from there. A replica that could send a call would have the relay sign a request for it.
    fn may_send(self, head: Head) -> bool {
        match self {
            Role::Dialed(_) | Role::Stranger => false,
            Role::Replica(_) => head.length <= MOST_FRAME && !head.is_own(),
            Role::Relay { .. } => head.kind == REQUEST && head.length <= MOST_REQUEST,
            Role::Operator => head.kind == ASK_REPORT && head.length == 0,
        }
    }

    /// Whether a whole frame is its own. What is said of states, and of where one stands, begins with the number of the replica that says it, so that none
    /// speaks for another.
    fn owns(self, head: Head, payload: &[u8]) -> bool {
        match self {
            Role::Replica(number) if [STATUS, ASK_STATE, STATE].contains(&head.kind) => number_at(payload, 0).map_or(false, |word| word as usize == number),
            _ => true,
        }
    }

    /// How it is called in lines.
    pub fn name(self) -> String {
        match self {
            Role::Dialed(number) | Role::Replica(number) => format!("replica {number}"),
            Role::Relay { first, count } => format!("the relay of clients {} to {}", first, first.saturating_add(count).saturating_sub(1)),
            Role::Operator => "an operator".to_string(),
            Role::Stranger => "a stranger".to_string(),
        }
    }
}

/// The connection, what waits to be sent there, and when something was heard.
pub struct Connection {
    pub stream: TcpStream,
    pub host: IpAddr,
    pub role: Role,
    pub is_dialed: bool,
    pub since: Instant,
    pub heard: Instant,
    pub queue: Queue,
    pub is_dirty: bool,
    pub is_put_out: bool,  // a relay of some clients whose replies go to others
    pub greeting: Vec<u8>, // bytes of a hello that isn't whole
    pub watch: Watch,
    rest: Rest,
}

impl Connection {
    pub fn new(stream: TcpStream, host: IpAddr, role: Role) -> Connection {
        let now = Instant::now();
        let is_dialed = matches!(role, Role::Dialed(_));
        Connection {
            stream,
            host,
            role,
            is_dialed,
            since: now,
            heard: now,
            queue: Queue::default(),
            is_dirty: false,
            is_put_out: false,
            watch: Watch::default(),
            rest: Rest::default(),
            greeting: Vec::new(),
        }
    }

    /// Where its frames wait.
    pub fn source(&self, id: u64) -> Source {
        match self.role {
            Role::Replica(number) | Role::Dialed(number) => Source::Replica(number),
            Role::Relay { .. } | Role::Stranger => Source::Relay(id),
            Role::Operator => Source::Operators,
        }
    }

    /// How many bytes of its frames may wait until no more are read.
    pub fn most_waiting(&self) -> usize {
        if matches!(self.role, Role::Replica(_)) {
            4 << 20
        } else {
            1 << 20
        }
    }

    pub fn put(&mut self, frame: Frame) {
        let most = if matches!(self.role, Role::Replica(_)) { MOST_QUEUED } else { MOST_QUEUED_ELSE };
        self.queue.put(frame, most);
    }

    /// Gives the whole frames of what came to `take`, with their count. A frame that may not come from there is the error.
    pub fn came(&mut self, bytes: &[u8], mut take: impl FnMut(&[u8], u32)) -> Result<(), Head> {
        let role = self.role;
        self.rest.feed(bytes, |bytes| {
            let (at, count, wanted) = whole_frames(bytes, role)?;
            if count > 0 {
                take(bytes.get(..at).unwrap_or_default(), count);
            }
            Ok(Read { used: at, wanted })
        })
    }
}

/// Where the whole frames end, how many they are, and how many bytes the next one wants.
fn whole_frames(bytes: &[u8], role: Role) -> Result<(usize, u32, usize), Head> {
    let (mut at, mut count) = (0, 0);
    while let Some(head) = Head::at(bytes, at) {
        if !role.may_send(head) {
            return Err(head);
        }
        let wanted = HEAD + head.length;
        if bytes.len() - at < wanted {
            return Ok((at, count, wanted));
        }
        if !role.owns(head, bytes.get(at + HEAD..at + wanted).unwrap_or_default()) {
            return Err(head);
        }
        at += wanted;
        count += 1;
    }
    Ok((at, count, HEAD))
}

#[cfg(test)]
mod tests {
    use super::*;
    use crate::frames::framed;

    #[test]
    fn who_may_send_what() {
        let relay = Role::Relay { first: 3, count: 2 };
        assert_eq!(relay.name(), "the relay of clients 3 to 4");
        assert_eq!(Role::Relay { first: u32::MAX, count: u32::MAX }.name(), "the relay of clients 4294967295 to 4294967294");
        let may = |role: Role, kind, length| role.may_send(Head { kind, length });
        assert!(may(relay, REQUEST, MOST_REQUEST) && !may(relay, REQUEST, MOST_REQUEST + 1) && !may(relay, 2, 0));
        assert!(may(Role::Operator, ASK_REPORT, 0) && !may(Role::Operator, ASK_REPORT, 1) && !may(Role::Operator, REQUEST, 0));
        assert!((0..=255).all(|kind| may(Role::Replica(1), kind, MOST_FRAME) != (9..=13).contains(&kind)));
        assert!(!may(Role::Replica(1), 2, MOST_FRAME + 1) && !may(Role::Stranger, REQUEST, 0) && !may(Role::Dialed(1), REQUEST, 0));
    }

    #[test]
    fn each_speaks_for_itself_of_states() {
        for kind in [STATUS, ASK_STATE, STATE] {
            let frame = framed(kind, &[&[0, 0, 0, 2], b"more"]);
            assert_eq!(whole_frames(&frame, Role::Replica(2)), Ok((frame.len(), 1, HEAD)));
            assert_eq!(whole_frames(&frame, Role::Replica(1)), Err(Head { kind, length: 8 }));
            assert_eq!(whole_frames(&framed(kind, &[&[0, 0, 2]]), Role::Replica(2)), Err(Head { kind, length: 3 }));
        }
    }

    #[test]
    fn frames_are_counted() {
        let bytes = [framed(2, &[b"one"]), framed(200, &[]), framed(1, &[b"two"])].concat();
        assert_eq!(whole_frames(&bytes, Role::Replica(0)), Ok((bytes.len(), 3, HEAD)));
        assert_eq!(whole_frames(&bytes[..bytes.len() - 1], Role::Replica(0)), Ok((13, 2, 8)));
        assert_eq!(whole_frames(&bytes, Role::Operator), Err(Head { kind: 2, length: 3 }));
        assert_eq!(whole_frames(&[8, 255, 255, 255, 255], Role::Replica(0)), Err(Head { kind: 8, length: 0xffff_ffff }));
        assert_eq!(whole_frames(&[], Role::Stranger), Ok((0, 0, HEAD)));
    }
}
