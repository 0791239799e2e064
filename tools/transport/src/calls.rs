//! The calls that are under way, by ticket and by caller, and the last replies. A caller that sends a call again (same address, xid and bytes) gets the same
//! reply, and the filter sees one call.
#![forbid(unsafe_code)]

use crate::frames::{framed, Frame, CALL};
use crate::rpc::Header;
use std::collections::hash_map::RandomState;
use std::collections::{BTreeMap, HashMap};
use std::hash::{BuildHasher, Hasher};
use std::net::SocketAddr;
use std::time::{Duration, Instant};

const MOST_CALLS: usize = 256; // that are under way, of one connection or by UDP
const MOST_IN_ALL: usize = 1_024; // as many as may wait in the relay
const MOST_REPLIES: usize = 64 << 20; // bytes of replies that are kept
const KEPT_FOR: Duration = Duration::from_secs(60);
const LOST_AFTER: Duration = Duration::from_secs(600); // after which a reply is waited for no more
const OVERHEAD: usize = 256; // bytes that are counted for a reply beside its own

/// How many of the calls that may be under way are, at most.
#[derive(Clone, Copy)]
pub enum Share {
    All,
    /// So that many may be taken at a time.
    ThreeQuarters,
}

/// Who has sent a call: the stream of that number, or the sender of a datagram.
#[derive(Clone, Copy, Debug, PartialEq, Eq)]
pub enum Caller {
    Stream(u64),
    Datagram(SocketAddr),
}

impl Caller {
    /// The stream; those that send datagrams have one number.
    fn place(self) -> Option<u64> {
        match self {
            Caller::Stream(id) => Some(id),
            Caller::Datagram(_) => None,
        }
    }
}

#[derive(Clone, Copy, PartialEq, Eq, Hash)]
struct Key {
    is_stream: bool,
    address: SocketAddr,
    xid: u32,
}

struct Call {
    key: Key,
    mark: u128,
    came_by: Option<u64>,
    caller: Caller,
    since: Instant,
}

struct Kept {
    key: Key,
    mark: u128,
    reply: Frame,
    since: Instant,
}

/// What is to be done with a message.
#[derive(Debug, PartialEq, Eq)]
pub enum Taken {
    /// It has no reply, or it is under way.
    Nothing,
    /// The filter gets this frame.
    Call(Vec<u8>),
    /// The caller gets this reply again.
    Reply(Frame),
}

/// The calls and replies. What is wanted of a call's bytes is whether they are the same: a hash with secret keys tells it.
#[derive(Default)]
pub struct Calls {
    secrets: (RandomState, RandomState),
    ticket: u64,
    by_ticket: BTreeMap<u64, Call>, // by their age
    by_key: HashMap<Key, u64>,
    under_way: HashMap<Option<u64>, usize>,
    last: u64,
    replies: BTreeMap<u64, Kept>, // by their age
    reply_by_key: HashMap<Key, u64>,
    size: usize,
}

impl Calls {
    /// Whether fewer calls are under way than may be, of this caller's place and in all.
    pub fn may_take(&self, caller: Caller, share: Share) -> bool {
        let part = |most: usize| if let Share::All = share { most } else { most / 4 * 3 };
        let own = self.under_way.get(&caller.place()).copied().unwrap_or_default();
        own < part(MOST_CALLS) && self.by_ticket.len() < part(MOST_IN_ALL)
    }

    /// A message of that address has come.
    pub fn take(&mut self, address: SocketAddr, record: &[u8], caller: Caller) -> Taken {
        let xid = match Header::of(record) {
            Some(header) => header.xid,
            None => return Taken::Nothing,
        };
        let key = Key { is_stream: caller.place().is_some(), address, xid };
        let mark = self.mark(record);
        if let Some(call) = self.by_key.get(&key).and_then(|ticket| self.by_ticket.get_mut(ticket)).filter(|call| call.mark == mark) {
            call.caller = caller;
            return Taken::Nothing;
        }
        if let Some(kept) = self.reply_by_key.get(&key).and_then(|age| self.replies.get(age)).filter(|kept| kept.mark == mark) {
            return Taken::Reply(kept.reply.clone());
        }
        self.ticket += 1;
        self.by_key.insert(key, self.ticket);
        *self.under_way.entry(caller.place()).or_default() += 1;
        self.by_ticket.insert(self.ticket, Call { key, mark, came_by: caller.place(), caller, since: Instant::now() });
        Taken::Call(framed(CALL, &[&self.ticket.to_be_bytes(), record]))
    }

    fn mark(&self, record: &[u8]) -> u128 {
        let half = |secret: &RandomState| {
            let mut hasher = secret.build_hasher();
            hasher.write(record);
            u128::from(hasher.finish())
        };
        half(&self.secrets.0) << 64 | half(&self.secrets.1)
    }

    /// The reply to the call of that ticket; where it has no bytes, there is none. It gives who is to have it.
    pub fn answer(&mut self, ticket: u64, reply: &[u8]) -> Option<Caller> {
        let call = self.by_ticket.remove(&ticket)?;
        if self.by_key.get(&call.key) == Some(&ticket) {
            self.by_key.remove(&call.key);
        }
        if let Some(count) = self.under_way.get_mut(&call.came_by) {
            *count -= 1;
            if *count == 0 {
                self.under_way.remove(&call.came_by);
            }
        }
        if reply.is_empty() {
            return None;
        }
        let caller = call.caller;
        self.keep(call, reply);
        Some(caller)
    }

    fn keep(&mut self, call: Call, reply: &[u8]) {
        self.last += 1;
        if let Some(old) = self.reply_by_key.insert(call.key, self.last) {
            self.drop_reply(old);
            self.reply_by_key.insert(call.key, self.last);
        }
        self.size += reply.len() + OVERHEAD;
        self.replies.insert(self.last, Kept { key: call.key, mark: call.mark, reply: reply.into(), since: Instant::now() });
        while self.size > MOST_REPLIES && self.drop_oldest(|_| true) {}
    }

    fn drop_reply(&mut self, age: u64) {
        if let Some(kept) = self.replies.remove(&age) {
            self.size -= kept.reply.len() + OVERHEAD;
            self.reply_by_key.remove(&kept.key);
        }
    }

    /// Drops the oldest reply, if that is to be; tells whether it did.
    fn drop_oldest(&mut self, is_to_be: impl Fn(&Kept) -> bool) -> bool {
        let oldest = self.replies.iter().next().filter(|(_, kept)| is_to_be(kept)).map(|(age, _)| *age);
        oldest.map_or(false, |age| {
            self.drop_reply(age);
            true
        })
    }

    /// Drops what is too old.
    pub fn sweep(&mut self, now: Instant) {
        while self.drop_oldest(|kept| now.saturating_duration_since(kept.since) > KEPT_FOR) {}
        let lost = |calls: &BTreeMap<u64, Call>| {
            calls.iter().next().filter(|(_, call)| now.saturating_duration_since(call.since) > LOST_AFTER).map(|(ticket, _)| *ticket)
        };
        while let Some(ticket) = lost(&self.by_ticket) {
            self.answer(ticket, &[]);
        }
    }
}

#[cfg(test)]
mod tests {
    use super::*;
    use crate::rpc::tests::call;

    const ONE: Caller = Caller::Stream(1);

    fn address(port: u16) -> SocketAddr {
        ([127, 0, 0, 1], port).into()
    }

    fn ticket(taken: Taken) -> u64 {
        match taken {
            Taken::Call(frame) => crate::frames::long_number_at(&frame, 5).unwrap(),
            other => panic!("{other:?}"),
        }
    }

    #[test]
    fn a_call_that_comes_again() {
        let mut calls = Calls::default();
        let record = call(5, 100_003, 2, 1, &[1]);
        let first = ticket(calls.take(address(7), &record, ONE));
        assert_eq!(calls.take(address(7), &record, Caller::Stream(2)), Taken::Nothing);
        // other bytes, another address and the other protocol make other calls
        let others = [
            ticket(calls.take(address(8), &record, ONE)),
            ticket(calls.take(address(7), &record, Caller::Datagram(address(7)))),
            ticket(calls.take(address(7), &call(6, 100_003, 2, 1, &[1]), ONE)),
            ticket(calls.take(address(7), &call(5, 100_003, 2, 1, &[2]), ONE)),
        ];
        assert_eq!(calls.answer(first, b"reply"), Some(Caller::Stream(2)));
        assert_eq!(calls.answer(first, b"reply"), None);
        assert_eq!(calls.take(address(7), &record, ONE), Taken::Reply(b"reply"[..].into()));
        others.iter().for_each(|ticket| assert!(calls.answer(*ticket, b"x").is_some()));
        // the newest bytes of an xid count
        assert_eq!(calls.take(address(7), &call(5, 100_003, 2, 1, &[2]), ONE), Taken::Reply(b"x"[..].into()));
        assert!(calls.under_way.is_empty() && calls.by_key.is_empty() && calls.by_ticket.is_empty());
        assert_eq!(calls.replies.len(), calls.reply_by_key.len());
        calls.sweep(Instant::now() + 2 * KEPT_FOR);
        assert!(calls.replies.is_empty() && calls.reply_by_key.is_empty() && calls.size == 0);
    }

    #[test]
    fn limits() {
        let mut calls = Calls::default();
        for xid in 0..MOST_CALLS as u32 {
            assert!(calls.may_take(ONE, Share::All));
            calls.take(address(7), &call(xid, 1, 1, 1, &[]), ONE);
        }
        assert!(!calls.may_take(ONE, Share::All) && calls.may_take(Caller::Stream(2), Share::All));
        assert!((0..64).all(|_| calls.answer(calls.by_ticket.iter().next().map_or(0, |(ticket, _)| *ticket), b"").is_none()));
        assert!(calls.may_take(ONE, Share::All) && !calls.may_take(ONE, Share::ThreeQuarters));
        calls.sweep(Instant::now() + 2 * LOST_AFTER);
        assert!(calls.by_ticket.is_empty() && calls.may_take(ONE, Share::ThreeQuarters));
        for xid in 0..20 {
            let ticket = ticket(calls.take(address(7), &call(xid, 1, 1, 1, &[]), ONE));
            calls.answer(ticket, &vec![0; MOST_REPLIES / 10]);
        }
        assert!(calls.size <= MOST_REPLIES && calls.replies.len() == 9);
    }

    #[test]
    fn what_is_no_call_is_passed_over() {
        let record = call(5, 100_003, 2, 1, &[1]);
        let mut calls = Calls::default();
        assert!((0..40).all(|cut| calls.take(address(7), &record[..cut], ONE) == Taken::Nothing));
        assert_eq!(calls.ticket, 0);
    }
}
