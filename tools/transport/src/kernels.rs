//! Where kernels call: streams of records and datagrams, for NFS and MOUNT, and for the port mapper where there is one.
#![forbid(unsafe_code)]

use crate::calls::{Caller, Calls, Share, Taken};
use crate::inbox::{Inboxes, Source};
use crate::portmap::{self, Ports};
use crate::rpc::{mark_of, Records, MOST_RECORD};
use crate::system;
use crate::wait::{Ready, Token, Waits, Watch};
use std::collections::{BTreeMap, VecDeque};
use std::io::{ErrorKind, Read, Result, Write};
use std::net::{SocketAddr, TcpListener, TcpStream, UdpSocket};
use std::time::{Duration, Instant};

const MOST_STREAMS: usize = 1_024;
const MOST_AT_A_TIME: usize = 64; // streams that are accepted, and datagrams that are read
const MOST_UNREAD: usize = 256 << 10; // bytes of replies that a caller may leave unread until no more calls of it are taken
const MOST_READ: usize = 64 << 10; // bytes that are read of a stream at a time, and may wait there
const REST: Duration = Duration::from_millis(100); // for which nothing is accepted where that has failed

/// What is served at an address.
#[derive(Clone, Copy, Debug, PartialEq, Eq)]
pub enum Service {
    Files,
    PortMapper,
}

/// An address at which calls come.
struct Door {
    service: Service,
    listener: TcpListener,
    datagrams: UdpSocket,
    watches: (Watch, Watch), // of both
}

/// A connection of a kernel.
struct Stream {
    stream: TcpStream,
    address: SocketAddr,
    service: Service,
    records: Records,
    replies: Vec<u8>,
    written: usize, // bytes of these
    is_paused: bool,
    is_dirty: bool,
    heard: Instant,
    watch: Watch,
}

impl Stream {
    fn new(stream: TcpStream, address: SocketAddr, service: Service) -> Stream {
        Stream {
            stream,
            address,
            service,
            records: Records::default(),
            replies: Vec::new(),
            written: 0,
            is_paused: false,
            is_dirty: false,
            heard: Instant::now(),
            watch: Watch::default(),
        }
    }

    /// Whether it reads its replies.
    fn reads(&self) -> bool {
        self.replies.len() - self.written < MOST_UNREAD
    }

    fn write(&mut self) -> Result<()> {
        while let Some(unsent) = self.replies.get(self.written..).filter(|unsent| !unsent.is_empty()) {
            match self.stream.write(unsent) {
                Ok(0) => return Err(ErrorKind::WriteZero.into()),
                Ok(written) => self.written += written,
                Err(fault) if fault.kind() == ErrorKind::WouldBlock => {
                    if self.written >= MOST_UNREAD {
                        self.replies.drain(..self.written);
                        self.written = 0;
                    }
                    return Ok(());
                }
                Err(fault) if fault.kind() == ErrorKind::Interrupted => {}
                Err(fault) => return Err(fault),
            }
        }
        self.replies.clear();
        self.replies.shrink_to(MOST_UNREAD);
        self.written = 0;
        Ok(())
    }
}

fn put_record(replies: &mut Vec<u8>, reply: &[u8]) {
    replies.extend_from_slice(&mark_of(reply));
    replies.extend_from_slice(reply);
}

/// All streams and datagrams, and the calls that came by them.
pub struct Kernels {
    ports: Ports,
    doors: Vec<Door>,
    streams: BTreeMap<u64, Stream>,
    last: u64, // number of a stream
    calls: Calls,
    paused: VecDeque<u64>, // the one that has waited for the longest time first
    dirty: Vec<u64>,       // streams that have more replies
    changed: Vec<u64>,     // those of which something else may be wanted now
    accepts_after: Instant,
}

impl Kernels {
    pub fn new(ports: Ports) -> Kernels {
        let (streams, calls) = (BTreeMap::new(), Calls::default());
        Kernels {
            ports,
            doors: Vec::new(),
            streams,
            last: 0,
            calls,
            paused: VecDeque::new(),
            dirty: Vec::new(),
            changed: Vec::new(),
            accepts_after: Instant::now(),
        }
    }

    /// Listens at that address.
    pub fn open(&mut self, address: &str, service: Service) -> Result<()> {
        let (listener, datagrams) = (TcpListener::bind(address)?, UdpSocket::bind(address)?);
        listener.set_nonblocking(true)?;
        datagrams.set_nonblocking(true)?;
        self.doors.push(Door { service, listener, datagrams, watches: Default::default() });
        Ok(())
    }

    /// Says what is waited for now.
    pub fn set_waits(&mut self, waits: &Waits) -> Result<()> {
        let accepts = self.accepts_after <= Instant::now();
        for (place, door) in self.doors.iter_mut().enumerate() {
            waits.set(&mut door.watches.0, &door.listener, Token::Door(place), accepts, false)?;
            waits.set(&mut door.watches.1, &door.datagrams, Token::Datagrams(place), true, false)?;
        }
        for id in std::mem::take(&mut self.changed) {
            if let Some(stream) = self.streams.get_mut(&id) {
                let (reads, writes) = (!stream.is_paused, stream.written < stream.replies.len());
                if waits.set(&mut stream.watch, &stream.stream, Token::Stream(id), reads, writes).is_err() {
                    self.close(id);
                }
            }
        }
        Ok(())
    }

    /// Does what may be done at a stream.
    pub fn ready(&mut self, id: u64, found: Ready, buffer: &mut [u8], inboxes: &mut Inboxes) {
        if found.writes {
            self.write(id);
            self.go_on(inboxes);
        }
        if found.reads || found.is_broken {
            self.read(id, found.is_broken, buffer, inboxes);
        }
    }

    /// Accepts those that wait at a door.
    pub fn accept(&mut self, place: usize) {
        for _ in 0..MOST_AT_A_TIME {
            let (accepted, service) = match self.doors.get(place) {
                Some(door) => (door.listener.accept(), door.service),
                None => return,
            };
            match accepted {
                Ok((stream, address)) => {
                    if self.streams.len() >= MOST_STREAMS {
                        self.make_room();
                    }
                    system::tune(&stream);
                    if stream.set_nonblocking(true).is_ok() {
                        self.last += 1;
                        self.streams.insert(self.last, Stream::new(stream, address, service));
                        self.changed.push(self.last);
                    }
                }
                Err(fault) if fault.kind() == ErrorKind::WouldBlock => return,
                Err(fault) if matches!(fault.kind(), ErrorKind::Interrupted | ErrorKind::ConnectionAborted) => {}
                Err(_) => {
                    // there are too many files, or there is too little memory
                    self.make_room();
                    self.accepts_after = Instant::now() + REST;
                    return;
                }
            }
        }
    }

    /// Closes the stream that was silent for the longest time. A kernel connects again.
    fn make_room(&mut self) {
        if let Some(silent) = self.streams.iter().min_by_key(|(_, stream)| stream.heard).map(|(id, _)| *id) {
            self.close(silent);
        }
    }

    fn close(&mut self, id: u64) {
        if self.streams.remove(&id).map_or(false, |stream| stream.is_paused) {
            self.paused.retain(|other| *other != id);
        }
    }

    fn may_take(&self, id: u64, share: Share) -> bool {
        self.streams
            .get(&id)
            .map_or(false, |stream| stream.reads() && (stream.service == Service::PortMapper || self.calls.may_take(Caller::Stream(id), share)))
    }

    fn read(&mut self, id: u64, is_broken: bool, buffer: &mut [u8], inboxes: &mut Inboxes) {
        if !self.may_take(id, Share::All) {
            // whoever is gone needs no reply
            return if is_broken { self.close(id) } else { self.pause(id) };
        }
        let stream = match self.streams.get_mut(&id) {
            Some(stream) => stream,
            None => return,
        };
        let most = buffer.len().min(MOST_READ);
        let count = match stream.stream.read(buffer.get_mut(..most).unwrap_or_default()) {
            Ok(count) => count,
            Err(fault) if matches!(fault.kind(), ErrorKind::WouldBlock | ErrorKind::Interrupted) => return,
            Err(_) => 0,
        };
        match buffer.get(..count) {
            Some(came) if count > 0 => {
                stream.heard = Instant::now();
                self.take_records(id, came, inboxes);
            }
            _ => self.close(id),
        }
    }

    /// Takes what came, while calls may be taken. What is no record of a call closes the connection.
    fn take_records(&mut self, id: u64, came: &[u8], inboxes: &mut Inboxes) {
        let Kernels { streams, calls, ports, .. } = self;
        let Stream { records, address, service, replies, written, .. } = match streams.get_mut(&id) {
            Some(stream) => stream,
            None => return,
        };
        let fed = match service {
            Service::PortMapper => records.feed(came, |record| {
                portmap::answer(record, *ports).iter().for_each(|reply| put_record(replies, reply));
                replies.len() - *written < MOST_UNREAD
            }),
            Service::Files => records.feed(came, |record| {
                match calls.take(*address, record, Caller::Stream(id)) {
                    Taken::Nothing => {}
                    Taken::Call(frame) => inboxes.put(Source::Kernels, &frame, 1),
                    Taken::Reply(reply) => put_record(replies, &reply),
                }
                replies.len() - *written < MOST_UNREAD && calls.may_take(Caller::Stream(id), Share::All)
            }),
        };
        if fed.is_err() {
            return self.close(id);
        }
        self.write(id);
        if !self.may_take(id, Share::All) {
            self.pause(id);
        }
    }

    fn pause(&mut self, id: u64) {
        if let Some(stream) = self.streams.get_mut(&id).filter(|stream| !stream.is_paused) {
            stream.is_paused = true;
            self.paused.push_back(id);
            self.changed.push(id);
        }
    }

    /// Has streams go on of which more calls may be taken by now.
    pub fn go_on(&mut self, inboxes: &mut Inboxes) {
        for _ in 0..self.paused.len() {
            let id = match self.paused.pop_front() {
                Some(id) => id,
                None => return,
            };
            if !self.may_take(id, Share::ThreeQuarters) {
                self.paused.push_back(id);
                continue;
            }
            if let Some(stream) = self.streams.get_mut(&id) {
                stream.is_paused = false;
                self.changed.push(id);
            }
            self.take_records(id, &[], inboxes);
        }
    }

    fn write(&mut self, id: u64) {
        let stream = match self.streams.get_mut(&id) {
            Some(stream) => stream,
            None => return,
        };
        stream.is_dirty = false;
        self.changed.push(id);
        if stream.write().is_err() {
            self.close(id);
        }
    }

    /// Takes calls that were sent as datagrams.
    pub fn read_datagrams(&mut self, place: usize, buffer: &mut [u8], inboxes: &mut Inboxes) {
        let Kernels { doors, calls, ports, .. } = self;
        let Door { service, datagrams, .. } = match doors.get(place) {
            Some(door) => door,
            None => return,
        };
        for _ in 0..MOST_AT_A_TIME {
            let (count, address) = match datagrams.recv_from(buffer) {
                Ok(found) => found,
                Err(fault) if fault.kind() == ErrorKind::WouldBlock => return,
                Err(_) => continue, // what came of one that was sent before
            };
            let caller = Caller::Datagram(address);
            let record = match buffer.get(..count) {
                Some(record) if count <= MOST_RECORD => record,
                _ => continue,
            };
            // where a datagram can't be sent, it is lost, and the caller asks again
            match service {
                Service::PortMapper => drop(portmap::answer(record, *ports).map(|reply| datagrams.send_to(&reply, address))),
                Service::Files if calls.may_take(caller, Share::All) => match calls.take(address, record, caller) {
                    Taken::Nothing => {}
                    Taken::Call(frame) => inboxes.put(Source::Kernels, &frame, 1),
                    Taken::Reply(reply) => drop(datagrams.send_to(&reply, address)),
                },
                Service::Files => {}
            }
        }
    }

    /// The reply to the call of that ticket.
    pub fn answer(&mut self, ticket: u64, reply: &[u8]) {
        match self.calls.answer(ticket, reply) {
            Some(Caller::Datagram(address)) => {
                if let Some(door) = self.doors.iter().find(|door| door.service == Service::Files) {
                    let _ = door.datagrams.send_to(reply, address);
                }
            }
            Some(Caller::Stream(id)) => {
                if let Some(stream) = self.streams.get_mut(&id) {
                    put_record(&mut stream.replies, reply);
                    if !stream.is_dirty {
                        stream.is_dirty = true;
                        self.dirty.push(id);
                    }
                }
            }
            None => {}
        }
    }

    /// Writes the replies that streams have got, and takes the calls that may be taken then.
    pub fn flush(&mut self, inboxes: &mut Inboxes) {
        for id in std::mem::take(&mut self.dirty) {
            self.write(id);
        }
        self.go_on(inboxes);
    }

    pub fn sweep(&mut self, inboxes: &mut Inboxes) {
        self.calls.sweep(Instant::now());
        self.go_on(inboxes);
    }
}
