//! The connections with other transports and with operators: those that are accepted, those that are dialed, and what goes to whom.
#![forbid(unsafe_code)]

use crate::connection::{Connection, Role};
use crate::dialer::Dialer;
use crate::frames::{framed, Frame, Hello, ASK_REPORT, HELLO, OPERATOR, RELAY, REPLICA};
use crate::inbox::{Inboxes, Source};
use crate::log::Log;
use crate::names::Names;
use crate::queue::Queue;
use crate::system;
use crate::wait::{Ready, Token, Waits, Watch};
use std::collections::{BTreeMap, HashMap};
use std::io::{self, ErrorKind, Read, Write};
use std::net::{IpAddr, SocketAddr, TcpListener, TcpStream};
use std::time::{Duration, Instant};

const MOST_KEPT: usize = 4 << 20; // bytes that wait for a replica that isn't connected
const MOST_ROOMS: usize = 4; // relays that get the replies to one client
const MOST_CLIENTS: u32 = 1 << 10;
const MOST_CONNECTIONS: usize = 256; // that were accepted
const MOST_ACCEPTED: usize = 32; // that are accepted at a time
const MOST_NEWS: usize = 8; // lines that are told at a time
const GREETING: Duration = Duration::from_secs(10); // that one has to say hello, or to take a connection
const LATE: Duration = Duration::from_secs(5); // after which one that isn't there is told of
const AGAIN: Duration = Duration::from_secs(1); // after which a filter that gave no report is asked again
const REST: Duration = Duration::from_millis(100); // for which nothing is accepted where that has failed

/// Another replica: its connection, or what is kept for the next one.
struct Peer {
    link: Option<u64>,
    kept: Queue,
    dialer: Option<Dialer>,
    attempts: usize,
}

/// All of them. `me` is a replica's number; a relay's has none.
pub struct Hub {
    me: Option<usize>,
    names: Names,
    hello: Hello,
    listener: Option<TcpListener>,
    watch: Watch, // of the listener
    accepts_after: Instant,
    connections: BTreeMap<u64, Connection>,
    last: u64, // number of a connection
    peers: Vec<Peer>,
    clients: HashMap<u32, Vec<u64>>, // the connections of the relays that speak for them
    asking: Vec<u64>,                // connections of operators
    asked: Option<Instant>,
    dirty: Vec<u64>,             // connections to which more is to be written
    told: BTreeMap<String, u64>, // whose connections
    begun: Option<Instant>,
}

impl Hub {
    pub fn new(me: Option<usize>, names: Names, hello: Hello, listener: Option<TcpListener>) -> Hub {
        let dials = |number| me.map_or(true, |me| number > me);
        let peer = |number| Peer { link: None, kept: Queue::default(), dialer: if dials(number) { Some(Dialer::new()) } else { None }, attempts: 0 };
        let now = Instant::now();
        Hub {
            me,
            hello,
            listener,
            watch: Watch::default(),
            accepts_after: now,
            connections: BTreeMap::new(),
            last: 0,
            peers: (0..names.count()).map(peer).collect(),
            names,
            clients: HashMap::new(),
            asking: Vec::new(),
            asked: None,
            dirty: Vec::new(),
            told: BTreeMap::new(),
            begun: Some(now),
        }
    }

    pub fn send_to_replicas(&mut self, frame: &Frame) {
        for number in 0..self.peers.len() as u64 {
            self.send_to_replica(number, frame); // to all but itself
        }
    }

    pub fn send_to_replica(&mut self, number: u64, frame: &Frame) {
        let number = usize::try_from(number).unwrap_or(usize::MAX);
        match self.peers.get_mut(number) {
            Some(Peer { link: Some(link), .. }) => {
                let link = *link;
                self.put(link, frame);
            }
            Some(peer) if Some(number) != self.me => peer.kept.put(frame.clone(), MOST_KEPT),
            _ => {}
        }
    }

    pub fn send_to_client(&mut self, number: u64, frame: &Frame) {
        let links = u32::try_from(number).ok().and_then(|number| self.clients.get(&number));
        for link in links.cloned().unwrap_or_default() {
            self.put(link, frame);
        }
    }

    /// Whoever asked gets this, and need not ask again.
    pub fn report(&mut self, frame: &Frame) {
        self.asked = None;
        for link in std::mem::take(&mut self.asking) {
            self.put(link, frame);
        }
    }

    fn put(&mut self, id: u64, frame: &Frame) {
        if let Some(connection) = self.connections.get_mut(&id) {
            connection.put(frame.clone());
            if !connection.is_dirty {
                connection.is_dirty = true;
                self.dirty.push(id);
            }
        }
    }

    /// Writes what waits in queues that have got more.
    pub fn flush(&mut self, inboxes: &mut Inboxes, log: &mut Log) {
        for id in std::mem::take(&mut self.dirty) {
            self.write(id, inboxes, log);
        }
    }

    fn write(&mut self, id: u64, inboxes: &mut Inboxes, log: &mut Log) {
        let connection = match self.connections.get_mut(&id) {
            Some(connection) => connection,
            None => return,
        };
        connection.is_dirty = false;
        let written = connection.queue.write(&mut connection.stream);
        if connection.queue.take_dropped() > 0 {
            log.tell(&format!("{} doesn't take what is sent to it: the oldest frames were dropped", connection.role.name()));
        }
        if written.is_err() {
            self.close(id, inboxes);
        }
    }

    /// Says what is waited for now.
    pub fn set_waits(&mut self, waits: &Waits, inboxes: &mut Inboxes) -> io::Result<()> {
        if let Some(listener) = &self.listener {
            waits.set(&mut self.watch, listener, Token::Listener, self.accepts_after <= Instant::now(), false)?;
        }
        let mut failed = Vec::new();
        for (id, connection) in &mut self.connections {
            let is_dialed = matches!(connection.role, Role::Dialed(_));
            let reads = !is_dialed && inboxes.waiting(connection.source(*id)) <= connection.most_waiting();
            let writes = is_dialed || !connection.queue.is_empty();
            if waits.set(&mut connection.watch, &connection.stream, Token::Connection(*id), reads, writes).is_err() {
                failed.push(*id);
            }
        }
        failed.into_iter().for_each(|id| self.close(id, inboxes));
        Ok(())
    }

    /// Does what may be done at a connection.
    pub fn ready(&mut self, id: u64, found: Ready, buffer: &mut [u8], inboxes: &mut Inboxes, log: &mut Log) {
        match self.connections.get(&id).map(|connection| connection.role) {
            None => {}
            Some(Role::Dialed(number)) => self.dialed(id, number, inboxes, log),
            Some(_) => {
                if found.writes {
                    self.write(id, inboxes, log);
                }
                if found.reads || found.is_broken {
                    self.read(id, buffer, inboxes, log);
                }
            }
        }
    }

    fn read(&mut self, id: u64, buffer: &mut [u8], inboxes: &mut Inboxes, log: &mut Log) {
        let connection = match self.connections.get_mut(&id) {
            Some(connection) => connection,
            None => return,
        };
        let count = match connection.stream.read(buffer) {
            Ok(count) => count,
            Err(fault) if matches!(fault.kind(), ErrorKind::WouldBlock | ErrorKind::Interrupted) => return,
            Err(_) => 0,
        };
        let came = buffer.get(..count).unwrap_or_default();
        if came.is_empty() {
            return self.close(id, inboxes);
        }
        connection.heard = Instant::now();
        let took = if connection.role == Role::Stranger { self.greeted(id, came, inboxes, log) } else { self.came(id, came, inboxes) };
        if let Err(why) = took {
            log.tell(&why);
            self.close(id, inboxes);
        }
    }

    /// Takes frames. Where one may not come from there, the error says so.
    fn came(&mut self, id: u64, bytes: &[u8], inboxes: &mut Inboxes) -> Result<(), String> {
        let connection = match self.connections.get_mut(&id) {
            Some(connection) => connection,
            None => return Ok(()),
        };
        let (role, source, is_put_out) = (connection.role, connection.source(id), connection.is_put_out);
        let mut asks = false;
        let put = |frames: &[u8], count| match role {
            Role::Operator => asks = true,
            _ => inboxes.put(source, frames, count),
        };
        let took = connection.came(bytes, put);
        took.map_err(|head| format!("{} sent a frame of kind {} and {} bytes: closed", role.name(), head.kind, head.length))?;
        match role {
            Role::Operator if asks => self.ask(id, inboxes),
            Role::Relay { first, count } if is_put_out => self.give_rooms(id, first, count),
            _ => {}
        }
        Ok(())
    }

    /// An operator asks for a report. Those that ask while none is given have one question.
    fn ask(&mut self, id: u64, inboxes: &mut Inboxes) {
        if !self.asking.contains(&id) {
            self.asking.push(id);
        }
        if self.asked.map_or(true, |asked| asked.elapsed() > AGAIN) {
            self.asked = Some(Instant::now());
            inboxes.put(Source::Operators, &framed(ASK_REPORT, &[]), 1);
        }
    }

    /// Takes bytes of one who hasn't said hello yet, and what stands behind the hello.
    fn greeted(&mut self, id: u64, bytes: &[u8], inboxes: &mut Inboxes, log: &mut Log) -> Result<(), String> {
        let connection = match self.connections.get_mut(&id) {
            Some(connection) => connection,
            None => return Ok(()),
        };
        let host = connection.host;
        // a part of a hello has few bytes, so little is copied
        let mut greeting = std::mem::take(&mut connection.greeting);
        greeting.extend_from_slice(bytes);
        if Hello::may_begin_with(&greeting) {
            connection.greeting = greeting;
            return Ok(());
        }
        let role = Hello::of(&greeting).and_then(|hello| self.role_of(hello, host, log));
        let role = role.ok_or_else(|| format!("{host} said no hello that counts here: closed"))?;
        self.take_place(id, role, inboxes, log);
        match greeting.get(HELLO..) {
            Some(frames) if !frames.is_empty() => self.came(id, frames, inboxes),
            _ => Ok(()),
        }
    }

    /// Who has said that hello, if it makes sense.
    fn role_of(&self, hello: Hello, host: IpAddr, log: &mut Log) -> Option<Role> {
        let Hello { role, first, count } = hello;
        let number = first as usize;
        match role {
            // it dials those of higher numbers; a stranger on another machine can't take its place
            REPLICA if count == 1 && self.me.map_or(false, |me| number < me) => {
                let may_be = self.names.may_be(number, host);
                if !may_be {
                    log.tell(&format!("{host} says that it is replica {number}, whose address is {}", self.names.text(number)));
                }
                may_be.then_some(Role::Replica(number))
            }
            RELAY if count > 0 && first.checked_add(count).map_or(false, |end| end <= MOST_CLIENTS) => Some(Role::Relay { first, count }),
            OPERATOR => Some(Role::Operator),
            _ => None,
        }
    }

    /// A connection is now one of that role.
    fn take_place(&mut self, id: u64, role: Role, inboxes: &mut Inboxes, log: &mut Log) {
        if let Role::Replica(number) = role {
            // the newest counts: the other side may have lost the old one
            if let Some(old) = self.peers.get(number).and_then(|peer| peer.link) {
                self.close(old, inboxes);
            }
        }
        let connection = match self.connections.get_mut(&id) {
            Some(connection) => connection,
            None => return,
        };
        connection.role = role;
        match role {
            Role::Replica(number) => {
                if let Some(peer) = self.peers.get_mut(number) {
                    peer.link = Some(id);
                    connection.queue = std::mem::take(&mut peer.kept);
                }
            }
            Role::Relay { first, count } => self.give_rooms(id, first, count),
            _ => {}
        }
        self.write(id, inboxes, log);
    }

    /// From now on a relay gets the replies to its clients. Where there are too many for one, the oldest of these gets no more until it sends something.
    fn give_rooms(&mut self, id: u64, first: u32, count: u32) {
        for client in first..first.saturating_add(count) {
            let links = self.clients.entry(client).or_default();
            links.retain(|link| *link != id);
            links.push(id);
            for old in links.drain(..links.len().saturating_sub(MOST_ROOMS)) {
                self.connections.entry(old).and_modify(|connection| connection.is_put_out = true);
            }
        }
        self.connections.entry(id).and_modify(|connection| connection.is_put_out = false);
    }

    /// Ends a connection, if it is there.
    fn close(&mut self, id: u64, inboxes: &mut Inboxes) {
        let connection = match self.connections.remove(&id) {
            Some(connection) => connection,
            None => return,
        };
        match connection.role {
            Role::Dialed(number) | Role::Replica(number) => self.lost_replica(id, number, connection),
            Role::Relay { first, count } => {
                for client in first..first.saturating_add(count) {
                    let links = self.clients.get_mut(&client);
                    if links.map_or(false, |links| {
                        links.retain(|link| *link != id);
                        links.is_empty()
                    }) {
                        self.clients.remove(&client);
                    }
                }
                inboxes.forget(Source::Relay(id));
            }
            Role::Operator => self.asking.retain(|other| *other != id),
            Role::Stranger => {}
        }
    }

    fn lost_replica(&mut self, id: u64, number: usize, connection: Connection) {
        let Connection { role, mut queue, since, is_dialed, .. } = connection;
        let peer = match self.peers.get_mut(number) {
            Some(peer) => peer,
            None => return,
        };
        if peer.link == Some(id) {
            peer.link = None;
            queue.begin_anew();
            queue.keep(MOST_KEPT);
            peer.kept = queue;
        }
        if let Some(dialer) = peer.dialer.as_mut().filter(|_| is_dialed) {
            dialer.ended(if role == Role::Replica(number) { Some(since.elapsed()) } else { None });
        }
    }

    /// Accepts those that wait.
    pub fn accept(&mut self, inboxes: &mut Inboxes) {
        for _ in 0..MOST_ACCEPTED {
            let accepted = match &self.listener {
                Some(listener) => listener.accept(),
                None => return,
            };
            match accepted {
                Ok((stream, address)) => {
                    if self.connections.values().filter(|connection| !connection.is_dialed).count() >= MOST_CONNECTIONS {
                        self.make_room(inboxes);
                    }
                    system::tune(&stream);
                    if stream.set_nonblocking(true).is_ok() {
                        self.add(stream, address.ip(), Role::Stranger);
                    }
                }
                Err(fault) if fault.kind() == ErrorKind::WouldBlock => return,
                Err(fault) if matches!(fault.kind(), ErrorKind::Interrupted | ErrorKind::ConnectionAborted) => {}
                Err(_) => {
                    // there are too many files, or there is too little memory
                    self.make_room(inboxes);
                    self.accepts_after = Instant::now() + REST;
                    return;
                }
            }
        }
    }

    fn add(&mut self, stream: TcpStream, host: IpAddr, role: Role) -> u64 {
        self.last += 1;
        self.connections.insert(self.last, Connection::new(stream, host, role));
        self.last
    }

    /// Closes the connection of a relay, an operator or a stranger that was silent for the longest time.
    fn make_room(&mut self, inboxes: &mut Inboxes) {
        let others = self.connections.iter().filter(|(_, connection)| !matches!(connection.role, Role::Replica(_) | Role::Dialed(_)));
        if let Some(silent) = others.min_by_key(|(_, connection)| connection.heard).map(|(id, _)| *id) {
            self.close(silent, inboxes);
        }
    }

    /// Begins the connections that are due.
    pub fn dial(&mut self, now: Instant) {
        for number in 0..self.peers.len() {
            if Some(number) == self.me {
                continue;
            }
            let Hub { me, names, peers, .. } = self;
            let peer = match peers.get_mut(number) {
                Some(peer) => peer,
                None => continue,
            };
            if !peer.dialer.as_mut().map_or(false, |dialer| dialer.is_due(now)) {
                continue;
            }
            let found = names.of(number);
            let to = found.get(peer.attempts % found.len().max(1)).copied();
            peer.attempts = peer.attempts.wrapping_add(1);
            let begun = to.and_then(|to| Some((system::begin_connection(&to, comes_from(names, *me, &to)).ok()?, to.ip())));
            match begun {
                Some((stream, host)) => drop(self.add(stream, host, Role::Dialed(number))),
                None => peer.dialer.iter_mut().for_each(|dialer| dialer.ended(None)),
            }
        }
    }

    /// What was dialed is connected, or can't be.
    fn dialed(&mut self, id: u64, number: usize, inboxes: &mut Inboxes, log: &mut Log) {
        let hello = self.hello.bytes();
        let connection = match self.connections.get_mut(&id) {
            Some(connection) => connection,
            None => return,
        };
        let stream = &mut connection.stream;
        let is_connected = matches!(stream.take_error(), Ok(None)) && stream.peer_addr().is_ok();
        system::tune(stream);
        // it is the first that is written, so all of it is taken
        if is_connected && matches!(stream.write(&hello), Ok(HELLO)) {
            self.take_place(id, Role::Replica(number), inboxes, log);
        } else {
            self.close(id, inboxes);
        }
    }

    /// Closes what is too late, and tells what is new.
    pub fn look(&mut self, inboxes: &mut Inboxes, log: &mut Log) {
        self.names.refresh();
        let is_late = |connection: &Connection| matches!(connection.role, Role::Stranger | Role::Dialed(_)) && connection.since.elapsed() > GREETING;
        let late: Vec<u64> = self.connections.iter().filter(|(_, connection)| is_late(connection)).map(|(id, _)| *id).collect();
        late.into_iter().for_each(|id| self.close(id, inboxes));
        self.tell_news(log);
        if self.begun.map_or(false, |begun| begun.elapsed() > LATE) {
            self.begun = None;
            for number in (0..self.peers.len()).filter(|number| Some(*number) != self.me) {
                if self.peers.get(number).map_or(false, |peer| peer.link.is_none()) {
                    log.news(&format!("replica {number} is not connected yet"));
                }
            }
        }
    }

    /// Tells who is connected now and wasn't, and who was: a few, and once in a while, so that nobody fills the log.
    fn tell_news(&mut self, log: &Log) {
        let named = |role| matches!(role, Role::Replica(_) | Role::Relay { .. });
        let of_name = self.connections.iter().filter(|(_, connection)| named(connection.role));
        let now: BTreeMap<String, u64> = of_name.map(|(id, connection)| (connection.role.name(), *id)).collect();
        let gone: Vec<String> = self.told.keys().filter(|name| !now.contains_key(*name)).take(MOST_NEWS).cloned().collect();
        for name in gone {
            log.news(&format!("{name} is gone"));
            self.told.remove(&name);
        }
        let new: Vec<(String, u64)> = now.into_iter().filter(|(name, id)| self.told.get(name) != Some(id)).take(MOST_NEWS).collect();
        for (name, id) in new {
            log.news(&format!("{name} is connected"));
            self.told.insert(name, id);
        }
    }
}

/// A replica dials from its own address, by which the others know it.
fn comes_from(names: &Names, me: Option<usize>, to: &SocketAddr) -> Option<SocketAddr> {
    let own = names.of(me?).iter().find(|own| own.is_ipv4() == to.is_ipv4() && !own.ip().is_unspecified())?;
    Some(SocketAddr::new(own.ip(), 0))
}
