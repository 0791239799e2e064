//! Filters without cryptography and files, which show what transports take: as `fake_replica` PBFT's normal case with replica 0 as the primary, as
//! `fake_relay` a relay that takes what f + 1 replicas answered. The reply to any call is zeros where NFS has attributes.
use std::collections::{BTreeMap, HashMap, HashSet, VecDeque};
use std::io::{self, Read, Write};

const REQUEST: u8 = 1;
const ORDER: u8 = 2;
const REPLY: u8 = 5;
const CALL: u8 = 11;
const ANSWER: u8 = 12;
const LOG: u8 = 13;
const AGAIN: u64 = 300_000; // microseconds after which a request is sent again
const RESULT: usize = 104; // bytes of a result: a status, a file handle and attributes

fn word(bytes: &[u8], at: usize) -> u32 {
    u32::from_be_bytes(bytes[at..at + 4].try_into().unwrap())
}

fn long(bytes: &[u8], at: usize) -> u64 {
    u64::from_be_bytes(bytes[at..at + 8].try_into().unwrap())
}

/// What is written at the end of a turn.
#[derive(Default)]
struct Out {
    count: u32,
    bytes: Vec<u8>,
}

impl Out {
    fn put(&mut self, to: u8, number: u64, kind: u8, parts: &[&[u8]]) {
        let length: usize = parts.iter().map(|part| part.len()).sum();
        self.count += 1;
        self.bytes.push(to);
        self.bytes.extend_from_slice(&number.to_be_bytes());
        self.bytes.push(kind);
        self.bytes.extend_from_slice(&(length as u32).to_be_bytes());
        parts.iter().for_each(|part| self.bytes.extend_from_slice(part));
    }
}

trait Filter {
    fn take(&mut self, kind: u8, payload: &[u8], out: &mut Out);
    fn end(&mut self, now: u64, out: &mut Out);
}

/// Gives turns to a filter until the input ends.
fn serve(mut filter: impl Filter, name: &str) -> io::Result<()> {
    let (mut input, mut output) = (io::BufReader::with_capacity(1 << 18, io::stdin()), io::stdout());
    let (mut head, mut payload, mut out) = ([0; 12], Vec::new(), Out::default());
    out.put(3, 0, LOG, &[format!("a {name} begins").as_bytes()]);
    while input.read_exact(&mut head).is_ok() {
        for _ in 0..word(&head, 8) {
            let mut head = [0; 5];
            input.read_exact(&mut head)?;
            payload.resize(word(&head, 1) as usize, 0);
            input.read_exact(&mut payload)?;
            filter.take(head[0], &payload, &mut out);
        }
        filter.end(u64::from(word(&head, 0)) * 1_000_000 + u64::from(word(&head, 4)), &mut out);
        let Out { count, bytes } = std::mem::take(&mut out);
        output.write_all(&[&count.to_be_bytes()[..], &bytes].concat())?;
        output.flush()?;
    }
    Ok(())
}

#[derive(Default)]
struct Replica {
    me: u32,
    faults: usize,
    waiting: BTreeMap<(u32, u64), Vec<u8>>,
    done: HashMap<u32, (u64, Vec<u8>)>,
    batches: HashMap<u64, Vec<Vec<u8>>>,
    prepared: HashMap<u64, HashSet<u32>>,
    committed: HashMap<u64, HashSet<u32>>,
    said: HashSet<u64>,
    proposed: u64,
    last: u64,
}

impl Replica {
    fn tell(&self, step: u8, number: u64, batch: &[u8], out: &mut Out) {
        out.put(0, 0, ORDER, &[&[step], &number.to_be_bytes(), &self.me.to_be_bytes(), batch]);
    }

    fn order(&mut self, payload: &[u8], out: &mut Out) {
        let (step, number, sender) = (payload[0], long(payload, 1), word(payload, 9));
        if number <= self.last || number > self.last + 64 {
            return;
        }
        match step {
            b'P' if sender == 0 && !self.batches.contains_key(&number) => {
                let (mut batch, mut at) = (Vec::new(), 13);
                while at < payload.len() {
                    let end = at + 4 + word(payload, at) as usize;
                    batch.push(payload[at + 4..end].to_vec());
                    at = end;
                }
                self.batches.insert(number, batch);
                self.prepared.entry(number).or_default().insert(self.me);
                self.tell(b'p', number, &[], out);
            }
            b'p' => drop(self.prepared.entry(number).or_default().insert(sender)),
            b'c' => drop(self.committed.entry(number).or_default().insert(sender)),
            _ => {}
        }
        self.commit(number, out);
    }

    fn commit(&mut self, number: u64, out: &mut Out) {
        let prepared = self.prepared.get(&number).map_or(0, |prepared| prepared.len());
        if self.batches.contains_key(&number) && prepared >= 2 * self.faults && self.said.insert(number) {
            self.committed.entry(number).or_default().insert(self.me);
            self.tell(b'c', number, &[], out);
        }
    }

    fn execute(&mut self, out: &mut Out) {
        while self.said.contains(&(self.last + 1)) && self.committed.get(&(self.last + 1)).map_or(0, |committed| committed.len()) > 2 * self.faults {
            self.last += 1;
            for request in self.batches.remove(&self.last).unwrap_or_default() {
                let (client, timestamp) = (word(&request, 0), long(&request, 4));
                self.waiting.remove(&(client, timestamp));
                if self.done.get(&client).map_or(false, |(done, _)| *done >= timestamp) {
                    continue;
                }
                let mut reply = [&request[..12], &self.me.to_be_bytes(), &request[12..16], &[0, 0, 0, 1], &[0; 16], &[0; RESULT]].concat();
                reply.truncate(16 + 24 + RESULT);
                out.put(2, client.into(), REPLY, &[&reply]);
                self.done.insert(client, (timestamp, reply));
            }
            self.prepared.remove(&self.last);
            self.committed.remove(&self.last);
            self.said.remove(&self.last);
        }
    }

    fn propose(&mut self, out: &mut Out) -> bool {
        if self.me != 0 || self.waiting.is_empty() || self.last != self.proposed {
            return false;
        }
        self.proposed += 1;
        let batch: Vec<Vec<u8>> = self.waiting.values().cloned().collect();
        let parts: Vec<u8> = batch.iter().flat_map(|request| [&(request.len() as u32).to_be_bytes()[..], request].concat()).collect();
        self.batches.insert(self.proposed, batch);
        self.tell(b'P', self.proposed, &parts, out);
        self.commit(self.proposed, out); // where it is alone
        true
    }
}

impl Filter for Replica {
    fn take(&mut self, kind: u8, payload: &[u8], out: &mut Out) {
        if kind == REQUEST && payload.len() > 16 {
            let (client, timestamp) = (word(payload, 0), long(payload, 4));
            match self.done.get(&client) {
                Some((done, reply)) if *done == timestamp => out.put(2, client.into(), REPLY, &[reply]),
                Some((done, _)) if *done > timestamp => {}
                _ => drop(self.waiting.insert((client, timestamp), payload.to_vec())),
            }
        } else if kind == ORDER && payload.len() >= 13 {
            self.order(payload, out);
        }
    }

    fn end(&mut self, _now: u64, out: &mut Out) {
        self.execute(out);
        while self.propose(out) {
            self.execute(out);
        }
    }
}

/// A call that is under way: its ticket, its request, when that was sent, and who answered what.
struct Waits {
    timestamp: u64,
    ticket: u64,
    request: Vec<u8>,
    sent: u64,
    said: HashMap<Vec<u8>, HashSet<u32>>,
}

struct Relay {
    faults: usize,
    free: Vec<u32>,
    calls: VecDeque<(u64, Vec<u8>)>,
    waits: HashMap<u32, Waits>,
    timestamp: u64,
}

impl Filter for Relay {
    fn take(&mut self, kind: u8, payload: &[u8], out: &mut Out) {
        if kind == CALL {
            self.calls.push_back((long(payload, 0), payload[8..].to_vec()));
            return;
        }
        let (client, timestamp, sender) = (word(payload, 0), long(payload, 4), word(payload, 12));
        if let Some(waits) = self.waits.get_mut(&client).filter(|waits| waits.timestamp == timestamp) {
            let said = waits.said.entry(payload[16..].to_vec()).or_default();
            said.insert(sender);
            if said.len() > self.faults {
                out.put(4, waits.ticket, ANSWER, &[&waits.ticket.to_be_bytes(), &payload[16..]]);
                self.waits.remove(&client);
                self.free.push(client);
            }
        }
    }

    fn end(&mut self, now: u64, out: &mut Out) {
        while !self.free.is_empty() && !self.calls.is_empty() {
            if let (Some(client), Some((ticket, call))) = (self.free.pop(), self.calls.pop_front()) {
                self.timestamp = now.max(self.timestamp + 1);
                let request = [&client.to_be_bytes()[..], &self.timestamp.to_be_bytes(), &call].concat();
                out.put(0, 0, REQUEST, &[&request]);
                self.waits.insert(client, Waits { timestamp: self.timestamp, ticket, request, sent: now, said: HashMap::new() });
            }
        }
        for waits in self.waits.values_mut().filter(|waits| now > waits.sent + AGAIN) {
            waits.sent = now;
            out.put(0, 0, REQUEST, &[&waits.request]);
        }
    }
}

/// The number behind that name in a document.
fn number(path: &str, name: &str) -> u32 {
    let text = std::fs::read_to_string(path).unwrap();
    let digits = text.split(&format!("{name} = ")).nth(1).unwrap();
    digits.chars().take_while(char::is_ascii_digit).collect::<String>().parse().unwrap()
}

fn main() -> io::Result<()> {
    let words: Vec<String> = std::env::args().collect();
    let faults = number(&words[1], "f") as usize;
    if words[0].ends_with("fake_replica") {
        return serve(Replica { me: number(&words[2], "replica"), faults, ..Replica::default() }, "fake replica");
    }
    let front = if words[3] == "--key" { 6 } else { 3 };
    let first = number(&words[front], "client");
    let free = (first..first + (words.len() - front) as u32).collect();
    serve(Relay { faults, free, calls: VecDeque::new(), waits: HashMap::new(), timestamp: 0 }, "fake relay")
}
