//! A transport: it waits for what comes, gives its filter turns, and brings its answers to whom they are for.
#![forbid(unsafe_code)]

use crate::answers::{Parcel, To};
use crate::filter::{Came, Filter};
use crate::frames::{framed, Frame, ANSWER, HEAD, LOG, MOST_FRAME, REPORT, TICKET};
use crate::hub::Hub;
use crate::inbox::Inboxes;
use crate::kernels::Kernels;
use crate::log::{printable, Log};
use crate::system;
use crate::wait::{Ready, Token, Waits, Watch};
use std::io::{self, Read};
use std::time::{Duration, Instant};

const TICK: Duration = Duration::from_millis(100); // after which a filter gets a turn where nothing has come
const LOOK: Duration = Duration::from_millis(500); // between two looks at what has changed, or is too old
const BUFFER: usize = 256 << 10; // bytes that are read at a time
pub const STOPPED: u8 = 0; // statuses
pub const FAILED: u8 = 3;

/// The one transport of a process.
pub struct Transport {
    log: Log,
    filter: Filter,
    inboxes: Inboxes,
    hub: Hub,
    kernels: Option<Kernels>, // a relay's
    ends_with_parent: bool,
    waits: Waits,
    parent: Watch,
    input: Watch, // of the filter
    output: Watch,
    buffer: Vec<u8>,
    parcels: Vec<Parcel>,
    next_tick: Instant,
    next_look: Instant,
    is_due: bool, // a turn
}

impl Transport {
    pub fn new(log: Log, filter: Filter, hub: Hub, kernels: Option<Kernels>, ends_with_parent: bool, waits: Waits) -> Transport {
        let now = Instant::now();
        Transport {
            log,
            filter,
            inboxes: Inboxes::default(),
            hub,
            kernels,
            ends_with_parent,
            waits,
            parent: Watch::default(),
            input: Watch::default(),
            output: Watch::default(),
            buffer: vec![0; BUFFER],
            parcels: Vec::new(),
            next_tick: now + TICK,
            next_look: now,
            is_due: false,
        }
    }

    /// Runs until it is told to end, or its filter ends; gives the status.
    pub fn run(mut self) -> u8 {
        let status = loop {
            if let Some(status) = self.step() {
                break status;
            }
        };
        self.end_filter(false);
        status
    }

    /// One round. It gives the status where this was the last one.
    fn step(&mut self) -> Option<u8> {
        self.keep_time();
        if !self.filter.is_busy() && (self.is_due || !self.inboxes.is_empty()) {
            self.is_due = false;
            if self.filter.begin_turn(&mut self.inboxes).is_err() {
                return Some(self.failed(None));
            }
        }
        let count = match self.wait() {
            Ok(count) => count,
            Err(fault) => {
                self.log.news(&format!("it can't wait: {fault}"));
                return Some(FAILED);
            }
        };
        if system::is_told_to_end() {
            return Some(STOPPED);
        }
        (0..count).find_map(|place| {
            let (token, found) = self.waits.at(place)?;
            self.ready(token, found)
        })
    }

    /// Does what is due by the clock.
    fn keep_time(&mut self) {
        let now = Instant::now();
        if now >= self.next_tick {
            self.next_tick = now + TICK;
            self.is_due = true;
        }
        self.hub.dial(now);
        if now >= self.next_look {
            self.next_look = now + LOOK;
            self.hub.look(&mut self.inboxes, &mut self.log);
            if let Some(kernels) = &mut self.kernels {
                kernels.sweep(&mut self.inboxes);
            }
            if self.filter.is_stuck() {
                self.log.tell("its filter takes long for a turn");
            }
        }
    }

    /// Waits until something has come, or a tick is due; tells at how many places.
    fn wait(&mut self) -> io::Result<usize> {
        let Transport { filter, waits, hub, kernels, inboxes, .. } = self;
        waits.set(&mut self.output, &filter.out, Token::FilterOutput, true, false)?;
        let has_unsent = filter.has_unsent();
        if let Some(into) = &filter.into {
            waits.set(&mut self.input, into, Token::FilterInput, false, has_unsent)?;
        }
        if self.ends_with_parent {
            waits.set(&mut self.parent, &io::stdin(), Token::Parent, true, false)?;
        }
        hub.set_waits(waits, inboxes)?;
        if let Some(kernels) = kernels {
            kernels.set_waits(waits)?;
        }
        waits.wait(self.next_tick.saturating_duration_since(Instant::now()))
    }

    fn ready(&mut self, token: Token, found: Ready) -> Option<u8> {
        let Transport { hub, kernels, inboxes, log, buffer, .. } = self;
        match (token, kernels) {
            (Token::Parent, _) => return self.parent_ended().then_some(STOPPED),
            // where it reads no more, it has no more turns
            (Token::FilterInput, _) => return if self.filter.send().is_err() || found.is_broken { Some(self.failed(None)) } else { None },
            (Token::FilterOutput, _) => return self.take_answer(),
            (Token::Listener, _) => hub.accept(inboxes),
            (Token::Connection(id), _) => hub.ready(id, found, buffer, inboxes, log),
            (Token::Door(place), Some(kernels)) => kernels.accept(place),
            (Token::Datagrams(place), Some(kernels)) => kernels.read_datagrams(place, buffer, inboxes),
            (Token::Stream(id), Some(kernels)) => kernels.ready(id, found, buffer, inboxes),
            (_, None) => {}
        }
        None
    }

    fn parent_ended(&mut self) -> bool {
        let mut words = [0; 256];
        !matches!(io::stdin().read(&mut words), Ok(count) if count > 0)
    }

    /// Takes what the filter has written, and brings its parcels to whom they are for.
    fn take_answer(&mut self) -> Option<u8> {
        let mut parcels = std::mem::take(&mut self.parcels);
        let came = self.filter.read(&mut self.buffer, &mut parcels);
        self.hand_out_all(parcels);
        match came {
            Came::Nothing | Came::Some => None,
            Came::End => Some(self.failed(None)),
            Came::Rubbish => Some(self.failed(Some("what it writes is no answer"))),
        }
    }

    fn hand_out_all(&mut self, mut parcels: Vec<Parcel>) {
        parcels.iter().for_each(|parcel| self.hand_out(parcel));
        parcels.clear();
        self.parcels = parcels;
        self.hub.flush(&mut self.inboxes, &mut self.log);
        if let Some(kernels) = &mut self.kernels {
            kernels.flush(&mut self.inboxes);
        }
    }

    /// Ends the filter where it has not ended yet, and brings its last answer to whom it is for.
    fn end_filter(&mut self, by_force: bool) -> String {
        let mut parcels = Vec::new();
        let how = self.filter.end(by_force, &mut self.buffer, &mut parcels);
        if !by_force {
            self.hand_out_all(parcels);
        }
        how
    }

    /// Brings a frame to its receiver; to one that isn't there, to nobody.
    fn hand_out(&mut self, parcel: &Parcel) {
        let Parcel { to, number, frame } = parcel;
        if frame.len() > HEAD + MOST_FRAME {
            return self.log.tell(&format!("its filter sent a frame of kind {} and {} bytes: dropped", parcel.kind(), frame.len() - HEAD));
        }
        match (to, parcel.kind()) {
            (To::Replicas, _) => self.hub.send_to_replicas(frame),
            (To::Replica, _) => self.hub.send_to_replica(*number, frame),
            (To::Client, _) => self.hub.send_to_client(*number, frame),
            (To::Operator, LOG) => self.log.tell(&printable(parcel.payload())),
            (To::Operator, REPORT) => {
                let report: Frame = framed(REPORT, &[parcel.payload(), self.filter.report().as_bytes()]).into();
                self.hub.report(&report);
            }
            (To::Caller, ANSWER) => {
                if let (Some(kernels), Some(reply)) = (&mut self.kernels, parcel.payload().get(TICKET..)) {
                    kernels.answer(*number, reply);
                }
            }
            _ => {}
        }
    }

    /// The filter has ended, or is ended for a reason. What was told to end may have ended it, too.
    fn failed(&mut self, why: Option<&str>) -> u8 {
        let how = self.end_filter(why.is_some());
        if system::is_told_to_end() {
            return STOPPED;
        }
        self.log.news(&format!("its filter: {}", why.unwrap_or(&how)));
        FAILED
    }
}
