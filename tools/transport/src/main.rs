//! The part of the file service that owns sockets and clocks: it starts a filter as its child, and carries frames between filters. It is not trusted.
//! docs/SERVICE.md says what it is for, and `tools/bfs` starts it.
#![deny(unsafe_code)]

mod answers;
mod calls;
mod connection;
mod dialer;
mod filter;
mod frames;
mod hub;
mod inbox;
mod kernels;
mod log;
mod names;
mod portmap;
mod queue;
mod rest;
mod rpc;
mod system;
mod transport;
mod wait;
mod words;

use crate::filter::Filter;
use crate::frames::{Hello, RELAY, REPLICA};
use crate::hub::Hub;
use crate::kernels::{Kernels, Service};
use crate::log::Log;
use crate::names::Names;
use crate::portmap::Ports;
use crate::transport::Transport;
use crate::wait::Waits;
use crate::words::{Role, Words};
use std::fmt::Display;
use std::io::{stderr, Write};
use std::net::TcpListener;
use std::process::ExitCode;

const FAULT: u8 = 1; // the status where it can't begin
const USAGE: u8 = 2;

fn main() -> ExitCode {
    let words = match Words::of(std::env::args().skip(1).collect()) {
        Some(words) => words,
        None => {
            let _ = writeln!(stderr(), "{}", words::USAGE);
            return ExitCode::from(USAGE);
        }
    };
    system::keep_signals();
    match transport(words) {
        Ok(transport) => ExitCode::from(transport.run()),
        Err((log, fault)) => {
            log.news(&fault);
            ExitCode::from(FAULT)
        }
    }
}

/// The transport that the words describe, with its filter, or what is in its way.
fn transport(words: Words) -> Result<Transport, (Log, String)> {
    let Words { role, replicas, ends_with_parent, program, filter_words } = words;
    let name = match &role {
        Role::Replica { number } => format!("replica {number}"),
        Role::Relay { .. } => "relay".to_string(),
    };
    let log = Log::new(name);
    let begun = begin(role, replicas, &log).and_then(|(hub, kernels)| {
        let filter = Filter::start(&program, &filter_words).map_err(|fault| format!("{program}: {fault}"))?;
        let waits = Waits::new().map_err(|fault| fault.to_string())?;
        Ok((hub, kernels, filter, waits))
    });
    match begun {
        Ok((hub, kernels, filter, waits)) => Ok(Transport::new(log, filter, hub, kernels, ends_with_parent, waits)),
        Err(fault) => Err((log, fault)),
    }
}

/// Listens where others connect.
fn begin(role: Role, replicas: Vec<String>, log: &Log) -> Result<(Hub, Option<Kernels>), String> {
    match role {
        Role::Replica { number } => {
            let address = replicas.get(number).cloned().unwrap_or_default();
            let listener = TcpListener::bind(&*address).and_then(|listener| listener.set_nonblocking(true).map(|()| listener));
            let listener = listener.map_err(cannot_listen(&address))?;
            log.news(&format!("listens at {address}"));
            let hello = Hello { role: REPLICA, first: number as u32, count: 1 };
            Ok((Hub::new(Some(number), Names::new(replicas), hello, Some(listener)), None))
        }
        Role::Relay { first, count, address, port_mapper } => {
            let ports = Ports { files: port_of(&address), own: port_mapper.as_deref().map_or(0, port_of) };
            let mut kernels = Kernels::new(ports);
            for (address, service) in port_mapper.iter().map(|mapper| (mapper, Service::PortMapper)).chain([(&address, Service::Files)]) {
                kernels.open(address, service).map_err(cannot_listen(address))?;
                log.news(&format!("listens at {address}"));
            }
            let hello = Hello { role: RELAY, first, count };
            Ok((Hub::new(None, Names::new(replicas), hello, None), Some(kernels)))
        }
    }
}

fn port_of(address: &str) -> u16 {
    address.rsplit(':').next().and_then(|port| port.parse().ok()).unwrap_or_default()
}

fn cannot_listen<T: Display>(address: &str) -> impl Fn(T) -> String + '_ {
    move |fault| format!("{address}: can't listen there: {fault}")
}
