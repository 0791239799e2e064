//! What the standard library doesn't have: epoll(7), signals, options of sockets and pipes, and connections that are begun without waiting. All that is unsafe
//! is in this file.
#![allow(unsafe_code)]

use std::io;
use std::net::{SocketAddr, TcpStream};
use std::os::raw::{c_int, c_void};
use std::os::unix::io::{AsRawFd, FromRawFd, OwnedFd, RawFd};
use std::os::unix::process::CommandExt;
use std::process::Command;
use std::sync::atomic::{AtomicBool, Ordering};
use std::time::Duration;

#[cfg(not(target_os = "linux"))]
compile_error!("these numbers are those of Linux");

const SIGNALS: [c_int; 3] = [1, 2, 15]; // SIGHUP, SIGINT, SIGTERM
const O_NONBLOCK: c_int = 0o4000;
const O_CLOEXEC: c_int = 0o2000000;
const F_GETFL: c_int = 3;
const F_SETFL: c_int = 4;
const F_SETPIPE_SZ: c_int = 1031;
const AF_INET: u16 = 2;
const AF_INET6: u16 = 10;
const SOCK_STREAM: c_int = 1; // beside it stand O_NONBLOCK and O_CLOEXEC
const EINPROGRESS: i32 = 115;
const DEAD_AFTER: c_int = 30; // seconds without a sign of life of the other machine
const SOL_SOCKET: c_int = 1;
const IPPROTO_TCP: c_int = 6;
/// Level, name and value of SO_KEEPALIVE, TCP_KEEPIDLE, TCP_KEEPINTVL, TCP_KEEPCNT and TCP_USER_TIMEOUT.
const OPTIONS: [(c_int, c_int, c_int); 5] =
    [(SOL_SOCKET, 9, 1), (IPPROTO_TCP, 4, 10), (IPPROTO_TCP, 5, 5), (IPPROTO_TCP, 6, 4), (IPPROTO_TCP, 18, DEAD_AFTER * 1_000)];

const EPOLL_CTL_ADD: c_int = 1;
const EPOLL_CTL_MOD: c_int = 3;
pub const READS: u32 = 1; // EPOLLIN
pub const WRITES: u32 = 4; // EPOLLOUT
pub const IS_OVER: u32 = 0x2000; // EPOLLRDHUP: the other side writes no more
pub const IS_BROKEN: u32 = 8 | 16 | IS_OVER; // EPOLLERR, EPOLLHUP

/// What is waited for or was found at a descriptor, and the number that its owner gave it.
#[repr(C)]
#[cfg_attr(target_arch = "x86_64", repr(packed))]
#[derive(Clone, Copy, Default)]
pub struct Event {
    pub found: u32,
    pub number: u64,
}

extern "C" {
    fn epoll_create1(flags: c_int) -> c_int;
    fn epoll_ctl(epoll: c_int, command: c_int, descriptor: c_int, event: *mut Event) -> c_int;
    fn epoll_wait(epoll: c_int, events: *mut Event, most: c_int, milliseconds: c_int) -> c_int;
    fn signal(number: c_int, handler: extern "C" fn(c_int)) -> usize;
    fn fcntl(descriptor: c_int, command: c_int, ...) -> c_int;
    fn setsockopt(socket: c_int, level: c_int, name: c_int, value: *const c_void, length: u32) -> c_int;
    fn socket(domain: c_int, kind: c_int, protocol: c_int) -> c_int;
    fn bind(socket: c_int, address: *const c_void, length: u32) -> c_int;
    fn connect(socket: c_int, address: *const c_void, length: u32) -> c_int;
    fn setpgid(process: c_int, group: c_int) -> c_int;
}

static IS_TOLD: AtomicBool = AtomicBool::new(false);

extern "C" fn told(_number: c_int) {
    IS_TOLD.store(true, Ordering::Relaxed);
}

/// From now on a signal to end is kept for `is_told_to_end`.
pub fn keep_signals() {
    for number in SIGNALS {
        // SAFETY: the handler is a function that stores to an atomic, which a handler may.
        unsafe { signal(number, told) };
    }
}

pub fn is_told_to_end() -> bool {
    IS_TOLD.load(Ordering::Relaxed)
}

/// Gives a command a process group of its own, so that ctrl-C comes to its parent alone.
pub fn set_apart(command: &mut Command) {
    // SAFETY: between fork and exec this makes one system call, and takes no memory.
    unsafe { command.pre_exec(|| checked(setpgid(0, 0)).map(|_| ())) };
}

fn checked(result: c_int) -> io::Result<c_int> {
    if result < 0 {
        return Err(io::Error::last_os_error());
    }
    Ok(result)
}

/// Descriptors that are waited for. One that is closed is waited for no more.
pub struct Watcher {
    epoll: OwnedFd,
}

impl Watcher {
    pub fn new() -> io::Result<Watcher> {
        // SAFETY: the call takes a number alone, and the descriptor that it gives is nobody else's.
        let epoll = unsafe { OwnedFd::from_raw_fd(checked(epoll_create1(O_CLOEXEC))?) };
        Ok(Watcher { epoll })
    }

    /// From now on waits for that at a descriptor.
    pub fn set(&self, file: &impl AsRawFd, is_new: bool, wanted: u32, number: u64) -> io::Result<()> {
        let command = if is_new { EPOLL_CTL_ADD } else { EPOLL_CTL_MOD };
        let mut event = Event { found: wanted, number };
        // SAFETY: the pointer is to what epoll(7) calls epoll_event.
        checked(unsafe { epoll_ctl(self.epoll.as_raw_fd(), command, file.as_raw_fd(), &mut event) }).map(|_| ())
    }

    /// Waits until something is found at one of them, a signal has come, or the time has passed; tells of how many something was found.
    pub fn wait(&self, events: &mut [Event], time: Duration) -> io::Result<usize> {
        let milliseconds = time.as_micros().saturating_add(999) / 1_000;
        let milliseconds = milliseconds.min(60_000) as c_int;
        // SAFETY: the pointer and the count are those of a slice of what epoll(7) calls epoll_event, which it may write to.
        match checked(unsafe { epoll_wait(self.epoll.as_raw_fd(), events.as_mut_ptr(), events.len() as c_int, milliseconds) }) {
            Err(fault) if fault.kind() == io::ErrorKind::Interrupted => Ok(0),
            found => found.map(|count| count as usize),
        }
    }
}

/// Reads and writes of this descriptor wait no more.
pub fn never_wait(file: &impl AsRawFd) -> io::Result<()> {
    // SAFETY: these commands read and write flags of a descriptor, and no memory.
    unsafe {
        let flags = checked(fcntl(file.as_raw_fd(), F_GETFL))?;
        checked(fcntl(file.as_raw_fd(), F_SETFL, flags | O_NONBLOCK))?;
    }
    Ok(())
}

/// Has a pipe hold so many bytes, where the system lets it.
pub fn widen(pipe: &impl AsRawFd, bytes: c_int) {
    // SAFETY: this command reads and writes no memory.
    let _ = unsafe { fcntl(pipe.as_raw_fd(), F_SETPIPE_SZ, bytes) };
}

/// Has a connection send small frames at once, and end where the other machine is gone.
pub fn tune(connection: &TcpStream) {
    let _ = connection.set_nodelay(true);
    for (level, name, value) in OPTIONS {
        let value: *const c_int = &value;
        // SAFETY: the pointer is to a c_int, and the length is its size.
        let _ = unsafe { setsockopt(connection.as_raw_fd(), level, name, value.cast(), std::mem::size_of::<c_int>() as u32) };
    }
}

/// An address as the system has it (sockaddr_in, sockaddr_in6), and its family.
fn system_address(address: &SocketAddr) -> (u16, Vec<u8>) {
    match address {
        SocketAddr::V4(four) => {
            let family = AF_INET;
            let parts = [&family.to_ne_bytes()[..], &four.port().to_be_bytes(), &four.ip().octets(), &[0; 8]];
            (family, parts.concat())
        }
        SocketAddr::V6(six) => {
            let family = AF_INET6;
            let (flow, scope) = (six.flowinfo().to_ne_bytes(), six.scope_id().to_ne_bytes());
            let parts = [&family.to_ne_bytes()[..], &six.port().to_be_bytes(), &flow, &six.ip().octets(), &scope];
            (family, parts.concat())
        }
    }
}

/// Begins a connection from that address, of whatever port. Whether it came about is seen when the socket can be written to.
pub fn begin_connection(to: &SocketAddr, from: Option<SocketAddr>) -> io::Result<TcpStream> {
    let (family, address) = system_address(to);
    // SAFETY: the call takes numbers alone, and the descriptor that it gives is nobody else's.
    let stream = unsafe {
        let descriptor: RawFd = checked(socket(c_int::from(family), SOCK_STREAM | O_NONBLOCK | O_CLOEXEC, 0))?;
        TcpStream::from_raw_fd(descriptor)
    };
    if let Some(from) = from {
        let (its_family, address) = system_address(&from);
        if its_family == family {
            // SAFETY: the pointer and the length are those of a vector, which the call reads. Where it fails, the system chooses an address.
            let _ = unsafe { bind(stream.as_raw_fd(), address.as_ptr().cast(), address.len() as u32) };
        }
    }
    // SAFETY: the same.
    match checked(unsafe { connect(stream.as_raw_fd(), address.as_ptr().cast(), address.len() as u32) }) {
        Err(fault) if fault.raw_os_error() != Some(EINPROGRESS) => Err(fault),
        _ => Ok(stream),
    }
}

#[cfg(test)]
mod tests {
    use super::*;
    use std::net::TcpListener;

    /// What is found where a connection can be written to, or can't be.
    fn found_at(stream: &TcpStream) -> u32 {
        let (watcher, mut events) = (Watcher::new().unwrap(), [Event::default(); 4]);
        watcher.set(stream, true, READS, 1).unwrap();
        watcher.set(stream, false, WRITES, 1 << 60).unwrap();
        assert_eq!(watcher.wait(&mut events, Duration::from_secs(5)).unwrap(), 1);
        let Event { found, number } = events[0];
        assert_eq!(number, 1 << 60);
        found
    }

    #[test]
    fn a_connection_comes_about() {
        for host in ["127.0.0.1:0", "[::1]:0"] {
            let listener = match TcpListener::bind(host) {
                Ok(listener) => listener,
                Err(_) => continue, // a machine without IPv6
            };
            let stream = begin_connection(&listener.local_addr().unwrap(), Some(host.parse().unwrap())).unwrap();
            assert_eq!(found_at(&stream), WRITES);
            assert!(stream.take_error().unwrap().is_none());
            let (_, address) = listener.accept().unwrap();
            assert_eq!(address, stream.local_addr().unwrap());
            tune(&stream);
        }
    }

    #[test]
    fn none_comes_about_where_nobody_listens() {
        let address = TcpListener::bind("127.0.0.1:0").unwrap().local_addr().unwrap();
        let stream = match begin_connection(&address, None) {
            Ok(stream) => stream,
            Err(_) => return,
        };
        assert!(found_at(&stream) & IS_BROKEN != 0 && stream.take_error().unwrap().is_some());
    }
}
