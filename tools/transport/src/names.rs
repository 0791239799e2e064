//! Where the hosts of addresses are.
#![forbid(unsafe_code)]

use std::net::{IpAddr, SocketAddr, ToSocketAddrs};
use std::sync::mpsc::{channel, Receiver, Sender};
use std::thread;
use std::time::Duration;

const PAUSE: Duration = Duration::from_secs(10); // between two looks at one name

/// Addresses as documents have them, HOST:PORT. Names are looked up by threads of their own, again and again, since a look may take long.
pub struct Names {
    texts: Vec<String>,
    found: Vec<Vec<SocketAddr>>,
    news: Receiver<(usize, Vec<SocketAddr>)>,
}

impl Names {
    pub fn new(texts: Vec<String>) -> Names {
        let (tells, news) = channel();
        let found = texts.iter().enumerate().map(|(number, text)| known(number, text, &tells)).collect();
        Names { texts, found, news }
    }

    pub fn count(&self) -> usize {
        self.texts.len()
    }

    pub fn text(&self, number: usize) -> &str {
        self.texts.get(number).map_or("", String::as_str)
    }

    /// Takes what was found since.
    pub fn refresh(&mut self) {
        while let Ok((number, found)) = self.news.try_recv() {
            if let Some(old) = self.found.get_mut(number) {
                *old = found;
            }
        }
    }

    /// The addresses of that one; none where they aren't known now.
    pub fn of(&self, number: usize) -> &[SocketAddr] {
        self.found.get(number).map_or(&[], Vec::as_slice)
    }

    /// Whether a host may be that one: where it isn't known, any may.
    pub fn may_be(&self, number: usize, host: IpAddr) -> bool {
        let found = self.of(number);
        found.is_empty() || found.iter().any(|address| plain(address.ip()) == plain(host))
    }
}

/// The address that a text spells, or else nothing now, and a thread that looks.
fn known(number: usize, text: &str, tells: &Sender<(usize, Vec<SocketAddr>)>) -> Vec<SocketAddr> {
    if let Ok(address) = text.parse() {
        return vec![address];
    }
    let (text, tells) = (text.to_string(), tells.clone());
    let looks = move || loop {
        if let Ok(found) = text.to_socket_addrs() {
            if tells.send((number, found.collect())).is_err() {
                return; // nobody wants to know any more
            }
        }
        thread::sleep(PAUSE);
    };
    let _ = thread::Builder::new().spawn(looks); // where there is no thread, the name stays unknown
    Vec::new()
}

/// An address of version 4 that stands in one of version 6, as itself.
fn plain(host: IpAddr) -> IpAddr {
    match host {
        IpAddr::V6(six) => six.to_ipv4_mapped().map_or(host, IpAddr::V4),
        IpAddr::V4(_) => host,
    }
}

#[cfg(test)]
mod tests {
    use super::*;

    #[test]
    fn addresses_and_names() {
        let mut names = Names::new(vec!["127.0.0.2:7".to_string(), "[::1]:8".to_string(), "localhost:9".to_string()]);
        assert_eq!(names.of(0), ["127.0.0.2:7".parse().unwrap()]);
        assert_eq!(names.of(1), ["[::1]:8".parse().unwrap()]);
        assert!(names.of(3).is_empty() && names.text(3).is_empty());
        let host = |text: &str| text.parse().unwrap();
        assert!(names.may_be(0, host("127.0.0.2")) && names.may_be(0, host("::ffff:127.0.0.2")) && !names.may_be(0, host("127.0.0.1")));
        for _ in 0..500 {
            names.refresh();
            if !names.of(2).is_empty() {
                break;
            }
            thread::sleep(Duration::from_millis(10));
        }
        assert!(names.of(2).iter().all(|address| address.ip().is_loopback() && address.port() == 9) && !names.of(2).is_empty());
    }
}
