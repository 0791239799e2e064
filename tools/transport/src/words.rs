//! The words that a transport is started with.
#![forbid(unsafe_code)]

pub const USAGE: &str = "usage: transport replica K --replicas ADDRESS,.. [--with-parent] -- FILTER [WORD ..]
       transport relay FIRST COUNT --replicas ADDRESS,.. --listen ADDRESS [--portmap ADDRESS] [--with-parent] -- FILTER [WORD ..]";

/// What it carries frames for.
#[derive(Debug, PartialEq, Eq)]
pub enum Role {
    /// The replica of that number.
    Replica { number: usize },
    /// A relay of so many clients, from the first one on, with where kernels send their calls, and where a port mapper says so.
    Relay { first: u32, count: u32, address: String, port_mapper: Option<String> },
}

#[derive(Debug, PartialEq, Eq)]
pub struct Words {
    pub role: Role,
    /// The addresses of all replicas, by their numbers.
    pub replicas: Vec<String>,
    /// It ends at the end of its standard input.
    pub ends_with_parent: bool,
    pub program: String,
    pub filter_words: Vec<String>,
}

impl Words {
    /// Reads them, if they are a usage.
    pub fn of(words: Vec<String>) -> Option<Words> {
        let mut words = words.into_iter();
        let name = words.next()?;
        let mut numbers = Vec::new();
        let (mut replicas, mut address, mut port_mapper, mut ends_with_parent) = (Vec::new(), None, None, false);
        loop {
            let word = words.next()?;
            match &*word {
                "--" => break,
                "--replicas" => replicas = words.next()?.split(',').map(str::to_string).collect(),
                "--listen" => address = Some(words.next()?),
                "--portmap" => port_mapper = Some(words.next()?),
                "--with-parent" => ends_with_parent = true,
                _ => numbers.push(word.parse::<u32>().ok()?),
            }
        }
        let role = match (&*name, &*numbers, address) {
            ("replica", [number], None) if (*number as usize) < replicas.len() => Role::Replica { number: *number as usize },
            ("relay", [first, count], Some(address)) if *count > 0 && !replicas.is_empty() => {
                Role::Relay { first: *first, count: *count, address, port_mapper }
            }
            _ => return None,
        };
        Some(Words { role, replicas, ends_with_parent, program: words.next()?, filter_words: words.collect() })
    }
}

#[cfg(test)]
mod tests {
    use super::*;

    fn read(words: &str) -> Option<Words> {
        Words::of(words.split_whitespace().map(str::to_string).collect())
    }

    #[test]
    fn usages() {
        let replica = read("replica 1 --replicas a:1,b:2 --with-parent -- filter one --two").unwrap();
        assert_eq!(replica.role, Role::Replica { number: 1 });
        assert!(replica.ends_with_parent && replica.replicas == ["a:1", "b:2"] && replica.program == "filter" && replica.filter_words == ["one", "--two"]);
        let relay = read("relay 4 2 --replicas a:1 --listen c:3 -- filter").unwrap();
        assert_eq!(relay.role, Role::Relay { first: 4, count: 2, address: "c:3".to_string(), port_mapper: None });
        assert!(!relay.ends_with_parent && relay.filter_words.is_empty());
        for wrong in [
            "",
            "replica",
            "replica 1 --replicas a:1 -- f",
            "replica 0 --replicas a:1 --",
            "replica 0 -- f",
            "relay 0 0 --replicas a:1 --listen b:2 -- f",
            "relay 0 1 --replicas a:1 -- f",
            "relay x 1 -- f",
        ] {
            assert_eq!(read(wrong), None, "{wrong}");
        }
    }
}
