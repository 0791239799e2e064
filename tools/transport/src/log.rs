//! Lines for the operator on standard error.
#![forbid(unsafe_code)]

use std::collections::HashMap;
use std::io::{stderr, Write};
use std::time::{Duration, Instant};

const QUIET: Duration = Duration::from_secs(10); // in which a line isn't told again
const MOST_TOLD: usize = 1_000;
const LONGEST: usize = 1_000; // letters

/// The lines of one transport, with its name before each.
pub struct Log {
    name: String,
    told: HashMap<String, Instant>,
}

impl Log {
    pub fn new(name: String) -> Log {
        Log { name, told: HashMap::new() }
    }

    /// Tells a line; one that comes again and again is told once in a while.
    pub fn tell(&mut self, text: &str) {
        let now = Instant::now();
        if self.told.get(text).map_or(false, |then| now.duration_since(*then) < QUIET) {
            return;
        }
        if self.told.len() > MOST_TOLD {
            self.told.clear();
        }
        self.told.insert(text.to_string(), now);
        self.news(text);
    }

    /// Tells a line each time. It goes in one piece, since several processes write there.
    pub fn news(&self, text: &str) {
        let line = format!("{}: {}\n", self.name, text);
        let _ = stderr().write_all(line.as_bytes()); // where nobody reads them, nobody is told
    }
}

/// A filter's words in one line, without what would change a terminal.
pub fn printable(words: &[u8]) -> String {
    let shown = |letter: char| if letter == ' ' || letter.is_ascii_graphic() || letter.is_alphanumeric() { letter } else { '?' };
    String::from_utf8_lossy(words).chars().take(LONGEST).map(shown).collect()
}

#[cfg(test)]
mod tests {
    use super::*;

    #[test]
    fn words_are_one_line() {
        assert_eq!(printable("zwölf\n\x1b[2J \u{202e}".as_bytes()), "zwölf??[2J ?");
        assert_eq!(printable(&[0xff; 2_000]), "?".repeat(1_000));
    }
}
