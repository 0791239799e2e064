//! When a replica is dialed, again and again.
#![forbid(unsafe_code)]

use std::collections::hash_map::RandomState;
use std::hash::{BuildHasher, Hasher};
use std::time::{Duration, Instant};

const SHORTEST: Duration = Duration::from_millis(100); // between two attempts
const LONGEST: Duration = Duration::from_secs(5);
const LIVES: Duration = Duration::from_secs(5); // after which a connection counts as a good one

/// The attempts to connect to one replica.
pub struct Dialer {
    next: Option<Instant>, // none while there is a connection, or one is begun
    pause: Duration,
}

impl Dialer {
    pub fn new() -> Dialer {
        Dialer { next: Some(Instant::now()), pause: SHORTEST }
    }

    /// Whether to dial now. Where it says so, it waits for `failed` or `ended`.
    pub fn is_due(&mut self, now: Instant) -> bool {
        let is_due = self.next.map_or(false, |next| next <= now);
        if is_due {
            self.next = None;
        }
        is_due
    }

    /// The connection ended, or none came about; it had been begun so long before.
    pub fn ended(&mut self, lived: Option<Duration>) {
        if lived.map_or(false, |lived| lived > LIVES) {
            self.pause = SHORTEST;
        }
        // between half of it and all, so that not all dial at once
        let share = f64::from(RandomState::new().build_hasher().finish() as u32) / f64::from(u32::MAX);
        self.next = Some(Instant::now() + self.pause.mul_f64(0.5 + share / 2.0));
        self.pause = (self.pause * 2).min(LONGEST);
    }
}

#[cfg(test)]
mod tests {
    use super::*;

    #[test]
    fn pauses_grow_and_end() {
        let mut dialer = Dialer::new();
        let now = Instant::now();
        assert!(dialer.is_due(now) && !dialer.is_due(now + 10 * LONGEST));
        let mut pauses = Vec::new();
        for _ in 0..10 {
            let now = Instant::now();
            dialer.ended(None);
            pauses.push(dialer.next.unwrap() - now);
            assert!(!dialer.is_due(now) && dialer.is_due(now + 2 * LONGEST));
        }
        assert!(pauses[0] <= 2 * SHORTEST && pauses[9] > LONGEST / 3 && pauses[9] < 2 * LONGEST);
        dialer.ended(Some(2 * LIVES));
        assert!(dialer.is_due(Instant::now() + 2 * SHORTEST));
    }
}
