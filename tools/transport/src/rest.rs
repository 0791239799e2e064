//! Bytes of a stream that spell no whole thing yet.
#![forbid(unsafe_code)]

const KEPT: usize = 1 << 20; // bytes of room that stay for the next ones

/// How far a reader of bytes came, and how many bytes it wants there before it reads on.
pub struct Read {
    pub used: usize,
    pub wanted: usize,
}

/// What is kept of a stream until more comes. It is looked at again when as many bytes as were wanted are there, so each byte is looked at a few times at most.
#[derive(Default)]
pub struct Rest {
    bytes: Vec<u8>,
    wanted: usize,
}

impl Rest {
    /// Has `read` take what came behind what was kept, and keeps what it doesn't use.
    pub fn feed<E>(&mut self, came: &[u8], read: impl FnOnce(&[u8]) -> Result<Read, E>) -> Result<(), E> {
        if self.bytes.is_empty() {
            let Read { used, wanted } = read(came)?;
            self.bytes.extend_from_slice(came.get(used..).unwrap_or_default());
            self.wanted = wanted;
            return Ok(());
        }
        self.bytes.extend_from_slice(came);
        if self.bytes.len() < self.wanted {
            return Ok(());
        }
        let Read { used, wanted } = read(&self.bytes)?;
        self.bytes.drain(..used.min(self.bytes.len()));
        self.bytes.shrink_to(KEPT);
        self.wanted = wanted;
        Ok(())
    }
}

#[cfg(test)]
mod tests {
    use super::*;

    /// Reads things of as many bytes as their first one says.
    fn things(bytes: &[u8], found: &mut Vec<Vec<u8>>) -> Result<Read, ()> {
        let mut at = 0;
        while let Some(length) = bytes.get(at).map(|byte| usize::from(*byte)) {
            if length == 0 {
                return Err(());
            }
            match bytes.get(at..at + length) {
                Some(thing) => found.push(thing.to_vec()),
                None => return Ok(Read { used: at, wanted: length }),
            }
            at += length;
        }
        Ok(Read { used: at, wanted: 1 })
    }

    #[test]
    fn things_in_pieces() {
        let data = [1, 3, 0, 0, 2, 7, 1, 5, 1, 2, 3, 4, 1];
        for size in 1..=data.len() {
            let (mut rest, mut found) = (Rest::default(), Vec::new());
            for piece in data.chunks(size) {
                rest.feed(piece, |bytes| things(bytes, &mut found)).unwrap();
            }
            assert_eq!(found, [&[1][..], &[3, 0, 0], &[2, 7], &[1], &[5, 1, 2, 3, 4], &[1]]);
            assert!(rest.bytes.is_empty());
        }
        let mut rest = Rest::default();
        rest.feed(&[2], |bytes| things(bytes, &mut Vec::new())).unwrap();
        assert!(rest.feed(&[1, 0], |bytes| things(bytes, &mut Vec::new())).is_err());
    }

    #[test]
    fn it_is_looked_at_when_it_may_be_whole() {
        let (mut rest, mut looks) = (Rest::default(), 0);
        for _ in 0..200 {
            rest.feed(&[200], |bytes| {
                looks += 1;
                things(bytes, &mut Vec::new())
            })
            .unwrap();
        }
        assert_eq!(looks, 2);
    }
}
