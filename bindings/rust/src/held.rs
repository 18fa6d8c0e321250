//! What a connection holds, read where it lies: docs/LAYOUT.md, "Connection memory".

/// What a connection holds of a request that is not finished.
#[derive(Clone, Copy, Debug, PartialEq, Eq)]
pub enum Held<'a> {
    /// The beginning of a request, as it came; of none at all between two requests.
    Beginning(&'a [u8]),
    /// An oversized request is being skipped.
    Skipping {
        /// Its header, as it came.
        header: &'a [u8],
        /// How many of its bytes are still to come, 1 or more.
        to_go: u64,
    },
    /// Nothing: a request with a wrong start has closed the connection.
    Closed,
}

impl<'a> Held<'a> {
    /// What well-formed connection memory holds.
    pub(crate) fn of(memory: &'a [u8]) -> Held<'a> {
        let (head, rest) = memory.split_at(9);
        let number = u64::from_le_bytes(head[1..].try_into().expect("eight bytes"));
        match head[0] {
            0 => Held::Beginning(&rest[..number as usize]),
            1 => Held::Skipping {
                header: &rest[..header_length(rest)],
                to_go: number,
            },
            _ => Held::Closed,
        }
    }

    /// How many bytes of the request have been taken: the bill's `held`. Those that were skipped
    /// count, though they are not kept.
    pub fn count(self) -> u64 {
        match self {
            Held::Beginning(bytes) => bytes.len() as u64,
            Held::Skipping { header, to_go } => request_length(header) - to_go,
            Held::Closed => 0,
        }
    }

    /// How many bytes the request still needs; `None` as long as its header is not whole, and where
    /// nothing is held.
    pub fn to_go(self) -> Option<u64> {
        match self {
            Held::Beginning(bytes) => {
                let is_whole = bytes.len() >= 6 && bytes.len() >= header_length(bytes);
                is_whole.then(|| request_length(bytes) - bytes.len() as u64)
            }
            Held::Skipping { to_go, .. } => Some(to_go),
            Held::Closed => None,
        }
    }
}

/// 6 + H of a request of which six bytes are there.
fn header_length(request: &[u8]) -> usize {
    6 + usize::from(u16::from_le_bytes([request[4], request[5]]))
}

/// 6 + H + C + A of a request whose header is there.
fn request_length(request: &[u8]) -> u64 {
    let content = u32::from_le_bytes(request[20..24].try_into().expect("four bytes"));
    let auth = u16::from_le_bytes([request[24], request[25]]);
    header_length(request) as u64 + u64::from(content) + u64::from(auth)
}

#[cfg(test)]
mod tests {
    use super::Held;
    use crate::{Buffers, Connection, List, NoJournal, Registry, Service};

    /// A Ping with this header size and these lengths of body and auth bytes; zeros fill it up.
    fn request(header: u16, content: u32, auth: u16) -> Vec<u8> {
        let mut request = b"\x10\xA7\xC0\x5E".to_vec();
        request.extend(header.to_le_bytes());
        request.extend(b"\x01\x00\x00\0\0\0\0\0\0\0\0\x01\x01\x00");
        request.extend(content.to_le_bytes());
        request.extend(auth.to_le_bytes());
        request.extend(b"\x01\x00");
        let length = 6 + usize::from(header) + content as usize + usize::from(auth);
        request.resize(length, 0);
        request
    }

    /// The connection behind these bytes, and the bill's `held` of it.
    fn behind(bytes: &[u8]) -> (Connection, u64) {
        let registry = Registry::load(b"").expect("a roster of nobody");
        let mut service = Service::new(registry, List::new(), NoJournal);
        let (mut connection, mut buffers) = (Connection::open(), Buffers::new());
        let mut rest = bytes;
        while !rest.is_empty() {
            let answer = service.call(&mut connection, rest, &mut buffers);
            rest = &rest[answer.expect("a call that is taken").taken..];
        }
        let bill = service.bill(&connection);
        let held = bill
            .lines()
            .last()
            .and_then(|line| line.strip_prefix("held "));
        (
            connection,
            held.expect("the last line").parse().expect("a number"),
        )
    }

    #[test]
    fn every_beginning_is_held_and_counts_as_the_bill_says() {
        for (header, content, auth) in [(22, 0, 0), (64, 9, 4), (22, 4_097, 3), (30, 0, 257)] {
            let request = request(header, content, auth);
            let header = 6 + usize::from(header);
            for length in 0..request.len() {
                let (connection, billed) = behind(&request[..length]);
                let (held, to_go) = (connection.held(), (request.len() - length) as u64);
                assert_eq!((held.count(), billed), (length as u64, length as u64));
                assert_eq!(held.to_go(), (length >= header).then_some(to_go));
                let skipped = length >= header && (content > 4_096 || auth > 256);
                let expected = match skipped {
                    true => Held::Skipping {
                        header: &request[..header],
                        to_go,
                    },
                    false => Held::Beginning(&request[..length]),
                };
                assert_eq!(held, expected);
            }
            assert_eq!(behind(&request).0.held(), Held::Beginning(b""));
        }
    }

    #[test]
    fn the_longest_request_is_not_counted_short() {
        let mut request = request(22, 0, 1_000);
        // C and A.
        request[20..26].fill(0xFF);
        let (connection, billed) = behind(&request);
        assert_eq!((connection.held().count(), billed), (1_028, 1_028));
        let to_go = u64::from(u32::MAX) + u64::from(u16::MAX) - 1_000;
        assert_eq!(connection.held().to_go(), Some(to_go));
    }

    #[test]
    fn a_closed_connection_holds_nothing() {
        let (connection, billed) = behind(b"GET / HTTP/1.0");
        let held = connection.held();
        assert_eq!((held, held.count(), billed), (Held::Closed, 0, 0));
        assert_eq!(held.to_go(), None);
    }
}
