//! The records of a batch, which [`read_out`](crate::read_out) gives and
//! [`write`](crate::write) takes.

use crate::{needed, Id, Refusal};

/// What the first record says: an inverse file or a forward one, and three ids.
#[derive(Clone, Copy, Debug, PartialEq, Eq)]
pub struct Heading {
    pub inverse: bool,
    pub edge_type: Id,
    pub source: Id,
    pub destination: Id,
}

/// An edge with its key.
#[derive(Clone, Copy, Debug, PartialEq, Eq)]
pub struct Record {
    pub key: Id,
    pub partner: Id,
    pub log: u64,
    pub dead: bool,
}

/// The bytes of a batch whose records are whole, known, in their places and in order.
#[derive(Clone, Copy, Debug)]
pub struct Batch<'a> {
    bytes: &'a [u8],
}

/// Kinds of records.
const LIVE: u8 = 1;
const DEAD: u8 = 2;
const HEADING: u8 = 3;

/// The refusal of a batch whose records are good, but whose file passes the bounds.
const BOUNDS: u64 = 26;

impl Heading {
    /// Bytes of a heading.
    pub const LEN: usize = 50;

    pub fn bytes(&self) -> [u8; Self::LEN] {
        let mut bytes = [0; Self::LEN];
        bytes[0] = HEADING;
        bytes[1] = u8::from(self.inverse);
        bytes[2..18].copy_from_slice(&self.edge_type);
        bytes[18..34].copy_from_slice(&self.source);
        bytes[34..].copy_from_slice(&self.destination);
        bytes
    }
}

impl Record {
    /// Bytes of an edge.
    pub const LEN: usize = 41;

    pub fn bytes(&self) -> [u8; Self::LEN] {
        let mut bytes = [0; Self::LEN];
        bytes[0] = if self.dead { DEAD } else { LIVE };
        bytes[1..17].copy_from_slice(&self.key);
        bytes[17..33].copy_from_slice(&self.partner);
        bytes[33..].copy_from_slice(&self.log.to_le_bytes());
        bytes
    }

    fn of(bytes: &[u8]) -> Record {
        let mut log = [0; 8];
        log.copy_from_slice(&bytes[33..41]);
        Record {
            key: id(bytes, 1),
            partner: id(bytes, 17),
            log: u64::from_le_bytes(log),
            dead: bytes[0] == DEAD,
        }
    }
}

impl<'a> Batch<'a> {
    /// The batch of these bytes: refusals 24 and 25, as [`needed`] tells them. That
    /// its file may pass the bounds (26) is the writer's to say, who asks it last.
    pub fn of(bytes: &'a [u8]) -> Result<Batch<'a>, Refusal> {
        match needed(bytes) {
            Err(refusal) if refusal.number != BOUNDS => Err(refusal),
            _ => Ok(Batch { bytes }),
        }
    }

    pub fn heading(&self) -> Heading {
        Heading {
            inverse: self.bytes[1] == 1,
            edge_type: id(self.bytes, 2),
            source: id(self.bytes, 18),
            destination: id(self.bytes, 34),
        }
    }

    /// The edges, which strictly rise by key, then partner.
    pub fn records(&self) -> impl ExactSizeIterator<Item = Record> + 'a {
        self.bytes[Heading::LEN..]
            .chunks_exact(Record::LEN)
            .map(Record::of)
    }
}

fn id(bytes: &[u8], at: usize) -> Id {
    let mut id = [0; 16];
    id.copy_from_slice(&bytes[at..at + 16]);
    id
}
