//! What a state holds: TLC records and shares, as views into its bytes.

use crate::hash::{Algorithm, KeyHash};
use crate::layout as l;
use crate::{c, Commitment, HashLength, Party, Side};

/// The bytes of a fixed length at a place.
pub(crate) fn part<const N: usize>(bytes: &[u8], at: usize) -> [u8; N] {
    let mut part = [0; N];
    part.copy_from_slice(&bytes[at..at + N]);
    part
}

/// A TLC that stands in a witness or a state: a view of its record.
///
/// ```text
/// type 1 | amount 16 | payment hash h | owner's key hash 20 | other's key hash 20 | expiry 8
/// ```
///
/// The record calls its two key hashes `remote` and `local`, and says "offered" or "received" in the view of the
/// party that does not own the commitment. Here both are told by the party, and by the side once it is known whose
/// commitment it is.
#[derive(Clone, Copy, Debug, PartialEq, Eq, Hash)]
pub struct Tlc<'a> {
    record: &'a [u8],
    hash_length: HashLength,
}

impl<'a> Tlc<'a> {
    /// `record` has the length of a record.
    pub(crate) fn new(record: &'a [u8], hash_length: HashLength) -> Tlc<'a> {
        Tlc { record, hash_length }
    }

    /// The record as it stands.
    pub fn record(&self) -> &'a [u8] {
        self.record
    }

    /// The party that offered it, which takes it back by timeout. The opposite takes it by preimage.
    pub fn offered_by(&self) -> Party {
        match self.record[l::RECORD_KIND] & 1 {
            0 => Party::Other,
            _ => Party::Owner,
        }
    }

    /// The side that offered it.
    pub fn offered_by_side(&self, commitment: Commitment) -> Side {
        commitment.side(self.offered_by())
    }

    /// Whose it is once it has expired: the side that offered it.
    pub fn by_timeout(&self, commitment: Commitment) -> Side {
        commitment.side(self.offered_by())
    }

    /// Whose it is with its preimage: the side that it was offered to.
    pub fn by_preimage(&self, commitment: Commitment) -> Side {
        commitment.side(self.offered_by().opposite())
    }

    /// How its payment hash was made.
    pub fn algorithm(&self) -> Algorithm {
        match self.record[l::RECORD_KIND] & 2 {
            0 => Algorithm::Ckb,
            _ => Algorithm::Sha256,
        }
    }

    /// What it pays.
    pub fn amount(&self) -> u128 {
        u128::from_le_bytes(part(self.record, l::RECORD_AMOUNT))
    }

    /// The payment hash, or its first 20 bytes.
    pub fn payment_hash(&self) -> &'a [u8] {
        &self.record[l::RECORD_HASH..self.behind_hash()]
    }

    /// The hash of the party's key for it.
    pub fn key_hash(&self, party: Party) -> KeyHash {
        match party {
            Party::Owner => part(self.record, self.behind_hash()),
            Party::Other => part(self.record, self.behind_hash() + l::KEY_HASH),
        }
    }

    /// The expiry as it stands, a since value.
    pub fn since(&self) -> u64 {
        u64::from_le_bytes(part(self.record, self.behind_hash() + 2 * l::KEY_HASH))
    }

    /// The expiry in milliseconds. `None`: the since value is no absolute timestamp, or passes 64 bits, and no later
    /// settlement takes this TLC.
    pub fn expiry_ms(&self) -> Option<u64> {
        // A view is made of what the library has read, so the version was looked at; and every since value is taken.
        c::expiry(self.since()).ok().flatten()
    }

    fn behind_hash(&self) -> usize {
        l::RECORD_HASH + self.hash_length.bytes()
    }
}

/// The TLCs of a state, in order.
#[derive(Clone, Debug)]
pub struct Tlcs<'a> {
    records: std::slice::ChunksExact<'a, u8>,
    hash_length: HashLength,
}

impl<'a> Tlcs<'a> {
    /// `records` are whole ones.
    pub(crate) fn new(records: &'a [u8], hash_length: HashLength) -> Tlcs<'a> {
        Tlcs { records: records.chunks_exact(hash_length.record()), hash_length }
    }
}

impl<'a> Iterator for Tlcs<'a> {
    type Item = Tlc<'a>;

    fn next(&mut self) -> Option<Tlc<'a>> {
        Some(Tlc::new(self.records.next()?, self.hash_length))
    }

    fn size_hint(&self) -> (usize, Option<usize>) {
        self.records.size_hint()
    }
}

impl ExactSizeIterator for Tlcs<'_> {}

/// What one party owns beside the TLCs.
#[derive(Clone, Copy, Debug, PartialEq, Eq, Hash)]
pub struct Share {
    /// The hash of the party's settlement key; zeros once the share was paid out.
    pub key_hash: KeyHash,
    /// Its amount; 0 once it was paid out.
    pub amount: u128,
}

impl Share {
    /// Was it paid out? Then its key hash is zeros.
    pub fn is_paid(&self) -> bool {
        self.key_hash == [0; l::KEY_HASH]
    }
}

/// Both shares of a state.
#[derive(Clone, Copy, Debug, PartialEq, Eq, Hash)]
pub struct Shares {
    /// The commitment owner's: the first, in slot `remote`.
    pub owner: Share,
    /// The other party's: the second, in slot `local`.
    pub other: Share,
}

impl Shares {
    /// `bytes` begins with a share part.
    pub(crate) fn new(bytes: &[u8]) -> Shares {
        let share = |at| Share {
            key_hash: part(bytes, at),
            amount: u128::from_le_bytes(part(bytes, at + l::SHARE_AMOUNT)),
        };
        Shares { owner: share(0), other: share(l::SHARE_LEN) }
    }

    /// A party's share.
    pub const fn of(&self, party: Party) -> Share {
        match party {
            Party::Owner => self.owner,
            Party::Other => self.other,
        }
    }

    /// A side's share.
    pub const fn of_side(&self, side: Side, commitment: Commitment) -> Share {
        self.of(commitment.party(side))
    }
}
