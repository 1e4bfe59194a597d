//! What a host lends of its TLCs: settlement TLCs and tracked TLCs.

use crate::hash::{Algorithm, Hash, PublicKey};
use crate::layout as l;
use crate::record::part;
use crate::{c, Commitment, HashLength, Party, Preimage, Refusal, Side, State, Tlc, Tlcs, Witness};

/// A TLC as the host stored it with the commitment, in the host's own view.
///
/// There is no field `received`: whether the library's list says so depends on whose commitment it is, and
/// [`SettlementTlc::entry`] turns it.
///
/// ```compile_fail,E0560
/// # use fiber_settlement::{Algorithm, SettlementTlc};
/// SettlementTlc {
///     received: true,
///     algorithm: Algorithm::Ckb,
///     amount: 100,
///     payment_hash: [7; 32],
///     expiry_ms: 6_000,
///     our_key: [2; 33],
///     their_key: [3; 33],
/// };
/// ```
#[derive(Clone, Copy, Debug, PartialEq, Eq, Hash)]
pub struct SettlementTlc {
    /// Who offered it. A TLC that we offered we take back by timeout; one that they offered we take by preimage.
    pub offered_by: Side,
    /// How its payment hash was made.
    pub algorithm: Algorithm,
    /// What it pays.
    pub amount: u128,
    /// The payment hash, whole, whatever the records hold of it.
    pub payment_hash: Hash,
    /// When it expires, in milliseconds.
    pub expiry_ms: u64,
    /// Our public key for it.
    pub our_key: PublicKey,
    /// The other side's public key for it.
    pub their_key: PublicKey,
}

impl SettlementTlc {
    /// The entry of a list for this commitment. "Received" is 1 exactly if the commitment's owner offered the TLC,
    /// since the list is in the view of the party that does not own the commitment. The keys stay where they are:
    /// ours is `local`.
    ///
    /// ```
    /// use fiber_settlement::{Algorithm, Commitment, SettlementTlc, Side};
    ///
    /// let tlc = SettlementTlc {
    ///     offered_by: Side::Us,
    ///     algorithm: Algorithm::Sha256,
    ///     amount: 100,
    ///     payment_hash: [7; 32],
    ///     expiry_ms: 6_000,
    ///     our_key: [2; 33],
    ///     their_key: [3; 33],
    /// };
    /// assert_eq!(tlc.entry(Commitment::Theirs)[0], 0); // our view: we offered it
    /// assert_eq!(tlc.entry(Commitment::Ours)[0], 1); // their view: they received it
    /// ```
    pub fn entry(&self, commitment: Commitment) -> [u8; l::TLC] {
        let mut entry = [0; l::TLC];
        let mut put = |at: usize, bytes: &[u8]| entry[at..at + bytes.len()].copy_from_slice(bytes);
        put(l::TLC_RECEIVED, &[u8::from(commitment.party(self.offered_by) == Party::Owner)]);
        put(l::TLC_ALGORITHM, &[self.algorithm as u8]);
        put(l::TLC_AMOUNT, &self.amount.to_le_bytes());
        put(l::TLC_HASH, &self.payment_hash);
        put(l::TLC_EXPIRY, &self.expiry_ms.to_le_bytes());
        put(l::TLC_LOCAL_KEY, &self.our_key);
        put(l::TLC_REMOTE_KEY, &self.their_key);
        entry
    }

    /// The pair of a preimage of this TLC, which a choice counts for it.
    ///
    /// ```
    /// use fiber_settlement::{Algorithm, Refusal, SettlementTlc, Side};
    ///
    /// let tlc = SettlementTlc {
    ///     offered_by: Side::Them,
    ///     algorithm: Algorithm::Sha256,
    ///     amount: 100,
    ///     payment_hash: Algorithm::Sha256.hash(&[7; 32])?,
    ///     expiry_ms: 1_700_000_000_000,
    ///     our_key: [2; 33],
    ///     their_key: [3; 33],
    /// };
    /// assert_eq!(tlc.preimage([7; 32])?.hash(), tlc.payment_hash);
    /// assert_eq!(tlc.preimage([8; 32]), Err(Refusal::PreimageDiffers));
    /// # Ok::<(), Refusal>(())
    /// ```
    ///
    /// # Errors
    ///
    /// [`Refusal::PreimageDiffers`] where its hash under the TLC's algorithm is not the payment hash.
    pub fn preimage(&self, preimage: [u8; 32]) -> Result<Preimage, Refusal> {
        let pair = Preimage::of(self.algorithm, preimage)?;
        match pair.hash() == self.payment_hash {
            true => Ok(pair),
            false => Err(Refusal::PreimageDiffers),
        }
    }
}

/// The settlement TLCs of a commitment, as the library reads them. The list is in the commitment's order and stays
/// whole through all settlements: a later one finds its keys here.
#[derive(Clone, Debug, PartialEq, Eq, Hash)]
pub struct SettlementTlcs {
    commitment: Commitment,
    bytes: Vec<u8>,
}

impl SettlementTlcs {
    /// The list of this commitment. Without TLCs it still says whose commitment it is.
    pub fn new(commitment: Commitment, tlcs: &[SettlementTlc]) -> SettlementTlcs {
        let bytes = tlcs.iter().flat_map(|tlc| tlc.entry(commitment)).collect();
        SettlementTlcs { commitment, bytes }
    }

    /// Whose commitment it is.
    pub const fn commitment(&self) -> Commitment {
        self.commitment
    }

    /// How many there are.
    pub fn len(&self) -> usize {
        self.bytes.len() / l::TLC
    }

    /// Is there none?
    pub fn is_empty(&self) -> bool {
        self.bytes.is_empty()
    }

    /// The list as the library reads it, 124 bytes each.
    pub fn as_bytes(&self) -> &[u8] {
        &self.bytes
    }

    /// Our public key of the TLC at a place.
    pub(crate) fn our_key(&self, place: usize) -> Option<&PublicKey> {
        let entry = self.entries().nth(place)?;
        entry[l::TLC_LOCAL_KEY..][..l::KEY].try_into().ok()
    }

    /// What tells this list from another.
    fn digest(&self) -> Hash {
        c::ckb_hash(&self.bytes)
    }

    fn entries(&self) -> std::slice::ChunksExact<'_, u8> {
        self.bytes.chunks_exact(l::TLC)
    }
}

/// The record of one settlement TLC, as the commitment transaction's own cell has it.
///
/// # Errors
///
/// [`Refusal::Abi`] alone.
pub fn tlc_record(
    hash_length: HashLength,
    commitment: Commitment,
    tlc: &SettlementTlc,
) -> Result<Vec<u8>, Refusal> {
    c::ready()?;
    record_of(hash_length, commitment, &tlc.entry(commitment))
}

fn record_of(hash_length: HashLength, commitment: Commitment, entry: &[u8]) -> Result<Vec<u8>, Refusal> {
    let mut record = vec![0; hash_length.record()];
    let length = c::tlc_record(hash_length.h(), commitment.for_remote(), entry, &mut record)?;
    match length == record.len() {
        true => Ok(record),
        false => Err(Refusal::Answer { field: "WRITTEN_LENGTH", value: length as u64 }),
    }
}

/// The TLCs that stand in a cell, each with its whole payment hash. The records hold the first 20 bytes alone on many
/// channels, and a preimage has to have all 32.
///
/// A list is made from settlement TLCs only, so that hash, algorithm and record of an entry always belong together: the
/// records are tested against the cell, and by a wrong hash or algorithm a preimage would be missed without a word.
///
/// It goes with one cell: [`first`](TrackedTlcs::first) makes that of the commitment transaction's own cell,
/// [`after`](TrackedTlcs::after) each settlement that of the next, and [`standing`](TrackedTlcs::standing) that of any.
/// A [`choose`](crate::choose) with that of another cell is turned down ([`Refusal::TrackedDiffers`]). After the last
/// settlement there is no next cell; after our share was paid out the list goes on, and a choice answers
/// [`Cause::NotOurShare`](crate::Cause::NotOurShare).
#[derive(Clone, Debug, PartialEq, Eq, Hash)]
pub struct TrackedTlcs {
    commitment: Commitment,
    hash_length: HashLength,
    /// The digest of the settlement TLCs that it is made from.
    list: Hash,
    bytes: Vec<u8>,
}

impl TrackedTlcs {
    /// For the commitment transaction's own cell: all settlement TLCs stand in it.
    ///
    /// # Errors
    ///
    /// [`Refusal::Abi`] alone.
    pub fn first(tlcs: &SettlementTlcs, hash_length: HashLength) -> Result<TrackedTlcs, Refusal> {
        c::ready()?;
        let (commitment, list) = (tlcs.commitment, tlcs.digest());
        let mut tracked = TrackedTlcs { commitment, hash_length, list, bytes: vec![] };
        for entry in tlcs.entries() {
            tracked.push(entry, &record_of(hash_length, tlcs.commitment, entry)?);
        }
        Ok(tracked)
    }

    /// For the cell that a settlement transaction made, from the list of the cell that it spent: what its witness
    /// unlocked is taken out, by whomever. So a tower goes from cell to cell, as the reference does.
    ///
    /// # Errors
    ///
    /// [`Refusal::Mixed`] for a witness of another hash length; [`Refusal::RecordUnknown`] where the witness's TLCs
    /// are not this list: it does not spend that cell, or a settlement was skipped or taken twice.
    pub fn after(&self, witness: &Witness) -> Result<TrackedTlcs, Refusal> {
        if witness.hash_length() != self.hash_length {
            return Err(Refusal::Mixed { part: "tracked list" });
        }
        if let Some(place) = self.differs(witness.tlcs()) {
            return Err(Refusal::RecordUnknown { place });
        }
        let settled: Vec<usize> = witness.unlocks().filter_map(|unlock| unlock.tlc()).collect();
        let left = self.entries().enumerate().filter(|(place, _)| !settled.contains(place));
        Ok(TrackedTlcs { bytes: left.flat_map(|(_, entry)| entry.to_vec()).collect(), ..*self })
    }

    /// For a cell whose earlier settlements this tower did not follow: the records that stand are found again among the
    /// settlement TLCs, in order.
    ///
    /// # Errors
    ///
    /// [`Refusal::RecordUnknown`] for a record that is of none of them, or out of order.
    pub fn standing(tlcs: &SettlementTlcs, state: &State) -> Result<TrackedTlcs, Refusal> {
        let first = TrackedTlcs::first(tlcs, state.hash_length())?;
        let mut left = first.entries();
        let mut bytes = vec![];
        for (place, tlc) in state.tlcs().enumerate() {
            let entry = left.find(|entry| record(entry) == tlc.record());
            bytes.extend_from_slice(entry.ok_or(Refusal::RecordUnknown { place: place as u64 })?);
        }
        Ok(TrackedTlcs { bytes, ..first.clone() })
    }

    /// How many stand.
    pub fn len(&self) -> usize {
        self.bytes.len() / l::tracked(self.hash_length.bytes())
    }

    /// Does none stand?
    pub fn is_empty(&self) -> bool {
        self.bytes.is_empty()
    }

    /// The TLCs with their whole payment hashes, in order.
    pub fn iter(&self) -> impl ExactSizeIterator<Item = (Hash, Tlc<'_>)> {
        let hash_length = self.hash_length;
        self.entries().map(move |entry| (part(entry, l::TRACKED_HASH), Tlc::new(record(entry), hash_length)))
    }

    /// The first place where the records are not those of these TLCs, if there is one.
    pub(crate) fn differs(&self, tlcs: Tlcs) -> Option<u64> {
        let (here, there) = (self.len(), tlcs.len());
        let differ = self.entries().zip(tlcs).position(|(entry, tlc)| record(entry) != tlc.record());
        differ.or((here != there).then_some(here.min(there))).map(|place| place as u64)
    }

    /// Was it made from these settlement TLCs?
    pub(crate) fn is_from(&self, tlcs: &SettlementTlcs) -> bool {
        self.commitment == tlcs.commitment && self.list == tlcs.digest()
    }

    /// Whose commitment it is.
    pub const fn commitment(&self) -> Commitment {
        self.commitment
    }

    /// How many bytes of a payment hash the records hold.
    pub const fn hash_length(&self) -> HashLength {
        self.hash_length
    }

    /// The list as the library reads it, 98 + h bytes each.
    pub fn as_bytes(&self) -> &[u8] {
        &self.bytes
    }

    /// Adds the tracked TLC of a settlement TLC: its hash, its algorithm, its record.
    fn push(&mut self, entry: &[u8], record: &[u8]) {
        self.bytes.extend_from_slice(&entry[l::TLC_HASH..][..l::HASH]);
        self.bytes.push(entry[l::TLC_ALGORITHM]);
        self.bytes.extend_from_slice(record);
    }

    fn entries(&self) -> std::slice::ChunksExact<'_, u8> {
        self.bytes.chunks_exact(l::tracked(self.hash_length.bytes()))
    }
}

/// The record in an entry of the tracked list.
fn record(entry: &[u8]) -> &[u8] {
    &entry[l::TRACKED_RECORD..]
}
