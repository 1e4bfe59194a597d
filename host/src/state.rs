//! A state: the TLCs that stand and both shares.

use std::fmt;

use crate::hash::{KeyHash, PublicKey};
use crate::layout as l;
use crate::record::part;
use crate::{c, Commitment, HashLength, LockArgs, Refusal, SettlementTlcs, Shares, Side, Tlcs};

/// What a commitment cell holds: n, the TLC records, the share in slot `remote`, the share in slot `local`. The
/// cell's lock args have its hash. [`first_state`] makes that of the commitment transaction's own cell,
/// [`Witness::left`] that of a later one.
///
/// [`Witness::left`]: crate::Witness::left
#[derive(Clone, PartialEq, Eq, Hash)]
pub struct State {
    bytes: Vec<u8>,
    hash_length: HashLength,
}

impl State {
    /// A state that the library wrote, as long as `field` of the answer says. By the library's contract that is the
    /// length of its TLCs; views cut the state by it.
    pub(crate) fn written(
        bytes: Vec<u8>,
        hash_length: HashLength,
        field: &'static str,
    ) -> Result<State, Refusal> {
        match bytes.first().map(|n| hash_length.state(usize::from(*n))) == Some(bytes.len()) {
            true => Ok(State { bytes, hash_length }),
            false => Err(Refusal::Answer { field, value: bytes.len() as u64 }),
        }
    }

    /// The bytes as the lock args hash them.
    pub fn as_bytes(&self) -> &[u8] {
        &self.bytes
    }

    /// How many bytes of a payment hash its records hold.
    pub const fn hash_length(&self) -> HashLength {
        self.hash_length
    }

    /// The TLCs that stand, in order.
    pub fn tlcs(&self) -> Tlcs<'_> {
        Tlcs::new(&self.bytes[1..self.share_place()], self.hash_length)
    }

    /// Both shares.
    pub fn shares(&self) -> Shares {
        Shares::new(&self.bytes[self.share_place()..])
    }

    /// What is owed to whom. With the wrong commitment everything is turned round: what is ours is told as theirs.
    pub fn owed(&self, commitment: Commitment) -> Owed {
        let shares = self.shares();
        let tlcs = self.tlcs().map(|tlc| OwedTlc {
            amount: tlc.amount(),
            by_timeout: tlc.by_timeout(commitment),
            by_preimage: tlc.by_preimage(commitment),
            expiry_ms: tlc.expiry_ms(),
        });
        Owed {
            our_share: shares.of_side(Side::Us, commitment).amount,
            their_share: shares.of_side(Side::Them, commitment).amount,
            tlcs: tlcs.collect(),
        }
    }

    /// The first 20 bytes of its CKB hash, as lock args have them.
    pub fn hash(&self) -> KeyHash {
        part(&c::ckb_hash(&self.bytes), 0)
    }

    /// Do these lock args name this state? They are those of the cell that holds it.
    pub fn matches(&self, args: &LockArgs) -> bool {
        self.hash_length == args.hash_length() && self.hash() == args.state_hash()
    }

    fn share_place(&self) -> usize {
        self.bytes.len() - 2 * l::SHARE_LEN
    }
}

impl fmt::Debug for State {
    fn fmt(&self, f: &mut fmt::Formatter<'_>) -> fmt::Result {
        f.debug_struct("State")
            .field("hash_length", &self.hash_length)
            .field("tlcs", &self.tlcs().collect::<Vec<_>>())
            .field("shares", &self.shares())
            .finish()
    }
}

/// What a state owes to whom.
#[derive(Clone, Debug, PartialEq, Eq, Hash)]
pub struct Owed {
    /// Our share; 0 once it was paid out.
    pub our_share: u128,
    /// The other side's.
    pub their_share: u128,
    /// The TLCs that stand, in order.
    pub tlcs: Vec<OwedTlc>,
}

impl Owed {
    /// All amounts together. `None` where they pass 128 bits.
    pub fn sum(&self) -> Option<u128> {
        let shares = self.our_share.checked_add(self.their_share)?;
        self.tlcs.iter().try_fold(shares, |sum, tlc| sum.checked_add(tlc.amount))
    }
}

/// A TLC that stands, and whose it can become.
#[derive(Clone, Copy, Debug, PartialEq, Eq, Hash)]
pub struct OwedTlc {
    /// What it pays.
    pub amount: u128,
    /// Who takes it once it has expired: who offered it.
    pub by_timeout: Side,
    /// Who takes it with its preimage: whom it was offered to. That is possible after the expiry, too.
    pub by_preimage: Side,
    /// When it expires, by the median block time. `None`: it never does.
    pub expiry_ms: Option<u64>,
}

/// What both sides own by the commitment, and the keys that they settle with.
#[derive(Clone, Copy, Debug, PartialEq, Eq, Hash)]
pub struct Balances {
    /// What we own.
    pub our_amount: u128,
    /// What the other side owns.
    pub their_amount: u128,
    /// Our settlement key.
    pub our_key: PublicKey,
    /// The other side's settlement key.
    pub their_key: PublicKey,
}

/// The state of the commitment transaction's own cell. Its hash is in that cell's lock args; where it is not, the
/// list, its directions, the amounts or the keys are not this commitment's, or it is the other side's commitment.
///
/// # Errors
///
/// [`Refusal::TooManyTlcs`] above 255 TLCs.
pub fn first_state(
    hash_length: HashLength,
    tlcs: &SettlementTlcs,
    balances: &Balances,
) -> Result<State, Refusal> {
    c::ready()?;
    let mut bytes = vec![0; hash_length.state(tlcs.len())];
    let length = c::first_state(&first_parts(hash_length, tlcs, balances), &mut bytes)?;
    bytes.truncate(length);
    State::written(bytes, hash_length, "WRITTEN_LENGTH")
}

/// As C takes it: `local` is ours and `remote` theirs, whosever the commitment is.
pub(crate) fn first_parts<'a>(
    hash_length: HashLength,
    tlcs: &'a SettlementTlcs,
    balances: &'a Balances,
) -> c::FirstState<'a> {
    c::FirstState {
        h: hash_length.h(),
        for_remote: tlcs.commitment().for_remote(),
        local_amount: balances.our_amount,
        remote_amount: balances.their_amount,
        tlcs: tlcs.as_bytes(),
        local_key: &balances.our_key,
        remote_key: &balances.their_key,
    }
}
