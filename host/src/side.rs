//! Whose is it? The words for sides, and the one place where they are turned.

use crate::layout;

/// Whose commitment transaction is on chain.
///
/// The lock args tell: their first 20 bytes are the hash of the aggregated funding key, and the two sides'
/// commitments aggregate the two keys in opposite order ([`LockArgs::is_of`](crate::LockArgs::is_of)). It stays the
/// same for all cells that follow from one commitment. The reference, and the C interface, call it `for_remote`.
///
/// No function of this crate takes a bool for it:
///
/// ```compile_fail,E0308
/// use fiber_settlement::SettlementTlcs;
///
/// let for_remote = true;
/// SettlementTlcs::new(for_remote, &[]);
/// ```
#[derive(Clone, Copy, Debug, PartialEq, Eq, Hash)]
pub enum Commitment {
    /// Ours: this side's commitment transaction was sent. `for_remote` is 0.
    Ours,
    /// Theirs: the other side's commitment transaction was sent. `for_remote` is 1.
    Theirs,
}

/// A party of a commitment, as a witness has it. A witness knows no "us": what it says holds for both towers.
#[derive(Clone, Copy, Debug, PartialEq, Eq, Hash)]
pub enum Party {
    /// The side whose commitment transaction it is. Its share is in the slot `remote`, its key hash in a record is the
    /// `remote` one.
    Owner,
    /// The other one. Its share is in the slot `local`, its key hash in a record is the `local` one.
    Other,
}

/// A side of the channel, as the tower knows it.
#[derive(Clone, Copy, Debug, PartialEq, Eq, Hash)]
pub enum Side {
    /// The side that this tower works for.
    Us,
    /// The other side.
    Them,
}

impl Commitment {
    /// Which party of this commitment a side is. With [`side`](Commitment::side), its inverse, this is the only place
    /// where sides are turned: all else in this crate goes through these two.
    ///
    /// | In a witness | [`Commitment::Ours`] | [`Commitment::Theirs`] |
    /// |---|---|---|
    /// | first share, slot `remote`, unlock 0xFE: the owner's | ours | theirs |
    /// | second share, slot `local`, unlock 0xFF: the other party's | theirs | ours |
    /// | `remote` key hash of a record: the owner's | of our key | of their key |
    /// | `local` key hash of a record: the other party's | of their key | of our key |
    /// | type bit 0 set ("received"): the owner offered it | we offered it | they offered it |
    /// | type bit 0 clear ("offered"): the other party offered it | they offered it | we offered it |
    ///
    /// What we offered comes back to us by timeout, and what they offered we take by preimage, in both columns.
    ///
    /// ```
    /// use fiber_settlement::{Commitment, Party, Side};
    ///
    /// assert_eq!(Commitment::Ours.party(Side::Us), Party::Owner);
    /// assert_eq!(Commitment::Theirs.party(Side::Us), Party::Other);
    /// assert_eq!(Commitment::Theirs.side(Party::Owner), Side::Them);
    /// ```
    pub const fn party(self, side: Side) -> Party {
        match (self, side) {
            (Commitment::Ours, Side::Us) | (Commitment::Theirs, Side::Them) => Party::Owner,
            (Commitment::Ours, Side::Them) | (Commitment::Theirs, Side::Us) => Party::Other,
        }
    }

    /// Which side a party of this commitment is: [`party`](Commitment::party) the other way round.
    pub const fn side(self, party: Party) -> Side {
        match (self, party) {
            (Commitment::Ours, Party::Owner) | (Commitment::Theirs, Party::Other) => Side::Us,
            (Commitment::Ours, Party::Other) | (Commitment::Theirs, Party::Owner) => Side::Them,
        }
    }

    /// The flag of the C interface.
    pub(crate) const fn for_remote(self) -> u8 {
        match self {
            Commitment::Ours => 0,
            Commitment::Theirs => 1,
        }
    }
}

impl Party {
    /// The one that this is not. Who offered a TLC takes it back by timeout; the opposite takes it by preimage.
    pub const fn opposite(self) -> Party {
        match self {
            Party::Owner => Party::Other,
            Party::Other => Party::Owner,
        }
    }

    /// The unlock byte of its share.
    pub const fn share_byte(self) -> u8 {
        match self {
            Party::Owner => layout::UNLOCK_REMOTE,
            Party::Other => layout::UNLOCK_LOCAL,
        }
    }
}
