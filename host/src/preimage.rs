//! Stored preimages.

use std::{fmt, mem, slice};

use crate::hash::{Algorithm, Hash};
use crate::layout as l;
use crate::Refusal;

/// A stored preimage: a pair of hash and preimage. A list of them, `&[Preimage]`, is lent to the library as it lies.
///
/// Of several pairs with one hash the first alone is looked at, and it counts only if its preimage has that hash
/// under the TLC's algorithm. So a wrong pair in front of a right one hides it. Pairs that hide none are made by
/// [`SettlementTlc::preimage`](crate::SettlementTlc::preimage), which looks at the TLC's payment hash, by
/// [`Preimage::of`], and by [`Witness::preimages`](crate::Witness::preimages).
///
/// `Debug` shows the hash alone. A preimage is money until its TLC is settled, and logs are read by more people than
/// the store.
///
/// ```
/// use fiber_settlement::{Algorithm, Preimage};
///
/// let stored = Preimage::of(Algorithm::Sha256, [7; 32])?;
/// assert!(stored.counts(Algorithm::Sha256)?);
/// assert_eq!(Preimage::stored(stored.hash(), stored.preimage()), stored);
/// assert!(!format!("{stored:?}").contains("7, 7"));
/// # Ok::<(), fiber_settlement::Refusal>(())
/// ```
///
/// Hash and preimage are not put together by their fields:
///
/// ```compile_fail,E0451
/// let pair = fiber_settlement::Preimage { hash: [7; 32], preimage: [7; 32] };
/// ```
#[derive(Clone, Copy, PartialEq, Eq, Hash)]
#[repr(C)]
pub struct Preimage {
    hash: Hash,
    preimage: [u8; 32],
}

// A pair is its 64 bytes: no padding, and any address will do.
const _: () = assert!(mem::size_of::<Preimage>() == l::PAIR && mem::align_of::<Preimage>() == 1);

impl Preimage {
    /// The pair of a preimage, with its hash under this algorithm.
    ///
    /// # Errors
    ///
    /// [`Refusal::Abi`] alone.
    pub fn of(algorithm: Algorithm, preimage: [u8; 32]) -> Result<Preimage, Refusal> {
        Ok(Preimage { hash: algorithm.hash(&preimage)?, preimage })
    }

    /// A pair as a store has it. Nothing is looked at here: of several pairs with one hash only the first is looked at
    /// by a choice, and it counts only under the TLC's algorithm ([`counts`](Preimage::counts)).
    pub const fn stored(hash: Hash, preimage: [u8; 32]) -> Preimage {
        Preimage { hash, preimage }
    }

    /// The payment hash, whole.
    pub const fn hash(&self) -> Hash {
        self.hash
    }

    /// The preimage. It is money until its TLC is settled.
    pub const fn preimage(&self) -> [u8; 32] {
        self.preimage
    }

    /// Does the preimage have the hash under this algorithm?
    ///
    /// # Errors
    ///
    /// [`Refusal::Abi`] alone.
    pub fn counts(&self, algorithm: Algorithm) -> Result<bool, Refusal> {
        Ok(algorithm.hash(&self.preimage)? == self.hash)
    }
}

impl fmt::Debug for Preimage {
    fn fmt(&self, f: &mut fmt::Formatter<'_>) -> fmt::Result {
        f.debug_struct("Preimage").field("hash", &self.hash).finish_non_exhaustive()
    }
}

/// The list as the library reads it: hash 32, preimage 32, pair behind pair. Nothing is copied.
pub(crate) fn flat(pairs: &[Preimage]) -> &[u8] {
    // SAFETY: a pair is 64 plain bytes without padding (asserted above), so the list is 64 bytes for each, all of them
    // initialised; the lifetime is the list's.
    unsafe { slice::from_raw_parts(pairs.as_ptr().cast(), mem::size_of_val(pairs)) }
}
