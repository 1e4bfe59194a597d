//! Hashes: CKB's, SHA-256, key hashes, and which of them a payment hash was made with.

use crate::{c, layout, Refusal};

/// A payment hash or a digest.
pub type Hash = [u8; layout::HASH];
/// The first 20 bytes of the CKB hash of a public key.
pub type KeyHash = [u8; layout::KEY_HASH];
/// The 33 bytes of a public key.
pub type PublicKey = [u8; layout::KEY];

/// How a payment hash was made.
#[derive(Clone, Copy, Debug, PartialEq, Eq, Hash)]
pub enum Algorithm {
    /// CKB's hash, BLAKE2b-256 with the personalisation `ckb-default-hash`.
    Ckb = 0,
    /// SHA-256.
    Sha256 = 1,
}

impl Algorithm {
    /// The hash of these bytes.
    ///
    /// # Errors
    ///
    /// [`Refusal::Abi`] alone.
    pub fn hash(self, bytes: &[u8]) -> Result<Hash, Refusal> {
        c::ready()?;
        Ok(self.hashed(bytes))
    }

    /// As [`hash`](Algorithm::hash), where the version was looked at before.
    pub(crate) fn hashed(self, bytes: &[u8]) -> Hash {
        match self {
            Algorithm::Ckb => c::ckb_hash(bytes),
            Algorithm::Sha256 => c::sha256(bytes),
        }
    }
}

/// CKB's hash: BLAKE2b-256 with the personalisation `ckb-default-hash`.
///
/// ```
/// let hash = fiber_settlement::ckb_hash(b"")?;
/// assert_eq!(hash[..4], [0x44, 0xf4, 0xc6, 0x97]);
/// # Ok::<(), fiber_settlement::Refusal>(())
/// ```
///
/// # Errors
///
/// [`Refusal::Abi`] alone.
pub fn ckb_hash(bytes: &[u8]) -> Result<Hash, Refusal> {
    c::ready()?;
    Ok(c::ckb_hash(bytes))
}

/// SHA-256.
///
/// ```
/// let hash = fiber_settlement::sha256(b"abc")?;
/// assert_eq!(hash[..4], [0xba, 0x78, 0x16, 0xbf]);
/// # Ok::<(), fiber_settlement::Refusal>(())
/// ```
///
/// # Errors
///
/// [`Refusal::Abi`] alone.
pub fn sha256(bytes: &[u8]) -> Result<Hash, Refusal> {
    c::ready()?;
    Ok(c::sha256(bytes))
}

/// The hash by which records and shares name a public key.
///
/// ```
/// use fiber_settlement::{ckb_hash, key_hash};
///
/// assert_eq!(key_hash(&[2; 33])?, ckb_hash(&[2; 33])?[..20]);
/// # Ok::<(), fiber_settlement::Refusal>(())
/// ```
///
/// # Errors
///
/// [`Refusal::Abi`] alone: a key of another length cannot be handed in.
pub fn key_hash(key: &PublicKey) -> Result<KeyHash, Refusal> {
    c::ready()?;
    Ok(c::key_hash(key)?)
}
