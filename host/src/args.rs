//! The lock args of a commitment cell.

use std::error::Error;
use std::fmt;

use crate::hash::KeyHash;
use crate::layout as l;
use crate::{c, Epoch, Refusal};

/// How many bytes of a payment hash a record holds: h. It follows from the lock args ([`LockArgs::hash_length`]) and
/// from nothing else: bytes that are read with the wrong one can have a length that fits.
///
/// There is no other value:
///
/// ```compile_fail,E0308
/// fiber_settlement::read(21, &[0; 74]);
/// ```
#[derive(Clone, Copy, Debug, PartialEq, Eq, Hash)]
pub enum HashLength {
    /// 20 bytes, the first of the hash: args of 57 bytes.
    Short,
    /// All 32 bytes: args of 58 bytes.
    Full,
}

impl HashLength {
    /// h.
    pub const fn bytes(self) -> usize {
        match self {
            HashLength::Short => l::H_SHORT,
            HashLength::Full => l::H_FULL,
        }
    }

    /// The length of a record.
    pub const fn record(self) -> usize {
        l::record(self.bytes())
    }

    /// The length of a state of this many TLCs.
    ///
    /// ```
    /// use fiber_settlement::HashLength;
    ///
    /// assert_eq!(HashLength::Full.state(255), 24_808); // the longest there is
    /// ```
    pub const fn state(self, tlcs: usize) -> usize {
        l::state(self.bytes(), tlcs)
    }

    /// As C takes it.
    pub(crate) const fn h(self) -> u64 {
        self.bytes() as u64
    }
}

/// The lock args of a commitment cell, 57 or 58 bytes:
///
/// | Bytes | What |
/// |---|---|
/// | 0 to 19 | hash of the aggregated funding key: whose commitment it is |
/// | 20 to 27 | the delay, a relative epoch since value, little-endian |
/// | 28 to 35 | the commitment number, big-endian |
/// | 36 to 55 | state hash: the first 20 bytes of the CKB hash of the state that the cell holds |
/// | 56 | 0 in the commitment transaction's own cell, 1 in a cell that a settlement transaction made |
/// | 57 | features, in args of 58 bytes: 1, records hold whole payment hashes |
///
/// The reference writes the 1 of byte 56, and tells the first settlement by the cell's out point: a tower that knows
/// the out point of the commitment transaction's cell compares it with [`is_first`](LockArgs::is_first).
///
/// ```
/// use fiber_settlement::{ArgsError, Epoch, HashLength, LockArgs};
///
/// let mut bytes = [0; 58];
/// bytes[20..28].copy_from_slice(&0xA000_0100_0000_0006u64.to_le_bytes());
/// bytes[28..36].copy_from_slice(&9u64.to_be_bytes());
/// bytes[57] = 1;
/// let args = LockArgs::parse(&bytes)?;
/// assert_eq!(args.hash_length(), HashLength::Full);
/// assert_eq!(args.commitment_number(), 9);
/// assert_eq!(args.delay()?, Epoch::new(6, 0, 1)?);
/// assert_eq!(args.third()?, Epoch::new(2, 0, 3)?);
/// assert!(args.is_first());
///
/// assert_eq!(LockArgs::parse(&bytes[..57])?.hash_length(), HashLength::Short);
/// assert_eq!(LockArgs::parse(&bytes[..56]), Err(ArgsError::Length(56)));
/// # Ok::<(), Box<dyn std::error::Error>>(())
/// ```
#[derive(Clone, Copy, Debug, PartialEq, Eq, Hash)]
pub struct LockArgs {
    /// Behind args of 57 bytes comes a 0.
    bytes: [u8; l::ARGS_FULL_LEN],
    hash_length: HashLength,
}

impl LockArgs {
    /// Reads lock args, as `lock.args` of the cell has them.
    ///
    /// The library itself takes args of every length from 36 on, as the reference does; which of them there are, and
    /// what they say of h, is in the reference's `ChannelFeatures`. This refuses the rest, since a guess of h would
    /// shift every record.
    ///
    /// # Errors
    ///
    /// [`ArgsError`]: another length; 58 bytes with features other than 1, among them 0, for which the reference has args
    /// of 57; a byte 56 that is neither 0 nor 1.
    pub fn parse(bytes: &[u8]) -> Result<LockArgs, ArgsError> {
        let hash_length = match (bytes.len(), bytes.get(l::ARGS_FEATURES)) {
            (l::ARGS_SHORT_LEN, _) => HashLength::Short,
            (l::ARGS_FULL_LEN, Some(1)) => HashLength::Full,
            (l::ARGS_FULL_LEN, Some(features)) => return Err(ArgsError::Features(*features)),
            (length, _) => return Err(ArgsError::Length(length)),
        };
        if bytes[l::ARGS_LATER] > 1 {
            return Err(ArgsError::Later(bytes[l::ARGS_LATER]));
        }
        let mut all = [0; l::ARGS_FULL_LEN];
        all[..bytes.len()].copy_from_slice(bytes);
        Ok(LockArgs { bytes: all, hash_length })
    }

    /// The args as they are on chain, 57 or 58 bytes.
    pub fn as_bytes(&self) -> &[u8] {
        match self.hash_length {
            HashLength::Short => &self.bytes[..l::ARGS_SHORT_LEN],
            HashLength::Full => &self.bytes,
        }
    }

    /// How many bytes of a payment hash the channel's records hold.
    pub const fn hash_length(&self) -> HashLength {
        self.hash_length
    }

    /// Do the args name this aggregated funding key (MuSig2, x-only, 32 bytes)? So a tower tells whose commitment it
    /// is: aggregated from the keys in the order ours, theirs it is
    /// [`Commitment::Theirs`](crate::Commitment::Theirs), in the order theirs, ours it is
    /// [`Commitment::Ours`](crate::Commitment::Ours).
    ///
    /// # Errors
    ///
    /// [`Refusal::Abi`] alone.
    pub fn is_of(&self, aggregated_key: &[u8; 32]) -> Result<bool, Refusal> {
        c::ready()?;
        Ok(self.bytes[..l::KEY_HASH] == c::ckb_hash(aggregated_key)[..l::KEY_HASH])
    }

    /// The whole delay.
    ///
    /// # Errors
    ///
    /// [`Refusal::NoDelay`] where it is no relative epoch.
    pub fn delay(&self) -> Result<Epoch, Refusal> {
        Epoch::from_since(u64::from_le_bytes(self.part(l::ARGS_DELAY))).map_err(|_| Refusal::NoDelay)
    }

    /// A third of the delay: from here on a first settlement takes TLCs by preimage.
    ///
    /// # Errors
    ///
    /// [`Refusal::NoDelay`]; [`Refusal::LengthZero`] for a delay of length 0.
    pub fn third(&self) -> Result<Epoch, Refusal> {
        self.delay()?.scale(1, 3)
    }

    /// Two thirds of the delay: from here on a first settlement takes TLCs by timeout.
    ///
    /// # Errors
    ///
    /// As [`third`](LockArgs::third).
    pub fn two_thirds(&self) -> Result<Epoch, Refusal> {
        self.delay()?.scale(2, 3)
    }

    /// The number of the commitment.
    pub fn commitment_number(&self) -> u64 {
        u64::from_be_bytes(self.part(l::ARGS_NUMBER))
    }

    /// The first 20 bytes of the CKB hash of the state that the cell holds.
    pub fn state_hash(&self) -> KeyHash {
        self.part(l::ARGS_STATE_HASH)
    }

    /// Is it the commitment transaction's own cell? Its settlement is the first one, and no witness is before it.
    pub const fn is_first(&self) -> bool {
        self.bytes[l::ARGS_LATER] == 0
    }

    /// Did a settlement transaction make the cell? Its settlement is a later one, and that transaction's witness goes
    /// with it.
    pub const fn is_later(&self) -> bool {
        !self.is_first()
    }

    fn part<const N: usize>(&self, at: usize) -> [u8; N] {
        let mut part = [0; N];
        part.copy_from_slice(&self.bytes[at..at + N]);
        part
    }
}

/// Why bytes are no lock args of a commitment cell.
#[derive(Clone, Copy, Debug, PartialEq, Eq, Hash)]
#[non_exhaustive]
pub enum ArgsError {
    /// They have neither 57 nor 58 bytes.
    Length(usize),
    /// They have 58 bytes, and the features byte is not 1.
    Features(u8),
    /// Byte 56 is neither 0 nor 1.
    Later(u8),
}

impl fmt::Display for ArgsError {
    fn fmt(&self, f: &mut fmt::Formatter<'_>) -> fmt::Result {
        match self {
            ArgsError::Length(length) => write!(
                f,
                "lock args of a commitment cell have 57 or 58 bytes, and these have {length}; look whether the cell has the \
                 commitment lock"
            ),
            ArgsError::Features(features) => write!(
                f,
                "the features byte of the lock args is {features}, and only 1 is known; do not guess how long this \
                 channel's payment hashes are"
            ),
            ArgsError::Later(byte) => write!(
                f,
                "byte 56 of the lock args is {byte}, where the commitment transaction's own cell has 0 and a cell that a \
                 settlement made has 1; look whether the cell has the commitment lock"
            ),
        }
    }
}

impl Error for ArgsError {}
