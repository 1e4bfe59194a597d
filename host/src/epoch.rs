//! Epochs, since values, and the time that the chain judges by.

use std::error::Error;
use std::fmt;

use crate::{c, Refusal};

/// Bit 63 of a since value (relative) with bits 62 and 61 (01, an epoch).
const RELATIVE_EPOCH: u64 = 0xA000_0000_0000_0000;
/// The bits that tell a since value's kind. Bits 60 to 56 are not looked at.
const KIND: u64 = 0xE000_0000_0000_0000;
/// An absolute timestamp.
const ABSOLUTE_TIME: u64 = 0x4000_0000_0000_0000;
/// The bits of a since value's number, and of a header's epoch.
const VALUE: u64 = 0x00FF_FFFF_FFFF_FFFF;
/// The largest number of an epoch, 24 bits.
const MOST: u32 = 0x00FF_FFFF;
/// The first time that is taken, in 2017: CKB's first block is of 2019.
const FIRST_MS: u64 = 1_500_000_000_000;
/// The first time that is not taken any more, in 2286.
const END_MS: u64 = 10_000_000_000_000;

/// An epoch: number + index / length, as CKB RFC 0017 packs it (24, 16 and 16 bits). A delay is one too. Two are
/// equal here if all three numbers are; [`is_due`] compares by value.
///
/// ```
/// use fiber_settlement::Epoch;
///
/// // As a header has it: `"epoch": "0x7080018000049"` of `ckb-cli rpc get_tip_header`.
/// let tip = Epoch::from_header_epoch(0x708_0018_000049)?;
/// assert_eq!((tip.number(), tip.index(), tip.length()), (73, 24, 1800));
/// // As the lock args and an input's since have it: relative.
/// let delay = Epoch::from_since(0xA000_0100_0000_0003)?;
/// assert_eq!(delay, Epoch::new(3, 0, 1)?);
/// assert_eq!(delay.to_since(), 0xA000_0100_0000_0003);
/// // The one is not taken for the other.
/// assert!(Epoch::from_header_epoch(0xA000_0100_0000_0003).is_err());
/// assert!(Epoch::from_since(0x708_0018_000049).is_err());
/// # Ok::<(), fiber_settlement::EpochError>(())
/// ```
#[derive(Clone, Copy, Debug, PartialEq, Eq, Hash)]
pub struct Epoch {
    number: u32,
    index: u16,
    length: u16,
}

impl Epoch {
    /// The epoch number + index / length. The index may exceed the length. The epoch of a block header, which is one
    /// packed number, is read by [`from_header_epoch`](Epoch::from_header_epoch).
    ///
    /// # Errors
    ///
    /// [`EpochError::NumberAbove`] for a number of more than 24 bits.
    pub const fn new(number: u32, index: u16, length: u16) -> Result<Epoch, EpochError> {
        if number > MOST {
            return Err(EpochError::NumberAbove(number));
        }
        Ok(Epoch { number, index, length })
    }

    /// The whole part.
    pub const fn number(self) -> u32 {
        self.number
    }

    /// The numerator of the rest.
    pub const fn index(self) -> u16 {
        self.index
    }

    /// The denominator of the rest.
    pub const fn length(self) -> u16 {
        self.length
    }

    /// From the field `epoch` of a block header.
    ///
    /// # Errors
    ///
    /// [`EpochError::NoHeaderEpoch`] where bits above 55 are set, as in a since value.
    pub const fn from_header_epoch(packed: u64) -> Result<Epoch, EpochError> {
        if packed & !VALUE != 0 {
            return Err(EpochError::NoHeaderEpoch(packed));
        }
        Ok(Epoch::unpack(packed))
    }

    /// As the field `epoch` of a block header has it.
    pub const fn to_header_epoch(self) -> u64 {
        (self.length as u64) << 40 | (self.index as u64) << 24 | self.number as u64
    }

    /// From a since value that is a relative epoch, as bytes 20 to 27 of lock args are. Bits 60 to 56 are not looked
    /// at.
    ///
    /// # Errors
    ///
    /// [`EpochError::NoRelativeEpoch`] for any other since value.
    pub const fn from_since(since: u64) -> Result<Epoch, EpochError> {
        if since & KIND != RELATIVE_EPOCH {
            return Err(EpochError::NoRelativeEpoch(since));
        }
        Ok(Epoch::unpack(since))
    }

    /// As the relative since of an input that has to wait this long. The chain wants the index below the length (CKB
    /// RFC 0030), which a scaled delay can miss: 2/3 of 1 + 300/601 is 901/901.
    pub const fn to_since(self) -> u64 {
        RELATIVE_EPOCH | self.to_header_epoch()
    }

    /// The fraction `numerator` / `denominator` of this epoch, rounded as the reference does.
    ///
    /// ```
    /// use fiber_settlement::Epoch;
    ///
    /// let third = Epoch::new(1, 0, 601)?.scale(1, 3)?;
    /// assert_eq!(third, Epoch::new(0, 300, 901)?);
    /// # Ok::<(), Box<dyn std::error::Error>>(())
    /// ```
    ///
    /// # Errors
    ///
    /// [`Refusal::ScaledAbove`], [`Refusal::LengthZero`].
    pub fn scale(self, numerator: u64, denominator: u64) -> Result<Epoch, Refusal> {
        c::ready()?;
        Epoch::answered("SCALE_NUMBER", c::scale(self.parts(), numerator, denominator)?)
    }

    /// From an answer of the library, whose fields have their bits by its contract.
    pub(crate) fn answered(field: &'static str, [number, index, length]: c::Parts) -> Result<Epoch, Refusal> {
        let fits = |_| Refusal::Answer { field, value: number };
        let number = u32::try_from(number).map_err(fits)?;
        let (index, length) = (u16::try_from(index).map_err(fits)?, u16::try_from(length).map_err(fits)?);
        Epoch::new(number, index, length).map_err(|_| Refusal::Answer { field, value: number.into() })
    }

    /// As C takes it.
    pub(crate) const fn parts(self) -> c::Parts {
        [self.number as u64, self.index as u64, self.length as u64]
    }

    /// From the low 56 bits.
    const fn unpack(packed: u64) -> Epoch {
        Epoch { number: packed as u32 & MOST, index: (packed >> 24) as u16, length: (packed >> 40) as u16 }
    }
}

/// Is `delay` over at the tip, for a cell that is in a block of epoch `cell`? `cell` is the epoch of the header of
/// the block that holds the cell, `tip` that of the tip's header. Exact, as fractions.
///
/// ```
/// use fiber_settlement::{is_due, Epoch};
///
/// let (cell, delay) = (Epoch::new(100, 0, 1)?, Epoch::new(0, 1, 3)?);
/// assert!(is_due(cell, delay, Epoch::new(100, 1, 3)?)?);
/// assert!(!is_due(cell, delay, Epoch::new(100, 332, 1000)?)?);
/// # Ok::<(), Box<dyn std::error::Error>>(())
/// ```
///
/// # Errors
///
/// [`Refusal::LengthZero`].
pub fn is_due(cell: Epoch, delay: Epoch, tip: Epoch) -> Result<bool, Refusal> {
    c::ready()?;
    Ok(c::is_due(cell.parts(), delay.parts(), tip.parts())? == 1)
}

/// The expiry in milliseconds that the since value of a record holds. `None`: it is no absolute timestamp, or one that
/// passes 64 bits in milliseconds; a later settlement passes such a TLC over.
///
/// ```
/// use fiber_settlement::expiry;
///
/// assert_eq!(expiry(0x4000_0000_0000_0005)?, Some(5_000));
/// assert_eq!(expiry(5)?, None);
/// # Ok::<(), fiber_settlement::Refusal>(())
/// ```
///
/// # Errors
///
/// [`Refusal::Abi`] alone: every value is taken.
pub fn expiry(since: u64) -> Result<Option<u64>, Refusal> {
    c::ready()?;
    Ok(c::expiry(since)?)
}

/// The median block time of the tip: what the chain judges an expiry by.
///
/// It comes from the node, by the RPC `get_block_median_time` with the tip's hash, in milliseconds. The wall clock
/// runs ahead of it by minutes, so that a choice made by it names TLCs whose transaction the chain still rejects.
///
/// A clock that is ahead also takes our share too early. That the chain does not turn down, since nothing in that
/// transaction carries a time, and TLCs whose preimage is still to come are lost then
/// ([`Unlocked::OurShare`](crate::Unlocked::OurShare)).
///
/// ```
/// use fiber_settlement::{MedianTime, TimeError};
///
/// assert_eq!(MedianTime::from_millis(1_700_000_000_000)?.millis(), 1_700_000_000_000);
/// assert_eq!(MedianTime::from_millis(1_700_000_000), Err(TimeError::Below(1_700_000_000))); // in seconds
/// # Ok::<(), TimeError>(())
/// ```
#[derive(Clone, Copy, Debug, PartialEq, Eq, PartialOrd, Ord, Hash)]
pub struct MedianTime(u64);

impl MedianTime {
    /// The answer of `get_block_median_time` for the tip, in milliseconds.
    ///
    /// # Errors
    ///
    /// [`TimeError::Below`] before CKB's first block, as a number of seconds is; [`TimeError::Above`] from the year
    /// 2286 on, as a number of microseconds or nanoseconds is.
    pub const fn from_millis(milliseconds: u64) -> Result<MedianTime, TimeError> {
        if milliseconds < FIRST_MS {
            return Err(TimeError::Below(milliseconds));
        }
        if milliseconds >= END_MS {
            return Err(TimeError::Above(milliseconds));
        }
        Ok(MedianTime(milliseconds))
    }

    /// In milliseconds.
    pub const fn millis(self) -> u64 {
        self.0
    }

    /// As an absolute timestamp since, in whole seconds.
    pub const fn to_since(self) -> u64 {
        ABSOLUTE_TIME | (self.0 / 1000)
    }
}

/// A number that is no epoch of the kind asked for.
#[derive(Clone, Copy, Debug, PartialEq, Eq, Hash)]
#[non_exhaustive]
pub enum EpochError {
    /// An epoch's number has more than 24 bits.
    NumberAbove(u32),
    /// Bits above 55 are set.
    NoHeaderEpoch(u64),
    /// The since value is absolute, or of another metric.
    NoRelativeEpoch(u64),
}

impl fmt::Display for EpochError {
    fn fmt(&self, f: &mut fmt::Formatter<'_>) -> fmt::Result {
        match self {
            EpochError::NumberAbove(number) => {
                write!(f, "an epoch's number has 24 bits, which {number} passes; hand in a number up to 16,777,215")
            }
            EpochError::NoHeaderEpoch(packed) => write!(
                f,
                "{packed:#x} is no epoch of a block header, which has 56 bits; read a since value with Epoch::from_since"
            ),
            EpochError::NoRelativeEpoch(since) => write!(
                f,
                "the since value {since:#x} is no relative epoch; read the epoch of a block header with \
                 Epoch::from_header_epoch"
            ),
        }
    }
}

impl Error for EpochError {}

/// A number that is no median block time in milliseconds.
#[derive(Clone, Copy, Debug, PartialEq, Eq, Hash)]
#[non_exhaustive]
pub enum TimeError {
    /// It is before CKB's first block: below 1,500,000,000,000.
    Below(u64),
    /// It is in the year 2286 or later: 10,000,000,000,000 or more.
    Above(u64),
}

impl fmt::Display for TimeError {
    fn fmt(&self, f: &mut fmt::Formatter<'_>) -> fmt::Result {
        match self {
            TimeError::Below(time) => write!(
                f,
                "the time {time} is before CKB's first block (is it in seconds?); hand in the tip's median block time \
                 in milliseconds"
            ),
            TimeError::Above(time) => write!(
                f,
                "the time {time} is in the year 2286 or later (is it in microseconds or nanoseconds?); hand in the \
                 tip's median block time in milliseconds"
            ),
        }
    }
}

impl Error for TimeError {}
