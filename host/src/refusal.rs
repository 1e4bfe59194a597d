//! Why a call was turned down, and why a choice waits.

use std::error::Error;
use std::fmt;

use crate::c::Code;
use crate::layout;

/// Why something was turned down. Nothing was written then.
///
/// Most cases are the library's, each with its [`number`](Refusal::number) and [`place`](Refusal::place); the last
/// ones are this crate's own, which look before the library is asked. `Display` is one sentence: what is wrong, and
/// what to do.
///
/// A place counts from the witness's first byte; of a witness that was read by
/// [`Witness::from_chain`](crate::Witness::from_chain) that is the byte behind the 16 in front.
///
/// ```
/// use fiber_settlement::{read, HashLength, Refusal};
///
/// let refusal = read(HashLength::Short, &[0; 73]).unwrap_err();
/// assert_eq!(refusal, Refusal::SharesCut { at: 2 });
/// assert_eq!((refusal.number(), refusal.place()), (3, 2));
/// assert!(refusal.to_string().starts_with("the share part that starts at byte 2 of the witness is cut short; "));
/// ```
///
/// A wait is no refusal: [`choose`](crate::choose) answers it as [`Outcome::Wait`](crate::Outcome::Wait) with a
/// [`Cause`].
#[derive(Clone, Copy, Debug, PartialEq, Eq, Hash)]
#[non_exhaustive]
pub enum Refusal {
    /// 1: the witness is below 2 bytes.
    WitnessShort {
        /// How many it has.
        length: u64,
    },
    /// 2: a TLC's record is cut short.
    TlcCut {
        /// Its first byte.
        at: u64,
    },
    /// 3: the share part is cut short.
    SharesCut {
        /// Its first byte.
        at: u64,
    },
    /// 4: an unlock is below 67 bytes, or below 99 with flag 1.
    UnlockCut {
        /// Its first byte.
        at: u64,
    },
    /// 5: an unlock byte is neither 0xFE, 0xFF nor the place of a TLC.
    UnlockUnknown {
        /// The unlock's first byte.
        at: u64,
    },
    /// 6: a TLC is settled twice.
    SettledTwice {
        /// The later unlock's first byte.
        at: u64,
    },
    /// 7: a denominator, or the length of an epoch, is 0.
    LengthZero,
    /// 8: a numerator or denominator passes 64 bits, or a whole part 16,777,215. No choice says so.
    ScaledAbove,
    /// 10: the lock args are below 36 bytes, which [`LockArgs`](crate::LockArgs) never are.
    ArgsShort,
    /// 11: bytes 20 to 27 of the lock args are no relative epoch since value.
    NoDelay,
    /// 12: there are more than 254 TLCs at a choice, or more than 255 in a first state.
    TooManyTlcs,
    /// 13: the output is too short.
    OutputShort {
        /// How many bytes are needed.
        needed: u64,
    },
    /// 14: an argument has a length or a value that its layout does not have. This crate's types make none such.
    NotWell,
    /// A number that this crate does not know.
    Unknown {
        /// The number.
        number: u64,
        /// Its place.
        place: u64,
    },
    /// The library answered with a field that its header does not have, of a success or of a wait.
    Answer {
        /// Which field, by the header's name for it.
        field: &'static str,
        /// What it says.
        value: u64,
    },
    /// The library that was linked is of another version than this crate.
    Abi {
        /// The library's number.
        library: u64,
        /// This crate's.
        expected: u64,
    },
    /// A witness from the chain does not begin with the 16 bytes of an empty `WitnessArgs`.
    PrefixMissing,
    /// A witness that should have its 16 bytes in front cut off still begins with them.
    PrefixLeft,
    /// The lock args are of a cell that a settlement transaction made, and no witness came with them.
    WitnessMissing,
    /// The lock args are of the commitment transaction's own cell, and a witness came with them.
    WitnessOfFirst,
    /// The epoch of the cell's block is after that of the tip.
    CellAfterTip,
    /// The state does not have the hash that the lock args name.
    StateDiffers,
    /// A slot of the state has neither the hash of its side's settlement key nor zeros.
    KeysDiffer,
    /// The tracked list is not what stands in the cell.
    TrackedDiffers {
        /// The first place that differs, from 0.
        place: u64,
    },
    /// A preimage does not have the payment hash under the TLC's algorithm.
    PreimageDiffers,
    /// Two parts of a request are of different hash lengths, or the tracked list is of other settlement TLCs.
    Mixed {
        /// The part that differs from the lock args or from the settlement TLCs.
        part: &'static str,
    },
    /// A record that stands is of none of the settlement TLCs, or not where it should stand.
    RecordUnknown {
        /// Its place among the records, from 0.
        place: u64,
    },
}

impl Refusal {
    /// The number of the table that C answers; 0 for what this crate turns down itself.
    pub const fn number(&self) -> u64 {
        match *self {
            Refusal::WitnessShort { .. } => layout::WITNESS_SHORT,
            Refusal::TlcCut { .. } => layout::TLC_CUT,
            Refusal::SharesCut { .. } => layout::SHARES_CUT,
            Refusal::UnlockCut { .. } => layout::UNLOCK_CUT,
            Refusal::UnlockUnknown { .. } => layout::UNLOCK_UNKNOWN,
            Refusal::SettledTwice { .. } => layout::SETTLED_TWICE,
            Refusal::LengthZero => layout::LENGTH_ZERO,
            Refusal::ScaledAbove => layout::SCALED_ABOVE,
            Refusal::ArgsShort => layout::ARGS_SHORT,
            Refusal::NoDelay => layout::NO_DELAY,
            Refusal::TooManyTlcs => layout::TOO_MANY_TLCS,
            Refusal::OutputShort { .. } => layout::OUTPUT_SHORT,
            Refusal::NotWell => layout::NOT_WELL,
            Refusal::Unknown { number, .. } => number,
            Refusal::Answer { .. } | Refusal::Abi { .. } | Refusal::PrefixMissing | Refusal::PrefixLeft => 0,
            Refusal::WitnessMissing | Refusal::WitnessOfFirst | Refusal::CellAfterTip => 0,
            Refusal::StateDiffers | Refusal::KeysDiffer | Refusal::PreimageDiffers => 0,
            Refusal::TrackedDiffers { .. } | Refusal::Mixed { .. } | Refusal::RecordUnknown { .. } => 0,
        }
    }

    /// The place that goes with it: a byte of the witness, its length, the bytes needed, the place of a record, else 0.
    pub const fn place(&self) -> u64 {
        match *self {
            Refusal::WitnessShort { length } => length,
            Refusal::TlcCut { at } | Refusal::SharesCut { at } | Refusal::UnlockCut { at } => at,
            Refusal::UnlockUnknown { at } | Refusal::SettledTwice { at } => at,
            Refusal::OutputShort { needed } => needed,
            Refusal::Unknown { place, .. } => place,
            Refusal::TrackedDiffers { place } | Refusal::RecordUnknown { place } => place,
            _ => 0,
        }
    }
}

impl From<Code> for Refusal {
    fn from(Code { number, place }: Code) -> Refusal {
        match number {
            layout::WITNESS_SHORT => Refusal::WitnessShort { length: place },
            layout::TLC_CUT => Refusal::TlcCut { at: place },
            layout::SHARES_CUT => Refusal::SharesCut { at: place },
            layout::UNLOCK_CUT => Refusal::UnlockCut { at: place },
            layout::UNLOCK_UNKNOWN => Refusal::UnlockUnknown { at: place },
            layout::SETTLED_TWICE => Refusal::SettledTwice { at: place },
            layout::LENGTH_ZERO => Refusal::LengthZero,
            layout::SCALED_ABOVE => Refusal::ScaledAbove,
            layout::ARGS_SHORT => Refusal::ArgsShort,
            layout::NO_DELAY => Refusal::NoDelay,
            layout::TOO_MANY_TLCS => Refusal::TooManyTlcs,
            layout::OUTPUT_SHORT => Refusal::OutputShort { needed: place },
            layout::NOT_WELL => Refusal::NotWell,
            number => Refusal::Unknown { number, place },
        }
    }
}

impl fmt::Display for Refusal {
    fn fmt(&self, f: &mut fmt::Formatter<'_>) -> fmt::Result {
        match *self {
            Refusal::WitnessShort { .. }
            | Refusal::TlcCut { .. }
            | Refusal::SharesCut { .. }
            | Refusal::UnlockCut { .. }
            | Refusal::UnlockUnknown { .. }
            | Refusal::SettledTwice { .. } => self.about_the_witness(f),
            Refusal::Unknown { .. } | Refusal::Answer { .. } | Refusal::Abi { .. } => self.about_the_library(f),
            Refusal::Mixed { part } => write!(
                f,
                "the {part} of the request was made for another hash length, commitment or list of settlement TLCs; \
                 make all parts for the cell that is spent"
            ),
            Refusal::TrackedDiffers { place } => write!(
                f,
                "the tracked list differs at place {place} from what stands in the cell; make it with \
                 TrackedTlcs::first for the commitment transaction's own cell, then with `after` each settlement's \
                 witness, or with `standing` from the state"
            ),
            Refusal::RecordUnknown { place } => write!(
                f,
                "the record at place {place} is not the one that the settlement TLCs give there, or a settlement was \
                 skipped or taken twice; look whose commitment it is, who offered each TLC, and whether the list is \
                 this commitment's"
            ),
            Refusal::OutputShort { needed } => {
                write!(f, "the output is too short; lend {needed} bytes and ask again")
            }
            _ => f.write_str(self.about_the_call().unwrap_or_else(|| self.about_the_request())),
        }
    }
}

/// What to do about bytes that are no witness of the channel.
const FETCH: &str = "take the witness at the index of the input that spends the commitment cell, cut its 16-byte \
                     prefix once, take h from that cell's lock args, and leave a revocation's witness, which is no \
                     settlement witness";

impl Refusal {
    /// Numbers 1 to 6.
    fn about_the_witness(&self, f: &mut fmt::Formatter<'_>) -> fmt::Result {
        let at = self.place();
        match *self {
            Refusal::WitnessShort { length } => {
                write!(f, "the witness has {length} of the 2 bytes that it needs at least; {FETCH}")
            }
            Refusal::TlcCut { .. } => {
                write!(f, "the TLC record that starts at byte {at} of the witness is cut short; {FETCH}")
            }
            Refusal::SharesCut { .. } => {
                write!(f, "the share part that starts at byte {at} of the witness is cut short; {FETCH}")
            }
            Refusal::UnlockCut { .. } => write!(
                f,
                "the unlock that starts at byte {at} of the witness is below 67 bytes, or below 99 with flag 1; {FETCH}"
            ),
            Refusal::UnlockUnknown { .. } => write!(
                f,
                "the unlock at byte {at} of the witness names neither a share nor a TLC of its list; {FETCH}"
            ),
            _ => write!(
                f,
                "the unlock at byte {at} of the witness settles a TLC that an earlier one settled, and the state that \
                 they leave is not defined; {FETCH}"
            ),
        }
    }

    /// Numbers 7 to 14, but for 13.
    fn about_the_call(&self) -> Option<&'static str> {
        Some(match self {
            Refusal::LengthZero => {
                "a denominator or the length of an epoch is 0; look whether both epochs come from block headers, \
                 and if so leave the cell, whose delay is none"
            }
            Refusal::ScaledAbove => {
                "the scaling of an epoch passes 64 bits, or its whole part passes 16,777,215; take a smaller fraction"
            }
            Refusal::ArgsShort => {
                "the lock args are below 36 bytes; leave the cell, which is no commitment cell"
            }
            Refusal::NoDelay => {
                "bytes 20 to 27 of the lock args are no relative epoch since value; leave the cell, which is no \
                 commitment cell of the reference"
            }
            Refusal::TooManyTlcs => {
                "there are more than 254 TLCs at the choice, or more than 255 in a first state, and no unlock byte \
                 names the last of them; tell an operator, since a later settlement goes on only when an unlock has \
                 settled one"
            }
            Refusal::NotWell => {
                "an argument has a length or a value that its layout does not have; correct the call, since asking \
                 again does not help"
            }
            _ => return None,
        })
    }

    /// What does not go together in a request, or with a cell.
    fn about_the_request(&self) -> &'static str {
        match self {
            Refusal::PrefixMissing => {
                "the witness does not begin with the 16 bytes of an empty WitnessArgs, so it is no settlement witness \
                 from the chain; take the one at the index of the input that spends the commitment cell"
            }
            Refusal::PrefixLeft => {
                "the witness still begins with the 16 bytes that stand in front on chain, or had them twice; cut them \
                 off, or read it as it is on chain with Witness::from_chain"
            }
            Refusal::WitnessMissing => {
                "the lock args say that a settlement transaction made the cell; hand in the witness of that \
                 transaction"
            }
            Refusal::WitnessOfFirst => {
                "the lock args are of the commitment transaction's own cell, whose settlement is the first and has no \
                 witness before it; hand in none"
            }
            Refusal::CellAfterTip => {
                "the epoch of the cell's block is after that of the tip; look whether the two are swapped, or fetch \
                 the tip again"
            }
            Refusal::KeysDiffer => {
                "the settlement keys are not those of this cell: our slot has neither the hash of our_key nor zeros, \
                 or the other slot neither that of their_key nor zeros; look whether our_key and their_key are \
                 swapped, or whose commitment it is"
            }
            Refusal::PreimageDiffers => {
                "the preimage does not have the TLC's payment hash under the TLC's algorithm; look whether it is of \
                 this payment, and how the payment hash was made"
            }
            _ => {
                "the state does not have the hash that the lock args name, so acting on it could pay the other side; \
                 look whose commitment it is, who offered each TLC, and whether the list, the amounts, the keys and \
                 the witness are this cell's"
            }
        }
    }

    /// Crate and library do not go together.
    fn about_the_library(&self, f: &mut fmt::Formatter<'_>) -> fmt::Result {
        match *self {
            Refusal::Answer { field, value } => write!(
                f,
                "the library answered {value} in its field {field}, which its header does not have there; build the \
                 crate and the library from one version"
            ),
            Refusal::Abi { library, expected } => write!(
                f,
                "the linked libsettlement_c.a is of version {library} and this crate is of version {expected}; build \
                 both from one version"
            ),
            _ => write!(
                f,
                "the library answered number {} at {}, which this crate does not know; build both from one version",
                self.number(),
                self.place()
            ),
        }
    }
}

impl Error for Refusal {}

/// Why a choice waits. Nothing was written, and the same may be asked again at the next tip.
///
/// The cases with a `tlc` name the first TLC that is still pending, by its place in the state and in
/// [`Request::tracked`](crate::Request::tracked), from 0: `request.tracked.iter().nth(tlc)` has its payment hash and
/// its record. Where several fit that TLC, it is the one with the lowest number. A TLC behind it may come due sooner,
/// so a tower goes on asking at every tip. Never named is a TLC that is given up: they offered it, no stored preimage
/// counts for it, and it has expired; in a first settlement the whole delay must be due too.
///
/// ```
/// use fiber_settlement::Cause;
///
/// let cause = Cause::ExpiryNotPassed { tlc: 3 };
/// assert_eq!((cause.number(), cause.place(), cause.tlc()), (24, 3, Some(3)));
/// assert!(cause.to_string().starts_with("waits for TLC 3: its expiry has not passed; ask again at the next tip"));
/// assert_eq!((Cause::DelayNotDue.number(), Cause::DelayNotDue.tlc()), (22, None));
/// ```
#[derive(Clone, Copy, Debug, PartialEq, Eq, Hash)]
#[non_exhaustive]
pub enum Cause {
    /// 20: the tracked list differs from the TLCs that stand. [`choose`](crate::choose) looks at that before the
    /// library is asked ([`Refusal::TrackedDiffers`]), so it does not answer this.
    ListDiffers,
    /// 21, in a later settlement: our share was paid out. From then on the core, as the reference, takes no TLC of this
    /// cell any more, also with a preimage that comes later; the other side's next settlement takes the whole cell.
    NotOurShare,
    /// 22: a first settlement without TLCs, and the whole delay is not due. Where this stays past the delay, look
    /// whether [`Request::cell_epoch`](crate::Request::cell_epoch) is that of the cell's own block.
    DelayNotDue,
    /// 23, in a later settlement: the TLC's expiry is no absolute timestamp, or no settlement TLC has its hash and our
    /// key. No time and no preimage makes it due, and till the last settlement our share waits with it: an operator has
    /// to look. Tracked TLCs are made from the settlement TLCs, whose records have both, so
    /// [`choose`](crate::choose) does not answer this.
    NoExpiryOrKey {
        /// Its place in the tracked list.
        tlc: usize,
    },
    /// 24, in a later settlement: we offered the TLC, and its expiry has not passed. Where this stays past the expiry,
    /// look whether [`Request::time`](crate::Request::time) is the tip's median time.
    ExpiryNotPassed {
        /// Its place in the tracked list.
        tlc: usize,
    },
    /// 24, in a first settlement: the TLC's part of the delay is not due, two thirds where we offered it and one third
    /// where they did; or we offered it, and its expiry has not passed. Where this stays past both, look whether
    /// [`Request::cell_epoch`](crate::Request::cell_epoch) is that of the cell's own block and
    /// [`Request::time`](crate::Request::time) the tip's median time.
    DelayOrExpiry {
        /// Its place in the tracked list.
        tlc: usize,
    },
    /// 25: they offered the TLC, no stored preimage counts for it, and it is not given up yet: its expiry has not
    /// passed, or in a first settlement the whole delay is not due. With a preimage that comes it is chosen at once.
    NoPreimage {
        /// Its place in the tracked list.
        tlc: usize,
    },
}

impl Cause {
    /// The wait that a choice's number and place mean, or why the choice was turned down. `standing` is how many TLCs
    /// stand. A number or a place that the header does not have for such a choice is turned down, not guessed: a
    /// library from before 23 to 25 has the same ABI number, and says 22 for all of them.
    pub(crate) fn of(code: Code, is_later: bool, standing: usize) -> Result<Cause, Refusal> {
        let odd = |field, value| Refusal::Answer { field, value };
        let named = || match usize::try_from(code.place) {
            Ok(tlc) if tlc < standing => Ok(tlc),
            _ => Err(odd("PLACE", code.place)),
        };
        let unplaced = |cause| if code.place == 0 { Ok(cause) } else { Err(odd("PLACE", code.place)) };
        match code.number {
            layout::LIST_DIFFERS => unplaced(Cause::ListDiffers),
            layout::NOT_OUR_SHARE if is_later => unplaced(Cause::NotOurShare),
            layout::DELAY_NOT_DUE if !is_later && standing == 0 => unplaced(Cause::DelayNotDue),
            layout::TLC_PASSED_OVER if is_later => named().map(|tlc| Cause::NoExpiryOrKey { tlc }),
            layout::TLC_NOT_DUE if is_later => named().map(|tlc| Cause::ExpiryNotPassed { tlc }),
            layout::TLC_NOT_DUE => named().map(|tlc| Cause::DelayOrExpiry { tlc }),
            layout::TLC_NO_PREIMAGE => named().map(|tlc| Cause::NoPreimage { tlc }),
            layout::NOT_OUR_SHARE | layout::DELAY_NOT_DUE | layout::TLC_PASSED_OVER => {
                Err(odd("NUMBER", code.number))
            }
            _ => Err(code.into()),
        }
    }

    /// The number of the table that C answers.
    pub const fn number(&self) -> u64 {
        match self {
            Cause::ListDiffers => layout::LIST_DIFFERS,
            Cause::NotOurShare => layout::NOT_OUR_SHARE,
            Cause::DelayNotDue => layout::DELAY_NOT_DUE,
            Cause::NoExpiryOrKey { .. } => layout::TLC_PASSED_OVER,
            Cause::ExpiryNotPassed { .. } | Cause::DelayOrExpiry { .. } => layout::TLC_NOT_DUE,
            Cause::NoPreimage { .. } => layout::TLC_NO_PREIMAGE,
        }
    }

    /// The place that goes with it: that of the TLC, else 0.
    pub const fn place(&self) -> u64 {
        match self.tlc() {
            Some(tlc) => tlc as u64,
            None => 0,
        }
    }

    /// The place of the TLC that is waited for, from 0, in the state and in
    /// [`Request::tracked`](crate::Request::tracked). `None` where it is not for a TLC.
    pub const fn tlc(&self) -> Option<usize> {
        match *self {
            Cause::ListDiffers | Cause::NotOurShare | Cause::DelayNotDue => None,
            Cause::NoExpiryOrKey { tlc }
            | Cause::ExpiryNotPassed { tlc }
            | Cause::DelayOrExpiry { tlc }
            | Cause::NoPreimage { tlc } => Some(tlc),
        }
    }

    /// What is waited for, and what to do.
    const fn about(&self) -> &'static str {
        match self {
            Cause::ListDiffers => {
                "the tracked list is not what stands in the cell; scan the chain again, and where this stays look \
                 whose commitment it is"
            }
            Cause::NotOurShare => {
                "our share was paid out, and after it no TLC of this cell is taken any more, also with a preimage that \
                 comes later; leave the cell, which the other side's next settlement takes whole"
            }
            Cause::DelayNotDue => {
                "no TLC stands in the cell, and the whole delay is not due; ask again at the next tip, and where this \
                 stays past the delay look whether cell_epoch is that of the cell's own block"
            }
            Cause::NoExpiryOrKey { .. } => {
                "its expiry is no absolute timestamp, or no settlement TLC has its hash and our key, so that it never \
                 comes due and our share waits with it; tell an operator, and look whether the settlement TLCs are \
                 whole and the record is of this channel; go on asking, since other TLCs may still come due"
            }
            Cause::ExpiryNotPassed { .. } => {
                "its expiry has not passed; ask again at the next tip, and where this stays past the expiry look \
                 whether the time is the tip's median time"
            }
            Cause::DelayOrExpiry { .. } => {
                "its part of the delay is not due, two thirds by timeout and one third by preimage, or by timeout its \
                 expiry has not passed; ask again at the next tip, and where this stays past both look whether \
                 cell_epoch is that of the cell's own block and the time the tip's median time"
            }
            Cause::NoPreimage { .. } => {
                "no stored preimage counts for it; store its preimage, with which it is chosen at once, or ask again \
                 at the next tip, since it is given up for our share once its expiry has passed, in a first settlement \
                 also the whole delay"
            }
        }
    }
}

impl fmt::Display for Cause {
    fn fmt(&self, f: &mut fmt::Formatter<'_>) -> fmt::Result {
        match self.tlc() {
            Some(tlc) => write!(f, "waits for TLC {tlc}: {}", self.about()),
            None => write!(f, "wait: {}", self.about()),
        }
    }
}
