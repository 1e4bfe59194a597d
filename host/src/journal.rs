//! A journal of settlements: unlocks on file.

use std::error::Error;
use std::fmt;
use std::iter::FusedIterator;
use std::slice::ChunksExact;

use crate::c::{self, Code};
use crate::layout as l;
use crate::record::part;
use crate::{Chosen, Refusal};

// ---- Entries ----

/// A channel's id in a journal: 32 bytes of the host's choosing, the same in all entries of a channel. A type of its
/// own, so that no payment hash or key hash is taken for one:
///
/// ```compile_fail,E0308
/// use fiber_settlement::JournalEntry;
///
/// let payment_hash = [7; 32];
/// let entry = JournalEntry { channel: payment_hash, unlock: 0xfe, flag: 0, amount: 5 };
/// ```
///
/// It prints as hex.
#[derive(Clone, Copy, PartialEq, Eq, PartialOrd, Ord, Hash)]
pub struct ChannelId(pub [u8; l::JOURNAL_CHANNEL]);

impl fmt::Display for ChannelId {
    fn fmt(&self, f: &mut fmt::Formatter<'_>) -> fmt::Result {
        self.0.iter().try_for_each(|byte| write!(f, "{byte:02x}"))
    }
}

impl fmt::Debug for ChannelId {
    fn fmt(&self, f: &mut fmt::Formatter<'_>) -> fmt::Result {
        write!(f, "ChannelId({self})")
    }
}

/// An entry of a journal: an unlock that the chain has taken.
///
/// The unlock's byte and its flag are one byte each, and a journal takes any: [`JournalEntry::of`] reads both from the
/// unlock itself, and elsewhere the fields' names keep them apart.
#[derive(Clone, Copy, Debug, PartialEq, Eq, Hash)]
pub struct JournalEntry {
    /// Which channel's settlement it was.
    pub channel: ChannelId,
    /// The unlock's byte: 0xFE, 0xFF, or a place in the state before it. Where a TLC was settled in between, the same
    /// place is another TLC's.
    pub unlock: u8,
    /// The unlock's flag: whether a preimage goes with it.
    pub flag: u8,
    /// What it unlocked: the TLC's amount or the share's, also in the last settlement, which pays out all of the cell.
    pub amount: u128,
}

impl JournalEntry {
    /// The entry of what was chosen: byte and flag as they stand in the unlock, and the amount. It can be kept till the
    /// chain has taken the transaction, and is then appended, once.
    ///
    /// ```
    /// use fiber_settlement::{ChannelId, Chosen, Journal, JournalEntry, JournalRefusal};
    ///
    /// fn keep(journal: &mut Journal, channel: ChannelId, chosen: &Chosen) -> Result<usize, JournalRefusal> {
    ///     journal.append(&JournalEntry::of(channel, chosen))?;
    ///     Ok(journal.len())
    /// }
    /// ```
    pub fn of(channel: ChannelId, chosen: &Chosen) -> JournalEntry {
        JournalEntry { channel, unlock: chosen.unlock[0], flag: chosen.unlock[1], amount: chosen.amount }
    }

    /// `bytes` has the length of an entry.
    fn read(bytes: &[u8]) -> JournalEntry {
        JournalEntry {
            channel: ChannelId(part(bytes, 0)),
            unlock: bytes[l::JOURNAL_UNLOCK],
            flag: bytes[l::JOURNAL_FLAG],
            amount: u128::from_le_bytes(part(bytes, l::JOURNAL_AMOUNT)),
        }
    }

    /// As C takes it.
    fn parts(&self) -> c::Entry<'_> {
        c::Entry { channel: &self.channel.0, unlock: self.unlock, flag: self.flag, amount: self.amount }
    }
}

// ---- The journal ----

/// A journal in a slice that is lent: its bytes, and how many of them are the journal.
///
/// ```text
/// channel id 32 | unlock byte 1 | flag 1 | amount 16 | start of the entry before 8, all ones for none | own length 4, 62
/// ```
///
/// Entries are joined, the newest at the end, and a journal is read from there. Its length is as much a part of it as
/// its bytes: an append with an old length would write over an entry. So both are together here, and only an append that
/// was taken moves the length. Opening, appending and walking each test the whole chain, in time that grows with it: the
/// trailers and nothing else, so that a byte that has changed in another field goes unseen.
///
/// ```
/// use fiber_settlement::{ChannelId, Journal, JournalEntry, JournalRefusal};
///
/// let entry = |unlock, amount| JournalEntry { channel: ChannelId([7; 32]), unlock, flag: 0, amount };
/// let mut slice = [0; 130];
/// let mut journal = Journal::empty(&mut slice);
/// let mut file = vec![];
/// for (unlock, amount) in [(0, 30), (0xfe, 500)] {
///     file.extend(journal.append(&entry(unlock, amount))?); // the new bytes, at the end of a file
/// }
/// assert_eq!((journal.len(), journal.as_bytes()), (124, &file[..]));
/// assert_eq!(journal.append(&entry(1, 8)), Err(JournalRefusal::OutputShort { needed: 186 }));
/// assert_eq!(journal.len(), 124);
///
/// // After a restart: the file's size is the length. The newest comes first.
/// let length = file.len();
/// let journal = Journal::of(&mut file, length)?;
/// assert_eq!(journal.entries()?, [entry(0xfe, 500), entry(0, 30)]);
///
/// // Half an entry was not written: the bytes before it are still a journal.
/// let torn = Journal::of(&mut file[..100], 100);
/// assert_eq!(torn.err(), Some(JournalRefusal::Broken { at: 88 }));
/// assert_eq!(Journal::of(&mut file[..62], 62)?.entries()?, [entry(0, 30)]);
/// # Ok::<(), JournalRefusal>(())
/// ```
pub struct Journal<'a> {
    slice: &'a mut [u8],
    length: usize,
}

impl<'a> Journal<'a> {
    /// A new journal, without entries, in a slice of any content.
    pub fn empty(slice: &'a mut [u8]) -> Journal<'a> {
        Journal { slice, length: 0 }
    }

    /// The journal that is the first `length` bytes of the slice: the length that was kept with them, or of a file its
    /// size. The whole chain is tested.
    ///
    /// # Errors
    ///
    /// [`JournalRefusal::NotWell`] for a length beyond the slice; [`JournalRefusal::Broken`].
    pub fn of(slice: &'a mut [u8], length: usize) -> Result<Journal<'a>, JournalRefusal> {
        c::ready()?;
        // Without output a walk tests the chain, and turns a journal with entries down for the output alone.
        match c::journal_walk(slice, length as u64, &mut []) {
            Err(Code { number: l::OUTPUT_SHORT, place }) if place == length as u64 => {}
            Ok(0) if length == 0 => {}
            Ok(written) => return Err(odd(written)),
            Err(code) => return Err(code.into()),
        }
        Ok(Journal { slice, length })
    }

    /// Appends an entry behind the others, and answers its bytes as they stand in the journal: what a host writes to the
    /// end of its file, before the new length or together with it. No other byte of the slice changes.
    ///
    /// # Errors
    ///
    /// [`JournalRefusal::Full`]; [`JournalRefusal::OutputShort`] where the slice has no room, with the length that it
    /// needs. Bytes and length are as they were then.
    pub fn append(&mut self, entry: &JournalEntry) -> Result<&[u8], JournalRefusal> {
        c::ready()?;
        let (before, size) = (self.length, self.slice.len());
        let length = c::journal_append(self.slice, before as u64, &entry.parts())?;
        if length.checked_sub(before) != Some(l::JOURNAL_ENTRY) || length > size {
            return Err(odd(length));
        }
        self.length = length;
        Ok(&self.slice[before..length])
    }

    /// Writes every entry, the newest first, to the front of `out`, and reads them from there. `out` needs as many bytes as
    /// the journal has, and is not changed behind them.
    ///
    /// # Errors
    ///
    /// [`JournalRefusal::OutputShort`], and no byte of `out` has changed then.
    pub fn walk<'o>(&self, out: &'o mut [u8]) -> Result<JournalEntries<'o>, JournalRefusal> {
        JournalEntries::of(self.as_bytes(), out)
    }

    /// Every entry, the newest first. As [`walk`](Journal::walk), with an output of its own.
    ///
    /// # Errors
    ///
    /// None but that of crate and library, [`JournalRefusal::Library`].
    pub fn entries(&self) -> Result<Vec<JournalEntry>, JournalRefusal> {
        self.walk(&mut vec![0; self.length]).map(Iterator::collect)
    }

    /// How many bytes it has: what is kept with them.
    pub const fn len(&self) -> usize {
        self.length
    }

    /// Is it without entries?
    pub const fn is_empty(&self) -> bool {
        self.length == 0
    }

    /// Its bytes, the first [`len`](Journal::len) of the slice.
    pub fn as_bytes(&self) -> &[u8] {
        &self.slice[..self.length]
    }
}

impl fmt::Debug for Journal<'_> {
    fn fmt(&self, f: &mut fmt::Formatter<'_>) -> fmt::Result {
        f.debug_struct("Journal")
            .field("length", &self.length)
            .field("size", &self.slice.len())
            .finish_non_exhaustive()
    }
}

/// The entries of a journal, the newest first; from its back the oldest first. A view of what a walk has written.
#[derive(Clone)]
pub struct JournalEntries<'o> {
    rest: ChunksExact<'o, u8>,
}

impl<'o> JournalEntries<'o> {
    /// Walks a journal that is only read: all of these bytes. [`Journal::walk`] does the same for one that is appended to.
    ///
    /// ```
    /// use fiber_settlement::{JournalEntries, JournalRefusal};
    ///
    /// let file = [&[7; 32][..], &[0xfe, 0], &5u128.to_le_bytes(), &[0xff; 8], &62u32.to_le_bytes()].concat();
    /// let mut out = [0; 100];
    /// let mut entries = JournalEntries::of(&file, &mut out)?;
    /// assert_eq!(entries.len(), 1);
    /// assert_eq!(entries.next().map(|entry| (entry.unlock, entry.amount)), Some((0xfe, 5)));
    /// # Ok::<(), JournalRefusal>(())
    /// ```
    ///
    /// # Errors
    ///
    /// [`JournalRefusal::Broken`]; [`JournalRefusal::OutputShort`]. No byte of `out` has changed then.
    pub fn of(journal: &[u8], out: &'o mut [u8]) -> Result<JournalEntries<'o>, JournalRefusal> {
        c::ready()?;
        let written = c::journal_walk(journal, journal.len() as u64, out)?;
        if written != journal.len() || written > out.len() {
            return Err(odd(written));
        }
        Ok(JournalEntries { rest: out[..written].chunks_exact(l::JOURNAL_ENTRY) })
    }
}

impl Iterator for JournalEntries<'_> {
    type Item = JournalEntry;

    fn next(&mut self) -> Option<JournalEntry> {
        self.rest.next().map(JournalEntry::read)
    }

    fn size_hint(&self) -> (usize, Option<usize>) {
        self.rest.size_hint()
    }
}

impl DoubleEndedIterator for JournalEntries<'_> {
    fn next_back(&mut self) -> Option<JournalEntry> {
        self.rest.next_back().map(JournalEntry::read)
    }
}

impl ExactSizeIterator for JournalEntries<'_> {}

impl FusedIterator for JournalEntries<'_> {}

impl fmt::Debug for JournalEntries<'_> {
    fn fmt(&self, f: &mut fmt::Formatter<'_>) -> fmt::Result {
        f.debug_list().entries(self.clone()).finish()
    }
}

// ---- What is turned down ----

/// Why a journal, an append or a walk was turned down. Nothing was written then, and the journal's length has not moved.
/// `Display` is one sentence: what is wrong, and what to do.
///
/// ```
/// use fiber_settlement::{Journal, JournalRefusal};
///
/// let refusal = Journal::of(&mut [0; 100], 61).unwrap_err();
/// assert_eq!(refusal, JournalRefusal::Broken { at: 0 });
/// assert_eq!((refusal.number(), refusal.place()), (41, 0));
/// assert!(refusal.to_string().starts_with("the journal is no chain of whole entries at byte 0; "));
/// ```
#[derive(Clone, Copy, Debug, PartialEq, Eq, Hash)]
#[non_exhaustive]
pub enum JournalRefusal {
    /// 13: the slice of an append, or the output of a walk, is too short.
    OutputShort {
        /// How many bytes are needed: the journal's new length, or the length that it has.
        needed: u64,
    },
    /// 14: the length is beyond the slice.
    NotWell,
    /// 40: the journal has 65,535 entries or more. Another one is begun; this one can still be walked.
    Full {
        /// Its length.
        length: u64,
    },
    /// 41: these bytes are not what appends leave.
    Broken {
        /// The first byte of the trailer that is wrong, of several the newest, the last 12 bytes of its entry; 0 where the
        /// journal is shorter than an entry.
        at: u64,
    },
    /// Crate and library do not go together: [`Refusal::Abi`], [`Refusal::Answer`] or [`Refusal::Unknown`].
    Library(Refusal),
}

impl JournalRefusal {
    /// The number of the table that C answers; 0 where crate and library do not go together.
    pub const fn number(&self) -> u64 {
        match self {
            JournalRefusal::OutputShort { .. } => l::OUTPUT_SHORT,
            JournalRefusal::NotWell => l::NOT_WELL,
            JournalRefusal::Full { .. } => l::JOURNAL_FULL,
            JournalRefusal::Broken { .. } => l::JOURNAL_BROKEN,
            JournalRefusal::Library(refusal) => refusal.number(),
        }
    }

    /// The place that goes with it: a byte of the journal, its length, the bytes needed, else 0.
    pub const fn place(&self) -> u64 {
        match *self {
            JournalRefusal::OutputShort { needed } => needed,
            JournalRefusal::NotWell => 0,
            JournalRefusal::Full { length } => length,
            JournalRefusal::Broken { at } => at,
            JournalRefusal::Library(refusal) => refusal.place(),
        }
    }
}

/// An answered length that the header does not have for the call is turned down, not guessed.
fn odd(length: usize) -> JournalRefusal {
    Refusal::Answer { field: "JOURNAL_ANSWER_LENGTH", value: length as u64 }.into()
}

impl From<Code> for JournalRefusal {
    fn from(Code { number, place }: Code) -> JournalRefusal {
        match number {
            l::OUTPUT_SHORT => JournalRefusal::OutputShort { needed: place },
            l::NOT_WELL => JournalRefusal::NotWell,
            l::JOURNAL_FULL => JournalRefusal::Full { length: place },
            l::JOURNAL_BROKEN => JournalRefusal::Broken { at: place },
            number => JournalRefusal::Library(Refusal::Unknown { number, place }),
        }
    }
}

impl From<Refusal> for JournalRefusal {
    fn from(refusal: Refusal) -> JournalRefusal {
        JournalRefusal::Library(refusal)
    }
}

impl fmt::Display for JournalRefusal {
    fn fmt(&self, f: &mut fmt::Formatter<'_>) -> fmt::Result {
        match *self {
            JournalRefusal::OutputShort { needed } => write!(
                f,
                "the slice of the append, or the output of the walk, is too short; lend {needed} bytes and ask again"
            ),
            JournalRefusal::NotWell => f.write_str(
                "the journal's length is beyond the slice; take the length that was kept with these bytes, of a file \
                 its size, and lend at least as many bytes",
            ),
            JournalRefusal::Full { length } => write!(
                f,
                "the journal has its most entries, in {length} bytes; begin another one with Journal::empty, and keep \
                 this one, which can still be walked"
            ),
            JournalRefusal::Broken { at } => write!(
                f,
                "the journal is no chain of whole entries at byte {at}; look whether the length is the one that was kept \
                 with these bytes, else a write broke off there, and the bytes before the torn entry are still a journal, \
                 or something wrote over the bytes, and a copy is needed"
            ),
            JournalRefusal::Library(refusal) => refusal.fmt(f),
        }
    }
}

impl Error for JournalRefusal {}
