//! Change request W2, a journal of settlements, from its words. The Rust has no journal.
//!
//! The request reads back from the journal's last bytes. Here entries are numbered from the oldest on, each trailer is
//! compared as one number of 96 bits with the one that belongs there, and the newest that is wrong is the last one met.

use super::settlement::OUTPUT_SHORT;
use super::{row, Document, InRust, Place, Row};
use Document::Value;

/// "channel id 32, unlock byte, flag, amount 16"
pub const BODY: usize = 32 + 1 + 1 + 16;
/// "start of the entry before (8 bytes, all ones for none) and own length 62 (4)"
pub const TRAILER: usize = 8 + 4;
pub const ENTRY: usize = BODY + TRAILER;
/// "40 an append to 65,535 or more entries"
pub const MOST: usize = 65_535;

pub const BEYOND: Row = row(14, "journal length beyond the slice", InRust::Outside);
pub const CHANNEL_LENGTH: Row = row(14, "channel id not 32 bytes", InRust::Outside);
pub const BELOW_ENTRY: Row = row(41, "journal of 1 to 61 bytes", InRust::Outside);
pub const OWN_LENGTH: Row = row(41, "own length not 62", InRust::Outside);
pub const POINTER: Row = row(41, "pointer not to the entry before", InRust::Outside);
pub const START: Row = row(41, "an entry that starts at 1 to 61", InRust::Outside);
pub const FULL: Row = row(40, "65,535 or more entries", InRust::Outside);
pub const NO_ROOM: Row = row(13, "no room in the slice", InRust::Outside);

/// The first `length` bytes of a lent slice.
#[derive(Clone, Debug)]
pub struct Journal {
    pub slice: Vec<u8>,
    pub length: u64,
}

impl Journal {
    /// None where the length is beyond the slice.
    pub fn bytes(&self) -> Option<&[u8]> {
        let length = usize::try_from(self.length).ok()?;
        self.slice.get(..length)
    }
}

/// What an append is handed.
#[derive(Clone, Debug)]
pub struct Settled {
    pub channel: Vec<u8>,
    pub unlock: u8,
    pub flag: u8,
    pub amount: u128,
}

/// The new length, and the bytes behind the journal's old ones up to there.
#[derive(Clone, Debug, PartialEq, Eq)]
pub struct Appended {
    pub length: u64,
    pub entry: Vec<u8>,
}

/// A trailer as one number, its first byte the lowest.
fn number(trailer: &[u8]) -> u128 {
    trailer.iter().rev().fold(0, |number, byte| number << 8 | u128::from(*byte))
}

/// The trailer of an entry that starts here. An entry that starts at 1 to 61 has no entry before it, and is not the first.
fn right_trailer(start: usize) -> Option<u128> {
    let before = match start {
        0 => u128::from(u64::MAX),
        _ => start.checked_sub(ENTRY)? as u128,
    };
    Some(before + ((ENTRY as u128) << 64))
}

/// What is wrong with the trailer of an entry that starts here.
fn fault(start: usize, trailer: &[u8]) -> Option<Row> {
    let (is, right) = (number(trailer), right_trailer(start));
    match right {
        Some(right) if is == right => None,
        _ if is >> 64 != ENTRY as u128 => Some(OWN_LENGTH),
        None => Some(START),
        Some(_) => Some(POINTER),
    }
}

/// The wrong trailers, oldest first, by their first bytes. An entry has 62 bytes wherever the ones behind it are right, so
/// that the newest of these is the first that is met on the way back; what is met behind it has no say.
pub fn wrong_trailers(journal: &[u8]) -> Vec<(Row, Place)> {
    if (1..ENTRY).contains(&journal.len()) {
        return vec![(BELOW_ENTRY, 0)];
    }
    let first = journal.len() % ENTRY;
    let mut wrong = vec![];
    // What stands before the oldest of them is too short for an entry, and its own trailer says so.
    for (place, entry) in journal[first..].chunks(ENTRY).enumerate() {
        let start = first + place * ENTRY;
        if let Some(row) = fault(start, &entry[BODY..]) {
            wrong.push((row, (start + BODY) as Place));
        }
    }
    wrong
}

/// The journal, or why it is turned away: "14 also stands for a journal length beyond the slice", and 41 behind it.
/// `well` is whether the rest of what 14 stands for is as it has to be.
fn chain(journal: &Journal, well: Result<(), Row>) -> Result<&[u8], (Row, Place)> {
    let bytes = journal.bytes().ok_or((BEYOND, 0))?;
    well.map_err(|row| (row, 0))?;
    match wrong_trailers(bytes).last() {
        Some(newest) => Err(*newest),
        None => Ok(bytes),
    }
}

/// Order: 14, 41, 40 at the journal's length, 13 at the new one.
pub fn append(journal: &Journal, new: &Settled) -> Document<Appended> {
    let channel = if new.channel.len() == 32 { Ok(()) } else { Err(CHANNEL_LENGTH) };
    let bytes = match chain(journal, channel) {
        Ok(bytes) => bytes,
        Err((row, place)) => return Document::Row(row, place),
    };
    if bytes.len() >= MOST * ENTRY {
        return Document::Row(FULL, journal.length);
    }
    let length = bytes.len() + ENTRY;
    if length > journal.slice.len() {
        return Document::Row(NO_ROOM, length as Place);
    }
    let trailer = right_trailer(bytes.len()).expect("a chain has whole entries");
    let mut entry = [&new.channel[..], &[new.unlock, new.flag]].concat();
    entry.extend((0..16).map(|i| (new.amount >> (8 * i)) as u8));
    entry.extend((0..TRAILER).map(|i| (trailer >> (8 * i)) as u8));
    Value(Appended { length: length as u64, entry })
}

/// Order: 14, 41, 13 at the bytes needed. "Over any number of entries": no 40.
pub fn walk(journal: &Journal, output: usize) -> Document<Vec<u8>> {
    let bytes = match chain(journal, Ok(())) {
        Ok(bytes) => bytes,
        Err((row, place)) => return Document::Row(row, place),
    };
    if bytes.len() > output {
        return Document::Row(OUTPUT_SHORT, bytes.len() as Place);
    }
    // "Newest first": the entry that starts at a place goes where as many bytes stand behind it as stood before it.
    let mut out = vec![0; bytes.len()];
    for (place, entry) in bytes.chunks(ENTRY).enumerate() {
        let end = out.len() - place * ENTRY;
        out[end - ENTRY..end].copy_from_slice(entry);
    }
    Value(out)
}
