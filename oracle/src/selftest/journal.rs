//! The journal's two sides: the request's words by hand, a second reading of them that goes back entry by entry, and
//! that reading with faults, each of which a comparison has to notice.

use super::FAULT;
use crate::document::journal::{self, Journal, Settled};
use crate::document::{Document, Row};
use crate::kinds::journal::{Addition, Append, Reading, Walk, LARGE};
use crate::kinds::{Kind, TABLE};
use crate::port::{self, Called, Reply};
use crate::random::Random;
use std::slice::from_raw_parts;

pub fn run() {
    example();
    order_of_rows();
    reached();
    calls();
}

fn settled() -> Settled {
    Settled { channel: vec![0xc1; 32], unlock: 0xfe, flag: 2, amount: 0x0102 }
}

/// Two appends and the walk over them, every byte written out from the request's layout.
fn example() {
    let trailer_of_first = [0xff, 0xff, 0xff, 0xff, 0xff, 0xff, 0xff, 0xff, 62, 0, 0, 0];
    let trailer_of_second = [0, 0, 0, 0, 0, 0, 0, 0, 62, 0, 0, 0];
    let mut body = vec![0xc1; 32];
    body.extend([0xfe, 2]);
    body.extend([0x02, 0x01, 0, 0, 0, 0, 0, 0, 0, 0, 0, 0, 0, 0, 0, 0]);
    let first = [&body[..], &trailer_of_first].concat();
    let second = [&body[..], &trailer_of_second].concat();
    let empty = Journal { slice: vec![0; 130], length: 0 };
    let entry = first.clone();
    assert_eq!(journal::append(&empty, &settled()), Document::Value(journal::Appended { length: 62, entry }));
    let one = Journal { slice: [&first[..], &[9; 68]].concat(), length: 62 };
    let entry = second.clone();
    assert_eq!(journal::append(&one, &settled()), Document::Value(journal::Appended { length: 124, entry }));
    let two = Journal { slice: [&first[..], &second, &[9; 6]].concat(), length: 124 };
    assert_eq!(journal::walk(&two, 124), Document::Value([second, first].concat()));
    assert_eq!(journal::walk(&empty, 0), Document::Value(vec![]));
    println!("journal: two entries appended and walked, by hand");
}

fn row_of<V>(answer: Document<V>) -> (u64, u64) {
    match answer {
        Document::Row(Row { number, .. }, place) => (number, place),
        Document::Value(_) => (0, 0),
    }
}

/// 14, 41 newest first, 40, 13: a case with every fault, of which the first is mended again and again.
fn order_of_rows() {
    const COUNT: usize = 65_535;
    let mut slice = vec![0; COUNT * 62];
    for place in 0..COUNT {
        let before = if place == 0 { u64::MAX } else { (place as u64 - 1) * 62 };
        slice[place * 62 + 50..place * 62 + 58].copy_from_slice(&before.to_le_bytes());
        slice[place * 62 + 58] = 62;
    }
    let size = slice.len() as u64;
    slice[50] = 0;
    slice[size as usize - 4] = 50;
    let mut journal = Journal { slice, length: size + 1 };
    let mut new = Settled { channel: vec![0; 31], ..settled() };
    let answers = |journal: &Journal, new: &Settled| {
        (row_of(journal::append(journal, new)), row_of(journal::walk(journal, 0)))
    };
    assert_eq!(answers(&journal, &new), ((14, 0), (14, 0)));
    journal.length = size;
    assert_eq!(answers(&journal, &new), ((14, 0), (41, size - 12)));
    new.channel.push(0);
    assert_eq!(answers(&journal, &new), ((41, size - 12), (41, size - 12)));
    journal.slice[size as usize - 4] = 62;
    assert_eq!(answers(&journal, &new), ((41, 50), (41, 50)));
    journal.slice[50] = 0xff;
    assert_eq!(answers(&journal, &new), ((40, size), (13, size)));
    journal.length = size - 62;
    journal.slice.truncate(size as usize - 62);
    assert_eq!(row_of(journal::append(&journal, &new)), (13, size));
    journal.slice.resize(size as usize, 0);
    assert_eq!(answers(&journal, &new), ((0, 0), (13, size - 62)));
    // The shortest journals.
    for length in 1..=62u64 {
        let journal = Journal { slice: vec![0; 62], length };
        let place = if length < 62 { 0 } else { 50 };
        assert_eq!(answers(&journal, &new), ((41, place), (41, place)));
    }
    println!("journal: the request's order of rows");
}

/// Rows, causes, classes and situations of both kinds.
const IN_BOTH: &[&str] = &[
    "14",
    "journal length beyond the slice",
    "14 one byte beyond the slice",
    "14 a length above 32 bits",
    "14 another length beyond the slice",
    "41",
    "journal of 1 to 61 bytes",
    "an entry that starts at 1 to 61",
    "41 own length 50",
    "41 own length 61",
    "41 own length 63",
    "41 own length 80",
    "41 own length 62 by its low byte alone",
    "41 another own length",
    "41 start 0, pointer not all ones",
    "41 all ones, start not 0",
    "41 pointer one entry off",
    "41 another pointer",
    "41 newest entry alone",
    "41 newest entry and an older one",
    "41 in between alone",
    "41 in between and an older one",
    "41 oldest entry",
    "41 before 13",
    "41 of 65,535 or more entries",
    "13",
    "13 one byte short",
    "13 more bytes short",
    "no entries",
    "one entry",
    "2 to 9 entries",
    "10 to 999 entries",
    "65,534 to 65,537 entries",
];

/// Those of an append.
const IN_APPEND: &[&str] = &[
    "channel id not 32 bytes",
    "14 by the channel id",
    "14 before 41",
    "40",
    "40 at 65,535 entries",
    "40 at 65,536 entries",
    "40 at 65,537 entries",
    "40 before 13",
    "40 with room",
    "13 slice exactly full",
    "taken, slice then exactly full",
    "taken, slice longer",
    "taken as entry 65,535",
    "taken with a flag above 1",
];

/// Those of a walk.
const IN_WALK: &[&str] = &[
    "taken, output as long",
    "taken, output longer",
    "taken, bytes behind the journal",
    "65,534 entries walked",
    "65,535 entries walked",
    "65,536 entries walked",
    "65,537 entries walked",
];

/// The first cases reach every row, cause and situation.
fn reached() {
    for (kind, more) in [("append", IN_APPEND), ("walk", IN_WALK)] {
        let entry = TABLE.iter().find(|entry| entry.name == kind).expect("a kind");
        let reached = (entry.reached)(30_000);
        for one in IN_BOTH.iter().chain(more) {
            assert!(reached.contains(*one), "{kind}: `{one}` is not reached");
        }
    }
    let all = 2 * IN_BOTH.len() + IN_APPEND.len() + IN_WALK.len();
    println!("append, walk: all {all} rows, classes and situations are reached");
}

// ---- The request read back entry by entry, right or with a fault ----

fn little(bytes: &[u8]) -> u64 {
    bytes.iter().rev().fold(0, |number, byte| number << 8 | u64::from(*byte))
}

/// Is the trailer of the entry that ends here right?
fn is_right(fault: &str, journal: &[u8], end: usize) -> bool {
    let (start, trailer) = (end as u64 - 62, &journal[end - 12..end]);
    let (pointer, own) = (little(&trailer[..8]), little(&trailer[8..]));
    let own_right = match fault {
        "own length 50 wanted" => own == 50,
        "own length by its low byte" => own & 0xff == 62,
        "own length by its low half" => own & 0xffff == 62,
        "own length not looked at" => true,
        "own length 80 taken too" => own == 62 || own == 80,
        _ => own == 62,
    };
    let right = if start == 0 { u64::MAX } else { start.wrapping_sub(62) };
    let pointer_right = match fault {
        "all ones not wanted at start 0" if start == 0 => true,
        "all ones by their low half at start 0" if start == 0 => pointer as u32 == u32::MAX,
        "0 for none too" if start == 0 => pointer == 0 || pointer == u64::MAX,
        "all ones taken anywhere" => pointer == right || pointer == u64::MAX,
        "a pointer one entry too far back taken" => pointer == right || pointer.wrapping_add(62) == right,
        "a pointer one entry too near taken" => pointer == right || pointer == start,
        "a pointer by its low half" if start != 0 => pointer as u32 == right as u32,
        "pointer not looked at" => true,
        _ => pointer == right,
    };
    own_right && pointer_right
}

/// Where the newest wrong trailer begins.
fn broken(fault: &str, journal: &[u8]) -> Option<u64> {
    let mut end = journal.len();
    if (1..62).contains(&end) {
        return (fault != "1 to 61 bytes are no journal").then_some(match fault {
            "1 to 61 bytes by a trailer's place" => end.saturating_sub(12) as u64,
            _ => 0,
        });
    }
    let mut oldest = None;
    while end >= 62 {
        // An entry that starts at 1 to 61 has no right pointer.
        let cut = end > 62 && end < 124 && fault != "an entry that starts at 1 to 61 taken";
        if cut || !is_right(fault, journal, end) {
            match fault {
                "oldest fault first" => oldest = Some(end as u64 - 12),
                "the place of the entry" => return Some(end as u64 - 62),
                "the place of the own length" => return Some(end as u64 - 4),
                "the entry's end" => return Some(end as u64),
                _ => return Some(end as u64 - 12),
            }
        }
        end = if fault == "the newest trailer alone" { 0 } else { end - 62 };
    }
    oldest
}

/// Does a row hold, its number and its place.
type Held = (bool, u64, u64);

/// The first of these rows that holds, in this order.
fn first_of(rows: &[Held]) -> Option<(u64, u64)> {
    rows.iter().find(|(holds, ..)| *holds).map(|(_, number, place)| (*number, *place))
}

fn is_beyond(fault: &str, slice: &[u8], length: u64) -> bool {
    let length = if fault == "a length by its low half" { u64::from(length as u32) } else { length };
    length > slice.len() as u64
}

/// The journal of a length that is not beyond the slice.
fn journal_of(slice: &[u8], length: u64) -> &[u8] {
    &slice[..(length as u32 as usize).min(slice.len())]
}

fn chain(fault: &str, beyond: bool, slice: &[u8], length: u64) -> Held {
    let found = if beyond { None } else { broken(fault, journal_of(slice, length)) };
    (found.is_some(), 41, found.unwrap_or(0))
}

/// Number and place of an append that is turned away.
fn append_row(fault: &str, slice: &[u8], length: u64, channel: usize) -> Option<(u64, u64)> {
    let size = slice.len() as u64;
    let beyond = is_beyond(fault, slice, length);
    let fourteen = (channel != 32 && fault != "any channel id", 14, 0);
    let chain = chain(fault, beyond, slice, length);
    let most = match fault {
        "40 only at 65,536" => 65_536,
        "40 only at 65,537" => 65_537,
        "40 at 65,534 already" => 65_534,
        "no 40" => u64::MAX,
        _ => 65_535,
    };
    let full = (length / 62 >= most, 40, if fault == "40 at 0" { 0 } else { length });
    let new = length.saturating_add(62);
    let room = if fault == "a byte of room too many" { new.saturating_add(1) } else { new };
    let short = (room > size, 13, if fault == "13 at the old length" { length } else { new });
    let beyond = (beyond, 14, 0);
    first_of(&match fault {
        "40 before 41" => [beyond, fourteen, full, chain, short],
        "13 before 40" => [beyond, fourteen, chain, short, full],
        "13 before 41" => [beyond, fourteen, short, chain, full],
        "41 before 14" => [beyond, chain, fourteen, full, short],
        _ => [beyond, fourteen, chain, full, short],
    })
}

fn entry(fault: &str, length: u64, channel: &[u8], unlock: u8, flag: u8, low: u64, high: u64) -> Vec<u8> {
    let mut entry = channel.to_vec();
    entry.resize(32, 0);
    let flag = match fault {
        "a flag above 1 written as 1" => flag.min(1),
        _ => flag,
    };
    entry.extend(if fault == "flag before unlock byte" { [flag, unlock] } else { [unlock, flag] });
    let amount = match fault {
        "high half first" => [high, low],
        "half an amount" => [low, 0],
        _ => [low, high],
    };
    entry.extend(amount.iter().flat_map(|half| half.to_le_bytes()));
    let before = match fault {
        "0 written for none" if length == 0 => 0,
        "its own start written" => length,
        "a pointer written one entry off" if length >= 124 => length - 124,
        _ => length.checked_sub(62).unwrap_or(u64::MAX),
    };
    entry.extend(before.to_le_bytes());
    entry.extend(if fault == "own length written as 50" { 50u32 } else { 62 }.to_le_bytes());
    entry
}

/// Number, place and third field for the answer buffer, with what any call over C can do wrong.
///
/// # Safety
///
/// `answer` and `lent` have to be those of a `port::Buffer`.
unsafe fn tell(
    fault: &str,
    row: Option<(u64, u64)>,
    third: u64,
    answer: *mut u8,
    lent: *mut u8,
    size: usize,
) -> u64 {
    let (mut number, mut place) = row.unwrap_or((0, 0));
    let returned = number;
    match fault {
        "a success with a place" if row.is_none() => place = third,
        "another place" if row.is_some() => place += 1,
        "two numbers" if row.is_some() => number += 1,
        "a refusal that writes a byte" if row.is_some() && size > 0 => *lent.add(size - 1) ^= 1,
        "a byte before what is lent" => *lent.sub(1) ^= 1,
        "a byte behind what is lent" => *lent.add(size) ^= 1,
        _ => {}
    }
    let told = row.is_none() || fault == "a refusal that writes a length";
    let fields = [number, place, third];
    let bytes: Vec<u8> =
        fields[..if told { 3 } else { 2 }].iter().flat_map(|field| field.to_le_bytes()).collect();
    answer.copy_from(bytes.as_ptr(), bytes.len());
    returned
}

/// What is lent, where NULL may stand for no bytes.
///
/// # Safety
///
/// As for `from_raw_parts`, but for NULL.
unsafe fn lent<'a>(from: *const u8, length: usize) -> &'a [u8] {
    match length {
        0 => &[],
        _ => from_raw_parts(from, length),
    }
}

/// # Safety
///
/// All pointers have to be those of `port::Buffer` and the lengths theirs.
#[allow(clippy::too_many_arguments)]
unsafe extern "C" fn append_over_c(
    journal: *mut u8,
    size: usize,
    length: u64,
    channel: *const u8,
    channel_len: usize,
    unlock: u8,
    flag: u8,
    low: u64,
    high: u64,
    answer: *mut u8,
    answer_len: usize,
) -> u64 {
    let fault = FAULT.get();
    if answer_len < 24 {
        return if fault == "another number for a short answer buffer" { 13 } else { 14 };
    }
    let row = append_row(fault, lent(journal, size), length, channel_len);
    let new = if fault == "the old length answered" { length } else { length.wrapping_add(62) };
    if row.is_some() || size == 0 {
        return tell(fault, row, new, answer, journal, size);
    }
    let entry = entry(fault, length, lent(channel, channel_len), unlock, flag, low, high);
    let at = journal.add(length as u32 as usize);
    at.copy_from(entry.as_ptr(), 62.min(size - length as u32 as usize));
    match fault {
        "a byte of the journal changed" if length > 0 => *journal ^= 1,
        "a byte behind the entry changed" if length as usize + 62 < size => *at.add(62) ^= 1,
        "nothing written" => at.copy_from([0; 62].as_ptr(), 62),
        _ => {}
    }
    tell(fault, row, new, answer, journal, size)
}

/// Number and place of a walk that is turned away.
fn walk_row(fault: &str, slice: &[u8], length: u64, output: u64) -> Option<(u64, u64)> {
    let beyond = is_beyond(fault, slice, length);
    let chain = chain(fault, beyond, slice, length);
    let room = if fault == "a byte of room too many" { length.saturating_add(1) } else { length };
    let place = if fault == "13 at the output's length" { output } else { length };
    let (beyond, short) = ((beyond, 14, 0), (room > output, 13, place));
    let full = (fault == "40 for a walk too" && length / 62 >= 65_535, 40, length);
    first_of(&match fault {
        "13 before 41" => [beyond, short, chain, full],
        _ => [beyond, chain, full, short],
    })
}

/// The entries as a walk hands them out, right or with a fault.
fn walked(fault: &str, journal: &[u8]) -> Vec<u8> {
    let newest_first = journal.rchunks(62);
    match fault {
        "output newest last" => journal.to_vec(),
        "trailers left out" => newest_first.flat_map(|entry| entry[..50].to_vec()).collect(),
        "the oldest left out" => {
            newest_first.take((journal.len() / 62).saturating_sub(1)).flatten().copied().collect()
        }
        "the newest twice" => newest_first.flat_map(|_| &journal[journal.len() - 62..]).copied().collect(),
        "bytes of an entry backwards" => journal.iter().rev().copied().collect(),
        _ => newest_first.flatten().copied().collect(),
    }
}

/// # Safety
///
/// All pointers have to be those of `port::Buffer` and the lengths theirs.
unsafe extern "C" fn walk_over_c(
    journal: *const u8,
    size: usize,
    length: u64,
    out: *mut u8,
    out_len: usize,
    answer: *mut u8,
    answer_len: usize,
) -> u64 {
    let fault = FAULT.get();
    if answer_len < 24 {
        return if fault == "another number for a short answer buffer" { 13 } else { 14 };
    }
    let slice = lent(journal, size);
    let row = walk_row(fault, slice, length, out_len as u64);
    let written = walked(fault, journal_of(slice, length));
    let count = match fault {
        "entries counted, not bytes" => length / 62,
        _ => written.len() as u64,
    };
    if row.is_none() && !written.is_empty() {
        out.copy_from(written.as_ptr(), written.len());
        if fault == "a byte behind the entries changed" && written.len() < out_len {
            *out.add(written.len()) ^= 1;
        }
    }
    if out_len == 0 {
        return tell("", row, count, answer, out, 0);
    }
    tell(fault, row, count, answer, out, out_len)
}

fn agree<V: PartialEq>(called: Called<V>, document: Document<V>) -> bool {
    match (called, document) {
        (Ok(Reply::Value(port)), Document::Value(document)) => port == document,
        (Ok(Reply::Refused { number, place }), Document::Row(row, at)) => (number, place) == (row.number, at),
        _ => false,
    }
}

/// Does the callee agree in every one of the first cases? The long journals come last.
fn all_agree<K: Kind>(agrees: impl Fn(&K::Input, &mut Random) -> bool) -> bool {
    let mut random = Random::of(1, "calls of the journal", 0);
    let edges = K::edges();
    let cases = (0..2_000).map(|case| edges.len() as u64 + K::grid_size() + case);
    let cases =
        (0..edges.len() as u64).chain(cases).chain((0..LARGE).map(|place| edges.len() as u64 + place));
    let mut cases = cases.map(|case| crate::run::input::<K>(&edges, 1, case));
    cases.all(|input| agrees(&input, &mut random))
}

const BOTH: &[&str] = &[
    "own length 50 wanted",
    "own length by its low byte",
    "own length by its low half",
    "own length not looked at",
    "own length 80 taken too",
    "all ones not wanted at start 0",
    "all ones by their low half at start 0",
    "0 for none too",
    "all ones taken anywhere",
    "a pointer one entry too far back taken",
    "a pointer one entry too near taken",
    "a pointer by its low half",
    "pointer not looked at",
    "1 to 61 bytes are no journal",
    "1 to 61 bytes by a trailer's place",
    "an entry that starts at 1 to 61 taken",
    "oldest fault first",
    "the place of the entry",
    "the place of the own length",
    "the entry's end",
    "the newest trailer alone",
    "a length by its low half",
    "a byte of room too many",
    "13 before 41",
    "a success with a place",
    "another place",
    "two numbers",
    "a refusal that writes a byte",
    "a refusal that writes a length",
    "a byte before what is lent",
    "a byte behind what is lent",
    "another number for a short answer buffer",
];

const OF_APPEND: &[&str] = &[
    "any channel id",
    "40 only at 65,536",
    "40 only at 65,537",
    "40 at 65,534 already",
    "no 40",
    "40 at 0",
    "40 before 41",
    "13 before 40",
    "41 before 14",
    "13 at the old length",
    "a flag above 1 written as 1",
    "flag before unlock byte",
    "high half first",
    "half an amount",
    "0 written for none",
    "its own start written",
    "a pointer written one entry off",
    "own length written as 50",
    "the old length answered",
    "a byte of the journal changed",
    "a byte behind the entry changed",
    "nothing written",
];

const OF_WALK: &[&str] = &[
    "output newest last",
    "trailers left out",
    "the oldest left out",
    "the newest twice",
    "bytes of an entry backwards",
    "entries counted, not bytes",
    "a byte behind the entries changed",
    "13 at the output's length",
    "40 for a walk too",
];

fn calls() {
    let append = |i: &Addition, random: &mut Random| {
        agree(port::append(random, append_over_c, &i.journal, &i.new), Append::document(i))
    };
    let walk = |i: &Reading, random: &mut Random| {
        agree(port::walk(random, walk_over_c, &i.journal, i.output), Walk::document(i))
    };
    assert!(all_agree::<Append>(append), "append over C: a right one fails");
    assert!(all_agree::<Walk>(walk), "walk over C: a right one fails");
    for fault in BOTH.iter().chain(OF_APPEND) {
        FAULT.set(fault);
        assert!(!all_agree::<Append>(append), "append over C: not noticed: {fault}");
    }
    for fault in BOTH.iter().chain(OF_WALK) {
        FAULT.set(fault);
        assert!(!all_agree::<Walk>(walk), "walk over C: not noticed: {fault}");
    }
    FAULT.set("none");
    let (appends, walks) = (BOTH.len() + OF_APPEND.len(), BOTH.len() + OF_WALK.len());
    println!(
        "append, walk over C: a second reading agrees, {appends} and {walks} faults of a callee are noticed"
    );
}
