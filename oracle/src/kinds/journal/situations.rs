//! What is told apart in the cases of a journal, beside rows and classes, and counted.

use super::{entries, is_full, Addition, Reading};
use crate::document::journal::{
    self, wrong_trailers, Appended, Journal, BELOW_ENTRY, BEYOND, BODY, CHANNEL_LENGTH, ENTRY, FULL, NO_ROOM,
    OWN_LENGTH, POINTER,
};
use crate::document::{settlement, Document, Place, Row};

fn own_length(journal: &Journal, place: usize) -> &'static str {
    let bytes = &journal.slice[place + 8..place + 12];
    match u32::from_le_bytes(bytes.try_into().expect("4 bytes")) {
        50 => "41 own length 50",
        61 => "41 own length 61",
        63 => "41 own length 63",
        80 => "41 own length 80",
        length if length & 0xff == 62 => "41 own length 62 by its low byte alone",
        _ => "41 another own length",
    }
}

fn pointer(journal: &Journal, place: usize) -> &'static str {
    let pointer = u64::from_le_bytes(journal.slice[place..place + 8].try_into().expect("8 bytes"));
    let start = (place - BODY) as u64;
    match pointer {
        _ if start == 0 => "41 start 0, pointer not all ones",
        u64::MAX => "41 all ones, start not 0",
        _ if pointer == start || pointer == start.wrapping_sub(124) => "41 pointer one entry off",
        _ => "41 another pointer",
    }
}

/// Which of the wrong trailers is named, and whether an older one is wrong too.
fn depth(length: usize, place: usize, others: bool) -> &'static str {
    let (newest, oldest) = (place + ENTRY - BODY == length, place < BODY + ENTRY);
    match (newest, oldest, others) {
        (true, _, false) => "41 newest entry alone",
        (true, _, true) => "41 newest entry and an older one",
        (_, true, _) => "41 oldest entry",
        (_, _, false) => "41 in between alone",
        (_, _, true) => "41 in between and an older one",
    }
}

/// Of a chain that is broken. `short` says that 13 is behind it.
fn broken(journal: &Journal, row: &Row, place: Place, short: bool) -> Vec<&'static str> {
    let (bytes, place) = (journal.bytes().expect("within the slice"), place as usize);
    let mut all = vec![];
    if *row == OWN_LENGTH {
        all.push(own_length(journal, place));
    }
    if *row == POINTER {
        all.push(pointer(journal, place));
    }
    if *row != BELOW_ENTRY {
        all.push(depth(bytes.len(), place, wrong_trailers(bytes).len() > 1));
    }
    if short {
        all.push("41 before 13");
    }
    if is_full(journal) {
        all.push("41 of 65,535 or more entries");
    }
    all
}

fn beyond(journal: &Journal) -> &'static str {
    match journal.length - journal.slice.len() as u64 {
        1 => "14 one byte beyond the slice",
        _ if journal.length > u64::from(u32::MAX) => "14 a length above 32 bits",
        _ => "14 another length beyond the slice",
    }
}

pub fn of_append(i: &Addition, document: &Document<Appended>) -> Vec<&'static str> {
    let (journal, size) = (&i.journal, i.journal.slice.len() as u64);
    match document {
        Document::Row(BEYOND, _) => vec![beyond(journal)],
        Document::Row(CHANNEL_LENGTH, _) => {
            let whole = wrong_trailers(journal.bytes().expect("within the slice")).is_empty();
            vec![if whole { "14 by the channel id" } else { "14 before 41" }]
        }
        Document::Row(FULL, _) => {
            let count = match entries(journal) {
                65_535 => "40 at 65,535 entries",
                65_536 => "40 at 65,536 entries",
                _ => "40 at 65,537 entries",
            };
            vec![count, if size < journal.length + 62 { "40 before 13" } else { "40 with room" }]
        }
        Document::Row(NO_ROOM, place) => vec![match place - size {
            62 => "13 slice exactly full",
            1 => "13 one byte short",
            _ => "13 more bytes short",
        }],
        Document::Row(row, place) => broken(journal, row, *place, size < journal.length + 62),
        Document::Value(new) => {
            let mut all = vec![if new.length == size {
                "taken, slice then exactly full"
            } else {
                "taken, slice longer"
            }];
            if entries(journal) == journal::MOST - 1 {
                all.push("taken as entry 65,535");
            }
            if i.new.flag > 1 {
                all.push("taken with a flag above 1");
            }
            all
        }
    }
}

pub fn of_walk(i: &Reading, document: &Document<Vec<u8>>) -> Vec<&'static str> {
    let journal = &i.journal;
    match document {
        Document::Row(BEYOND, _) => vec![beyond(journal)],
        Document::Row(settlement::OUTPUT_SHORT, place) => {
            vec![if place - 1 == i.output as u64 { "13 one byte short" } else { "13 more bytes short" }]
        }
        Document::Row(row, place) => broken(journal, row, *place, (i.output as u64) < journal.length),
        Document::Value(written) => {
            let exact = written.len() == i.output;
            let mut all = vec![if exact { "taken, output as long" } else { "taken, output longer" }];
            if journal.slice.len() > written.len() {
                all.push("taken, bytes behind the journal");
            }
            all.extend(match entries(journal) {
                65_534 => Some("65,534 entries walked"),
                65_535 => Some("65,535 entries walked"),
                65_536 => Some("65,536 entries walked"),
                65_537 => Some("65,537 entries walked"),
                _ => None,
            });
            all
        }
    }
}
