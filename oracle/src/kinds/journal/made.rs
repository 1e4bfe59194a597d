//! Journals, whole and damaged, and what is appended to them.
//!
//! Trailers are written here from the layout's plain numbers, so that one that the document's side had wrong is noticed.

use crate::document::journal::{Journal, Settled, BODY, ENTRY, TRAILER};
use crate::kinds::digits;
use crate::random::Random;

const NONE: u64 = u64::MAX;

fn trailer(pointer: u64, length: u32) -> [u8; TRAILER] {
    let bytes = [&pointer.to_le_bytes()[..], &length.to_le_bytes()].concat();
    bytes.try_into().expect("12 bytes")
}

fn pointer_at(start: usize) -> u64 {
    (start as u64).checked_sub(62).unwrap_or(NONE)
}

/// Entries from `start` on, each pointing to the one before it; `body` writes what stands before a trailer.
fn entries(start: usize, count: usize, mut body: impl FnMut(usize, &mut [u8])) -> Vec<u8> {
    let mut bytes = vec![0; count * ENTRY];
    for (place, entry) in bytes.chunks_mut(ENTRY).enumerate() {
        body(place, &mut entry[..BODY]);
        entry[BODY..].copy_from_slice(&trailer(pointer_at(start + place * ENTRY), 62));
    }
    bytes
}

/// Every byte told by its place.
fn plain(place: usize, body: &mut [u8]) {
    for (i, byte) in body.iter_mut().enumerate() {
        *byte = (place * 31 + place / 256 + i * 7 + 1) as u8;
    }
}

/// A journal with so many bytes behind it.
fn with_room(bytes: Vec<u8>, room: usize) -> Journal {
    let length = bytes.len() as u64;
    let mut slice = bytes;
    slice.extend((0..room).map(|i| (i * 5 + 9) as u8));
    Journal { slice, length }
}

/// A grown one of so many entries.
pub fn whole(count: usize, room: usize) -> Journal {
    with_room(entries(0, count, plain), room)
}

/// Gives the entry of this place, in a journal that begins with a whole entry, another trailer.
fn damage(journal: &mut Journal, place: usize, with: [u8; TRAILER]) {
    let at = place * ENTRY + BODY;
    journal.slice[at..at + TRAILER].copy_from_slice(&with);
}

/// Own lengths beside a right pointer.
const OWN_LENGTHS: [u32; 13] =
    [0, 1, 50, 61, 63, 80, 124, 62 << 8, 62 << 24, 62 + (1 << 8), 62 + (1 << 16), 62 + (1 << 24), u32::MAX];

/// How many trailers are tried in the place of a right one. Some of them are right at some starts.
const WRONG: usize = 36;

/// A trailer that is mostly wrong for the entry of this place.
fn wrong(place: usize, which: usize) -> [u8; TRAILER] {
    let start = place as u64 * 62;
    let right = pointer_at(place * ENTRY);
    let pointers = [
        0,
        1,
        start,
        start + 1,
        start + 62,
        start.wrapping_sub(50),
        start.wrapping_sub(61),
        start.wrapping_sub(62),
        start.wrapping_sub(63),
        start.wrapping_sub(80),
        start.wrapping_sub(124),
        right ^ 1 << 8,
        right ^ 1 << 31,
        right ^ 1 << 32,
        right ^ 1 << 63,
        right.swap_bytes(),
        NONE,
        NONE - 1,
    ];
    let both = [
        (start.wrapping_sub(80), 80),
        (start.wrapping_sub(50), 50),
        (start.wrapping_sub(124), 124),
        (0, 0),
        (NONE, u32::MAX),
    ];
    let lengths = OWN_LENGTHS.into_iter().map(|length| (right, length));
    let mut all = lengths.chain(pointers.map(|pointer| (pointer, 62))).chain(both);
    let (pointer, length) = all.nth(which % WRONG).expect("36 of them");
    trailer(pointer, length)
}

/// A length that is no multiple of 62, and the oldest entry behind its rest: each entry points right but that one.
fn with_rest(rest: usize, count: usize, pointer: u64, room: usize) -> Journal {
    let mut bytes = vec![7; rest];
    bytes.extend(entries(rest, count, plain));
    let mut journal = with_room(bytes, room);
    let at = rest + BODY;
    journal.slice[at..at + TRAILER].copy_from_slice(&trailer(pointer, 62));
    journal
}

/// What the oldest entry behind a rest has for a pointer.
fn rest_pointer(rest: usize, which: usize) -> u64 {
    [NONE, (rest as u64).wrapping_sub(62), 0, rest as u64][which]
}

// ---- By hand ----

/// Short ones, the most telling first.
pub fn edges() -> Vec<Journal> {
    let mut edges: Vec<Journal> = (0..=4).map(|count| whole(count, 100)).collect();
    edges
        .extend([(0, 62), (3, 62), (0, 0), (0, 61), (2, 0), (2, 61)].map(|(count, room)| whole(count, room)));
    let broken = |count: usize, faults: &[(usize, u64, u32)]| {
        let mut journal = whole(count, 70);
        for (place, pointer, length) in faults {
            damage(&mut journal, *place, trailer(*pointer, *length));
        }
        journal
    };
    edges.extend([50, 61, 63, 80, 62 + 256].map(|length| broken(2, &[(1, 0, length)])));
    edges.push(broken(3, &[(2, 0, 62)]));
    edges.push(broken(3, &[(2, 124, 62)]));
    edges.push(broken(2, &[(1, NONE, 62)]));
    edges.extend([0, NONE - 61].map(|pointer| broken(1, &[(0, pointer, 62)])));
    edges.push(broken(3, &[(0, 0, 62)]));
    edges.push(broken(4, &[(0, 0, 62), (3, 124, 50)]));
    edges.push(broken(4, &[(1, NONE, 62), (2, 62, 61)]));
    // One in the middle is gone: those behind point an entry too far.
    let mut gone = whole(4, 62);
    gone.slice.drain(62..124);
    gone.length -= 62;
    edges.push(gone);
    edges.push(with_rest(61, 1, NONE, 70));
    edges.push(with_rest(1, 2, rest_pointer(1, 1), 70));
    edges.extend([1, 61, 63, 123].map(|length| Journal { length, ..whole(2, 70) }));
    let slice = whole(1, 10).slice;
    edges.extend([73, (1 << 32) + 62, u64::MAX].map(|length| Journal { slice: slice.clone(), length }));
    edges
}

pub fn settled(place: usize, channel: usize) -> Settled {
    Settled {
        channel: (0..channel).map(|i| (place * 3 + i + 1) as u8).collect(),
        unlock: [0xff, 0, 0xfe, 2, 0x7f][place % 5],
        flag: [0, 1, 2, 255][place % 4],
        amount: [1, u128::MAX, 1 << 64, 0x0102_0304_0506_0708_090a_0b0c_0d0e_0f10][place / 2 % 4],
    }
}

// ---- Taken whole ----

/// The first of them are long: 65,534 to 65,537 entries, each in eight ways.
pub const LARGE: u64 = 4 * 8;
const FEWEST: usize = 65_534;

/// The rooms behind a journal that are tried.
const ROOMS: [usize; 5] = [0, 61, 62, 63, 200];
/// Every length in a slice of five entries, with each room.
const LENGTHS: u64 = 311 * ROOMS.len() as u64;
/// Every bit of four entries.
const BITS: u64 = 4 * 62 * 8;
/// Every rest, with one to three entries behind it.
const RESTS: u64 = 61 * 3 * 4;
/// Every wrong trailer of each of four entries.
const ONE_WRONG: u64 = 4 * WRONG as u64;
/// Every two wrong trailers of five entries.
const TWO_WRONG: u64 = 10 * (WRONG * WRONG) as u64;
const BEYOND_SIZES: [usize; 5] = [0, 1, 62, 100, 310];
/// Lengths beyond each of some slices.
const BEYOND: u64 = BEYOND_SIZES.len() as u64 * 9;

/// How many there are, and each of them.
type Part = (u64, fn(u64) -> Journal);

const PARTS: [Part; 7] = [
    (LARGE, large),
    (LENGTHS, cut),
    (BITS, one_bit),
    (RESTS, behind_a_rest),
    (ONE_WRONG, one_wrong),
    (TWO_WRONG, two_wrong),
    (BEYOND, beyond),
];

pub const JOURNALS: u64 = LARGE + LENGTHS + BITS + RESTS + ONE_WRONG + TWO_WRONG + BEYOND;

pub fn journal(place: u64) -> Journal {
    let mut place = place;
    for (count, part) in PARTS {
        if place < count {
            return part(place);
        }
        place -= count;
    }
    unreachable!("the parts have as many as the grid")
}

thread_local!(static MANY: Vec<u8> = entries(0, FEWEST + 3, plain));

fn large(place: u64) -> Journal {
    let mut next = digits(place);
    let (count, way) = (FEWEST + next(4) as usize, next(8));
    let room = [100, 0, 62, 62, 62, 62, 62, 61][way as usize];
    let mut journal = with_room(MANY.with(|many| many[..count * ENTRY].to_vec()), room);
    match way {
        3 => damage(&mut journal, 0, trailer(0, 62)),
        4 => damage(&mut journal, count - 1, trailer(pointer_at((count - 1) * ENTRY), 50)),
        5 => {
            damage(&mut journal, 20_000, trailer(20_000 * 62, 62));
            damage(&mut journal, 40_000, trailer(40_000 * 62, 62));
        }
        6 => journal.length -= 1,
        _ => {}
    }
    journal
}

fn cut(place: u64) -> Journal {
    let mut next = digits(place);
    let (room, length) = (ROOMS[next(ROOMS.len() as u64) as usize], next(311));
    let mut journal = whole(5, 200);
    journal.slice.truncate(length as usize + room);
    journal.length = length;
    journal
}

fn one_bit(place: u64) -> Journal {
    let mut next = digits(place);
    let mut journal = whole(4, 65);
    let (bit, at) = (next(8), next(4 * 62) as usize);
    journal.slice[at] ^= 1 << bit;
    journal
}

fn behind_a_rest(place: u64) -> Journal {
    let mut next = digits(place);
    let (which, count, rest) = (next(4) as usize, 1 + next(3) as usize, 1 + next(61) as usize);
    with_rest(rest, count, rest_pointer(rest, which), 65)
}

fn one_wrong(place: u64) -> Journal {
    let mut next = digits(place);
    let mut journal = whole(4, 65);
    let (at, which) = (next(4) as usize, next(WRONG as u64) as usize);
    damage(&mut journal, at, wrong(at, which));
    journal
}

fn two_wrong(place: u64) -> Journal {
    let mut next = digits(place);
    let pairs = (0..5).flat_map(|older| (older + 1..5).map(move |newer| (older, newer)));
    let (older, newer) = pairs.clone().nth(next(10) as usize).expect("ten pairs");
    let mut journal = whole(5, 65);
    damage(&mut journal, older, wrong(older, next(WRONG as u64) as usize));
    damage(&mut journal, newer, wrong(newer, next(WRONG as u64) as usize));
    journal
}

fn beyond(place: u64) -> Journal {
    let mut next = digits(place);
    let size = BEYOND_SIZES[next(BEYOND_SIZES.len() as u64) as usize];
    let mut journal = whole(5, 0);
    journal.slice.truncate(size);
    let size = size as u64;
    journal.length = [
        size + 1,
        size + 62,
        1 << 32,
        (1 << 32) + size,
        1 << 63,
        (1 << 63) + size,
        u64::MAX - 61,
        u64::MAX - 1,
        u64::MAX,
    ][next(9) as usize];
    journal
}

// ---- Random ----

fn some_count(random: &mut Random) -> usize {
    match random.below(64) {
        0 => random.below(200) as usize,
        1..=6 => random.below(40) as usize,
        7..=14 => 1,
        _ => random.below(8) as usize,
    }
}

/// Wrong trailers for so many of the journal's entries, some of them perhaps twice.
fn some_damage(random: &mut Random, journal: &mut Journal, faults: u64) {
    let count = journal.length / 62;
    for _ in 0..if count > 0 { faults } else { 0 } {
        let at = random.below(count) as usize;
        damage(journal, at, wrong(at, random.below(WRONG as u64) as usize));
    }
}

/// A length at or near an entry's end, or anywhere.
fn some_cut(random: &mut Random, journal: &mut Journal) {
    let size = journal.slice.len() as u64;
    let end = random.below(size / 62 + 1) * 62;
    let by = random.pick(&[0, 1, 12, 61]);
    journal.length = match random.below(3) {
        0 => end.saturating_sub(by),
        1 => (end + by).min(size),
        _ => random.below(size + 1),
    };
}

/// An entry or a byte of it is gone: what is behind it has moved.
fn some_gap(random: &mut Random, journal: &mut Journal) {
    let count = journal.length / 62;
    if count > 0 {
        let at = random.below(count) as usize * ENTRY;
        let bytes = random.pick(&[62, 62, 31, 1]);
        journal.slice.drain(at..at + bytes);
        journal.length -= bytes as u64;
    }
}

fn some_other(random: &mut Random, journal: &mut Journal) {
    match random.below(4) {
        0 => {
            let rest = 1 + random.below(61) as usize;
            let count = 1 + random.below(4) as usize;
            *journal = with_rest(rest, count, rest_pointer(rest, random.below(4) as usize), 0);
        }
        1 => {
            journal.slice = vec![0; random.below(400) as usize];
            random.fill(&mut journal.slice);
            journal.length = journal.slice.len() as u64;
        }
        _ if journal.length > 0 => {
            let at = random.below(journal.length) as usize;
            journal.slice[at] ^= 1 << random.below(8);
        }
        _ => {}
    }
}

/// Where a long journal is drawn.
const RARE: u64 = 20_000;

pub fn some_journal(random: &mut Random) -> Journal {
    if random.one_in(RARE) {
        return large(random.below(LARGE));
    }
    let (count, behind) = (some_count(random), if random.one_in(4) { random.below(3) as usize } else { 0 });
    // Right entries may stand behind the journal too.
    let slice = entries(0, count + behind, |_, body| random.fill(body));
    let mut journal = Journal { slice, length: count as u64 * 62 };
    match random.below(20) {
        0..=4 => some_damage(random, &mut journal, 1),
        5..=7 => {
            let faults = 2 + random.below(3);
            some_damage(random, &mut journal, faults);
        }
        8 | 9 => some_cut(random, &mut journal),
        10 => some_gap(random, &mut journal),
        11 => some_other(random, &mut journal),
        _ => {}
    }
    let room = match random.below(8) {
        0 => random.below(300) as usize,
        1..=3 => random.pick(&[0, 61]),
        _ => random.pick(&[62, 63, 124]),
    };
    let from = journal.slice.len();
    journal.slice.resize(from + room, 0);
    random.fill(&mut journal.slice[from..]);
    if random.one_in(40) {
        let size = journal.slice.len() as u64;
        journal.length = random.pick(&[size + 1, size + 62, (1 << 32) + journal.length, 1 << 63, u64::MAX]);
    }
    journal
}

pub fn some_settled(random: &mut Random) -> Settled {
    let length = match random.below(24) {
        0 => random.pick(&[0, 31, 33, 64]),
        1 => random.below(70),
        _ => 32,
    };
    let mut channel = vec![0; length as usize];
    random.fill(&mut channel);
    let [low, high] = [(); 2].map(|()| match random.below(4) {
        0 => random.pick(&[0, 1, u64::MAX]),
        _ => random.next(),
    });
    Settled {
        channel,
        unlock: random.next() as u8,
        flag: if random.one_in(2) { random.below(2) as u8 } else { random.next() as u8 },
        amount: u128::from(high) << 64 | u128::from(low),
    }
}
