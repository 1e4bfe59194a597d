//! Waits of the walk, 22 to 25: cases made for them, which of them can occur, and how often each was met. The Rust only
//! says that it waits, so number and place rest on change request W1 alone, as src/document/settlement.rs has it.

use super::settlement::{data_of, since_of, Tlc, AMPLE, TLC};
use super::{digits, epoch};
use crate::document::settlement::{
    self, Fate, Request, NOT_PASSED, NO_EXPIRY, NO_KEY, NO_PREIMAGE, NO_PREIMAGE_YET, PART_NOT_DUE,
};
use crate::document::{Document, Epoch, Row};
use std::collections::{BTreeMap, BTreeSet};
use std::fmt;

// ---- Cases ----

const TIME: u64 = 6000;
/// Expiries in ms, that are passed or not by their seconds too.
const BEFORE: u64 = TIME - 1;
const AT: u64 = TIME;

/// Expiries that are none: relative, of another metric, too many seconds.
const NO_EXPIRIES: [u64; 3] =
    [0xc000_0000_0000_0005, 0x2000_0000_0000_0005, 0x4000_0000_0000_0000 | 18_446_744_073_709_552];

/// One TLC of a case.
#[derive(Clone, Copy)]
struct One {
    tag: u8,
    timeout_kind: bool,
    expiry: u64,
    /// What a later settlement's record has in the place of its expiry.
    since: Option<u64>,
    has_key: bool,
    /// The preimage of its pair, if it has a pair: is it the right one?
    pair: Option<bool>,
}

/// Pending falls for it, in a first settlement once the full delay is due.
const FALLS: One =
    One { tag: 1, timeout_kind: false, expiry: BEFORE, since: None, has_key: true, pair: None };

/// What stands behind the TLC that is looked at: nothing; one that falls, is passed over, not passed, without a preimage;
/// one that is chosen, in a first settlement once 2/3 of the delay is due.
const BEHIND: [Option<One>; 6] = [
    None,
    Some(One { tag: 3, ..FALLS }),
    Some(One { tag: 3, has_key: false, ..FALLS }),
    Some(One { tag: 3, timeout_kind: true, expiry: AT, ..FALLS }),
    Some(One { tag: 3, expiry: AT, ..FALLS }),
    Some(One { tag: 3, timeout_kind: true, ..FALLS }),
];

/// How many are in front, with each of `BEHIND`; and once as many as can be, with nothing behind.
const FRONT: [usize; 3] = [0, 2, 1];
const MOST_IN_FRONT: usize = 253;
const AROUND: u64 = (FRONT.len() * BEHIND.len()) as u64 + 1;

pub const CASES: u64 = 2 * 2 * 2 * 2 * 8 * AROUND;

/// Every state of one TLC, in a first and in a later settlement, amid others. Not all of them make a wait.
pub fn case(place: u64) -> Request {
    let mut next = digits(place);
    let (is_later, for_remote, timeout_kind) = (next(2) == 1, next(2) == 1, next(2) == 1);
    let mut one = One { tag: 2, timeout_kind, pair: Some(next(2) == 1), ..FALLS };
    let mut now = epoch(10, 999, 1000);
    if is_later {
        let expiry = next(4);
        one.expiry = if expiry == 0 { AT } else { BEFORE };
        one.since = (expiry > 1).then(|| NO_EXPIRIES[place as usize % 3]);
        one.has_key = next(2) == 1;
    } else {
        // Of the delay nothing, 1/3, 2/3 or all is due.
        now = [now, epoch(11, 0, 1), epoch(12, 0, 1), epoch(13, 0, 1)][next(4) as usize];
        one.expiry = [AT, BEFORE][next(2) as usize];
    }
    let around = next(AROUND) as usize;
    let (front, behind) = match BEHIND.get(around / FRONT.len()) {
        Some(behind) => (FRONT[around % FRONT.len()], *behind),
        None => (MOST_IN_FRONT, None),
    };
    let all: Vec<One> = std::iter::repeat(FALLS).take(front).chain([one]).chain(behind).collect();
    let h = [20, 32][around / FRONT.len() % 2];
    let mut request = match is_later {
        true => later(h, for_remote, &all, front > 1),
        false => first(h, for_remote, &all, now),
    };
    // A wait comes before a short output.
    if let Document::Row(..) = settlement::choice(&request) {
        request.output = [0, 100][place as usize / 2 % 2];
    }
    request
}

fn lent(one: &One, for_remote: bool) -> Tlc {
    Tlc {
        received: one.timeout_kind != for_remote,
        algorithm: one.tag % 2,
        amount: 100 + u128::from(one.tag),
        preimage: [one.tag; 32],
        expiry: one.expiry,
        local: [10 + one.tag; 33],
        remote: [20 + one.tag; 33],
    }
}

/// A first settlement with delay (3, 0/1).
fn first(h: u64, for_remote: bool, all: &[One], now: Epoch) -> Request {
    let tlcs: Vec<Tlc> = all.iter().map(|one| lent(one, for_remote)).collect();
    let mut args: Vec<u8> = (0..57).collect();
    args[20..28].copy_from_slice(&since_of(epoch(3, 0, 1)).to_le_bytes());
    let data = data_of(&tlcs, [4; 33], [5; 33]);
    let Document::Value(state) = settlement::first(h, for_remote, &data, AMPLE) else {
        unreachable!("at most 255 TLCs")
    };
    let (mut tracked, mut preimages) = (vec![], vec![]);
    for ((one, tlc), record) in all.iter().zip(&tlcs).zip(state[1..].chunks(65 + h as usize)) {
        tracked.extend(tlc.hash());
        tracked.push(tlc.algorithm);
        tracked.extend(record);
        if let Some(right) = one.pair {
            preimages.extend(tlc.hash());
            preimages.extend(if right { tlc.preimage } else { [0x99; 32] });
        }
    }
    Request {
        h,
        for_remote,
        args,
        time: TIME,
        header: epoch(10, 0, 1),
        current: now,
        data,
        tracked,
        preimages,
        witness: None,
        output: AMPLE,
    }
}

/// A later settlement, in which nothing of the delay is due; one more TLC may be settled in front of those standing.
fn later(h: u64, for_remote: bool, standing: &[One], is_settled: bool) -> Request {
    let settled = is_settled.then_some(One { tag: 4, ..FALLS });
    let all: Vec<One> = settled.iter().chain(standing).copied().collect();
    let mut request = first(h, for_remote, &all, epoch(10, 0, 1));
    let Document::Value(mut state) = settlement::first(h, for_remote, &request.data, AMPLE) else {
        unreachable!("at most 255 TLCs")
    };
    let (record, entry) = (65 + h as usize, 98 + h as usize);
    for (place, one) in all.iter().enumerate().rev() {
        if let Some(since) = one.since {
            state[1 + (place + 1) * record - 8..][..8].copy_from_slice(&since.to_le_bytes());
            request.tracked[(place + 1) * entry - 8..][..8].copy_from_slice(&since.to_le_bytes());
        }
        let at = place * TLC;
        match one.has_key {
            true => {}
            // Another local key, or no settlement TLC at all.
            false if one.tag == 2 => request.data.tlcs[at + 58] ^= 1,
            false => drop(request.data.tlcs.drain(at..at + TLC)),
        }
    }
    let mut witness = [vec![0], state].concat();
    if is_settled {
        request.tracked.drain(..entry);
        witness.extend([0; 67]);
    }
    Request { witness: Some(witness), ..request }
}

// ---- What can occur ----

/// The causes that fit a TLC at once: in a later settlement or not, of timeout kind or not, and whether it can be above
/// place 0. TLCs in front of the one that is named fell, in a first settlement once the full delay and so every part of
/// it is due.
const CAN_FIT: &[(bool, bool, &[Row], bool)] = &[
    (false, true, &[PART_NOT_DUE, NOT_PASSED], false),
    (false, true, &[PART_NOT_DUE], false),
    (false, true, &[NOT_PASSED], true),
    (false, false, &[PART_NOT_DUE, NO_PREIMAGE], false),
    (false, false, &[PART_NOT_DUE], false),
    (false, false, &[NO_PREIMAGE, NO_PREIMAGE_YET], false),
    (false, false, &[NO_PREIMAGE_YET], false),
    (false, false, &[NO_PREIMAGE], true),
    (true, true, &[NO_EXPIRY, NO_KEY, NOT_PASSED], true),
    (true, true, &[NO_EXPIRY, NOT_PASSED], true),
    (true, true, &[NO_KEY, NOT_PASSED], true),
    (true, true, &[NO_KEY], true),
    (true, true, &[NOT_PASSED], true),
    (true, false, &[NO_EXPIRY, NO_KEY, NO_PREIMAGE], true),
    (true, false, &[NO_EXPIRY, NO_KEY], true),
    (true, false, &[NO_EXPIRY, NO_PREIMAGE], true),
    (true, false, &[NO_EXPIRY], true),
    (true, false, &[NO_KEY, NO_PREIMAGE], true),
    (true, false, &[NO_KEY], true),
    (true, false, &[NO_PREIMAGE], true),
];

/// A number that is named, and another of a TLC behind: in a first settlement, in a later one.
const BEHIND_IN_FIRST: &[(u64, u64)] = &[(24, 25), (25, 24)];
const BEHIND_IN_LATER: &[(u64, u64)] = &[(23, 24), (23, 25), (24, 23), (24, 25), (25, 23), (25, 24)];

fn whose(is_later: bool, for_remote: bool) -> String {
    let settlement = if is_later { "later" } else { "first" };
    format!("{settlement}, {}", if for_remote { "for_remote" } else { "not for_remote" })
}

fn kind(timeout_kind: bool) -> &'static str {
    if timeout_kind {
        "timeout kind"
    } else {
        "preimage kind"
    }
}

fn named(is_later: bool, for_remote: bool, timeout_kind: bool, causes: &[Row], above_0: bool) -> String {
    let texts: Vec<String> = causes.iter().map(|row| format!("{} {}", row.number, row.cause)).collect();
    let place = if above_0 { "above place 0" } else { "at place 0" };
    format!("{}, {}, {place}: {}", whose(is_later, for_remote), kind(timeout_kind), texts.join(" + "))
}

fn none_named(for_remote: bool) -> String {
    format!("{}: 22", whose(false, for_remote))
}

fn behind(is_later: bool, for_remote: bool, number: u64, other: u64) -> String {
    format!("{}: {number}, behind it {other}", whose(is_later, for_remote))
}

/// All combinations that can occur.
pub fn possible() -> BTreeSet<String> {
    let mut all = BTreeSet::new();
    for for_remote in [true, false] {
        all.insert(none_named(for_remote));
        for (is_later, timeout_kind, causes, can_be_above) in CAN_FIT {
            all.insert(named(*is_later, for_remote, *timeout_kind, causes, false));
            if *can_be_above {
                all.insert(named(*is_later, for_remote, *timeout_kind, causes, true));
            }
        }
        for (is_later, pairs) in [(false, BEHIND_IN_FIRST), (true, BEHIND_IN_LATER)] {
            all.extend(pairs.iter().map(|(number, other)| behind(is_later, for_remote, *number, *other)));
        }
    }
    all
}

// ---- Counts ----

/// Number, settlement, and the kind of the TLC named, if there is one.
type What = (u64, bool, Option<bool>);

#[derive(Default)]
struct Count {
    for_remote: u64,
    not_for_remote: u64,
    several_causes: u64,
    above_0: u64,
    other_behind: u64,
    greatest: usize,
}

#[derive(Default)]
pub struct Waits {
    counts: BTreeMap<What, Count>,
    /// The combinations met, as `possible` has them.
    pub met: BTreeSet<String>,
}

/// The TLCs still pending, in order: place, timeout kind, causes.
fn pending(request: &Request) -> Vec<(usize, bool, Vec<Row>)> {
    let walked = settlement::walk(request).into_iter().enumerate();
    let pending = walked.filter_map(|(place, tlc)| match tlc.fate {
        Fate::Pending(causes) => Some((place, tlc.timeout_kind, causes)),
        Fate::Fell => None,
        Fate::Chosen(_) => unreachable!("chosen, and no wait"),
    });
    pending.collect()
}

impl Waits {
    /// Counts a row of the choice, if it is a wait of the walk.
    pub fn count(&mut self, request: &Request, row: &Row) {
        if !(22..=25).contains(&row.number) {
            return;
        }
        let (is_later, for_remote) = (request.witness.is_some(), request.for_remote);
        let pending = pending(request);
        let what = (row.number, is_later, pending.first().map(|(_, timeout_kind, _)| *timeout_kind));
        let count = self.counts.entry(what).or_default();
        *(if for_remote { &mut count.for_remote } else { &mut count.not_for_remote }) += 1;
        let Some(((place, timeout_kind, causes), rest)) = pending.split_first() else {
            self.met.insert(none_named(for_remote));
            return;
        };
        let others: BTreeSet<u64> =
            rest.iter().map(|(_, _, causes)| causes[0].number).filter(|other| *other != row.number).collect();
        count.several_causes += u64::from(causes.len() > 1);
        count.above_0 += u64::from(*place > 0);
        count.other_behind += u64::from(!others.is_empty());
        count.greatest = count.greatest.max(*place);
        self.met.insert(named(is_later, for_remote, *timeout_kind, causes, *place > 0));
        self.met.extend(others.iter().map(|other| behind(is_later, for_remote, row.number, *other)));
    }
}

/// A table, if a wait was counted.
impl fmt::Display for Waits {
    fn fmt(&self, f: &mut fmt::Formatter<'_>) -> fmt::Result {
        if self.counts.is_empty() {
            return Ok(());
        }
        writeln!(
            f,
            "  {:25}{:>10}{:>9}{:>9}{:>9}{:>9}{:>10}",
            "waits of the walk", "for_remote", "not", "several", "place", "other", "greatest"
        )?;
        writeln!(
            f,
            "  {:25}{:>10}{:>9}{:>9}{:>9}{:>9}{:>10}",
            "", "", "", "causes", "above 0", "behind", "place"
        )?;
        for ((number, is_later, timeout_kind), count) in &self.counts {
            let settlement = if *is_later { "later" } else { "first" };
            let what = format!("{number} {settlement}, {}", timeout_kind.map_or("no TLCs", kind));
            writeln!(
                f,
                "    {what:23}{:>10}{:>9}{:>9}{:>9}{:>9}{:>10}",
                count.for_remote,
                count.not_for_remote,
                count.several_causes,
                count.above_0,
                count.other_behind,
                count.greatest
            )?;
        }
        let possible = possible();
        let met = self.met.iter().filter(|one| possible.contains(*one)).count();
        writeln!(f, "    of {} combinations that can occur {met} were met", possible.len())
    }
}
