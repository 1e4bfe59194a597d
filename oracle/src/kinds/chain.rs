//! `chain`: many updates of one channel in a row, each fed the state that the one before left. Document 01, "The
//! book", is written out here a second time, from its words: not from src/document/settlement.rs (which only the self
//! test asks), the Rust or the port.

use super::{hex, Kind};
use crate::document::{settlement, Document};
use crate::port::{self, Called, Reply};
use crate::random::Random;
use crate::reference::calls::{self, Rust};
use num_bigint::BigUint;
use std::collections::BTreeSet;

/// The most calls of a run.
const MOST: u64 = 50;
const LOCAL: u8 = 0xff;
const REMOTE: u8 = 0xfe;

/// A call's arguments; the state between count byte and `behind` is the one kept.
#[derive(Clone)]
pub struct Call {
    h: u64,
    count: u8,
    behind: Vec<u8>,
    output: usize,
    answer: usize,
}

#[derive(Clone)]
pub struct Input {
    /// The channel's.
    h: usize,
    state: Vec<u8>,
    calls: Vec<Call>,
}

/// What a call answers.
#[derive(Clone, Debug, PartialEq, Eq)]
enum Answer {
    /// The length of the state left.
    Left(usize),
    Refused {
        number: u64,
        place: u64,
    },
    /// A short answer buffer: 14, and nothing in the buffer.
    Alone,
}

/// A whole run: after each call its answer and the state kept, at the end the sums.
#[derive(Clone, Debug, PartialEq, Eq)]
pub struct Run {
    calls: Vec<(Answer, Vec<u8>)>,
    /// How often each TLC of the first state was paid.
    paid_tlcs: Vec<usize>,
    /// Every payment of the remote and of the local share, zeros among them.
    paid_shares: [Vec<u128>; 2],
    paid: BigUint,
    standing: BigUint,
}

fn amount(bytes: &[u8]) -> u128 {
    u128::from_le_bytes(bytes.try_into().expect("16 bytes"))
}

// ---- The book ----

/// A TLC of the first state: its record, and whether it stands.
#[derive(Clone)]
struct Tlc {
    record: Vec<u8>,
    stands: bool,
}

struct Book {
    h: usize,
    tlcs: Vec<Tlc>,
    /// Key hash and amount: remote, local.
    shares: [(Vec<u8>, u128); 2],
    paid: BigUint,
    /// What was paid by each payment, by whom: a first place, or the share (0 remote, 1 local).
    payments: Vec<(Paid, u128)>,
}

#[derive(Clone, Copy, PartialEq, Eq)]
enum Paid {
    Tlc(usize),
    Share(usize),
}

impl Book {
    /// Opens with a whole state: n, n records of 65 + h, two shares of 20 + 16.
    fn open(h: usize, state: &[u8]) -> Book {
        let (shares, list) = (&state[state.len() - 72..], &state[1..state.len() - 72]);
        assert_eq!(list.len(), usize::from(state[0]) * (65 + h), "a first state is whole");
        let share = |part: &[u8]| (part[..20].to_vec(), amount(&part[20..]));
        Book {
            h,
            tlcs: list.chunks(65 + h).map(|r| Tlc { record: r.to_vec(), stands: true }).collect(),
            shares: [share(&shares[..36]), share(&shares[36..])],
            paid: BigUint::default(),
            payments: vec![],
        }
    }

    /// First places of the TLCs that stand.
    fn standing(&self) -> Vec<usize> {
        (0..self.tlcs.len()).filter(|first| self.tlcs[*first].stands).collect()
    }

    fn sum(&self) -> BigUint {
        let tlcs = self.tlcs.iter().filter(|t| t.stands).map(|t| amount(&t.record[1..17]));
        tlcs.chain(self.shares.iter().map(|s| s.1)).map(BigUint::from).sum()
    }

    /// "The number standing, their records in first order, remote share, local share."
    fn state(&self) -> Vec<u8> {
        let standing = self.standing();
        let mut bytes = vec![u8::try_from(standing.len()).expect("at most 255")];
        for first in standing {
            bytes.extend_from_slice(&self.tlcs[first].record);
        }
        for (key, amount) in &self.shares {
            bytes.extend_from_slice(key);
            bytes.extend(amount.to_le_bytes());
        }
        bytes
    }

    /// Who is paid by the unlocks, in order, or the row that turns them down. `from` is the place of the first.
    fn payees(&self, behind: &[u8], from: usize) -> Result<Vec<Paid>, Answer> {
        // All are read before one is judged.
        let mut unlocks = vec![];
        let mut rest = behind;
        while !rest.is_empty() {
            let place = (from + behind.len() - rest.len()) as u64;
            let wanted = if rest.get(1) == Some(&1) { 67 + 32 } else { 67 };
            if rest.len() < wanted {
                return Err(Answer::Refused { number: 4, place });
            }
            unlocks.push((rest[0], place));
            rest = &rest[wanted..];
        }
        // Places mean the list before any removal: the one before this call.
        let before = self.standing();
        let mut payees = vec![];
        for (byte, place) in unlocks {
            let one = match byte {
                REMOTE => Paid::Share(0),
                LOCAL => Paid::Share(1),
                _ => match before.get(usize::from(byte)) {
                    None => return Err(Answer::Refused { number: 5, place }),
                    Some(first) => Paid::Tlc(*first),
                },
            };
            if matches!(one, Paid::Tlc(_)) && payees.contains(&one) {
                return Err(Answer::Refused { number: 6, place });
            }
            payees.push(one);
        }
        Ok(payees)
    }

    /// A call: what it answers. One that is turned down changes nothing.
    fn call(&mut self, call: &Call) -> Answer {
        if call.answer < 24 {
            return Answer::Alone;
        }
        if call.h != self.h as u64 {
            return Answer::Refused { number: 14, place: 0 };
        }
        let standing = self.standing().len();
        let payees = match self.payees(&call.behind, 1 + 73 + standing * (65 + self.h)) {
            Ok(payees) => payees,
            Err(refusal) => return refusal,
        };
        let settled = payees.iter().filter(|one| matches!(one, Paid::Tlc(_))).count();
        let length = 73 + (standing - settled) * (65 + self.h);
        if call.output < length {
            return Answer::Refused { number: 13, place: length as u64 };
        }
        for one in payees {
            let payment = match one {
                Paid::Tlc(first) => {
                    self.tlcs[first].stands = false;
                    amount(&self.tlcs[first].record[1..17])
                }
                Paid::Share(side) => std::mem::replace(&mut self.shares[side], (vec![0; 20], 0)).1,
            };
            self.paid += payment;
            self.payments.push((one, payment));
        }
        Answer::Left(length)
    }

    fn share_payments(&self, side: usize) -> Vec<u128> {
        self.payments.iter().filter(|p| p.0 == Paid::Share(side)).map(|p| p.1).collect()
    }
}

fn book(i: &Input) -> Run {
    let mut book = Book::open(i.h, &i.state);
    let calls = i.calls.iter().map(|call| (book.call(call), book.state())).collect();
    let times = |first| book.payments.iter().filter(|p| p.0 == Paid::Tlc(first)).count();
    Run {
        calls,
        paid_tlcs: (0..book.tlcs.len()).map(times).collect(),
        paid_shares: [0, 1].map(|side| book.share_payments(side)),
        paid: book.paid.clone(),
        standing: book.sum(),
    }
}

// ---- A side that is asked for each update ----

/// Runs the calls on a side that is asked for each update with the whole witness, and keeps the states that it
/// leaves. What was paid is read off those states: the amount at the place unlocked in the state kept before.
fn followed(
    i: &Input,
    mut ask: impl FnMut(&Call, &[u8]) -> Result<(Answer, Vec<u8>), String>,
) -> Result<Run, String> {
    let (size, n) = (65 + i.h, usize::from(i.state[0]));
    let mut kept = i.state.clone();
    // Where each record of the state kept stood first.
    let mut firsts: Vec<usize> = (0..n).collect();
    let (mut paid, mut paid_tlcs, mut paid_shares) = (BigUint::default(), vec![0; n], [vec![], vec![]]);
    let mut calls = vec![];
    for call in &i.calls {
        let witness = [&[call.count], &kept[..], &call.behind].concat();
        let (answer, left) = ask(call, &witness)?;
        if let Answer::Left(length) = answer {
            if length != left.len() {
                return Err(format!("a state of {} bytes, answered to have {length}", left.len()));
            }
            let (mut gone, mut emptied) = (vec![false; firsts.len()], [false; 2]);
            let mut at = 0;
            while at < call.behind.len() {
                let byte = call.behind[at];
                let payment = if byte >= REMOTE {
                    let side = usize::from(byte == LOCAL);
                    let share = &kept[1 + firsts.len() * size + 36 * side..][..36];
                    let payment = if emptied[side] { 0 } else { amount(&share[20..]) };
                    emptied[side] = true;
                    paid_shares[side].push(payment);
                    payment
                } else {
                    let Some(first) = firsts.get(usize::from(byte)) else {
                        return Err(format!("unlock byte {byte} accepted, {} TLCs stand", firsts.len()));
                    };
                    paid_tlcs[*first] += 1;
                    gone[usize::from(byte)] = true;
                    amount(&kept[1 + usize::from(byte) * size..][1..17])
                };
                paid += payment;
                at += if call.behind.get(at + 1) == Some(&1) { 99 } else { 67 };
            }
            let mut gone = gone.into_iter();
            firsts.retain(|_| !gone.next().expect("one for each"));
            if left.len() != 73 + firsts.len() * size || usize::from(left[0]) != firsts.len() {
                let (length, count) = (left.len(), left.first());
                return Err(format!("{length} bytes and the count {count:?} with {} TLCs", firsts.len()));
            }
            kept = left;
        }
        calls.push((answer, kept.clone()));
    }
    let tlcs = (0..firsts.len()).map(|place| amount(&kept[1 + place * size..][1..17]));
    let shares = [36, 0].map(|back| amount(&kept[kept.len() - back - 16..][..16]));
    let standing = tlcs.chain(shares).map(BigUint::from).sum();
    Ok(Run { calls, paid_tlcs, paid_shares, paid, standing })
}

/// The port over C, with buffers of the call's lengths.
fn by_port(i: &Input, random: &mut Random) -> Result<Run, String> {
    followed(i, |call, witness| {
        port::one_update(random, call.h, witness, call.output, call.answer).map(|reply| match reply {
            None => (Answer::Alone, vec![]),
            Some(Reply::Value(state)) => (Answer::Left(state.len()), state),
            Some(Reply::Refused { number, place }) => (Answer::Refused { number, place }, vec![]),
        })
    })
}

/// The Rust, asked where the two are equal. It tells neither number nor place: those are the book's where it turns
/// down what the book turns down. Row 6 and what cannot be lent to it (13, 14) are the book's too.
fn by_rust(i: &Input) -> Result<Run, String> {
    let mut book = Book::open(i.h, &i.state);
    followed(i, |call, witness| {
        let answer = book.call(call);
        if matches!(answer, Answer::Alone | Answer::Refused { number: 6 | 13 | 14, .. }) {
            return Ok((answer, vec![]));
        }
        match (calls::update(i.h as u8, witness), answer) {
            (calls::Update::State(state), _) => Ok((Answer::Left(state.len()), state)),
            (calls::Update::Unread | calls::Update::Refused, answer @ Answer::Refused { .. }) => {
                Ok((answer, vec![]))
            }
            (other, _) => Err(format!("the Rust answers {other:?}")),
        }
    })
}

// ---- Inputs ----

fn push_unlock(random: &mut Random, behind: &mut Vec<u8>, byte: u8) {
    let flag = random.pick(&[0, 0, 0, 1, 1, 2, 0xff]);
    let from = behind.len();
    behind.resize(from + if flag == 1 { 99 } else { 67 }, 0);
    random.fill(&mut behind[from..]);
    behind[from..from + 2].copy_from_slice(&[byte, flag]);
}

/// A state of `n` TLCs. Amounts are often large, so that their sum passes 128 bits, and seldom 0.
fn first_state(random: &mut Random, h: usize, n: usize) -> Vec<u8> {
    let mut state = vec![0; 73 + n * (65 + h)];
    random.fill(&mut state);
    state[0] = n as u8;
    let shares = 1 + n * (65 + h);
    let tlcs = (0..n).map(|k| 1 + k * (65 + h) + 1);
    for at in tlcs.chain([shares + 20, shares + 56]) {
        let some = match random.below(8) {
            0 => 0,
            1 | 2 => u128::MAX - u128::from(random.below(3)),
            3 | 4 => u128::from(random.of_width(64)),
            _ => continue,
        };
        state[at..at + 16].copy_from_slice(&some.to_le_bytes());
    }
    state
}

/// The bytes behind a state of which `n` TLCs stand: mostly whole unlocks that can be taken.
fn some_behind(random: &mut Random, n: usize) -> Vec<u8> {
    let mut behind = vec![];
    let mut free: Vec<u8> = (0..n.min(254)).map(|place| place as u8).collect();
    let many = match random.below(12) {
        0 => 0,
        1 => random.below(free.len() as u64 + 1), // many at once
        _ => random.pick(&[1, 1, 1, 2, 2, 3]),
    };
    for _ in 0..many {
        let byte = match random.below(40) {
            0..=2 => REMOTE,
            3..=5 => LOCAL,
            6 => n as u8,                      // one above the last place, or a share
            7 => random.below(256) as u8,      // mostly no place
            8 => random.below(n as u64) as u8, // at times one settled already
            _ if free.is_empty() => random.pick(&[REMOTE, LOCAL]),
            _ => free.swap_remove(random.below(free.len() as u64) as usize),
        };
        push_unlock(random, &mut behind, byte);
        // A share again, at once; a place again.
        if random.one_in(30) {
            push_unlock(random, &mut behind, byte);
        }
    }
    let length = behind.len();
    match random.below(12) {
        0 => behind.truncate(random.below(length as u64 + 1) as usize),
        1 => behind.extend((0..random.below(70)).map(|_| 0xff)),
        2 if length > 0 => behind[random.below(length as u64) as usize] ^= 1 << random.below(8),
        3 => {
            behind.resize(random.below(250) as usize, 0);
            random.fill(&mut behind);
        }
        _ => {}
    }
    behind
}

/// A call on the state that the book has now.
fn some_call(random: &mut Random, book: &Book) -> Call {
    let standing = book.standing().len();
    let h = match random.below(20) {
        0 => random.pick(&[0, 1, 19, 21, 31, 33, 52, 64, 255, 256 + 20, 256 + 32, 1 << 32 | 20, u64::MAX]),
        _ => book.h as u64,
    };
    let state = 73 + standing * (65 + book.h);
    let output = match random.below(12) {
        0 => random.below(state as u64) as usize,
        1 => random.near(state as u64) as usize,
        2 => random.near((state - (65 + book.h).min(state - 73)) as u64) as usize,
        _ => state + random.below(40) as usize,
    };
    let answer = match random.below(12) {
        0 => random.below(24) as usize,
        1 => 24 + random.below(40) as usize,
        _ => 24,
    };
    Call { h, count: random.below(256) as u8, behind: some_behind(random, standing), output, answer }
}

fn some_run(random: &mut Random, h: usize, n: usize, calls: u64) -> Input {
    let state = first_state(random, h, n);
    let mut book = Book::open(h, &state);
    let call = |_| {
        let call = some_call(random, &book);
        book.call(&call);
        call
    };
    Input { h, calls: (0..calls).map(call).collect(), state }
}

/// A run of whole unlocks, one call to each list of unlock bytes, all buffers long enough.
fn plain_run(h: usize, n: usize, lists: &[Vec<u8>]) -> Input {
    let mut random = Random::of(1, "plain runs", n as u64);
    let state = first_state(&mut random, h, n);
    let call = |bytes: &Vec<u8>| {
        let mut behind = vec![];
        for byte in bytes {
            push_unlock(&mut random, &mut behind, *byte);
        }
        Call { h: h as u64, count: bytes.len() as u8, behind, output: 73 + n * (65 + h), answer: 24 }
    };
    let calls = lists.iter().map(call).collect();
    Input { h, state, calls }
}

// ---- For the self test ----

/// What is answered in the first runs, by number; 0 for a state left.
pub fn answers(runs: u64) -> BTreeSet<String> {
    let run = |case| book(&Chain::random(&mut Random::of(1, Chain::NAME, case)));
    let number = |answer: &Answer| match answer {
        Answer::Left(_) => "0".to_string(),
        Answer::Refused { number, .. } => number.to_string(),
        Answer::Alone => "14 alone".to_string(),
    };
    (0..runs).flat_map(|case| run(case).calls).map(|call| number(&call.0)).collect()
}

/// A side that answers as document 01 says, but for one fault; None: none.
fn with_fault(fault: Option<&str>, h: usize, call: &Call, witness: &[u8]) -> (Answer, Vec<u8>) {
    let (size, n) = (65 + h, usize::from(witness[1]));
    let behind = witness.len() - call.behind.len();
    let mut witness = witness.to_vec();
    let mut place_of_share = 0;
    match fault {
        Some("the count byte is looked at") if call.count == 0 => witness.truncate(behind),
        Some("0xFE settles place 254") if n == 255 && call.behind.first() == Some(&REMOTE) => {
            place_of_share = 254
        }
        Some("13 comes before 5") if call.output < 73 && call.answer >= 24 && call.h == h as u64 => {
            return (Answer::Refused { number: 13, place: 73 }, vec![])
        }
        _ => {}
    }
    if call.answer < 24 && fault != Some("a short answer buffer is not looked at") {
        return (Answer::Alone, vec![]);
    }
    let mut state = match settlement::update(call.h, &witness, call.output) {
        Document::Value(state) => state,
        Document::Row(row, place) => {
            let from_state = fault == Some("places count from the state") && place > 0;
            return (Answer::Refused { number: row.number, place: place - u64::from(from_state) }, vec![]);
        }
    };
    let shares = state.len() - 72;
    match fault {
        Some("a share keeps its amount") if call.behind.contains(&LOCAL) => {
            state[shares + 56..].copy_from_slice(&witness[behind - 16..behind]);
        }
        Some("the last two TLCs change places") if state[0] > 1 => {
            state[shares - 2 * size..shares].rotate_left(size);
        }
        _ if place_of_share == 254 => {
            state.drain(shares - size..shares);
            state[0] -= 1;
        }
        _ => {}
    }
    (Answer::Left(state.len()), state)
}

/// Faults that the runs do not notice; without a fault there may be nothing to notice.
pub fn unnoticed() -> Vec<&'static str> {
    let runs: Vec<Input> = Chain::edges()
        .into_iter()
        .chain((0..2000).map(|case| Chain::random(&mut Random::of(1, Chain::NAME, case))))
        .collect();
    let noticed = |fault| {
        runs.iter().any(|i| {
            let run = followed(i, |call, witness| Ok(with_fault(fault, i.h, call, witness)));
            run != Ok(book(i))
        })
    };
    assert!(!noticed(None), "a side without a fault is found faulty");
    FAULTS.iter().copied().filter(|fault| !noticed(Some(fault))).collect()
}

pub const FAULTS: [&str; 7] = [
    "the count byte is looked at",
    "0xFE settles place 254",
    "13 comes before 5",
    "a short answer buffer is not looked at",
    "places count from the state",
    "a share keeps its amount",
    "the last two TLCs change places",
];

pub struct Chain;

impl Kind for Chain {
    type Input = Input;
    type Value = Run;

    const NAME: &'static str = "chain";
    const ABOUT: &'static str = "up to 50 updates of one channel, against the book";
    const EXPORT: &'static str = "fiber_settlement_update";
    const DUMP_LINES: usize = 0;

    fn edges() -> Vec<Input> {
        let mut edges = vec![];
        for h in [20, 32] {
            for n in [0, 1, 2, 3, 16, 252, 253, 254, 255] {
                let below = n.min(254) as u8;
                let last = below.saturating_sub(1);
                edges.extend([
                    // Shares: each alone, twice in one call, again later.
                    plain_run(h, n, &[vec![LOCAL], vec![REMOTE], vec![LOCAL, REMOTE, LOCAL], vec![]]),
                    plain_run(h, n, &[vec![LOCAL, LOCAL, REMOTE, REMOTE], vec![REMOTE]]),
                    // Every place that has a byte, at once, forwards and backwards; then what is left of 255.
                    plain_run(h, n, &[(0..below).collect(), vec![0], vec![REMOTE, LOCAL], vec![0]]),
                    plain_run(
                        h,
                        n,
                        &[(0..below).rev().chain([LOCAL, REMOTE]).collect(), vec![0, 0], vec![0]],
                    ),
                    // Place after place from the front, and from the back.
                    plain_run(h, n, &vec![vec![0]; MOST as usize]),
                    plain_run(
                        h,
                        n,
                        &(0..MOST as u8).map(|k| vec![last.saturating_sub(k)]).collect::<Vec<_>>(),
                    ),
                    // A repeat within a call changes nothing; across calls it means the next TLC.
                    plain_run(h, n, &[vec![0, 0], vec![LOCAL, 0, REMOTE, 0], vec![0], vec![0], vec![last]]),
                    // 0xFE is the remote share, though 255 TLCs have a place 254: it falls to 253 first.
                    plain_run(h, n, &[vec![0xfe], vec![0xfd], vec![0xfd, 0], vec![0xfc], vec![0xfe, 0xfc]]),
                ]);
            }
        }
        edges
    }

    fn grid_size() -> u64 {
        2 * 256
    }

    /// Every n.
    fn grid(place: u64) -> Input {
        let mut random = Random::of(1, "every n", place);
        some_run(&mut random, if place < 256 { 20 } else { 32 }, (place % 256) as usize, 6)
    }

    fn random(random: &mut Random) -> Input {
        let h = random.pick(&[20, 32]);
        let n = match random.below(200) {
            0 => random.pick(&[252, 253, 254, 255]),
            1 => random.below(256) as usize,
            2..=9 => random.below(30) as usize,
            _ => random.below(8) as usize,
        };
        let calls = match random.below(8) {
            0 => 1 + random.below(MOST),
            _ => 1 + random.below(8),
        };
        some_run(random, h, n, calls)
    }

    fn document(i: &Input) -> Document<Run> {
        Document::Value(book(i))
    }

    fn rust(i: &Input) -> Rust<Run> {
        match by_rust(i) {
            Ok(run) => Rust::Value(run),
            Err(why) => Rust::Panicked(why),
        }
    }

    fn port(i: &Input, random: &mut Random) -> Called<Run> {
        by_port(i, random).map(Reply::Value)
    }

    /// What document 01 demands of the whole run, of the book's figures; the other two have the same.
    fn further(i: &Input) -> Result<(), &'static str> {
        let (run, start) = (book(i), Book::open(i.h, &i.state));
        let left = run.calls.last().map_or(i.state.clone(), |call| call.1.clone());
        let end = Book::open(i.h, &left);
        for side in [0, 1] {
            let (first, later) = match run.paid_shares[side].split_first() {
                None if end.shares[side] == start.shares[side] => continue,
                None => return Err("a share changed without an unlock"),
                Some(split) => split,
            };
            if *first != start.shares[side].1 || later.iter().any(|payment| *payment != 0) {
                return Err("a share is not paid in full at its first accepted unlock and nothing later");
            }
            if end.shares[side] != (vec![0; 20], 0) {
                return Err("a share paid is not zeros");
            }
        }
        let mut stand = end.tlcs.iter();
        for (tlc, times) in start.tlcs.iter().zip(&run.paid_tlcs) {
            let well = match times {
                0 => stand.next().is_some_and(|left| left.record == tlc.record),
                times => *times == 1,
            };
            if !well {
                return Err("a TLC is not paid once or standing");
            }
        }
        if stand.next().is_some() {
            return Err("more TLCs stand than were there");
        }
        if &run.paid + &run.standing != start.sum() || end.sum() != run.standing {
            return Err("paid and standing are not the starting sum");
        }
        Ok(())
    }

    fn class(_: &Input, run: &Run) -> &'static str {
        let settled: usize = run.paid_tlcs.iter().sum();
        let refused = run.calls.iter().any(|call| !matches!(call.0, Answer::Left(_)));
        match (run.paid_tlcs.len(), settled, refused) {
            (253.., ..) => "n 253 to 255",
            (_, 0, false) => "no TLC settled, none turned down",
            (_, 0, true) => "no TLC settled, some turned down",
            (_, _, false) => "TLCs settled, none turned down",
            (_, _, true) => "TLCs settled, some turned down",
        }
    }

    fn show_input(i: &Input) -> String {
        let call = |c: &Call| format!("{} {} {} {} {}", c.h, c.count, hex(&c.behind), c.output, c.answer);
        let calls: Vec<String> = i.calls.iter().map(call).collect();
        format!("{} {}; {}", i.h, hex(&i.state), calls.join("; "))
    }

    fn show_value(run: &Run) -> String {
        let shown = |answer: &Answer| match answer {
            Answer::Left(length) => format!("left {length}"),
            Answer::Refused { number, place } => format!("refused {number} at {place}"),
            Answer::Alone => "14 alone".to_string(),
        };
        let calls: Vec<String> =
            run.calls.iter().map(|c| format!("{}, {}", shown(&c.0), hex(&c.1))).collect();
        let [remote, local] = &run.paid_shares;
        format!(
            "{}; TLCs paid {:?}, remote {remote:?}, local {local:?}; paid {}, standing {}",
            calls.join("; "),
            run.paid_tlcs,
            run.paid,
            run.standing
        )
    }
}
