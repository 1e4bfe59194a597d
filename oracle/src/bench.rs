//! `oracle bench`: the reader, the update and the choice over C beside the reference's text, and the journal beside a copy
//! of its bytes, in one run.
//!
//! The port writes into one lent output and one lent answer buffer, which are not cleared between calls; the Rust
//! allocates what it hands out and drops it. Batches of both are timed in turn, and medians are taken, so that what
//! else the machine does falls on both.

use crate::document::journal::{self, Journal, Settled, ENTRY, MOST};
use crate::document::settlement::{self, Request};
use crate::document::{Document, Epoch};
use crate::kinds::first::case;
use crate::kinds::journal::whole;
use crate::kinds::settlement::{bytes, data_of, since_of, Tlc};
use crate::port::{
    halves, CHOOSE, CHOOSE_ANSWER, JOURNAL_ANSWER, JOURNAL_APPEND, JOURNAL_WALK, READ, READ_ANSWER, UPDATE,
};
use crate::random::Random;
use crate::reference::calls;
use std::hint::black_box;
use std::time::{Duration, Instant};

const BATCHES: usize = 201;
/// The calls of a batch are chosen so that it takes at least this long.
const BATCH: Duration = Duration::from_micros(60);

/// A witness of `n` TLCs with `unlocks` unlocks, each second one with a preimage: places from 0 on, or the local
/// share where there is no TLC.
fn witness(h: usize, n: u8, unlocks: u8) -> Vec<u8> {
    let mut random = Random::of(1, "bench", n.into());
    let mut witness = vec![0; 2 + usize::from(n) * (65 + h) + 72];
    random.fill(&mut witness);
    witness[..2].copy_from_slice(&[unlocks, n]);
    for place in 0..unlocks {
        let from = witness.len();
        let flag = place % 2;
        witness.resize(from + if flag == 1 { 99 } else { 67 }, 0);
        random.fill(&mut witness[from..]);
        witness[from..from + 2].copy_from_slice(&[if n == 0 { 0xff } else { place }, flag]);
    }
    witness
}

/// One side: its calls in a batch, and the batches' times.
struct Timed<F> {
    call: F,
    calls: u32,
    times: Vec<Duration>,
}

impl<F: FnMut()> Timed<F> {
    fn new(call: F) -> Self {
        let mut timed = Timed { call, calls: 1, times: vec![] };
        while timed.batch() < BATCH {
            timed.calls *= 2;
        }
        timed
    }

    fn batch(&mut self) -> Duration {
        let start = Instant::now();
        for _ in 0..self.calls {
            (self.call)();
        }
        start.elapsed()
    }

    /// Nanoseconds for a call.
    fn median(mut self) -> f64 {
        self.times.sort_unstable();
        self.times[self.times.len() / 2].as_nanos() as f64 / f64::from(self.calls)
    }
}

/// Nanoseconds for a call, median of batches taken in turn: ours, theirs.
fn measured(ours: impl FnMut(), theirs: impl FnMut()) -> (f64, f64) {
    let (mut ours, mut theirs) = (Timed::new(ours), Timed::new(theirs));
    for _ in 0..BATCHES {
        let (a, b) = (ours.batch(), theirs.batch());
        ours.times.push(a);
        theirs.times.push(b);
    }
    (ours.median(), theirs.median())
}

/// Prints the tables.
pub fn run() {
    println!(
        "Reader and update, {} build of the Rust, median of {BATCHES} batches taken in turn,",
        crate::build()
    );
    println!("nanoseconds for a call. The port's buffers are lent and not cleared; the Rust allocates.");
    println!();
    println!("| h | n | unlocks | read: port | Rust | ratio | update: port | Rust | ratio |");
    println!("|---|---|---|---|---|---|---|---|---|");
    let mut ratios = [vec![], vec![]];
    for h in [20usize, 32] {
        for (n, unlocks) in
            [(0, 0), (0, 1), (1, 0), (1, 1), (16, 0), (16, 1), (16, 16), (254, 0), (254, 1), (254, 254)]
        {
            let witness = witness(h, n, unlocks);
            let mut out = vec![0u8; 73 + usize::from(n) * (65 + h)];
            let mut answer = [0u8; READ_ANSWER];
            let mut reads = |witness: &[u8]| {
                // SAFETY: all have the lengths passed.
                unsafe { READ(h as u64, witness.as_ptr(), witness.len(), answer.as_mut_ptr(), answer.len()) }
            };
            let (read_port, read_rust) = measured(
                || assert_eq!(reads(black_box(&witness)), 0),
                || assert!(calls::build_only(h as u8, black_box(&witness))),
            );
            let mut updates = |witness: &[u8], out: &mut [u8]| {
                let (w, o, a) = (witness.as_ptr(), out.as_mut_ptr(), answer.as_mut_ptr());
                // SAFETY: all have the lengths passed.
                unsafe { UPDATE(h as u64, w, witness.len(), o, out.len(), a, answer.len()) }
            };
            // The same answer first.
            let state = calls::updated(h as u8, &witness).expect("a whole witness");
            assert_eq!(updates(&witness, &mut out), 0);
            assert_eq!(out[..state.len()], state[..]);
            let (update_port, update_rust) = measured(
                || assert_eq!(updates(black_box(&witness), black_box(&mut out)), 0),
                || assert!(black_box(calls::updated(h as u8, black_box(&witness))).is_some()),
            );
            let by = [read_rust / read_port, update_rust / update_port];
            println!(
                "| {h} | {n} | {unlocks} | {read_port:.1} | {read_rust:.1} | {:.1} | {update_port:.1} | \
                 {update_rust:.1} | {:.1} |",
                by[0], by[1]
            );
            for (ratios, ratio) in ratios.iter_mut().zip(by) {
                ratios.push(ratio);
            }
        }
    }
    println!();
    // What a call costs that returns at once: the answer buffer is too short.
    let empty = witness(20, 0, 0);
    let mut at_once = || {
        let w = black_box(&empty);
        // SAFETY: no byte of the answer is lent.
        let number = unsafe { READ(20, w.as_ptr(), w.len(), [0; 0].as_mut_ptr(), 0) };
        assert_eq!(number, 14);
    };
    let (alone, _) = measured(&mut at_once, || {
        black_box(());
    });
    println!("a call over C that returns at once: {alone:.1}");
    for (name, ratios) in ["read", "update"].into_iter().zip(ratios) {
        let least = ratios.iter().copied().fold(f64::INFINITY, f64::min);
        let mean = (ratios.iter().map(|r| r.ln()).sum::<f64>() / ratios.len() as f64).exp();
        println!("{name}: least ratio {least:.1}, geometric mean {mean:.1}");
    }
    println!();
    choices();
    println!();
    journals();
}

/// A settlement of `n` TLCs that are all received and expired, the whole delay due. With `matching` each has a pair,
/// of which the last alone counts, so that every TLC is walked and the last is chosen. Without, no pair has a TLC's
/// hash, and in a later settlement no settlement TLC has one either: a first settlement ends at our share, a later one
/// waits for its first TLC (23).
fn request(h: u64, n: usize, is_later: bool, matching: bool) -> Request {
    let mut random = Random::of(1, "bench, choice", n as u64);
    let tlcs: Vec<Tlc> = (0..n)
        .map(|place| Tlc {
            received: true,
            algorithm: (place % 2) as u8,
            amount: place as u128 + 1,
            preimage: bytes(&mut random),
            expiry: 0,
            local: bytes(&mut random),
            remote: bytes(&mut random),
        })
        .collect();
    let mut data = data_of(&tlcs, [4; 33], [5; 33]);
    let Document::Value(state) = settlement::first(h, true, &data, usize::MAX) else {
        unreachable!("at most 254 TLCs");
    };
    let records = state[1..state.len() - 72].chunks(65 + h as usize);
    let (mut tracked, mut preimages) = (vec![], vec![]);
    for ((place, tlc), record) in tlcs.iter().enumerate().zip(records) {
        tracked.extend(tlc.hash());
        tracked.push(tlc.algorithm);
        tracked.extend(record);
        preimages.extend(if matching { tlc.hash() } else { bytes(&mut random) });
        preimages.extend(if place + 1 == n { tlc.preimage } else { bytes(&mut random) });
    }
    if is_later && !matching {
        data.tlcs.chunks_mut(124).for_each(|tlc| tlc[18] ^= 1);
    }
    let mut args = vec![0; 57];
    let epoch = |number| Epoch { number, index: 0, length: 1 };
    args[20..28].copy_from_slice(&since_of(epoch(3)).to_le_bytes());
    Request {
        h,
        for_remote: true,
        args,
        time: 6000,
        header: epoch(10),
        current: epoch(13),
        data,
        tracked,
        preimages,
        output: 99 + state.len() + 57,
        witness: is_later.then(|| [vec![0], state].concat()),
    }
}

/// Prints the table of the choice.
fn choices() {
    println!("First and later choice; all TLCs are walked. The Rust's cell and channel data are made in each call, and its");
    println!("keys are public ones: what deriving them from secret keys takes is not measured.");
    println!();
    println!("| settlement | h | TLCs | matching | answer | port | Rust | ratio |");
    println!("|---|---|---|---|---|---|---|---|");
    for is_later in [false, true] {
        for h in [20, 32] {
            for (n, matching) in
                [(0, true), (1, true), (1, false), (16, true), (16, false), (254, true), (254, false)]
            {
                let request = request(h, n, is_later, matching);
                let prepared = calls::Prepared::new(&case(&request));
                let mut out = vec![0; request.output];
                let mut answer = [0; CHOOSE_ANSWER];
                let (local, remote) = (halves(request.data.local_amount), halves(request.data.remote_amount));
                let empty = vec![];
                let mut chooses = |a: &Request| {
                    let (witness, data) = (a.witness.as_ref().unwrap_or(&empty), &a.data);
                    let [header, current] = [a.header, a.current];
                    // SAFETY: all have the lengths passed.
                    unsafe {
                        CHOOSE(
                            a.h,
                            u8::from(a.for_remote),
                            u8::from(is_later),
                            a.time,
                            header.number,
                            header.index,
                            header.length,
                            current.number,
                            current.index,
                            current.length,
                            local.0,
                            local.1,
                            remote.0,
                            remote.1,
                            a.args.as_ptr(),
                            a.args.len(),
                            data.tlcs.as_ptr(),
                            data.tlcs.len(),
                            data.local_key.as_ptr(),
                            data.local_key.len(),
                            data.remote_key.as_ptr(),
                            data.remote_key.len(),
                            a.tracked.as_ptr(),
                            a.tracked.len(),
                            a.preimages.as_ptr(),
                            a.preimages.len(),
                            witness.as_ptr(),
                            witness.len(),
                            out.as_mut_ptr(),
                            out.len(),
                            answer.as_mut_ptr(),
                            answer.len(),
                        )
                    }
                };
                // The same answer first.
                let (number, what) = match settlement::choice(&request) {
                    Document::Value(chosen) if chosen.key.is_none() => (0, "our share".to_string()),
                    Document::Value(chosen) => (0, format!("TLC {}", chosen.unlock[0])),
                    Document::Row(row, _) => (row.number, format!("waits ({})", row.number)),
                };
                assert_eq!(chooses(&request), number);
                assert_eq!(prepared.choose(), number == 0);
                let (ours, theirs) = measured(
                    || assert_eq!(chooses(black_box(&request)), number),
                    || assert_eq!(black_box(&prepared).choose(), number == 0),
                );
                let (settlement, all) =
                    (if is_later { "later" } else { "first" }, if matching { "all" } else { "none" });
                println!(
                    "| {settlement} | {h} | {n} | {all} | {what} | {ours:.0} | {theirs:.0} | {:.1} |",
                    theirs / ours
                );
            }
        }
    }
}

/// Prints a row: the call beside a copy of the journal's bytes, ns for a call and GB/s of these bytes.
fn journal_row(call: &str, journal: &Journal, number: u64, ours: impl FnMut()) {
    let bytes = journal.bytes().expect("within the slice");
    let mut copy = vec![0; bytes.len()];
    let (ours, copied) = measured(ours, || black_box(&mut copy).copy_from_slice(black_box(bytes)));
    let rate = |ns: f64| bytes.len() as f64 / ns;
    println!(
        "| {call} | {} | {number} | {ours:.1} | {:.2} | {copied:.1} | {:.2} | {:.1} |",
        bytes.len() / ENTRY,
        rate(ours),
        rate(copied),
        ours / copied
    );
}

/// An append of one more entry, always the same one at the same place.
fn append_row(count: usize, new: &Settled) {
    let journal = whole(count, ENTRY);
    let expected = journal::append(&journal, new);
    let (low, high) = halves(new.amount);
    let (mut slice, mut answer) = (journal.slice.clone(), [0; JOURNAL_ANSWER]);
    let mut appends = |slice: &mut [u8], length: u64| {
        let (at, size, channel) = (slice.as_mut_ptr(), slice.len(), &new.channel);
        let (id, id_len, answer) = (channel.as_ptr(), channel.len(), &mut answer);
        let (to, to_len) = (answer.as_mut_ptr(), answer.len());
        // SAFETY: all have the lengths passed.
        unsafe { JOURNAL_APPEND(at, size, length, id, id_len, new.unlock, new.flag, low, high, to, to_len) }
    };
    // The same answer first.
    let number = appends(&mut slice, journal.length);
    match expected {
        Document::Value(appended) => assert!(number == 0 && slice.ends_with(&appended.entry)),
        Document::Row(row, _) => assert!(number == row.number && slice == journal.slice),
    }
    journal_row("append", &journal, number, || {
        assert_eq!(appends(black_box(&mut slice), black_box(journal.length)), number);
    });
}

fn walk_row(count: usize) {
    let journal = whole(count, ENTRY);
    let mut out = vec![0; count * ENTRY];
    let mut answer = [0; JOURNAL_ANSWER];
    let mut walks = |journal: &Journal, out: &mut [u8]| {
        let (at, size, to) = (journal.slice.as_ptr(), journal.slice.len(), out.as_mut_ptr());
        // SAFETY: all have the lengths passed.
        unsafe { JOURNAL_WALK(at, size, journal.length, to, out.len(), answer.as_mut_ptr(), answer.len()) }
    };
    // The same answer first.
    assert_eq!(walks(&journal, &mut out), 0);
    assert_eq!(journal::walk(&journal, out.len()), Document::Value(out.clone()));
    journal_row("walk", &journal, 0, || assert_eq!(walks(black_box(&journal), black_box(&mut out)), 0));
}

/// Prints the table of the journal.
pub fn journals() {
    println!("Append and walk of a journal; an append looks at every trailer, a walk also copies every entry. Beside them a");
    println!("copy of the journal's bytes by the library's memcpy. GB/s are of the journal's bytes.");
    println!();
    println!("| call | entries before | answer | port, ns | GB/s | copy, ns | GB/s | port / copy |");
    println!("|---|---|---|---|---|---|---|---|");
    let new = Settled { channel: vec![7; 32], unlock: 3, flag: 1, amount: 5 };
    for count in [1, 1_000, MOST - 1, MOST] {
        append_row(count, &new);
    }
    for count in [1, 1_000, MOST] {
        walk_row(count);
    }
}
