//! `choice`: what is unlocked next, in a first and in a later settlement. Document 01, module 8 and "The choice".

use super::first::case;
use super::settlement::{consistent, data_of, disturb, since_of, waiting, Tlc, AMPLE, TLC};
use super::waits::{self, Waits};
use super::{epoch, hex, Kind};
use crate::document::settlement::{self, Chosen, Request};
use crate::document::{Document, Epoch, Row};
use crate::port::{self, halves, Called};
use crate::random::Random;
use crate::reference::calls::{self, Rust};

pub struct Choice;

/// A first settlement with delay (3, 0/1) at time 6000, of TLCs that are lent in order.
fn plain(for_remote: bool, tlcs: &[Tlc], now: Epoch) -> Request {
    let mut args: Vec<u8> = (0..57).collect();
    args[20..28].copy_from_slice(&since_of(epoch(3, 0, 1)).to_le_bytes());
    let data = data_of(tlcs, [4; 33], [5; 33]);
    let mut tracked = vec![];
    let Document::Value(state) = settlement::first(20, for_remote, &data, AMPLE) else {
        unreachable!("few TLCs")
    };
    for (tlc, record) in tlcs.iter().zip(state[1..].chunks(85)) {
        tracked.extend(tlc.hash());
        tracked.push(tlc.algorithm);
        tracked.extend(record);
    }
    Request {
        h: 20,
        for_remote,
        args,
        time: 6000,
        header: epoch(10, 0, 1),
        current: now,
        data,
        tracked,
        preimages: vec![],
        witness: None,
        output: AMPLE,
    }
}

/// The same as a later settlement, without unlocks.
fn as_later(request: &Request) -> Request {
    let Document::Value(state) = settlement::first(request.h, request.for_remote, &request.data, AMPLE)
    else {
        unreachable!("few TLCs")
    };
    Request { witness: Some([vec![0], state].concat()), ..request.clone() }
}

fn tlc(received: bool, algorithm: u8, expiry: u64, tag: u8) -> Tlc {
    Tlc {
        received,
        algorithm,
        amount: 100 + u128::from(tag),
        preimage: [tag; 32],
        expiry,
        local: [10 + tag; 33],
        remote: [20 + tag; 33],
    }
}

/// Every second one is disturbed in one thing.
fn disturbed(random: &mut Random, mut request: Request) -> Request {
    if random.one_in(2) {
        disturb(random, &mut request);
    }
    // Room for every answer, and not much more: every byte of it is looked at.
    let state = request.witness.as_ref().map_or(73 + request.data.tlcs.len() / TLC * 97, Vec::len);
    let room = 99 + state + request.args.len().max(57) + random.below(100) as usize;
    request.output = room.min(AMPLE);
    if random.one_in(12) {
        if let Document::Value(chosen) = settlement::choice(&request) {
            request.output = match random.below(4) {
                0 => random.below(chosen.output() as u64) as usize,
                _ => random.near(chosen.output() as u64) as usize,
            };
        }
    }
    request
}

/// How many cases of the grid are about the args.
const ARGS: u64 = 2 * 2 * (61 + 256);

impl Kind for Choice {
    type Input = Request;
    type Value = Chosen;

    const NAME: &'static str = "choice";
    const ABOUT: &'static str = "the next unlock";
    const EXPORT: &'static str = "fiber_settlement_choose";
    const DUMP_LINES: usize = 140;
    const DUMP_ROWS: bool = true;
    const DUMP_ALIKE: usize = 8;
    const DUMP_NAME: &'static str = "pick";

    fn edges() -> Vec<Request> {
        let mut edges = vec![];
        let nows = [
            epoch(10, 0, 1),
            epoch(10, 999, 1000),
            epoch(11, 0, 1),
            epoch(11, 999, 1000),
            epoch(12, 0, 1),
            epoch(12, 999, 1000),
            epoch(13, 0, 1),
            epoch(14, 0, 0),
        ];
        for for_remote in [true, false] {
            for received in [true, false] {
                for algorithm in [0, 1] {
                    // Expiries around the time, of which 5,999 ms is 5,000 after the witness.
                    for expiry in [4999, 5000, 5999, 6000, 6001, 7000] {
                        for now in nows {
                            let one = tlc(received, algorithm, expiry, 1);
                            let two = tlc(!received, 1 - algorithm, 0, 2);
                            let mut request = plain(for_remote, std::slice::from_ref(&one), now);
                            edges.push(request.clone());
                            request.preimages = [one.hash(), one.preimage].concat();
                            edges.push(request);
                            let mut both = plain(for_remote, &[one.clone(), two.clone()], now);
                            edges.push(both.clone());
                            both.preimages = [two.hash(), two.preimage].concat();
                            edges.push(both);
                        }
                    }
                }
            }
            edges.extend(nows.map(|now| plain(for_remote, &[], now)));
        }
        let later: Vec<Request> = edges.iter().map(as_later).collect();
        edges.extend(later);
        // 253, 254 and 255 TLCs, of which the last alone can be settled.
        for count in [253, 254, 255] {
            for for_remote in [true, false] {
                let mut tlcs = vec![tlc(!for_remote, 0, u64::MAX, 1); count];
                tlcs[count - 1].expiry = 0;
                tlcs[count - 1].local = [9; 33];
                let request = plain(for_remote, &tlcs, epoch(13, 0, 1));
                edges.push(as_later(&request));
                edges.push(request);
            }
        }
        edges
    }

    /// Every length of the args, and every byte that tells their since value's kind; then those made for waits.
    fn grid_size() -> u64 {
        ARGS + waits::CASES
    }

    fn grid(place: u64) -> Request {
        if place >= ARGS {
            return waits::case(place - ARGS);
        }
        let mut next = super::digits(place);
        let (for_remote, is_later, what) = (next(2) == 1, next(2) == 1, next(61 + 256));
        let mut request = plain(for_remote, &[tlc(!for_remote, 0, 0, 1)], epoch(13, 0, 1));
        if is_later {
            request = as_later(&request);
        }
        match what {
            0..=60 => request.args.resize(what as usize, 0x77),
            _ => request.args[27] = (what - 61) as u8,
        }
        request
    }

    fn random(random: &mut Random) -> Request {
        let whole = if random.one_in(4) { waiting(random) } else { consistent(random) };
        let mut request = disturbed(random, whole);
        // What is turned down or waits does so with a short output too.
        if random.one_in(32) {
            request.output = random.below(100) as usize;
        }
        request
    }

    /// Of the edges every 23rd, so that all of their loops have a share in the lines.
    fn edges_for_dump() -> Vec<Request> {
        let edges = Self::edges().into_iter().step_by(23);
        edges.map(|request| Request { output: 1000, ..request }).filter(is_short).collect()
    }

    fn random_for_dump(random: &mut Random) -> Request {
        loop {
            let whole = consistent(random);
            let request = disturbed(random, whole);
            if is_short(&request) {
                return request;
            }
        }
    }

    /// Waits of the walk, until each combination that can occur was met.
    fn picked_for_dump() -> Vec<Request> {
        let no_tlcs = [true, false].map(|for_remote| plain(for_remote, &[], epoch(12, 999, 1000)));
        let no_tlcs = no_tlcs.into_iter().map(|request| Request { output: 1000, ..request });
        let cases = no_tlcs.chain((0..waits::CASES).map(waits::case)).filter(can_be_replayed);
        let mut waits = Waits::default();
        let is_new = |request: &Request| {
            let before = waits.met.len();
            if let Document::Row(row, _) = settlement::choice(request) {
                waits.count(request, &row);
            }
            waits.met.len() > before
        };
        cases.filter(is_new).collect()
    }

    fn document(request: &Request) -> Document<Chosen> {
        settlement::choice(request)
    }

    fn rust(request: &Request) -> Rust<Chosen> {
        match calls::choice(&case(request)) {
            calls::Choice::Chosen(c) => {
                // What it does not hand out is taken from document 01.
                let (record, pair) = match settlement::choice(request) {
                    Document::Value(chosen) => (chosen.record, chosen.pair),
                    Document::Row(..) => ((0, 0), 0),
                };
                Rust::Value(Chosen {
                    unlock: c.unlock,
                    state: c.state,
                    new_args: c.new_args,
                    amount: c.amount,
                    key: c.key,
                    delay: c.delay.map(|(number, index, length)| Epoch { number, index, length }),
                    record,
                    pair,
                    last: c.last,
                })
            }
            calls::Choice::Wait(wait) => Rust::Wait(wait),
            calls::Choice::Unread | calls::Choice::Error(_) => Rust::TurnedDown,
            // Its way to turn down args that are too short to hold a since value.
            calls::Choice::Panic if request.args.len() < 28 => Rust::TurnedDown,
            calls::Choice::Panic => Rust::Panicked(String::new()),
            calls::Choice::NotModelled(not_modelled) => Rust::NotModelled(not_modelled),
        }
    }

    fn port(request: &Request, random: &mut Random) -> Called<Chosen> {
        port::choose(random, port::CHOOSE, request)
    }

    /// A later settlement whose delay has the length 0: the text makes an epoch of it, which is then not looked at.
    /// In a first settlement document 01 has row 7, outside the equality.
    fn not_shown(request: &Request) -> bool {
        request.args.len() >= 28 && request.args[27] >> 5 == 0b101 && request.args[25..27] == [0, 0]
    }

    fn class(request: &Request, chosen: &Chosen) -> &'static str {
        let share = chosen.key.is_none();
        match (request.witness.is_some(), share, chosen.unlock[1]) {
            (false, true, _) => "first, share",
            (false, false, 0) => "first, TLC by timeout",
            (false, false, _) => "first, TLC by preimage",
            (true, true, _) if chosen.last && chosen.state[0] > 0 => "later and last, share beside TLCs",
            (true, true, _) if chosen.last => "later and last, share",
            (true, true, _) if chosen.state[0] > 0 => "later, share beside TLCs",
            (true, true, _) => "later, share",
            (true, false, 0) => "later, TLC by timeout",
            (true, false, _) => "later, TLC by preimage",
        }
    }

    fn count_wait(request: &Request, row: &Row, waits: &mut Waits) {
        waits.count(request, row);
    }

    fn dump_output(request: &Request) -> usize {
        request.output
    }

    fn show_input(request: &Request) -> String {
        let (local, remote) = (halves(request.data.local_amount), halves(request.data.remote_amount));
        format!(
            "{} {} {} {} {} {} {} {} {} {} {} {} {} {} {} {} {}",
            request.h,
            u8::from(request.for_remote),
            u8::from(request.witness.is_some()),
            request.time,
            request.header,
            request.current,
            local.0,
            local.1,
            remote.0,
            remote.1,
            hex(&request.args),
            hex(&request.data.tlcs),
            hex(&request.data.local_key),
            hex(&request.data.remote_key),
            hex(&request.tracked),
            hex(&request.preimages),
            hex(request.witness.as_deref().unwrap_or(&[]))
        )
    }

    /// The output is unlock, state and new args, one behind the other.
    fn show_value(chosen: &Chosen) -> String {
        let byte = chosen.unlock[0];
        let kind = if byte >= 0xfe { 0 } else { 1 + chosen.unlock[1] };
        let (low, high) = halves(chosen.amount);
        format!(
            "{kind} {byte} {low} {high} {} {} {} {} {} {} {} {} {} {} {} : {}",
            u8::from(chosen.key.is_some()),
            chosen.key.unwrap_or(0),
            u8::from(chosen.delay.is_some()),
            chosen.delay.unwrap_or(epoch(0, 0, 0)),
            chosen.record.0,
            chosen.record.1,
            chosen.unlock.len(),
            chosen.state.len(),
            chosen.new_args.len(),
            chosen.pair,
            u8::from(chosen.last),
            hex(&[&chosen.unlock[..], &chosen.state, &chosen.new_args].concat())
        )
    }
}

/// All that is lent fits what the program `replay` has room for.
fn can_be_replayed(request: &Request) -> bool {
    let data = &request.data;
    let lists =
        [&request.args, &data.tlcs, &data.local_key, &data.remote_key, &request.tracked, &request.preimages];
    let lists = lists.into_iter().chain(&request.witness);
    lists.map(|list| list.len()).sum::<usize>() <= 1792
}

/// Short enough for the dump.
fn is_short(request: &Request) -> bool {
    let lists = [&request.data.tlcs, &request.tracked, &request.preimages];
    lists.iter().map(|list| list.len()).sum::<usize>() <= 500
        && request.witness.as_ref().map_or(0, |witness| witness.len()) <= 340
        && request.output <= 1000
}
