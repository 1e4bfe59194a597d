//! `first`: the first state, `settlement_data_witness`, and in it each record of `settlement_tlc_witness`. Document
//! 01, module 7.

use super::settlement::{self as generator, data_of, other_h, some_data, some_tlcs, Mood, Tlc, AMPLE, TLC};
use super::witness::some_count;
use super::{hex, Kind};
use crate::document::settlement::{self, Data, Request};
use crate::document::Document;
use crate::port::{self, halves, Called};
use crate::random::Random;
use crate::reference::calls::{self, Case, Rust};

pub struct First;

#[derive(Clone)]
pub struct Input {
    h: u64,
    for_remote: bool,
    data: Data,
    output: usize,
}

/// The Rust's case. Lists have to be whole.
pub fn case(request: &Request) -> Case {
    let array = |bytes: &[u8]| bytes.try_into().expect("32 bytes");
    let key = |bytes: &[u8]| bytes.try_into().expect("33 bytes");
    let fields = |e: crate::document::Epoch| (e.number, e.index, e.length);
    let tlc = |t: &settlement::Tlc| calls::Tlc {
        received: t.received,
        alg: t.algorithm,
        amount: t.amount,
        hash: array(t.hash),
        expiry: t.expiry,
        local: key(t.local),
        remote: key(t.remote),
    };
    let tracked = |t: &settlement::Tracked| calls::Tracked {
        hash: array(t.hash),
        alg: t.algorithm,
        record: t.record.to_vec(),
    };
    Case {
        h: request.h as u8,
        for_remote: request.for_remote,
        args: request.args.clone(),
        time: request.time,
        header: fields(request.header),
        current: fields(request.current),
        tlcs: request.data.list().iter().map(tlc).collect(),
        local_amount: request.data.local_amount,
        remote_amount: request.data.remote_amount,
        local_key: key(&request.data.local_key),
        remote_key: key(&request.data.remote_key),
        tracked: request.tracked().iter().map(tracked).collect(),
        preimages: request
            .preimages
            .chunks(64)
            .map(|pair| (array(&pair[..32]), array(&pair[32..])))
            .collect(),
        witness: request.witness.clone(),
    }
}

fn first_case(i: &Input) -> Case {
    let zero = super::epoch(0, 0, 1);
    case(&Request {
        h: i.h,
        for_remote: i.for_remote,
        args: vec![],
        time: 0,
        header: zero,
        current: zero,
        data: i.data.clone(),
        tracked: vec![],
        preimages: vec![],
        witness: None,
        output: 0,
    })
}

fn plain(place: usize) -> Tlc {
    Tlc {
        received: place % 2 == 1,
        algorithm: (place / 2 % 2) as u8,
        amount: place as u128 + 1,
        preimage: [place as u8; 32],
        expiry: [0, 999, 1000, 5999, u64::MAX][place % 5],
        local: [2; 33],
        remote: [3; 33],
    }
}

impl Kind for First {
    type Input = Input;
    /// The state.
    type Value = Vec<u8>;

    const NAME: &'static str = "first";
    const ABOUT: &'static str = "the first state";
    const EXPORT: &'static str = "fiber_settlement_first_state";
    const DUMP_LINES: usize = 120;
    const DUMP_ROWS: bool = true;
    const DUMP_ALIKE: usize = 40;

    fn edges() -> Vec<Input> {
        let mut edges = vec![];
        for h in [20, 32, 0, 19, 21, 31, 33, 256 + 20, u64::MAX] {
            for for_remote in [true, false] {
                for count in [0, 1, 2, 3, 4, 5] {
                    let tlcs: Vec<Tlc> = (0..count).map(plain).collect();
                    let data = data_of(&tlcs, [4; 33], [5; 33]);
                    edges.push(Input { h, for_remote, data, output: AMPLE });
                }
            }
        }
        for count in [253, 254, 255, 256, 257, 300, 512] {
            let tlcs: Vec<Tlc> = (0..count).map(plain).collect();
            let data = data_of(&tlcs, [4; 33], [5; 33]);
            edges.push(Input { h: 20, for_remote: true, data: data.clone(), output: AMPLE });
            edges.push(Input { h: 32, for_remote: false, data, output: 72 });
        }
        edges
    }

    /// Every output length around that of none, one and two TLCs.
    fn grid_size() -> u64 {
        2 * 2 * 3 * 280
    }

    fn grid(place: u64) -> Input {
        let mut next = super::digits(place);
        let (h, for_remote, count) = ([20, 32][next(2) as usize], next(2) == 1, next(3) as usize);
        let tlcs: Vec<Tlc> = (0..count).map(plain).collect();
        Input { h, for_remote, data: data_of(&tlcs, [4; 33], [5; 33]), output: next(280) as usize }
    }

    fn random(random: &mut Random) -> Input {
        let mut h = random.pick(&[20, 32]);
        if random.one_in(60) {
            h = other_h(random, h);
        }
        let time = generator::some_time(random);
        let mood = Mood { for_remote: random.one_in(2), time, share: false, front: 0 };
        let count = match random.below(500) {
            0 => random.pick(&[253, 254, 255, 256, 257, 300]),
            _ => usize::from(some_count(random)),
        };
        let tlcs = some_tlcs(random, mood, count);
        let mut data = some_data(random, &tlcs);
        if random.one_in(4) {
            generator::disturb_data(random, &mut data);
        }
        let needed = 73 + data.tlcs.len() / TLC * (65 + (h as usize & 0xff));
        let output = match random.below(10) {
            0 => random.near(needed as u64) as usize,
            1 => random.below(needed as u64) as usize,
            _ => needed + random.below(200) as usize,
        };
        Input { h, for_remote: mood.for_remote, data, output }
    }

    fn edges_for_dump() -> Vec<Input> {
        Self::edges().into_iter().map(with_less_room).filter(is_short).collect()
    }

    fn random_for_dump(random: &mut Random) -> Input {
        loop {
            let input = with_less_room(Self::random(random));
            if is_short(&input) {
                return input;
            }
        }
    }

    fn document(i: &Input) -> Document<Vec<u8>> {
        settlement::first(i.h, i.for_remote, &i.data, i.output)
    }

    fn rust(i: &Input) -> Rust<Vec<u8>> {
        match calls::first_records(&first_case(i)) {
            Ok(state) => Rust::Value(state),
            Err(_) => Rust::TurnedDown,
        }
    }

    fn port(i: &Input, random: &mut Random) -> Called<Vec<u8>> {
        port::data_witness(random, i.h, i.for_remote, &i.data, i.output)
    }

    fn further(i: &Input) -> Result<(), &'static str> {
        let Document::Value(state) = Self::document(i) else {
            return Ok(());
        };
        let case = first_case(i);
        let records: Vec<Vec<u8>> =
            (0..case.tlcs.len()).map(|place| calls::tlc_record(&case, place)).collect();
        if records.concat() != state[1..state.len() - 72] {
            return Err("the Rust's single records part from document 01");
        }
        let tracked = calls::tracked(&case);
        let same = tracked.iter().zip(&case.tlcs).all(|(t, tlc)| t.hash == tlc.hash && t.alg == tlc.alg);
        if !same || !tracked.iter().map(|t| &t.record).eq(&records) {
            return Err("the Rust's tracked list parts from document 01");
        }
        Ok(())
    }

    fn class(_: &Input, state: &Vec<u8>) -> &'static str {
        match state[0] {
            0 => "no TLCs",
            1 => "one TLC",
            253.. => "253 to 255 TLCs",
            _ => "more TLCs",
        }
    }

    fn dump_output(i: &Input) -> usize {
        i.output
    }

    fn show_input(i: &Input) -> String {
        let (local, remote) = (halves(i.data.local_amount), halves(i.data.remote_amount));
        format!(
            "{} {} {} {} {} {} {} {} {}",
            i.h,
            u8::from(i.for_remote),
            local.0,
            local.1,
            remote.0,
            remote.1,
            hex(&i.data.tlcs),
            hex(&i.data.local_key),
            hex(&i.data.remote_key)
        )
    }

    fn show_value(state: &Vec<u8>) -> String {
        format!("{} : {}", state.len(), hex(state))
    }
}

/// Short enough for the dump.
fn is_short(i: &Input) -> bool {
    i.data.tlcs.len() <= 2 * TLC && i.output <= 1000
}

fn with_less_room(i: Input) -> Input {
    Input { output: if i.output == AMPLE { 1000 } else { i.output }, ..i }
}

/// `record`: one record of it, `settlement_tlc_witness`.
pub struct Record;

#[derive(Clone)]
pub struct One {
    h: u64,
    for_remote: bool,
    /// 124 bytes, where it is whole.
    tlc: Vec<u8>,
    output: usize,
}

impl Kind for Record {
    type Input = One;
    /// The record.
    type Value = Vec<u8>;

    const NAME: &'static str = "record";
    const ABOUT: &'static str = "one first record";
    const EXPORT: &'static str = "fiber_settlement_tlc_record";
    const DUMP_LINES: usize = 0;

    fn edges() -> Vec<One> {
        let mut edges = vec![];
        for h in [20, 32, 0, 19, 21, 31, 33, 256 + 20, u64::MAX] {
            for for_remote in [true, false] {
                for place in 0..20 {
                    let tlc = data_of(&[plain(place)], [4; 33], [5; 33]).tlcs;
                    edges.push(One { h, for_remote, tlc, output: 97 });
                }
            }
        }
        edges
    }

    /// Every length of the TLC and of the output up to 130, and every byte of received and of algorithm.
    fn grid_size() -> u64 {
        2 * 2 * (131 + 131 + 2 * 256)
    }

    fn grid(place: u64) -> One {
        let mut next = super::digits(place);
        let (h, for_remote, what) = ([20, 32][next(2) as usize], next(2) == 1, next(131 + 131 + 2 * 256));
        let mut tlc = data_of(&[plain(what as usize % 20)], [4; 33], [5; 33]).tlcs;
        let mut output = 97;
        match what {
            0..=130 => tlc.resize(what as usize, 1),
            131..=261 => output = what as usize - 131,
            _ => tlc[what as usize % 2] = ((what - 262) / 2) as u8,
        }
        One { h, for_remote, tlc, output }
    }

    fn random(random: &mut Random) -> One {
        let mut h = random.pick(&[20, 32]);
        if random.one_in(60) {
            h = other_h(random, h);
        }
        let mood =
            Mood { for_remote: random.one_in(2), time: generator::some_time(random), share: false, front: 0 };
        let mut tlc = data_of(&some_tlcs(random, mood, 1), [4; 33], [5; 33]).tlcs;
        match random.below(20) {
            0 => tlc.resize(random.pick(&[0, 1, 123, 125, 248]), 0),
            1 => tlc[random.below(2) as usize] = random.below(256) as u8,
            2 => random.fill(&mut tlc[2..]),
            _ => {}
        }
        let output = match random.below(10) {
            0 => random.below(98) as usize,
            1 => random.near(65 + h % 256) as usize,
            _ => 100 + random.below(100) as usize,
        };
        One { h, for_remote: mood.for_remote, tlc, output }
    }

    fn document(i: &One) -> Document<Vec<u8>> {
        settlement::tlc_witness(i.h, i.for_remote, &i.tlc, i.output)
    }

    fn rust(i: &One) -> Rust<Vec<u8>> {
        let data = Data { tlcs: i.tlc.clone(), ..data_of(&[], [4; 33], [5; 33]) };
        let case = first_case(&Input { h: i.h, for_remote: i.for_remote, data, output: 0 });
        Rust::Value(calls::tlc_record(&case, 0))
    }

    fn port(i: &One, random: &mut Random) -> Called<Vec<u8>> {
        port::tlc_witness(random, i.h, i.for_remote, &i.tlc, i.output)
    }

    fn show_input(i: &One) -> String {
        format!("{} {} {} {}", i.h, u8::from(i.for_remote), hex(&i.tlc), i.output)
    }

    fn show_value(record: &Vec<u8>) -> String {
        hex(record)
    }
}
