//! Settlement data and what belongs to it, for the kinds `first` and `choice`: first consistent (keys, then records,
//! then a witness), then disturbed in one thing.

use super::witness::{damage, some_count};
use super::{any_epoch, epoch, LIMITS};
use crate::document::settlement::{self, Data, Request};
use crate::document::{self, Document, Epoch};
use crate::random::Random;

/// Long enough for every output.
pub const AMPLE: usize = 60_000;

pub const TLC: usize = 124;

/// A settlement TLC before it is an entry of the list.
#[derive(Clone)]
pub struct Tlc {
    pub received: bool,
    pub algorithm: u8,
    pub amount: u128,
    pub preimage: [u8; 32],
    pub expiry: u64,
    pub local: [u8; 33],
    pub remote: [u8; 33],
}

impl Tlc {
    pub fn hash(&self) -> [u8; 32] {
        if self.algorithm == 1 {
            document::sha256(&self.preimage)
        } else {
            document::ckb_hash(&self.preimage)
        }
    }

    fn entry(&self) -> Vec<u8> {
        let mut entry = vec![u8::from(self.received), self.algorithm];
        entry.extend(self.amount.to_le_bytes());
        entry.extend(self.hash());
        entry.extend(self.expiry.to_le_bytes());
        entry.extend(self.local);
        entry.extend(self.remote);
        entry
    }
}

pub fn data_of(tlcs: &[Tlc], local_key: [u8; 33], remote_key: [u8; 33]) -> Data {
    Data {
        tlcs: tlcs.iter().flat_map(Tlc::entry).collect(),
        local_amount: 7,
        remote_amount: 5,
        local_key: local_key.to_vec(),
        remote_key: remote_key.to_vec(),
    }
}

pub fn bytes<const N: usize>(random: &mut Random) -> [u8; N] {
    let mut bytes = [0; N];
    random.fill(&mut bytes);
    bytes
}

fn amount(random: &mut Random) -> u128 {
    match random.below(8) {
        0 => u128::MAX,
        1 => 0,
        2..=4 => random.of_width(64).into(),
        _ => u128::from(random.next()) << 64 | u128::from(random.next()),
    }
}

/// A time in ms: at a second's first, second and last ms, and at the ends of 64 bits.
pub fn some_time(random: &mut Random) -> u64 {
    let seconds = match random.below(8) {
        0 => random.pick(&[0, 1, 5]),
        1 => 18_446_744_073_709_551 - random.below(3),
        2 => random.of_width(54),
        _ => 1_700_000_000 + random.below(1 << 20),
    };
    (seconds * 1000).saturating_add(random.pick(&[0, 0, 1, 500, 998, 999]))
}

/// An expiry in ms, mostly around a time. `passed`: below it, by its seconds too.
fn some_expiry(random: &mut Random, time: u64, passed: bool) -> u64 {
    let second = time / 1000 * 1000;
    if passed {
        return random.pick(&[0, second.saturating_sub(1), second.saturating_sub(1000), time / 2]);
    }
    match random.below(16) {
        0 => 0,
        1 => u64::MAX,
        2 => random.of_width(64),
        3 => time.saturating_add(1),
        4 | 5 => time,
        6 => time.saturating_sub(1),
        7 => second,
        8 => second.saturating_add(999),
        9 => second.saturating_sub(1),
        10 => second.saturating_add(1000),
        11 | 12 => time.saturating_sub(random.of_width(40)),
        _ => time.saturating_add(random.of_width(40)),
    }
}

/// How a case's TLCs are made.
#[derive(Clone, Copy)]
pub struct Mood {
    pub for_remote: bool,
    pub time: u64,
    /// All of preimage kind and expired, so that our share remains.
    pub share: bool,
    /// So many in front are of preimage kind and expired, and have no preimage that counts: pending falls for them.
    pub front: usize,
}

pub fn some_tlcs(random: &mut Random, mood: Mood, count: usize) -> Vec<Tlc> {
    let mut tlcs: Vec<Tlc> = vec![];
    for place in 0..count {
        let falls = mood.share || place < mood.front;
        let mut tlc = Tlc {
            received: if falls { mood.for_remote } else { random.one_in(2) },
            algorithm: random.below(2) as u8,
            amount: amount(random),
            preimage: bytes(random),
            expiry: some_expiry(random, mood.time, falls),
            local: bytes(random),
            remote: bytes(random),
        };
        // Hashes and keys met before.
        if let (Some(last), true) = (tlcs.last(), random.one_in(5)) {
            let what = random.below(4);
            if what != 1 {
                (tlc.algorithm, tlc.preimage) = (last.algorithm, last.preimage);
            }
            if what != 2 {
                tlc.local = last.local;
            }
            if what == 3 {
                (tlc.local, tlc.remote) = (last.remote, last.local);
            }
        }
        tlcs.push(tlc);
    }
    tlcs
}

pub fn some_data(random: &mut Random, tlcs: &[Tlc]) -> Data {
    Data {
        local_amount: amount(random),
        remote_amount: amount(random),
        ..data_of(tlcs, bytes(random), bytes(random))
    }
}

/// The tracked list of these records, with the settlement TLCs' hashes and algorithms.
fn tracked_list<'a>(entries: impl Iterator<Item = (&'a Tlc, &'a [u8])>) -> Vec<u8> {
    let mut list = vec![];
    for (tlc, record) in entries {
        list.extend(tlc.hash());
        list.push(tlc.algorithm);
        list.extend(record);
    }
    list
}

fn some_preimages(random: &mut Random, mood: Mood, tlcs: &[Tlc]) -> Vec<u8> {
    let mut pairs = vec![];
    let most = if mood.share { 12 } else { 3 };
    for (place, tlc) in tlcs.iter().enumerate() {
        let (hash, other): ([u8; 32], [u8; 32]) = (tlc.hash(), bytes(random));
        if place < mood.front {
            pairs.extend(random.one_in(8).then_some([hash, other]));
            continue;
        }
        match random.below(most + 3) {
            0 => pairs.push([hash, tlc.preimage]),
            1 => pairs.extend([[hash, other], [hash, tlc.preimage]]),
            2 => pairs.extend([[other, tlc.preimage], [hash, tlc.preimage]]),
            3 => pairs.push([hash, other]),
            4 => pairs.push([hash, hash]),
            _ => {}
        }
    }
    if pairs.len() > 1 && random.one_in(4) {
        let middle = random.below(pairs.len() as u64) as usize;
        pairs.rotate_left(middle);
    }
    pairs.concat().concat()
}

/// Changes one standing record in the state itself: the tracked list follows it.
fn other_record(random: &mut Random, h: usize, record: &mut [u8]) {
    match random.below(8) {
        0 | 1 => record[64 + h] = random.below(256) as u8,
        2 => {
            let seconds = 18_446_744_073_709_550 + random.below(4);
            record[57 + h..].copy_from_slice(&(0x4000_0000_0000_0000 | seconds).to_le_bytes());
        }
        3 => record[17 + random.below(h as u64) as usize] ^= 1 << random.below(8),
        4 => record[17 + h - 1 - random.below(12) as usize] ^= 1,
        5 => record[17 + h + random.below(40) as usize] ^= 1 << random.below(8),
        6 => record[0] ^= 1,
        _ => record[0] = random.below(256) as u8,
    }
}

pub fn since_of(delay: Epoch) -> u64 {
    0xa000_0000_0000_0000 | delay.length << 40 | delay.index << 24 | delay.number
}

/// A header, a delay, and a current epoch that lies around header + 1/3, 2/3 or the whole of the delay.
fn some_epochs(random: &mut Random) -> (Epoch, Epoch, Epoch) {
    let number = random.below(30);
    let delay = match random.below(4) {
        0 => epoch(number, 0, 1),
        1 => epoch(random.below(10), random.below(700), random.pick(&[599, 600, 601, 1800])),
        2 => epoch(random.below(3), random.below(9), 1 + random.below(9)),
        _ => epoch(random.of_width(24), random.of_width(16), 1 + random.below(0xffff)),
    };
    let header = match random.below(3) {
        0 => epoch(random.below(10_000), 0, 1),
        1 => epoch(random.below(10_000), random.below(8), 1 + random.below(8)),
        _ => epoch(random.of_width(23), random.of_width(16), 1 + random.below(0xffff)),
    };
    let numerator = random.pick(&[1, 2, 3, 3, 3]);
    let part = match document::mul(delay, numerator, 3) {
        Document::Value(part) if numerator < 3 => part,
        _ => delay,
    };
    let length = header.length * part.length;
    let mut current = epoch(header.number + part.number, 0, length);
    current.index = header.index * part.length + part.index * header.length;
    current.number += current.index / length;
    current.index %= length;
    if length > 0xffff {
        current.index = current.index * 1000 / length;
        current.length = 1000;
    }
    match random.below(8) {
        0..=2 => {}
        3 => current.index = current.index.saturating_sub(1),
        4 => current.index += 1,
        5 => current.number = current.number.saturating_sub(1 + random.below(3)),
        _ => current.number += random.below(20),
    }
    current.number = current.number.min(0xff_ffff);
    current.index = current.index.min(0xffff);
    (header, delay, current)
}

/// A whole case: settlement data, tracked list, preimages, and in a later settlement a witness.
pub fn consistent(random: &mut Random) -> Request {
    let h = random.pick(&[20, 32]);
    let mood =
        Mood { for_remote: random.one_in(2), time: some_time(random), share: random.one_in(4), front: 0 };
    let mut count = usize::from(some_count(random));
    if count == 255 && random.one_in(2) {
        count += random.below(3) as usize;
    }
    of_mood(random, h, mood, count)
}

/// The same with TLCs in front for which pending falls, mostly, and few behind them: a wait above place 0 is near.
pub fn waiting(random: &mut Random) -> Request {
    let h = random.pick(&[20, 32]);
    let count = usize::from(some_count(random)).min(254);
    let front = count.saturating_sub(1 + random.below(3) as usize);
    let mood = Mood { for_remote: random.one_in(2), time: some_time(random), share: false, front };
    of_mood(random, h, mood, count)
}

fn of_mood(random: &mut Random, h: u64, mood: Mood, count: usize) -> Request {
    let tlcs = some_tlcs(random, mood, count);
    let data = some_data(random, &tlcs);
    let (header, delay, current) = some_epochs(random);
    let length = match random.below(12) {
        0 => 36 + random.below(25),
        1 => 58,
        _ => 57,
    };
    let mut args = vec![0; length as usize];
    random.fill(&mut args);
    args[20..28].copy_from_slice(&since_of(delay).to_le_bytes());
    if random.one_in(8) {
        args[27] |= random.below(32) as u8;
    }
    let mut request = Request {
        h,
        for_remote: mood.for_remote,
        args,
        time: mood.time,
        header,
        current,
        tracked: vec![],
        preimages: some_preimages(random, mood, &tlcs),
        witness: None,
        output: AMPLE,
        data,
    };
    let size = 65 + h as usize;
    let list = request.data.clone();
    let state = |count: usize| {
        let list = Data { tlcs: list.tlcs[..count * TLC].to_vec(), ..list.clone() };
        match settlement::first(h, mood.for_remote, &list, AMPLE) {
            Document::Value(state) => state,
            Document::Row(row, _) => unreachable!("{}", row.cause),
        }
    };
    if random.one_in(2) {
        let whole = state(count.min(255));
        let records = whole[1..whole.len() - 72].chunks_exact(size);
        request.tracked = tracked_list(tlcs.iter().zip(records));
        return request;
    }
    let count = count.min(255);
    let mut whole = state(count);
    if count > 0 && random.one_in(3) {
        let at = 1 + random.below(count as u64) as usize * size;
        other_record(random, h as usize, &mut whole[at..at + size]);
    }
    let (ours, other) = if mood.for_remote { (0xff, 0xfe) } else { (0xfe, 0xff) };
    let mut unlocks: Vec<u8> = vec![];
    if random.one_in(2) {
        unlocks.extend((0..count.min(254)).filter(|_| random.one_in(4)).map(|place| place as u8));
        if unlocks.len() > 1 && random.one_in(2) {
            unlocks.reverse();
        }
    }
    if random.one_in(6) {
        let at = random.below(unlocks.len() as u64 + 1) as usize;
        unlocks.insert(at, other);
    }
    if random.one_in(40) {
        unlocks.push(ours);
    }
    let standing = tlcs.iter().zip(whole[1..whole.len() - 72].chunks_exact(size)).enumerate();
    let standing = standing.filter(|(place, _)| *place > 253 || !unlocks.contains(&(*place as u8)));
    request.tracked = tracked_list(standing.map(|(_, entry)| entry));
    let mut witness = vec![random.below(256) as u8];
    witness.extend(&whole);
    for byte in unlocks {
        let flag = random.pick(&[0, 0, 1, 2]);
        let from = witness.len();
        witness.resize(from + if flag == 1 { 99 } else { 67 }, 0);
        random.fill(&mut witness[from..]);
        witness[from..from + 2].copy_from_slice(&[byte, flag]);
    }
    request.witness = Some(witness);
    // Settlement TLCs that nearly match, before the right one.
    if count > 0 && random.one_in(3) {
        let at = random.below(count as u64) as usize * TLC;
        let mut near = request.data.tlcs[at..at + TLC].to_vec();
        match random.below(4) {
            0 => near[58 + random.below(33) as usize] ^= 1 << random.below(8),
            1 => near[38 + random.below(12) as usize] ^= 1 << random.below(8),
            2 => near[18 + random.below(20) as usize] ^= 1 << random.below(8),
            _ => near[..18].fill(0),
        }
        request.data.tlcs.splice(at..at, near);
    }
    request
}

fn flip(random: &mut Random, bytes: &mut [u8]) {
    if !bytes.is_empty() {
        bytes[random.below(bytes.len() as u64) as usize] ^= 1 << random.below(8);
    }
}

/// Takes an entry away, repeats one, moves the first to the end, or adds or takes a byte.
fn disturb_list(random: &mut Random, list: &mut Vec<u8>, size: usize) {
    let count = list.len() / size;
    if count == 0 || random.one_in(6) {
        let more = random.pick(&[1, size - 1, size, size + 1]);
        list.resize(list.len() + more, random.pick(&[0, 1]));
        return;
    }
    let at = random.below(count as u64) as usize * size;
    match random.below(5) {
        0 => list.truncate(list.len() - random.pick(&[1, size])),
        1 => drop(list.drain(at..at + size)),
        2 => {
            let entry = list[at..at + size].to_vec();
            list.splice(at..at, entry);
        }
        3 => list.rotate_left(size),
        _ => flip(random, &mut list[at..at + size]),
    }
}

pub fn disturb_data(random: &mut Random, data: &mut Data) {
    match random.below(8) {
        0..=2 => disturb_list(random, &mut data.tlcs, TLC),
        3 => flip(random, &mut data.tlcs),
        4 => flip(random, &mut data.local_key),
        5 => flip(random, &mut data.remote_key),
        6 => {
            let length = random.pick(&[0, 1, 32, 34, 65]);
            if random.one_in(2) {
                data.local_key.resize(length, 2);
            } else {
                data.remote_key.resize(length, 2);
            }
        }
        _ if data.tlcs.is_empty() => {}
        _ => {
            let at = random.below(data.tlcs.len() as u64) as usize / TLC * TLC + random.below(2) as usize;
            data.tlcs[at] = random.pick(&[0, 1, 2, 3, 0x80, 0xff]);
        }
    }
}

pub fn other_h(random: &mut Random, h: u64) -> u64 {
    random.pick(&[52 - h, 0, 19, 21, 31, 33, 276, u64::MAX])
}

/// Changes one thing.
pub fn disturb(random: &mut Random, request: &mut Request) {
    let size = 98 + request.h as usize;
    match random.below(16) {
        0 => request.args.resize(random.below(61) as usize, 0),
        1 if request.args.len() > 27 => request.args[27] = random.below(256) as u8,
        2 => flip(random, &mut request.args),
        3 => disturb_list(random, &mut request.tracked, size),
        4 => flip(random, &mut request.tracked),
        5 if !request.tracked.is_empty() => {
            // Another hash or algorithm beside the right record.
            let at = random.below((request.tracked.len() / size) as u64) as usize * size;
            let byte = random.pick(&[0, 31, 32, 32]);
            request.tracked[at + byte] ^= random.pick(&[1, 1, 1, 2]);
        }
        6 | 7 => disturb_data(random, &mut request.data),
        8 => disturb_list(random, &mut request.preimages, 64),
        9 => {
            let which = if random.one_in(2) { &mut request.header } else { &mut request.current };
            *which = any_epoch(random);
        }
        10 => {
            let mut delay = any_epoch(random);
            (delay.number, delay.index, delay.length) =
                (delay.number & 0xff_ffff, delay.index & 0xffff, delay.length & 0xffff);
            request.args.resize(57, 0);
            request.args[20..28].copy_from_slice(&since_of(delay).to_le_bytes());
        }
        11 => {
            request.time = if random.one_in(4) { random.pick(LIMITS) } else { random.near(request.time) };
        }
        12 if random.one_in(4) => request.h = other_h(random, request.h),
        13 => request.for_remote ^= true,
        _ => {
            let Some(witness) = &mut request.witness else {
                return;
            };
            // The share part: a key hash all zeros but for one byte, or all zeros.
            let shares = 2 + usize::from(witness[1]) * (size - 33);
            match random.below(6) {
                // An unlock byte that is none, or an earlier one again.
                4 | 5 => {
                    let near = random.near(witness[1].into()) as u8;
                    let byte = random.pick(&[0, 0, 1, witness[1], near, 0xfd]);
                    let again = if random.one_in(3) { 2 } else { 1 };
                    for _ in 0..again {
                        witness.push(byte);
                        witness.extend([0; 66]);
                    }
                }
                0 => {
                    let at = shares + random.pick(&[0, 36]);
                    witness[at..at + 20].fill(0);
                    witness[at + random.below(20) as usize] = random.below(2) as u8;
                }
                1 => flip(random, &mut witness[shares..shares + 72]),
                _ => {
                    let end = witness.len();
                    damage(random, witness, &[0, 2, shares, shares + 72, shares + 139, end]);
                }
            }
        }
    }
}
