//! Document 01's modules 5 to 8 and its sections "What the host lends", "Update", "Turned down, and waiting" and "The
//! choice". Lists are lent flat, as over C. Amounts are numbers of 128 bits.

use super::{absolute_expiry, FIELD_BEYOND_BITS, KEY_LENGTH, LENGTH_ZERO};
use super::{ckb_hash, is_due, key_hash, mul, row, sha256, within_bits, Document, Epoch, InRust, Place, Row};

pub const WITNESS_BELOW_2: Row = row(1, "witness below 2 bytes", InRust::TurnedDown);
pub const TLC_CUT: Row = row(2, "TLC cut short", InRust::TurnedDown);
pub const SHARES_CUT: Row = row(3, "share part cut short", InRust::TurnedDown);
pub const UNLOCK_CUT: Row = row(4, "unlock cut short", InRust::TurnedDown);
pub const UNLOCK_BYTE: Row = row(5, "unlock byte", InRust::TurnedDown);
pub const SETTLED_TWICE: Row = row(6, "place settled twice", InRust::Outside);
/// The Rust panics where it cuts the since value out of the args.
pub const ARGS_BELOW_28: Row = row(10, "args below 28 bytes", InRust::TurnedDown);
/// The Rust may wait, and panics once something is chosen.
pub const ARGS_BELOW_36: Row = row(10, "args of 28 to 35 bytes", InRust::Outside);
pub const NO_DELAY: Row = row(11, "no relative epoch since", InRust::TurnedDown);
pub const ABOVE_254: Row = row(12, "above 254 TLCs at the choice", InRust::Outside);
pub const ABOVE_255: Row = row(12, "above 255 TLCs in the first records", InRust::TurnedDown);
/// The Rust's output grows.
pub const OUTPUT_SHORT: Row = row(13, "output too short", InRust::Outside);
pub const H: Row = row(14, "h not 20 or 32", InRust::Outside);
pub const NOT_WHOLE: Row = row(14, "list not whole entries", InRust::Outside);
pub const ABOVE_1: Row = row(14, "received or algorithm above 1", InRust::Outside);
pub const LIST_DIFFERS: Row = row(20, "tracked list differs", InRust::Waits);
pub const NOT_OUR_SHARE: Row = row(21, "our share isn't there", InRust::Waits);
pub const DELAY_NOT_DUE: Row = row(22, "no TLCs in a first settlement, the delay isn't due", InRust::Waits);
pub const NO_EXPIRY: Row = row(23, "no absolute timestamp expiry", InRust::Waits);
pub const NO_KEY: Row = row(23, "no key", InRust::Waits);
pub const PART_NOT_DUE: Row = row(24, "its part of the delay isn't due", InRust::Waits);
pub const NOT_PASSED: Row = row(24, "timeout kind, its expiry isn't passed", InRust::Waits);
pub const NO_PREIMAGE: Row = row(25, "no counting preimage, its expiry isn't passed", InRust::Waits);
pub const NO_PREIMAGE_YET: Row = row(25, "no counting preimage, the full delay isn't due", InRust::Waits);

type Answer<V> = Result<V, (Row, Place)>;

fn document<V>(answer: Answer<V>) -> Document<V> {
    match answer {
        Ok(value) => Document::Value(value),
        Err((row, place)) => Document::Row(row, place),
    }
}

fn unless(holds: bool, row: Row) -> Answer<()> {
    holds.then_some(()).ok_or((row, 0))
}

/// Little-endian, at most 16 bytes.
fn number(bytes: &[u8]) -> u128 {
    bytes.iter().rev().fold(0, |sum, byte| sum << 8 | u128::from(*byte))
}

fn hash_of_key(key: &[u8]) -> Vec<u8> {
    match key_hash(key) {
        Document::Value(hash) => hash.to_vec(),
        Document::Row(..) => unreachable!("row 14 was looked at"),
    }
}

// ---- Modules 5 and 6: records and witness ----

/// A TLC record: "type 1, amount 16, hash h, remote key hash 20, local key hash 20, expiry 8".
struct Record<'a> {
    offered: bool,
    amount: u128,
    hash: &'a [u8],
    remote: &'a [u8],
    local: &'a [u8],
    expiry: u64,
}

fn record(h: usize, bytes: &[u8]) -> Record<'_> {
    Record {
        offered: bytes[0] % 2 == 0,
        amount: number(&bytes[1..17]),
        hash: &bytes[17..17 + h],
        remote: &bytes[17 + h..37 + h],
        local: &bytes[37 + h..57 + h],
        expiry: number(&bytes[57 + h..65 + h]) as u64,
    }
}

/// Key hash and amount of one side.
#[derive(Clone)]
struct Share {
    key: Vec<u8>,
    amount: u128,
}

#[derive(Clone)]
struct State {
    tlcs: Vec<Vec<u8>>,
    /// Where each record lies: in the witness, or in a first settlement in the tracked list.
    places: Vec<usize>,
    remote: Share,
    local: Share,
}

impl State {
    /// "`to_witness` writes only n, TLCs and shares."
    fn written(&self) -> Vec<u8> {
        let mut bytes = vec![self.tlcs.len() as u8];
        bytes.extend(self.tlcs.concat());
        for share in [&self.remote, &self.local] {
            bytes.extend(&share.key);
            bytes.extend(share.amount.to_le_bytes());
        }
        bytes
    }
}

const LOCAL: u8 = 0xff;
const REMOTE: u8 = 0xfe;

struct Unlock {
    at: usize,
    byte: u8,
    flag: u8,
}

struct Parts {
    state: State,
    share_place: usize,
    unlocks: Vec<Unlock>,
}

/// Rows 1 to 4, front to back.
fn parts(h: usize, witness: &[u8]) -> Answer<Parts> {
    let there = |at: usize, size: usize| at + size <= witness.len();
    let at_its_first_byte = |row: Row, at: usize| Err((row, at as u64));
    if !there(0, 2) {
        return at_its_first_byte(WITNESS_BELOW_2, witness.len());
    }
    let (n, size) = (usize::from(witness[1]), 65 + h);
    let mut tlcs = vec![];
    for k in 0..n {
        let at = 2 + k * size;
        if !there(at, size) {
            return at_its_first_byte(TLC_CUT, at);
        }
        tlcs.push(witness[at..at + size].to_vec());
    }
    let share_place = 2 + n * size;
    if !there(share_place, 72) {
        return at_its_first_byte(SHARES_CUT, share_place);
    }
    let share =
        |at: usize| Share { key: witness[at..at + 20].to_vec(), amount: number(&witness[at + 20..at + 36]) };
    let places = (0..n).map(|k| 2 + k * size).collect();
    let state = State { tlcs, places, remote: share(share_place), local: share(share_place + 36) };
    let mut unlocks = vec![];
    let mut at = share_place + 72;
    while at < witness.len() {
        if !there(at, 67) || witness[at + 1] == 1 && !there(at, 99) {
            return at_its_first_byte(UNLOCK_CUT, at);
        }
        let unlock = Unlock { at, byte: witness[at], flag: witness[at + 1] };
        at += if unlock.flag == 1 { 99 } else { 67 };
        unlocks.push(unlock);
    }
    Ok(Parts { state, share_place, unlocks })
}

fn hash_length(h: u64) -> Answer<usize> {
    unless(h == 20 || h == 32, H)?;
    Ok(h as usize)
}

/// What the reader answers.
#[derive(Clone, Debug, PartialEq, Eq)]
pub struct Read {
    pub n: usize,
    pub unlock_count: usize,
    pub share_place: usize,
    pub first_unlock: usize,
}

pub fn read(h: u64, witness: &[u8]) -> Document<Read> {
    document(hash_length(h).and_then(|h| parts(h, witness)).map(|parts| Read {
        n: parts.state.tlcs.len(),
        unlock_count: parts.unlocks.len(),
        share_place: parts.share_place,
        first_unlock: parts.share_place + 72,
    }))
}

/// The state and the unlocks of a whole witness, written back. "Every other flag value is read as none and written
/// back as 0."
pub fn written_back(h: u64, witness: &[u8]) -> Option<(Vec<u8>, Vec<u8>)> {
    let parts = hash_length(h).and_then(|h| parts(h, witness)).ok()?;
    let mut unlocks = vec![];
    for unlock in &parts.unlocks {
        let (flag, end) = if unlock.flag == 1 { (1, 99) } else { (0, 67) };
        unlocks.extend([unlock.byte, flag]);
        unlocks.extend(&witness[unlock.at + 2..unlock.at + end]);
    }
    Some((parts.state.written(), unlocks))
}

// ---- Update ----

/// Rows 5 and 6, "first faulty unlock first". Places mean the list before any removal.
fn updated(parts: Parts) -> Answer<State> {
    let Parts { mut state, unlocks, .. } = parts;
    let gone = || Share { key: vec![0; 20], amount: 0 };
    let mut settled = vec![false; state.tlcs.len()];
    for unlock in unlocks {
        let place = usize::from(unlock.byte);
        match unlock.byte {
            LOCAL => state.local = gone(),
            REMOTE => state.remote = gone(),
            _ if place >= settled.len() => return Err((UNLOCK_BYTE, unlock.at as u64)),
            _ if settled[place] => return Err((SETTLED_TWICE, unlock.at as u64)),
            _ => settled[place] = true,
        }
    }
    let all = state.tlcs.into_iter().zip(state.places).zip(settled);
    (state.tlcs, state.places) = all.filter(|(_, settled)| !settled).map(|(standing, _)| standing).unzip();
    Ok(state)
}

fn fits(bytes: Vec<u8>, output: usize) -> Answer<Vec<u8>> {
    if bytes.len() > output {
        return Err((OUTPUT_SHORT, bytes.len() as u64));
    }
    Ok(bytes)
}

/// The new state. `output` is the length of the output buffer.
pub fn update(h: u64, witness: &[u8], output: usize) -> Document<Vec<u8>> {
    let state = hash_length(h).and_then(|h| parts(h, witness)).and_then(updated);
    document(state.and_then(|state| fits(state.written(), output)))
}

// ---- What the host lends ----

/// The settlement TLCs (124 bytes each), and what comes beside the list.
#[derive(Clone)]
pub struct Data {
    pub tlcs: Vec<u8>,
    pub local_amount: u128,
    pub remote_amount: u128,
    pub local_key: Vec<u8>,
    pub remote_key: Vec<u8>,
}

/// "Received 0/1, algorithm 0 (CKB) or 1 (SHA-256), amount 16, hash 32, expiry in ms 8, local key 33, remote key 33."
pub struct Tlc<'a> {
    pub received: u8,
    pub algorithm: u8,
    pub amount: u128,
    pub hash: &'a [u8],
    pub expiry: u64,
    pub local: &'a [u8],
    pub remote: &'a [u8],
}

fn settlement_tlc(entry: &[u8]) -> Tlc<'_> {
    Tlc {
        received: entry[0],
        algorithm: entry[1],
        amount: number(&entry[2..18]),
        hash: &entry[18..50],
        expiry: number(&entry[50..58]) as u64,
        local: &entry[58..91],
        remote: &entry[91..124],
    }
}

impl Data {
    pub fn list(&self) -> Vec<Tlc<'_>> {
        self.tlcs.chunks_exact(124).map(settlement_tlc).collect()
    }

    /// Row 14.
    fn valid_data(&self) -> Answer<()> {
        unless(self.tlcs.len() % 124 == 0, NOT_WHOLE)?;
        unless(self.list().iter().all(|tlc| tlc.received <= 1 && tlc.algorithm <= 1), ABOVE_1)?;
        unless(self.local_key.len() == 33 && self.remote_key.len() == 33, KEY_LENGTH)
    }
}

/// "Hash 32, algorithm 1, record 65+h."
pub struct Tracked<'a> {
    pub hash: &'a [u8],
    pub algorithm: u8,
    pub record: &'a [u8],
}

/// What a host asks a choice with.
#[derive(Clone)]
pub struct Request {
    pub h: u64,
    pub for_remote: bool,
    pub args: Vec<u8>,
    pub time: u64,
    pub header: Epoch,
    pub current: Epoch,
    pub data: Data,
    pub tracked: Vec<u8>,
    /// Pairs of 64 bytes, hash and preimage.
    pub preimages: Vec<u8>,
    /// None in a first settlement.
    pub witness: Option<Vec<u8>>,
    /// The length of the output buffer.
    pub output: usize,
}

impl Request {
    pub fn tracked(&self) -> Vec<Tracked<'_>> {
        let entries = self.tracked.chunks_exact(98 + self.h as usize);
        entries
            .map(|entry| Tracked { hash: &entry[..32], algorithm: entry[32], record: &entry[33..] })
            .collect()
    }

    /// Row 14, which looks at all that is lent, in a first and in a later settlement alike.
    fn valid_request(&self) -> Answer<()> {
        let h = hash_length(self.h)?;
        self.data.valid_data()?;
        unless(self.tracked.len() % (98 + h) == 0 && self.preimages.len() % 64 == 0, NOT_WHOLE)?;
        unless(self.tracked().iter().all(|t| t.algorithm <= 1), ABOVE_1)?;
        unless(within_bits(self.header) && within_bits(self.current), FIELD_BEYOND_BITS)
    }
}

// ---- Module 7: first records. Order: 14, 12, 13. ----

fn first_record(h: usize, for_remote: bool, tlc: &Tlc) -> Vec<u8> {
    let mut bytes = vec![tlc.algorithm * 2 + tlc.received];
    bytes.extend(tlc.amount.to_le_bytes());
    bytes.extend(&tlc.hash[..h]);
    let (remote, local) = (hash_of_key(tlc.remote), hash_of_key(tlc.local));
    bytes.extend(if for_remote { [remote, local] } else { [local, remote] }.concat());
    bytes.extend((0x4000_0000_0000_0000 | (tlc.expiry / 1000)).to_le_bytes());
    bytes
}

fn first_state(h: usize, for_remote: bool, data: &Data) -> State {
    let local = Share { key: hash_of_key(&data.local_key), amount: data.local_amount };
    let remote = Share { key: hash_of_key(&data.remote_key), amount: data.remote_amount };
    let tlcs: Vec<Vec<u8>> = data.list().iter().map(|tlc| first_record(h, for_remote, tlc)).collect();
    let places = (0..tlcs.len()).map(|k| k * (98 + h) + 33).collect();
    let (remote, local) = if for_remote { (remote, local) } else { (local, remote) };
    State { tlcs, places, remote, local }
}

/// The record of one settlement TLC.
pub fn tlc_witness(h: u64, for_remote: bool, entry: &[u8], output: usize) -> Document<Vec<u8>> {
    let answer = || {
        let h = hash_length(h)?;
        unless(entry.len() == 124, NOT_WHOLE)?;
        let tlc = settlement_tlc(entry);
        unless(tlc.received <= 1 && tlc.algorithm <= 1, ABOVE_1)?;
        fits(first_record(h, for_remote, &tlc), output)
    };
    document(answer())
}

/// The first state, whole.
pub fn first(h: u64, for_remote: bool, data: &Data, output: usize) -> Document<Vec<u8>> {
    let answer = || {
        let h = hash_length(h)?;
        data.valid_data()?;
        unless(data.list().len() <= 255, ABOVE_255)?;
        fits(first_state(h, for_remote, data).written(), output)
    };
    document(answer())
}

// ---- Module 8: the choice ----

#[derive(Clone, Debug, PartialEq, Eq)]
pub struct Chosen {
    pub unlock: Vec<u8>,
    /// The state before the unlock.
    pub state: Vec<u8>,
    pub new_args: Vec<u8>,
    pub amount: u128,
    /// None: the settlement key; else a place in the settlement TLC list.
    pub key: Option<usize>,
    /// None in a later settlement.
    pub delay: Option<Epoch>,
    /// Place and length of the chosen TLC's record in the witness, or in a first settlement in the tracked list; for a
    /// share "the empty part at that slice's start". The Rust does not hand it out.
    pub record: (usize, usize),
    /// Which pair of the preimages counted, or 0 where none was wanted. The Rust does not tell it.
    pub pair: usize,
    /// A later settlement whose other slot's key hash is zeros.
    pub last: bool,
}

impl Chosen {
    pub fn output(&self) -> usize {
        self.unlock.len() + self.state.len() + self.new_args.len()
    }
}

/// What is decided: our share, or a TLC of the state with its settlement TLC, by a preimage or by timeout.
pub enum Decision {
    Share,
    Tlc { place: usize, key: usize, preimage: Option<Preimage>, delay: Option<Epoch> },
}

/// A preimage that counts, and the place of its pair.
pub struct Preimage {
    pair: usize,
    bytes: Vec<u8>,
}

/// "Bit 63: relative. Bits 62-61: 01 epoch. Bits 60-56 aren't looked at."
fn delay_of(args: &[u8]) -> Answer<Epoch> {
    unless(args.len() >= 28, ARGS_BELOW_28)?;
    unless(args.len() >= 36, ARGS_BELOW_36)?;
    let since = number(&args[20..28]) as u64;
    unless(since >> 61 == 0b101, NO_DELAY)?;
    Ok(Epoch { number: since & 0xff_ffff, index: since >> 24 & 0xffff, length: since >> 40 & 0xffff })
}

/// "Only the first pair with a tracked TLC's hash is looked at; it counts if its preimage has that hash under the
/// tracked TLC's algorithm."
fn counting_preimage(preimages: &[u8], tracked: &Tracked) -> Option<Preimage> {
    let (pair, bytes) = preimages.chunks(64).enumerate().find(|(_, pair)| &pair[..32] == tracked.hash)?;
    let preimage = &bytes[32..];
    let digest = if tracked.algorithm == 1 { sha256(preimage) } else { ckb_hash(preimage) };
    (digest == tracked.hash).then(|| Preimage { pair, bytes: preimage.to_vec() })
}

/// A TLC of timeout kind wants none.
fn preimage_wanted(timeout_kind: bool, request: &Request, tracked: &Tracked) -> Option<Preimage> {
    if timeout_kind {
        return None;
    }
    counting_preimage(&request.preimages, tracked)
}

/// "Offered with for_remote, received without."
fn timeout_kind(offered: bool, for_remote: bool) -> bool {
    offered == for_remote
}

/// One TLC of the walk.
pub struct Walked {
    pub timeout_kind: bool,
    pub fate: Fate,
}

/// What becomes of a TLC, whatever becomes of the others.
pub enum Fate {
    Chosen(Decision),
    /// Pending falls for it.
    Fell,
    /// It is still pending, for all of these causes, in the order in which one of them is given.
    Pending(Vec<Row>),
}

/// Document 01 says when a TLC is chosen and when pending falls, and change request W1 which causes there are to wait for
/// it. Each is written from its own words: a TLC has to be pending exactly where a cause fits.
fn fate(chosen: Option<Decision>, falls: bool, causes: &[(Row, bool)]) -> Fate {
    let fitting: Vec<Row> = causes.iter().filter(|(_, fits)| *fits).map(|(row, _)| *row).collect();
    let pending = chosen.is_none() && !falls;
    assert_eq!(pending, !fitting.is_empty(), "a TLC is pending exactly where a cause fits");
    match chosen {
        Some(decision) => Fate::Chosen(decision),
        None if falls => Fate::Fell,
        None => Fate::Pending(fitting),
    }
}

/// "The walk ends at the first chosen. None chosen and pending 0: our share", which in a first settlement wants the full
/// delay due. Else "the place and cause of the first TLC still pending".
fn decided(walked: Vec<Walked>, share_due: bool) -> Answer<Decision> {
    let (mut chosen, mut pending) = (vec![], vec![]);
    for (place, tlc) in walked.into_iter().enumerate() {
        match tlc.fate {
            Fate::Chosen(decision) => chosen.push(decision),
            Fate::Fell => {}
            Fate::Pending(causes) => pending.push((causes[0], place as Place)),
        }
    }
    if let Some(first) = chosen.into_iter().next() {
        return Ok(first);
    }
    if let Some(first) = pending.into_iter().next() {
        return Err(first);
    }
    // Where pending fell for a TLC the full delay is due: it isn't only where there is no TLC.
    unless(share_due, DELAY_NOT_DUE)?;
    Ok(Decision::Share)
}

fn later(request: &Request, state: &State) -> Answer<Decision> {
    unless(state.tlcs.len() <= 254, ABOVE_254)?;
    unless(state.tlcs.iter().eq(request.tracked().iter().map(|t| t.record)), LIST_DIFFERS)?;
    let (ours, other) =
        if request.for_remote { (&state.local, &state.remote) } else { (&state.remote, &state.local) };
    unless(ours.key == hash_of_key(&request.data.local_key), NOT_OUR_SHARE)?;
    if other.key.iter().all(|byte| *byte == 0) {
        return Ok(Decision::Share);
    }
    decided(later_walk(request, state), true)
}

fn later_walk(request: &Request, state: &State) -> Vec<Walked> {
    let h = request.h as usize;
    let tracked = request.tracked();
    let settlement: Vec<(&[u8], Vec<u8>)> =
        request.data.list().iter().map(|tlc| (tlc.hash, hash_of_key(tlc.local))).collect();
    let walked = |(place, bytes): (usize, &Vec<u8>)| {
        let tlc = record(h, bytes);
        let timeout_kind = timeout_kind(tlc.offered, request.for_remote);
        let Document::Value(expiry) = absolute_expiry(tlc.expiry) else { unreachable!("no row") };
        let passed = expiry.is_some_and(|expiry| request.time > expiry);
        let our_hash = if request.for_remote { tlc.local } else { tlc.remote };
        let key = settlement.iter().position(|(hash, key)| hash[..h] == *tlc.hash && key == our_hash);
        let preimage = preimage_wanted(timeout_kind, request, &tracked[place]);

        let without = !timeout_kind && preimage.is_none();
        let causes = [
            (NO_EXPIRY, expiry.is_none()),
            (NO_KEY, key.is_none()),
            (NOT_PASSED, timeout_kind && !passed),
            (NO_PREIMAGE, without && !passed),
        ];
        let key = expiry.and(key);
        let falls = key.is_some() && without && passed;
        let chosen = key.filter(|_| if timeout_kind { passed } else { preimage.is_some() });
        let chosen = chosen.map(|key| Decision::Tlc { place, key, preimage, delay: None });
        Walked { timeout_kind, fate: fate(chosen, falls, &causes) }
    };
    state.tlcs.iter().enumerate().map(walked).collect()
}

fn first_choice(request: &Request, state: &State, full: Epoch) -> Answer<Decision> {
    unless(state.tlcs.iter().eq(request.tracked().iter().map(|t| t.record)), LIST_DIFFERS)?;
    decided(first_walk(request, full)?, due(request, full))
}

fn due(request: &Request, delay: Epoch) -> bool {
    is_due(request.header, delay, request.current) == Document::Value(true)
}

fn first_walk(request: &Request, full: Epoch) -> Answer<Vec<Walked>> {
    let tracked = request.tracked();
    let scaled = |numerator| match mul(full, numerator, 3) {
        Document::Value(delay) => Ok(delay),
        Document::Row(row, place) => Err((row, place)),
    };
    let full_due = due(request, full);
    let walked = |(place, tlc): (usize, &Tlc)| {
        let timeout_kind = timeout_kind(tlc.received == 0, request.for_remote);
        let delay = scaled(if timeout_kind { 2 } else { 1 })?;
        let part_due = due(request, delay);
        let passed = request.time > tlc.expiry;
        let preimage = preimage_wanted(timeout_kind, request, &tracked[place]);

        let without = !timeout_kind && preimage.is_none();
        let causes = [
            (PART_NOT_DUE, !part_due),
            (NOT_PASSED, timeout_kind && !passed),
            (NO_PREIMAGE, without && !passed),
            (NO_PREIMAGE_YET, without && part_due && !full_due),
        ];
        let falls = part_due && without && full_due && passed;
        let chosen = part_due && if timeout_kind { passed } else { preimage.is_some() };
        let chosen = chosen.then_some(Decision::Tlc { place, key: place, preimage, delay: Some(delay) });
        Ok(Walked { timeout_kind, fate: fate(chosen, falls, &causes) })
    };
    request.data.list().iter().enumerate().map(walked).collect()
}

/// The walk behind a wait of 22 to 25: every TLC that it walked, of which none was chosen.
pub fn walk(request: &Request) -> Vec<Walked> {
    let walked = || match &request.witness {
        Some(witness) => Ok(later_walk(request, &updated(parts(request.h as usize, witness)?)?)),
        None => first_walk(request, delay_of(&request.args)?),
    };
    walked().unwrap_or_else(|(row, _): (Row, Place)| unreachable!("no wait of the walk: {}", row.cause))
}

fn handed_out(request: &Request, state: State, decision: Decision, full: Epoch) -> Chosen {
    let before = state.written();
    let other = if request.for_remote { &state.remote } else { &state.local };
    let last = request.witness.is_some() && other.key.iter().all(|byte| *byte == 0);
    let mut after = state;
    let mut part = (0, 0);
    let (byte, preimage, amount, key, delay) = match decision {
        Decision::Share => {
            let (byte, share) =
                if request.for_remote { (LOCAL, &mut after.local) } else { (REMOTE, &mut after.remote) };
            let amount = share.amount;
            *share = Share { key: vec![0; 20], amount: 0 };
            (byte, None, amount, None, request.witness.is_none().then_some(full))
        }
        Decision::Tlc { place, key, preimage, delay } => {
            let bytes = after.tlcs.remove(place);
            part = (after.places.remove(place), bytes.len());
            (place as u8, preimage, record(request.h as usize, &bytes).amount, Some(key), delay)
        }
    };
    let mut unlock = vec![byte, u8::from(preimage.is_some())];
    unlock.extend([0; 65]);
    let pair = preimage.as_ref().map_or(0, |preimage| preimage.pair);
    unlock.extend(preimage.map_or(vec![], |preimage| preimage.bytes));
    let mut new_args = request.args[..36].to_vec();
    new_args.extend(&ckb_hash(&after.written())[..20]);
    new_args.push(1);
    new_args.extend(request.args.iter().skip(57));
    Chosen { unlock, state: before, new_args, amount, key, delay, record: part, pair, last }
}

fn chosen(request: &Request) -> Answer<Chosen> {
    request.valid_request()?;
    let full = delay_of(&request.args)?;
    let h = request.h as usize;
    let (state, decision) = match &request.witness {
        Some(witness) => {
            let state = updated(parts(h, witness)?)?;
            let decision = later(request, &state)?;
            (state, decision)
        }
        None => {
            let lengths = [request.header, request.current, full].map(|epoch| epoch.length);
            unless(!lengths.contains(&0), LENGTH_ZERO)?;
            unless(request.data.list().len() <= 254, ABOVE_254)?;
            let state = first_state(h, request.for_remote, &request.data);
            let decision = first_choice(request, &state, full)?;
            (state, decision)
        }
    };
    let chosen = handed_out(request, state, decision, full);
    if chosen.output() > request.output {
        return Err((OUTPUT_SHORT, chosen.output() as u64));
    }
    Ok(chosen)
}

pub fn choice(request: &Request) -> Document<Chosen> {
    document(chosen(request))
}
