//! The port, called over C. Every buffer that it may write lies in a larger one full of random bytes, and every
//! byte that it may not write is checked.

use crate::document::journal::{Appended, Journal, Settled};
use crate::document::settlement::{Chosen, Data, Read, Request};
use crate::document::Epoch;
use crate::random::Random;
use std::ops::Range;

/// Declares an export: its type, and a constant that holds it.
macro_rules! export {
    ($constant:ident, $kind:ident, fn $symbol:ident($($argument:ty),*) $(-> $result:ty)?) => {
        pub type $kind = unsafe extern "C" fn($($argument),*) $(-> $result)?;
        pub const $constant: $kind = {
            extern "C" {
                fn $symbol($(_: $argument),*) $(-> $result)?;
            }
            $symbol
        };
    };
}

export!(SCALE, Scale, fn fiber_settlement_scale(u64, u64, u64, u64, u64, *mut u8, usize) -> u64);
export!(IS_DUE, IsDue, fn fiber_settlement_is_due(u64, u64, u64, u64, u64, u64, u64, u64, u64, *mut u8, usize) -> u64);
export!(EXPIRY, Expiry, fn fiber_settlement_expiry(u64, *mut u8, usize) -> u64);
export!(KEY_HASH, KeyHash, fn fiber_settlement_key_hash(*const u8, usize, *mut u8, usize) -> u64);
export!(CKB_HASH, CkbHash, fn fiber_settlement_ckb_hash(*const u8, usize, *mut u8));
export!(SHA256, Sha256, fn fiber_settlement_sha256(*const u8, usize, *mut u8));
export!(READ, SettlementRead, fn fiber_settlement_read(u64, *const u8, usize, *mut u8, usize) -> u64);
export!(UPDATE, SettlementUpdate,
    fn fiber_settlement_update(u64, *const u8, usize, *mut u8, usize, *mut u8, usize) -> u64);
export!(TLC_RECORD, TlcRecord,
    fn fiber_settlement_tlc_record(u64, u8, *const u8, usize, *mut u8, usize, *mut u8, usize) -> u64);
export!(FIRST_STATE, FirstState,
    fn fiber_settlement_first_state(u64, u8, u64, u64, u64, u64, *const u8, usize, *const u8, usize, *const u8, usize,
        *mut u8, usize, *mut u8, usize) -> u64);
export!(CHOOSE, SettlementChoose,
    fn fiber_settlement_choose(u64, u8, u8, u64, u64, u64, u64, u64, u64, u64, u64, u64, u64, u64,
        *const u8, usize, *const u8, usize, *const u8, usize, *const u8, usize, *const u8, usize, *const u8, usize,
        *const u8, usize, *mut u8, usize, *mut u8, usize) -> u64);
export!(JOURNAL_APPEND, JournalAppend,
    fn fiber_journal_append(*mut u8, usize, u64, *const u8, usize, u8, u8, u64, u64, *mut u8, usize) -> u64);
export!(JOURNAL_WALK, JournalWalk,
    fn fiber_journal_walk(*const u8, usize, u64, *mut u8, usize, *mut u8, usize) -> u64);

/// The port's answer.
#[derive(Clone, Debug, PartialEq, Eq)]
pub enum Reply<V> {
    Value(V),
    Refused { number: u64, place: u64 },
}

/// A reply, or what the call did that it may not do.
pub type Called<V> = Result<Reply<V>, String>;

fn u64_at(bytes: &[u8], at: usize) -> u64 {
    u64::from_le_bytes(bytes[at..at + 8].try_into().expect("8 bytes"))
}

/// Memory that a call is handed: some bytes at any alignment, amid random ones.
pub struct Buffer {
    before: Vec<u8>,
    bytes: Vec<u8>,
    from: usize,
    length: usize,
}

impl Buffer {
    /// A buffer to write, full of random bytes.
    pub fn new(random: &mut Random, length: usize) -> Buffer {
        let from = 8 + random.below(16) as usize;
        let mut bytes = vec![0; from + length + 24];
        random.fill(&mut bytes);
        Buffer { before: bytes.clone(), bytes, from, length }
    }

    /// Bytes to read.
    pub fn holding(random: &mut Random, text: &[u8]) -> Buffer {
        let mut buffer = Buffer::new(random, text.len());
        buffer.bytes[buffer.from..buffer.from + text.len()].copy_from_slice(text);
        buffer.before.clone_from(&buffer.bytes);
        buffer
    }

    pub fn reading(&self) -> *const u8 {
        self.bytes[self.from..].as_ptr()
    }

    pub fn pointer(&mut self) -> *mut u8 {
        // From the whole memory, so that a stray byte beside the part lent is still a byte of it.
        self.bytes.as_mut_ptr().wrapping_add(self.from)
    }

    /// The first `count` bytes lent.
    pub fn written(&self, count: usize) -> &[u8] {
        &self.bytes[self.from..self.from + count]
    }

    /// Checks that at most the first `count` bytes lent were written.
    pub fn only(&self, count: usize) -> Result<(), String> {
        self.only_at(0..count)
    }

    /// Checks that at most these of the bytes lent were written.
    pub fn only_at(&self, at: Range<usize>) -> Result<(), String> {
        let may = self.from + at.start..self.from + at.end;
        if self.bytes[..may.start] == self.before[..may.start]
            && self.bytes[may.end..] == self.before[may.end..]
        {
            return Ok(());
        }
        let fault = (0..self.bytes.len()).find(|i| !may.contains(i) && self.bytes[*i] != self.before[*i]);
        Err(format!(
            "byte {} of a buffer of {} was written, allowed are {} to {}",
            fault.expect("they differ") as i64 - self.from as i64,
            self.length,
            at.start,
            at.end
        ))
    }
}

/// The lengths of short answer buffers to try, where `size` bytes are wanted: one at times, or every one.
fn shorter(random: &mut Random, size: usize) -> Range<usize> {
    match random.below(64) {
        0 => 0..size,
        1..=16 => {
            let length = random.below(size as u64) as usize;
            length..length + 1
        }
        _ => 0..0,
    }
}

/// The length of an answer buffer that is long enough.
fn enough(random: &mut Random, size: usize) -> usize {
    size + if random.one_in(2) { 0 } else { random.below(20) as usize }
}

fn has_to_be_14(number: u64, length: usize) -> Result<(), String> {
    match number {
        14 => Ok(()),
        _ => Err(format!("a buffer of {length} bytes, too short, was answered {number} and not 14")),
    }
}

/// Calls an export that answers `size` bytes: with a buffer of that size or longer, and at times with shorter ones
/// as well. On success `value` reads the answer's bytes.
pub fn answered<V>(
    random: &mut Random,
    size: usize,
    call: impl Fn(*mut u8, usize) -> u64,
    value: impl Fn(&[u8]) -> Result<V, String>,
) -> Called<V> {
    for length in shorter(random, size) {
        let mut short = Buffer::new(random, length);
        let number = call(short.pointer(), length);
        short.only(0)?;
        has_to_be_14(number, length)?;
    }
    let length = enough(random, size);
    let mut fields = Buffer::new(random, length);
    let number = call(fields.pointer(), length);
    fields.only(if number == 0 { size } else { 16 })?;
    let (in_buffer, place) = (u64_at(fields.written(16), 0), u64_at(fields.written(16), 8));
    if in_buffer != number {
        return Err(format!("the return value is {number}, the number in the buffer {in_buffer}"));
    }
    if number != 0 {
        return Ok(Reply::Refused { number, place });
    }
    if place != 0 {
        return Err(format!("success with place {place}"));
    }
    value(fields.written(size)).map(Reply::Value)
}

pub fn mul(random: &mut Random, delay: Epoch, numerator: u64, denominator: u64) -> Called<Epoch> {
    let Epoch { number, index, length } = delay;
    answered(
        random,
        40,
        // SAFETY: the buffer has the length passed.
        |answer, size| unsafe { SCALE(number, index, length, numerator, denominator, answer, size) },
        |bytes| Ok(Epoch { number: u64_at(bytes, 16), index: u64_at(bytes, 24), length: u64_at(bytes, 32) }),
    )
}

pub fn is_due(random: &mut Random, h: Epoch, d: Epoch, c: Epoch) -> Called<bool> {
    answered(
        random,
        24,
        // SAFETY: the buffer has the length passed.
        |answer, size| unsafe {
            IS_DUE(
                h.number, h.index, h.length, d.number, d.index, d.length, c.number, c.index, c.length,
                answer, size,
            )
        },
        |bytes| truth(u64_at(bytes, 16)),
    )
}

pub fn absolute_expiry(random: &mut Random, since: u64) -> Called<Option<u64>> {
    answered(
        random,
        32,
        // SAFETY: the buffer has the length passed.
        |answer, size| unsafe { EXPIRY(since, answer, size) },
        |bytes| match (truth(u64_at(bytes, 16))?, u64_at(bytes, 24)) {
            (true, expiry) => Ok(Some(expiry)),
            (false, 0) => Ok(None),
            (false, expiry) => Err(format!("no expiry, but {expiry} in its place")),
        },
    )
}

pub fn key_hash(random: &mut Random, key: &[u8]) -> Called<[u8; 20]> {
    let text = Buffer::holding(random, key);
    let called = answered(
        random,
        36,
        // SAFETY: key and buffer have the lengths passed.
        |answer, size| unsafe { KEY_HASH(text.reading(), key.len(), answer, size) },
        |bytes| Ok(bytes[16..36].try_into().expect("20 bytes")),
    );
    text.only(0)?;
    called
}

/// `fiber_settlement_ckb_hash` or `fiber_settlement_sha256`.
pub fn hash(random: &mut Random, call: CkbHash, message: &[u8]) -> Called<[u8; 32]> {
    let text = Buffer::holding(random, message);
    let mut digest = Buffer::new(random, 32);
    // SAFETY: the message has the length passed, the digest 32 bytes.
    unsafe { call(text.reading(), message.len(), digest.pointer()) };
    text.only(0)?;
    digest.only(32)?;
    Ok(Reply::Value(digest.written(32).try_into().expect("32 bytes")))
}

pub const READ_ANSWER: usize = 48;
pub const UPDATE_ANSWER: usize = 24;
pub const CHOOSE_ANSWER: usize = 152;

pub fn read(random: &mut Random, h: u64, witness: &[u8]) -> Called<Read> {
    let text = Buffer::holding(random, witness);
    let called = answered(
        random,
        READ_ANSWER,
        // SAFETY: witness and buffer have the lengths passed.
        |answer, size| unsafe { READ(h, text.reading(), witness.len(), answer, size) },
        |bytes| {
            let field = |at| u64_at(bytes, at) as usize;
            Ok(Read {
                n: field(16),
                unlock_count: field(24),
                share_place: field(32),
                first_unlock: field(40),
            })
        },
    );
    text.only(0)?;
    called
}

/// The state left. `output` is the length of the output buffer.
pub fn update(random: &mut Random, h: u64, witness: &[u8], output: usize) -> Called<Vec<u8>> {
    for length in shorter(random, UPDATE_ANSWER) {
        one_update(random, h, witness, output, length)?;
    }
    let length = enough(random, UPDATE_ANSWER);
    let reply = one_update(random, h, witness, output, length)?;
    Ok(reply.expect("the buffer is long enough"))
}

/// One call of the update with an answer buffer of this length. None: 14 by the return value alone.
pub fn one_update(
    random: &mut Random,
    h: u64,
    witness: &[u8],
    output: usize,
    answer: usize,
) -> Result<Option<Reply<Vec<u8>>>, String> {
    written(random, [witness], output, answer, |[witness], out, out_len, answer, answer_len| {
        // SAFETY: witness, output and buffer have the lengths passed.
        unsafe { UPDATE(h, witness.0, witness.1, out, out_len, answer, answer_len) }
    })
}

/// The record of one settlement TLC.
pub fn tlc_witness(
    random: &mut Random,
    h: u64,
    for_remote: bool,
    tlc: &[u8],
    output: usize,
) -> Called<Vec<u8>> {
    written_for(random, for_remote, [tlc], output, |flag, [tlc], out, out_len, answer, answer_len| {
        // SAFETY: TLC, output and buffer have the lengths passed.
        unsafe { TLC_RECORD(h, flag, tlc.0, tlc.1, out, out_len, answer, answer_len) }
    })
}

/// Low and high half of an amount.
pub fn halves(amount: u128) -> (u64, u64) {
    (amount as u64, (amount >> 64) as u64)
}

/// The first state.
pub fn data_witness(
    random: &mut Random,
    h: u64,
    for_remote: bool,
    data: &Data,
    output: usize,
) -> Called<Vec<u8>> {
    let (local, remote) = (halves(data.local_amount), halves(data.remote_amount));
    let lists = [&data.tlcs[..], &data.local_key, &data.remote_key];
    written_for(
        random,
        for_remote,
        lists,
        output,
        |flag, [tlcs, ours, theirs], out, out_len, answer, answer_len| {
            // SAFETY: list, keys, output and buffer have the lengths passed.
            unsafe {
                FIRST_STATE(
                    h, flag, local.0, local.1, remote.0, remote.1, tlcs.0, tlcs.1, ours.0, ours.1, theirs.0,
                    theirs.1, out, out_len, answer, answer_len,
                )
            }
        },
    )
}

/// Bytes lent to be read: where they are, and how many.
pub type Given = (*const u8, usize);

/// A byte that is no flag.
fn no_flag(random: &mut Random) -> u8 {
    2 + random.below(254) as u8
}

/// What a call with a byte that is no flag has to answer, whatever else it was handed.
fn has_to_be_no_flag<V>(reply: Option<Reply<V>>, flags: &[u8]) -> Result<(), String> {
    match reply {
        None | Some(Reply::Refused { number: 14, place: 0 }) => Ok(()),
        Some(Reply::Refused { number, place }) => {
            Err(format!("{flags:?} for flags was answered {number} at {place} and not 14 at 0"))
        }
        Some(Reply::Value(_)) => Err(format!("{flags:?} was taken for flags")),
    }
}

/// `written` with an answer buffer that is long enough, and before it at times with shorter ones, and with a byte that
/// is no flag.
fn written_for<const N: usize>(
    random: &mut Random,
    for_remote: bool,
    lists: [&[u8]; N],
    output: usize,
    call: impl Fn(u8, [Given; N], *mut u8, usize, *mut u8, usize) -> u64,
) -> Called<Vec<u8>> {
    let with = |flag: u8| {
        let call = &call;
        move |lists, out, out_len, answer, answer_len| call(flag, lists, out, out_len, answer, answer_len)
    };
    for length in shorter(random, UPDATE_ANSWER) {
        written(random, lists, output, length, with(u8::from(for_remote)))?;
    }
    if random.one_in(8) {
        let (flag, length) = (no_flag(random), random.below(48) as usize);
        has_to_be_no_flag(written(random, lists, output, length, with(flag))?, &[flag])?;
    }
    let length = enough(random, UPDATE_ANSWER);
    let reply = written(random, lists, output, length, with(u8::from(for_remote)))?;
    Ok(reply.expect("the buffer is long enough"))
}

/// One call that reads `lists`, writes to the front of an output of `output` bytes and tells the length written, as the
/// update does. None: 14 by the return value alone.
fn written<const N: usize>(
    random: &mut Random,
    lists: [&[u8]; N],
    output: usize,
    answer: usize,
    call: impl Fn([Given; N], *mut u8, usize, *mut u8, usize) -> u64,
) -> Result<Option<Reply<Vec<u8>>>, String> {
    let out = Buffer::new(random, output);
    let done = called(random, lists, out, answer, UPDATE_ANSWER, call)?;
    let Some((reply, out)) = done else {
        return Ok(None);
    };
    let fields = match reply {
        Reply::Refused { number, place } => return Ok(Some(Reply::Refused { number, place })),
        Reply::Value(fields) => fields,
    };
    let length = u64_at(&fields, 16);
    if length > output as u64 {
        return Err(format!("success with {length} bytes written in {output}"));
    }
    out.only(length as usize)?;
    Ok(Some(Reply::Value(out.written(length as usize).to_vec())))
}

/// A call's answer, and the output that it may have written.
type Wrote = (Reply<Vec<u8>>, Buffer);

/// One call with an output and an answer buffer, of which `size` bytes are wanted. None: 14 by the return value alone.
/// On success the answer's bytes, and the output, whose bytes are still to be looked at.
fn called<const N: usize>(
    random: &mut Random,
    lists: [&[u8]; N],
    mut out: Buffer,
    answer: usize,
    size: usize,
    call: impl Fn([Given; N], *mut u8, usize, *mut u8, usize) -> u64,
) -> Result<Option<Wrote>, String> {
    let texts = lists.map(|list| Buffer::holding(random, list));
    let mut fields = Buffer::new(random, answer);
    let given = std::array::from_fn(|i| (texts[i].reading(), lists[i].len()));
    let number = call(given, out.pointer(), out.length, fields.pointer(), answer);
    texts.iter().try_for_each(|text| text.only(0))?;
    if answer < size {
        out.only(0)?;
        fields.only(0)?;
        return has_to_be_14(number, answer).map(|()| None);
    }
    fields.only(if number == 0 { size } else { 16 })?;
    let (in_buffer, place) = (u64_at(fields.written(size), 0), u64_at(fields.written(size), 8));
    if in_buffer != number {
        return Err(format!("the return value is {number}, the number in the buffer {in_buffer}"));
    }
    if number != 0 {
        out.only(0)?;
        return Ok(Some((Reply::Refused { number, place }, out)));
    }
    if place != 0 {
        return Err(format!("success with place {place}"));
    }
    Ok(Some((Reply::Value(fields.written(size).to_vec()), out)))
}

/// The choice.
pub fn choose(random: &mut Random, call: SettlementChoose, request: &Request) -> Called<Chosen> {
    let flags = [u8::from(request.for_remote), u8::from(request.witness.is_some())];
    for length in shorter(random, CHOOSE_ANSWER) {
        one_choice(random, call, flags, request, length)?;
    }
    if random.one_in(8) {
        let (mut flags, length) = (flags, random.below(304) as usize);
        flags[random.below(2) as usize] = no_flag(random);
        has_to_be_no_flag(one_choice(random, call, flags, request, length)?, &flags)?;
    }
    let length = enough(random, CHOOSE_ANSWER);
    let reply = one_choice(random, call, flags, request, length)?;
    Ok(reply.expect("the buffer is long enough"))
}

/// One call of the choice with an answer buffer of this length. None: 14 by the return value alone.
fn one_choice(
    random: &mut Random,
    call: SettlementChoose,
    flags: [u8; 2],
    request: &Request,
    answer: usize,
) -> Result<Option<Reply<Chosen>>, String> {
    let Request { h, time, header, current, data, .. } = request;
    let (local, remote) = (halves(data.local_amount), halves(data.remote_amount));
    // In a first settlement a witness is not looked at, whatever is lent.
    let mut any = vec![0; random.pick(&[0, 0, 1, 2, 74, 200])];
    random.fill(&mut any);
    let is_later = request.witness.is_some();
    let witness = request.witness.as_ref().unwrap_or(&any);
    let lists = [
        &request.args[..],
        &data.tlcs,
        &data.local_key,
        &data.remote_key,
        &request.tracked,
        &request.preimages,
        witness,
    ];
    let out = Buffer::new(random, request.output);
    let done =
        called(random, lists, out, answer, CHOOSE_ANSWER, |given, out, out_len, answer, answer_len| {
            let [args, tlcs, ours, theirs, tracked, preimages, witness] = given;
            // SAFETY: all lists, output and buffer have the lengths passed.
            unsafe {
                call(
                    *h,
                    flags[0],
                    flags[1],
                    *time,
                    header.number,
                    header.index,
                    header.length,
                    current.number,
                    current.index,
                    current.length,
                    local.0,
                    local.1,
                    remote.0,
                    remote.1,
                    args.0,
                    args.1,
                    tlcs.0,
                    tlcs.1,
                    ours.0,
                    ours.1,
                    theirs.0,
                    theirs.1,
                    tracked.0,
                    tracked.1,
                    preimages.0,
                    preimages.1,
                    witness.0,
                    witness.1,
                    out,
                    out_len,
                    answer,
                    answer_len,
                )
            }
        })?;
    match done {
        None => Ok(None),
        Some((Reply::Refused { number, place }, _)) => Ok(Some(Reply::Refused { number, place })),
        Some((Reply::Value(fields), out)) => {
            let slice = if is_later { witness } else { &request.tracked };
            chosen(request, slice, &fields, &out).map(|chosen| Some(Reply::Value(chosen)))
        }
    }
}

/// The choice's answer of 152 bytes and its output, whose fields have to fit each other. `slice` is what the record is
/// a part of.
fn chosen(request: &Request, slice: &[u8], answer: &[u8], out: &Buffer) -> Result<Chosen, String> {
    let field = |at| u64_at(answer, at);
    let holds = |holds: bool, what: &str| match holds {
        true => Ok(()),
        false => {
            let fields: Vec<u64> = (16..CHOOSE_ANSWER).step_by(8).map(field).collect();
            Err(format!("{what}; the answer's fields from byte 16 on are {fields:?}"))
        }
    };
    let lengths = [field(112), field(120), field(128)];
    let all = lengths.iter().try_fold(0u64, |sum, length| sum.checked_add(*length));
    let all = all.filter(|all| *all <= request.output as u64);
    holds(all.is_some(), "the parts of the output are longer than it")?;
    let all = all.map_or(0, |all| all as usize);
    out.only(all)?;
    let [unlock, state] = [lengths[0] as usize, (lengths[0] + lengths[1]) as usize];
    let (unlock, rest) = (&out.written(all)[..unlock], &out.written(all)[unlock..]);
    let (state, new_args) = rest.split_at(state - unlock.len());

    let (kind, byte) = (field(16), field(24));
    holds(kind <= 2, "the kind is none of three")?;
    holds(unlock.len() >= 2, "there is no unlock")?;
    holds(u64::from(unlock[0]) == byte, "the unlock's byte is not that of the answer")?;
    let as_kind = if byte >= 0xfe { 0 } else { 1 + u64::from(unlock[1]) };
    holds(as_kind == kind, "the unlock is of another kind than the answer says")?;
    holds(field(48) <= 1 && field(64) <= 1, "the kind of a key or a delay is none of two")?;
    holds(field(48) == 1 || field(56) == 0, "the settlement key with a place")?;
    holds((field(48) == 1) == (kind > 0), "a share with a TLC's key, or a TLC with the settlement key")?;
    let delay = Epoch { number: field(72), index: field(80), length: field(88) };
    holds(
        field(64) == 1 || delay == Epoch { number: 0, index: 0, length: 0 },
        "no delay, but numbers in its place",
    )?;
    holds(kind == 2 || field(136) == 0, "the place of a pair where no preimage is wanted")?;
    let record = (field(96), field(104));
    if kind == 0 {
        holds(record == (0, 0), "a record beside a share")?;
    } else {
        let size = 65 + request.h as usize;
        let end = record.0.checked_add(record.1).filter(|end| *end <= slice.len() as u64);
        holds(end.is_some(), "the record is beyond its slice")?;
        let part = &slice[record.0 as usize..(record.0 + record.1) as usize];
        let at = 1 + byte as usize * size;
        holds(state.get(at..at + size) == Some(part), "the record is not that of the TLC chosen")?;
    }
    Ok(Chosen {
        unlock: unlock.to_vec(),
        state: state.to_vec(),
        new_args: new_args.to_vec(),
        amount: u128::from(field(40)) << 64 | u128::from(field(32)),
        key: (field(48) == 1).then_some(field(56) as usize),
        delay: (field(64) == 1).then_some(delay),
        record: (record.0 as usize, record.1 as usize),
        pair: field(136) as usize,
        last: truth(field(144))?,
    })
}

fn truth(number: u64) -> Result<bool, String> {
    match number {
        0 => Ok(false),
        1 => Ok(true),
        other => Err(format!("{other} where 0 or 1 belongs")),
    }
}

// ---- The journal ----

pub const JOURNAL_ANSWER: usize = 24;

/// The pointers of a call, by their places among these lengths: where no byte is lent, NULL at times.
fn or_null<const N: usize>(random: &mut Random, lengths: [usize; N]) -> impl Fn(usize, *mut u8) -> *mut u8 {
    let null = lengths.map(|length| length == 0 && random.one_in(2));
    move |place, pointer| if null[place] { std::ptr::null_mut() } else { pointer }
}

/// An append: the new length, and what the slice then has behind the journal.
pub fn append(
    random: &mut Random,
    call: JournalAppend,
    journal: &Journal,
    new: &Settled,
) -> Called<Appended> {
    for length in shorter(random, JOURNAL_ANSWER) {
        one_append(random, call, journal, new, length)?;
    }
    let length = enough(random, JOURNAL_ANSWER);
    let reply = one_append(random, call, journal, new, length)?;
    Ok(reply.expect("the buffer is long enough"))
}

/// One append with an answer buffer of this length. None: 14 by the return value alone.
fn one_append(
    random: &mut Random,
    call: JournalAppend,
    journal: &Journal,
    new: &Settled,
    answer: usize,
) -> Result<Option<Reply<Appended>>, String> {
    let Settled { channel, unlock, flag, amount } = new;
    let (slice, (low, high)) = (Buffer::holding(random, &journal.slice), halves(*amount));
    let or_null = or_null(random, [journal.slice.len(), channel.len(), answer]);
    let call = |[id]: [Given; 1], at, size, to, to_len| {
        let (at, to) = (or_null(0, at), or_null(2, to));
        let (id, id_len) = (or_null(1, id.0.cast_mut()), id.1);
        // SAFETY: slice, channel id and buffer have the lengths passed.
        unsafe { call(at, size, journal.length, id, id_len, *unlock, *flag, low, high, to, to_len) }
    };
    let done = called(random, [channel], slice, answer, JOURNAL_ANSWER, call)?;
    match done {
        None => Ok(None),
        Some((Reply::Refused { number, place }, _)) => Ok(Some(Reply::Refused { number, place })),
        Some((Reply::Value(fields), slice)) => {
            appended(journal, u64_at(&fields, 16), &slice).map(|appended| Some(Reply::Value(appended)))
        }
    }
}

/// What a successful append left: no byte of the slice but those between the two lengths may be another one.
fn appended(journal: &Journal, length: u64, slice: &Buffer) -> Result<Appended, String> {
    let may = journal.length..=slice.length as u64;
    if !may.contains(&length) {
        return Err(format!("success with the length {length}, {} before, in {}", may.start(), may.end()));
    }
    let (from, to) = (journal.length as usize, length as usize);
    slice.only_at(from..to)?;
    Ok(Appended { length, entry: slice.written(to)[from..].to_vec() })
}

/// A walk: the bytes written.
pub fn walk(random: &mut Random, call: JournalWalk, journal: &Journal, output: usize) -> Called<Vec<u8>> {
    for length in shorter(random, JOURNAL_ANSWER) {
        one_walk(random, call, journal, output, length)?;
    }
    let length = enough(random, JOURNAL_ANSWER);
    let reply = one_walk(random, call, journal, output, length)?;
    Ok(reply.expect("the buffer is long enough"))
}

/// One walk with an answer buffer of this length. None: 14 by the return value alone.
fn one_walk(
    random: &mut Random,
    call: JournalWalk,
    journal: &Journal,
    output: usize,
    answer: usize,
) -> Result<Option<Reply<Vec<u8>>>, String> {
    let or_null = or_null(random, [journal.slice.len(), output, answer]);
    written(random, [&journal.slice], output, answer, |[slice], out, out_len, to, to_len| {
        let (at, out, to) = (or_null(0, slice.0.cast_mut()), or_null(1, out), or_null(2, to));
        // SAFETY: slice, output and buffer have the lengths passed.
        unsafe { call(at, slice.1, journal.length, out, out_len, to, to_len) }
    })
}
