//! The library's functions, and the one place that calls them. Nothing above this file is unsafe but the view of stored
//! preimages as bytes (preimage.rs).
//!
//! The functions here take what C takes: any h, any flag, slices of any length. The types above can make less.

use std::sync::OnceLock;

use crate::layout;
use crate::Refusal;

mod library {
    extern "C" {
        pub fn fiber_settlement_abi() -> u64;
        pub fn fiber_settlement_read(
            h: u64,
            witness: *const u8,
            witness_len: usize,
            answer: *mut u8,
            answer_len: usize,
        ) -> u64;
        pub fn fiber_settlement_update(
            h: u64,
            witness: *const u8,
            witness_len: usize,
            out: *mut u8,
            out_len: usize,
            answer: *mut u8,
            answer_len: usize,
        ) -> u64;
        pub fn fiber_settlement_ckb_hash(bytes: *const u8, len: usize, out: *mut u8);
        pub fn fiber_settlement_sha256(bytes: *const u8, len: usize, out: *mut u8);
        pub fn fiber_settlement_key_hash(
            key: *const u8,
            key_len: usize,
            answer: *mut u8,
            answer_len: usize,
        ) -> u64;
        pub fn fiber_settlement_scale(
            number: u64,
            index: u64,
            length: u64,
            numerator: u64,
            denominator: u64,
            answer: *mut u8,
            answer_len: usize,
        ) -> u64;
        pub fn fiber_settlement_is_due(
            header_number: u64,
            header_index: u64,
            header_length: u64,
            delay_number: u64,
            delay_index: u64,
            delay_length: u64,
            current_number: u64,
            current_index: u64,
            current_length: u64,
            answer: *mut u8,
            answer_len: usize,
        ) -> u64;
        pub fn fiber_settlement_expiry(since: u64, answer: *mut u8, answer_len: usize) -> u64;
        pub fn fiber_settlement_tlc_record(
            h: u64,
            for_remote: u8,
            tlc: *const u8,
            tlc_len: usize,
            out: *mut u8,
            out_len: usize,
            answer: *mut u8,
            answer_len: usize,
        ) -> u64;
        pub fn fiber_settlement_first_state(
            h: u64,
            for_remote: u8,
            local_low: u64,
            local_high: u64,
            remote_low: u64,
            remote_high: u64,
            tlcs: *const u8,
            tlcs_len: usize,
            local_key: *const u8,
            local_key_len: usize,
            remote_key: *const u8,
            remote_key_len: usize,
            out: *mut u8,
            out_len: usize,
            answer: *mut u8,
            answer_len: usize,
        ) -> u64;
        pub fn fiber_settlement_choose(
            h: u64,
            for_remote: u8,
            is_later: u8,
            time: u64,
            header_number: u64,
            header_index: u64,
            header_length: u64,
            current_number: u64,
            current_index: u64,
            current_length: u64,
            local_low: u64,
            local_high: u64,
            remote_low: u64,
            remote_high: u64,
            args: *const u8,
            args_len: usize,
            tlcs: *const u8,
            tlcs_len: usize,
            local_key: *const u8,
            local_key_len: usize,
            remote_key: *const u8,
            remote_key_len: usize,
            tracked: *const u8,
            tracked_len: usize,
            preimages: *const u8,
            preimages_len: usize,
            witness: *const u8,
            witness_len: usize,
            out: *mut u8,
            out_len: usize,
            answer: *mut u8,
            answer_len: usize,
        ) -> u64;
        pub fn fiber_journal_append(
            journal: *mut u8,
            journal_size: usize,
            length: u64,
            channel: *const u8,
            channel_len: usize,
            unlock: u8,
            flag: u8,
            amount_low: u64,
            amount_high: u64,
            answer: *mut u8,
            answer_len: usize,
        ) -> u64;
        pub fn fiber_journal_walk(
            journal: *const u8,
            journal_size: usize,
            length: u64,
            out: *mut u8,
            out_len: usize,
            answer: *mut u8,
            answer_len: usize,
        ) -> u64;
    }
}

// ---- Answers ----

/// A number other than 0 that a function answered, with its place.
#[derive(Clone, Copy, Debug, PartialEq, Eq)]
pub(crate) struct Code {
    pub number: u64,
    pub place: u64,
}

/// The answer buffer of a call that succeeded.
pub(crate) struct Answer<const N: usize>([u8; N]);

impl<const N: usize> Answer<N> {
    /// An answer that no library gave.
    #[cfg(test)]
    pub fn of(bytes: [u8; N]) -> Answer<N> {
        Answer(bytes)
    }

    /// The number at an offset.
    pub fn number(&self, at: usize) -> u64 {
        let mut bytes = [0; 8];
        bytes.copy_from_slice(&self.0[at..at + 8]);
        u64::from_le_bytes(bytes)
    }

    /// The number at an offset, as a place or a length. One that no slice has becomes the largest, which no slice has
    /// either.
    pub fn place(&self, at: usize) -> usize {
        usize::try_from(self.number(at)).unwrap_or(usize::MAX)
    }
}

/// Lends an answer buffer of N bytes to a call.
fn answered<const N: usize>(call: impl FnOnce(*mut u8, usize) -> u64) -> Result<Answer<N>, Code> {
    let mut answer = Answer([0; N]);
    match call(answer.0.as_mut_ptr(), N) {
        layout::OK => Ok(answer),
        number => Err(Code { number, place: answer.number(layout::PLACE) }),
    }
}

// ---- The version ----

/// Asks the library for its version, the first time only, and compares it with this crate's. Each public function
/// does so before its call: with another layout a call could write where nobody lent.
pub(crate) fn ready() -> Result<(), Refusal> {
    static LIBRARY: OnceLock<u64> = OnceLock::new();
    // SAFETY: this function takes nothing, and its signature is the same in every version.
    same_version(*LIBRARY.get_or_init(|| unsafe { library::fiber_settlement_abi() }))
}

pub(crate) fn same_version(library: u64) -> Result<(), Refusal> {
    match library {
        layout::ABI => Ok(()),
        library => Err(Refusal::Abi { library, expected: layout::ABI }),
    }
}

// ---- The calls ----
//
// Of every call here: the pointers come from slices of the lengths said, and Rust's borrows keep what is written,
// output, answer and the journal of an append, apart from each other and from the rest.

pub(crate) fn read(h: u64, witness: &[u8]) -> Result<Answer<{ layout::READ_ANSWER }>, Code> {
    // SAFETY: as said above.
    answered(|answer, length| unsafe {
        library::fiber_settlement_read(h, witness.as_ptr(), witness.len(), answer, length)
    })
}

/// Answers the length of the state left.
pub(crate) fn update(h: u64, witness: &[u8], out: &mut [u8]) -> Result<usize, Code> {
    // SAFETY: as said above.
    let answer: Answer<{ layout::UPDATE_ANSWER }> = answered(|answer, length| unsafe {
        library::fiber_settlement_update(
            h,
            witness.as_ptr(),
            witness.len(),
            out.as_mut_ptr(),
            out.len(),
            answer,
            length,
        )
    })?;
    Ok(answer.place(layout::UPDATE_LENGTH))
}

pub(crate) fn ckb_hash(bytes: &[u8]) -> [u8; layout::HASH] {
    let mut out = [0; layout::HASH];
    // SAFETY: as said above, and the output has the 32 bytes that are written.
    unsafe { library::fiber_settlement_ckb_hash(bytes.as_ptr(), bytes.len(), out.as_mut_ptr()) };
    out
}

pub(crate) fn sha256(bytes: &[u8]) -> [u8; layout::HASH] {
    let mut out = [0; layout::HASH];
    // SAFETY: as said above, and the output has the 32 bytes that are written.
    unsafe { library::fiber_settlement_sha256(bytes.as_ptr(), bytes.len(), out.as_mut_ptr()) };
    out
}

pub(crate) fn key_hash(key: &[u8]) -> Result<[u8; layout::KEY_HASH], Code> {
    // SAFETY: as said above.
    let answer: Answer<{ layout::KEY_HASH_ANSWER }> = answered(|answer, length| unsafe {
        library::fiber_settlement_key_hash(key.as_ptr(), key.len(), answer, length)
    })?;
    let mut hash = [0; layout::KEY_HASH];
    hash.copy_from_slice(&answer.0[layout::KEY_HASH_BYTES..][..layout::KEY_HASH]);
    Ok(hash)
}

/// An epoch as C takes it: number, index, length.
pub(crate) type Parts = [u64; 3];

pub(crate) fn scale([number, index, rest]: Parts, numerator: u64, denominator: u64) -> Result<Parts, Code> {
    // SAFETY: as said above.
    let answer: Answer<{ layout::SCALE_ANSWER }> = answered(|answer, length| unsafe {
        library::fiber_settlement_scale(number, index, rest, numerator, denominator, answer, length)
    })?;
    Ok([layout::SCALE_NUMBER, layout::SCALE_INDEX, layout::SCALE_LENGTH].map(|at| answer.number(at)))
}

pub(crate) fn is_due(header: Parts, delay: Parts, current: Parts) -> Result<u64, Code> {
    let (a, b, c) = (header, delay, current);
    // SAFETY: as said above.
    let answer: Answer<{ layout::IS_DUE_ANSWER }> = answered(|answer, length| unsafe {
        library::fiber_settlement_is_due(a[0], a[1], a[2], b[0], b[1], b[2], c[0], c[1], c[2], answer, length)
    })?;
    Ok(answer.number(layout::IS_DUE_DUE))
}

/// Milliseconds, if the since value holds an expiry.
pub(crate) fn expiry(since: u64) -> Result<Option<u64>, Code> {
    // SAFETY: as said above.
    let answer: Answer<{ layout::EXPIRY_ANSWER }> =
        answered(|answer, length| unsafe { library::fiber_settlement_expiry(since, answer, length) })?;
    Ok((answer.number(layout::EXPIRY_KNOWN) == 1).then(|| answer.number(layout::EXPIRY_MS)))
}

/// Answers how many bytes were written.
pub(crate) fn tlc_record(h: u64, for_remote: u8, tlc: &[u8], out: &mut [u8]) -> Result<usize, Code> {
    // SAFETY: as said above.
    let answer: Answer<{ layout::WRITTEN_ANSWER }> = answered(|answer, length| unsafe {
        library::fiber_settlement_tlc_record(
            h,
            for_remote,
            tlc.as_ptr(),
            tlc.len(),
            out.as_mut_ptr(),
            out.len(),
            answer,
            length,
        )
    })?;
    Ok(answer.place(layout::WRITTEN_LENGTH))
}

/// What a first state is made of. `local` is ours, `remote` theirs.
#[derive(Clone, Copy)]
pub(crate) struct FirstState<'a> {
    pub h: u64,
    pub for_remote: u8,
    pub local_amount: u128,
    pub remote_amount: u128,
    pub tlcs: &'a [u8],
    pub local_key: &'a [u8],
    pub remote_key: &'a [u8],
}

/// Answers how many bytes were written.
pub(crate) fn first_state(of: &FirstState, out: &mut [u8]) -> Result<usize, Code> {
    // SAFETY: as said above.
    let answer: Answer<{ layout::WRITTEN_ANSWER }> = answered(|answer, length| unsafe {
        library::fiber_settlement_first_state(
            of.h,
            of.for_remote,
            low(of.local_amount),
            high(of.local_amount),
            low(of.remote_amount),
            high(of.remote_amount),
            of.tlcs.as_ptr(),
            of.tlcs.len(),
            of.local_key.as_ptr(),
            of.local_key.len(),
            of.remote_key.as_ptr(),
            of.remote_key.len(),
            out.as_mut_ptr(),
            out.len(),
            answer,
            length,
        )
    })?;
    Ok(answer.place(layout::WRITTEN_LENGTH))
}

/// What is asked of the choice.
#[derive(Clone, Copy)]
pub(crate) struct Choose<'a> {
    /// Of these the first settlement alone takes the amounts.
    pub first: FirstState<'a>,
    pub is_later: u8,
    pub time: u64,
    pub header: Parts,
    pub current: Parts,
    pub args: &'a [u8],
    pub tracked: &'a [u8],
    pub preimages: &'a [u8],
    pub witness: &'a [u8],
}

pub(crate) fn choose(of: &Choose, out: &mut [u8]) -> Result<Answer<{ layout::CHOOSE_ANSWER }>, Code> {
    // SAFETY: as said above.
    answered(|answer, length| unsafe {
        library::fiber_settlement_choose(
            of.first.h,
            of.first.for_remote,
            of.is_later,
            of.time,
            of.header[0],
            of.header[1],
            of.header[2],
            of.current[0],
            of.current[1],
            of.current[2],
            low(of.first.local_amount),
            high(of.first.local_amount),
            low(of.first.remote_amount),
            high(of.first.remote_amount),
            of.args.as_ptr(),
            of.args.len(),
            of.first.tlcs.as_ptr(),
            of.first.tlcs.len(),
            of.first.local_key.as_ptr(),
            of.first.local_key.len(),
            of.first.remote_key.as_ptr(),
            of.first.remote_key.len(),
            of.tracked.as_ptr(),
            of.tracked.len(),
            of.preimages.as_ptr(),
            of.preimages.len(),
            of.witness.as_ptr(),
            of.witness.len(),
            out.as_mut_ptr(),
            out.len(),
            answer,
            length,
        )
    })
}

/// What is appended to a journal.
#[derive(Clone, Copy)]
pub(crate) struct Entry<'a> {
    pub channel: &'a [u8],
    pub unlock: u8,
    pub flag: u8,
    pub amount: u128,
}

/// Answers the journal's new length.
pub(crate) fn journal_append(journal: &mut [u8], length: u64, entry: &Entry) -> Result<usize, Code> {
    // SAFETY: as said above.
    let answer: Answer<{ layout::JOURNAL_ANSWER }> = answered(|answer, answer_len| unsafe {
        library::fiber_journal_append(
            journal.as_mut_ptr(),
            journal.len(),
            length,
            entry.channel.as_ptr(),
            entry.channel.len(),
            entry.unlock,
            entry.flag,
            low(entry.amount),
            high(entry.amount),
            answer,
            answer_len,
        )
    })?;
    Ok(answer.place(layout::JOURNAL_ANSWER_LENGTH))
}

/// Answers how many bytes were written.
pub(crate) fn journal_walk(journal: &[u8], length: u64, out: &mut [u8]) -> Result<usize, Code> {
    // SAFETY: as said above.
    let answer: Answer<{ layout::JOURNAL_ANSWER }> = answered(|answer, answer_len| unsafe {
        library::fiber_journal_walk(
            journal.as_ptr(),
            journal.len(),
            length,
            out.as_mut_ptr(),
            out.len(),
            answer,
            answer_len,
        )
    })?;
    Ok(answer.place(layout::JOURNAL_ANSWER_LENGTH))
}

fn low(amount: u128) -> u64 {
    amount as u64
}

fn high(amount: u128) -> u64 {
    (amount >> 64) as u64
}
