//! What document 01 says, written from its words alone and in other arithmetic than the reference's: the judge of
//! numbers and places, which the Rust does not tell, and of the rows that document 01 added. The hashes are second
//! implementations: blake2-rfc for BLAKE2b, and SHA-256 from the text of FIPS 180-4.

use std::fmt;

pub mod journal;
pub mod settlement;

/// Number + index / length.
#[derive(Clone, Copy, Debug, PartialEq, Eq)]
pub struct Epoch {
    pub number: u64,
    pub index: u64,
    pub length: u64,
}

impl fmt::Display for Epoch {
    fn fmt(&self, f: &mut fmt::Formatter<'_>) -> fmt::Result {
        write!(f, "{} {} {}", self.number, self.index, self.length)
    }
}

/// A row of document 01's table, or one cause of a row that names several.
#[derive(Clone, Copy, Debug, PartialEq, Eq)]
pub struct Row {
    pub number: u64,
    pub cause: &'static str,
    pub rust: InRust,
}

/// What the row is in the Rust.
#[derive(Clone, Copy, Debug, PartialEq, Eq, PartialOrd, Ord)]
pub enum InRust {
    /// Turned down there too, without a number.
    TurnedDown,
    /// Waited for there too; marks of the stand-ins tell 20, 21 and a wait of the walk (22 to 25) apart.
    Waits,
    /// Outside the equality: added by document 01, or no such input can be handed to the Rust.
    Outside,
}

const fn row(number: u64, cause: &'static str, rust: InRust) -> Row {
    Row { number, cause, rust }
}

pub const FIELD_BEYOND_BITS: Row = row(14, "epoch field beyond its bits", InRust::Outside);
pub const KEY_LENGTH: Row = row(14, "key not 33 bytes", InRust::Outside);
pub const N_ABOVE_64_BITS: Row = row(8, "N above 64 bits", InRust::TurnedDown);
pub const D_ABOVE_64_BITS: Row = row(8, "D above 64 bits", InRust::TurnedDown);
pub const D_ZERO: Row = row(7, "D = 0", InRust::TurnedDown);
pub const WHOLE_PART: Row = row(8, "whole part above 16,777,215", InRust::Outside);
pub const LENGTH_ZERO: Row = row(7, "epoch length 0", InRust::Outside);

/// Document 01's answer.
#[derive(Clone, Debug, PartialEq, Eq)]
pub enum Document<V> {
    Value(V),
    Row(Row, Place),
}

pub type Place = u64;

impl<V> Document<V> {
    /// Is the case inside the equality with the Rust?
    pub fn inside(&self) -> bool {
        !matches!(self, Document::Row(row, _) if row.rust == InRust::Outside)
    }
}

use Document::Value;

// ---- Module 2: since and epochs ----

/// "An epoch value has number (bits 0-23), index (24-39), length (40-55)."
fn within_bits(e: Epoch) -> bool {
    e.number <= 0xff_ffff && e.index <= 0xffff && e.length <= 0xffff
}

/// "Absolute timestamp, seconds times 1000, no expiry where that passes 64 bits."
pub fn absolute_expiry(since: u64) -> Document<Option<u64>> {
    let bit = |i: u32| since & 1u64.rotate_left(i) != 0;
    let absolute = !bit(63);
    let timestamp = bit(62) && !bit(61);
    let seconds = u128::from(since % (1 << 56));
    Value(if absolute && timestamp { u64::try_from(seconds * 1000).ok() } else { None })
}

// ---- Module 3: mul. Order: 14, N (8), D (8), 7, whole part (8). ----

pub fn mul(delay: Epoch, numerator: u64, denominator: u64) -> Document<Epoch> {
    if !within_bits(delay) {
        return Document::Row(FIELD_BEYOND_BITS, 0);
    }
    let [number, index, length] = [delay.number, delay.index, delay.length].map(u128::from);
    let units = number * length + index;
    let n = u128::from(numerator) * units;
    let d = u128::from(denominator) * length;
    if n >> 64 != 0 {
        return Document::Row(N_ABOVE_64_BITS, 0);
    }
    if d >> 64 != 0 {
        return Document::Row(D_ABOVE_64_BITS, 0);
    }
    if d == 0 {
        return Document::Row(D_ZERO, 0);
    }
    let whole = n / d;
    let rest = n - whole * d;
    if whole > 16_777_215 {
        return Document::Row(WHOLE_PART, 0);
    }
    let s = if d > 1800 { d / 1800 + 1 } else { 1 };
    Value(Epoch { number: whole as u64, index: (rest / s) as u64, length: (d / s) as u64 })
}

// ---- Module 4: the due test. Order: 14, 7. ----

/// "Header epoch + delay <= current epoch, exact as fractions": both sides times all three lengths.
pub fn is_due(header: Epoch, delay: Epoch, current: Epoch) -> Document<bool> {
    let all = [header, delay, current];
    if !all.into_iter().all(within_bits) {
        return Document::Row(FIELD_BEYOND_BITS, 0);
    }
    if all.into_iter().any(|e| e.length == 0) {
        return Document::Row(LENGTH_ZERO, 0);
    }
    let units = |e: Epoch| u128::from(e.number) * u128::from(e.length) + u128::from(e.index);
    let [h, d, c] = all.map(|e| u128::from(e.length));
    Value(units(header) * d * c + units(delay) * h * c <= units(current) * h * d)
}

// ---- Module 1: hashes ----

/// "A key hash is the first 20 bytes of the CKB hash of the 33 key bytes."
pub fn key_hash(key: &[u8]) -> Document<[u8; 20]> {
    if key.len() != 33 {
        return Document::Row(KEY_LENGTH, 0);
    }
    Value(ckb_hash(key)[..20].try_into().expect("20 bytes"))
}

/// "BLAKE2b-256, no key, personalisation `ckb-default-hash` (bytes 48-63 of BLAKE2's parameter block)."
pub fn ckb_hash(message: &[u8]) -> [u8; 32] {
    let mut block = [0u8; 64];
    block[0] = 32; // digest length
    block[2] = 1; // fanout
    block[3] = 1; // depth
    block[48..].copy_from_slice(b"ckb-default-hash");
    let words: [u64; 8] =
        std::array::from_fn(|i| u64::from_le_bytes(block[8 * i..8 * i + 8].try_into().expect("8 bytes")));
    let mut state = blake2_rfc::blake2b::Blake2b::with_parameter_block(&words);
    state.update(message);
    state.finalize().as_bytes().try_into().expect("32 bytes")
}

/// The first 32 bits of the fractional part of the `root`-th root of `prime` (FIPS 180-4, 4.2.2 and 5.3.3), by whole
/// numbers: the largest x whose `root`-th power is at most prime * 2^(32 root), without its whole part.
fn fraction_of_root(prime: u128, root: u32) -> u32 {
    let bound = prime << (32 * root);
    let (mut low, mut high) = (0u128, 1u128 << 40);
    while high - low > 1 {
        let middle = (low + high) / 2;
        if middle.pow(root) <= bound {
            low = middle;
        } else {
            high = middle;
        }
    }
    low as u32
}

/// SHA-256 in the order of FIPS 180-4, 6.2.2.
pub fn sha256(message: &[u8]) -> [u8; 32] {
    thread_local!(static CONSTANTS: ([u32; 8], [u32; 64]) = {
        let mut primes = (2u128..).filter(|n| (2..*n).all(|d| n % d != 0));
        let primes: [u128; 64] = std::array::from_fn(|_| primes.next().expect("primes do not end"));
        (std::array::from_fn(|i| fraction_of_root(primes[i], 2)), primes.map(|p| fraction_of_root(p, 3)))
    });
    let (mut hash, k) = CONSTANTS.with(|c| *c);

    let mut padded = message.to_vec();
    padded.push(0x80);
    while padded.len() % 64 != 56 {
        padded.push(0);
    }
    padded.extend((message.len() as u64 * 8).to_be_bytes());

    for block in padded.chunks(64) {
        let mut w = [0u32; 64];
        for (t, word) in block.chunks(4).enumerate() {
            w[t] = u32::from_be_bytes(word.try_into().expect("4 bytes"));
        }
        for t in 16..64 {
            let small0 = w[t - 15].rotate_right(7) ^ w[t - 15].rotate_right(18) ^ (w[t - 15] >> 3);
            let small1 = w[t - 2].rotate_right(17) ^ w[t - 2].rotate_right(19) ^ (w[t - 2] >> 10);
            w[t] = small1.wrapping_add(w[t - 7]).wrapping_add(small0).wrapping_add(w[t - 16]);
        }
        let [mut a, mut b, mut c, mut d, mut e, mut f, mut g, mut h] = hash;
        for t in 0..64 {
            let big1 = e.rotate_right(6) ^ e.rotate_right(11) ^ e.rotate_right(25);
            let ch = (e & f) ^ (!e & g);
            let t1 = h.wrapping_add(big1).wrapping_add(ch).wrapping_add(k[t]).wrapping_add(w[t]);
            let big0 = a.rotate_right(2) ^ a.rotate_right(13) ^ a.rotate_right(22);
            let maj = (a & b) ^ (a & c) ^ (b & c);
            let t2 = big0.wrapping_add(maj);
            (h, g, f, e) = (g, f, e, d.wrapping_add(t1));
            (d, c, b, a) = (c, b, a, t1.wrapping_add(t2));
        }
        for (word, new) in hash.iter_mut().zip([a, b, c, d, e, f, g, h]) {
            *word = word.wrapping_add(new);
        }
    }
    let bytes: Vec<u8> = hash.iter().flat_map(|word| word.to_be_bytes()).collect();
    bytes.try_into().expect("32 bytes")
}
