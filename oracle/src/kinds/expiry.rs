//! `absolute_expiry`: the milliseconds of an absolute timestamp. Document 01, module 2.

use super::{digits, Kind, LIMITS};
use crate::document::{self, Document};
use crate::port::{self, Called};
use crate::random::Random;
use crate::reference::calls::{self, Rust};

pub struct Expiry;

/// The most seconds of which the milliseconds have 64 bits.
const MOST: u64 = 18_446_744_073_709_551;
const TIMESTAMP: u64 = 0x4000_0000_0000_0000;
const VALUES: [u64; 14] = [
    0,
    1,
    5,
    999,
    1 << 24,
    1 << 40,
    MOST - 1,
    MOST,
    MOST + 1,
    2 * MOST,
    2 * MOST + 1,
    3 * MOST + 2,
    (1 << 56) - 2,
    (1 << 56) - 1,
];

impl Kind for Expiry {
    type Input = u64;
    type Value = Option<u64>;

    const NAME: &'static str = "expiry";
    const ABOUT: &'static str = "milliseconds of an absolute timestamp since";
    const EXPORT: &'static str = "fiber_settlement_expiry";
    const DUMP_LINES: usize = 250;

    fn edges() -> Vec<u64> {
        // The three marked rows of document 01.
        let mut edges = vec![TIMESTAMP | 5, TIMESTAMP | MOST, TIMESTAMP | (MOST + 1)];
        edges.extend([0, 1, u64::MAX, u64::MAX - 1, 1 << 63]);
        // Both relative bits and every metric.
        for top in 0..8u64 {
            edges.extend(VALUES.map(|value| top << 61 | value));
        }
        // Bits 60 to 56, one by one and all.
        for bits in [1, 2, 4, 8, 16, 31u64] {
            edges.extend([5, MOST, MOST + 1].map(|value| TIMESTAMP | bits << 56 | value));
        }
        edges
    }

    /// Every top byte with every value above.
    fn grid_size() -> u64 {
        256 * VALUES.len() as u64
    }

    fn grid(place: u64) -> u64 {
        let mut next = digits(place);
        next(256) << 56 | VALUES[next(VALUES.len() as u64) as usize]
    }

    fn random(random: &mut Random) -> u64 {
        let value = match random.below(4) {
            0 => random.near(MOST),
            1 => random.pick(LIMITS),
            2 => random.of_width(56),
            _ => random.next(),
        };
        let top = if random.one_in(2) { TIMESTAMP >> 56 } else { random.below(256) };
        let bits = if random.one_in(4) { random.below(32) } else { 0 };
        ((top | bits) << 56) | (value % (1 << 56))
    }

    fn document(since: &u64) -> Document<Option<u64>> {
        document::absolute_expiry(*since)
    }

    fn rust(since: &u64) -> Rust<Option<u64>> {
        calls::expiry(*since)
    }

    fn port(since: &u64, random: &mut Random) -> Called<Option<u64>> {
        port::absolute_expiry(random, *since)
    }

    fn class(_: &u64, expiry: &Option<u64>) -> &'static str {
        match expiry {
            Some(_) => "expiries",
            None => "no expiry",
        }
    }

    fn show_input(since: &u64) -> String {
        since.to_string()
    }

    fn show_value(expiry: &Option<u64>) -> String {
        expiry.map_or("0 0".to_string(), |ms| format!("1 {ms}"))
    }
}
