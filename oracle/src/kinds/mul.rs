//! `mul`: an epoch scaled by a fraction. Document 01, module 3.

use super::{any_epoch, digits, epoch, Kind, LIMITS};
use crate::document::{self, Document, Epoch};
use crate::port::{self, Called};
use crate::random::Random;
use crate::reference::calls::{self, Rust};

pub struct Mul;

#[derive(Clone, Copy)]
pub struct Input {
    delay: Epoch,
    numerator: u64,
    denominator: u64,
}

fn input(number: u64, index: u64, length: u64, numerator: u64, denominator: u64) -> Input {
    Input { delay: epoch(number, index, length), numerator, denominator }
}

/// Lengths and indices at the limits of document 01 and of their fields.
const LENGTHS: [u64; 20] = [
    0, 1, 2, 3, 4, 599, 600, 601, 899, 900, 901, 1799, 1800, 1801, 3599, 3600, 3601, 0xfffe, 0xffff, 0x1_0000,
];
const NUMBERS: [u64; 7] = [0, 1, 2, 1000, 0xff_fffe, 0xff_ffff, 0x100_0000];
const INDICES: [u64; 6] = [0, 1, 600, 1801, 0xffff, 0x1_0000];
const NUMERATORS: [u64; 8] = [0, 1, 2, 3, 1 << 23, 1 << 24, 1 << 48, u64::MAX];
const DENOMINATORS: [u64; 9] = [0, 1, 2, 3, 4, 1800, 1801, 1 << 48, u64::MAX];

/// Every small input, then the lists above with each other, then every length by one and two thirds.
const SMALL: u64 = 3 * 4 * 5 * 5 * 5;
const LISTS: u64 = 20 * 7 * 6 * 8 * 9;
const THIRDS: u64 = 2 * 0x1_0000;

impl Kind for Mul {
    type Input = Input;
    type Value = Epoch;

    const NAME: &'static str = "mul";
    const ABOUT: &'static str = "an epoch scaled by a fraction";
    const EXPORT: &'static str = "fiber_settlement_scale";
    const DUMP_LINES: usize = 300;

    fn edges() -> Vec<Input> {
        let mut edges = vec![
            // The two marked rows of document 01.
            input(1, 0, 601, 1, 3),
            input(1, 300, 601, 2, 3),
            // N and D at 64 bits and one above, in both orders of the causes.
            input(0, 1, 1, u64::MAX, u64::MAX),
            input(0, 2, 1, 1 << 63, 1),
            input(0, 2, 1, (1 << 63) - 1, 1 << 63),
            input(0, 2, 2, (1 << 63) - 1, 1 << 63),
            input(0, 2, 2, (1 << 63) - 1, (1 << 63) - 1),
            input(0, 2, 2, 1 << 63, 1 << 63),
            input(0xff_ffff, 0, 0xffff, 16_777_217, 1),
            input(0, 0xffff, 0xffff, 281_479_271_743_489, 281_479_271_743_489),
            input(0, 0xffff, 0xffff, 281_479_271_743_489, 281_479_271_743_490),
            input(0, 0xffff, 0xffff, 281_479_271_743_490, 281_479_271_743_489),
            // D = 0 by either factor, and behind a too large N.
            input(1, 0, 0, 1, 3),
            input(1, 0, 1, 1, 0),
            input(0, 0, 0, 0, 0),
            input(0, 2, 0, u64::MAX, 0),
            // The whole part at its limit and one above.
            input(16_777_215, 0, 1, 1, 1),
            input(16_777_215, 1, 1, 1, 1),
            input(16_777_215, 0, 1, 2, 1),
            input(8_388_608, 0, 1, 2, 1),
            input(1, 0, 1, 16_777_215, 1),
            input(1, 0, 1, 16_777_216, 1),
            input(0, 65_535, 1, 257, 1),
            // Fields beyond their bits.
            input(16_777_216, 0, 1, 1, 3),
            input(0, 65_536, 1, 1, 3),
            input(0, 0, 65_536, 1, 3),
            input(u64::MAX, u64::MAX, u64::MAX, u64::MAX, u64::MAX),
            input(16_777_216, 0, 0, u64::MAX, 0),
        ];
        // D around 1800 and its multiples, by thirds and by halves of it.
        for length in [599, 600, 601, 1199, 1200, 1201, 1799, 1800, 1801] {
            for (numerator, denominator) in [(1, 3), (2, 3), (1, 1), (1, 2), (3, 3)] {
                edges.push(input(4, length - 1, length, numerator, denominator));
                edges.push(input(0, length, length, numerator, denominator));
            }
        }
        edges
    }

    fn grid_size() -> u64 {
        SMALL + LISTS + THIRDS
    }

    fn grid(place: u64) -> Input {
        if place < SMALL {
            let mut next = digits(place);
            return input(next(3), next(4), next(5), next(5), next(5));
        }
        if place < SMALL + LISTS {
            let mut next = digits(place - SMALL);
            let mut of = |list: &[u64]| list[next(list.len() as u64) as usize];
            return input(of(&NUMBERS), of(&INDICES), of(&LENGTHS), of(&NUMERATORS), of(&DENOMINATORS));
        }
        let length = (place - SMALL - LISTS) / 2;
        input(length % 7, length * 5 / 7, length, 1 + place % 2, 3)
    }

    fn random(random: &mut Random) -> Input {
        let delay = any_epoch(random);
        let units = delay.number.saturating_mul(delay.length).saturating_add(delay.index).max(1);
        let length = delay.length.max(1);
        let times = random.below(4);
        let denominator = match random.below(9) {
            0 => random.pick(LIMITS),
            1 => random.near(u64::MAX / length),
            2 => random.near(1800 * (1 + times) / length),
            3 | 4 => random.below(4),
            5 => random.of_width(64),
            6 => random.of_width(16),
            _ => 3,
        };
        let d = denominator.saturating_mul(length);
        let numerator = match random.below(9) {
            0 => random.pick(LIMITS),
            1 => random.near(u64::MAX / units),
            // The whole part around its limit.
            2 => random.near((16_777_216 * u128::from(d) / u128::from(units)).min(u64::MAX.into()) as u64),
            // The product around a multiple of D.
            3 => random.near(d.saturating_mul(times) / units),
            4 | 5 => random.below(4),
            6 => random.of_width(64),
            _ => 1 + random.below(2),
        };
        Input { delay, numerator, denominator }
    }

    fn document(i: &Input) -> Document<Epoch> {
        document::mul(i.delay, i.numerator, i.denominator)
    }

    fn rust(i: &Input) -> Rust<Epoch> {
        calls::scale(i.delay, i.numerator, i.denominator)
    }

    fn port(i: &Input, random: &mut Random) -> Called<Epoch> {
        port::mul(random, i.delay, i.numerator, i.denominator)
    }

    fn class(i: &Input, scaled: &Epoch) -> &'static str {
        match (scaled.number, i.denominator * i.delay.length) {
            (16_777_215, _) => "whole part 16,777,215",
            (_, ..1800) => "D below 1800",
            (_, 1800) => "D 1800",
            (_, 1801) => "D 1801",
            _ => "D above 1801",
        }
    }

    fn show_input(i: &Input) -> String {
        format!("{} {} {}", i.delay, i.numerator, i.denominator)
    }

    fn show_value(value: &Epoch) -> String {
        value.to_string()
    }
}
