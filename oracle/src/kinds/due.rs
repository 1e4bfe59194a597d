//! The due test: header + delay <= current. Document 01, module 4.

use super::{any_epoch, digits, epoch, Kind};
use crate::document::{self, Document, Epoch};
use crate::port::{self, Called};
use crate::random::Random;
use crate::reference::calls::{self, Rust};

pub struct Due;

#[derive(Clone, Copy)]
pub struct Input {
    header: Epoch,
    delay: Epoch,
    current: Epoch,
}

type Triple = (u64, u64, u64);

fn input(h: Triple, d: Triple, c: Triple) -> Input {
    let of = |t: Triple| epoch(t.0, t.1, t.2);
    Input { header: of(h), delay: of(d), current: of(c) }
}

/// Numbers 0 and 1, indices 0 to 2, lengths 0 to 3, in all three epochs.
const SMALL: u64 = (2 * 3 * 4) * (2 * 3 * 4) * (2 * 3 * 4);

impl Kind for Due {
    type Input = Input;
    type Value = bool;

    const NAME: &'static str = "due";
    const ABOUT: &'static str = "header epoch + delay <= current epoch";
    const EXPORT: &'static str = "fiber_settlement_is_due";
    const DUMP_LINES: usize = 250;

    fn edges() -> Vec<Input> {
        const TOP: u64 = 0xff_ffff;
        const LONG: u64 = 0xffff;
        vec![
            // The two marked rows of document 01, and the nearest thousandth above.
            input((100, 0, 1), (0, 1, 3), (100, 1, 3)),
            input((100, 0, 1), (0, 1, 3), (100, 332, 1000)),
            input((100, 0, 1), (0, 1, 3), (100, 333, 1000)),
            input((100, 0, 1), (0, 1, 3), (100, 334, 1000)),
            // Exactly equal with indices above lengths, on each side.
            input((0, 7, 2), (0, 5, 2), (6, 0, 1)),
            input((0, 7, 2), (0, 5, 2), (0, 6, 1)),
            input((0, 7, 2), (0, 5, 2), (0, 12, 2)),
            input((0, 7, 2), (0, 5, 2), (0, 11, 2)),
            // A carry out of two fractions.
            input((1, 1, 2), (1, 1, 2), (3, 0, 1)),
            input((1, 2, 3), (1, 2, 3), (3, 1, 3)),
            input((1, 2, 3), (1, 2, 3), (3, 0, 3)),
            input((1, 2, 3), (1, 2, 3), (3, 333, 1000)),
            input((1, 2, 3), (1, 2, 3), (3, 334, 1000)),
            // Fractions that differ by as little as they can.
            input((0, 1, LONG), (0, 1, LONG - 1), (0, 2, LONG - 2)),
            input((0, 1, LONG), (0, 1, LONG), (0, 2, LONG)),
            input((0, 1, LONG), (0, 1, LONG), (0, 2, LONG - 1)),
            input((0, 1, LONG), (0, 1, LONG - 1), (0, 2, LONG)),
            input((0, LONG - 1, LONG), (0, 1, LONG), (1, 0, 1)),
            input((0, LONG - 1, LONG), (0, 1, LONG), (0, LONG - 1, LONG)),
            // The largest epochs.
            input((TOP, LONG, 1), (TOP, LONG, 1), (TOP, LONG, 1)),
            input((TOP, LONG, LONG), (TOP, LONG, LONG), (TOP, LONG, LONG)),
            input((TOP, LONG, 1), (0, 0, 1), (TOP, LONG, 1)),
            input((TOP, LONG, 1), (0, 0, LONG), (TOP, LONG - 1, 1)),
            input((TOP, LONG, LONG), (0, 0, 1), (TOP, 1, 1)),
            input((0, 0, 1), (0, 0, 1), (0, 0, 1)),
            input((0, 0, LONG), (0, 0, LONG), (0, 0, LONG)),
            // Lengths of 0.
            input((0, 0, 0), (0, 0, 1), (0, 0, 1)),
            input((0, 0, 1), (0, 0, 0), (0, 0, 1)),
            input((0, 0, 1), (0, 0, 1), (0, 0, 0)),
            input((1, 0, 0), (1, 0, 0), (1, 0, 0)),
            // Fields beyond their bits, one by one, a length of 0 beside them or not.
            input((TOP + 1, 0, 1), (0, 0, 1), (0, 0, 1)),
            input((0, LONG + 1, 1), (0, 0, 1), (0, 0, 1)),
            input((0, 0, LONG + 1), (0, 0, 1), (0, 0, 1)),
            input((0, 0, 1), (TOP + 1, 0, 1), (0, 0, 1)),
            input((0, 0, 1), (0, LONG + 1, 1), (0, 0, 1)),
            input((0, 0, 1), (0, 0, LONG + 1), (0, 0, 1)),
            input((0, 0, 1), (0, 0, 1), (TOP + 1, 0, 1)),
            input((0, 0, 1), (0, 0, 1), (0, LONG + 1, 1)),
            input((0, 0, 1), (0, 0, 1), (0, 0, LONG + 1)),
            input((0, 0, 0), (0, 0, 1), (0, 0, LONG + 1)),
            input((0, 0, 1), (0, 0, 0), (u64::MAX, u64::MAX, u64::MAX)),
        ]
    }

    fn grid_size() -> u64 {
        SMALL
    }

    fn grid(place: u64) -> Input {
        let mut next = digits(place);
        let mut small = || (next(2), next(3), next(4));
        input(small(), small(), small())
    }

    fn random(random: &mut Random) -> Input {
        let (header, mut delay) = (any_epoch(random), any_epoch(random));
        match random.below(4) {
            0 => delay.length = header.length,
            1 => delay.number = random.below(4),
            _ => {}
        }
        let current = any_epoch(random);
        let any = Input { header, delay, current };
        if random.one_in(6) {
            any
        } else {
            beside(any, random)
        }
    }

    fn document(i: &Input) -> Document<bool> {
        document::is_due(i.header, i.delay, i.current)
    }

    fn rust(i: &Input) -> Rust<bool> {
        calls::due(i.header, i.delay, i.current)
    }

    fn port(i: &Input, random: &mut Random) -> Called<bool> {
        port::is_due(random, i.header, i.delay, i.current)
    }

    fn class(i: &Input, due: &bool) -> &'static str {
        let before = Epoch { index: i.current.index.wrapping_sub(1), ..i.current };
        match due {
            true if document::is_due(i.header, i.delay, before) == Document::Value(false) => "just due",
            true => "due",
            false => "not due",
        }
    }

    fn show_input(i: &Input) -> String {
        format!("{} {} {}", i.header, i.delay, i.current)
    }

    fn show_value(due: &bool) -> String {
        u8::from(*due).to_string()
    }
}

/// The current epoch moved to header + delay: exactly there where its length allows, else to a neighbour; and often
/// one unit off. Epochs that do not fit stay as they are.
fn beside(input: Input, random: &mut Random) -> Input {
    let Input { header: h, delay: d, mut current } = input;
    let fits = |e: Epoch| e.number <= 0xff_ffff && e.index <= 0xffff && (1..=0xffff).contains(&e.length);
    if !fits(h) || !fits(d) {
        return input;
    }
    current.length = match random.below(5) {
        0 if h.length * d.length <= 0xffff => h.length * d.length,
        0 | 1 => h.length,
        2 => d.length,
        _ => current.length.clamp(1, 0xffff),
    };
    // The sum in units of the current length, rounded down.
    let wide = |e: Epoch| u128::from(e.number) * u128::from(e.length) + u128::from(e.index);
    let sum = wide(h) * u128::from(d.length) + wide(d) * u128::from(h.length);
    let units = (sum * u128::from(current.length) / u128::from(h.length * d.length)) as u64;
    let units = (units + random.below(3)).saturating_sub(1);
    // Some of the whole part may stand in the index.
    let whole = (units / current.length).saturating_sub(random.below(3)).min(0xff_ffff);
    current.number = whole;
    current.index = (units - whole * current.length).min(0xffff);
    Input { current, ..input }
}
