//! Witnesses, whole and damaged, for the kinds `read` and `update`.

use super::digits;
use crate::random::Random;

/// h, a witness, and the length of the output buffer, which `read` has none of.
#[derive(Clone)]
pub struct Input {
    pub h: u64,
    pub witness: Vec<u8>,
    pub output: usize,
}

/// Longer than every state that the witness can leave.
fn ample(h: u64, witness: &[u8]) -> usize {
    let n = witness.get(1).copied().unwrap_or(0);
    73 + usize::from(n) * record_size(h) + 50
}

/// The size of a TLC record; for another h than 20 and 32 any.
fn record_size(h: u64) -> usize {
    if h == 32 {
        97
    } else {
        85
    }
}

fn input(h: u64, witness: Vec<u8>) -> Input {
    Input { h, output: ample(h, &witness), witness }
}

/// A state of `n` TLCs behind its count byte, every byte told by its place.
pub fn counted(h: u64, n: u8) -> Vec<u8> {
    let length = usize::from(n) * (65 + h as usize) + 72;
    let mut witness = vec![1, n];
    witness.extend((0..length).map(|i| (i * 7 + i / 256 + 1) as u8));
    witness
}

/// An unlock, with a preimage where the flag is 1, every byte told by its place.
pub fn push_unlock(witness: &mut Vec<u8>, byte: u8, flag: u8) {
    witness.extend([byte, flag]);
    witness.extend(100..if flag == 1 { 197 } else { 165 });
}

fn unlocked(h: u64, n: u8, unlocks: &[(u8, u8)]) -> Input {
    let mut witness = counted(h, n);
    for (byte, flag) in unlocks {
        push_unlock(&mut witness, *byte, *flag);
    }
    input(h, witness)
}

pub fn edges() -> Vec<Input> {
    let mut edges = vec![];
    for h in [20, 32] {
        // Document 01's marked rows.
        edges.push(input(h, vec![0; 74]));
        edges.push(input(h, vec![0; 73]));
        for unlocks in [
            &[][..],
            &[(0xff, 0)],
            &[(0xfe, 0)],
            &[(0xff, 0), (0xfe, 1), (0xff, 7)],
            &[(0, 0)],
            &[(1, 1)],
            &[(2, 0)],
            &[(0, 0), (1, 0)],
            &[(1, 0), (0, 1), (2, 0)],
            &[(2, 0), (0, 0), (0xfe, 0)],
            // Repeats, and a faulty unlock before and behind one.
            &[(0, 0), (0, 0)],
            &[(0, 0), (0, 0), (7, 0)],
            &[(7, 0), (0, 0), (0, 0)],
            &[(1, 0), (0, 0), (1, 1), (0, 0)],
        ] {
            edges.extend([0, 1, 2, 3].map(|n| unlocked(h, n, unlocks)));
        }
        for n in [253, 254, 255] {
            for byte in [0, 1, 252, 253, 254, 255] {
                edges.push(unlocked(h, n, &[(byte, 0)]));
            }
            edges.push(unlocked(h, n, &[(252, 0), (0xfe, 0), (0xff, 1), (0, 0)]));
            // The last TLC and the share part, cut short by one byte.
            let whole = counted(h, n);
            edges.push(input(h, whole[..whole.len() - 1].to_vec()));
            edges.push(input(h, whole[..whole.len() - 73].to_vec()));
        }
        // A cut unlock behind a faulty one: 4 comes first.
        for first in [[7, 0], [0, 0]] {
            let mut cut = unlocked(h, 1, &[(first[0], first[1]), (0, 0), (0, 0)]);
            cut.witness.truncate(cut.witness.len() - 1);
            edges.push(cut);
        }
        for output in [0, 72, 73, 74, 72 + 66 + h as usize, 73 + 65 + h as usize] {
            edges.push(Input { output, ..unlocked(h, 0, &[]) });
            edges.push(Input { output, ..unlocked(h, 1, &[]) });
            edges.push(Input { output, ..unlocked(h, 1, &[(0, 0)]) });
        }
    }
    for h in [0, 1, 19, 21, 31, 33, 255, 256 + 20, u64::MAX] {
        edges.push(Input { h, ..unlocked(20, 0, &[]) });
        edges.push(input(h, vec![]));
    }
    edges
}

/// Every length up to 640, in four counts and three fillings behind the shares; then every unlock byte and flag.
const LENGTHS: u64 = 2 * 4 * 3 * 641;
const BYTES: u64 = 2 * 3 * 2 * 2 * 256;
pub const GRID: u64 = LENGTHS + BYTES;

pub fn grid(place: u64) -> Input {
    let of = |h: u64| if h == 0 { 20 } else { 32 };
    if place < LENGTHS {
        let mut next = digits(place);
        let (h, n, filling, length) = (of(next(2)), next(4) as u8, next(3), next(641) as usize);
        let mut witness = counted(h, n);
        witness.resize(640, [0, 1, 0xff][filling as usize]);
        witness.truncate(length);
        return input(h, witness);
    }
    let mut next = digits(place - LENGTHS);
    let (h, n, is_flag, more, value) =
        (of(next(2)), [0, 1, 3][next(3) as usize], next(2), next(2), next(256) as u8);
    let mut grid = unlocked(h, n, &[if is_flag == 1 { (0xff, value) } else { (value, 2 * more as u8 + 1) }]);
    if more == 1 {
        push_unlock(&mut grid.witness, 0xfe, 0);
    }
    grid
}

/// Short enough for the dump: whoever replays it has small buffers.
fn is_short(input: &Input) -> bool {
    input.witness.len() <= 340 && input.output <= 1000
}

pub fn edges_for_dump() -> Vec<Input> {
    edges().into_iter().filter(is_short).collect()
}

pub fn random_for_dump(random: &mut Random) -> Input {
    loop {
        let input = self::random(random);
        if is_short(&input) {
            return input;
        }
    }
}

/// A number of TLCs: mostly few, seldom at the limit of a byte.
pub fn some_count(random: &mut Random) -> u8 {
    match random.below(400) {
        0 => random.pick(&[253, 254, 255]),
        1..=3 => 16 + random.below(8) as u8,
        _ => random.pick(&[0, 1, 1, 2, 2, 3, 4, 5]),
    }
}

/// Damages bytes in one way: cut, flipped, appended, another n.
pub fn damage(random: &mut Random, witness: &mut Vec<u8>, ends: &[usize]) {
    let length = witness.len() as u64;
    match random.below(7) {
        0 => witness.truncate(random.below(length + 1) as usize),
        1 | 2 => {
            let end = random.pick(ends) as u64;
            witness.resize(random.near(end) as usize, 0);
        }
        3 => {
            let more = 1 + random.below(120);
            for _ in 0..more {
                witness.push(random.pick(&[0, 1, 0xfe, 0xff]));
            }
        }
        4 if length > 1 => witness[1] = random.near(witness[1].into()) as u8,
        _ if length > 0 => {
            // Every bit alike, the bytes behind the state more often.
            let at = if random.one_in(2) {
                length - 1 - random.below(length.min(200))
            } else {
                random.below(length)
            };
            witness[at as usize] ^= 1 << random.below(8);
        }
        _ => {}
    }
}

pub fn random(random: &mut Random) -> Input {
    let h = match random.below(60) {
        0 => random.pick(&[0, 1, 19, 21, 31, 33, 40, 64, 255, 256, 276, 288, 1 << 32 | 20, u64::MAX]),
        _ => random.pick(&[20, 32]),
    };
    let size = record_size(h);
    let n = some_count(random);
    let mut witness = vec![0; 2 + usize::from(n) * size + 72];
    random.fill(&mut witness);
    witness[1] = n;
    let mut ends = vec![0, 1, 2, 2 + usize::from(n) * size, witness.len()];
    let mut free: Vec<u8> = (0..n.min(254)).collect();
    for _ in 0..random.pick(&[0, 1, 1, 2, 2, 3, 4, 6]) {
        let byte = match random.below(40) {
            0 => n,
            1 => n.saturating_add(1),
            2 => random.below(256) as u8,
            3 => random.below(n.into()) as u8,
            4..=7 => 0xfe,
            8..=11 => 0xff,
            _ if free.is_empty() => random.pick(&[0xfe, 0xff]),
            _ => free.swap_remove(random.below(free.len() as u64) as usize),
        };
        let flag = match random.below(8) {
            0 => random.below(256) as u8,
            1 => random.pick(&[2, 3, 0x81, 0xff]),
            2..=4 => 1,
            _ => 0,
        };
        let from = witness.len();
        witness.resize(from + if flag == 1 { 99 } else { 67 }, 0);
        random.fill(&mut witness[from..]);
        witness[from..from + 2].copy_from_slice(&[byte, flag]);
        ends.extend([from + 67, from + 99, witness.len()]);
    }
    if random.one_in(3) {
        damage(random, &mut witness, &ends);
    }
    let settled = random.below(2) as usize;
    let state = 73 + (usize::from(n).saturating_sub(settled)) * size;
    let output = match random.below(10) {
        0 => random.near(state as u64) as usize,
        1 => random.below(state as u64) as usize,
        2 => ample(h, &witness) + random.below(5000) as usize,
        _ => ample(h, &witness),
    };
    Input { h, witness, output }
}

/// What the kinds `read` and `update` share: their inputs, and how many lines of the dump have them.
macro_rules! witness_inputs {
    () => {
        type Input = Input;

        const DUMP_LINES: usize = 200;
        const DUMP_ROWS: bool = true;

        fn edges() -> Vec<Input> {
            super::witness::edges()
        }
        fn grid_size() -> u64 {
            super::witness::GRID
        }
        fn grid(place: u64) -> Input {
            super::witness::grid(place)
        }
        fn random(random: &mut Random) -> Input {
            super::witness::random(random)
        }
        fn edges_for_dump() -> Vec<Input> {
            super::witness::edges_for_dump()
        }
        fn random_for_dump(random: &mut Random) -> Input {
            super::witness::random_for_dump(random)
        }
        fn show_input(i: &Input) -> String {
            format!("{} {}", i.h, super::hex(&i.witness))
        }
    };
}
pub(super) use witness_inputs;
