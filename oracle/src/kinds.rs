//! The kinds of cases that can be compared. A new kind implements `Kind` in a file of its own and gets a line in
//! `TABLE`; its export is declared in port.rs.

use crate::document::{Document, Epoch, Row};
use crate::port::Called;
use crate::random::Random;
use crate::reference::calls::Rust;
use crate::run::{self, Options, Tally};
use std::collections::BTreeSet;
use waits::Waits;

pub mod chain;
pub mod choice;
mod due;
mod expiry;
pub mod first;
mod hash;
pub mod journal;
mod key;
mod mul;
mod read;
pub mod settlement;
mod update;
pub mod waits;
pub mod witness;

/// One operation, on three sides: document 01, the Rust, the port; on two where the Rust has no such operation.
///
/// Its cases are numbered: first `edges`, then `grid`, then random ones without end. Case and seed determine the
/// input.
pub trait Kind {
    type Input: Clone;
    type Value: PartialEq;

    const NAME: &'static str;
    const ABOUT: &'static str;
    /// The export it calls.
    const EXPORT: &'static str;
    /// Whose words the side of the document is written from.
    const WORDS: &'static str = "document 01";
    /// Has the Rust such an operation? Where it has not, `rust` is never asked, and the dump tells the document's answers.
    const IN_RUST: bool = true;
    /// How many lines of the dump are its own.
    const DUMP_LINES: usize;
    /// Does the dump tell document 01's rows outside the equality too? The Rust is not asked there.
    const DUMP_ROWS: bool = false;
    /// How many of them at most tell one class of values, or one row.
    const DUMP_ALIKE: usize = usize::MAX;
    /// What its lines of the dump begin with. Of the kinds that have lines no two begin alike.
    const DUMP_NAME: &'static str = Self::NAME;
    /// What the dump tells of a value before its fields: the status, and of the answer buffer number and place.
    const DUMP_FRONT: &'static str = "0 0 0";

    /// Inputs picked by hand, the most telling first.
    fn edges() -> Vec<Self::Input>;
    /// A short range taken whole: how many inputs, and which.
    fn grid_size() -> u64;
    fn grid(place: u64) -> Self::Input;
    fn random(random: &mut Random) -> Self::Input;
    /// For the dump, where short inputs are wanted.
    fn edges_for_dump() -> Vec<Self::Input> {
        Self::edges()
    }
    fn random_for_dump(random: &mut Random) -> Self::Input {
        Self::random(random)
    }

    /// More lines of the dump, behind all others of the kind.
    fn picked_for_dump() -> Vec<Self::Input> {
        vec![]
    }

    fn document(input: &Self::Input) -> Document<Self::Value>;
    /// Asked only where document 01 says that the two are equal, and not where `not_shown` holds.
    fn rust(input: &Self::Input) -> Rust<Self::Value>;
    /// Is it asked?
    fn with_rust(input: &Self::Input, document: &Document<Self::Value>) -> bool {
        Self::IN_RUST && document.inside() && !Self::not_shown(input)
    }
    /// Does the text hand ckb-types something here that no document at hand speaks about? Then the Rust is not
    /// asked, though document 01 has the case inside the equality.
    fn not_shown(_input: &Self::Input) -> bool {
        false
    }
    fn port(input: &Self::Input, random: &mut Random) -> Called<Self::Value>;
    /// What else the Rust does that document 01 speaks about and the port does not answer. Asked as `rust` is.
    fn further(_input: &Self::Input) -> Result<(), &'static str> {
        Ok(())
    }

    /// What kind of value it is, counted by the comparison.
    fn class(_input: &Self::Input, _value: &Self::Value) -> &'static str {
        "values"
    }

    /// What else is told apart in a case, counted by the comparison.
    fn situations(_input: &Self::Input, _document: &Document<Self::Value>) -> Vec<&'static str> {
        vec![]
    }

    /// Counts a row that is a wait of the walk.
    fn count_wait(_input: &Self::Input, _row: &Row, _waits: &mut Waits) {}

    /// The length of the output buffer that the dump lends; 0 where the call has none.
    fn dump_output(_input: &Self::Input) -> usize {
        0
    }
    /// As in the dump: what the call over C is handed, in its order, the numbers before the byte strings.
    fn show_input(input: &Self::Input) -> String;
    /// As in the dump: the answer's fields; where bytes go to an output buffer, `:` and these.
    fn show_value(value: &Self::Value) -> String;
}

/// A kind as the command line sees it.
pub struct Entry {
    pub name: &'static str,
    pub about: &'static str,
    pub export: &'static str,
    pub compare: fn(&Options) -> Tally,
    pub one: fn(u64, u64, bool) -> bool,
    pub dump: fn(u64) -> Vec<String>,
    pub reached: fn(u64) -> BTreeSet<String>,
}

const fn entry<K: Kind>() -> Entry {
    Entry {
        name: K::NAME,
        about: K::ABOUT,
        export: K::EXPORT,
        compare: run::compare::<K>,
        one: run::one::<K>,
        dump: run::dump::<K>,
        reached: run::reached::<K>,
    }
}

pub const TABLE: &[Entry] = &[
    entry::<mul::Mul>(),
    entry::<due::Due>(),
    entry::<expiry::Expiry>(),
    entry::<key::Key>(),
    entry::<hash::Ckb>(),
    entry::<hash::Sha256>(),
    entry::<read::Reader>(),
    entry::<update::Update>(),
    entry::<chain::Chain>(),
    entry::<first::Record>(),
    entry::<first::First>(),
    entry::<choice::Choice>(),
    entry::<journal::Append>(),
    entry::<journal::Walk>(),
];

// ---- Inputs that several kinds draw ----

/// Numbers at and beyond the limits of 24, 16, 32 and 64 bits, and small ones.
const LIMITS: &[u64] = &[
    0,
    1,
    2,
    3,
    0xfffe,
    0xffff,
    0x1_0000,
    0x1_0001,
    0xff_fffe,
    0xff_ffff,
    0x100_0000,
    0x100_0001,
    0xffff_ffff,
    0x1_0000_0000,
    u64::MAX - 1,
    u64::MAX,
];

/// Cuts a number into digits, the bound of each given when it is asked for.
fn digits(mut number: u64) -> impl FnMut(u64) -> u64 {
    move |bound| {
        let digit = number % bound;
        number /= bound;
        digit
    }
}

fn epoch(number: u64, index: u64, length: u64) -> Epoch {
    Epoch { number, index, length }
}

/// An epoch whose fields mostly fit. Its length is 0 at times, its index often above it.
fn any_epoch(random: &mut Random) -> Epoch {
    let number = match random.below(8) {
        0 => random.pick(&[0, 1, 0xff_fffe, 0xff_ffff]),
        1..=3 => random.of_width(12),
        _ => random.of_width(24),
    };
    let length = match random.below(10) {
        0 => random.pick(&[0, 1, 2, 3, 0xfffe, 0xffff]),
        1 => random.near(600),
        2 => random.near(900),
        3 => random.near(1800),
        4..=6 => 1 + random.below(1800),
        _ => random.of_width(16),
    };
    let index = match random.below(6) {
        0 => random.pick(&[0, 1, 0xfffe, 0xffff]),
        1 => random.near(length).min(0xffff),
        2..=4 => random.below(length),
        _ => random.of_width(16),
    };
    let mut e = epoch(number, index, length);
    if random.one_in(12) {
        let beyond = if random.one_in(2) { random.pick(LIMITS) } else { random.of_width(64) };
        match random.below(3) {
            0 => e.number = beyond,
            1 => e.index = beyond,
            _ => e.length = beyond,
        }
    }
    e
}

/// A byte string: the letter tells it from a number.
fn hex(bytes: &[u8]) -> String {
    format!("x{}", crate::shim::hex::encode(bytes))
}
