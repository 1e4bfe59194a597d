//! `append` and `walk`: a journal of settlements. Change request W2. The Rust has no journal: two sides, the request's
//! words and the port.

mod made;
mod situations;

use super::{hex, Kind};
use crate::document::journal::{self, Appended, Journal, Settled, ENTRY, MOST};
use crate::document::Document;
use crate::port::{self, halves, Called};
use crate::random::Random;
use crate::reference::calls::Rust;
use made::{some_journal, some_settled, JOURNALS};

pub use made::{whole, LARGE};

/// An append.
pub struct Append;

#[derive(Clone)]
pub struct Addition {
    pub journal: Journal,
    pub new: Settled,
}

/// A walk.
pub struct Walk;

#[derive(Clone)]
pub struct Reading {
    pub journal: Journal,
    pub output: usize,
}

const WORDS: &str = "request W2";

/// By the entries of the journal that was taken.
fn class(journal: &Journal) -> &'static str {
    match journal.length as usize / ENTRY {
        0 => "no entries",
        1 => "one entry",
        2..=9 => "2 to 9 entries",
        10..=999 => "10 to 999 entries",
        _ => "65,534 to 65,537 entries",
    }
}

/// Bytes as a line has them; a journal that is too long for one is told by its beginning.
fn told(bytes: &[u8]) -> String {
    match bytes.len() {
        0..=20_000 => hex(bytes),
        length => format!("{}.. ({length} bytes)", hex(&bytes[..ENTRY])),
    }
}

/// Short enough for the dump, whose programs have buffers of 1,024 bytes.
fn is_short(journal: &Journal) -> bool {
    journal.slice.len() <= 400
}

fn until<T>(random: &mut Random, some: fn(&mut Random) -> T, fits: impl Fn(&T) -> bool) -> T {
    loop {
        let one = some(random);
        if fits(&one) {
            return one;
        }
    }
}

/// Lengths of the channel id tried by the grid, each with a whole journal and with a broken one.
const CHANNELS: u64 = 71;

impl Kind for Append {
    type Input = Addition;
    type Value = Appended;

    const NAME: &'static str = "append";
    const ABOUT: &'static str = "an entry appended to a journal of settlements";
    const EXPORT: &'static str = "fiber_journal_append";
    const WORDS: &'static str = WORDS;
    const IN_RUST: bool = false;
    const DUMP_LINES: usize = 44;
    const DUMP_ROWS: bool = true;

    fn edges() -> Vec<Addition> {
        let new = |place| made::settled(place, 32);
        let mut edges: Vec<Addition> = made::edges()
            .into_iter()
            .enumerate()
            .map(|(place, journal)| Addition { journal, new: new(place) })
            .collect();
        let whole = made::whole(2, 100);
        for length in [0, 31, 33, 64] {
            edges.push(Addition { journal: whole.clone(), new: made::settled(length, length) });
        }
        let broken = Journal { length: 123, ..whole };
        edges.push(Addition { journal: broken, new: made::settled(0, 31) });
        edges
    }

    fn grid_size() -> u64 {
        JOURNALS + 2 * CHANNELS
    }

    fn grid(place: u64) -> Addition {
        if place < JOURNALS {
            return Addition { journal: made::journal(place), new: made::settled(place as usize, 32) };
        }
        let place = (place - JOURNALS) as usize;
        let mut journal = made::whole(1 + place % 3, 62);
        journal.length -= (place % 2) as u64;
        Addition { journal, new: made::settled(place, place / 2) }
    }

    fn random(random: &mut Random) -> Addition {
        Addition { journal: some_journal(random), new: some_settled(random) }
    }

    fn random_for_dump(random: &mut Random) -> Addition {
        until(random, Self::random, |i| is_short(&i.journal))
    }

    fn document(i: &Addition) -> Document<Appended> {
        journal::append(&i.journal, &i.new)
    }

    fn rust(_: &Addition) -> Rust<Appended> {
        unreachable!("the Rust has no journal")
    }

    fn port(i: &Addition, random: &mut Random) -> Called<Appended> {
        port::append(random, port::JOURNAL_APPEND, &i.journal, &i.new)
    }

    fn class(i: &Addition, _: &Appended) -> &'static str {
        class(&i.journal)
    }

    fn situations(i: &Addition, document: &Document<Appended>) -> Vec<&'static str> {
        situations::of_append(i, document)
    }

    fn dump_output(i: &Addition) -> usize {
        i.journal.slice.len()
    }

    /// The slice by the journal's bytes, as many as there are of them: no answer depends on those behind.
    fn show_input(i: &Addition) -> String {
        let (low, high) = halves(i.new.amount);
        let bytes = i.journal.bytes().unwrap_or(&i.journal.slice);
        format!(
            "{} {} {} {low} {high} {} {}",
            i.journal.length,
            i.new.unlock,
            i.new.flag,
            told(bytes),
            hex(&i.new.channel)
        )
    }

    fn show_value(value: &Appended) -> String {
        format!("{} : {}", value.length, hex(&value.entry))
    }
}

impl Kind for Walk {
    type Input = Reading;
    /// What was written.
    type Value = Vec<u8>;

    const NAME: &'static str = "walk";
    const ABOUT: &'static str = "a journal of settlements read, newest entry first";
    const EXPORT: &'static str = "fiber_journal_walk";
    const WORDS: &'static str = WORDS;
    const IN_RUST: bool = false;
    const DUMP_LINES: usize = 40;
    const DUMP_ROWS: bool = true;

    fn edges() -> Vec<Reading> {
        let mut edges = vec![];
        for (place, journal) in made::edges().into_iter().enumerate() {
            let length = journal.bytes().map_or(100, <[u8]>::len);
            edges.push(Reading { journal: journal.clone(), output: length + place % 2 * 100 });
            if [1, 3].contains(&place) {
                edges.push(Reading { journal: journal.clone(), output: length - 1 });
                edges.push(Reading { journal, output: 0 });
            }
        }
        edges
    }

    fn grid_size() -> u64 {
        JOURNALS
    }

    fn grid(place: u64) -> Reading {
        let journal = made::journal(place);
        let length = journal.bytes().map_or(100, <[u8]>::len);
        let output = [length, length.saturating_sub(1), length + 70][(place % 3) as usize];
        Reading { journal, output }
    }

    fn random(random: &mut Random) -> Reading {
        let journal = some_journal(random);
        let length = journal.bytes().map_or(journal.slice.len(), <[u8]>::len);
        let output = match random.below(8) {
            0 => length.saturating_sub(1),
            1 => random.below(length as u64) as usize,
            2 | 3 => length,
            _ => length + 1 + random.below(100) as usize,
        };
        Reading { journal, output }
    }

    fn random_for_dump(random: &mut Random) -> Reading {
        until(random, Self::random, |i| is_short(&i.journal))
    }

    fn document(i: &Reading) -> Document<Vec<u8>> {
        journal::walk(&i.journal, i.output)
    }

    fn rust(_: &Reading) -> Rust<Vec<u8>> {
        unreachable!("the Rust has no journal")
    }

    fn port(i: &Reading, random: &mut Random) -> Called<Vec<u8>> {
        port::walk(random, port::JOURNAL_WALK, &i.journal, i.output)
    }

    fn class(i: &Reading, _: &Vec<u8>) -> &'static str {
        class(&i.journal)
    }

    fn situations(i: &Reading, document: &Document<Vec<u8>>) -> Vec<&'static str> {
        situations::of_walk(i, document)
    }

    fn dump_output(i: &Reading) -> usize {
        i.output
    }

    fn show_input(i: &Reading) -> String {
        format!("{} {}", i.journal.length, told(&i.journal.slice))
    }

    fn show_value(written: &Vec<u8>) -> String {
        format!("{} : {}", written.len(), told(written))
    }
}

/// The entries of a journal whose length is whole.
fn entries(journal: &Journal) -> usize {
    journal.length as usize / ENTRY
}

/// So many that an append is turned away.
fn is_full(journal: &Journal) -> bool {
    entries(journal) >= MOST
}
