//! `read`: the reader's answer to a witness. Document 01, modules 5 and 6.

use super::witness::{witness_inputs, Input};
use super::Kind;
use crate::document::settlement::{self, Read};
use crate::document::Document;
use crate::port::{self, Called};
use crate::random::Random;
use crate::reference::calls::{self, Rust};

pub struct Reader;

impl Kind for Reader {
    type Value = Read;

    const NAME: &'static str = "read";
    const ABOUT: &'static str = "a witness read";
    const EXPORT: &'static str = "fiber_settlement_read";
    witness_inputs!();

    fn document(i: &Input) -> Document<Read> {
        settlement::read(i.h, &i.witness)
    }

    /// The Rust tells no places: they follow from the state that it writes back, which begins behind the count byte.
    fn rust(i: &Input) -> Rust<Read> {
        match calls::read(i.h as u8, &i.witness) {
            None => Rust::TurnedDown,
            Some(read) => Rust::Value(Read {
                n: read.n,
                unlock_count: read.unlock_count,
                share_place: (1 + read.written.len()).saturating_sub(72),
                first_unlock: 1 + read.written.len(),
            }),
        }
    }

    fn further(i: &Input) -> Result<(), &'static str> {
        let rust = calls::read(i.h as u8, &i.witness).zip(calls::unlocks(i.h as u8, &i.witness));
        let rust = rust.map(|(read, unlocks)| (read.written, unlocks));
        if rust != settlement::written_back(i.h, &i.witness) {
            return Err("the Rust writes other bytes back than document 01");
        }
        Ok(())
    }

    fn port(i: &Input, random: &mut Random) -> Called<Read> {
        port::read(random, i.h, &i.witness)
    }

    fn class(_: &Input, read: &Read) -> &'static str {
        match (read.n, read.unlock_count) {
            (253.., _) => "n 253 to 255",
            (0, 0) => "n 0, no unlocks",
            (0, _) => "n 0, unlocks",
            (_, 0) => "TLCs, no unlocks",
            _ => "TLCs, unlocks",
        }
    }

    fn show_value(read: &Read) -> String {
        format!("{} {} {} {}", read.n, read.unlock_count, read.share_place, read.first_unlock)
    }
}
