//! `update`: the state behind a witness's unlocks. Document 01, "Update".

use super::witness::{witness_inputs, Input};
use super::{hex, Kind};
use crate::document::{settlement, Document};
use crate::port::{self, Called};
use crate::random::Random;
use crate::reference::calls::{self, Rust};

pub struct Update;

impl Kind for Update {
    /// The new state.
    type Value = Vec<u8>;

    const NAME: &'static str = "update";
    const ABOUT: &'static str = "a witness updated";
    const EXPORT: &'static str = "fiber_settlement_update";
    witness_inputs!();

    fn document(i: &Input) -> Document<Vec<u8>> {
        settlement::update(i.h, &i.witness, i.output)
    }

    fn rust(i: &Input) -> Rust<Vec<u8>> {
        match calls::update(i.h as u8, &i.witness) {
            calls::Update::State(state) => Rust::Value(state),
            calls::Update::Unread | calls::Update::Refused => Rust::TurnedDown,
            calls::Update::Panic => Rust::Panicked(String::new()),
        }
    }

    fn port(i: &Input, random: &mut Random) -> Called<Vec<u8>> {
        port::update(random, i.h, &i.witness, i.output)
    }

    fn class(i: &Input, state: &Vec<u8>) -> &'static str {
        let size = 65 + i.h as usize;
        let n = usize::from(i.witness[1]);
        let before = &i.witness[1..2 + n * size + 72];
        match n - (state.len() - 73) / size {
            0 if before == state => "state as before",
            0 => "shares alone changed",
            1 => "one TLC settled",
            2 => "two TLCs settled",
            _ => "more TLCs settled",
        }
    }

    fn dump_output(i: &Input) -> usize {
        i.output
    }

    fn show_value(state: &Vec<u8>) -> String {
        format!("{} : {}", state.len(), hex(state))
    }
}
