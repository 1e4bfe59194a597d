//! Key hashes. Document 01, module 1.

use super::{hex, Kind};
use crate::document::{self, Document};
use crate::port::{self, Called};
use crate::random::Random;
use crate::reference::calls::{self, Rust};

pub struct Key;

impl Kind for Key {
    type Input = Vec<u8>;
    type Value = [u8; 20];

    const NAME: &'static str = "key";
    const ABOUT: &'static str = "the hash of a public key";
    const EXPORT: &'static str = "fiber_settlement_key_hash";
    const DUMP_LINES: usize = 60;

    fn edges() -> Vec<Vec<u8>> {
        let mut edges: Vec<Vec<u8>> = [0x00, 0x02, 0x03, 0x80, 0xff].map(|byte| vec![byte; 33]).into();
        edges.push((0..33).collect());
        edges.push((0..33).rev().collect());
        // One bit set.
        edges.extend((0..33).step_by(4).map(|at| {
            let mut key = vec![0; 33];
            key[at] = 1 << (at % 8);
            key
        }));
        edges
    }

    /// Every length from 0 to 70, filled in four ways.
    fn grid_size() -> u64 {
        71 * 4
    }

    fn grid(place: u64) -> Vec<u8> {
        let fill = [0x00, 0xff, 0x02, 0x61][(place % 4) as usize];
        vec![fill; (place / 4) as usize]
    }

    fn random(random: &mut Random) -> Vec<u8> {
        let length = if random.one_in(8) { random.below(71) } else { 33 };
        let mut key = vec![0; length as usize];
        random.fill(&mut key);
        if let (false, Some(first)) = (random.one_in(4), key.first_mut()) {
            *first = 2 + *first % 2;
        }
        key
    }

    fn document(key: &Vec<u8>) -> Document<[u8; 20]> {
        document::key_hash(key)
    }

    fn rust(key: &Vec<u8>) -> Rust<[u8; 20]> {
        let hashes = calls::key_hashes(key[..].try_into().expect("33 bytes, or document 01 turns it down"));
        match hashes.iter().all(|hash| *hash == hashes[0]) {
            true => Rust::Value(hashes[0]),
            false => Rust::Panicked(format!("the text hashes one key in different ways: {hashes:?}")),
        }
    }

    fn port(key: &Vec<u8>, random: &mut Random) -> Called<[u8; 20]> {
        port::key_hash(random, key)
    }

    fn show_input(key: &Vec<u8>) -> String {
        hex(key)
    }

    fn show_value(hash: &[u8; 20]) -> String {
        hex(hash)
    }
}
