//! The two hashes of messages. Document 01, module 1. The Rust's side is the sliced `HashAlgorithm::hash` over
//! blake2b_simd and sha2; document 01's is a second implementation of each.

use super::{hex, Kind};
use crate::document::{self, Document};
use crate::port::{self, Called};
use crate::random::Random;
use crate::reference::calls::{self, Rust};

pub struct Ckb;
pub struct Sha256;

type Message = Vec<u8>;

/// Lengths at the ends of blocks of 64 and 128 bytes and of their paddings, and a few short ones.
const LENGTHS: [usize; 26] = [
    0, 1, 2, 3, 8, 20, 32, 33, 55, 56, 57, 63, 64, 65, 111, 112, 119, 120, 121, 127, 128, 129, 183, 184, 192,
    256,
];

fn edges() -> Vec<Message> {
    let mut edges = vec![vec![], b"abc".to_vec()];
    edges.extend(LENGTHS.map(|length| (0..length).map(|i| i as u8).collect()));
    edges
}

/// Every length up to 1,100, filled in three ways.
const GRID: u64 = 1101 * 3;

fn grid(place: u64) -> Message {
    let length = (place / 3) as usize;
    match place % 3 {
        0 => vec![0; length],
        1 => vec![0xff; length],
        _ => (0..length).map(|i| (i * 7 + i / 256) as u8).collect(),
    }
}

fn random_of(random: &mut Random, length: u64) -> Message {
    let mut message = vec![0; length as usize];
    random.fill(&mut message);
    message
}

fn random(random: &mut Random) -> Message {
    let length = match random.below(64) {
        0..=31 => random.below(300),
        32..=47 => {
            let blocks = 64 * (1 + random.below(8));
            random.near(blocks)
        }
        48..=62 => random.below(2048),
        _ => random.of_width(15),
    };
    random_of(random, length)
}

fn short(random: &mut Random) -> Message {
    let length = random.below(40);
    random_of(random, length)
}

/// What both kinds share; they differ in the functions called.
macro_rules! hash_kind {
    ($kind:ident, $name:literal, $about:literal, $export:literal, $port:ident, $function:ident) => {
        impl Kind for $kind {
            type Input = Message;
            type Value = [u8; 32];

            const NAME: &'static str = $name;
            const ABOUT: &'static str = $about;
            const EXPORT: &'static str = $export;
            const DUMP_LINES: usize = 56;
            // The call has a status by convention alone, and no answer buffer.
            const DUMP_FRONT: &'static str = "0";

            fn edges() -> Vec<Message> {
                edges()
            }
            fn grid_size() -> u64 {
                GRID
            }
            fn grid(place: u64) -> Message {
                grid(place)
            }
            fn random(generator: &mut Random) -> Message {
                random(generator)
            }
            fn random_for_dump(generator: &mut Random) -> Message {
                short(generator)
            }
            fn document(message: &Message) -> Document<[u8; 32]> {
                Document::Value(document::$function(message))
            }
            fn rust(message: &Message) -> Rust<[u8; 32]> {
                Rust::Value(calls::$function(message))
            }
            fn port(message: &Message, random: &mut Random) -> Called<[u8; 32]> {
                port::hash(random, port::$port, message)
            }
            fn dump_output(_: &Message) -> usize {
                32
            }
            fn show_input(message: &Message) -> String {
                hex(message)
            }
            fn show_value(digest: &[u8; 32]) -> String {
                format!(": {}", hex(digest))
            }
        }
    };
}

hash_kind!(Ckb, "ckb", "CKB's hash of a message", "fiber_settlement_ckb_hash", CKB_HASH, ckb_hash);
hash_kind!(Sha256, "sha256", "SHA-256 of a message", "fiber_settlement_sha256", SHA256, sha256);
