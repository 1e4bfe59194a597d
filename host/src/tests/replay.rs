//! A fixed list of the reference's own answers, and for the journal, which it does not have, of those that the request's
//! words give, through the functions of c.rs. Its top tells what a line has.

use std::fs;
use std::path::Path;

use crate::c::{self, Code, FirstState};
use crate::choose::Fields;
use crate::layout as l;
use crate::{Key, Unlocked, Way};

/// The inputs of a line, in order.
struct Inputs<'a>(std::str::Split<'a, char>);

impl Inputs<'_> {
    fn number(&mut self) -> u64 {
        self.0.next().expect("a field").parse().expect("a number")
    }

    fn byte(&mut self) -> u8 {
        self.number().try_into().expect("a byte")
    }

    fn epoch(&mut self) -> c::Parts {
        [(); 3].map(|()| self.number())
    }

    /// Low half, high half.
    fn amount(&mut self) -> u128 {
        u128::from(self.number()) | u128::from(self.number()) << 64
    }

    /// A byte string, whose first letter is its mark.
    fn bytes(&mut self) -> Vec<u8> {
        let digits = self.0.next().expect("a field").strip_prefix('x').expect("a byte string");
        let byte = |at: usize| u8::from_str_radix(&digits[at..at + 2], 16).expect("hex");
        (0..digits.len()).step_by(2).map(byte).collect()
    }
}

fn hex(bytes: &[u8]) -> String {
    bytes.iter().fold("x".to_string(), |text, byte| text + &format!("{byte:02x}"))
}

fn numbers(numbers: &[u64]) -> String {
    numbers.iter().map(|number| format!(" {number}")).collect()
}

/// An output of a line's length with guards behind it, and what a call says to it. What the call did not write stays.
fn with_output(
    length: usize,
    call: impl FnOnce(&mut [u8]) -> Result<(String, usize), Code>,
) -> Result<String, Code> {
    let mut out = vec![0x55; length + 10];
    let told = call(&mut out[..length]);
    let written = told.as_ref().map_or(0, |(_, written)| *written);
    assert!(out[written..].iter().all(|byte| *byte == 0x55));
    told.map(|(text, written)| format!("0 0 0{text} : {}", hex(&out[..written])))
}

/// What a call that writes a length and as many bytes says.
fn written(length: usize, call: impl FnOnce(&mut [u8]) -> Result<usize, Code>) -> Result<String, Code> {
    with_output(length, |out| call(out).map(|written| (numbers(&[written as u64]), written)))
}

fn first(input: &mut Inputs, length: usize) -> Result<String, Code> {
    let (h, for_remote) = (input.number(), input.byte());
    let (local_amount, remote_amount) = (input.amount(), input.amount());
    let [tlcs, local_key, remote_key] = [(); 3].map(|()| input.bytes());
    let (tlcs, local_key, remote_key) = (&tlcs, &local_key, &remote_key);
    let of = FirstState { h, for_remote, local_amount, remote_amount, tlcs, local_key, remote_key };
    written(length, |out| c::first_state(&of, out))
}

/// The output is the journal's slice: it begins with the journal, and what is told was written behind it.
fn append(input: &mut Inputs, size: usize) -> Result<String, Code> {
    let (length, unlock, flag, amount) = (input.number(), input.byte(), input.byte(), input.amount());
    let [journal, channel] = [(); 2].map(|()| input.bytes());
    let mut slice = [&journal[..], &vec![0x55; size + 10 - journal.len()]].concat();
    let entry = c::Entry { channel: &channel, unlock, flag, amount };
    let told = c::journal_append(&mut slice[..size], length, &entry);
    let end = *told.as_ref().unwrap_or(&journal.len());
    assert!(slice.starts_with(&journal) && slice[end..].iter().all(|byte| *byte == 0x55));
    told.map(|end| format!("0 0 0{} : {}", numbers(&[end as u64]), hex(&slice[journal.len()..end])))
}

fn pick(input: &mut Inputs, length: usize) -> Result<String, Code> {
    let (h, for_remote, is_later, time) = (input.number(), input.byte(), input.byte(), input.number());
    let (header, current) = (input.epoch(), input.epoch());
    let (local_amount, remote_amount) = (input.amount(), input.amount());
    let [args, tlcs, local_key, remote_key, tracked, preimages, witness] = [(); 7].map(|()| input.bytes());
    let (tlcs, local_key, remote_key) = (&tlcs, &local_key, &remote_key);
    let first = FirstState { h, for_remote, local_amount, remote_amount, tlcs, local_key, remote_key };
    let (args, tracked, preimages, witness) = (&args[..], &tracked[..], &preimages[..], &witness[..]);
    let of = c::Choose { first, is_later, time, header, current, args, tracked, preimages, witness };
    with_output(length, |out| {
        let fields = Fields(c::choose(&of, out)?);
        Ok(as_told(&fields, if is_later == 1 { witness } else { tracked }, out, for_remote))
    })
}

/// A choice as a line tells it, and how much was written.
fn as_told(fields: &Fields, lent: &[u8], out: &[u8], for_remote: u8) -> (String, usize) {
    let unlocks = fields.unlocks().expect("a kind");
    let (kind, byte, pair) = match unlocks {
        Unlocked::OurShare if for_remote == 1 => (l::SHARE, l::UNLOCK_LOCAL.into(), 0),
        Unlocked::OurShare => (l::SHARE, l::UNLOCK_REMOTE.into(), 0),
        Unlocked::Tlc { place, way: Way::Timeout } => (l::BY_TIMEOUT, place, 0),
        Unlocked::Tlc { place, way: Way::Preimage { pair } } => (l::BY_PREIMAGE, place, pair),
    };
    let key = match fields.key().expect("a key") {
        Key::Settlement => [0, 0],
        Key::OfTlc(place) => [1, place as u64],
    };
    let delay = match fields.delay().expect("a delay") {
        None => [0; 4],
        Some(delay) => [1, delay.number().into(), delay.index().into(), delay.length().into()],
    };
    let joined = fields.joined(out).expect("three parts");
    assert_eq!(usize::from(joined[0][0]), byte, "the unlock's byte");
    let lengths = joined.map(|part| part.len());
    // The record is a part of what was lent, by its address; for a share it is empty.
    let record = fields.record(lent).expect("a record");
    let place = record.as_ptr() as usize - lent.as_ptr() as usize;
    let amount = fields.amount();
    let mut told = vec![kind, byte as u64, amount as u64, (amount >> 64) as u64];
    told.extend(key);
    told.extend(delay);
    told.extend([place, record.len()].map(|number| number as u64));
    told.extend(lengths.map(|number| number as u64));
    told.push(pair as u64);
    told.push(fields.last().expect("a flag").into());
    (numbers(&told), lengths.iter().sum())
}

/// What this crate says to a line's input.
fn answer(kind: &str, input: &mut Inputs) -> Result<String, Code> {
    let length = input.number() as usize;
    Ok(match kind {
        "mul" => format!("0 0 0{}", numbers(&c::scale(input.epoch(), input.number(), input.number())?)),
        "due" => format!("0 0 0 {}", c::is_due(input.epoch(), input.epoch(), input.epoch())?),
        "expiry" => c::expiry(input.number())?.map_or("0 0 0 0 0".to_string(), |ms| format!("0 0 0 1 {ms}")),
        "key" => format!("0 0 0 {}", hex(&c::key_hash(&input.bytes())?)),
        "ckb" => format!("0 : {}", hex(&c::ckb_hash(&input.bytes()))),
        "sha256" => format!("0 : {}", hex(&c::sha256(&input.bytes()))),
        "read" => {
            let found = c::read(input.number(), &input.bytes())?;
            let places = [l::READ_TLCS, l::READ_UNLOCK_COUNT, l::READ_SHARE_PLACE, l::READ_FIRST_UNLOCK];
            format!("0 0 0{}", numbers(&places.map(|at| found.number(at))))
        }
        "update" => {
            let (h, witness) = (input.number(), input.bytes());
            return written(length, |out| c::update(h, &witness, out));
        }
        "first" => return first(input, length),
        "pick" => return pick(input, length),
        "append" => return append(input, length),
        "walk" => {
            let (of_journal, slice) = (input.number(), input.bytes());
            return written(length, |out| c::journal_walk(&slice, of_journal, out));
        }
        kind => panic!("a line of kind {kind}"),
    })
}

fn line(text: &str) {
    let (input, expected) = text.split_once(" = ").expect("an answer");
    let mut input = Inputs(input.split(' '));
    let kind = input.0.next().expect("a kind");
    let told = answer(kind, &mut input)
        .unwrap_or_else(|Code { number, place }| format!("{number} {number} {place}"));
    assert_eq!(input.0.next(), None, "{text}");
    assert_eq!(told, expected, "{text}");
}

#[test]
fn answers_of_the_reference() {
    let crates = Path::new(env!("CARGO_MANIFEST_DIR")).join("../crates");
    if !crates.is_dir() {
        eprintln!("not in the repository: the list of the reference's answers is not here");
        return;
    }
    let list = fs::read_to_string(crates.join("replay/data/oracle.txt")).expect("the list");
    let lines: Vec<&str> = list.lines().filter(|text| !text.starts_with('#')).collect();
    lines.iter().for_each(|text| line(text));
    let of = |kind: &str| lines.iter().filter(|text| text.split(' ').next() == Some(kind)).count();
    let (picks, appends, walks) = (of("pick"), of("append"), of("walk"));
    assert!(lines.len() >= 1_600 && picks >= 140, "{} lines, {picks} choices", lines.len());
    assert!(appends >= 20 && walks >= 20, "{appends} appends, {walks} walks");
}
