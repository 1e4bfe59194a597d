//! Where document 01 and the Rust part, shown by running the Rust on the smallest input.

use crate::document::settlement::{Data, Request};
use crate::document::{self, settlement, Document, Epoch};
use crate::port::{self, Reply};
use crate::random::Random;
use crate::reference::calls::{self, Case, Choice, OnLiveCell, Rust, Tlc, Update};
use crate::shim::NotModelled;
use std::fmt::Display;

fn epoch(number: u64, index: u64, length: u64) -> Epoch {
    Epoch { number, index, length }
}

fn fraction(e: Epoch) -> String {
    format!("({}, {}/{})", e.number, e.index, e.length)
}

fn by_document<V: Display>(answer: Document<V>) -> String {
    match answer {
        Document::Value(value) => value.to_string(),
        Document::Row(row, place) => format!("{} at {place}: {}", row.number, row.cause),
    }
}

fn by_rust<V: Display>(answer: Rust<V>) -> String {
    match answer {
        Rust::Value(value) => value.to_string(),
        Rust::TurnedDown => "turned down, without a number".to_string(),
        Rust::Wait(wait) => wait.to_string(),
        Rust::Panicked(text) => format!("panics: {text}"),
        Rust::NotModelled(not_modelled) => not_shown(&not_modelled),
    }
}

fn not_shown(n: &NotModelled) -> String {
    format!("not shown: {} is not in the text (it is handed {})", n.what, n.handed)
}

fn chosen(choice: &Choice) -> String {
    match choice {
        Choice::Chosen(c) => format!("chosen, unlock byte {:#04x}", c.unlock[0]),
        Choice::Wait(wait) => wait.to_string(),
        Choice::Unread => "the reader turns it down, without a place".to_string(),
        Choice::Error(text) => format!("turned down: {text}"),
        Choice::Panic => "panics".to_string(),
        Choice::NotModelled(not_modelled) => not_shown(not_modelled),
    }
}

struct Parting {
    place: &'static str,
    input: String,
    document: String,
    rust: String,
    /// What the port answers, where it is called here.
    port: Option<String>,
    note: &'static str,
}

/// What the port chooses.
fn by_port(case: &Case) -> String {
    let (mut tlcs, mut tracked) = (vec![], vec![]);
    for tlc in &case.tlcs {
        tlcs.extend([tlc.received, tlc.alg]);
        tlcs.extend(tlc.amount.to_le_bytes());
        tlcs.extend(tlc.hash);
        tlcs.extend(tlc.expiry.to_le_bytes());
        tlcs.extend([tlc.local, tlc.remote].concat());
    }
    for one in &case.tracked {
        tracked.extend(one.hash);
        tracked.push(one.alg);
        tracked.extend(&one.record);
    }
    let of_fields = |(number, index, length)| epoch(number, index, length);
    let request = Request {
        h: case.h.into(),
        for_remote: case.for_remote,
        args: case.args.clone(),
        time: case.time,
        header: of_fields(case.header),
        current: of_fields(case.current),
        data: Data {
            tlcs,
            local_amount: case.local_amount,
            remote_amount: case.remote_amount,
            local_key: case.local_key.to_vec(),
            remote_key: case.remote_key.to_vec(),
        },
        tracked,
        preimages: case.preimages.iter().flat_map(|(hash, preimage)| [*hash, *preimage].concat()).collect(),
        witness: case.witness.clone(),
        output: 60_000,
    };
    match port::choose(&mut Random::of(1, "partings", 0), port::CHOOSE, &request) {
        Err(fault) => fault,
        Ok(Reply::Refused { number, place }) => format!("{number} at {place}"),
        Ok(Reply::Value(chosen)) => format!("chosen, unlock byte {:#04x}", chosen.unlock[0]),
    }
}

fn scaled(place: &'static str, e: Epoch, numerator: u64, denominator: u64, note: &'static str) -> Parting {
    Parting {
        place,
        input: format!("{} by {numerator}/{denominator}", fraction(e)),
        document: by_document(document::mul(e, numerator, denominator)),
        rust: by_rust(calls::scale(e, numerator, denominator)),
        port: None,
        note,
    }
}

fn due(place: &'static str, h: Epoch, d: Epoch, c: Epoch, note: &'static str) -> Parting {
    Parting {
        place,
        input: format!("header {}, delay {}, current {}", fraction(h), fraction(d), fraction(c)),
        document: by_document(document::is_due(h, d, c)),
        rust: by_rust(calls::due(h, d, c)),
        port: None,
        note,
    }
}

fn all() -> Vec<Parting> {
    let (zero, one) = (epoch(0, 0, 1), epoch(1, 0, 1));
    let constructor = "outside the equality: the text makes an epoch of fields that pass their bits";
    let only_number = "no parting in what is turned down: the Rust only gives no number";
    let sum = "outside the equality: the text asks for number + index / length";
    let mut partings = vec![
        scaled("mul, whole part above 24 bits", one, 16_777_216, 1, constructor),
        scaled("mul, whole part above 24 bits, by 2", epoch(8_388_608, 0, 1), 2, 1, constructor),
        scaled("mul, whole part above 24 bits, by 2", epoch(16_777_215, 0, 1), 2, 1, constructor),
        scaled("mul, D = 0 by the length", epoch(0, 0, 0), 0, 1, only_number),
        scaled("mul, D = 0 by the denominator", epoch(0, 0, 1), 0, 0, only_number),
        scaled("mul, N above 64 bits", epoch(2, 0, 1), 1 << 63, 1, only_number),
        scaled("mul, D above 64 bits", epoch(0, 0, 2), 0, 1 << 63, only_number),
        due("due test, header 0/0/0", epoch(0, 0, 0), zero, zero, sum),
        due("due test, header length 0", epoch(1, 0, 0), zero, one, sum),
        due("due test, delay length 0", zero, epoch(0, 1, 0), zero, sum),
        due("due test, current length 0", zero, zero, epoch(1, 0, 0), sum),
    ];
    let since = 0x5f00_0000_0000_0005;
    partings.push(Parting {
        place: "since value, bits 60-56",
        input: format!("{since:#x}"),
        document: match document::absolute_expiry(since) {
            Document::Value(expiry) => format!("not looked at: {}", milliseconds(expiry)),
            row => format!("{row:?}"),
        },
        rust: match calls::expiry(since) {
            Rust::Value(expiry) => milliseconds(expiry),
            other => format!("{other:?}"),
        },
        port: None,
        note: "no parting here: ckb-sdk's `Since` is a shim that follows document 01, so what the daemon does with \
               these bits is not shown",
    });
    partings.extend(updates());
    partings.extend(choices());
    partings.extend(delays());
    partings.extend(unreadable());
    partings
}

/// A witness with h = 20 and `n` TLCs of zeros, each with its place as its amount, and these unlocks.
fn witness(n: u8, unlocks: &[u8]) -> Vec<u8> {
    let mut witness = vec![0, n];
    for place in 0..n {
        let mut record = [0; 85];
        record[1] = place;
        witness.extend(record);
    }
    witness.extend([0; 72]);
    for unlock in unlocks {
        witness.push(*unlock);
        witness.extend([0; 66]);
    }
    witness
}

/// Places settled twice. Document 01, "Update".
fn updates() -> Vec<Parting> {
    let twice = |n: u8, unlocks: &[u8]| Parting {
        place: "update, a place settled twice",
        input: format!("h = 20, n = {n}, unlocks {unlocks:?}"),
        document: row_by_document(settlement::update(20, &witness(n, unlocks), usize::MAX)),
        rust: match calls::update(20, &witness(n, unlocks)) {
            Update::State(state) => {
                format!("says {} TLCs and writes {} records", state[0], (state.len() - 73) / 85)
            }
            Update::Refused | Update::Unread => "turned down, without a number".to_string(),
            Update::Panic => "panics".to_string(),
        },
        port: None,
        note: "each repeat is subtracted from the count, one record is removed",
    };
    vec![twice(1, &[0, 0]), twice(2, &[0, 0]), twice(2, &[0, 0, 7])]
}

/// A first settlement for the remote commitment with relative delay (0, 0/1), due at once.
fn first_settlement(args: usize, tlcs: usize) -> Case {
    let since: u64 = 0xa000_0000_0000_0000 | 1 << 40;
    let mut all_args = [0; 57];
    all_args[20..28].copy_from_slice(&since.to_le_bytes());
    let tlc = Tlc {
        received: 0,
        alg: 0,
        amount: 1,
        hash: [0; 32],
        expiry: u64::MAX,
        local: [2; 33],
        remote: [3; 33],
    };
    let mut case = Case {
        h: 20,
        for_remote: true,
        args: all_args[..args].to_vec(),
        time: 1,
        header: (0, 0, 1),
        current: (0, 0, 1),
        tlcs: vec![tlc; tlcs],
        local_amount: 0,
        remote_amount: 0,
        local_key: [2; 33],
        remote_key: [3; 33],
        tracked: vec![],
        preimages: vec![],
        witness: None,
    };
    case.tracked = calls::tracked(&case);
    case
}

fn choices() -> Vec<Parting> {
    let short_args = |args: usize, tlcs: usize, what: &str| Parting {
        place: "choice, lock args below 36 bytes",
        input: format!("first settlement, args of {args} bytes, {what}"),
        document: "10 at 0: lock args below 36 bytes".to_string(),
        rust: chosen(&calls::choice(&first_settlement(args, tlcs))),
        port: Some(by_port(&first_settlement(args, tlcs))),
        note: "the args are cut at 28 at once, but at 36 only once something is chosen",
    };
    let mut expired = first_settlement(57, 255);
    expired.tlcs[254].expiry = 0;
    expired.tracked = calls::tracked(&expired);
    let state = calls::first_records(&expired).expect("255 TLCs");
    let later = Case { witness: Some([vec![0], state].concat()), ..expired.clone() };
    let above_254 = |case: &Case, input: &str, what: &str| Parting {
        place: "choice, 255 TLCs",
        input: format!("{input}, 255 offered TLCs, of which place 254 alone is expired"),
        document: format!("12 at 0: above 254 {what}"),
        rust: chosen(&calls::choice(case)),
        port: Some(by_port(case)),
        note: "0xfe is the unlock of the remote share",
    };
    vec![
        short_args(27, 0, "no TLCs"),
        short_args(28, 0, "no TLCs, our share due"),
        short_args(28, 1, "one TLC that is not expired"),
        above_254(&expired, "first settlement", "settlement TLCs"),
        above_254(&later, "later settlement", "standing TLCs"),
    ]
}

/// A delay of length 0 in the args. Our share is due, or would be next.
fn delays() -> Vec<Parting> {
    let mut first = first_settlement(57, 0);
    first.args[20..27].copy_from_slice(&[1, 0, 0, 0, 0, 0, 0]);
    let later = Case { witness: Some(ours_next(&first)), ..first.clone() };
    let parting = |place, case: &Case, document: &str| Parting {
        place,
        input: "args of 57 bytes, epoch value 1: number 1, index 0, length 0; no TLCs".to_string(),
        document: document.to_string(),
        rust: chosen(&calls::choice(case)),
        port: Some(by_port(case)),
        note: "the text makes an epoch of the value in both; a later settlement does not look at it again",
    };
    vec![
        parting("delay of length 0, first settlement", &first, "7 at 0: epoch length 0"),
        parting("delay of length 0, later settlement", &later, "chosen, unlock byte 0xff: no row"),
    ]
}

/// A witness of no TLCs and no unlocks in which the other side's key hash is all zeros: our share is next.
fn ours_next(case: &Case) -> Vec<u8> {
    let state = calls::first_records(case).expect("no TLCs");
    [&[0, 0][..], &[0; 36], &state[37..]].concat()
}

/// A later witness that cannot be read, from the chain to the choice.
fn unreadable() -> Vec<Parting> {
    let first = first_settlement(57, 0);
    let whole = ours_next(&first);
    let cut = whole[..73].to_vec();
    let case = |witness: &[u8]| Case { witness: Some(witness.to_vec()), ..first.clone() };
    let live = |place, input: &str, read: &[u8], scanned: &[u8], document: String, note| Parting {
        place,
        input: format!("h = 20, n = 0, our share due, {input}"),
        document,
        rust: match calls::on_live_cell(&case(read), scanned) {
            OnLiveCell::PassedOver => "the cell is passed over, nothing is built".to_string(),
            OnLiveCell::Chosen { as_first, choice } => {
                let taken = if as_first { "taken for a first settlement" } else { "a later settlement" };
                format!("{taken}: {}", chosen(&choice))
            }
        },
        port: Some(by_port(&case(read))),
        note,
    };
    let refused = || row_by_document(settlement::read(20, &cut));
    vec![
        live(
            "caller, later witness whole",
            "74 bytes",
            &whole,
            &whole,
            "a later settlement: our share".to_string(),
            "no parting: it shows that the slices of the caller run",
        ),
        live(
            "caller, later witness that cannot be read",
            "73 bytes",
            &cut,
            &cut,
            refused(),
            "the scan before it reads the same witness and leaves the cell out of the tracked ones",
        ),
        live(
            "the same, but the scan was given a whole witness",
            "74 bytes at the scan, 73 when asked again",
            &cut,
            &whole,
            refused(),
            "the caller hands None on; a transaction's hash is not over its witnesses, so a node could do this",
        ),
    ]
}

/// Where a row is expected.
fn row_by_document<V>(answer: Document<V>) -> String {
    match answer {
        Document::Value(_) => "no row".to_string(),
        Document::Row(row, place) => format!("{} at {place}: {}", row.number, row.cause),
    }
}

fn milliseconds(expiry: Option<u64>) -> String {
    expiry.map_or("no expiry".to_string(), |ms| format!("{ms} ms"))
}

pub fn print() {
    println!(
        "Partings between document 01 and the Rust, {} build. Epochs: (number, index/length).",
        crate::build()
    );
    for p in all() {
        println!("\n{}\n  input:       {}\n  document 01: {}", p.place, p.input, p.document);
        println!("  the Rust:    {}", p.rust);
        if let Some(port) = p.port {
            println!("  the port:    {port}");
        }
        println!("  note:        {}", p.note);
    }
    println!("\nFields beyond 24 or 16 bits and keys of other lengths than 33 cannot be handed to the Rust: RFC 0017");
    println!("gives its epochs no more bits, its keys are typed. Document 01 answers 14 at 0.");
}
