//! Checks of the oracle itself: published vectors, one implementation against another, document 01's marked rows on
//! the sliced text. Panics at the first that fails.

mod journal;

use crate::document::settlement::{self, Data, Fate, Request, Walked};
use crate::document::{self, Document, Epoch};
use crate::kinds::choice::Choice;
use crate::kinds::settlement::consistent;
use crate::kinds::{chain, waits, TABLE};
use crate::port::{self, Reply};
use crate::random::Random;
use crate::reference::calls::{self, Rust, Update};
use crate::settle;
use crate::shim::hex;
use num_bigint::BigUint;
use std::cell::Cell;
use std::slice::{from_raw_parts, from_raw_parts_mut};

/// SHA-256 of the sliced text at commit 21c4dfbdbd.
pub const SLICED_DIGEST: &str = "ea9fc73cd66b76129e6bf9cab186d3ccafa2d9c484c2432740cde451b842f293";

/// The same of the text of who calls it.
const CALLER_DIGEST: &str = "f7cfb5772b8a5ea56dc2ba58f94ad157f02aff7b4bde9cebc9e1e8b4c238241f";

pub fn sliced_digest() -> String {
    hex::encode(document::sha256(crate::reference::SLICED.as_bytes()))
}

pub fn caller_digest() -> String {
    hex::encode(document::sha256(crate::reference::SLICED_CALLER.as_bytes()))
}

pub fn run() {
    slices();
    vectors();
    second_implementations();
    marked_rows();
    not_modelled();
    document_in_big_numbers();
    generator();
    answer_buffers();
    calls_of_choice();
    update_example();
    choice_example();
    order_of_rows();
    reached();
    waits_of_the_walk();
    runs_of_updates();
    journal::run();
    processes();
    println!("selftest: all passed, {} build", crate::build());
}

fn slices() {
    assert_eq!(sliced_digest(), SLICED_DIGEST, "the sliced text is not that of commit 21c4dfbdbd");
    assert_eq!(caller_digest(), CALLER_DIGEST, "the caller's sliced text is not that of commit 21c4dfbdbd");
    println!("slices: {} items, the text of commit 21c4dfbdbd", crate::reference::SLICES.lines().count());
}

fn vectors() {
    // RFC 7693, appendix A.
    let abc = "ba80a53f981c4d0d6a2797b69f12f6e94c212f14685ac4b74b12bb6fdbffa2d1\
               7d87c5392aab792dc252d5de4533cc9518d38aa8dbf1925ab92386edd4009923";
    assert_eq!(blake2b_simd::Params::new().hash_length(64).hash(b"abc").to_hex().as_str(), abc);
    assert_eq!(hex::encode(blake2_rfc::blake2b::blake2b(64, &[], b"abc").as_bytes()), abc);
    // CKB RFC 0022: the hash of the empty message.
    let empty = "44f4c69744d5f8c55d642062949dcae49bc4e7ef43d388c5a12f42b5633d163e";
    assert_eq!(hex::encode(calls::ckb_hash(b"")), empty);
    assert_eq!(hex::encode(document::ckb_hash(b"")), empty);
    // FIPS 180-4's examples of one and of two blocks.
    let two = b"abcdbcdecdefdefgefghfghighijhijkijkljklmklmnlmnomnopnopq".as_slice();
    for (message, digest) in [
        (b"abc".as_slice(), "ba7816bf8f01cfea414140de5dae2223b00361a396177a9cb410ff61f20015ad"),
        (two, "248d6a61d20638b8e5c026930c3e6039a33ce45964ff2167f6ecedd419db06c1"),
    ] {
        assert_eq!(hex::encode(calls::sha256(message)), digest);
        assert_eq!(hex::encode(document::sha256(message)), digest);
    }
    println!("published vectors: RFC 7693, CKB RFC 0022, FIPS 180-4");
}

fn second_implementations() {
    let mut random = Random::of(1, "second implementations", 0);
    let lengths = (0..=1200).chain([4095, 4096, 4097, 65_535, 65_536, 1_000_003]);
    let mut count = 0;
    for length in lengths {
        for _ in 0..if length <= 300 { 4 } else { 1 } {
            let mut message = vec![0; length];
            random.fill(&mut message);
            assert_eq!(calls::ckb_hash(&message), document::ckb_hash(&message), "CKB hash, length {length}");
            assert_eq!(calls::sha256(&message), document::sha256(&message), "SHA-256, length {length}");
            count += 1;
        }
    }
    for _ in 0..100 {
        let mut key = [0; 33];
        random.fill(&mut key);
        for hash in calls::key_hashes(key) {
            assert_eq!(Document::Value(hash), document::key_hash(&key));
        }
    }
    println!("second implementations: {count} messages by both hashes, 100 keys at each place of the text");
}

fn epoch(number: u64, index: u64, length: u64) -> Epoch {
    Epoch { number, index, length }
}

/// The rows that document 01 marks, on the sliced text and on src/document.rs.
fn marked_rows() {
    for (delay, numerator, answer) in
        [(epoch(1, 0, 601), 1, epoch(0, 300, 901)), (epoch(1, 300, 601), 2, epoch(0, 901, 901))]
    {
        assert_eq!(calls::scale(delay, numerator, 3), Rust::Value(answer));
        assert_eq!(document::mul(delay, numerator, 3), Document::Value(answer));
    }
    for (current, answer) in [(epoch(100, 1, 3), true), (epoch(100, 332, 1000), false)] {
        let (header, delay) = (epoch(100, 0, 1), epoch(0, 1, 3));
        assert_eq!(calls::due(header, delay, current), Rust::Value(answer));
        assert_eq!(document::is_due(header, delay, current), Document::Value(answer));
    }
    let seconds = 18_446_744_073_709_551u64;
    for (value, answer) in [(5, Some(5000)), (seconds, Some(18_446_744_073_709_551_000)), (seconds + 1, None)]
    {
        let since = 0x4000_0000_0000_0000 | value;
        assert_eq!(calls::expiry(since), Rust::Value(answer));
        assert_eq!(document::absolute_expiry(since), Document::Value(answer));
    }
    assert_eq!(calls::read(20, &[0; 74]).map(|read| (read.n, read.unlock_count)), Some((0, 0)));
    assert_eq!(calls::read(20, &[0; 73]), None);
    let read = settlement::Read { n: 0, unlock_count: 0, share_place: 2, first_unlock: 74 };
    assert_eq!(settlement::read(20, &[0; 74]), Document::Value(read));
    assert_eq!(settlement::read(20, &[0; 73]), Document::Row(settlement::SHARES_CUT, 2));
    println!("document 01's nine marked rows hold in the sliced text");
}

/// Where the text hands the stand-in for ckb-types' epoch what no document speaks about, the answer says so, and is
/// none of the Rust's: a field beyond its bits, a length of 0.
fn not_modelled() {
    let one = epoch(1, 0, 1);
    assert!(matches!(calls::scale(one, 16_777_216, 1), Rust::NotModelled(_)));
    for place in 0..3 {
        let mut all = [one; 3];
        all[place].length = 0;
        assert!(matches!(calls::due(all[0], all[1], all[2]), Rust::NotModelled(_)));
    }
    // The fields alone are RFC 0017's: `mul` reads a length of 0 and turns it down by itself.
    assert_eq!(calls::scale(epoch(1, 0, 0), 1, 3), Rust::TurnedDown);
    println!("what ckb-types does with a length of 0 or a field beyond its bits is not modelled");
}

/// src/document.rs computes in 128 bits: the same in numbers without a bound.
fn document_in_big_numbers() {
    let mut random = Random::of(1, "big numbers", 0);
    let big = |x: u64| BigUint::from(x);
    let units = |e: Epoch| big(e.number) * big(e.length) + big(e.index);
    for _ in 0..20_000 {
        let mut any = || epoch(random.of_width(24), random.of_width(16), random.of_width(16));
        let (h, d, c) = (any(), any(), any());
        let (numerator, denominator) = (random.of_width(64), random.of_width(64));
        let n = big(numerator) * units(d);
        let m = big(denominator) * big(d.length);
        let expected = if n.bits() > 64 {
            Document::Row(document::N_ABOVE_64_BITS, 0)
        } else if m.bits() > 64 {
            Document::Row(document::D_ABOVE_64_BITS, 0)
        } else if m == big(0) {
            Document::Row(document::D_ZERO, 0)
        } else if &n / &m > big(16_777_215) {
            Document::Row(document::WHOLE_PART, 0)
        } else {
            let s = if m > big(1800) { &m / big(1800) + big(1) } else { big(1) };
            let number = |x: BigUint| u64::try_from(x).expect("64 bits");
            Document::Value(epoch(number(&n / &m), number(&n % &m / &s), number(&m / &s)))
        };
        assert_eq!(document::mul(d, numerator, denominator), expected);
        if [h, d, c].iter().all(|e| e.length > 0) {
            let (a, b, e) = (big(h.length), big(d.length), big(c.length));
            let due = units(h) * &b * &e + units(d) * &a * &e <= units(c) * &a * &b;
            assert_eq!(document::is_due(h, d, c), Document::Value(due));
        }
    }
    println!("document 01's arithmetic: 20000 cases of mul and the due test in big numbers");
}

/// splitmix64 from state 0, as its authors' program prints it.
fn generator() {
    let mut random = Random::with_state(0);
    assert_eq!(random.next(), 0xe220_a839_7b1d_cdaf);
    assert_eq!(random.next(), 0x6e78_9e6a_a1b9_65f4);
    assert_eq!(random.next(), 0x06c4_5d18_8009_454f);
}

/// What a callee may do with an answer buffer, and what has to be noticed.
fn answer_buffers() {
    const SIZE: usize = 24;
    // Writes `number` and `place`, then `more` bytes behind them, then the byte at `stray`; returns `returned`.
    let callee = |number: u64, place: u64, more: usize, stray: Option<isize>, returned: u64, minds: bool| {
        move |answer: *mut u8, size: usize| {
            if minds && size < SIZE {
                return 14;
            }
            // SAFETY: `Buffer` keeps at least 8 bytes before and 24 behind each buffer, and its bytes are 0 to 255.
            unsafe {
                let front = [number.to_le_bytes(), place.to_le_bytes()].concat();
                answer.copy_from(front.as_ptr(), 16);
                for at in 16..16 + more {
                    *answer.add(at) = 0;
                }
                if let Some(at) = stray {
                    let byte = answer.offset(at);
                    *byte = !*byte;
                }
            }
            returned
        }
    };
    let runs = |callee: &dyn Fn(*mut u8, usize) -> u64| {
        let mut random = Random::of(1, "answer buffers", 0);
        (0..64).all(|_| port::answered(&mut random, SIZE, callee, |_| Ok(())).is_ok())
    };
    assert!(runs(&callee(0, 0, 8, None, 0, true)), "a success that keeps to its bytes");
    assert!(runs(&callee(7, 3, 0, None, 7, true)), "a refusal that keeps to its bytes");
    for (what, callee) in [
        ("a success that writes behind its bytes", callee(0, 0, 8, Some(24), 0, true)),
        ("a success that writes before its bytes", callee(0, 0, 8, Some(-1), 0, true)),
        ("a success with a place", callee(0, 1, 8, None, 0, true)),
        ("a refusal that writes behind number and place", callee(7, 0, 1, None, 7, true)),
        ("two numbers", callee(7, 0, 0, None, 8, true)),
        ("a short buffer that is not looked at", callee(7, 0, 0, None, 7, false)),
        ("a short buffer that is written", callee(14, 0, 0, None, 14, false)),
    ] {
        assert!(!runs(&callee), "not noticed: {what}");
    }
    println!("answer buffers: seven faults of a callee are noticed");
}

thread_local!(static FAULT: Cell<&'static str> = const { Cell::new("none") });

/// Document 01's choice behind the port's interface, right or with a fault.
///
/// # Safety
///
/// All pointers have to be those of `port::Buffer` and the lengths theirs.
#[allow(clippy::too_many_arguments)]
unsafe extern "C" fn choice_over_c(
    h: u64,
    for_remote: u8,
    is_later: u8,
    time: u64,
    header_number: u64,
    header_index: u64,
    header_length: u64,
    current_number: u64,
    current_index: u64,
    current_length: u64,
    local_low: u64,
    local_high: u64,
    remote_low: u64,
    remote_high: u64,
    args: *const u8,
    args_len: usize,
    tlcs: *const u8,
    tlcs_len: usize,
    local_key: *const u8,
    local_key_len: usize,
    remote_key: *const u8,
    remote_key_len: usize,
    tracked: *const u8,
    tracked_len: usize,
    preimages: *const u8,
    preimages_len: usize,
    witness: *const u8,
    witness_len: usize,
    out: *mut u8,
    out_len: usize,
    answer: *mut u8,
    answer_len: usize,
) -> u64 {
    let fault = FAULT.get();
    if answer_len < port::CHOOSE_ANSWER && fault != "a short answer buffer is not looked at" {
        return 14;
    }
    if (for_remote > 1 || is_later > 1) && fault != "any byte is a flag" {
        let row: Vec<u8> = [14u64, 0].iter().flat_map(|field| field.to_le_bytes()).collect();
        answer.copy_from(row.as_ptr(), row.len());
        return 14;
    }
    let bytes = |from: *const u8, length: usize| from_raw_parts(from, length).to_vec();
    let amount = |low: u64, high: u64| u128::from(high) << 64 | u128::from(low);
    let request = Request {
        h,
        for_remote: for_remote == 1,
        args: bytes(args, args_len),
        time,
        header: epoch(header_number, header_index, header_length),
        current: epoch(current_number, current_index, current_length),
        data: Data {
            tlcs: bytes(tlcs, tlcs_len),
            local_amount: amount(local_low, local_high),
            remote_amount: amount(remote_low, remote_high),
            local_key: bytes(local_key, local_key_len),
            remote_key: bytes(remote_key, remote_key_len),
        },
        tracked: bytes(tracked, tracked_len),
        preimages: bytes(preimages, preimages_len),
        witness: (is_later == 1).then(|| bytes(witness, witness_len)),
        output: out_len,
    };
    let (number, fields, mut written) = match settlement::choice(&request) {
        Document::Row(row, place) => {
            let (number, place) = wait_with_fault(fault, &request, row.number, place);
            (number, vec![number, place], vec![])
        }
        Document::Value(c) => {
            let byte = c.unlock[0];
            let kind = if byte >= 0xfe { 0 } else { 1 + c.unlock[1] };
            let delay = c.delay.unwrap_or(epoch(0, 0, 0));
            let (low, high) = port::halves(c.amount);
            let key = [u64::from(c.key.is_some()), c.key.unwrap_or(0) as u64];
            let delay = [u64::from(c.delay.is_some()), delay.number, delay.index, delay.length];
            let record = [c.record.0 as u64, c.record.1 as u64];
            let lengths = [&c.unlock, &c.state, &c.new_args].map(|part| part.len() as u64);
            let front = [0, 0, u64::from(kind), u64::from(byte), low, high];
            let fields =
                [&front[..], &key, &delay, &record, &lengths, &[c.pair as u64, u64::from(c.last)]].concat();
            (0, fields, [c.unlock, c.state, c.new_args].concat())
        }
    };
    let mut fields = fields;
    let success = number == 0;
    match fault {
        "a success with a place" if success => fields[1] = 1,
        "another kind" if success => fields[2] = (fields[2] + 1) % 3,
        "another byte" if success => fields[3] ^= 1,
        "half an amount" if success => fields[5] = 0,
        "another key" if success => fields[7] += 1,
        "another delay" if success => fields[9] += 1,
        "a record that starts a byte late" if success => fields[12] += 1,
        "a record that is a byte short" if success => fields[13] = fields[13].saturating_sub(1),
        "a state a byte short" if success => {
            fields[15] -= 1;
            fields[16] += 1;
        }
        "another pair" if success => fields[17] += 1,
        "another last" if success => fields[18] ^= 1,
        "a byte of the unlock" if success => written[66] = 1,
        "a byte behind the output" if success && written.len() < out_len => *out.add(written.len()) ^= 1,
        "a byte before the output" => *out.sub(1) ^= 1,
        "a refusal that writes to the output" if !success && out_len > 0 => *out ^= 1,
        "a refusal that writes a third field" if !success => fields.push(0),
        "two numbers" if !success => fields[0] += 1,
        "another place" if !success => fields[1] += 1,
        _ => {}
    }
    from_raw_parts_mut(out, written.len()).copy_from_slice(&written);
    let fields: Vec<u8> = fields.iter().flat_map(|field| field.to_le_bytes()).collect();
    answer.copy_from(fields.as_ptr(), fields.len().min(answer_len + 8));
    number
}

/// A wait of the walk, right or with a fault.
fn wait_with_fault(fault: &str, request: &Request, number: u64, place: u64) -> (u64, u64) {
    if !(22..=25).contains(&number) {
        return (number, place);
    }
    let walked = settlement::walk(request);
    let is_later = request.witness.is_some();
    let fell = walked.iter().position(|tlc| matches!(tlc.fate, Fate::Fell));
    // Place, and the numbers of all causes.
    let pending: Vec<(u64, Vec<u64>)> = walked.iter().enumerate().filter_map(causes).collect();
    let causes = pending.first().map_or(&[][..], |(_, causes)| causes);
    let at = |entry: Option<&(u64, Vec<u64>)>| entry.map_or((number, place), |(at, all)| (all[0], *at));
    match fault {
        "22 at 0 for every wait of the walk" => (22, 0),
        "the last pending TLC" => at(pending.last()),
        "the next pending TLC" => at(pending.get(1).or(pending.first())),
        "the pending TLC with the lowest number" => at(pending.iter().min_by_key(|(_, all)| all[0])),
        "a TLC whose pending fell" => (number, fell.map_or(place, |fell| fell as u64)),
        "only pending TLCs are counted" => (number, 0),
        "a TLC that is passed over is not named" => at(pending.iter().find(|(_, all)| all[0] != 23)),
        "a place in the list before the update" if is_later => (number, place_before(request, place)),
        "24 where 23 is due" if number == 23 => (24, place),
        "25 where 23 is due" if number == 23 => (25, place),
        "25 where the third isn't due" if number == 24 && causes.contains(&25) => (25, place),
        "the last cause that fits" => (causes.last().copied().unwrap_or(number), place),
        "25 for the timeout kind" if number == 24 && walked[place as usize].timeout_kind => (25, place),
        "24 for every preimage that is missing" if number == 25 => (24, place),
        "13 before a wait" if request.output < 67 + 73 + 57 => (13, 67 + 73 + 57),
        _ => (number, place),
    }
}

fn causes((place, tlc): (usize, &Walked)) -> Option<(u64, Vec<u64>)> {
    match &tlc.fate {
        Fate::Pending(causes) => Some((place as u64, causes.iter().map(|row| row.number).collect())),
        Fate::Fell | Fate::Chosen(_) => None,
    }
}

/// Where the standing TLC of this place is in the list before the update.
fn place_before(request: &Request, place: u64) -> u64 {
    let h = request.h as usize;
    let witness = request.witness.as_ref().expect("a later settlement");
    let record = &request.tracked[place as usize * (98 + h) + 33..][..65 + h];
    let before = witness[2..].chunks(65 + h).position(|one| one == record);
    before.expect("a standing TLC") as u64
}

/// What is looked at in a call of the choice.
fn calls_of_choice() {
    const FAULTS: &[&str] = &[
        "a short answer buffer is not looked at",
        "a success with a place",
        "another kind",
        "another byte",
        "half an amount",
        "another key",
        "another delay",
        "a record that starts a byte late",
        "a record that is a byte short",
        "a state a byte short",
        "another pair",
        "another last",
        "any byte is a flag",
        "a byte of the unlock",
        "a byte behind the output",
        "a byte before the output",
        "a refusal that writes to the output",
        "a refusal that writes a third field",
        "two numbers",
        "another place",
        "22 at 0 for every wait of the walk",
        "the last pending TLC",
        "the next pending TLC",
        "the pending TLC with the lowest number",
        "a TLC whose pending fell",
        "only pending TLCs are counted",
        "a TLC that is passed over is not named",
        "a place in the list before the update",
        "24 where 23 is due",
        "25 where 23 is due",
        "25 where the third isn't due",
        "the last cause that fits",
        "25 for the timeout kind",
        "24 for every preimage that is missing",
        "13 before a wait",
    ];
    let agrees = |case: u64| {
        let mut random = Random::of(1, "calls of the choice", case);
        let mut request = consistent(&mut random);
        request.output = 1000;
        // Every second case is one of those made for waits.
        if case % 2 == 1 {
            request = waits::case(random.below(waits::CASES));
        }
        match (port::choose(&mut random, choice_over_c, &request), settlement::choice(&request)) {
            (Ok(Reply::Value(port)), Document::Value(document)) => port == document,
            (Ok(Reply::Refused { number, place }), Document::Row(row, at)) => {
                (number, place) == (row.number, at)
            }
            _ => false,
        }
    };
    assert!((0..500).all(agrees), "choice over C: a right one fails");
    for fault in FAULTS {
        FAULT.set(fault);
        assert!(!(0..500).all(agrees), "choice over C: not noticed: {fault}");
    }
    FAULT.set("none");
    println!("choice over C: {} faults of a callee are noticed", FAULTS.len());
}

/// Document 01's example for `settle`.
fn update_example() {
    let mut witness = vec![1, 0];
    witness.extend([0x11; 20]);
    witness.extend(5u128.to_le_bytes());
    witness.extend([0x22; 20]);
    witness.extend(7u128.to_le_bytes());
    let mut state = witness[1..38].to_vec();
    state.extend([0; 36]);
    witness.extend([0xff, 0]);
    witness.extend([0; 65]);
    assert_eq!(settlement::update(20, &witness, 73), Document::Value(state.clone()));
    assert_eq!(settlement::update(20, &witness, 72), Document::Row(settlement::OUTPUT_SHORT, 73));
    assert_eq!(calls::update(20, &witness), Update::State(state));
    assert_eq!(calls::unlocks(20, &witness).map(|u| u.len()), Some(67));
    println!("update: document 01's example");
}

/// A first settlement without TLCs hands out our share once the full delay is due, and waits before.
fn choice_example() {
    let mut args = vec![0; 57];
    let since: u64 = 0xa000_0000_0000_0000 | 1 << 40 | 3; // relative, epoch (3, 0/1)
    args[20..28].copy_from_slice(&since.to_le_bytes());
    let mut case = calls::Case {
        h: 20,
        for_remote: true,
        args,
        time: 0,
        header: (10, 0, 1),
        current: (13, 0, 1),
        tlcs: vec![],
        local_amount: 7,
        remote_amount: 5,
        local_key: [2; 33],
        remote_key: [3; 33],
        tracked: vec![],
        preimages: vec![],
        witness: None,
    };
    let calls::Choice::Chosen(chosen) = calls::choice(&case) else {
        panic!("our share is due");
    };
    assert_eq!((chosen.unlock[0], chosen.amount, chosen.key), (0xff, 7, None));
    assert_eq!(chosen.delay, Some((3, 0, 1)));
    assert_eq!(chosen.state, calls::first_records(&case).expect("no TLCs"));
    case.current = (12, 1799, 1800);
    assert_eq!(calls::choice(&case), calls::Choice::Wait(calls::Wait::Walk));
    println!("choice: a first settlement of our share");
}

fn expect(request: &Request, number: u64, place: u64) {
    match settlement::choice(request) {
        Document::Row(row, at) => assert_eq!((row.number, at), (number, place), "{}", row.cause),
        Document::Value(_) => panic!("chosen, where {number} was expected"),
    }
}

/// What a wait names, behind 20 and 21 and before 13: a case with every cause, of which the first is mended again and
/// again. The state has one TLC, of zeros, and there is no room for an output.
fn order_of_waits(mut request: Request, state: &[u8]) {
    let with = |request: &mut Request, record: &[u8]| {
        request.tracked = [&[0; 33], record].concat();
        request.witness = Some([&[0], &state[..1], record, &state[86..]].concat());
    };
    let mut record = vec![0; 85];
    record[77..].copy_from_slice(&(0x4000_0000_0000_0009u64).to_le_bytes());
    with(&mut request, &record);
    expect(&request, 23, 0);
    // Its key: the settlement TLC of zeros.
    record[57..77].copy_from_slice(&document::ckb_hash(&[0; 33])[..20]);
    with(&mut request, &record);
    request.data.tlcs = vec![0; 124];
    expect(&request, 24, 0);
    let timeout = record.clone();
    record[0] = 1;
    with(&mut request, &record);
    expect(&request, 25, 0);
    request.time = 9000;
    expect(&request, 25, 0);
    request.time = 9001;
    expect(&request, 13, 67 + 158 + 57);
    // Two of timeout kind behind it: one that is pending, one that is chosen or away.
    let mut pending = timeout.clone();
    pending[77] = 10;
    let records = [&record[..], &pending, &timeout].concat();
    request.tracked = records.chunks(85).flat_map(|one| [&[0; 33], one].concat()).collect();
    request.witness = Some([&[0, 3], &records[..], &state[86..]].concat());
    expect(&request, 13, 67 + 328 + 57);
    request.time = 9000;
    expect(&request, 25, 0);
    let records = [record, pending].concat();
    request.tracked = records.chunks(85).flat_map(|one| [&[0; 33], one].concat()).collect();
    request.witness = Some([&[0, 2], &records[..], &state[86..]].concat());
    request.time = 9001;
    expect(&request, 24, 1);
}

/// The same in a first settlement of one TLC, and of none.
fn order_of_first_waits(mut request: Request) {
    request.args[20] = 3;
    let mut tlc = vec![0; 124];
    tlc[50] = 9;
    let with = |request: &mut Request, tlc: &[u8]| {
        request.data.tlcs = tlc.to_vec();
        let Document::Value(state) = settlement::first(20, true, &request.data, 158) else {
            panic!("one TLC");
        };
        request.tracked = [&[0; 33], &state[1..86]].concat();
    };
    let at = |request: &mut Request, number: u64| request.current = epoch(number, 0, 1);
    request.output = 0;
    request.time = 10;
    with(&mut request, &tlc);
    at(&mut request, 1);
    expect(&request, 24, 0);
    at(&mut request, 2);
    expect(&request, 13, 67 + 158 + 57);
    request.time = 9;
    expect(&request, 24, 0);
    tlc[0] = 1;
    with(&mut request, &tlc);
    for (number, expected) in [(0, 24), (1, 25), (2, 25), (3, 25)] {
        at(&mut request, number);
        expect(&request, expected, 0);
    }
    request.time = 10;
    expect(&request, 13, 67 + 158 + 57);
    at(&mut request, 2);
    expect(&request, 25, 0);
    (request.data.tlcs, request.tracked) = (vec![], vec![]);
    expect(&request, 22, 0);
    at(&mut request, 3);
    expect(&request, 13, 67 + 73 + 57);
}

/// Document 01's order at the choice: a case with every fault, of which the first is mended again and again.
fn order_of_rows() {
    let key = [2; 33];
    let hash = document::ckb_hash(&key)[..20].to_vec();
    // A TLC of zeros has neither an expiry nor a key. One more unlock is faulty, and the one behind it cut short.
    let state = [vec![1], vec![0; 85], vec![7; 36], hash.clone(), vec![0; 16]].concat();
    let [faulty, cut] = [[0x80; 67], [0; 67]].map(|unlock| unlock.to_vec());
    let [whole, other] = [vec![0; 33 + 85], vec![1; 33 + 85]];
    let mut request = Request {
        h: 21,
        for_remote: true,
        args: vec![0; 35],
        time: 0,
        header: epoch(0, 0, 0),
        current: epoch(0, 0, 0),
        data: Data {
            tlcs: vec![],
            local_amount: 0,
            remote_amount: 0,
            local_key: vec![3; 33],
            remote_key: key.to_vec(),
        },
        tracked: other,
        preimages: vec![],
        witness: Some([&[0], &state[..], &faulty, &cut[1..]].concat()),
        output: 0,
    };
    expect(&request, 14, 0);
    request.h = 20;
    expect(&request, 10, 0);
    request.args = vec![0; 57];
    expect(&request, 11, 0);
    request.args[27] = 0xbf;
    expect(&request, 4, 1 + 158 + 67);
    request.witness = Some([&[0], &state[..], &faulty].concat());
    expect(&request, 5, 1 + 158);
    request.witness = Some([&[0], &state[..], &cut, &cut].concat());
    expect(&request, 6, 1 + 158 + 67);
    // Epoch lengths of 0 are not looked at in a later settlement.
    request.witness = Some([&[0], &state[..]].concat());
    expect(&request, 20, 0);
    request.tracked = whole;
    expect(&request, 21, 0);
    request.data.local_key = key.to_vec();
    expect(&request, 23, 0);
    order_of_waits(request.clone(), &state);
    request.tracked = vec![];
    request.witness = Some([&[0], &state[..], &cut].concat());
    expect(&request, 13, 67 + 73 + 57);
    request.output = 67 + 73 + 57;
    assert!(matches!(settlement::choice(&request), Document::Value(_)));
    // A first settlement: 7 before 12 before 20.
    request.witness = None;
    request.tracked = vec![1; 118];
    request.data.tlcs = vec![0; 255 * 124];
    expect(&request, 7, 0);
    request.args[25] = 1;
    (request.header, request.current) = (epoch(0, 0, 1), epoch(0, 0, 1));
    expect(&request, 12, 0);
    request.data.tlcs.truncate(254 * 124);
    expect(&request, 20, 0);
    order_of_first_waits(request);
    println!("choice: document 01's order of rows");
}

/// The first cases of a kind reach every row that it has, and every kind of choice.
fn reached() {
    const CHOICE: &[&str] = &[
        "1", "2", "3", "4", "5", "6", "7", "10", "11", "12", "13", "14", "20", "21", "22", "23", "24", "25",
    ];
    let all: [(&str, &[&str]); 4] = [
        ("read", &["1", "2", "3", "4", "14", "n 253 to 255", "TLCs, unlocks"]),
        ("update", &["1", "2", "3", "4", "5", "6", "13", "14", "state as before", "more TLCs settled"]),
        ("first", &["12", "13", "14", "no TLCs", "one TLC", "more TLCs", "253 to 255 TLCs"]),
        ("choice", CHOICE),
    ];
    let choices = ["share", "TLC by timeout", "TLC by preimage"];
    for (kind, rows) in all {
        let entry = TABLE.iter().find(|entry| entry.name == kind).expect("a kind");
        let reached = (entry.reached)(30_000);
        let mut expected: Vec<String> = rows.iter().map(|row| row.to_string()).collect();
        if kind == "choice" {
            expected.extend(choices.iter().flat_map(|c| [format!("first, {c}"), format!("later, {c}")]));
        }
        for one in expected {
            assert!(reached.contains(&one), "{kind}: `{one}` is not reached");
        }
    }
    println!("read, update, first, choice: every row and every kind of choice is reached");
}

/// The first cases of the choice have every wait of the walk that can occur, by its causes and by what stands around it,
/// and no other.
fn waits_of_the_walk() {
    let (met, possible) = (crate::run::waits::<Choice>(30_000).met, waits::possible());
    let missing: Vec<&String> = possible.difference(&met).collect();
    assert!(missing.is_empty(), "choice: no wait `{}`", missing[0]);
    let unknown: Vec<&String> = met.difference(&possible).collect();
    assert!(unknown.is_empty(), "choice: a wait that cannot be, `{}`", unknown[0]);
    println!("choice: all {} combinations of a wait that can occur are met", possible.len());
}

/// Runs of updates reach every answer that an update has for a kept state, and notice faults.
fn runs_of_updates() {
    let answers = chain::answers(2000);
    for one in ["0", "4", "5", "6", "13", "14", "14 alone"] {
        assert!(answers.contains(one), "chain: `{one}` is not reached");
    }
    let unnoticed = chain::unnoticed();
    assert!(unnoticed.is_empty(), "chain: not noticed: {}", unnoticed.join(", "));
    println!("chain: every answer is reached, {} faults are noticed", chain::FAULTS.len());
}

/// The inputs of `settle` reach every row that it can print; this program in its place passes, and with a fault fails.
fn processes() {
    let reached = settle::reached(2000);
    for one in ["1", "2", "3", "4", "5", "6", "14", "no TLCs", "one TLC", "2 to 252 TLCs", "253 to 255 TLCs"]
    {
        assert!(reached.iter().any(|r| r == one), "settle: `{one}` is not reached");
    }
    let failures = |fault: &str| {
        let path = std::env::current_exe().expect("this program has a path");
        let program = settle::Program { path, arguments: vec!["stand-in".to_string(), fault.to_string()] };
        let options = settle::Options { seed: 1, from: 0, rounds: settle::edge_count() + 50, seconds: None };
        settle::compare(&program, &options, None).failures
    };
    assert_eq!(failures("none"), 0, "settle: a right program fails");
    for fault in settle::FAULTS {
        assert!(failures(fault) > 0, "settle: not noticed: {fault}");
    }
    println!("settle: every row is reached, {} faults of a program are noticed", settle::FAULTS.len());
}
