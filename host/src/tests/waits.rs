//! What a choice waits for: the cause, and the place of the first TLC that is still pending.

use super::cells::{asked, settled, unlocked, Cell, COMMITMENTS, LENGTHS, START_MS};
use crate::c;
use crate::layout as l;
use crate::Cause::{DelayNotDue, DelayOrExpiry, ExpiryNotPassed, NoExpiryOrKey, NoPreimage};
use crate::*;

/// A TLC with a hash and keys of its own, which expires so many milliseconds after the start. [number; 32] is its
/// preimage.
fn tlc(offered_by: Side, number: u8, expiry: u64) -> SettlementTlc {
    SettlementTlc {
        offered_by,
        algorithm: Algorithm::Sha256,
        amount: number.into(),
        payment_hash: Algorithm::Sha256.hash(&[number; 32]).expect("a hash"),
        expiry_ms: START_MS + expiry,
        our_key: [0x40 + number; 33],
        their_key: [0x80 + number; 33],
    }
}

/// A cell with these TLCs for each hash length and each commitment. Its delay is 6 epochs, and the preimage that is
/// stored with it is of another payment.
fn cells(list: &[SettlementTlc]) -> Vec<Cell> {
    let of = |hash_length, commitment| {
        let balances = Cell::new(hash_length, commitment).balances;
        Cell::of(hash_length, commitment, list.to_vec(), balances)
    };
    LENGTHS.into_iter().flat_map(|length| COMMITMENTS.map(|commitment| of(length, commitment))).collect()
}

fn state_of(cell: &Cell) -> State {
    first_state(cell.args.hash_length(), &cell.tlcs, &cell.balances).expect("a state")
}

fn taken(request: &Request) -> Unlocked {
    let mut out = vec![0; request.output_length()];
    unlocked(choose(request, &mut out)).unlocks
}

const fn by_timeout(place: usize) -> Unlocked {
    Unlocked::Tlc { place, way: Way::Timeout }
}

const fn by_preimage(place: usize) -> Unlocked {
    Unlocked::Tlc { place, way: Way::Preimage { pair: 0 } }
}

#[test]
fn without_tlcs_for_the_delay() {
    for cell in cells(&[]) {
        for (time, epochs) in [(0, 0), (0, 5), (1_000_000, 5)] {
            assert_eq!(asked(&cell.request(time, epochs)), Ok(DelayNotDue));
        }
        assert_eq!(taken(&cell.request(0, 6)), Unlocked::OurShare);
    }
}

#[test]
fn in_a_first_settlement() {
    let list = [tlc(Side::Them, 1, 5_999), tlc(Side::Us, 2, 20_999), tlc(Side::Them, 3, 30_999)];
    for cell in cells(&list) {
        let waits = |time, epochs, cause| assert_eq!(asked(&cell.request(time, epochs)), Ok(cause));
        // A third is not due.
        waits(0, 1, DelayOrExpiry { tlc: 0 });
        waits(50_000, 1, DelayOrExpiry { tlc: 0 });
        // It is; the whole delay is not, also where the TLC has expired.
        waits(0, 2, NoPreimage { tlc: 0 });
        waits(50_000, 3, NoPreimage { tlc: 0 });
        // The whole delay is due, the expiry has not passed. Here it is in milliseconds.
        waits(5_999, 6, NoPreimage { tlc: 0 });
        // The first one is given up, and the second has not expired.
        waits(6_000, 6, DelayOrExpiry { tlc: 1 });
        waits(20_999, 6, DelayOrExpiry { tlc: 1 });
        assert_eq!(taken(&cell.request(21_000, 6)), by_timeout(1));

        // A preimage waits for its third, and then is used at once. One that does not count is none.
        let preimages = [list[0].preimage([1; 32]).expect("a pair")];
        let known = |time, epochs| Request { preimages: &preimages, ..cell.request(time, epochs) };
        assert_eq!(asked(&known(50_000, 1)), Ok(DelayOrExpiry { tlc: 0 }));
        assert_eq!(taken(&known(0, 2)), by_preimage(0));
        let wrong = [Preimage::stored(list[0].payment_hash, [9; 32])];
        assert_eq!(asked(&Request { preimages: &wrong, ..known(0, 2) }), Ok(NoPreimage { tlc: 0 }));
        // A wait comes before an output that is too short.
        assert_eq!(choose(&cell.request(0, 2), &mut []), Ok(Outcome::Wait(NoPreimage { tlc: 0 })));
    }
}

#[test]
fn in_a_first_settlement_for_ours() {
    let list = [tlc(Side::Us, 1, 5_999), tlc(Side::Them, 2, 5_999)];
    for cell in cells(&list) {
        let waits =
            |time, epochs| assert_eq!(asked(&cell.request(time, epochs)), Ok(DelayOrExpiry { tlc: 0 }));
        // Two thirds are not due, though it has expired; all is due, and it has not; neither.
        waits(50_000, 3);
        waits(5_999, 6);
        waits(0, 0);
        assert_eq!(taken(&cell.request(6_000, 4)), by_timeout(0));
        // One behind the one that is named can come due sooner.
        let preimages = [list[1].preimage([2; 32]).expect("a pair")];
        waits(0, 2);
        assert_eq!(taken(&Request { preimages: &preimages, ..cell.request(0, 2) }), by_preimage(1));
    }
}

#[test]
fn in_a_first_settlement_for_theirs() {
    for cell in cells(&[tlc(Side::Them, 1, 5_999), tlc(Side::Them, 2, 30_999)]) {
        assert_eq!(asked(&cell.request(6_000, 6)), Ok(NoPreimage { tlc: 1 }));
        assert_eq!(asked(&cell.request(30_999, 6)), Ok(NoPreimage { tlc: 1 }));
        assert_eq!(asked(&cell.request(31_000, 5)), Ok(NoPreimage { tlc: 0 }));
        assert_eq!(taken(&cell.request(31_000, 6)), Unlocked::OurShare);
    }
}

/// 253 that are given up, and the last.
#[test]
fn for_the_last_of_the_most() {
    let mut list = vec![tlc(Side::Them, 1, 5_999); 253];
    list.push(tlc(Side::Us, 2, 20_999));
    for cell in cells(&list) {
        assert_eq!(asked(&cell.request(6_000, 6)), Ok(DelayOrExpiry { tlc: 253 }));
    }
}

/// The first of these is settled, so that places in the cell are one less than in the list.
fn four() -> [SettlementTlc; 4] {
    [tlc(Side::Us, 1, 1_999), tlc(Side::Them, 2, 5_999), tlc(Side::Us, 3, 20_999), tlc(Side::Them, 4, 30_999)]
}

#[test]
fn in_a_later_settlement() {
    for cell in cells(&four()) {
        let (on_chain, args) = settled(&state_of(&cell), &cell.args, 0);
        let witness = Witness::from_chain(&on_chain, &args).expect("a witness");
        let tracked = cell.tracked.after(&witness).expect("the list goes on");
        let later = |time| Request {
            args: &args,
            tracked: &tracked,
            witness: Some(&witness),
            ..cell.request(time, 0) // no delay is due, and none is looked at
        };
        // Expiries are in whole seconds.
        assert_eq!(asked(&later(0)), Ok(NoPreimage { tlc: 0 }));
        assert_eq!(asked(&later(5_000)), Ok(NoPreimage { tlc: 0 }));
        // The first one is given up, and the second has not expired.
        assert_eq!(asked(&later(5_001)), Ok(ExpiryNotPassed { tlc: 1 }));
        assert_eq!(asked(&later(20_000)), Ok(ExpiryNotPassed { tlc: 1 }));
        assert_eq!(choose(&later(20_000), &mut []), Ok(Outcome::Wait(ExpiryNotPassed { tlc: 1 })));
        assert_eq!(taken(&later(20_001)), by_timeout(1));
        let preimages = [cell.list[1].preimage([2; 32]).expect("a pair")];
        assert_eq!(taken(&Request { preimages: &preimages, ..later(0) }), by_preimage(0));
        // The place leads to the TLC that is meant.
        let named = asked(&later(5_001)).expect("a wait").tlc().and_then(|place| tracked.iter().nth(place));
        assert_eq!(named.map(|(hash, _)| hash), Some(cell.list[2].payment_hash));

        // The second one is settled: both that stand were offered by them.
        let (on_chain, args) = settled(witness.left(), &args, 1);
        let witness = Witness::from_chain(&on_chain, &args).expect("a witness");
        let tracked = tracked.after(&witness).expect("the list goes on");
        let later = |time| Request {
            args: &args,
            tracked: &tracked,
            witness: Some(&witness),
            ..cell.request(time, 0)
        };
        assert_eq!(asked(&later(5_001)), Ok(NoPreimage { tlc: 1 }));
        assert_eq!(asked(&later(30_000)), Ok(NoPreimage { tlc: 1 }));
        assert_eq!(taken(&later(30_001)), Unlocked::OurShare);
    }
}

/// What no request can hold: a TLC that stands without a key, or without an absolute timestamp for its expiry.
#[test]
fn for_a_tlc_that_is_passed_over() {
    for cell in cells(&four()) {
        let h = cell.args.hash_length().bytes();
        let (on_chain, args) = settled(&state_of(&cell), &cell.args, 0);
        let witness = Witness::from_chain(&on_chain, &args).expect("a witness");
        let tracked = cell.tracked.after(&witness).expect("the list goes on");
        let later = Request { args: &args, tracked: &tracked, witness: Some(&witness), ..cell.request(0, 0) };
        let told = |time: u64, of: c::Choose| {
            let mut out = vec![0x55; later.output_length()];
            let code = c::choose(&c::Choose { time: START_MS + time, ..of }, &mut out).err().expect("a wait");
            assert!(out.iter().all(|byte| *byte == 0x55));
            Cause::of(code, true, 3)
        };
        let raw = later.parts();
        let pair = [cell.list[1].payment_hash, [2; 32]].concat();
        let known = c::Choose { preimages: &pair, ..raw };
        let listed = |tlcs, of| c::Choose { first: c::FirstState { tlcs, ..raw.first }, ..of };

        // Without an entry. A TLC that stands before it and is pending is named first.
        let all: Vec<&[u8]> = cell.tlcs.as_bytes().chunks(l::TLC).collect();
        let without = [all[0], all[1], all[3]].concat();
        assert_eq!(told(5_000, listed(&without, raw)), Ok(NoPreimage { tlc: 0 }));
        for time in [5_001, 20_000, 20_001, 1_000_000] {
            assert_eq!(told(time, listed(&without, raw)), Ok(NoExpiryOrKey { tlc: 1 }), "{time}");
        }
        // Neither a time nor a preimage helps.
        let without = [all[0], all[2], all[3]].concat();
        for time in [0, 5_000, 5_001, 20_000] {
            assert_eq!(told(time, listed(&without, raw)), Ok(NoExpiryOrKey { tlc: 0 }), "{time}");
            assert_eq!(told(time, listed(&without, known)), Ok(NoExpiryOrKey { tlc: 0 }), "{time}");
        }
        assert_eq!(told(1_000_000, listed(&[], known)), Ok(NoExpiryOrKey { tlc: 0 }));
        // An entry with the hash, and with another key of ours.
        let mut other = all.concat();
        other[2 * l::TLC + l::TLC_LOCAL_KEY] ^= 1;
        assert_eq!(told(1_000_000, listed(&other, raw)), Ok(NoExpiryOrKey { tlc: 1 }));

        // A block number, a relative timestamp and too many seconds for an expiry. Of the four records in the witness
        // the first is settled.
        for since in [5, 0xC000_0000_0000_0005, 0x4000_0000_0000_0000 | 18_446_744_073_709_552u64] {
            for (place, time) in [(0, 20_000), (1, 1_000_000)] {
                let (mut standing, mut bytes) = (tracked.as_bytes().to_vec(), witness.as_bytes().to_vec());
                let expiry = l::RECORD_FIXED - 8 + h;
                let in_tracked = place * l::tracked(h) + l::TRACKED_RECORD + expiry;
                let in_witness = l::WITNESS_TLCS + (place + 1) * l::record(h) + expiry;
                standing[in_tracked..][..8].copy_from_slice(&since.to_le_bytes());
                bytes[in_witness..][..8].copy_from_slice(&since.to_le_bytes());
                let of = c::Choose { tracked: &standing, witness: &bytes, ..raw };
                assert_eq!(told(time, of), Ok(NoExpiryOrKey { tlc: place }), "{since:#x}");
            }
        }
    }
}

/// Why none can: the record of a settlement TLC has an absolute timestamp for every expiry, and a key in the list.
#[test]
fn no_request_passes_a_tlc_over() {
    for cell in cells(&[tlc(Side::Us, 1, 0), SettlementTlc { expiry_ms: u64::MAX, ..tlc(Side::Us, 2, 0) }]) {
        let (on_chain, args) = settled(&state_of(&cell), &cell.args, 0);
        let witness = Witness::from_chain(&on_chain, &args).expect("a witness");
        let tracked = cell.tracked.after(&witness).expect("the list goes on");
        let later = Request { args: &args, tracked: &tracked, witness: Some(&witness), ..cell.request(0, 0) };
        assert_eq!(asked(&later), Ok(ExpiryNotPassed { tlc: 0 }));
        assert_eq!(
            witness.left().tlcs().next().and_then(|tlc| tlc.expiry_ms()),
            Some(18_446_744_073_709_551_000)
        );
    }
}
