//! Reader and update.

use crate::c::{self, Code};
use crate::layout as l;
use crate::*;

const BOTH: [HashLength; 2] = [HashLength::Short, HashLength::Full];

fn refused<T: std::fmt::Debug>(answer: Result<T, Refusal>) -> (u64, u64) {
    let refusal = answer.expect_err("turned down");
    (refusal.number(), refusal.place())
}

/// The scope paper's example: no TLCs, remote 5, local 7, the given unlocks behind.
fn example(unlocks: &[u8]) -> Vec<u8> {
    let mut witness = vec![1, 0];
    witness.extend([0x11; 20]);
    witness.extend(5u128.to_le_bytes());
    witness.extend([0x22; 20]);
    witness.extend(7u128.to_le_bytes());
    for byte in unlocks {
        witness.extend([*byte, 0]);
        witness.extend([0; 65]);
    }
    witness
}

/// `n` TLCs, each full of bytes of its own, shares of 0xee, and unlocks without preimages.
fn listed(h: HashLength, n: u8, unlocks: &[u8]) -> Vec<u8> {
    let mut witness = vec![0, n];
    for place in 0..n {
        witness.extend(vec![place; h.record()]);
    }
    witness.extend([0xee; 2 * l::SHARE_LEN]);
    for byte in unlocks {
        witness.extend([*byte, 0]);
        witness.extend([0; 65]);
    }
    witness
}

#[test]
fn marked_rows() {
    for h in BOTH {
        let found = Read { tlcs: 0, unlock_count: 0, share_place: 2, first_unlock: 74 };
        assert_eq!(read(h, &[0; 74]), Ok(found));
        assert_eq!(refused(read(h, &[0; 73])), (l::SHARES_CUT, 2));
    }
    assert_eq!(expiry(0x4000_0000_0000_0005), Ok(Some(5_000)));
    assert_eq!(expiry(0x4000_0000_0000_0000 | 18_446_744_073_709_551), Ok(Some(18_446_744_073_709_551_000)));
    assert_eq!(expiry(0x4000_0000_0000_0000 | 18_446_744_073_709_552), Ok(None));
}

#[test]
fn example_of_the_scope_paper() {
    let state = updated(HashLength::Short, &example(&[0xff])).expect("taken");
    assert_eq!(state[0], 0);
    assert_eq!(state[1..21], [0x11; 20]);
    assert_eq!(state[21..37], 5u128.to_le_bytes());
    assert_eq!(state[37..], [0; 36]);
    // The other share, and repeats.
    let state = updated(HashLength::Short, &example(&[0xfe, 0xfe, 0xff, 0xfe])).expect("taken");
    assert_eq!(state, [0; 73]);
}

#[test]
fn every_row_of_the_update() {
    for h in BOTH {
        let first = |n: usize| 1 + h.state(n);
        let at = |n: u8, unlocks: &[u8]| refused(updated(h, &listed(h, n, unlocks)));
        let cut =
            |n: u8, unlocks: &[u8], length: usize| refused(updated(h, &listed(h, n, unlocks)[..length]));
        let place = |number: u64, place: usize| (number, place as u64);
        assert_eq!(cut(0, &[], 0), (l::WITNESS_SHORT, 0));
        assert_eq!(cut(0, &[], 1), (l::WITNESS_SHORT, 1));
        assert_eq!(cut(2, &[], 2 + h.record()), place(l::TLC_CUT, 2 + h.record()));
        assert_eq!(cut(1, &[], 2 + h.record() + 71), place(l::SHARES_CUT, 2 + h.record()));
        assert_eq!(cut(1, &[0], first(1) + 66), place(l::UNLOCK_CUT, first(1)));
        let mut flagged = listed(h, 1, &[0]);
        flagged[first(1) + 1] = 1;
        assert_eq!(refused(updated(h, &flagged)), place(l::UNLOCK_CUT, first(1)));
        assert_eq!(at(1, &[1]), place(l::UNLOCK_UNKNOWN, first(1)));
        assert_eq!(at(2, &[0, 0xff, 0]), place(l::SETTLED_TWICE, first(2) + 2 * 67));
        assert_eq!(at(2, &[0, 0, 7]), place(l::SETTLED_TWICE, first(2) + 67));
        assert_eq!(at(2, &[7, 0, 0]), place(l::UNLOCK_UNKNOWN, first(2)));
        let mut out = [0x55; 60];
        assert_eq!(refused(update(h, &listed(h, 1, &[0]), &mut out)), (l::OUTPUT_SHORT, 73));
        assert_eq!(out, [0x55; 60]);
    }
}

#[test]
fn what_no_type_can_hold_is_turned_down() {
    let bad = Code { number: l::NOT_WELL, place: 0 };
    for h in [0, 19, 21, 33, 256 + 20, u64::MAX] {
        assert_eq!(c::read(h, &[0; 74]).err(), Some(bad));
        assert_eq!(c::update(h, &[], &mut []).err(), Some(bad));
        assert_eq!(c::tlc_record(h, 0, &[0; l::TLC], &mut [0; 97]).err(), Some(bad));
    }
    for key in [0, 32, 34] {
        assert_eq!(c::key_hash(&vec![2; key]).err(), Some(bad));
    }
    for flag in [2, 254, 255] {
        assert_eq!(c::tlc_record(20, flag, &[0; l::TLC], &mut [0; 85]).err(), Some(bad));
    }
    for tlc in [0, l::TLC - 1, l::TLC + 1] {
        assert_eq!(c::tlc_record(20, 0, &vec![0; tlc], &mut [0; 85]).err(), Some(bad));
    }
    assert_eq!(c::scale([1 << 24, 0, 1], 1, 3).err(), Some(bad));
    assert_eq!(c::scale([1, 0, 1 << 16], 1, 3).err(), Some(bad));
    assert_eq!(c::is_due([0, 0, 1], [0, 1 << 16, 1], [0, 0, 1]).err(), Some(bad));
}

/// A first settlement without TLCs, which waits.
const WAITS: c::Choose = c::Choose {
    first: c::FirstState {
        h: 20,
        for_remote: 1,
        local_amount: 7,
        remote_amount: 5,
        tlcs: &[],
        local_key: &[2; 33],
        remote_key: &[3; 33],
    },
    is_later: 0,
    time: 0,
    header: [10, 0, 1],
    current: [10, 0, 1],
    args: &[0xA0; 57],
    tracked: &[],
    preimages: &[],
    witness: &[],
};

#[test]
fn what_no_request_can_hold_is_turned_down() {
    let told = |of: c::Choose| {
        let mut out = [0x55; 300];
        let code = c::choose(&of, &mut out).err().expect("a number");
        assert_eq!(out, [0x55; 300]);
        (code.number, code.place)
    };
    let first = |first: c::FirstState<'static>| told(c::Choose { first, ..WAITS });
    let bad = (l::NOT_WELL, 0);
    assert_eq!(told(WAITS), (l::DELAY_NOT_DUE, 0));
    assert_eq!(first(c::FirstState { h: 21, ..WAITS.first }), bad);
    assert_eq!(first(c::FirstState { for_remote: 2, ..WAITS.first }), bad);
    assert_eq!(first(c::FirstState { local_key: &[2; 32], ..WAITS.first }), bad);
    assert_eq!(first(c::FirstState { remote_key: &[2; 34], ..WAITS.first }), bad);
    assert_eq!(first(c::FirstState { tlcs: &[0; 123], ..WAITS.first }), bad);
    assert_eq!(first(c::FirstState { tlcs: &[2; 124], ..WAITS.first }), bad);
    assert_eq!(told(c::Choose { is_later: 2, ..WAITS }), bad);
    assert_eq!(told(c::Choose { tracked: &[0; 117], ..WAITS }), bad);
    assert_eq!(told(c::Choose { preimages: &[0; 63], ..WAITS }), bad);
    assert_eq!(told(c::Choose { header: [1 << 24, 0, 1], ..WAITS }), bad);
    assert_eq!(told(c::Choose { args: &[0xA0; 35], ..WAITS }), (l::ARGS_SHORT, 0));
    assert_eq!(told(c::Choose { args: &[0; 57], ..WAITS }), (l::NO_DELAY, 0));
    assert_eq!(told(c::Choose { is_later: 1, ..WAITS }), (l::WITNESS_SHORT, 0));
}

#[test]
fn places_mean_the_list_before_any_removal() {
    let state = updated(HashLength::Full, &listed(HashLength::Full, 4, &[2, 0])).expect("taken");
    assert_eq!(state.len(), HashLength::Full.state(2));
    assert_eq!(state[0], 2);
    assert_eq!(state[1..98], [1; 97]);
    assert_eq!(state[98..195], [3; 97]);
    assert_eq!(state[195..], [0xee; 72]);
}

#[test]
fn most_tlcs() {
    for h in BOTH {
        // 0xFE is the share in slot remote, though 255 TLCs have a place 254.
        let bytes = listed(h, 255, &[0xfe]);
        let witness = Witness::without_prefix(&bytes, h).expect("taken");
        assert_eq!(witness.left().tlcs().len(), 255);
        assert!(witness.left().shares().owner.is_paid() && !witness.left().shares().other.is_paid());
        let unlock = witness.unlocks().next().expect("one");
        assert_eq!((unlock.share(), unlock.tlc()), (Some(Party::Owner), None));
        let all: Vec<u8> = (0..254).collect();
        let state = updated(h, &listed(h, 254, &all)).expect("taken");
        assert_eq!(state.len(), 73);
    }
}

#[test]
fn a_state_goes_into_the_next_witness() {
    let unlock = [0; 67];
    let mut witness = listed(HashLength::Short, 3, &[1]);
    for left in [2, 1, 0] {
        let state = updated(HashLength::Short, &witness).expect("taken");
        assert_eq!(usize::from(state[0]), left);
        witness = [&[9], &state[..], &unlock].concat();
    }
    assert_eq!(refused(updated(HashLength::Short, &witness)), (l::UNLOCK_UNKNOWN, 74));
}

#[test]
fn success_writes_the_state_alone() {
    let mut out = vec![0x55; 200];
    assert_eq!(update(HashLength::Short, &listed(HashLength::Short, 1, &[]), &mut out), Ok(158));
    assert_eq!(out[158..], [0x55; 42]);
}
