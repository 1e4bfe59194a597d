//! What a host can get wrong, and what it is told.

use super::cells::{asked, share_paid, unlocked, Cell, COMMITMENTS, LENGTHS, PREIMAGE, START_MS};
use crate::c;
use crate::choose::Fields;
use crate::layout as l;
use crate::preimage::flat;
use crate::*;

/// The cell's list with every direction turned.
fn turned(cell: &Cell) -> SettlementTlcs {
    let turn = |tlc: &SettlementTlc| SettlementTlc {
        offered_by: if tlc.offered_by == Side::Us { Side::Them } else { Side::Us },
        ..*tlc
    };
    SettlementTlcs::new(cell.tlcs.commitment(), &cell.list.iter().map(turn).collect::<Vec<_>>())
}

#[test]
fn a_list_in_the_wrong_view() {
    for hash_length in LENGTHS {
        for commitment in COMMITMENTS {
            let cell = Cell::new(hash_length, commitment);
            let tlcs = turned(&cell);
            let tracked = TrackedTlcs::first(&tlcs, hash_length).expect("records");
            let wrong = Request { tlcs: &tlcs, tracked: &tracked, ..cell.request(6_000, 4) };
            assert_eq!(asked(&wrong), Err(Refusal::StateDiffers));

            // The library alone cannot see it: it hands out the other side's TLC, and no number says so.
            let flag = commitment.for_remote();
            let (local_amount, remote_amount) = (cell.balances.our_amount, cell.balances.their_amount);
            let (local_key, remote_key) = (&cell.balances.our_key[..], &cell.balances.their_key[..]);
            let (h, tlcs) = (hash_length.h(), tlcs.as_bytes());
            let first = c::FirstState {
                h,
                for_remote: flag,
                local_amount,
                remote_amount,
                tlcs,
                local_key,
                remote_key,
            };
            let raw = c::Choose {
                first,
                is_later: 0,
                time: START_MS + 6_000,
                header: [10, 0, 1],
                current: [14, 0, 1],
                args: cell.args.as_bytes(),
                tracked: tracked.as_bytes(),
                preimages: &[],
                witness: &[],
            };
            let fields = Fields(c::choose(&raw, &mut vec![0; wrong.output_length()]).expect("an unlock"));
            assert_eq!(fields.unlocks(), Ok(Unlocked::Tlc { place: 0, way: Way::Timeout }));
            assert_eq!(cell.list[0].offered_by, Side::Them);
        }
    }
}

#[test]
fn the_wrong_commitment() {
    for hash_length in LENGTHS {
        let cell = Cell::new(hash_length, Commitment::Ours);
        let tlcs = SettlementTlcs::new(Commitment::Theirs, &cell.list);
        let tracked = TrackedTlcs::first(&tlcs, hash_length).expect("records");
        let wrong = Request { tlcs: &tlcs, tracked: &tracked, ..cell.request(6_000, 4) };
        assert_eq!(asked(&wrong), Err(Refusal::StateDiffers));
        // One list of each.
        assert_eq!(
            asked(&Request { tlcs: &tlcs, ..cell.request(6_000, 4) }),
            Err(Refusal::Mixed { part: "tracked list" })
        );
        // In a later settlement the records are not found again.
        let (on_chain, args) = cell.settled_once();
        let witness = Witness::from_chain(&on_chain, &args).expect("a witness");
        assert_eq!(TrackedTlcs::standing(&tlcs, witness.left()), Err(Refusal::RecordUnknown { place: 0 }));
        assert_eq!(
            TrackedTlcs::standing(&turned(&cell), witness.left()),
            Err(Refusal::RecordUnknown { place: 0 })
        );
    }
}

#[test]
fn amounts_and_keys_of_the_wrong_side() {
    let cell = Cell::new(HashLength::Short, Commitment::Theirs);
    let b = cell.balances;
    let amounts = Balances { our_amount: b.their_amount, their_amount: b.our_amount, ..b };
    let keys = Balances { our_key: b.their_key, their_key: b.our_key, ..b };
    for balances in [&amounts, &keys] {
        assert_eq!(asked(&Request { balances, ..cell.request(6_000, 6) }), Err(Refusal::StateDiffers));
    }
    // In a later settlement the amounts are the witness's, and the epochs are not looked at.
    let (on_chain, args) = cell.settled_once();
    let witness = Witness::from_chain(&on_chain, &args).expect("a witness");
    let tracked = cell.tracked.after(&witness).expect("the list goes on");
    let later = Request { args: &args, tracked: &tracked, witness: Some(&witness), ..cell.request(0, 2) };
    assert_eq!(asked(&Request { balances: &keys, ..later }), Err(Refusal::KeysDiffer));
    // The TLC that we offered stands first, and has not expired.
    let waits = Ok(Cause::ExpiryNotPassed { tlc: 0 });
    assert_eq!(asked(&Request { balances: &amounts, ..later }), waits);
    let (cell_epoch, tip_epoch) = (later.tip_epoch, Epoch::new(10, 0, 0).expect("an epoch"));
    assert_eq!(asked(&Request { cell_epoch, tip_epoch, ..later }), waits);
}

/// Keys that are not those of the slots. Where a slot has zeros its key is not in the cell any more.
#[test]
fn keys_in_a_later_settlement() {
    for commitment in COMMITMENTS {
        let cell = Cell::new(HashLength::Short, commitment);
        let state = first_state(HashLength::Short, &cell.tlcs, &cell.balances).expect("a state");
        let b = cell.balances;
        let stranger = [0x99; 33];
        let swapped = Balances { our_key: b.their_key, their_key: b.our_key, ..b };
        let (ours, theirs) = (Balances { our_key: stranger, ..b }, Balances { their_key: stranger, ..b });
        for paid in [Side::Us, Side::Them] {
            let (on_chain, args) = share_paid(&state, &cell.args, commitment.party(paid));
            let witness = Witness::from_chain(&on_chain, &args).expect("a witness");
            let later = Request { args: &args, witness: Some(&witness), ..cell.request(0, 2) };
            let (absent, wrong) = if paid == Side::Us { (&ours, &theirs) } else { (&theirs, &ours) };
            assert_eq!(asked(&Request { balances: &swapped, ..later }), Err(Refusal::KeysDiffer));
            assert_eq!(asked(&Request { balances: wrong, ..later }), Err(Refusal::KeysDiffer));
            for balances in [&b, absent] {
                let request = Request { balances, ..later };
                if paid == Side::Us {
                    assert_eq!(asked(&request), Ok(Cause::NotOurShare));
                } else {
                    let mut out = vec![0; request.output_length()];
                    assert!(unlocked(choose(&request, &mut out)).is_last());
                }
            }
        }
    }
}

/// Without TLCs no record tells whose commitment it is: the keys do.
#[test]
fn the_wrong_commitment_without_tlcs() {
    let cell = Cell::new(HashLength::Full, Commitment::Ours);
    let [ours, theirs] = COMMITMENTS.map(|commitment| SettlementTlcs::new(commitment, &[]));
    let state = first_state(HashLength::Full, &ours, &cell.balances).expect("a state");
    for paid in [Party::Owner, Party::Other] {
        let (on_chain, args) = share_paid(&state, &cell.args, paid);
        let witness = Witness::from_chain(&on_chain, &args).expect("a witness");
        let tracked = TrackedTlcs::standing(&theirs, witness.left()).expect("none");
        let request = Request {
            args: &args,
            tlcs: &theirs,
            tracked: &tracked,
            witness: Some(&witness),
            ..cell.request(0, 2)
        };
        assert_eq!(asked(&request), Err(Refusal::KeysDiffer));
    }
}

#[test]
fn times_in_other_units() {
    let told = MedianTime::from_millis;
    for time in [0, 1_700_000_000, 1_499_999_999_999] {
        assert_eq!(told(time), Err(TimeError::Below(time)));
    }
    for time in [10_000_000_000_000, 1_700_000_000_000_000, 1_700_000_000_000_000_000, u64::MAX] {
        assert_eq!(told(time), Err(TimeError::Above(time)));
    }
    for time in [1_500_000_000_000, START_MS, 9_999_999_999_999] {
        assert_eq!(told(time).map(MedianTime::millis), Ok(time));
    }
    assert!(TimeError::Below(3).to_string().contains("is it in seconds?"));
    assert!(TimeError::Above(3).to_string().contains("is it in microseconds or nanoseconds?"));
}

#[test]
fn first_and_later() {
    let cell = Cell::new(HashLength::Full, Commitment::Ours);
    let (on_chain, args) = cell.settled_once();
    let witness = Witness::from_chain(&on_chain, &args).expect("a witness");
    let tracked = cell.tracked.after(&witness).expect("the list goes on");
    let later = Request { args: &args, tracked: &tracked, witness: Some(&witness), ..cell.request(0, 2) };
    assert_eq!(asked(&later), Ok(Cause::ExpiryNotPassed { tlc: 0 }));
    assert_eq!(asked(&Request { witness: None, ..later }), Err(Refusal::WitnessMissing));
    assert_eq!(asked(&Request { args: &cell.args, ..later }), Err(Refusal::WitnessOfFirst));
    // The list of the cell before, and in the first settlement that of the cell behind.
    assert_eq!(
        asked(&Request { tracked: &cell.tracked, ..later }),
        Err(Refusal::TrackedDiffers { place: 0 })
    );
    assert_eq!(
        asked(&Request { tracked: &tracked, ..cell.request(0, 2) }),
        Err(Refusal::TrackedDiffers { place: 0 })
    );
    // Settlement TLCs other than those that the tracked list is from: their keys would not be found.
    let list = SettlementTlcs::new(Commitment::Ours, &cell.list[1..]);
    assert_eq!(asked(&Request { tlcs: &list, ..later }), Err(Refusal::Mixed { part: "tracked list" }));
    // The witness of another cell.
    let mut bytes = args.as_bytes().to_vec();
    bytes[36] ^= 1;
    let elsewhere = LockArgs::parse(&bytes).expect("args");
    assert_eq!(asked(&Request { args: &elsewhere, ..later }), Err(Refusal::StateDiffers));
}

/// A list that is one short or one long differs where it, or the state, ends.
#[test]
fn a_tracked_list_of_another_cell() {
    for hash_length in LENGTHS {
        let cell = Cell::new(hash_length, Commitment::Ours);
        let state = first_state(hash_length, &cell.tlcs, &cell.balances).expect("a state");
        let on_chain = [&CHAIN_PREFIX[..], &[1], state.as_bytes(), &[2, 0], &[9; 65]].concat();
        let witness = Witness::from_chain(&on_chain, &cell.args).expect("a witness");
        let left = cell.tracked.after(&witness).expect("the list goes on");
        let mut bytes = cell.args.as_bytes().to_vec();
        bytes[36..56].copy_from_slice(&witness.left().hash());
        bytes[56] = 1;
        let args = LockArgs::parse(&bytes).expect("args");
        let later = Request { args: &args, witness: Some(&witness), preimages: &[], ..cell.request(0, 2) };
        assert_eq!(asked(&later), Err(Refusal::TrackedDiffers { place: 2 }));
        // They offered the first one: it has not expired, and in the first settlement the delay is not over.
        assert_eq!(asked(&Request { tracked: &left, ..later }), Ok(Cause::NoPreimage { tlc: 0 }));
        let first = Request { preimages: &[], ..cell.request(0, 2) };
        assert_eq!(asked(&Request { tracked: &left, ..first }), Err(Refusal::TrackedDiffers { place: 2 }));
        assert_eq!(asked(&first), Ok(Cause::NoPreimage { tlc: 0 }));
    }
}

#[test]
fn epochs_that_are_swapped() {
    let cell = Cell::new(HashLength::Short, Commitment::Ours);
    let right = cell.request(0, 2);
    let (cell_epoch, tip_epoch) = (right.tip_epoch, right.cell_epoch);
    assert_eq!(asked(&Request { cell_epoch, tip_epoch, ..right }), Err(Refusal::CellAfterTip));
    // The cell may be in the tip: no third of the delay is due. A length of 0 is told by its own number.
    assert_eq!(asked(&cell.request(0, 0)), Ok(Cause::DelayOrExpiry { tlc: 0 }));
    let none = Epoch::new(10, 0, 0).expect("an epoch");
    assert_eq!(asked(&Request { cell_epoch: none, ..right }), Err(Refusal::LengthZero));
    assert_eq!(asked(&Request { tip_epoch: none, ..right }), Err(Refusal::LengthZero));
}

#[test]
fn another_hash_length() {
    let (short, full) =
        (Cell::new(HashLength::Short, Commitment::Ours), Cell::new(HashLength::Full, Commitment::Ours));
    let mixed = Request { tracked: &full.tracked, ..short.request(0, 2) };
    assert_eq!(asked(&mixed), Err(Refusal::Mixed { part: "tracked list" }));
    let (on_chain, args) = short.settled_once();
    let (on_full, args_full) = full.settled_once();
    let witness = Witness::from_chain(&on_chain, &args).expect("a witness");
    let other = Request { args: &args_full, witness: Some(&witness), ..full.request(0, 2) };
    assert_eq!(asked(&other), Err(Refusal::Mixed { part: "witness" }));
    assert_eq!(full.tracked.after(&witness), Err(Refusal::Mixed { part: "tracked list" }));
    // Without TLCs a state has the same bytes in both, and still is of one.
    let none = SettlementTlcs::new(Commitment::Ours, &[]);
    let [one, other] = LENGTHS.map(|length| first_state(length, &none, &short.balances).expect("a state"));
    let mut bytes = short.args.as_bytes().to_vec();
    bytes[36..56].copy_from_slice(&one.hash());
    let args_of_none = LockArgs::parse(&bytes).expect("args");
    assert_eq!(one.as_bytes(), other.as_bytes());
    assert_eq!((one.matches(&args_of_none), other.matches(&args_of_none)), (true, false));
    // Bytes read with the args of another channel are turned down, or do not belong to the cell.
    for (bytes, wrong) in [(&on_chain, &args_full), (&on_full, &args)] {
        let matches = Witness::from_chain(bytes, wrong).map(|witness| witness.state_matches(wrong));
        assert!(matches!(matches, Err(_) | Ok(false)), "{matches:?}");
    }
}

#[test]
fn the_bytes_in_front() {
    let cell = Cell::new(HashLength::Short, Commitment::Ours);
    let (on_chain, args) = cell.settled_once();
    let whole = Witness::from_chain(&on_chain, &args).expect("a witness");
    assert_eq!(Witness::without_prefix(&on_chain[16..], HashLength::Short).as_ref(), Ok(&whole));
    assert_eq!(Witness::without_prefix(&on_chain, HashLength::Short), Err(Refusal::PrefixLeft));
    assert_eq!(Witness::from_chain(&on_chain[16..], &args), Err(Refusal::PrefixMissing));
    assert_eq!(Witness::from_chain(&on_chain[..15], &args), Err(Refusal::PrefixMissing));
    assert_eq!(Witness::from_chain(&on_chain[..17], &args), Err(Refusal::WitnessShort { length: 1 }));
    let twice = [&CHAIN_PREFIX[..], &on_chain].concat();
    assert_eq!(Witness::from_chain(&twice, &args), Err(Refusal::PrefixLeft));
    // Places count behind them.
    let cut = &on_chain[..on_chain.len() - 1];
    assert_eq!(
        Witness::from_chain(cut, &args),
        Err(Refusal::UnlockCut { at: 1 + HashLength::Short.state(3) as u64 })
    );
}

#[test]
fn a_witness_that_does_not_spend_the_cell() {
    let cell = Cell::new(HashLength::Full, Commitment::Theirs);
    let (on_chain, args) = cell.settled_once();
    let witness = Witness::from_chain(&on_chain, &args).expect("a witness");
    let left = cell.tracked.after(&witness).expect("the list goes on");
    // The list is the next cell's already: the same witness does not go with it a second time.
    assert_eq!(left.after(&witness), Err(Refusal::RecordUnknown { place: 0 }));
    let none =
        TrackedTlcs::first(&SettlementTlcs::new(Commitment::Theirs, &[]), HashLength::Full).expect("none");
    assert!(none.is_empty());
    assert_eq!(none.after(&witness), Err(Refusal::RecordUnknown { place: 0 }));
}

#[test]
fn lock_args_of_no_channel() {
    let mut bytes = [0; 58];
    for length in (0..57).chain(59..70) {
        assert_eq!(LockArgs::parse(&vec![0; length]), Err(ArgsError::Length(length)));
    }
    for features in [0, 2, 3, 255] {
        bytes[57] = features;
        assert_eq!(LockArgs::parse(&bytes), Err(ArgsError::Features(features)));
    }
    bytes[57] = 1;
    for later in [2, 0x10, 255] {
        bytes[56] = later;
        assert_eq!(LockArgs::parse(&bytes), Err(ArgsError::Later(later)));
        assert_eq!(LockArgs::parse(&bytes[..57]), Err(ArgsError::Later(later)));
    }
    for (later, length) in [(0, 57), (1, 57), (0, 58), (1, 58)] {
        bytes[56] = later;
        let args = LockArgs::parse(&bytes[..length]).expect("args");
        assert_eq!((args.is_later(), args.is_first()), (later == 1, later == 0));
        assert_eq!(args.as_bytes(), &bytes[..length]);
        assert_eq!(args.hash_length().bytes(), if length == 58 { 32 } else { 20 });
    }
    let key = [7; 32];
    bytes[..20].copy_from_slice(&ckb_hash(&key).expect("a hash")[..20]);
    let args = LockArgs::parse(&bytes).expect("args");
    assert_eq!((args.is_of(&key), args.is_of(&[8; 32])), (Ok(true), Ok(false)));
}

#[test]
fn a_delay_is_what_the_library_takes_for_one() {
    let cell = Cell::new(HashLength::Short, Commitment::Ours);
    let mut bytes = cell.args.as_bytes().to_vec();
    for since in
        [0, 5, 1 << 63, 0x2000_0100_0000_0003, 0x4000_0000_0000_0003, 0xC000_0100_0000_0003, u64::MAX]
            .into_iter()
            .chain((0..64).map(|bit| 0xA000_0100_0000_0003 ^ (1 << bit)))
    {
        bytes[20..28].copy_from_slice(&since.to_le_bytes());
        let args = LockArgs::parse(&bytes).expect("args");
        let told = asked(&Request { args: &args, ..cell.request(0, 0) });
        match args.delay() {
            Err(refusal) => assert_eq!(told, Err(refusal), "{since:#x}"),
            Ok(delay) => {
                // The first TLC has its preimage, and its third of the delay is not due.
                let expected = match delay.length() {
                    0 => Err(Refusal::LengthZero),
                    _ => Ok(Cause::DelayOrExpiry { tlc: 0 }),
                };
                assert_eq!(told, expected, "{since:#x}");
                assert_eq!(Epoch::from_header_epoch(delay.to_header_epoch()), Ok(delay));
                assert_eq!(Epoch::from_since(delay.to_since()), Ok(delay));
            }
        }
    }
    assert_eq!(Epoch::new(1 << 24, 0, 1), Err(EpochError::NumberAbove(1 << 24)));
}

#[test]
fn an_output_that_is_too_short() {
    let cell = Cell::new(HashLength::Full, Commitment::Theirs);
    let request = cell.request(0, 2);
    let needed = request.output_length();
    let mut out = vec![0x55; needed + 10];
    let refusal = choose(&request, &mut out[..needed - 1]).expect_err("too short");
    assert_eq!(refusal, Refusal::OutputShort { needed: needed as u64 });
    assert!(out.iter().all(|byte| *byte == 0x55));
    assert_eq!(unlocked(choose(&request, &mut out[..needed])).amount, 10);
    assert_eq!(out[needed..], [0x55; 10]);
}

#[test]
fn too_many_tlcs() {
    let cell = Cell::new(HashLength::Short, Commitment::Ours);
    let list = |n: usize| SettlementTlcs::new(Commitment::Ours, &vec![cell.list[1]; n]);
    assert!(first_state(HashLength::Short, &list(255), &cell.balances).is_ok());
    assert_eq!(first_state(HashLength::Short, &list(256), &cell.balances), Err(Refusal::TooManyTlcs));
    let tlcs = list(255);
    let mut bytes = cell.args.as_bytes().to_vec();
    bytes[36..56]
        .copy_from_slice(&first_state(HashLength::Short, &tlcs, &cell.balances).expect("a state").hash());
    let args = LockArgs::parse(&bytes).expect("args");
    let tracked = TrackedTlcs::first(&tlcs, HashLength::Short).expect("records");
    let request = Request { args: &args, tlcs: &tlcs, tracked: &tracked, ..cell.request(6_000, 6) };
    assert_eq!(asked(&request), Err(Refusal::TooManyTlcs));
}

/// A scaled delay whose index is its length is handed out as the reference makes it.
#[test]
fn a_since_that_the_chain_turns_down() {
    let cell = Cell::new(HashLength::Short, Commitment::Ours);
    let mut bytes = cell.args.as_bytes().to_vec();
    bytes[20..28].copy_from_slice(&Epoch::new(1, 300, 601).expect("an epoch").to_since().to_le_bytes());
    let args = LockArgs::parse(&bytes).expect("args");
    let request = Request { args: &args, preimages: &[], ..cell.request(6_000, 1) };
    let mut out = vec![0; request.output_length()];
    let chosen = unlocked(choose(&request, &mut out));
    assert_eq!(chosen.unlocks, Unlocked::Tlc { place: 1, way: Way::Timeout });
    assert_eq!(chosen.input_since(), 0xA003_8503_8500_0000);
    // The next whole number is due as well, and not below it.
    let (delay, whole) = (chosen.delay.expect("a delay"), Epoch::new(1, 0, 1).expect("an epoch"));
    let start = Epoch::new(0, 0, 1).expect("an epoch");
    assert_eq!((is_due(start, delay, whole), is_due(start, whole, delay)), (Ok(true), Ok(true)));
    assert_eq!(is_due(request.cell_epoch, whole, request.tip_epoch), Ok(true));
}

#[test]
fn preimages_of_a_tlc() {
    let [ckb, sha256] = [Algorithm::Ckb, Algorithm::Sha256].map(|algorithm| SettlementTlc {
        algorithm,
        payment_hash: algorithm.hash(&PREIMAGE).expect("a hash"),
        ..Cell::new(HashLength::Full, Commitment::Ours).list[0]
    });
    for tlc in [ckb, sha256] {
        let pair = tlc.preimage(PREIMAGE).expect("a pair");
        assert_eq!((pair.hash(), pair.preimage()), (tlc.payment_hash, PREIMAGE));
        assert_eq!(pair.counts(tlc.algorithm), Ok(true));
        assert_eq!(tlc.preimage([0xD6; 32]), Err(Refusal::PreimageDiffers));
    }
    // The other algorithm, and the other hash.
    let turned = SettlementTlc { algorithm: Algorithm::Sha256, ..ckb };
    assert_eq!(turned.preimage(PREIMAGE), Err(Refusal::PreimageDiffers));
    let turned = SettlementTlc { payment_hash: sha256.payment_hash, ..ckb };
    assert_eq!(turned.preimage(PREIMAGE), Err(Refusal::PreimageDiffers));
}

/// Several unlocks in one witness: a preimage is hashed as the TLC says that stood at the place before any unlock.
#[test]
fn preimages_that_a_witness_shows() {
    for hash_length in LENGTHS {
        let cell = Cell::new(hash_length, Commitment::Theirs);
        let state = first_state(hash_length, &cell.tlcs, &cell.balances).expect("a state");
        let mut bytes = [&CHAIN_PREFIX[..], &[4], state.as_bytes()].concat();
        for (place, preimage) in [(0, Some(1)), (0xFF, Some(2)), (1, None), (2, Some(3))] {
            bytes.extend([place, u8::from(preimage.is_some())]);
            bytes.extend([9; 65]);
            bytes.extend(preimage.map_or(vec![], |byte| vec![byte; 32]));
        }
        let witness = Witness::from_chain(&bytes, &cell.args).expect("a witness");
        assert_eq!(witness.left().tlcs().len(), 0);
        let shown: Vec<Preimage> = witness.preimages().collect();
        let pair = |algorithm, byte| Preimage::of(algorithm, [byte; 32]).expect("a hash");
        assert_eq!(shown, [pair(Algorithm::Ckb, 1), pair(Algorithm::Sha256, 3)]);
        assert_eq!(cell.list.iter().map(|tlc| tlc.algorithm as u8).collect::<Vec<_>>(), [0, 1, 1]);
    }
}

#[test]
fn no_text_shows_a_preimage() {
    let cell = Cell::new(HashLength::Short, Commitment::Ours);
    let (on_chain, args) = cell.settled_once();
    let witness = Witness::from_chain(&on_chain, &args).expect("a witness");
    let request = Request { witness: Some(&witness), ..cell.request(0, 2) };
    let mut out = vec![0; cell.request(0, 2).output_length()];
    let chosen = unlocked(choose(&cell.request(0, 2), &mut out));
    let texts = [
        format!("{request:?} {request:#?}"),
        format!("{chosen:?} {:?}", Outcome::Unlock(chosen)),
        format!("{witness:?} {:?}", witness.unlocks().next()),
        format!("{:?} {:#?}", cell.preimages, cell.list[0].preimage(PREIMAGE)),
        format!("{:?} {:?}", witness.preimages().collect::<Vec<_>>(), cell.list[1].preimage(PREIMAGE)),
        format!("{:?} {:?}", witness.left(), cell.tracked),
    ];
    for text in texts {
        let flat = text.split_whitespace().collect::<String>().to_lowercase();
        assert!(!flat.contains("215,215") && !flat.contains("d7d7"), "{text}");
    }
    assert!(chosen.unlock.ends_with(&[0xD7; 32]), "the unlock has it");
}

#[test]
fn pairs_are_lent_as_they_lie() {
    let pairs = [[1, 2], [3, 4]].map(|[hash, preimage]| Preimage::stored([hash; 32], [preimage; 32]));
    let lent = flat(&pairs);
    assert_eq!(lent.as_ptr(), pairs.as_ptr().cast());
    assert_eq!(lent, [[1; 32], [2; 32], [3; 32], [4; 32]].concat());
    assert_eq!(flat(&[]), []);
    // The first pair with the hash hides a right one behind it.
    let cell = Cell::new(HashLength::Short, Commitment::Ours);
    let wrong = Preimage::stored(cell.preimages[0].hash(), [1; 32]);
    assert_eq!(
        (wrong.counts(Algorithm::Ckb), cell.preimages[0].counts(Algorithm::Ckb)),
        (Ok(false), Ok(true))
    );
    let preimages = [wrong, cell.preimages[0]];
    assert_eq!(
        asked(&Request { preimages: &preimages, ..cell.request(0, 2) }),
        Ok(Cause::NoPreimage { tlc: 0 })
    );
    let preimages = [cell.preimages[0], wrong];
    let request = Request { preimages: &preimages, ..cell.request(0, 2) };
    assert_eq!(unlocked(choose(&request, &mut vec![0; request.output_length()])).amount, 10);
}

#[test]
fn an_answer_that_the_header_does_not_have() {
    let odd = |at: usize, value: u64| {
        let mut bytes = [0; l::CHOOSE_ANSWER];
        bytes[at..at + 8].copy_from_slice(&value.to_le_bytes());
        Fields(c::Answer::of(bytes))
    };
    let answer = |field, value| Some(Refusal::Answer { field, value });
    assert_eq!(odd(l::CHOOSE_KIND, 3).unlocks().err(), answer("CHOOSE_KIND", 3));
    assert_eq!(odd(l::CHOOSE_KEY_KIND, 2).key().err(), answer("CHOOSE_KEY_KIND", 2));
    let cell = Cell::new(HashLength::Short, Commitment::Ours);
    for (place, told) in [(2, None), (3, Some(3)), (u64::MAX, Some(u64::MAX))] {
        let mut bytes = [0; l::CHOOSE_ANSWER];
        bytes[l::CHOOSE_KEY_KIND] = l::KEY_OF_TLC as u8;
        bytes[l::CHOOSE_KEY_PLACE..][..8].copy_from_slice(&place.to_le_bytes());
        let signer = Fields(c::Answer::of(bytes)).signer(&cell.tlcs, &cell.balances).err();
        assert_eq!(signer, told.and_then(|value| answer("CHOOSE_KEY_PLACE", value)));
    }
    assert_eq!(odd(l::CHOOSE_DELAY_KIND, 2).delay().err(), answer("CHOOSE_DELAY_KIND", 2));
    assert_eq!(odd(l::CHOOSE_LAST, 2).last().err(), answer("CHOOSE_LAST", 2));
    for value in [11, u64::MAX] {
        assert_eq!(
            odd(l::CHOOSE_RECORD_PLACE, value).record(&[0; 10]).err(),
            answer("CHOOSE_RECORD_PLACE", value)
        );
        assert_eq!(
            odd(l::CHOOSE_RECORD_LENGTH, value).record(&[0; 10]).err(),
            answer("CHOOSE_RECORD_PLACE", 0)
        );
        assert_eq!(
            odd(l::CHOOSE_UNLOCK_LENGTH, value).joined(&[0; 10]).err(),
            answer("CHOOSE_UNLOCK_LENGTH", value)
        );
    }
    assert_eq!(odd(l::CHOOSE_UNLOCK_LENGTH, 66).joined(&[0; 100]).err(), answer("CHOOSE_UNLOCK_LENGTH", 66));
    let written = |length| State::written(vec![1; length], HashLength::Short, "UPDATE_LENGTH").err();
    assert_eq!(written(0), answer("UPDATE_LENGTH", 0));
    assert_eq!(written(157), answer("UPDATE_LENGTH", 157));
    assert_eq!(written(158), None);
}

/// A host that keeps the length by itself, and the one from before: the library cannot see it, and the entry is lost.
#[test]
fn an_append_with_the_length_from_before() {
    let entry = |amount| JournalEntry { channel: ChannelId([7; 32]), unlock: 0xFE, flag: 0, amount };
    let raw = |slice: &mut [u8], length, amount| {
        c::journal_append(slice, length, &c::Entry { channel: &[7; 32], unlock: 0xFE, flag: 0, amount })
    };
    let mut slice = [0; 186];
    assert_eq!((raw(&mut slice, 0, 30), raw(&mut slice, 0, 500)), (Ok(62), Ok(62)));
    assert_eq!(Journal::of(&mut slice, 62).expect("a journal").entries(), Ok(vec![entry(500)]));
    // Here the length goes with the bytes.
    let mut journal = Journal::empty(&mut slice);
    assert!(journal.append(&entry(30)).is_ok() && journal.append(&entry(500)).is_ok());
    assert_eq!(journal.entries(), Ok(vec![entry(500), entry(30)]));
}

/// Unlock byte and flag are one byte each, and a journal takes them as given: names keep them apart.
#[test]
fn an_unlock_and_its_flag_in_the_wrong_order() {
    let cell = Cell::new(HashLength::Full, Commitment::Theirs);
    let request = cell.request(0, 2);
    let mut out = vec![0; request.output_length()];
    let chosen = unlocked(choose(&request, &mut out));
    let right = JournalEntry::of(ChannelId([7; 32]), &chosen);
    assert_eq!((right.unlock, right.flag), (0, 1));
    let wrong = JournalEntry { unlock: right.flag, flag: right.unlock, ..right };
    let mut slice = [0; 124];
    let mut journal = Journal::empty(&mut slice);
    assert!(journal.append(&wrong).is_ok() && journal.append(&right).is_ok());
    assert_eq!(journal.entries(), Ok(vec![right, wrong]));
}

/// The length of one journal with the bytes of another, and a journal that is read from its middle.
#[test]
fn a_length_and_bytes_that_do_not_belong_together() {
    let entry = JournalEntry { channel: ChannelId([7; 32]), unlock: 0xFE, flag: 0, amount: 5 };
    let mut slice = [0x55; 310];
    let mut journal = Journal::empty(&mut slice);
    for _ in 0..3 {
        journal.append(&entry).expect("room");
    }
    // Longer than it is, shorter than it is, counted in entries, and cut at its front.
    assert_eq!(Journal::of(&mut slice, 248).err(), Some(JournalRefusal::Broken { at: 236 }));
    assert_eq!(Journal::of(&mut slice, 100).err(), Some(JournalRefusal::Broken { at: 88 }));
    assert_eq!(Journal::of(&mut slice, 3).err(), Some(JournalRefusal::Broken { at: 0 }));
    assert_eq!(Journal::of(&mut slice[62..], 124).err(), Some(JournalRefusal::Broken { at: 112 }));
    assert_eq!(Journal::of(&mut slice, 311).err(), Some(JournalRefusal::NotWell));
    // A beginning of whole entries is a journal too: none of the calls can tell that it had more.
    assert_eq!(Journal::of(&mut slice, 124).map(|journal| journal.len()), Ok(124));
}
