//! A made-up commitment cell, seen by one side or by the other, and what the types say of it.

use crate::layout as l;
use crate::*;

pub const LENGTHS: [HashLength; 2] = [HashLength::Short, HashLength::Full];
pub const COMMITMENTS: [Commitment; 2] = [Commitment::Ours, Commitment::Theirs];
/// The time that a test counts from.
pub const START_MS: u64 = 1_700_000_000_000;
/// 0xD7 is 215, by which a test finds a preimage in a text.
pub const PREIMAGE: [u8; 32] = [0xD7; 32];

/// What a tower knows of the cell.
#[derive(Clone)]
pub struct Cell {
    pub args: LockArgs,
    pub list: Vec<SettlementTlc>,
    pub tlcs: SettlementTlcs,
    pub tracked: TrackedTlcs,
    pub balances: Balances,
    pub preimages: Vec<Preimage>,
}

/// Three TLCs: they offered the first, whose preimage we have; we offered the second; they offered the third.
fn list() -> Vec<SettlementTlc> {
    let ckb = Preimage::of(Algorithm::Ckb, PREIMAGE).expect("a hash").hash();
    let tlc = |offered_by, algorithm, amount, payment_hash, number: u8| SettlementTlc {
        offered_by,
        algorithm,
        amount,
        payment_hash,
        expiry_ms: START_MS + 5_999,
        our_key: [0x40 + number; 33],
        their_key: [0x80 + number; 33],
    };
    vec![
        tlc(Side::Them, Algorithm::Ckb, 10, ckb, 1),
        tlc(Side::Us, Algorithm::Sha256, 20, [0x22; 32], 2),
        tlc(Side::Them, Algorithm::Sha256, 40, [0x33; 32], 3),
    ]
}

impl Cell {
    pub fn new(hash_length: HashLength, commitment: Commitment) -> Cell {
        let balances =
            Balances { our_amount: 100, their_amount: 200, our_key: [0x40; 33], their_key: [0x80; 33] };
        Cell::of(hash_length, commitment, list(), balances)
    }

    pub fn of(
        hash_length: HashLength,
        commitment: Commitment,
        list: Vec<SettlementTlc>,
        balances: Balances,
    ) -> Cell {
        let tlcs = SettlementTlcs::new(commitment, &list);
        let state = first_state(hash_length, &tlcs, &balances).expect("a state");
        let mut bytes = vec![0; if hash_length == HashLength::Full { 58 } else { 57 }];
        bytes[20..28].copy_from_slice(&Epoch::new(6, 0, 1).expect("an epoch").to_since().to_le_bytes());
        bytes[36..56].copy_from_slice(&state.hash());
        if let Some(features) = bytes.get_mut(57) {
            *features = 1;
        }
        let tracked = TrackedTlcs::first(&tlcs, hash_length).expect("records");
        let preimages = vec![Preimage::of(Algorithm::Ckb, PREIMAGE).expect("a hash")];
        Cell { args: LockArgs::parse(&bytes).expect("args"), list, tlcs, tracked, balances, preimages }
    }

    /// The same cell as the other side knows it.
    pub fn other_side(&self) -> Cell {
        let commitment = match self.tlcs.commitment() {
            Commitment::Ours => Commitment::Theirs,
            Commitment::Theirs => Commitment::Ours,
        };
        let list = self.list.iter().map(|tlc| SettlementTlc {
            offered_by: if tlc.offered_by == Side::Us { Side::Them } else { Side::Us },
            our_key: tlc.their_key,
            their_key: tlc.our_key,
            ..*tlc
        });
        let b = self.balances;
        let balances = Balances {
            our_amount: b.their_amount,
            their_amount: b.our_amount,
            our_key: b.their_key,
            their_key: b.our_key,
        };
        Cell::of(self.args.hash_length(), commitment, list.collect(), balances)
    }

    /// A request so many milliseconds after the start and so many epochs after the cell.
    pub fn request(&self, time: u64, epochs: u32) -> Request<'_> {
        Request {
            args: &self.args,
            tlcs: &self.tlcs,
            tracked: &self.tracked,
            balances: &self.balances,
            preimages: &self.preimages,
            witness: None,
            time: at(time),
            cell_epoch: Epoch::new(10, 0, 1).expect("an epoch"),
            tip_epoch: Epoch::new(10 + epochs, 0, 1).expect("an epoch"),
        }
    }

    /// The first settlement takes the first TLC: what goes on chain, and the args of the next cell.
    pub fn settled_once(&self) -> (Vec<u8>, LockArgs) {
        let request = self.request(0, 2);
        let mut out = vec![0; request.output_length()];
        let chosen = unlocked(choose(&request, &mut out));
        (chosen.signed_witness(&[9; 65]), *chosen.new_args().expect("a next cell"))
    }
}

/// So many milliseconds after the start.
pub fn at(time: u64) -> MedianTime {
    MedianTime::from_millis(START_MS + time).expect("a time")
}

/// The state, a side's unlock of its share behind it, as it is on chain; and the args of the cell that this makes.
pub fn share_paid(state: &State, args: &LockArgs, party: Party) -> (Vec<u8>, LockArgs) {
    settled(state, args, party.share_byte())
}

/// The same for the unlock of any byte, without a preimage.
pub fn settled(state: &State, args: &LockArgs, byte: u8) -> (Vec<u8>, LockArgs) {
    let on_chain = [&CHAIN_PREFIX[..], &[1], state.as_bytes(), &[byte, 0], &[9; 65]].concat();
    let mut bytes = args.as_bytes().to_vec();
    let left = Witness::from_chain(&on_chain, args).expect("a witness").left().hash();
    bytes[36..56].copy_from_slice(&left);
    bytes[56] = 1;
    (on_chain, LockArgs::parse(&bytes).expect("args"))
}

/// Asks, and holds the output unchanged where there is no unlock.
pub fn asked(request: &Request) -> Result<Cause, Refusal> {
    let mut out = vec![0x55; request.output_length()];
    let told = match choose(request, &mut out) {
        Ok(Outcome::Wait(cause)) => Ok(cause),
        Ok(Outcome::Unlock(chosen)) => panic!("an unlock: {chosen:?}"),
        Err(refusal) => Err(refusal),
    };
    assert!(out.iter().all(|byte| *byte == 0x55));
    told
}

pub fn unlocked<'a, 'o>(answer: Result<Outcome<'a, 'o>, Refusal>) -> Chosen<'a, 'o> {
    match answer {
        Ok(Outcome::Unlock(chosen)) => chosen,
        other => panic!("no unlock: {other:?}"),
    }
}

#[test]
fn party_and_side_are_each_others_inverse() {
    for commitment in COMMITMENTS {
        for side in [Side::Us, Side::Them] {
            assert_eq!(commitment.side(commitment.party(side)), side);
        }
        assert_ne!(commitment.party(Side::Us), commitment.party(Side::Them));
    }
    assert_eq!(Commitment::Ours.party(Side::Us), Party::Owner);
    assert_eq!(Commitment::Theirs.party(Side::Them), Party::Owner);
    assert_eq!((Commitment::Ours.for_remote(), Commitment::Theirs.for_remote()), (0, 1));
    assert_eq!((Party::Owner.share_byte(), Party::Other.share_byte()), (0xFE, 0xFF));
}

#[test]
fn both_towers_make_the_same_cell() {
    for hash_length in LENGTHS {
        for commitment in COMMITMENTS {
            let cell = Cell::new(hash_length, commitment);
            let other = cell.other_side();
            assert_eq!(cell.args, other.args);
            assert_eq!(cell.tracked.as_bytes(), other.tracked.as_bytes());
            // What is ours to the one is theirs to the other.
            let state = first_state(hash_length, &cell.tlcs, &cell.balances).expect("a state");
            let (ours, theirs) = (state.owed(commitment), state.owed(other.tlcs.commitment()));
            assert_eq!((ours.our_share, ours.their_share), (theirs.their_share, theirs.our_share));
            assert_eq!((ours.our_share, ours.sum(), theirs.sum()), (100, Some(370), Some(370)));
            for (ours, theirs) in ours.tlcs.iter().zip(&theirs.tlcs) {
                assert_eq!((ours.amount, ours.expiry_ms), (theirs.amount, Some(START_MS + 5_000)));
                assert!(ours.by_timeout != theirs.by_timeout && ours.by_timeout != ours.by_preimage);
            }
        }
    }
}

#[test]
fn a_record_tells_what_the_list_says() {
    for hash_length in LENGTHS {
        for commitment in COMMITMENTS {
            let cell = Cell::new(hash_length, commitment);
            let state = first_state(hash_length, &cell.tlcs, &cell.balances).expect("a state");
            for ((tlc, known), (hash, tracked)) in state.tlcs().zip(&cell.list).zip(cell.tracked.iter()) {
                assert_eq!(tlc.offered_by_side(commitment), known.offered_by);
                assert_eq!(tlc.by_timeout(commitment), known.offered_by);
                assert_ne!(tlc.by_preimage(commitment), known.offered_by);
                assert_eq!((tlc.amount(), tlc.algorithm()), (known.amount, known.algorithm));
                assert_eq!(tlc.payment_hash(), &known.payment_hash[..hash_length.bytes()]);
                assert_eq!(
                    tlc.key_hash(commitment.party(Side::Us)),
                    key_hash(&known.our_key).expect("a hash")
                );
                assert_eq!(
                    tlc.key_hash(commitment.party(Side::Them)),
                    key_hash(&known.their_key).expect("a hash")
                );
                assert_eq!((tlc.since(), tlc.expiry_ms()), (at(5_000).to_since(), Some(START_MS + 5_000)));
                assert_eq!(Ok(tlc.record().to_vec()), tlc_record(hash_length, commitment, known));
                assert_eq!((hash, tracked), (known.payment_hash, tlc));
            }
            let shares = state.shares();
            assert_eq!(shares.of_side(Side::Us, commitment).key_hash, key_hash(&[0x40; 33]).expect("a hash"));
            assert_eq!(shares.of_side(Side::Them, commitment).amount, 200);
            assert_eq!(state.as_bytes().len(), hash_length.state(3));
        }
    }
}

#[test]
fn entries_are_laid_out_as_the_library_reads_them() {
    let tlc = SettlementTlc {
        offered_by: Side::Them,
        algorithm: Algorithm::Sha256,
        amount: 0x0201,
        payment_hash: [7; 32],
        expiry_ms: 0x0403,
        our_key: [8; 33],
        their_key: [9; 33],
    };
    let entry = tlc.entry(Commitment::Theirs);
    assert_eq!(entry[..5], [1, 1, 1, 2, 0]);
    assert_eq!(entry[17..51], [&[0][..], &[7; 32], &[3]].concat());
    assert_eq!(entry[50..58], [3, 4, 0, 0, 0, 0, 0, 0]);
    assert_eq!(entry[58..], [[8; 33], [9; 33]].concat());
    // The other commitment turns the direction, and nothing else.
    let turned = tlc.entry(Commitment::Ours);
    assert_eq!((turned[0], &turned[1..]), (0, &entry[1..]));
    let tlcs = SettlementTlcs::new(Commitment::Theirs, &[tlc, tlc]);
    assert_eq!((tlcs.len(), tlcs.as_bytes()), (2, &[entry, entry].concat()[..]));

    let tracked = TrackedTlcs::first(&tlcs, HashLength::Full).expect("records");
    let record = tlc_record(HashLength::Full, Commitment::Theirs, &tlc).expect("a record");
    let one = [&[7; 32][..], &[1], &record].concat();
    assert_eq!((one.len(), tracked.len()), (l::tracked(32), 2));
    assert_eq!(tracked.as_bytes(), [&one[..], &one].concat());
}

#[test]
fn the_first_settlement_and_what_it_leaves() {
    for hash_length in LENGTHS {
        for commitment in COMMITMENTS {
            let cell = Cell::new(hash_length, commitment);
            let request = cell.request(0, 2);
            let mut out = vec![0; request.output_length()];
            let chosen = unlocked(choose(&request, &mut out));
            assert_eq!(chosen.unlocks, Unlocked::Tlc { place: 0, way: Way::Preimage { pair: 0 } });
            assert_eq!((chosen.amount, chosen.key, chosen.is_last()), (10, Key::OfTlc(0), false));
            assert_eq!(chosen.signer(), &cell.list[0].our_key);
            assert_eq!(chosen.input_since(), cell.args.third().expect("a third").to_since());
            assert_eq!(chosen.other_inputs_since(), 0);
            assert_eq!(chosen.record, cell.tracked.iter().next().expect("one").1.record());
            let next = chosen.new_args().expect("a next cell");
            assert!(cell.args.is_first() && next.is_later());
            assert_eq!(next.delay(), cell.args.delay());

            let on_chain = chosen.signed_witness(&[9; 65]);
            let parts = [&CHAIN_PREFIX[..], &[1], chosen.state, &[0, 1], &[9; 65], &PREIMAGE].concat();
            assert_eq!(on_chain, parts);
            let witness = Witness::from_chain(&on_chain, &cell.args).expect("a witness");
            assert!(witness.spends(&cell.args) && !witness.spends(next));
            assert!(witness.state_matches(next) && !witness.state_matches(&cell.args));
            let unlocks: Vec<_> = witness.unlocks().map(|unlock| (unlock.tlc(), unlock.preimage())).collect();
            assert_eq!(unlocks, [(Some(0), Some(PREIMAGE))]);
            assert_eq!(witness.preimages().collect::<Vec<_>>(), cell.preimages);
            assert_eq!((witness.tlcs().len(), witness.left().tlcs().len()), (3, 2));
            assert_eq!(witness.owed(commitment).sum(), Some(360));
        }
    }
}

#[test]
fn a_later_settlement_up_to_the_last() {
    for hash_length in LENGTHS {
        for commitment in COMMITMENTS {
            let cell = Cell::new(hash_length, commitment);
            let (on_chain, args) = cell.settled_once();
            let witness = Witness::from_chain(&on_chain, &args).expect("a witness");
            let tracked = cell.tracked.after(&witness).expect("the list goes on");
            assert_eq!(tracked, TrackedTlcs::standing(&cell.tlcs, witness.left()).expect("found again"));
            let later =
                Request { args: &args, tracked: &tracked, witness: Some(&witness), ..cell.request(5_000, 2) };
            let mut out = vec![0; later.output_length()];
            // The one that we offered stands first now, and its record expires at 5,000.
            assert_eq!(choose(&later, &mut out), Ok(Outcome::Wait(Cause::ExpiryNotPassed { tlc: 0 })));

            // Ours by timeout, once the record's expiry is passed, which is in whole seconds.
            let later = Request { time: at(5_001), ..later };
            let chosen = unlocked(choose(&later, &mut out));
            assert_eq!(chosen.unlocks, Unlocked::Tlc { place: 0, way: Way::Timeout });
            assert_eq!((chosen.amount, chosen.key, chosen.delay), (20, Key::OfTlc(1), None));
            assert_eq!((chosen.input_since(), chosen.other_inputs_since()), (0, 0x4000_0000_6553_F105));
            assert_eq!(chosen.record, witness.tlcs().nth(1).expect("one").record());
            // The key is found by its place in the list, which is not the place in the state.
            assert_eq!(chosen.signer(), &cell.list[1].our_key);
            assert!(!chosen.is_last() && chosen.new_args().is_some());

            // Had the other side taken its share, all would be ours.
            let (paid, args) = share_paid(witness.left(), &args, commitment.party(Side::Them));
            let witness = Witness::from_chain(&paid, &args).expect("a witness");
            let last = Request { args: &args, witness: Some(&witness), ..later };
            let chosen = unlocked(choose(&last, &mut out));
            assert_eq!(
                (chosen.unlocks, chosen.amount, chosen.key),
                (Unlocked::OurShare, 100, Key::Settlement)
            );
            assert_eq!((chosen.signer(), chosen.new_args()), (&cell.balances.our_key, None));
            assert!(chosen.is_last() && chosen.record.is_empty());
        }
    }
}

/// Our share is taken once all that stands has expired without a preimage. A preimage that comes then is too late, and
/// the other side takes the whole cell.
#[test]
fn after_our_share_no_tlc_is_taken() {
    for hash_length in LENGTHS {
        for commitment in COMMITMENTS {
            let list = [SettlementTlc { offered_by: Side::Them, ..list()[0] }];
            let cell =
                Cell::of(hash_length, commitment, list.to_vec(), Cell::new(hash_length, commitment).balances);
            let mut out = vec![0; cell.request(0, 6).output_length()];
            let unknown = Request { preimages: &[], ..cell.request(5_999, 6) };
            assert_eq!(choose(&unknown, &mut out), Ok(Outcome::Wait(Cause::NoPreimage { tlc: 0 })));
            let chosen = unlocked(choose(&Request { time: at(6_000), ..unknown }, &mut out));
            assert_eq!((chosen.unlocks, chosen.is_last()), (Unlocked::OurShare, false));
            // Nothing in this transaction carries the time: a clock that is ahead is not turned down.
            assert_eq!(chosen.other_inputs_since(), 0);

            let (on_chain, args) =
                (chosen.signed_witness(&[9; 65]), *chosen.new_args().expect("a next cell"));
            let witness = Witness::from_chain(&on_chain, &args).expect("a witness");
            let tracked = cell.tracked.after(&witness).expect("the list goes on");
            assert_eq!((tracked.len(), witness.owed(commitment).our_share), (1, 0));
            let known =
                Request { args: &args, tracked: &tracked, witness: Some(&witness), ..cell.request(6_001, 7) };
            assert_eq!(choose(&known, &mut out), Ok(Outcome::Wait(Cause::NotOurShare)));
            let other = cell.other_side();
            let tracked = other.tracked.after(&witness).expect("the list goes on");
            let theirs = Request { tlcs: &other.tlcs, tracked: &tracked, balances: &other.balances, ..known };
            assert!(unlocked(choose(&theirs, &mut out)).is_last());
        }
    }
}
