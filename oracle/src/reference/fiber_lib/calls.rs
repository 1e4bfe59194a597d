//! The sliced reference, called with plain data. A panic is an answer; one that a stand-in raised because nothing
//! says what the real thing does is an answer of its own kind.

use super::*;
use crate::document::Epoch;
use std::fmt;
use std::panic::{catch_unwind, AssertUnwindSafe};

/// What the Rust says.
#[derive(Debug, Clone, PartialEq, Eq)]
pub enum Rust<V> {
    Value(V),
    /// `None`, `Err` or `false`: the Rust gives no number and no place.
    TurnedDown,
    /// Nothing to do yet.
    Wait(Wait),
    Panicked(String),
    /// The text handed a stand-in what no document at hand speaks about. What the Rust does is not shown.
    NotModelled(NotModelled),
}

/// Where the Rust waits. It says `Ok(None)` each time and gives no number and no place: marks that only the shims leave
/// tell these three apart, and nothing of it tells what the walk waits for.
#[derive(Debug, Clone, Copy, PartialEq, Eq)]
pub enum Wait {
    ListDiffers,
    NotOurShare,
    Walk,
}

impl Wait {
    /// Is this document 01's number for it?
    pub fn is(self, number: u64) -> bool {
        match self {
            Wait::ListDiffers => number == 20,
            Wait::NotOurShare => number == 21,
            Wait::Walk => (22..=25).contains(&number),
        }
    }
}

impl fmt::Display for Wait {
    fn fmt(&self, f: &mut fmt::Formatter<'_>) -> fmt::Result {
        f.write_str(match self {
            Wait::ListDiffers => "waits (20)",
            Wait::NotOurShare => "waits (21)",
            Wait::Walk => "waits in the walk (22 to 25)",
        })
    }
}

pub fn caught<V>(call: impl FnOnce() -> Rust<V>) -> Rust<V> {
    catch_unwind(AssertUnwindSafe(call)).unwrap_or_else(|panic| {
        if let Some(not_modelled) = panic.downcast_ref::<NotModelled>() {
            return Rust::NotModelled(not_modelled.clone());
        }
        let text = panic.downcast_ref::<String>().cloned();
        let text = text.or_else(|| panic.downcast_ref::<&str>().map(|t| t.to_string()));
        Rust::Panicked(text.unwrap_or_default())
    })
}

/// The call's answer, or this one where it panics.
pub fn caught_or<V>(other: V, call: impl FnOnce() -> V) -> V {
    catch_unwind(AssertUnwindSafe(call)).unwrap_or(other)
}

// ---- Epochs and since values ----

fn packed(epoch: Epoch) -> EpochNumberWithFraction {
    EpochNumberWithFraction::of_fields(epoch.number, epoch.index, epoch.length)
}

fn unpacked(epoch: EpochNumberWithFraction) -> Epoch {
    Epoch { number: epoch.number(), index: epoch.index(), length: epoch.length() }
}

/// Fields have to fit: number below 2^24, index and length below 2^16.
pub fn scale(delay: Epoch, numerator: u64, denominator: u64) -> Rust<Epoch> {
    caught(|| match mul(packed(delay), numerator, denominator) {
        Some(epoch) => Rust::Value(unpacked(epoch)),
        None => Rust::TurnedDown,
    })
}

/// Fields have to fit, as above.
pub fn due(header: Epoch, delay: Epoch, current: Epoch) -> Rust<bool> {
    caught(|| Rust::Value(due_condition(packed(header), packed(delay), packed(current))))
}

pub fn expiry(since: u64) -> Rust<Option<u64>> {
    let tlc = Htlc {
        htlc_type: 0,
        payment_amount: 0,
        payment_hash: vec![],
        remote_htlc_pubkey_hash: [0; 20],
        local_htlc_pubkey_hash: [0; 20],
        htlc_expiry: since,
    };
    caught(|| Rust::Value(tlc.absolute_expiry()))
}

// ---- Hashes ----

pub fn ckb_hash(message: &[u8]) -> [u8; 32] {
    HashAlgorithm::CkbHash.hash(message)
}

pub fn sha256(message: &[u8]) -> [u8; 32] {
    HashAlgorithm::Sha256.hash(message)
}

/// A key's hash in every place where the text writes one: both sides of a TLC record and of the shares, and the
/// wrapper for the settlement key.
pub fn key_hashes(key: [u8; 33]) -> Vec<[u8; 20]> {
    let tlc = Tlc { received: 0, alg: 0, amount: 0, hash: [0; 32], expiry: 0, local: key, remote: key };
    let case = Case {
        h: 20,
        for_remote: false,
        args: vec![],
        time: 0,
        header: (0, 0, 1),
        current: (0, 0, 1),
        tlcs: vec![tlc],
        local_amount: 0,
        remote_amount: 0,
        local_key: key,
        remote_key: key,
        tracked: vec![],
        preimages: vec![],
        witness: None,
    };
    let state = first_records(&case).expect("one TLC");
    let wrapper = channel_data_local_settlement_pubkey_hash(&channel_data(&case));
    [38, 58, 86, 122]
        .map(|at| state[at..at + 20].try_into().expect("20 bytes"))
        .into_iter()
        .chain([wrapper])
        .collect()
}

// ---- Witness and update ----

pub fn features(h: u8) -> ChannelFeatures {
    if h == 32 {
        ChannelFeatures::V2
    } else {
        ChannelFeatures::LEGACY
    }
}

#[derive(Debug, Clone, PartialEq, Eq)]
pub struct Read {
    pub n: usize,
    pub unlock_count: usize,
    /// The state, as the reference writes it back.
    pub written: Vec<u8>,
}

/// None: the reference turns the witness down.
pub fn read(h: u8, witness: &[u8]) -> Option<Read> {
    let read = SettlementWitness::build_from_witness(witness, features(h))?;
    Some(Read { n: read.pending_htlc_count, unlock_count: read.unlocks.len(), written: read.to_witness() })
}

/// The unlocks, as the reference writes them back.
pub fn unlocks(h: u8, witness: &[u8]) -> Option<Vec<u8>> {
    let read = SettlementWitness::build_from_witness(witness, features(h))?;
    Some(read.unlocks.iter().flat_map(|u| u.to_witness()).collect())
}

#[derive(Debug, Clone, PartialEq, Eq)]
pub enum Update {
    Unread,
    Refused,
    State(Vec<u8>),
    Panic,
}

pub fn update(h: u8, witness: &[u8]) -> Update {
    let Some(mut read) = SettlementWitness::build_from_witness(witness, features(h)) else {
        return Update::Unread;
    };
    match catch_unwind(AssertUnwindSafe(move || read.update().then(|| read.to_witness()))) {
        Ok(Some(state)) => Update::State(state),
        Ok(None) => Update::Refused,
        Err(_) => Update::Panic,
    }
}

/// The reader alone, for the benchmark: what it builds is dropped.
pub fn build_only(h: u8, witness: &[u8]) -> bool {
    std::hint::black_box(SettlementWitness::build_from_witness(witness, features(h))).is_some()
}

/// Reader, update and writer without more, for the benchmark.
pub fn updated(h: u8, witness: &[u8]) -> Option<Vec<u8>> {
    let mut read = SettlementWitness::build_from_witness(witness, features(h))?;
    read.update().then(|| read.to_witness())
}

// ---- First records and choice ----

/// A settlement TLC, as the host lends it.
#[derive(Debug, Clone, PartialEq, Eq)]
pub struct Tlc {
    pub received: u8,
    pub alg: u8,
    pub amount: u128,
    pub hash: [u8; 32],
    pub expiry: u64,
    pub local: [u8; 33],
    pub remote: [u8; 33],
}

#[derive(Debug, Clone, PartialEq, Eq)]
pub struct Tracked {
    pub hash: [u8; 32],
    pub alg: u8,
    pub record: Vec<u8>,
}

/// Everything the choice looks at. Epochs are number, index, length.
#[derive(Debug, Clone)]
pub struct Case {
    pub h: u8,
    pub for_remote: bool,
    pub args: Vec<u8>,
    pub time: u64,
    pub header: (u64, u64, u64),
    pub current: (u64, u64, u64),
    pub tlcs: Vec<Tlc>,
    pub local_amount: u128,
    pub remote_amount: u128,
    pub local_key: [u8; 33],
    pub remote_key: [u8; 33],
    pub tracked: Vec<Tracked>,
    pub preimages: Vec<([u8; 32], [u8; 32])>,
    /// None in a first settlement.
    pub witness: Option<Vec<u8>>,
}

#[derive(Debug, Clone, PartialEq, Eq)]
pub struct Chosen {
    pub unlock: Vec<u8>,
    pub state: Vec<u8>,
    pub new_args: Vec<u8>,
    pub amount: u128,
    /// None: the settlement key; else a place in the settlement TLC list.
    pub key: Option<usize>,
    pub delay: Option<(u64, u64, u64)>,
    /// Both sides are settled with it: no successor cell, the whole capacity goes out.
    pub last: bool,
}

#[derive(Debug, Clone, PartialEq, Eq)]
pub enum Choice {
    Unread,
    Chosen(Chosen),
    Wait(Wait),
    Error(String),
    Panic,
    NotModelled(NotModelled),
}

fn algorithm(alg: u8) -> HashAlgorithm {
    if alg == 1 {
        HashAlgorithm::Sha256
    } else {
        HashAlgorithm::CkbHash
    }
}

/// The first pair with the hash, as document 01 has it.
struct Store<'a>(&'a [([u8; 32], [u8; 32])]);

impl WatchtowerStore for Store<'_> {
    fn get_watch_preimage(&self, _: &NodeId, hash: &Hash256) -> Option<Hash256> {
        self.0.iter().find(|pair| pair.0[..] == *hash.as_ref()).map(|pair| pair.1.into())
    }
}

fn settlement_data(case: &Case) -> SettlementData {
    let tlc = |(place, t): (usize, &Tlc)| SettlementTlc {
        tlc_id: if t.received == 1 { TLCId::Received(place as u64) } else { TLCId::Offered(place as u64) },
        hash_algorithm: algorithm(t.alg),
        payment_amount: t.amount,
        payment_hash: t.hash.into(),
        expiry: t.expiry,
        local_key: Privkey { public: Pubkey(t.local), tag: place as u32 },
        remote_key: Pubkey(t.remote),
    };
    SettlementData {
        local_amount: case.local_amount,
        remote_amount: case.remote_amount,
        tlcs: case.tlcs.iter().enumerate().map(tlc).collect(),
    }
}

fn channel_data(case: &Case) -> ChannelData {
    let empty = || SettlementData { local_amount: 0, remote_amount: 0, tlcs: vec![] };
    ChannelData {
        channel_id: [0; 32].into(),
        funding_udt_type_script: None,
        local_settlement_key: Privkey { public: Pubkey(case.local_key), tag: SETTLEMENT_KEY },
        remote_settlement_key: Pubkey(case.remote_key),
        local_funding_pubkey: Pubkey([0; 33]),
        remote_funding_pubkey: Pubkey([0; 33]),
        remote_settlement_data: empty(),
        pending_remote_settlement_data: empty(),
        local_settlement_data: empty(),
        revocation_data: None,
        channel_features: features(case.h),
    }
}

/// The record of settlement TLC `place`.
pub fn tlc_record(case: &Case, place: usize) -> Vec<u8> {
    settlement_tlc_witness(&settlement_data(case).tlcs[place], case.for_remote, features(case.h))
}

/// The first state.
pub fn first_records(case: &Case) -> Result<Vec<u8>, String> {
    settlement_data_witness(
        &settlement_data(case),
        case.for_remote,
        features(case.h),
        Pubkey(case.local_key),
        Pubkey(case.remote_key),
    )
}

/// The tracked list that belongs to the settlement TLCs.
pub fn tracked(case: &Case) -> Vec<Tracked> {
    tracked_settlement_tlcs(&settlement_data(case), case.for_remote, features(case.h))
        .into_iter()
        .map(|t| Tracked {
            hash: t.payment_hash.as_ref().try_into().expect("32 bytes"),
            alg: t.hash_algorithm as u8,
            record: t.witness,
        })
        .collect()
}

fn tracked_list(case: &Case) -> Vec<TrackedSettlementTlc> {
    let entry = |t: &Tracked| TrackedSettlementTlc {
        tlc_id: TLCId::Offered(0),
        payment_hash: t.hash.into(),
        hash_algorithm: algorithm(t.alg),
        witness: t.record.clone(),
        channel_features: features(case.h),
    };
    case.tracked.iter().map(entry).collect()
}

fn fields((number, index, length): (u64, u64, u64)) -> EpochNumberWithFraction {
    EpochNumberWithFraction::of_fields(number, index, length)
}

fn cell(case: &Case) -> Cell {
    Cell { output: CellOutput(Script(Bytes(case.args.clone()))), ..Cell::default() }
}

pub fn choice(case: &Case) -> Choice {
    let read = match &case.witness {
        None => None,
        Some(witness) => match SettlementWitness::build_from_witness(witness, features(case.h)) {
            None => return Choice::Unread,
            read => read,
        },
    };
    built(case, fields(case.header), read, &tracked_list(case))
}

/// What `build_settlement_tx` makes of the case with this header's epoch, witness and tracked list.
fn built(
    case: &Case,
    header: EpochNumberWithFraction,
    read: Option<SettlementWitness>,
    tracked: &[TrackedSettlementTlc],
) -> Choice {
    let data = settlement_data(case);
    let is_later = read.is_some();
    MARKS.with(|m| m.set(Marks::default()));
    let answer = catch_unwind(AssertUnwindSafe(|| {
        build_settlement_tx(
            cell(case),
            header,
            fields(case.current),
            case.time,
            &NodeId::local(),
            case.for_remote,
            channel_data(case),
            &data,
            read,
            tracked,
            &LocalSigner,
            &mut NoCells,
            &Store(&case.preimages),
        )
    }));
    match answer {
        Err(panic) => match panic.downcast::<NotModelled>() {
            Ok(not_modelled) => Choice::NotModelled(*not_modelled),
            Err(_) => Choice::Panic,
        },
        Ok(Err(error)) => Choice::Error(error.to_string()),
        Ok(Ok(None)) => Choice::Wait(wait(is_later)),
        Ok(Ok(Some(t))) => Choice::Chosen(Chosen {
            unlock: t.unlock,
            state: t.state,
            new_args: t.new_args,
            amount: t.amount,
            key: (t.key.tag != SETTLEMENT_KEY).then_some(t.key.tag as usize),
            delay: t.is_first_settlement.then(|| (t.delay.number(), t.delay.index(), t.delay.length())),
            last: t.last,
        }),
    }
}

/// A case in the reference's own types, for the benchmark.
pub struct Prepared {
    case: Case,
    data: SettlementData,
    tracked: Vec<TrackedSettlementTlc>,
}

impl Prepared {
    pub fn new(case: &Case) -> Prepared {
        Prepared { case: case.clone(), data: settlement_data(case), tracked: tracked_list(case) }
    }

    /// Reader and choice without more. Is something chosen?
    pub fn choose(&self) -> bool {
        let case = &self.case;
        let read = case.witness.as_ref().map(|witness| {
            SettlementWitness::build_from_witness(witness, features(case.h)).expect("a whole witness")
        });
        let answer = build_settlement_tx(
            cell(case),
            fields(case.header),
            fields(case.current),
            case.time,
            &NodeId::local(),
            case.for_remote,
            channel_data(case),
            &self.data,
            read,
            &self.tracked,
            &LocalSigner,
            &mut NoCells,
            &Store(&case.preimages),
        );
        matches!(std::hint::black_box(answer), Ok(Some(_)))
    }
}

/// One `Since` is made for the args and one for each TLC walked in a later settlement. A later settlement that gets
/// to the walk and waits has at least one TLC.
fn wait(is_later: bool) -> Wait {
    let marks = MARKS.with(|m| m.get());
    if marks.list_differs {
        Wait::ListDiffers
    } else if is_later && marks.sinces == 1 {
        Wait::NotOurShare
    } else {
        Wait::Walk
    }
}

// ---- Who calls build_settlement_tx ----

/// What becomes of a live cell whose transaction has this witness.
#[derive(Debug, Clone, PartialEq, Eq)]
pub enum OnLiveCell {
    /// The caller's statements pass it over: `build_settlement_tx` is not called.
    PassedOver,
    /// What is chosen, and whether the cell was taken for a first settlement.
    Chosen { as_first: bool, choice: Choice },
}

/// Keeps nothing: the scan only writes to it.
impl caller::WatchtowerStore for Store<'_> {
    fn insert_watch_preimage(&self, _: NodeId, _: Hash256, _: Hash256) {}
    fn insert_onchain_tlc_settlement(
        &self,
        _: &NodeId,
        _: &Hash256,
        _: TLCId,
        _: caller::OnChainTlcSettlement,
    ) {
    }
}

/// The case's later settlement on a chain: the transaction spends the first cell and leaves the live cell that is to
/// be settled. The scan is given it with the witness `scanned`, the caller with the case's own; its hash is the same,
/// since it is not over the witnesses.
pub fn on_live_cell(case: &Case, scanned: &[u8]) -> OnLiveCell {
    let first = OutPoint(Byte32([1; 32]), 0);
    let hash = Byte32([2; 32]);
    let node = |witness: &[u8]| CkbRpcClient {
        transactions: vec![Transaction {
            hash,
            inputs: List(vec![CellInput(first.clone())]),
            outputs: List(vec![cell(case).output]),
            witnesses: List(vec![Bytes([&XUDT_COMPATIBLE_WITNESS, witness].concat())]),
        }],
        epoch: fields(case.header),
    };
    let handed_on = caller::on_live_cell(
        Cell { out_point: CellOutPoint { tx_hash: hash, index: Index(0) }, ..cell(case) },
        &Script(Bytes(case.args[..36].to_vec())),
        first.clone(),
        tracked_settlement_tlcs(&settlement_data(case), case.for_remote, features(case.h)),
        &node(scanned),
        &node(case.witness.as_deref().expect("a later settlement")),
        &Store(&case.preimages),
        &channel_data(case),
    );
    match handed_on {
        None => OnLiveCell::PassedOver,
        Some((header, read, tracked)) => {
            OnLiveCell::Chosen { as_first: read.is_none(), choice: built(case, header, read, &tracked) }
        }
    }
}
