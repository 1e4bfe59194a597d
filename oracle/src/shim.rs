//! Hand-written stand-ins for what the reference's text takes from crates and files that are not at hand. Each says
//! on which public document it rests; "nothing" where what it does changes no answer. "Document 01" is the port's
//! scope document.
//!
//! Where the text hands a stand-in something that no document at hand speaks about, it imitates nothing: it ends the
//! call by `not_modelled`, and that is the answer.

use crate::reference::fiber_types::{
    settlement_data_witness, settlement_tlc_witness, ChannelFeatures, Hash256, Pubkey, SettlementData,
    SettlementTlc,
};
use std::cell::Cell as Shared;

/// What a call ends with, by unwinding, where the answer would be a guess. reference/calls.rs catches it.
#[derive(Clone, Debug, PartialEq, Eq)]
pub struct NotModelled {
    /// What is not in the text.
    pub what: &'static str,
    pub handed: String,
}

fn not_modelled(what: &'static str, handed: String) -> ! {
    std::panic::resume_unwind(Box::new(NotModelled { what, handed }))
}

// ---- Logging, anyhow, hex. Rest on nothing: the text is type-checked and read by people alone. ----

macro_rules! silent {
    ($($text:tt)*) => {{
        if false {
            let _ = format!($($text)*);
        }
    }};
}
pub(crate) use silent as debug;
pub(crate) use silent as error;

/// As above. A warning that names one thing alone leaves a mark, by which wait 20 is told from all others: in
/// `build_settlement_tx` those about the tracked list name the channel, and all others name more.
macro_rules! marked {
    ($text:literal, $one:expr $(,)?) => {{
        $crate::shim::debug!($text, $one);
        $crate::shim::mark_list_differs()
    }};
    ($($text:tt)*) => {
        $crate::shim::debug!($($text)*)
    };
}
pub(crate) use marked as warn;

/// `anyhow!` only feeds an error here: its text is kept, its arguments are type-checked.
macro_rules! anyhow {
    ($text:literal $($rest:tt)*) => {{
        let _ = || format!($text $($rest)*);
        $text
    }};
}
pub(crate) use anyhow;

/// Marks left by the shims during one call.
#[derive(Clone, Copy, Default, Debug)]
pub struct Marks {
    pub list_differs: bool,
    /// How many `Since` were made.
    pub sinces: u32,
}

thread_local! {
    pub static MARKS: Shared<Marks> = const { Shared::new(Marks { list_differs: false, sinces: 0 }) };
}

pub fn mark_list_differs() {
    MARKS.with(|m| m.set(Marks { list_differs: true, ..m.get() }));
}

pub mod hex {
    pub fn encode(bytes: impl AsRef<[u8]>) -> String {
        bytes.as_ref().iter().map(|b| format!("{b:02x}")).collect()
    }
}

// ---- ckb_hash, ckb_sdk::util. Rest on document 01, module 1 and CKB RFC 0022: BLAKE2b-256 (RFC 7693) without a
// key, personalisation `ckb-default-hash`; blake160 is its first 20 bytes. SHA-256 (FIPS 180-4) is the sha2 crate's,
// which the text names itself. ----

pub mod ckb_hash {
    pub fn blake2b_256<T: AsRef<[u8]>>(s: T) -> [u8; 32] {
        let mut parameters = blake2b_simd::Params::new();
        let digest = parameters.hash_length(32).personal(b"ckb-default-hash").hash(s.as_ref());
        digest.as_bytes().try_into().expect("32 bytes")
    }
}

pub struct H160(pub [u8; 20]);

pub fn blake160(message: &[u8]) -> H160 {
    H160(ckb_hash::blake2b_256(message)[..20].try_into().expect("20 bytes"))
}

// ---- ckb_sdk::Since. Rests on CKB RFC 0017 (relative flag, metric flag, value) and document 01, module 2 (bits
// 60-56 aren't looked at, a metric of 11 is none). ----

#[derive(Clone, Copy, Debug, PartialEq, Eq)]
pub enum SinceType {
    BlockNumber,
    EpochNumberWithFraction,
    Timestamp,
}

#[derive(Clone, Copy, Debug)]
pub struct Since(u64);

impl Since {
    pub fn from_raw_value(value: u64) -> Self {
        MARKS.with(|m| m.set(Marks { sinces: m.get().sinces + 1, ..m.get() }));
        Since(value)
    }
    pub fn is_relative(self) -> bool {
        self.0 >> 63 == 1
    }
    pub fn is_absolute(self) -> bool {
        !self.is_relative()
    }
    pub fn extract_metric(self) -> Option<(SinceType, u64)> {
        let value = self.0 & 0x00ff_ffff_ffff_ffff;
        match (self.0 >> 61) & 3 {
            0 => Some((SinceType::BlockNumber, value)),
            1 => Some((SinceType::EpochNumberWithFraction, value)),
            2 => Some((SinceType::Timestamp, value)),
            _ => None,
        }
    }
}

// ---- ckb_types::core::EpochNumberWithFraction. The three fields rest on CKB RFC 0017 and document 01, module 2; the
// sum rests on document 01, module 4: number + index / length, exact as fractions, indices above lengths included.
// A length of 0 and a field beyond its bits are not modelled. ----

#[derive(Clone, Copy, Debug, PartialEq, Eq)]
pub struct EpochNumberWithFraction {
    number: u64,
    index: u64,
    length: u64,
}

pub const EPOCH: &str = "ckb-types' epoch";

/// Exact. The sums formed here stay below 2^128.
pub type Rational = num_rational::Ratio<u128>;

impl EpochNumberWithFraction {
    /// For the harness alone: an epoch with these fields, whatever the length. Fields have to fit.
    pub fn of_fields(number: u64, index: u64, length: u64) -> Self {
        assert!(number < 1 << 24 && index < 1 << 16 && length < 1 << 16);
        Self { number, index, length }
    }
    fn described(self) -> Self {
        let Self { number, index, length } = self;
        if number >= 1 << 24 || index >= 1 << 16 || length >= 1 << 16 || length == 0 {
            not_modelled(EPOCH, format!("({number}, {index}/{length})"));
        }
        self
    }
    pub fn new(number: u64, index: u64, length: u64) -> Self {
        Self { number, index, length }.described()
    }
    pub fn from_full_value(value: u64) -> Self {
        Self { number: value & 0xff_ffff, index: value >> 24 & 0xffff, length: value >> 40 & 0xffff }
            .described()
    }
    pub fn number(self) -> u64 {
        self.number
    }
    pub fn index(self) -> u64 {
        self.index
    }
    pub fn length(self) -> u64 {
        self.length
    }
    pub fn to_rational(self) -> Rational {
        let Self { number, index, length } = self.described();
        Rational::new(index.into(), length.into()) + Rational::from_integer(number.into())
    }
}

// ---- Keys. Rest on document 01: public keys come in, a key goes out as "settlement key" or as a place. ----

#[derive(Clone, Debug, PartialEq, Eq)]
pub struct Privkey {
    pub public: Pubkey,
    /// Which key this is: a place in the settlement TLC list, or SETTLEMENT_KEY.
    pub tag: u32,
}

pub const SETTLEMENT_KEY: u32 = u32::MAX;

impl Privkey {
    pub fn pubkey(&self) -> Pubkey {
        self.public
    }
}

// ---- Cells, scripts, signer, errors. Rest on nothing: they only carry what the harness puts in, and what the signer
// and its lock script are is looked at nowhere in the slices. ----

#[derive(Clone, Debug, PartialEq, Default)]
pub struct Bytes(pub Vec<u8>);

impl Bytes {
    pub fn raw_data(&self) -> Vec<u8> {
        self.0.clone()
    }
}

/// Its args. Every script here has the same code.
#[derive(Clone, Debug, PartialEq, Default)]
pub struct Script(pub Bytes);

impl Script {
    pub fn args(&self) -> Bytes {
        self.0.clone()
    }
    pub fn code_hash(&self) {}
    pub fn hash_type(&self) {}
}

#[derive(Clone, Debug, PartialEq, Default)]
pub struct CellOutput(pub Script);

impl CellOutput {
    pub fn lock(&self) -> Script {
        self.0.clone()
    }
    pub fn new_builder() -> CellOutputBuilder {
        CellOutputBuilder(Script::default())
    }
}

pub struct CellOutputBuilder(Script);

impl CellOutputBuilder {
    pub fn lock(self, script: Script) -> Self {
        Self(script)
    }
    pub fn build(self) -> CellOutput {
        CellOutput(self.0)
    }
}

#[derive(Clone, Debug, Default)]
pub struct Cell {
    pub output: CellOutput,
    pub out_point: CellOutPoint,
    pub block_number: u64,
}

#[derive(Clone, Debug, Default)]
pub struct CellOutPoint {
    pub tx_hash: Byte32,
    pub index: Index,
}

#[derive(Clone, Debug, PartialEq)]
pub struct CompactSignature;

pub enum Contract {
    Secp256k1Lock,
}

pub fn get_script_by_contract(_: Contract, _args: &[u8]) -> Script {
    Script::default()
}

pub struct LocalSigner;

impl LocalSigner {
    pub fn pubkey_hash(&self) -> &[u8] {
        &[]
    }
}

pub trait CellCollector {}

pub struct NoCells;

impl CellCollector for NoCells {}

#[derive(Debug)]
pub enum RpcError {
    Other(&'static str),
}

impl std::fmt::Display for RpcError {
    fn fmt(&self, f: &mut std::fmt::Formatter<'_>) -> std::fmt::Result {
        let RpcError::Other(text) = self;
        f.write_str(text)
    }
}

impl std::error::Error for RpcError {}

/// What the head of `build_settlement_tx` hands back instead of a transaction.
#[derive(Debug)]
pub struct TransactionView {
    pub unlock: Vec<u8>,
    pub amount: u128,
    pub key: Privkey,
    pub state: Vec<u8>,
    pub new_args: Vec<u8>,
    pub is_first_settlement: bool,
    pub last: bool,
    pub delay: EpochNumberWithFraction,
}

// ---- Functions of fiber/channel.rs that are not in the text. Rest on document 01, modules 1 and 7: a key hashes as
// the first 20 bytes of the CKB hash of its 33 bytes, and these write as the fiber-types functions do. ----

pub fn settlement_tlc_to_witness(
    tlc: &SettlementTlc,
    for_remote: bool,
    features: ChannelFeatures,
) -> Vec<u8> {
    settlement_tlc_witness(tlc, for_remote, features)
}

/// Document 01 does not say what it does where the fiber-types function refuses (above 255 TLCs).
pub fn settlement_data_to_witness(
    data: &SettlementData,
    for_remote: bool,
    features: ChannelFeatures,
    local: Privkey,
    remote: Pubkey,
) -> Vec<u8> {
    settlement_data_witness(data, for_remote, features, local.pubkey(), remote).unwrap_or_else(|_| {
        not_modelled("fiber-lib's settlement_data_to_witness", format!("{} TLCs", data.tlcs.len()))
    })
}

pub fn settlement_tlc_local_pubkey_hash(tlc: &SettlementTlc) -> [u8; 20] {
    blake160(tlc.local_key.pubkey().serialize().as_ref()).0
}

// ---- A chain, for who calls `build_settlement_tx`. That a transaction has inputs, outputs and witnesses, and a hash
// that the witnesses are no part of, rests on CKB RFC 0022. The rest rests on nothing: it carries what the harness
// puts in. ----

/// Its bytes are not in the text, which only compares them with the first bytes of a witness. The harness puts them
/// there, so any 16 serve.
pub const XUDT_COMPATIBLE_WITNESS: [u8; 16] = [0x5a; 16];

#[derive(Clone, Copy, Debug, Default, PartialEq, Eq, Hash)]
pub struct Byte32(pub [u8; 32]);

impl Byte32 {
    pub fn pack(&self) -> Byte32 {
        *self
    }
}

impl From<Byte32> for Hash256 {
    fn from(hash: Byte32) -> Hash256 {
        hash.0.into()
    }
}

pub mod ckb_types {
    pub mod packed {
        pub use crate::shim::Byte32;
    }
}

#[derive(Clone, Copy, Debug, Default)]
pub struct Index(pub u32);

impl Index {
    pub fn value(self) -> u32 {
        self.0
    }
}

#[derive(Clone, Debug, PartialEq, Eq, Hash)]
pub struct OutPoint(pub Byte32, pub u32);

impl OutPoint {
    pub fn new(tx_hash: Byte32, index: u32) -> OutPoint {
        OutPoint(tx_hash, index)
    }
}

#[derive(Clone, Debug)]
pub struct CellInput(pub OutPoint);

impl CellInput {
    pub fn previous_output(&self) -> OutPoint {
        self.0.clone()
    }
}

#[derive(Clone, Debug)]
pub struct List<T>(pub Vec<T>);

impl<T: Clone> List<T> {
    pub fn len(&self) -> usize {
        self.0.len()
    }
    pub fn get(&self, place: usize) -> Option<T> {
        self.0.get(place).cloned()
    }
}

#[derive(Clone, Debug)]
pub struct Transaction {
    pub hash: Byte32,
    pub inputs: List<CellInput>,
    pub outputs: List<CellOutput>,
    pub witnesses: List<Bytes>,
}

impl Transaction {
    pub fn calc_tx_hash(&self) -> Byte32 {
        self.hash
    }
    pub fn raw(&self) -> &Transaction {
        self
    }
    pub fn inputs(&self) -> List<CellInput> {
        self.inputs.clone()
    }
    pub fn outputs(&self) -> List<CellOutput> {
        self.outputs.clone()
    }
    pub fn witnesses(&self) -> List<Bytes> {
        self.witnesses.clone()
    }
}

#[derive(Debug, PartialEq)]
pub enum Status {
    Committed,
}

pub enum Either<L, R> {
    Left(L),
    #[allow(dead_code)] // the text has an arm for it, the harness never makes one
    Right(R),
}

pub struct TxStatus {
    pub status: Status,
}

/// Stands at both places where ckb-jsonrpc-types has something with an `inner`.
pub struct Inner<T> {
    pub inner: T,
}

pub struct TransactionWithStatus {
    pub tx_status: TxStatus,
    pub transaction: Option<Inner<Either<Inner<Transaction>, ()>>>,
}

pub struct Page<T> {
    pub objects: Vec<T>,
    pub last_cursor: (),
}

pub struct IndexedTx(Byte32);

impl IndexedTx {
    pub fn tx_hash(&self) -> Byte32 {
        self.0
    }
}

pub struct HeaderView(EpochNumberWithFraction);

impl HeaderView {
    pub fn epoch(&self) -> EpochNumberWithFraction {
        self.0
    }
}

#[derive(Clone)]
pub struct SearchKey;

pub enum Order {
    Asc,
}

/// A node that knows these transactions, each committed in a block of this epoch.
pub struct CkbRpcClient {
    pub transactions: Vec<Transaction>,
    pub epoch: EpochNumberWithFraction,
}

impl CkbRpcClient {
    pub fn get_transactions(
        &self,
        _: SearchKey,
        _: Order,
        _limit: u32,
        after: Option<()>,
    ) -> Result<Page<IndexedTx>, RpcError> {
        let all = self.transactions.iter().filter(|_| after.is_none());
        Ok(Page { objects: all.map(|tx| IndexedTx(tx.hash)).collect(), last_cursor: () })
    }
    pub fn get_transaction(&self, hash: Byte32) -> Result<Option<TransactionWithStatus>, RpcError> {
        let found = self.transactions.iter().find(|tx| tx.hash == hash);
        Ok(found.map(|tx| TransactionWithStatus {
            tx_status: TxStatus { status: Status::Committed },
            transaction: Some(Inner { inner: Either::Left(Inner { inner: tx.clone() }) }),
        }))
    }
    pub fn get_header_by_number(&self, _: u64) -> Result<Option<HeaderView>, RpcError> {
        Ok(Some(HeaderView(self.epoch)))
    }
}
