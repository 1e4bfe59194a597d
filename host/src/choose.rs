//! The choice of the next unlock.

use std::fmt;

use crate::hash::PublicKey;
use crate::layout as l;
use crate::preimage::{flat, Preimage};
use crate::state::{first_parts, Balances};
use crate::{c, first_state, key_hash, Cause, Commitment, Epoch, LockArgs, MedianTime, Refusal};
use crate::{SettlementTlcs, Share, Side, State, TrackedTlcs, Witness, CHAIN_PREFIX};

// ---- What is asked ----

/// All that the choice looks at.
///
/// What could contradict each other is said once: the hash length comes from the lock args, whose commitment it is
/// from the settlement TLCs, whether the settlement is the first or a later one from the lock args.
///
/// ```compile_fail,E0063
/// # use fiber_settlement::*;
/// # fn ask(tlcs: &SettlementTlcs, tracked: &TrackedTlcs, balances: &Balances, now: MedianTime, epoch: Epoch) {
/// // Without the lock args there is no request.
/// let request = Request {
///     tlcs,
///     tracked,
///     balances,
///     preimages: &[],
///     witness: None,
///     time: now,
///     cell_epoch: epoch,
///     tip_epoch: epoch,
/// };
/// # }
/// ```
#[derive(Clone, Copy, Debug)]
pub struct Request<'a> {
    /// The lock args of the cell that is to be spent.
    ///
    /// Is the commitment revoked? A commitment of theirs whose number ([`LockArgs::commitment_number`]) is at or below
    /// the last one that they revoked is answered by a revocation, not by a settlement. Nothing here looks at that.
    pub args: &'a LockArgs,
    /// The settlement TLCs of the commitment, all of them in a later settlement too.
    pub tlcs: &'a SettlementTlcs,
    /// The TLCs that stand in the cell.
    pub tracked: &'a TrackedTlcs,
    /// What both sides own by the commitment, and their settlement keys. A later settlement looks at the keys alone.
    pub balances: &'a Balances,
    /// The stored preimages.
    pub preimages: &'a [Preimage],
    /// The witness of the settlement transaction that made the cell. `None` for the commitment transaction's own cell.
    pub witness: Option<&'a Witness<'a>>,
    /// The tip's median block time.
    pub time: MedianTime,
    /// The epoch of the header of the block that holds the cell. A later settlement looks at neither epoch.
    pub cell_epoch: Epoch,
    /// The epoch of the tip's header.
    pub tip_epoch: Epoch,
}

impl<'a> Request<'a> {
    /// Whose commitment it is.
    pub const fn commitment(&self) -> Commitment {
        self.tlcs.commitment()
    }

    /// The most bytes that [`choose`] writes for this request.
    pub fn output_length(&self) -> usize {
        let state = match self.witness {
            Some(witness) => witness.left().as_bytes().len(),
            None => self.args.hash_length().state(self.tlcs.len()),
        };
        l::UNLOCK_WITH_PREIMAGE + state + self.args.as_bytes().len()
    }

    /// Turns down what the library cannot see: parts that do not belong together, and a state that is not the cell's.
    fn check(&self) -> Result<(), Refusal> {
        let hash_length = self.args.hash_length();
        if self.tracked.hash_length() != hash_length || !self.tracked.is_from(self.tlcs) {
            return Err(Refusal::Mixed { part: "tracked list" });
        }
        match self.witness {
            Some(_) if self.args.is_first() => Err(Refusal::WitnessOfFirst),
            None if self.args.is_later() => Err(Refusal::WitnessMissing),
            Some(witness) if witness.hash_length() != hash_length => Err(Refusal::Mixed { part: "witness" }),
            Some(witness) => self.check_state(witness.left()),
            None if self.is_after_tip() => Err(Refusal::CellAfterTip),
            None => self.check_state(&first_state(hash_length, self.tlcs, self.balances)?),
        }
    }

    /// Holds the state against the lock args, then the settlement keys and the tracked list against the state. A first
    /// state is made with the keys, so it has them.
    fn check_state(&self, state: &State) -> Result<(), Refusal> {
        if !state.matches(self.args) {
            return Err(Refusal::StateDiffers);
        }
        let share = |side| state.shares().of_side(side, self.commitment());
        if !is_paid_or_of(share(Side::Us), &self.balances.our_key)?
            || !is_paid_or_of(share(Side::Them), &self.balances.their_key)?
        {
            return Err(Refusal::KeysDiffer);
        }
        match self.tracked.differs(state.tlcs()) {
            Some(place) => Err(Refusal::TrackedDiffers { place }),
            None => Ok(()),
        }
    }

    /// Is the cell's epoch after the tip's, as it is where the two are swapped? A length of 0 is left to the library.
    fn is_after_tip(&self) -> bool {
        let no_delay = [0, 0, 1];
        c::is_due(self.cell_epoch.parts(), no_delay, self.tip_epoch.parts()) == Ok(0)
    }

    /// As C takes it.
    pub(crate) fn parts(&self) -> c::Choose<'a> {
        c::Choose {
            first: first_parts(self.args.hash_length(), self.tlcs, self.balances),
            is_later: u8::from(self.witness.is_some()),
            time: self.time.millis(),
            header: self.cell_epoch.parts(),
            current: self.tip_epoch.parts(),
            args: self.args.as_bytes(),
            tracked: self.tracked.as_bytes(),
            preimages: flat(self.preimages),
            witness: self.witness.map_or(&[], |witness| witness.as_bytes()),
        }
    }
}

/// Does the slot have the hash of this key, or zeros?
fn is_paid_or_of(share: Share, key: &PublicKey) -> Result<bool, Refusal> {
    Ok(share.is_paid() || share.key_hash == key_hash(key)?)
}

// ---- What is answered ----

/// What a choice comes to.
#[derive(Clone, Copy, Debug, PartialEq, Eq)]
#[must_use]
pub enum Outcome<'a, 'o> {
    /// Unlock this now.
    Unlock(Chosen<'a, 'o>),
    /// There is nothing to unlock yet, and nothing was written. The cause says why, and for which TLC.
    Wait(Cause),
}

/// What is unlocked.
#[derive(Clone, Copy, Debug, PartialEq, Eq, Hash)]
pub enum Unlocked {
    /// Our share. It is chosen only when no TLC of ours can be waited for any more: all that stand were offered by them
    /// and have expired without a preimage here. In the last settlement it is chosen whatever stands
    /// ([`Chosen::is_last`]).
    ///
    /// Once it is taken the core, as the reference, takes no TLC of this cell any more, also with a preimage that comes
    /// later, and the other side's next settlement takes the whole cell.
    OurShare,
    /// A TLC.
    Tlc {
        /// Its place in the state, and among the tracked TLCs.
        place: usize,
        /// How it is taken.
        way: Way,
    },
}

/// How a TLC is taken.
#[derive(Clone, Copy, Debug, PartialEq, Eq, Hash)]
pub enum Way {
    /// We offered it, and it has expired.
    Timeout,
    /// They offered it, and we have a preimage.
    Preimage {
        /// Its place in [`Request::preimages`].
        pair: usize,
    },
}

/// Which of our keys signs the unlock.
#[derive(Clone, Copy, Debug, PartialEq, Eq, Hash)]
pub enum Key {
    /// Our settlement key.
    Settlement,
    /// Our key of the settlement TLC at this place of [`Request::tlcs`]. That is not its place in the state, where
    /// settled TLCs are gone: [`Chosen::signer`] has the key itself.
    OfTlc(usize),
}

/// The next unlock. The parts `'a` lie in what was lent, the parts `'o` in the output. `Debug` does not show the
/// preimage.
#[derive(Clone, Copy, PartialEq, Eq)]
#[non_exhaustive]
pub struct Chosen<'a, 'o> {
    /// What is unlocked.
    pub unlocks: Unlocked,
    /// The TLC's amount, or the share's. The reference subtracts it from the cell's capacity, of a UDT cell from its
    /// tokens, and the rest is the next cell's: so it is in shannons, or in the UDT's smallest unit. In the last
    /// settlement all of it goes out ([`is_last`](Chosen::is_last)).
    pub amount: u128,
    /// Which key signs, by where it was handed in. [`signer`](Chosen::signer) is the key.
    pub key: Key,
    /// The delay that the commitment input has to wait for. `None` in a later settlement.
    pub delay: Option<Epoch>,
    /// The record of the TLC: a part of the witness, or in a first settlement of the tracked list. For a share it is
    /// empty.
    pub record: &'a [u8],
    /// The unlock, with 65 zeros where its signature goes, and the preimage behind it.
    pub unlock: &'o [u8],
    /// The state before the unlock.
    pub state: &'o [u8],
    new_args: LockArgs,
    signer: &'a PublicKey,
    last: bool,
    time: MedianTime,
}

impl<'a> Chosen<'a, '_> {
    /// The lock args of the next cell, which is the transaction's first output. `None`: this is the last settlement,
    /// which makes no such cell and pays out all of the old one ([`is_last`](Chosen::is_last)).
    pub fn new_args(&self) -> Option<&LockArgs> {
        (!self.last).then_some(&self.new_args)
    }

    /// Our public key that has to sign: the settlement key, or our key of the settlement TLC that [`key`](Chosen::key)
    /// names. A host looks its secret up by it, and by no place: a place in the settlement TLC list is not the place in
    /// the state.
    pub const fn signer(&self) -> &'a PublicKey {
        self.signer
    }

    /// Is this the last settlement? The other party's share was paid out before, so all that is in the cell is ours,
    /// TLCs that still stand included. The reference then makes no successor cell, and pays out the cell's whole
    /// capacity, of a UDT cell all its tokens as well: not [`amount`](Chosen::amount) alone.
    pub const fn is_last(&self) -> bool {
        self.last
    }

    /// The since of the commitment input: the delay as a relative epoch, 0 in a later settlement.
    ///
    /// Of a scaled delay the index can equal the length (2/3 of 1 + 300/601 is 0 + 901/901), and such a since the chain
    /// turns down (CKB RFC 0030). It is handed out as the reference makes it. Its value is that of the next whole number
    /// with 0/1, here 1 + 0/1, which a host may set instead.
    pub fn input_since(&self) -> u64 {
        self.delay.map_or(0, Epoch::to_since)
    }

    /// The since of the transaction's other inputs: for a TLC by timeout an absolute timestamp, by which the lock
    /// tells that the TLC has expired, else 0.
    pub const fn other_inputs_since(&self) -> u64 {
        match self.unlocks {
            Unlocked::Tlc { way: Way::Timeout, .. } => self.time.to_since(),
            _ => 0,
        }
    }

    /// The witness of the commitment input as it goes on chain: the 16 bytes in front, the unlock count 1, the state,
    /// and the unlock with its signature in place.
    ///
    /// The key of [`signer`](Chosen::signer) signs, in the reference, the CKB hash of the raw transaction with its
    /// cell deps left out: no witness is in it, so the signature can be put in last. A signature is r and s, 64
    /// bytes, and the recovery id. For a size or a fee ask with zeros.
    pub fn signed_witness(&self, signature: &[u8; l::SIGNATURE]) -> Vec<u8> {
        let (front, rest) = self.unlock.split_at(l::UNLOCK_SIGNATURE);
        [&CHAIN_PREFIX[..], &[1], self.state, front, signature, &rest[l::SIGNATURE..]].concat()
    }
}

impl fmt::Debug for Chosen<'_, '_> {
    fn fmt(&self, f: &mut fmt::Formatter<'_>) -> fmt::Result {
        f.debug_struct("Chosen")
            .field("unlocks", &self.unlocks)
            .field("amount", &self.amount)
            .field("key", &self.key)
            .field("delay", &self.delay)
            .field("last", &self.last)
            .field("new_args", &self.new_args())
            .finish_non_exhaustive()
    }
}

// ---- The operation ----

/// Chooses what is unlocked next, and writes the unlock, the state before it and the new lock args to the front of
/// `out`, joined. Behind them `out` is not changed; a wait or a refusal changes no byte of it.
///
/// Before the library is asked the state is held against the lock args: in a first settlement the one that settlement
/// TLCs, balances and commitment give, in a later one the one that the witness left. Then the settlement keys and the
/// tracked list are held against the state. A list in the wrong view, keys of the wrong side, a tracked list or a
/// witness of another cell do not get past that, nor, in a first settlement, amounts of the wrong side. In a later
/// settlement the balances' amounts and both epochs are not looked at.
///
/// ```
/// use fiber_settlement::*;
///
/// // Our commitment without TLCs: our share, once the whole delay of 3 epochs is over.
/// let tlcs = SettlementTlcs::new(Commitment::Ours, &[]);
/// let balances =
///     Balances { our_amount: 7, their_amount: 5, our_key: [2; 33], their_key: [3; 33] };
/// let mut bytes = [0; 57];
/// bytes[20..28].copy_from_slice(&Epoch::new(3, 0, 1)?.to_since().to_le_bytes());
/// bytes[36..56].copy_from_slice(&first_state(HashLength::Short, &tlcs, &balances)?.hash());
/// let args = LockArgs::parse(&bytes)?;
///
/// let tracked = TrackedTlcs::first(&tlcs, args.hash_length())?;
/// let mut request = Request {
///     args: &args,
///     tlcs: &tlcs,
///     tracked: &tracked,
///     balances: &balances,
///     preimages: &[],
///     witness: None,
///     time: MedianTime::from_millis(1_700_000_000_000)?,
///     cell_epoch: Epoch::new(10, 0, 1)?,
///     tip_epoch: Epoch::new(13, 0, 1)?,
/// };
/// let mut out = vec![0; request.output_length()];
/// match choose(&request, &mut out)? {
///     Outcome::Wait(cause) => println!("{cause}"), // an ordinary answer: ask again at the next tip
///     Outcome::Unlock(chosen) => {
///         assert_eq!((chosen.unlocks, chosen.amount), (Unlocked::OurShare, 7));
///         assert_eq!((chosen.signer(), chosen.input_since()), (&[2; 33], args.delay()?.to_since()));
///         let on_chain = chosen.signed_witness(&[9; 65]);
///         let witness = Witness::from_chain(&on_chain, &args)?;
///         match chosen.new_args() {
///             Some(next) => assert!(witness.state_matches(next)), // the next cell's
///             None => println!("the last settlement: no next cell, and all of this one goes out"),
///         }
///     }
/// }
///
/// // A little earlier there is nothing to do yet.
/// request.tip_epoch = Epoch::new(12, 999, 1000)?;
/// assert_eq!(choose(&request, &mut out)?, Outcome::Wait(Cause::DelayNotDue));
///
/// // It is the other side's commitment? The lock args say that it is not.
/// let turned = SettlementTlcs::new(Commitment::Theirs, &[]);
/// let tracked = TrackedTlcs::first(&turned, args.hash_length())?;
/// let wrong = Request { tlcs: &turned, tracked: &tracked, ..request };
/// assert_eq!(choose(&wrong, &mut out), Err(Refusal::StateDiffers));
/// # Ok::<(), Box<dyn std::error::Error>>(())
/// ```
///
/// # Errors
///
/// This crate's own first: [`Refusal::Mixed`]; [`Refusal::WitnessOfFirst`]; [`Refusal::WitnessMissing`]; in a first
/// settlement [`Refusal::CellAfterTip`]; [`Refusal::StateDiffers`]; in a later settlement [`Refusal::KeysDiffer`];
/// [`Refusal::TrackedDiffers`]. Then the library's: [`Refusal::NoDelay`]; in a first settlement
/// [`Refusal::LengthZero`]; [`Refusal::TooManyTlcs`]; [`Refusal::OutputShort`], which comes after the waits.
/// [`Refusal::Abi`], [`Refusal::Answer`] and [`Refusal::Unknown`] tell that crate and library are not of one version.
pub fn choose<'a, 'o>(request: &Request<'a>, out: &'o mut [u8]) -> Result<Outcome<'a, 'o>, Refusal> {
    c::ready()?;
    request.check()?;
    match c::choose(&request.parts(), out) {
        Ok(answer) => Ok(Outcome::Unlock(chosen(&Fields(answer), request, out)?)),
        Err(code) => Cause::of(code, request.witness.is_some(), request.tracked.len()).map(Outcome::Wait),
    }
}

/// The answer of a success. A field that the header does not have is turned down, not guessed.
pub(crate) struct Fields(pub c::Answer<{ l::CHOOSE_ANSWER }>);

/// What is told of a success.
fn chosen<'a, 'o>(fields: &Fields, request: &Request<'a>, out: &'o [u8]) -> Result<Chosen<'a, 'o>, Refusal> {
    let [unlock, state, args] = fields.joined(out)?;
    let lent = request.witness.map_or(request.tracked.as_bytes(), |witness| witness.as_bytes());
    Ok(Chosen {
        unlocks: fields.unlocks()?,
        amount: fields.amount(),
        key: fields.key()?,
        delay: fields.delay()?,
        record: fields.record(lent)?,
        unlock,
        state,
        new_args: LockArgs::parse(args)
            .map_err(|_| fields.odd("CHOOSE_ARGS_LENGTH", l::CHOOSE_ARGS_LENGTH))?,
        signer: fields.signer(request.tlcs, request.balances)?,
        last: fields.last()?,
        time: request.time,
    })
}

impl Fields {
    fn odd(&self, field: &'static str, at: usize) -> Refusal {
        Refusal::Answer { field, value: self.0.number(at) }
    }

    pub fn unlocks(&self) -> Result<Unlocked, Refusal> {
        let place = self.0.place(l::CHOOSE_BYTE);
        match self.0.number(l::CHOOSE_KIND) {
            l::SHARE => Ok(Unlocked::OurShare),
            l::BY_TIMEOUT => Ok(Unlocked::Tlc { place, way: Way::Timeout }),
            l::BY_PREIMAGE => {
                let pair = self.0.place(l::CHOOSE_PAIR_PLACE);
                Ok(Unlocked::Tlc { place, way: Way::Preimage { pair } })
            }
            _ => Err(self.odd("CHOOSE_KIND", l::CHOOSE_KIND)),
        }
    }

    pub fn amount(&self) -> u128 {
        let half = |at| u128::from(self.0.number(at));
        half(l::CHOOSE_AMOUNT_HIGH) << 64 | half(l::CHOOSE_AMOUNT_LOW)
    }

    pub fn key(&self) -> Result<Key, Refusal> {
        match self.0.number(l::CHOOSE_KEY_KIND) {
            l::KEY_OURS => Ok(Key::Settlement),
            l::KEY_OF_TLC => Ok(Key::OfTlc(self.0.place(l::CHOOSE_KEY_PLACE))),
            _ => Err(self.odd("CHOOSE_KEY_KIND", l::CHOOSE_KEY_KIND)),
        }
    }

    /// The key that has to sign, in what was lent.
    pub fn signer<'a>(
        &self,
        tlcs: &'a SettlementTlcs,
        balances: &'a Balances,
    ) -> Result<&'a PublicKey, Refusal> {
        match self.key()? {
            Key::Settlement => Ok(&balances.our_key),
            Key::OfTlc(place) => {
                tlcs.our_key(place).ok_or_else(|| self.odd("CHOOSE_KEY_PLACE", l::CHOOSE_KEY_PLACE))
            }
        }
    }

    pub fn delay(&self) -> Result<Option<Epoch>, Refusal> {
        let places = [l::CHOOSE_DELAY_NUMBER, l::CHOOSE_DELAY_INDEX, l::CHOOSE_DELAY_LENGTH];
        match self.0.number(l::CHOOSE_DELAY_KIND) {
            l::NO_DELAY_OUT => Ok(None),
            l::DELAY_OUT => {
                Epoch::answered("CHOOSE_DELAY_NUMBER", places.map(|at| self.0.number(at))).map(Some)
            }
            _ => Err(self.odd("CHOOSE_DELAY_KIND", l::CHOOSE_DELAY_KIND)),
        }
    }

    pub fn last(&self) -> Result<bool, Refusal> {
        match self.0.number(l::CHOOSE_LAST) {
            0 => Ok(false),
            1 => Ok(true),
            _ => Err(self.odd("CHOOSE_LAST", l::CHOOSE_LAST)),
        }
    }

    /// The record, a part of what was lent.
    pub fn record<'a>(&self, lent: &'a [u8]) -> Result<&'a [u8], Refusal> {
        let (place, length) = (self.0.place(l::CHOOSE_RECORD_PLACE), self.0.place(l::CHOOSE_RECORD_LENGTH));
        let part = lent.get(place..).and_then(|rest| rest.get(..length));
        part.ok_or_else(|| self.odd("CHOOSE_RECORD_PLACE", l::CHOOSE_RECORD_PLACE))
    }

    /// Unlock, state and new args, joined at the front of the output.
    pub fn joined<'o>(&self, out: &'o [u8]) -> Result<[&'o [u8]; 3], Refusal> {
        let mut rest = out;
        let mut parts = [&out[..0]; 3];
        let places = [
            ("CHOOSE_UNLOCK_LENGTH", l::CHOOSE_UNLOCK_LENGTH),
            ("CHOOSE_STATE_LENGTH", l::CHOOSE_STATE_LENGTH),
            ("CHOOSE_ARGS_LENGTH", l::CHOOSE_ARGS_LENGTH),
        ];
        for (part, (field, at)) in parts.iter_mut().zip(places) {
            let length = self.0.place(at);
            if length > rest.len() {
                return Err(self.odd(field, at));
            }
            (*part, rest) = rest.split_at(length);
        }
        match parts[0].len() {
            l::UNLOCK | l::UNLOCK_WITH_PREIMAGE => Ok(parts),
            _ => Err(self.odd(places[0].0, places[0].1)),
        }
    }
}
