//! A settlement witness: what it holds, and the state that its unlocks leave.

use std::fmt;

use crate::layout as l;
use crate::record::part;
use crate::{c, Commitment, HashLength, LockArgs, Owed, Party, Preimage, Refusal, Shares, State, Tlcs};

/// The 16 bytes that stand in front of a settlement witness on chain: an empty `WitnessArgs`, full size 16 and three
/// offsets of 16. The reference calls them `XUDT_COMPATIBLE_WITNESS`.
pub const CHAIN_PREFIX: [u8; l::CHAIN_PREFIX] = [16, 0, 0, 0, 16, 0, 0, 0, 16, 0, 0, 0, 16, 0, 0, 0];

/// The places in a witness.
#[derive(Clone, Copy, Debug, PartialEq, Eq, Hash)]
pub struct Read {
    /// n, the number of TLCs.
    pub tlcs: usize,
    /// The number of unlocks.
    pub unlock_count: usize,
    /// The place of the share part: the owner's share, then the other party's.
    pub share_place: usize,
    /// The place of the first unlock, or the witness's length where there is none.
    pub first_unlock: usize,
}

/// Reads a witness without its 16 bytes in front. It looks at the layout alone: an unlock that names no TLC, or one a
/// second time, is turned down by [`update`].
///
/// ```
/// use fiber_settlement::{read, HashLength, Read};
///
/// let found = read(HashLength::Full, &[0; 74])?;
/// assert_eq!(found, Read { tlcs: 0, unlock_count: 0, share_place: 2, first_unlock: 74 });
/// # Ok::<(), fiber_settlement::Refusal>(())
/// ```
///
/// # Errors
///
/// [`Refusal::WitnessShort`], [`Refusal::TlcCut`], [`Refusal::SharesCut`], [`Refusal::UnlockCut`], front to back.
pub fn read(hash_length: HashLength, witness: &[u8]) -> Result<Read, Refusal> {
    c::ready()?;
    let answer = c::read(hash_length.h(), witness)?;
    let found = Read {
        tlcs: answer.place(l::READ_TLCS),
        unlock_count: answer.place(l::READ_UNLOCK_COUNT),
        share_place: answer.place(l::READ_SHARE_PLACE),
        first_unlock: answer.place(l::READ_FIRST_UNLOCK),
    };
    // The places follow from n, by the library's contract. Views cut the witness at them.
    let first_unlock =
        1 + hash_length.state(usize::from(witness.get(l::WITNESS_COUNT).copied().unwrap_or(0)));
    let fits = found.first_unlock == first_unlock && first_unlock <= witness.len();
    match fits && found.share_place == first_unlock - 2 * l::SHARE_LEN {
        true => Ok(found),
        false => Err(Refusal::Answer { field: "READ_FIRST_UNLOCK", value: found.first_unlock as u64 }),
    }
}

/// Takes the unlocks of a witness without its 16 bytes in front, in order, writes the state left to the front of
/// `out`, and answers its length.
///
/// Unlock byte 0xFF sets the share in slot `local` to zeros, 0xFE that in slot `remote`, as often as they come;
/// another byte settles the TLC at that place of the witness's list, as it was before any removal. TLCs left keep
/// their order. Behind the state `out` is not changed; a refusal changes no byte of it.
///
/// ```
/// use fiber_settlement::{update, HashLength, Refusal};
///
/// // One TLC, and an unlock that settles it.
/// let mut witness = vec![0, 1];
/// witness.extend([7; 85]);
/// witness.extend([9; 72]);
/// witness.extend([0; 67]);
///
/// let mut out = [0xaa; 100];
/// let length = update(HashLength::Short, &witness, &mut out)?;
/// assert_eq!(length, HashLength::Short.state(0));
/// assert_eq!(out[0], 0);
/// assert_eq!(out[1..73], [9; 72]);
/// assert_eq!(out[73..], [0xaa; 27]);
///
/// let refusal = update(HashLength::Short, &witness, &mut out[..72]).unwrap_err();
/// assert_eq!(refusal, Refusal::OutputShort { needed: 73 });
/// # Ok::<(), Refusal>(())
/// ```
///
/// # Errors
///
/// As [`read`]; then [`Refusal::UnlockUnknown`] and [`Refusal::SettledTwice`], the first faulty unlock first;
/// [`Refusal::OutputShort`].
pub fn update(hash_length: HashLength, witness: &[u8], out: &mut [u8]) -> Result<usize, Refusal> {
    c::ready()?;
    Ok(c::update(hash_length.h(), witness, out)?)
}

/// As [`update`], into a vector of the state's own length.
///
/// ```
/// let state = fiber_settlement::updated(fiber_settlement::HashLength::Short, &[0; 74])?;
/// assert_eq!(state, [0; 73]);
/// # Ok::<(), fiber_settlement::Refusal>(())
/// ```
///
/// # Errors
///
/// As [`update`], but for [`Refusal::OutputShort`]: there is room.
pub fn updated(hash_length: HashLength, witness: &[u8]) -> Result<Vec<u8>, Refusal> {
    // No state is longer than the witness, whose front it is; one byte less, as it has no unlock count.
    let mut state = vec![0; witness.len().saturating_sub(1)];
    let length = update(hash_length, witness, &mut state)?;
    state.truncate(length);
    Ok(state)
}

/// The witness of a settlement transaction's commitment input.
///
/// ```text
/// unlock count 1 | n 1 | n TLC records of 65 + h | share in slot remote 36 | share in slot local 36 | unlocks to the end
/// ```
///
/// It tells two states: the one that the transaction found ([`tlcs`](Witness::tlcs), [`shares`](Witness::shares)),
/// whose hash is in the lock args of the cell that it spent, and the one that its unlocks left
/// ([`left`](Witness::left)), whose hash is in the lock args of the cell that it made. The unlock count is not looked
/// at.
#[derive(Clone, PartialEq, Eq)]
pub struct Witness<'a> {
    bytes: &'a [u8],
    found: Read,
    left: State,
}

impl<'a> Witness<'a> {
    /// Reads a witness as it is on chain, with the 16 bytes in front. `args` are the lock args of the cell that the
    /// transaction spent or of the cell that it made: both say the same hash length.
    ///
    /// ```
    /// use fiber_settlement::{LockArgs, Refusal, Witness, CHAIN_PREFIX};
    ///
    /// let args = LockArgs::parse(&[0; 57])?;
    /// let on_chain = [&CHAIN_PREFIX[..], &[1, 0], &[0; 72]].concat();
    /// assert_eq!(Witness::from_chain(&on_chain, &args)?.tlcs().len(), 0);
    /// // Without the bytes in front it is no witness from the chain.
    /// assert_eq!(Witness::from_chain(&on_chain[16..], &args), Err(Refusal::PrefixMissing));
    /// # Ok::<(), Box<dyn std::error::Error>>(())
    /// ```
    ///
    /// # Errors
    ///
    /// [`Refusal::PrefixMissing`]; [`Refusal::PrefixLeft`] where they stand there twice; then as [`update`], but for
    /// [`Refusal::OutputShort`].
    pub fn from_chain(on_chain: &'a [u8], args: &LockArgs) -> Result<Witness<'a>, Refusal> {
        match on_chain.strip_prefix(&CHAIN_PREFIX) {
            Some(witness) => Witness::without_prefix(witness, args.hash_length()),
            None => Err(Refusal::PrefixMissing),
        }
    }

    /// Reads a witness whose 16 bytes in front were cut off, as a file may hold it.
    ///
    /// # Errors
    ///
    /// [`Refusal::PrefixLeft`] where they are still there; then as [`update`], but for [`Refusal::OutputShort`].
    pub fn without_prefix(witness: &'a [u8], hash_length: HashLength) -> Result<Witness<'a>, Refusal> {
        match witness.starts_with(&CHAIN_PREFIX) {
            true => Err(Refusal::PrefixLeft),
            false => Witness::new(witness, hash_length),
        }
    }

    fn new(bytes: &'a [u8], hash_length: HashLength) -> Result<Witness<'a>, Refusal> {
        let left = State::written(updated(hash_length, bytes)?, hash_length, "UPDATE_LENGTH")?;
        Ok(Witness { bytes, found: read(hash_length, bytes)?, left })
    }

    /// The witness without the 16 bytes in front.
    pub fn as_bytes(&self) -> &'a [u8] {
        self.bytes
    }

    /// How many bytes of a payment hash its records hold.
    pub const fn hash_length(&self) -> HashLength {
        self.left.hash_length()
    }

    /// The TLCs that the transaction found, in order.
    pub fn tlcs(&self) -> Tlcs<'a> {
        Tlcs::new(&self.bytes[l::WITNESS_TLCS..self.found.share_place], self.hash_length())
    }

    /// The shares that the transaction found.
    pub fn shares(&self) -> Shares {
        Shares::new(&self.bytes[self.found.share_place..])
    }

    /// The unlocks of the transaction, in order.
    pub fn unlocks(&self) -> Unlocks<'a> {
        Unlocks { rest: &self.bytes[self.found.first_unlock..] }
    }

    /// The preimages that its unlocks of TLCs show, each with its hash under that TLC's algorithm. A tower stores them:
    /// each may settle the same payment on another channel.
    pub fn preimages(&self) -> impl Iterator<Item = Preimage> + 'a {
        // An unlock names its TLC in the list that the transaction found.
        let tlcs = self.tlcs();
        self.unlocks().filter_map(move |unlock| {
            let (tlc, preimage) = (tlcs.clone().nth(unlock.tlc()?)?, unlock.preimage()?);
            // The library has read the witness, so the version was looked at.
            Some(Preimage::stored(tlc.algorithm().hashed(&preimage), preimage))
        })
    }

    /// The state that the unlocks left: what the cell holds that the transaction made.
    pub const fn left(&self) -> &State {
        &self.left
    }

    /// What is owed to whom in the state left. With the wrong commitment everything is turned round: what is ours is
    /// told as theirs.
    pub fn owed(&self, commitment: Commitment) -> Owed {
        self.left.owed(commitment)
    }

    /// Did the transaction of this witness make the cell with these lock args? They are those of the cell that is to be
    /// spent next, and name the state left. The witness is no part of a transaction's hash, so this is also how a tower
    /// tells that a node handed out the right one.
    pub fn state_matches(&self, args: &LockArgs) -> bool {
        self.left.matches(args)
    }

    /// Did the transaction of this witness spend the cell with these lock args? They name the state that it found.
    pub fn spends(&self, args: &LockArgs) -> bool {
        let state = &self.bytes[l::WITNESS_COUNT..self.found.first_unlock];
        let hash: [u8; l::KEY_HASH] = part(&c::ckb_hash(state), 0);
        self.hash_length() == args.hash_length() && hash == args.state_hash()
    }
}

impl fmt::Debug for Witness<'_> {
    fn fmt(&self, f: &mut fmt::Formatter<'_>) -> fmt::Result {
        f.debug_struct("Witness")
            .field("found", &self.found)
            .field("unlocks", &self.unlocks().collect::<Vec<_>>())
            .field("left", &self.left)
            .finish()
    }
}

/// The unlocks of a witness, in order.
#[derive(Clone)]
pub struct Unlocks<'a> {
    rest: &'a [u8],
}

impl<'a> Iterator for Unlocks<'a> {
    type Item = Unlock<'a>;

    fn next(&mut self) -> Option<Unlock<'a>> {
        let flag = *self.rest.get(1)?;
        let length = if flag == 1 { l::UNLOCK_WITH_PREIMAGE } else { l::UNLOCK };
        // The library has read them, so the last one is whole.
        let (bytes, rest) = self.rest.split_at(length.min(self.rest.len()));
        self.rest = rest;
        Some(Unlock { bytes })
    }
}

/// An unlock of a witness: a view of its bytes. `Debug` does not show the preimage.
#[derive(Clone, Copy, PartialEq, Eq)]
pub struct Unlock<'a> {
    bytes: &'a [u8],
}

impl<'a> Unlock<'a> {
    /// Its byte: 0xFE, 0xFF, or the place of a TLC in the list that the transaction found.
    pub const fn byte(&self) -> u8 {
        self.bytes[0]
    }

    /// The party whose share it unlocks. `None`: it settles a TLC.
    pub fn share(&self) -> Option<Party> {
        [Party::Owner, Party::Other].into_iter().find(|party| party.share_byte() == self.byte())
    }

    /// The place of the TLC that it settles, in the list that the transaction found. `None`: it unlocks a share.
    pub fn tlc(&self) -> Option<usize> {
        self.share().is_none().then_some(self.byte().into())
    }

    /// The preimage that it shows. [`Witness::preimages`] has it with its hash, as a tower stores it.
    pub fn preimage(&self) -> Option<[u8; 32]> {
        self.bytes.get(l::UNLOCK..l::UNLOCK_WITH_PREIMAGE).map(|bytes| part(bytes, 0))
    }
}

impl fmt::Debug for Unlock<'_> {
    fn fmt(&self, f: &mut fmt::Formatter<'_>) -> fmt::Result {
        f.debug_struct("Unlock")
            .field("byte", &self.byte())
            .field("with_preimage", &self.preimage().is_some())
            .finish_non_exhaustive()
    }
}
