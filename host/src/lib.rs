//! The settlement core of a Fiber watchtower, for a daemon in Rust.
//!
//! A tower finds a commitment cell on chain and asks: what can we unlock now, with which key, and what does the next
//! cell look like? [`choose`] answers that. The rest of the crate makes what it is asked with, reads what is on
//! chain, and keeps unlocks on file ([`Journal`]). Signing, fees and finding cells stay with the host.
//!
//! The work is done by libsettlement_c.a, a static library whose functions are proved to meet their contracts. This
//! crate lends it slices and turns its answers into types that do not let a host mix up sides, hash lengths or cells.
//! It has no dependencies and keeps no state but the library's version, which it looks at once: every function may be
//! called from any thread. "The reference" is nervosnetwork/fiber at commit 21c4dfbdbd.
//!
//! # How a daemon links it
//!
//! ```toml
//! [dependencies]
//! fiber_settlement = { path = "../settlement/host" }
//! ```
//!
//! The build script looks for libsettlement_c.a (Linux on x86-64) in the folder that the environment's SETTLEMENT_LIB
//! names, an absolute path; then in ../target/staticlib, where the repository's toolchain writes it; then in ../lib,
//! where a package has it. `cargo doc` and `cargo check` go through without. The archive is linked statically: the
//! daemon needs nothing of it where it runs.
//!
//! # From a cell to an unlock
//!
//! 1. [`LockArgs::parse`] reads the cell's lock args: delay, hash length, state hash, and whether the settlement is
//!    the first.
//! 2. Whose commitment is it? [`LockArgs::is_of`] tells by the aggregated funding key: [`Commitment::Ours`] or
//!    [`Commitment::Theirs`].
//! 3. Is the commitment revoked? A commitment of theirs whose number ([`LockArgs::commitment_number`]) is at or below
//!    the last one that they revoked is answered by a revocation, not by a settlement: stop here.
//! 4. [`SettlementTlcs::new`] takes the TLCs that were stored with the commitment, each with who offered it.
//! 5. Of a cell that a settlement transaction made, [`Witness::from_chain`] reads that transaction's witness.
//! 6. [`TrackedTlcs`]: which TLCs stand in the cell, with their whole hashes.
//! 7. [`choose`] answers [`Outcome::Wait`], or [`Outcome::Unlock`] with the unlock, the key that signs, the input's
//!    since and the next cell's lock args.
//! 8. The host builds the transaction and signs, and [`Chosen::signed_witness`] makes the bytes that go on chain.
//! 9. Once the chain has taken it, [`Journal::append`] puts it on file, as [`JournalEntry::of`] has it.
//!
//! The example two_towers (`cargo run --example two_towers`) does all of it for both sides of a made-up channel, till
//! nothing stands. The example of [`choose`] is the shortest.
//!
//! # A witness, and where it comes from
//!
//! A settlement transaction spends a commitment cell and shows, in the witness of that input, the state that the cell
//! held and what it unlocks:
//!
//! ```text
//! unlock count 1 | n 1 | n TLC records of 65 + h | share in slot remote 36 | share in slot local 36 | unlocks to the end
//!
//! record: type 1 | amount 16 | payment hash h | remote key hash 20 | local key hash 20 | expiry 8
//! share:  key hash 20 | amount 16
//! unlock: byte 1 | flag 1 | signature 65 | preimage 32, if the flag is 1
//! ```
//!
//! Numbers are little-endian. The unlock's byte is 0xFE, 0xFF or the place of a record. A state is the part from n to
//! the second share, and the lock args of a cell have its hash.
//!
//! The witness that belongs to a live cell is the one of the transaction that made the cell:
//!
//! ```text
//! ckb-cli rpc get_transaction --hash <tx_hash of the cell's out point>
//! ```
//!
//! Of its inputs find the one that spends the commitment cell before, and take the witness at that input's index,
//! which need not be 0. On chain 16 bytes stand in front of it, an empty `WitnessArgs` ([`CHAIN_PREFIX`], `10000000`
//! four times). [`Witness::from_chain`] wants and cuts them, [`Chosen::signed_witness`] puts them there; all places
//! in refusals count behind them. The commitment transaction's own cell has no such witness: its settlement is the
//! first.
//!
//! ```
//! use fiber_settlement::{Commitment, LockArgs, Side, Witness, CHAIN_PREFIX};
//!
//! // Args of 57 bytes, so records hold 20 bytes of a hash. In the witness: one TLC that the commitment's owner offered,
//! // the owner's share of 5, the other party's of 7, which an unlock takes.
//! let mut args = [0; 57];
//! args[56] = 1;
//! let record = [&[1][..], &3u128.to_le_bytes(), &[0xaa; 60], &0x4000_0000_6553_f100u64.to_le_bytes()].concat();
//! let shares = [&[0x11; 20][..], &5u128.to_le_bytes(), &[0x22; 20], &7u128.to_le_bytes()].concat();
//! let on_chain = [&CHAIN_PREFIX[..], &[1, 1], &record, &shares, &[0xff, 0], &[0; 65]].concat();
//!
//! let args = LockArgs::parse(&args)?;
//! let witness = Witness::from_chain(&on_chain, &args)?;
//! let owed = witness.owed(Commitment::Ours);
//! assert_eq!((owed.our_share, owed.their_share), (5, 0)); // the other party was paid
//! assert_eq!((owed.tlcs[0].amount, owed.tlcs[0].expiry_ms), (3, Some(1_700_000_000_000)));
//! assert_eq!((owed.tlcs[0].by_timeout, owed.tlcs[0].by_preimage), (Side::Us, Side::Them));
//! assert_eq!(witness.owed(Commitment::Theirs).tlcs[0].by_timeout, Side::Them);
//! assert!(!witness.state_matches(&args)); // these args were made up
//! # Ok::<(), Box<dyn std::error::Error>>(())
//! ```
//!
//! # The lock args, and h
//!
//! h is how many bytes of a payment hash a record holds. The lock args say it and nothing else does: 57 bytes, h is
//! 20; 58 bytes with a features byte (the last) of 1, h is 32. With the wrong h all that stands behind the first
//! payment hash is read from the wrong byte, and the lengths can still fit: 65 tracked TLCs of 118 bytes are as long
//! as 59 of 130. So [`HashLength`] comes out of [`LockArgs`], which has the whole table of the args' bytes.
//!
//! # Whose is it?
//!
//! The slots `remote` and `local` of a witness are places, not sides, and "offered" and "received" are in one party's
//! view. By themselves they tell of the [`Party`] that owns the commitment and of the other one; [`Commitment::side`]
//! makes "us" and "them" of that, [`Commitment::party`] goes the other way, and nothing is turned anywhere else:
//!
//! | In a witness | [`Commitment::Ours`] (`for_remote` 0) | [`Commitment::Theirs`] (`for_remote` 1) |
//! |---|---|---|
//! | first share, slot `remote`, unlock 0xFE: [`Party::Owner`] | ours | theirs |
//! | second share, slot `local`, unlock 0xFF: [`Party::Other`] | theirs | ours |
//! | `remote` key hash of a record: [`Party::Owner`] | of our key | of their key |
//! | `local` key hash of a record: [`Party::Other`] | of their key | of our key |
//! | type bit 0 set, "received": the owner offered it | we offered: ours by timeout | they offered: ours by preimage |
//! | type bit 0 clear, "offered": the other offered it | they offered: ours by preimage | we offered: ours by timeout |
//!
//! So the settlement TLC list that the library reads is in the view of the party that does *not* own the commitment:
//! ours where the commitment is theirs, and theirs where it is ours. A host keeps its TLCs in its own view and says
//! [`SettlementTlc::offered_by`]; the entry's byte is made from that. In every case what we offered comes back to us
//! by timeout, and what they offered we take by preimage.
//!
//! A list in the wrong view is a list like any other, and by it a tower pays the other side without an error. The
//! lock args can tell: [`choose`] makes the state and goes on only if the args have its hash
//! ([`Refusal::StateDiffers`]). Against that state it holds the tracked list ([`Refusal::TrackedDiffers`]) and, in a
//! later settlement, where the state comes from the witness, both settlement keys ([`Refusal::KeysDiffer`]).
//!
//! # Which time, which epochs
//!
//! [`Request::time`] is the median block time of the tip in milliseconds (the RPC `get_block_median_time` with the
//! tip's hash), not the wall clock: the chain judges an expiry by the former, and by a clock that is ahead our share is
//! taken too early, which no chain turns down ([`MedianTime`]). [`Request::cell_epoch`] is the epoch of the header of
//! the block that holds the cell, [`Request::tip_epoch`] that of the tip's header; [`Epoch::from_header_epoch`] takes
//! the field as it is. The delay comes from the lock args. A first settlement takes TLCs by preimage after a third of
//! the delay, by timeout after two thirds, and our share after the whole, once no TLC of ours can be waited for any
//! more; later ones have no delay, and look at neither epoch.
//!
//! # The last settlement
//!
//! Where the other party's share was paid out before, our share is chosen whatever TLCs still stand, and
//! [`Chosen::is_last`] says so. The reference then makes no successor cell and pays out the cell's whole capacity, of
//! a UDT cell all its tokens too. A host that pays [`Chosen::amount`] alone there leaves the rest behind:
//! [`Chosen::new_args`] is `None` there and nowhere else.
//!
//! Before that our share is chosen only when no TLC of ours can be waited for any more: all that stand were offered by
//! them and have expired without a preimage here. Once our share is taken the core, as the reference, takes no TLC of
//! this cell any more, also with a preimage that comes later, and the other side's next settlement takes the whole
//! cell.
//!
//! So this is how the end looks: after the last settlement there is no cell; after our share was paid out a choice
//! answers [`Cause::NotOurShare`], until the other side's last settlement spends the cell.
//!
//! # The journal
//!
//! A [`Journal`] keeps unlocks that the chain has taken: channel id, unlock byte, flag and amount, 62 bytes each with the
//! trailer that points to the entry before. [`JournalEntry::of`] makes an entry of what was chosen, [`Journal::append`]
//! puts it behind the others and answers the bytes that go to the file, and [`Journal::walk`] gives all entries, the
//! newest first, after a test of the whole chain. The example journal (`cargo run --example journal`) keeps one in a
//! file. The reference has none.
//!
//! - The length belongs to the bytes. A host that keeps it beside them writes the new bytes first, then the length, or both
//!   as one; one that has only a file takes its size. In a [`Journal`] a refused append leaves both as they were.
//! - Each unlock is appended once: nothing looks whether it is there already. After a restart walk the journal before
//!   anything is appended.
//! - [`JournalRefusal::Broken`], 41: is the length the one that was kept with these bytes? Else a write broke off, if the
//!   file's size is no multiple of 62 or the place is 12 bytes before the end, where a file system left zeros. The bytes
//!   before the torn entry are still a journal: keep a copy, open the largest multiple of 62 bytes, and 62 less for as
//!   long as the place is 12 bytes before the end, and cut the file there. With another place, at a multiple of 62 bytes,
//!   something wrote over the bytes, and the trailers behind are right: take the file from a copy, and do not cut.
//! - The trailers are tested and nothing else: a byte that has changed in another field goes unseen.
//! - [`JournalRefusal::Full`], 40: after 65,535 entries begin another journal. This one can still be walked.
//!
//! # What to do on each number
//!
//! Every [`Refusal`], every [`Cause`] of a wait and every [`JournalRefusal`] prints as a sentence that says what to do. Of a
//! choice the numbers from 20 on are waits. With 23 to 25 goes the place of the first TLC that is still pending
//! ([`Cause::tlc`]).
//!
//! | Number | Case | What to do |
//! |---|---|---|
//! | 1 to 6 | [`Refusal::WitnessShort`], [`TlcCut`](Refusal::TlcCut), [`SharesCut`](Refusal::SharesCut), [`UnlockCut`](Refusal::UnlockCut), [`UnlockUnknown`](Refusal::UnlockUnknown), [`SettledTwice`](Refusal::SettledTwice) | These bytes are no settlement witness of this channel: is it the witness at the index of the input that spends the commitment cell, is the 16-byte prefix cut once, is h that of the cell's args? A revocation's witness is no settlement witness. The same bytes get the same answer again. |
//! | 7 | [`Refusal::LengthZero`] | An epoch that was handed in, or the delay in the args, has length 0: do the epochs come from headers? |
//! | 8 | [`Refusal::ScaledAbove`] | A fraction of an epoch passes its bounds. No choice says so. |
//! | 10, 11 | [`Refusal::ArgsShort`], [`NoDelay`](Refusal::NoDelay) | Not the args of a commitment cell: leave the cell. |
//! | 12 | [`Refusal::TooManyTlcs`] | More than 254 TLCs, and no unlock byte names the last: tell an operator. A later settlement goes on as soon as an unlock has settled one. |
//! | 13 | [`Refusal::OutputShort`], [`JournalRefusal::OutputShort`] | Lend as many bytes as it says ([`Request::output_length`] does) and ask again; to an append lend a slice of that many. |
//! | 14 | [`Refusal::NotWell`], [`JournalRefusal::NotWell`] | The call is wrong. The types of this crate make no such call but one, a journal's length beyond its slice. |
//! | 20 | [`Cause::ListDiffers`] | Wait. The tracked list is not what stands in the cell: scan the chain again. [`choose`] looks at that first, and says [`Refusal::TrackedDiffers`]. |
//! | 21 | [`Cause::NotOurShare`] | Wait. Our share was paid out, and no TLC of this cell is taken any more: leave the cell. |
//! | 22 | [`Cause::DelayNotDue`] | Wait. A first settlement without TLCs: ask again at the next tip. Where this stays past the delay: is `cell_epoch` that of the cell's own block? |
//! | 23 | [`Cause::NoExpiryOrKey`] | Wait, and tell an operator: this TLC never comes due, and our share waits with it. Are the settlement TLCs whole, and is the record of this channel? Go on asking, since other TLCs may still come due. The types of this crate make no such request. |
//! | 24 | [`Cause::ExpiryNotPassed`] in a later settlement, [`Cause::DelayOrExpiry`] in a first one | Wait. Ask again at the next tip. Where this stays past the TLC's expiry and its part of the delay: is `cell_epoch` that of the cell's own block, and `time` the tip's median time? |
//! | 25 | [`Cause::NoPreimage`] | Wait. Ask again at the next tip, or as soon as the TLC's preimage is stored, with which it is chosen at once. |
//! | 40 | [`JournalRefusal::Full`] | The journal has its most entries: begin another one. |
//! | 41 | [`JournalRefusal::Broken`] | The bytes are not what appends leave: see "The journal" above. |
//! | none | the other cases of [`Refusal`], [`JournalRefusal::Library`] | This crate turned it down before the library was asked: parts that do not belong to one cell, or a preimage that is not the TLC's. Or crate and library are not of one version. |
//!
//! # What stays a host's duty
//!
//! - Which cells to look at: those that follow from the commitment transaction by their out points. Anybody can make
//!   a cell whose args look right. [`Witness::spends`] and [`Witness::state_matches`] hold a witness against the cell
//!   before and the cell made.
//! - The settlement TLCs in the commitment's order, all of them in later settlements too. Which stored list it is,
//!   where there are several of one commitment number, the state hash tells ([`first_state`], [`State::matches`]).
//! - Time and epochs from one node at one tip.
//! - Preimages whose hash was looked at ([`SettlementTlc::preimage`]), and those that other settlements show
//!   ([`Witness::preimages`]).
//! - The transaction: the next cell with [`Chosen::new_args`] is its first output, with what the old cell held less
//!   [`Chosen::amount`], unless it is the last settlement; the commitment input has [`Chosen::input_since`], the others
//!   [`Chosen::other_inputs_since`]; the key of [`Chosen::signer`] signs.
//! - A commitment that was revoked is not settled but answered with the revocation, which is not in this crate.

#![warn(missing_docs)]

mod args;
mod c;
mod choose;
mod epoch;
mod hash;
mod journal;
pub mod layout;
mod preimage;
mod record;
mod refusal;
mod side;
mod state;
mod tlc;
mod witness;

pub use args::{ArgsError, HashLength, LockArgs};
pub use choose::{choose, Chosen, Key, Outcome, Request, Unlocked, Way};
pub use epoch::{expiry, is_due, Epoch, EpochError, MedianTime, TimeError};
pub use hash::{ckb_hash, key_hash, sha256, Algorithm, Hash, KeyHash, PublicKey};
pub use journal::{ChannelId, Journal, JournalEntries, JournalEntry, JournalRefusal};
pub use preimage::Preimage;
pub use record::{Share, Shares, Tlc, Tlcs};
pub use refusal::{Cause, Refusal};
pub use side::{Commitment, Party, Side};
pub use state::{first_state, Balances, Owed, OwedTlc, State};
pub use tlc::{tlc_record, SettlementTlc, SettlementTlcs, TrackedTlcs};
pub use witness::{read, update, updated, Read, Unlock, Unlocks, Witness, CHAIN_PREFIX};

#[cfg(test)]
mod tests;
