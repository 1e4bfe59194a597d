//! A tower's journal in a file. What is chosen is appended once the chain has taken it, and the new bytes go to the end of
//! the file; after a restart the file is read, and its entries say what each channel has paid. Then the file is
//! damaged, in the ways that a night can have, and put right where it can be:
//!
//! ```sh
//! cargo run --example journal
//! ```
//!
//! It ends with an error where the journal is not what was appended, or damage goes unseen.

use std::collections::BTreeMap;
use std::error::Error;
use std::fs::{self, File};
use std::io::Write;
use std::path::{Path, PathBuf};
use std::{env, process};

use fiber_settlement::*;

type Any = Box<dyn Error>;

const BOB: ChannelId = ChannelId([0xB0; 32]);
const CAROL: ChannelId = ChannelId([0xCA; 32]);

/// Settlements of two channels, in order: whose, our share in it, and whose commitment it was.
const SETTLEMENTS: [(ChannelId, u128, Commitment); 4] = [
    (BOB, 1_000, Commitment::Ours),
    (CAROL, 70, Commitment::Theirs),
    (BOB, 300, Commitment::Theirs),
    (CAROL, 1 << 70, Commitment::Ours),
];

/// What the journal has to hold of them, the newest first: our share's unlock byte, and no preimage.
fn newest_first() -> Vec<JournalEntry> {
    let entry = |channel, unlock, amount| JournalEntry { channel, unlock, flag: 0, amount };
    vec![entry(CAROL, 0xFE, 1 << 70), entry(BOB, 0xFF, 300), entry(CAROL, 0xFF, 70), entry(BOB, 0xFE, 1_000)]
}

/// A file that goes with this value.
struct Scratch(PathBuf);

impl Drop for Scratch {
    fn drop(&mut self) {
        // It is in the system's folder for such, where a left one does no harm.
        let _ = fs::remove_file(&self.0);
    }
}

/// A choice of our share, of a cell without TLCs whose delay of 3 epochs is over: what the journal is to hold of it.
/// How a tower comes to a choice is in two_towers.
fn settle(channel: ChannelId, amount: u128, commitment: Commitment) -> Result<JournalEntry, Any> {
    let tlcs = SettlementTlcs::new(commitment, &[]);
    let balances = Balances { our_amount: amount, their_amount: 5, our_key: [2; 33], their_key: [3; 33] };
    let mut bytes = [0; 57];
    bytes[20..28].copy_from_slice(&Epoch::new(3, 0, 1)?.to_since().to_le_bytes());
    bytes[36..56].copy_from_slice(&first_state(HashLength::Short, &tlcs, &balances)?.hash());
    let args = LockArgs::parse(&bytes)?;
    let request = Request {
        args: &args,
        tlcs: &tlcs,
        tracked: &TrackedTlcs::first(&tlcs, args.hash_length())?,
        balances: &balances,
        preimages: &[],
        witness: None,
        time: MedianTime::from_millis(1_700_000_000_000)?,
        cell_epoch: Epoch::new(10, 0, 1)?,
        tip_epoch: Epoch::new(13, 0, 1)?,
    };
    let mut out = vec![0; request.output_length()];
    match choose(&request, &mut out)? {
        Outcome::Unlock(chosen) => Ok(JournalEntry::of(channel, &chosen)),
        Outcome::Wait(cause) => Err(cause.to_string().into()),
    }
}

/// Grows a journal, and writes to the file what each append has added.
fn grow(path: &Path) -> Result<(), Any> {
    let mut file = File::create(path)?;
    let mut slice = vec![0; SETTLEMENTS.len() * layout::JOURNAL_ENTRY];
    let mut journal = Journal::empty(&mut slice);
    for (channel, amount, commitment) in SETTLEMENTS {
        let entry = settle(channel, amount, commitment)?;
        // Here the transaction goes to the chain, and the chain takes it.
        file.write_all(journal.append(&entry)?)?;
        file.sync_data()?;
    }
    println!("{} settlements, {} bytes in the file", SETTLEMENTS.len(), journal.len());
    Ok(())
}

/// After a restart: the file's size is the length. What each channel has paid.
fn read_again(path: &Path) -> Result<(), Any> {
    let mut bytes = fs::read(path)?;
    let length = bytes.len();
    let journal = Journal::of(&mut bytes, length)?;
    let entries = journal.entries()?;
    assert_eq!(entries, newest_first(), "the entries that were appended");
    let mut paid = BTreeMap::new();
    for entry in entries {
        *paid.entry(entry.channel).or_insert(0) += entry.amount;
    }
    assert_eq!(paid, BTreeMap::from([(BOB, 1_300), (CAROL, (1 << 70) + 70)]));
    for (channel, amount) in paid {
        println!("  channel {:.4}..: {amount}", channel.to_string());
    }
    Ok(())
}

/// A crash in the middle of the next write. The bytes before the torn entry are still a journal: the file is cut there.
fn torn_write(path: &Path) -> Result<(), Any> {
    let mut bytes = fs::read(path)?;
    let whole = bytes.len();
    let mut torn = fs::OpenOptions::new().append(true).open(path)?;
    torn.write_all(&bytes[..20])?;
    bytes = fs::read(path)?;
    let size = bytes.len();
    let refusal = Journal::of(&mut bytes, size).err().ok_or("a torn write that goes unseen")?;
    assert_eq!(refusal, JournalRefusal::Broken { at: size as u64 - 12 });
    println!("half an entry behind: {refusal}");
    let cut = size - size % layout::JOURNAL_ENTRY;
    Journal::of(&mut bytes, cut)?;
    assert_eq!(cut, whole, "the entries that were whole");
    torn.set_len(cut as u64)?;
    read_again(path)
}

/// A byte of an older trailer was written over. The trailers behind it are right: such a file is not cut, but taken from
/// a copy.
fn damage(path: &Path) -> Result<(), Any> {
    let mut bytes = fs::read(path)?;
    bytes[layout::JOURNAL_ENTRY + layout::JOURNAL_BEFORE] ^= 1;
    let refusal = JournalEntries::of(&bytes, &mut []).err().ok_or("damage that goes unseen")?;
    assert_eq!((refusal.number(), refusal.place()), (41, 112));
    println!("another byte in the second trailer: number {} at {}", refusal.number(), refusal.place());
    Ok(())
}

/// A slice without room for the next entry is lent anew, longer.
fn more_room(path: &Path) -> Result<(), Any> {
    let mut bytes = fs::read(path)?;
    let length = bytes.len();
    let entry = settle(BOB, 9, Commitment::Ours)?;
    let told = Journal::of(&mut bytes, length)?.append(&entry).map(<[u8]>::len);
    let Err(JournalRefusal::OutputShort { needed }) = told else {
        return Err(format!("no room, and the answer {told:?}").into());
    };
    bytes.resize(needed as usize, 0);
    let mut journal = Journal::of(&mut bytes, length)?;
    journal.append(&entry)?;
    assert_eq!(journal.entries()?, [vec![entry], newest_first()].concat());
    println!("one more in {} bytes", journal.len());
    Ok(())
}

fn main() -> Result<(), Any> {
    let file = Scratch(env::temp_dir().join(format!("fiber_settlement-journal-{}", process::id())));
    grow(&file.0)?;
    read_again(&file.0)?;
    torn_write(&file.0)?;
    damage(&file.0)?;
    more_room(&file.0)
}

#[test]
fn the_journal_is_what_was_appended() {
    main().expect("the story ends");
}
