//! The journal: each byte, each row, each place. What is expected is put together here, from the layout's words.

use std::error::Error;

use super::cells::{unlocked, Cell, COMMITMENTS, LENGTHS};
use crate::c::{self, Code};
use crate::layout as l;
use crate::*;

const ENTRY: usize = 62;
const GUARD: u8 = 0x55;

/// An entry that is like no other of its number.
fn entry(number: u64) -> JournalEntry {
    let byte = number as u8;
    JournalEntry {
        channel: ChannelId([0xC0 ^ byte; 32]),
        unlock: byte.wrapping_mul(37),
        flag: byte.wrapping_add(99),
        amount: u128::from(number) << 64 | 0x0807_0605_0403_0201,
    }
}

/// The bytes of the entry that stands at a place, with the start of the one before.
fn bytes(of: &JournalEntry, before: u64) -> Vec<u8> {
    let amount = of.amount.to_le_bytes();
    [&of.channel.0[..], &[of.unlock, of.flag], &amount, &before.to_le_bytes(), &[62, 0, 0, 0]].concat()
}

/// A journal of the entries 0 to count - 1.
fn grown(count: u64) -> Vec<u8> {
    let before = |number: u64| if number == 0 { u64::MAX } else { (number - 1) * 62 };
    (0..count).flat_map(|number| bytes(&entry(number), before(number))).collect()
}

/// What a slice that begins with these bytes says, opened as a journal of a length.
fn opened(bytes: &[u8], length: usize) -> Result<usize, JournalRefusal> {
    let mut slice = bytes.to_vec();
    let told = Journal::of(&mut slice, length).map(|journal| journal.len());
    assert_eq!(slice, bytes);
    told
}

/// A walk of all these bytes, with guards around what it may write.
fn walked(journal: &[u8], room: usize) -> Result<Vec<u8>, JournalRefusal> {
    let mut out = vec![GUARD; room + 10];
    let told = JournalEntries::of(journal, &mut out[..room]).map(|entries| entries.len() * ENTRY);
    let written = told.unwrap_or(0);
    assert!(out[written..].iter().all(|byte| *byte == GUARD));
    out.truncate(written);
    told.map(|_| out)
}

#[test]
fn an_entry_is_laid_out_as_the_header_says() {
    let entry =
        JournalEntry { channel: ChannelId([0xC1; 32]), unlock: 0xFE, flag: 1, amount: 0x0100 << 64 | 5 };
    let mut slice = [GUARD; 130];
    let mut journal = Journal::empty(&mut slice);
    let first = [&[0xC1; 32][..], &[0xFE, 1, 5, 0, 0, 0, 0, 0, 0, 0, 0, 1, 0, 0, 0, 0, 0, 0]].concat();
    let trailer = [0xFF, 0xFF, 0xFF, 0xFF, 0xFF, 0xFF, 0xFF, 0xFF, 62, 0, 0, 0];
    assert_eq!(journal.append(&entry), Ok(&[&first[..], &trailer].concat()[..]));
    let behind = [0, 0, 0, 0, 0, 0, 0, 0, 62, 0, 0, 0];
    assert_eq!(journal.append(&entry), Ok(&[&first[..], &behind].concat()[..]));
    assert_eq!((journal.len(), journal.is_empty()), (124, false));
    assert_eq!(slice.to_vec(), [&first[..], &trailer, &first, &behind, &[GUARD; 6]].concat());
}

#[test]
fn a_journal_grows_by_what_is_appended_alone() {
    let mut slice = [GUARD; 8 * ENTRY + 61];
    let mut journal = Journal::empty(&mut slice);
    assert!(journal.is_empty() && journal.as_bytes().is_empty());
    assert_eq!(journal.entries(), Ok(vec![]));
    for number in 0..8 {
        let all = grown(number + 1);
        assert_eq!(journal.append(&entry(number)), Ok(&all[all.len() - ENTRY..]));
        assert_eq!((journal.len(), journal.as_bytes()), (all.len(), &all[..]));
        let newest_first: Vec<_> = (0..=number).rev().map(entry).collect();
        assert_eq!(journal.entries(), Ok(newest_first));
    }
    assert_eq!(journal.append(&entry(8)), Err(JournalRefusal::OutputShort { needed: 558 }));
    assert_eq!(journal.len(), 496);
    assert_eq!(slice.to_vec(), [grown(8), vec![GUARD; 61]].concat());
}

/// Opened again it goes on where it was.
#[test]
fn a_journal_that_is_opened_again() {
    let mut slice = [grown(2), vec![GUARD; 100]].concat();
    let mut journal = Journal::of(&mut slice, 124).expect("a journal");
    assert_eq!(journal.entries(), Ok(vec![entry(1), entry(0)]));
    journal.append(&entry(2)).expect("room");
    assert_eq!(slice, [grown(3), vec![GUARD; 38]].concat());
    assert_eq!(opened(&[], 0), Ok(0));
    assert_eq!(opened(&[GUARD; 10], 0), Ok(0));
}

/// 41, and where: each length of a slice that has three entries and more behind.
#[test]
fn every_length() {
    let slice = [grown(3), vec![GUARD; 20]].concat();
    for length in 0..=slice.len() {
        let expected = match length {
            0 | 62 | 124 | 186 => Ok(length),
            1..=61 => Err(JournalRefusal::Broken { at: 0 }),
            _ => Err(JournalRefusal::Broken { at: length as u64 - 12 }),
        };
        assert_eq!(opened(&slice, length), expected, "{length}");
        assert_eq!(walked(&slice[..length], 300).map(|out| out.len()), expected, "{length}");
    }
}

/// A torn write leaves a beginning that is a journal: the largest multiple of 62.
#[test]
fn a_torn_write() {
    let whole = grown(3);
    for size in 125..186 {
        assert_eq!(opened(&whole[..size], size), Err(JournalRefusal::Broken { at: size as u64 - 12 }));
        assert_eq!(opened(&whole[..size], size - size % 62), Ok(124));
    }
    // The size was moved, and zeros stand where the last entry belongs.
    let zeros = [grown(2), vec![0; 62]].concat();
    assert_eq!(opened(&zeros, 186), Err(JournalRefusal::Broken { at: 174 }));
    assert_eq!(opened(&zeros, 124), Ok(124));
}

/// Each bit of each byte of three entries: the trailer is tested, all else is taken as it is.
#[test]
fn every_bit() {
    let whole = grown(3);
    for bit in 0..8 * whole.len() {
        let mut damaged = whole.clone();
        damaged[bit / 8] ^= 1 << (bit % 8);
        let (number, place) = (bit / 8 / ENTRY, bit / 8 % ENTRY);
        let expected = match place {
            0..=49 => Ok(186),
            _ => Err(JournalRefusal::Broken { at: (number * ENTRY + 50) as u64 }),
        };
        assert_eq!(opened(&damaged, 186), expected, "{bit}");
    }
}

#[test]
fn the_newest_fault_is_told() {
    let mut slice = grown(4);
    for place in [58, 120, 182, 244] {
        slice[place] ^= 1;
        let at = place as u64 - 8;
        assert_eq!(opened(&slice, 248), Err(JournalRefusal::Broken { at }));
    }
    // Without the newest ones it is the one before.
    assert_eq!(opened(&slice, 124), Err(JournalRefusal::Broken { at: 112 }));
    // Pointers: one entry off, all ones where an entry is before, none where there is no entry.
    let with = |place: usize, pointer: u64| {
        let mut slice = grown(4);
        slice[place..place + 8].copy_from_slice(&pointer.to_le_bytes());
        opened(&slice, 248)
    };
    assert_eq!(with(236, 124), Ok(248));
    for (place, pointer) in
        [(236, 62), (236, 186), (236, 123), (236, u64::MAX), (112, 62), (112, u64::MAX), (50, 0), (50, 62)]
    {
        assert_eq!(
            with(place, pointer),
            Err(JournalRefusal::Broken { at: place as u64 }),
            "{place} {pointer}"
        );
    }
}

#[test]
fn a_length_beyond_the_slice() {
    for length in [125, 186, usize::MAX] {
        assert_eq!(opened(&grown(2), length), Err(JournalRefusal::NotWell));
    }
    assert_eq!(opened(&[], 1), Err(JournalRefusal::NotWell));
}

/// A walk's output that is a byte short, exact, and longer.
#[test]
fn an_output_of_a_walk() {
    let journal = grown(3);
    let newest_first = [&journal[124..], &journal[62..124], &journal[..62]].concat();
    for room in [0, 1, 61, 62, 124, 185] {
        assert_eq!(walked(&journal, room), Err(JournalRefusal::OutputShort { needed: 186 }));
    }
    for room in [186, 187, 500] {
        assert_eq!(walked(&journal, room), Ok(newest_first.clone()));
    }
    assert_eq!(walked(&[], 0), Ok(vec![]));
}

/// 65,534 entries take one more, and 65,535 or more none; all are walked.
#[test]
fn the_most_entries() {
    for (count, taken) in [(65_534, true), (65_535, false), (65_536, false), (65_537, false)] {
        let length = count as usize * ENTRY;
        let mut slice = [grown(count), vec![GUARD; 2 * ENTRY]].concat();
        let before = slice.clone();
        let mut journal = Journal::of(&mut slice, length).expect("a journal");
        let told = journal.append(&entry(1)).map(<[u8]>::len);
        let entries = journal.entries().expect("a walk");
        if taken {
            assert_eq!((told, journal.len(), entries.len()), (Ok(62), 4_063_170, 65_535));
            assert_eq!((entries[0], entries[1], entries[65_534]), (entry(1), entry(65_533), entry(0)));
        } else {
            assert_eq!(told, Err(JournalRefusal::Full { length: length as u64 }));
            assert_eq!((journal.len(), entries.len()), (length, count as usize));
            assert_eq!((entries[0], entries[count as usize - 1]), (entry(count - 1), entry(0)));
            assert_eq!(slice, before);
        }
    }
}

/// Where several rows apply: 14, 41, 40, 13.
#[test]
fn the_order_of_the_rows() {
    let raw = |slice: &[u8], length: u64, channel: &[u8]| {
        let mut after = slice.to_vec();
        let told =
            c::journal_append(&mut after, length, &c::Entry { channel, unlock: 1, flag: 2, amount: 3 });
        assert!(told.is_ok() || after == slice);
        told.map_err(|Code { number, place }| (number, place))
    };
    let channel = [7; 33];
    let mut many = grown(65_536);
    let all = many.len() as u64;
    assert_eq!(raw(&many, all, &channel[..32]), Err((40, 4_063_232)));
    many[50] = 0;
    assert_eq!(raw(&many, all, &channel[..32]), Err((41, 50)));
    for (length, channel) in [
        (all + 1, &channel[..32]),
        (u64::MAX, &channel[..32]),
        (all, &channel[..31]),
        (all, &channel),
        (all, &[]),
    ] {
        assert_eq!(raw(&many, length, channel), Err((14, 0)));
    }
    let few = grown(2);
    assert_eq!(raw(&few, 124, &channel[..32]), Err((13, 186)));
    assert_eq!(raw(&few, 123, &channel[..32]), Err((41, 111)));
    // Of a walk: 14, 41, 13.
    let walk = |slice: &[u8], length: u64| {
        c::journal_walk(slice, length, &mut []).map_err(|code| (code.number, code.place))
    };
    assert_eq!(walk(&few, 125), Err((14, 0)));
    assert_eq!(walk(&few, 123), Err((41, 111)));
    assert_eq!(walk(&few, 124), Err((13, 124)));
    assert_eq!(walk(&few, 0), Ok(0));
}

#[test]
fn entries_from_both_ends() {
    let mut out = [0; 500];
    let entries = JournalEntries::of(&grown(5), &mut out).expect("a walk");
    assert_eq!((entries.len(), entries.size_hint()), (5, (5, Some(5))));
    assert_eq!(entries.clone().collect::<Vec<_>>(), [4, 3, 2, 1, 0].map(entry));
    assert_eq!(entries.clone().rev().collect::<Vec<_>>(), [0, 1, 2, 3, 4].map(entry));
    assert_eq!(format!("{entries:?}"), format!("{:?}", [4, 3, 2, 1, 0].map(entry)));
    let mut rest = entries.clone();
    assert_eq!(
        (rest.next(), rest.next_back(), rest.nth(1), rest.len()),
        (Some(entry(4)), Some(entry(0)), Some(entry(2)), 1)
    );
    assert_eq!((rest.next(), rest.next(), rest.next_back(), rest.len()), (Some(entry(1)), None, None, 0));
    assert_eq!(entries.len(), 5);
}

/// What is chosen goes in with its own byte, flag and amount.
#[test]
fn an_entry_of_what_was_chosen() {
    let channel = ChannelId([7; 32]);
    for hash_length in LENGTHS {
        for commitment in COMMITMENTS {
            let cell = Cell::new(hash_length, commitment);
            // By preimage, the first TLC, of 10; by timeout the second, of 20.
            for (preimages, time, unlock, flag, amount) in
                [(&cell.preimages[..], 0, 0, 1, 10), (&[], 6_000, 1, 0, 20)]
            {
                let request = Request { preimages, ..cell.request(time, 4) };
                let mut out = vec![0; request.output_length()];
                let chosen = unlocked(choose(&request, &mut out));
                assert_eq!(
                    JournalEntry::of(channel, &chosen),
                    JournalEntry { channel, unlock, flag, amount }
                );
            }
            // Our share, without TLCs.
            let alone = Cell::of(hash_length, commitment, vec![], cell.balances);
            let request = alone.request(0, 6);
            let mut out = vec![0; request.output_length()];
            let chosen = unlocked(choose(&request, &mut out));
            let unlock = if commitment == Commitment::Ours { 0xFE } else { 0xFF };
            assert_eq!(
                JournalEntry::of(channel, &chosen),
                JournalEntry { channel, unlock, flag: 0, amount: 100 }
            );
        }
    }
}

#[test]
fn a_number_keeps_its_place_and_has_a_sentence() {
    let rows = [
        (13, 3, JournalRefusal::OutputShort { needed: 3 }, "lend 3 bytes"),
        (14, 0, JournalRefusal::NotWell, "the length that was kept with these bytes"),
        (40, 3, JournalRefusal::Full { length: 3 }, "begin another one with Journal::empty"),
        (41, 3, JournalRefusal::Broken { at: 3 }, "a write broke off there"),
        (
            42,
            3,
            JournalRefusal::Library(Refusal::Unknown { number: 42, place: 3 }),
            "build both from one version",
        ),
    ];
    for (number, place, refusal, words) in rows {
        assert_eq!(JournalRefusal::from(Code { number, place: 3 }), refusal);
        assert_eq!((refusal.number(), refusal.place()), (number, place));
        let error: Box<dyn Error> = Box::new(refusal);
        assert!(error.to_string().contains("; ") && error.to_string().contains(words), "{error}");
    }
    let abi = Refusal::Abi { library: 9, expected: l::ABI };
    assert_eq!(
        (JournalRefusal::from(abi).number(), JournalRefusal::from(abi).to_string()),
        (0, abi.to_string())
    );
}

#[test]
fn what_is_printed() {
    let id = ChannelId([0x0A; 32]);
    assert_eq!(id.to_string(), "0a".repeat(32));
    assert_eq!(format!("{id:?}"), format!("ChannelId({})", "0a".repeat(32)));
    let mut slice = [GUARD; 100];
    let mut journal = Journal::empty(&mut slice);
    journal.append(&entry(0)).expect("room");
    assert_eq!(format!("{journal:?}"), "Journal { length: 62, size: 100, .. }");
}
