//! Every number, place and length that the library's header, include/fiber_settlement.h, gives by name, each once. A
//! name here is the header's without `FIBER_SETTLEMENT_`, of the journal without `FIBER_`. A test compares [`TABLE`]
//! with the header in both directions.
//!
//! A host rarely needs these: the types of this crate lay bytes out and take them apart.

macro_rules! layout {
    ($($(#[$doc:meta])* $name:ident: $type:ty = $value:expr;)*) => {
        $($(#[$doc])* pub const $name: $type = $value;)*

        /// All constants of this module, by name and value.
        pub const TABLE: &[(&str, u64)] = &[$((stringify!($name), $name as u64)),*];
    };
}

layout! {
    /// What `fiber_settlement_abi` answers. It goes up with each change of a signature or of a layout.
    ABI: u64 = 1;

    /// Success.
    OK: u64 = 0;
    /// The witness is below 2 bytes; its length.
    WITNESS_SHORT: u64 = 1;
    /// A TLC is cut short; its first byte.
    TLC_CUT: u64 = 2;
    /// The share part is cut short; its first byte.
    SHARES_CUT: u64 = 3;
    /// An unlock is below 67 bytes, or below 99 with flag 1; its first byte.
    UNLOCK_CUT: u64 = 4;
    /// An unlock byte is neither 0xFE, 0xFF nor below n; the unlock's first byte.
    UNLOCK_UNKNOWN: u64 = 5;
    /// A place is settled twice; the later unlock's first byte.
    SETTLED_TWICE: u64 = 6;
    /// A denominator, or the length of an epoch, is 0.
    LENGTH_ZERO: u64 = 7;
    /// Scaling passes its bounds.
    SCALED_ABOVE: u64 = 8;
    /// The lock args are below 36 bytes.
    ARGS_SHORT: u64 = 10;
    /// Bytes 20 to 27 of the lock args are no relative epoch since value.
    NO_DELAY: u64 = 11;
    /// Above 254 TLCs at the choice, above 255 in a first state.
    TOO_MANY_TLCS: u64 = 12;
    /// The output is too short; the bytes needed.
    OUTPUT_SHORT: u64 = 13;
    /// An argument has a length or a value that its layout does not have.
    NOT_WELL: u64 = 14;
    /// Wait: the tracked list differs from the TLCs.
    LIST_DIFFERS: u64 = 20;
    /// Wait: our share is not there.
    NOT_OUR_SHARE: u64 = 21;
    /// Wait: a first settlement without TLCs, and its delay is not due.
    DELAY_NOT_DUE: u64 = 22;
    /// Wait: a TLC without an absolute timestamp expiry or without a key; its place in the
    /// tracked list, from 0.
    TLC_PASSED_OVER: u64 = 23;
    /// Wait: a TLC whose part of the delay is not due, or by timeout whose expiry has not passed; its
    /// place in the tracked list.
    TLC_NOT_DUE: u64 = 24;
    /// Wait: a TLC by preimage, none that is stored counts, and its expiry has not passed (in a first settlement:
    /// or the whole delay is not due); its place in the tracked list.
    TLC_NO_PREIMAGE: u64 = 25;
    /// An append to 65,535 or more entries; the journal's length.
    JOURNAL_FULL: u64 = 40;
    /// A journal is no chain of whole entries; 0 for one of 1 to 61 bytes, else the first byte of the newest trailer
    /// that is wrong.
    JOURNAL_BROKEN: u64 = 41;

    /// Where an answer has its number.
    NUMBER: usize = 0;
    /// Where an answer has its place.
    PLACE: usize = 8;

    /// A whole payment hash, a preimage, a digest.
    HASH: usize = 32;
    /// A public key.
    KEY: usize = 33;
    /// A key hash, and the state hash of the lock args.
    KEY_HASH: usize = 20;
    /// A signature.
    SIGNATURE: usize = 65;
    /// h of lock args of 57 bytes.
    H_SHORT: usize = 20;
    /// h of lock args of 58 bytes.
    H_FULL: usize = 32;

    /// Where lock args have the delay, 8 bytes.
    ARGS_DELAY: usize = 20;
    /// Where they have the commitment number, 8 bytes, big-endian.
    ARGS_NUMBER: usize = 28;
    /// Where they have the state hash, 20 bytes.
    ARGS_STATE_HASH: usize = 36;
    /// Where they say whether a settlement transaction made the cell, 1 byte.
    ARGS_LATER: usize = 56;
    /// Where those of 58 bytes have the features, 1 byte.
    ARGS_FEATURES: usize = 57;
    /// The length of lock args without features.
    ARGS_SHORT_LEN: usize = 57;
    /// The length of lock args with features.
    ARGS_FULL_LEN: usize = 58;

    /// The bytes in front of a witness on chain.
    CHAIN_PREFIX: usize = 16;
    /// Where a witness has n, the TLC count; the state begins here.
    WITNESS_COUNT: usize = 1;
    /// Where it has its first record.
    WITNESS_TLCS: usize = 2;

    /// The bytes of a record beside its payment hash.
    RECORD_FIXED: usize = 65;
    /// Where a record has its type.
    RECORD_KIND: usize = 0;
    /// Where it has the amount, 16 bytes.
    RECORD_AMOUNT: usize = 1;
    /// Where it has the first h bytes of the payment hash. Behind them come both key hashes and the expiry.
    RECORD_HASH: usize = 17;

    /// A share: a key hash and an amount.
    SHARE_LEN: usize = 36;
    /// Where it has the amount, 16 bytes.
    SHARE_AMOUNT: usize = 20;
    /// Both shares.
    SHARES: usize = 72;
    /// The bytes of a state without TLCs: n and both shares.
    STATE_FIXED: usize = 73;
    /// The most TLCs of a choice: place 254 would be the unlock byte of a share.
    MOST_TLCS: usize = 254;

    /// An unlock without a preimage.
    UNLOCK: usize = 67;
    /// An unlock with one.
    UNLOCK_WITH_PREIMAGE: usize = 99;
    /// Where an unlock has its signature, 65 bytes; the preimage is behind it.
    UNLOCK_SIGNATURE: usize = 2;
    /// The unlock byte of the share in slot `remote`, which is the commitment owner's.
    UNLOCK_REMOTE: u8 = 0xFE;
    /// The unlock byte of the share in slot `local`, which is the other party's.
    UNLOCK_LOCAL: u8 = 0xFF;

    /// The answer of `fiber_settlement_read`.
    READ_ANSWER: usize = 48;
    /// Where it has n, how many TLCs.
    READ_TLCS: usize = 16;
    /// Where it has how many unlocks.
    READ_UNLOCK_COUNT: usize = 24;
    /// Where it has the place of the share part.
    READ_SHARE_PLACE: usize = 32;
    /// Where it has the place of the first unlock.
    READ_FIRST_UNLOCK: usize = 40;

    /// The answer of `fiber_settlement_update`.
    UPDATE_ANSWER: usize = 24;
    /// Where it has the length of the state left.
    UPDATE_LENGTH: usize = 16;

    /// A settlement TLC.
    TLC: usize = 124;
    /// Where it says whether the list's view received it, 0 or 1.
    TLC_RECEIVED: usize = 0;
    /// Where it has the hash algorithm, 0 CKB's hash or 1 SHA-256.
    TLC_ALGORITHM: usize = 1;
    /// Where it has the amount, 16 bytes.
    TLC_AMOUNT: usize = 2;
    /// Where it has the payment hash, 32 bytes.
    TLC_HASH: usize = 18;
    /// Where it has the expiry in milliseconds, 8 bytes.
    TLC_EXPIRY: usize = 50;
    /// Where it has our key.
    TLC_LOCAL_KEY: usize = 58;
    /// Where it has the other side's key.
    TLC_REMOTE_KEY: usize = 91;
    /// Where a tracked TLC has the payment hash, 32 bytes.
    TRACKED_HASH: usize = 0;
    /// Where it has the hash algorithm.
    TRACKED_ALGORITHM: usize = 32;
    /// Where it has the record.
    TRACKED_RECORD: usize = 33;
    /// The bytes of a tracked TLC beside the payment hash in its record: hash 32, algorithm 1, and the record's own.
    TRACKED_FIXED: usize = 98;
    /// A stored preimage: hash 32, preimage 32.
    PAIR: usize = 64;
    /// Where it has the preimage.
    PAIR_PREIMAGE: usize = 32;

    /// The answer of `fiber_settlement_choose`.
    CHOOSE_ANSWER: usize = 152;
    /// Where it says what is unlocked.
    CHOOSE_KIND: usize = 16;
    /// Kind: our share.
    SHARE: u64 = 0;
    /// Kind: a TLC, by timeout.
    BY_TIMEOUT: u64 = 1;
    /// Kind: a TLC, by a preimage.
    BY_PREIMAGE: u64 = 2;
    /// Where it has the unlock's byte.
    CHOOSE_BYTE: usize = 24;
    /// Where it has the low half of the amount.
    CHOOSE_AMOUNT_LOW: usize = 32;
    /// Where it has the high half.
    CHOOSE_AMOUNT_HIGH: usize = 40;
    /// Where it says which key signs.
    CHOOSE_KEY_KIND: usize = 48;
    /// Key kind: our settlement key.
    KEY_OURS: u64 = 0;
    /// Key kind: our key of a settlement TLC.
    KEY_OF_TLC: u64 = 1;
    /// Where it has that TLC's place in the list.
    CHOOSE_KEY_PLACE: usize = 56;
    /// Where it says whether a delay goes with it.
    CHOOSE_DELAY_KIND: usize = 64;
    /// Delay kind: none, in a later settlement.
    NO_DELAY_OUT: u64 = 0;
    /// Delay kind: an epoch, in a first one.
    DELAY_OUT: u64 = 1;
    /// Where it has the delay's number.
    CHOOSE_DELAY_NUMBER: usize = 72;
    /// Where it has the delay's index.
    CHOOSE_DELAY_INDEX: usize = 80;
    /// Where it has the delay's length.
    CHOOSE_DELAY_LENGTH: usize = 88;
    /// Where it has the place of the record.
    CHOOSE_RECORD_PLACE: usize = 96;
    /// Where it has the length of the record.
    CHOOSE_RECORD_LENGTH: usize = 104;
    /// Where it has the length of the unlock.
    CHOOSE_UNLOCK_LENGTH: usize = 112;
    /// Where it has the length of the state.
    CHOOSE_STATE_LENGTH: usize = 120;
    /// Where it has the length of the new args.
    CHOOSE_ARGS_LENGTH: usize = 128;
    /// Where it has the place of the preimage's pair.
    CHOOSE_PAIR_PLACE: usize = 136;
    /// Where it says whether this is the last settlement.
    CHOOSE_LAST: usize = 144;

    /// The answer of `fiber_settlement_scale`.
    SCALE_ANSWER: usize = 40;
    /// Where it has the number.
    SCALE_NUMBER: usize = 16;
    /// Where it has the index.
    SCALE_INDEX: usize = 24;
    /// Where it has the length.
    SCALE_LENGTH: usize = 32;
    /// The answer of `fiber_settlement_is_due`.
    IS_DUE_ANSWER: usize = 24;
    /// Where it has 1 for due, else 0.
    IS_DUE_DUE: usize = 16;
    /// The answer of `fiber_settlement_expiry`.
    EXPIRY_ANSWER: usize = 32;
    /// Where it has 1 if there is an expiry, else 0.
    EXPIRY_KNOWN: usize = 16;
    /// Where it has the expiry in milliseconds.
    EXPIRY_MS: usize = 24;
    /// The answer of `fiber_settlement_key_hash`.
    KEY_HASH_ANSWER: usize = 36;
    /// Where it has the key hash.
    KEY_HASH_BYTES: usize = 16;
    /// The answer of `fiber_settlement_tlc_record` and `fiber_settlement_first_state`.
    WRITTEN_ANSWER: usize = 24;
    /// Where it has the length written.
    WRITTEN_LENGTH: usize = 16;

    /// An entry of a journal.
    JOURNAL_ENTRY: usize = 62;
    /// A channel id, at the front of an entry.
    JOURNAL_CHANNEL: usize = 32;
    /// Where an entry has the unlock's byte.
    JOURNAL_UNLOCK: usize = 32;
    /// Where it has the unlock's flag.
    JOURNAL_FLAG: usize = 33;
    /// Where it has the amount, 16 bytes.
    JOURNAL_AMOUNT: usize = 34;
    /// Where it says where the entry before starts, 8 bytes. Here begins the trailer.
    JOURNAL_BEFORE: usize = 50;
    /// Where it has its own length, 4 bytes.
    JOURNAL_LENGTH: usize = 58;
    /// Stands in the place of the entry before, where there is none.
    JOURNAL_NO_ENTRY: u64 = 0xFFFF_FFFF_FFFF_FFFF;
    /// The most entries that appends make. A walk goes over any number.
    JOURNAL_MOST_ENTRIES: usize = 65535;
    /// The answer of `fiber_journal_append` and `fiber_journal_walk`.
    JOURNAL_ANSWER: usize = 24;
    /// Where it has the journal's new length, or the bytes that a walk has written.
    JOURNAL_ANSWER_LENGTH: usize = 16;
}

/// The length of a record whose payment hash has `h` bytes.
pub const fn record(h: usize) -> usize {
    RECORD_FIXED + h
}

/// The length of a tracked TLC whose payment hash has `h` bytes in the record.
pub const fn tracked(h: usize) -> usize {
    TRACKED_FIXED + h
}

/// The length of a state of `n` TLCs.
pub const fn state(h: usize, n: usize) -> usize {
    STATE_FIXED + n * record(h)
}
