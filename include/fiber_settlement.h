/* The settlement core of a Fiber watchtower, over C. Link with libsettlement_c.a (x86-64 Linux; it needs memcpy and memset alone).
 *
 * A tower finds a commitment cell on chain and asks: what can we unlock now, with which key, and what does the next cell look
 * like? fiber_settlement_choose answers that. The rest of this file makes what it is asked with and reads what it answers, and
 * keeps unlocks on file (fiber_journal_append, fiber_journal_walk). Signing, fees, and finding cells stay with the host. "The
 * reference" is the tower of nervosnetwork/fiber at 21c4dfbdbd; it has no journal.
 *
 * HOW A CALL GOES. Bytes go in and out as pointer and length; NULL with length 0 is allowed for every one of them. Every function
 * but the two hashes and the version returns a number, 0 for success (table below), and writes its answer to a lent buffer: the
 * number at 0, the place at 8, the fields from 16, each unsigned, 8 bytes, little-endian; fiber_settlement_field reads one. A
 * refusal writes number and place and no other byte, success the fields named here and no byte beyond them. An answer buffer
 * below its size is told by the return value 14 alone, and nothing is written, so NULL with length 0 is told so too. Flags are 0
 * or 1, and any other value is 14; only the flag of a journal's entry is any byte. What a call writes, its output, its answer buffer
 * and the journal of an append, must not overlap each other, nor anything else that the call reads. No function keeps anything: each
 * may be called from any thread.
 *
 * THE LOCK ARGS of a commitment cell say most of what has to be known:
 *
 *    0, 20 bytes  hash of the aggregated funding key. It tells whose commitment it is: the first 20 bytes of the CKB hash of the
 *                 x-only MuSig2 aggregate. Of the keys in the order ours, theirs: the other side's commitment, for_remote is 1.
 *                 In the order theirs, ours: our own, for_remote is 0.
 *   20,  8        the delay, a relative epoch since value (RFC 0017), little-endian
 *   28,  8        the commitment number, BIG-endian, alone of all numbers here
 *   36, 20        state hash: the first 20 bytes of the CKB hash of the state that the cell holds
 *   56,  1        1 in a cell that a settlement transaction made, 0 in the commitment transaction's own cell. (The reference writes
 *                 the 1, and tells the first settlement by the cell's out point; where the two part, leave the cell.)
 *   57,  1        features. Legacy args end before it.
 *
 * h is how many bytes of a payment hash a record holds, and the args say it: 57 bytes, h is 20; 58 bytes with a features byte of 1,
 * h is 32. Take it from there (fiber_settlement_hash_length) and from nowhere else: lists of the wrong h can have a length that
 * fits, 65 entries of 118 bytes being 59 of 130.
 *
 * FIRST AND LATER. A settlement of the commitment transaction's own cell (args byte 56 is 0) is the first one. It is made from
 * what the host has stored, and there is no witness to read. A settlement of a cell that a settlement transaction made (args byte
 * 56 is 1) is a later one: its state is that of the witness that made the cell, after its unlocks.
 *
 * A WITNESS is the witness of the commitment input of a settlement transaction. For a later settlement: take the transaction
 * that made the cell (`ckb-cli rpc get_transaction --hash`, with the transaction hash of the cell's out point), find which of its
 * inputs spends the commitment cell before, and take the witness at that input's index, which need not be 0. On chain 16 bytes
 * stand in front (an empty WitnessArgs: 10 00 00 00 four times). Cut them off before anything here reads the witness, and put them
 * in front of what goes on chain (fiber_settlement_has_chain_prefix, fiber_settlement_put_chain_prefix). Behind them:
 *
 *   unlock count 1 | n 1 | n records of 65 + h | share 36 in slot remote | share 36 in slot local | unlocks to the end
 *
 * A STATE is the part from n to the second share. The unlock count is read and not compared; the reference writes 1.
 *
 * WHOSE IS IT? The slots `remote` (unlock 0xFE) and `local` (0xFF) are places in the witness, not sides. Slot remote is always
 * that of the commitment's owner, slot local that of the other party:
 *
 *                                     for_remote = 0, our commitment   for_remote = 1, their commitment
 *   first share,  slot remote, 0xFE   ours                             theirs
 *   second share, slot local,  0xFF   theirs                           ours
 *   remote key hash of a record       of our key                       of their key
 *   local key hash of a record        of their key                     of our key
 *   record type bit 0 set, received   we offered: ours by timeout      they offered: ours by preimage
 *   record type bit 0 clear, offered  they offered: ours by preimage   we offered: ours by timeout
 *
 * In words: type bit 0 and the `received` of a settlement TLC are written from the view of the party that does NOT own the
 * commitment. With for_remote that is our own view. Without, it is the other side's, and a host that keeps its TLCs in its own
 * view has to turn each one round: received is 1 exactly if the commitment's owner offered the TLC. In both cases what we
 * offered comes back to us by timeout, and what they offered we take by preimage; local_key and local amount are ours,
 * remote_key and remote amount theirs. for_remote stays what it is for every cell that follows from one commitment.
 *
 * A list in the wrong view is well formed, and the choice takes it: by it a tower leaves its own expired TLCs to the other side,
 * without an error. The args show it. Before a first settlement make the state (fiber_settlement_first_state), before a later one
 * update the witness, and go on only if fiber_settlement_state_matches says that the args name that state. With a struct
 * fiber_settlement_request that is one call, fiber_settlement_request_matches.
 *
 * WHICH TIME, WHICH EPOCHS. time is the median time of the tip's block in milliseconds (RPC get_block_median_time of the tip's
 * hash), never the wall clock, since the chain judges an expiry by the former. A time that is ahead takes our share too early, which
 * no chain turns down, and gives up TLCs whose preimage is still to come; one that is behind, or in seconds, leaves expired TLCs to
 * the other side. header is the epoch of the header of the block that holds the cell, current is the epoch of the tip's header
 * (fiber_settlement_epoch_of takes what a header has); with both the tip's nothing is ever due. The delay comes from the args.
 *
 * REVOKED? A commitment of theirs whose number is at or below the last one that they revoked is answered by a revocation, not here.
 *
 * WHAT TO DO on each number:
 *
 *    0           look at FIBER_SETTLEMENT_CHOOSE_LAST, then act on the answer
 *    1 to 6      these bytes are no settlement witness of this channel: look whether the 16 bytes are cut off, whether h is the
 *                args', whether it is the right input's witness and none of a revocation. The same bytes get the same answer again.
 *    7           an epoch that was handed in, or the delay in the args, has length 0 (or a denominator is 0)
 *    8           a fraction of a delay passes its bounds; a choice never says so
 *    10, 11      not the args of a commitment cell: leave the cell
 *    12          more than 254 TLCs, and no unlock byte can name place 254, since 0xFE is slot remote: tell an operator. A
 *                later settlement goes on as soon as anybody's unlock has settled one of them.
 *    13          give the output, or the slice of an append, as many bytes as the place says and call again
 *    14          the call is wrong, not the chain: h, a flag, a length or a field. Asking again does not help.
 *    20 to 25    waits; so is every other number of a choice from 20 on: nothing but number and place was written; ask again at the
 *                next tip. A mistake can look like a wait, so look where it stays:
 *       20       the tracked list is not what stands in the cell: scan the chain again. Where it stays, look at for_remote first.
 *       21       our share is not there. It was paid out, and then the core, as the reference, takes no TLC of this cell any more,
 *                also with a preimage that comes later; or the key, or for_remote, is not this cell's. In a later settlement alone.
 *       22       a first settlement without TLCs, and the whole delay is not due. Where it stays past the delay: is header that of the
 *                cell's own block?
 *       23 to 25 the first TLC that is still pending. The place is its place, from 0, in tracked, which has the TLCs that stand after the
 *                update of the witness; in a first settlement these are the settlement TLCs, in a later one no longer: do not look it up
 *                in tlcs. A TLC behind it may come due sooner, so go on asking at every tip.
 *       23       no time and no preimage makes this TLC due, and till the last settlement our share waits with it: tell an operator. Its
 *                expiry is no absolute timestamp, or no settlement TLC has its hash and our key. Is tlcs whole and with our keys, does
 *                the record belong to this channel, and does the state match the args? In a later settlement alone.
 *       24       ours by timeout, and its expiry has not passed; or, in a first settlement, its part of the delay is not due, 2/3 by
 *                timeout, 1/3 by preimage. Where it stays past both: is time in milliseconds, and header that of the cell's own block?
 *       25       ours by preimage, no stored preimage counts, and it is not given up yet: its expiry has not passed, or in a first
 *                settlement the whole delay is not due. With a preimage that comes it is chosen at once. Where there is one: has its
 *                pair the whole hash, does it have that hash under the TLC's algorithm, and is it the first pair with it?
 *    40, 41      of a journal alone, and no waits:
 *       40       the journal has its most entries. Begin another one, with length 0 and bytes of its own; this one can be walked as before.
 *       41       these bytes are not what appends leave, from the place on: is the length the one that was kept with these bytes? If so, a
 *                write broke off in the middle, or something wrote over them. The same bytes get the same answer again: "The journal"
 *                below says what to do.
 */
#ifndef FIBER_SETTLEMENT_H
#define FIBER_SETTLEMENT_H

#include <stddef.h>
#include <stdint.h>
#include <string.h>

#ifdef __cplusplus
extern "C" {
#endif

/* The version of what this file says. It goes up with each change of a signature or a layout; a host compares it once, at its
 * start, with what the linked archive says. */
#define FIBER_SETTLEMENT_ABI 1

uint64_t fiber_settlement_abi(void);

/* ---- Numbers, with the place that goes with each ---- */

#define FIBER_SETTLEMENT_OK 0
#define FIBER_SETTLEMENT_WITNESS_SHORT 1 /* witness below 2 bytes: its length */
#define FIBER_SETTLEMENT_TLC_CUT 2 /* record cut short: its first byte */
#define FIBER_SETTLEMENT_SHARES_CUT 3 /* share part cut short: its first byte */
#define FIBER_SETTLEMENT_UNLOCK_CUT 4 /* unlock below 67 bytes, or 99 with flag 1: its first byte */
#define FIBER_SETTLEMENT_UNLOCK_UNKNOWN 5 /* unlock byte neither FE, FF nor below n: the unlock's first byte */
#define FIBER_SETTLEMENT_SETTLED_TWICE 6 /* a TLC settled twice: the later unlock's first byte */
#define FIBER_SETTLEMENT_LENGTH_ZERO 7 /* a denominator or an epoch length of 0: 0 */
#define FIBER_SETTLEMENT_SCALED_ABOVE 8 /* scaling passes its bounds: 0 */
#define FIBER_SETTLEMENT_ARGS_SHORT 10 /* lock args below 36 bytes: 0 */
#define FIBER_SETTLEMENT_NO_DELAY 11 /* args bytes 20 to 27 no relative epoch since value: 0 */
#define FIBER_SETTLEMENT_TOO_MANY_TLCS 12 /* above 254 TLCs at the choice, above 255 in a first state: 0 */
#define FIBER_SETTLEMENT_OUTPUT_SHORT 13 /* output too short: bytes needed. Of an append: the new length, which the slice has no room for */
#define FIBER_SETTLEMENT_NOT_WELL 14 /* an argument with a length or a value that its layout does not have: 0 */
#define FIBER_SETTLEMENT_LIST_DIFFERS 20 /* wait, the tracked list differs from the TLCs: 0 */
#define FIBER_SETTLEMENT_NOT_OUR_SHARE 21 /* wait, our share is not there: 0 */
#define FIBER_SETTLEMENT_DELAY_NOT_DUE 22 /* wait, a first settlement without TLCs, and its delay is not due: 0 */
#define FIBER_SETTLEMENT_TLC_PASSED_OVER 23 /* wait, a TLC without an absolute timestamp expiry or without a key: its place in
                                               tracked, from 0 */
#define FIBER_SETTLEMENT_TLC_NOT_DUE 24 /* wait, a TLC whose part of the delay is not due, or by timeout whose expiry has not passed:
                                           its place in tracked */
#define FIBER_SETTLEMENT_TLC_NO_PREIMAGE 25 /* wait, a TLC by preimage, none that is stored counts, and its expiry has not passed (in a
                                               first settlement: or the whole delay is not due): its place in tracked */
#define FIBER_JOURNAL_FULL 40 /* an append to 65,535 or more entries: the journal's length */
#define FIBER_JOURNAL_BROKEN 41 /* no chain of whole entries. A journal of 1 to 61 bytes: 0. Else the trailer that is wrong, of several the
                                   newest: its first byte */

/* The front of every answer. */
#define FIBER_SETTLEMENT_NUMBER 0
#define FIBER_SETTLEMENT_PLACE 8

/* A number of an answer, by one of the offsets in this file that belong to that answer: nothing looks how long it is. */
static inline uint64_t fiber_settlement_field(const uint8_t *answer, size_t offset)
{
    uint64_t number = 0;
    size_t i;
    for (i = 8; i > 0; i--)
        number = number << 8 | answer[offset + i - 1];
    return number;
}

/* ---- Layouts on chain. A name that says no offset is a length. ---- */

#define FIBER_SETTLEMENT_HASH 32 /* a whole payment hash, a preimage, a digest */
#define FIBER_SETTLEMENT_KEY 33 /* a public key */
#define FIBER_SETTLEMENT_KEY_HASH 20 /* a key hash */
#define FIBER_SETTLEMENT_SIGNATURE 65
#define FIBER_SETTLEMENT_H_SHORT 20 /* h of args of 57 bytes */
#define FIBER_SETTLEMENT_H_FULL 32 /* h of args of 58 bytes */

/* Lock args. */
#define FIBER_SETTLEMENT_ARGS_DELAY 20 /* offset, 8 bytes */
#define FIBER_SETTLEMENT_ARGS_NUMBER 28 /* offset, 8 bytes, big-endian */
#define FIBER_SETTLEMENT_ARGS_STATE_HASH 36 /* offset, 20 bytes */
#define FIBER_SETTLEMENT_ARGS_LATER 56 /* offset, 1 byte */
#define FIBER_SETTLEMENT_ARGS_FEATURES 57 /* offset, 1 byte, in full args alone */
#define FIBER_SETTLEMENT_ARGS_SHORT_LEN 57
#define FIBER_SETTLEMENT_ARGS_FULL_LEN 58

/* A witness, its 16 bytes in front cut off. */
#define FIBER_SETTLEMENT_CHAIN_PREFIX 16
#define FIBER_SETTLEMENT_WITNESS_COUNT 1 /* offset of n; the state begins here */
#define FIBER_SETTLEMENT_WITNESS_TLCS 2 /* offset of the first record */

/* A record: one TLC in a witness. Behind the hash: remote key hash at 17 + h, local key hash at 37 + h, expiry at 57 + h. The
 * expiry is an absolute timestamp since value, 8 bytes, in seconds; fiber_settlement_expiry turns it into milliseconds. */
#define FIBER_SETTLEMENT_RECORD_FIXED 65 /* what a record has beside the h bytes of its hash */
#define FIBER_SETTLEMENT_RECORD_KIND 0 /* offset; bit 0 clear: offered; bit 1: 0 CKB's hash, 1 SHA-256 */
#define FIBER_SETTLEMENT_RECORD_AMOUNT 1 /* offset, 16 bytes */
#define FIBER_SETTLEMENT_RECORD_HASH 17 /* offset, the first h bytes of the payment hash */
#define FIBER_SETTLEMENT_RECORD(h) (65 + (h))

/* A share: key hash, then amount. Both are zeros once it is paid out. */
#define FIBER_SETTLEMENT_SHARE_LEN 36
#define FIBER_SETTLEMENT_SHARE_AMOUNT 20 /* offset, 16 bytes */
#define FIBER_SETTLEMENT_SHARES 72 /* both */

/* A state of n records: n, the records, both shares. A choice is made of 254 at most: place 254 would be slot remote's byte. */
#define FIBER_SETTLEMENT_STATE_FIXED 73 /* what a state has beside its records */
#define FIBER_SETTLEMENT_MOST_TLCS 254
#define FIBER_SETTLEMENT_STATE(h, n) (73 + (n) * (65 + (h)))

/* An unlock: what it unlocks, a flag, the signature, and with flag 1 the preimage. */
#define FIBER_SETTLEMENT_UNLOCK 67
#define FIBER_SETTLEMENT_UNLOCK_WITH_PREIMAGE 99
#define FIBER_SETTLEMENT_UNLOCK_SIGNATURE 2 /* offset, 65 bytes; the preimage is behind it */
#define FIBER_SETTLEMENT_UNLOCK_REMOTE 0xFE /* the share in slot remote */
#define FIBER_SETTLEMENT_UNLOCK_LOCAL 0xFF /* the share in slot local; any byte below n is the TLC at that place */

/* h, as the args say it: 20, 32, or 0 for args that no channel of the reference has. With 0 every operation says 14. */
static inline uint64_t fiber_settlement_hash_length(const uint8_t *args, size_t args_len)
{
    if (args_len == FIBER_SETTLEMENT_ARGS_SHORT_LEN)
        return FIBER_SETTLEMENT_H_SHORT;
    if (args_len == FIBER_SETTLEMENT_ARGS_FULL_LEN && args[FIBER_SETTLEMENT_ARGS_FEATURES] == 1)
        return FIBER_SETTLEMENT_H_FULL;
    return 0;
}

/* Writes the 16 bytes that stand on chain in front of a witness. */
static inline void fiber_settlement_put_chain_prefix(uint8_t *out)
{
    size_t i;
    for (i = 0; i < FIBER_SETTLEMENT_CHAIN_PREFIX; i++)
        out[i] = (uint8_t)(i % 4 == 0 ? 0x10 : 0);
}

/* 1 if a witness from the chain begins with them. Where it does not, it is no settlement witness; where it does, cut them off. */
static inline int fiber_settlement_has_chain_prefix(const uint8_t *on_chain, size_t len)
{
    size_t i;
    if (len < FIBER_SETTLEMENT_CHAIN_PREFIX)
        return 0;
    for (i = 0; i < FIBER_SETTLEMENT_CHAIN_PREFIX; i++)
        if (on_chain[i] != (i % 4 == 0 ? 0x10 : 0))
            return 0;
    return 1;
}

/* ---- Reading and updating a witness ---- */

/* Reads a witness of a channel whose records have h bytes of a hash. Numbers: 14; 1 to 4 front to back. */
#define FIBER_SETTLEMENT_READ_ANSWER 48
#define FIBER_SETTLEMENT_READ_TLCS 16 /* n, how many TLCs */
#define FIBER_SETTLEMENT_READ_UNLOCK_COUNT 24 /* how many unlocks there are, whatever the count byte says */
#define FIBER_SETTLEMENT_READ_SHARE_PLACE 32 /* the place of the share part: slot remote, then slot local */
#define FIBER_SETTLEMENT_READ_FIRST_UNLOCK 40 /* the place of the first unlock, or the witness's length */

uint64_t fiber_settlement_read(uint64_t h, const uint8_t *witness, size_t witness_len, uint8_t *answer,
                               size_t answer_len);

/* Takes the unlocks of a witness in order and writes the state left to the front of out: what is still owed to whom. Numbers:
 * 14; 1 to 4; 5 and 6, first faulty unlock first; 13. */
#define FIBER_SETTLEMENT_UPDATE_ANSWER 24
#define FIBER_SETTLEMENT_UPDATE_LENGTH 16 /* the length of the state left */

uint64_t fiber_settlement_update(uint64_t h, const uint8_t *witness, size_t witness_len, uint8_t *out, size_t out_len,
                                 uint8_t *answer, size_t answer_len);

/* ---- Hashes, epochs, expiry ---- */

/* CKB's hash (BLAKE2b-256, personalisation ckb-default-hash) and SHA-256. out has 32 bytes. */
void fiber_settlement_ckb_hash(const uint8_t *bytes, size_t len, uint8_t *out);
void fiber_settlement_sha256(const uint8_t *bytes, size_t len, uint8_t *out);

/* The hash of a public key, the first 20 bytes of its CKB hash. Number: 14 for a key that has not 33 bytes. */
#define FIBER_SETTLEMENT_KEY_HASH_ANSWER 36
#define FIBER_SETTLEMENT_KEY_HASH_BYTES 16 /* 20 bytes, not a number */

uint64_t fiber_settlement_key_hash(const uint8_t *key, size_t key_len, uint8_t *answer, size_t answer_len);

/* 1 if the args name this state by their state hash. To be asked before every choice: of a first state it shows that TLC list,
 * view, amounts, keys and for_remote are those of the cell, of an updated witness that it is the one that made the cell. */
static inline int fiber_settlement_state_matches(const uint8_t *args, size_t args_len, const uint8_t *state,
                                                 size_t state_len)
{
    uint8_t hash[FIBER_SETTLEMENT_HASH];
    size_t i;
    if (args_len < FIBER_SETTLEMENT_ARGS_LATER)
        return 0;
    fiber_settlement_ckb_hash(state, state_len, hash);
    for (i = 0; i < FIBER_SETTLEMENT_KEY_HASH; i++)
        if (args[FIBER_SETTLEMENT_ARGS_STATE_HASH + i] != hash[i])
            return 0;
    return 1;
}

/* An epoch times a fraction, rounded as the reference does it: a tower takes 1/3 and 2/3 of a delay. Numbers: 14 for a field
 * beyond its bits (number 24, index and length 16); 8 for a product above 64 bits; 7; 8 for a number above 24 bits. */
#define FIBER_SETTLEMENT_SCALE_ANSWER 40
#define FIBER_SETTLEMENT_SCALE_NUMBER 16
#define FIBER_SETTLEMENT_SCALE_INDEX 24
#define FIBER_SETTLEMENT_SCALE_LENGTH 32

uint64_t fiber_settlement_scale(uint64_t number, uint64_t index, uint64_t length, uint64_t numerator,
                                uint64_t denominator, uint8_t *answer, size_t answer_len);

/* Is header + delay at or before current? Exact, as fractions. Numbers: 14, 7. */
#define FIBER_SETTLEMENT_IS_DUE_ANSWER 24
#define FIBER_SETTLEMENT_IS_DUE_DUE 16 /* 1 due, 0 not yet */

uint64_t fiber_settlement_is_due(uint64_t header_number, uint64_t header_index, uint64_t header_length,
                                 uint64_t delay_number, uint64_t delay_index, uint64_t delay_length,
                                 uint64_t current_number, uint64_t current_index, uint64_t current_length,
                                 uint8_t *answer, size_t answer_len);

/* The expiry that the since value of a record holds. */
#define FIBER_SETTLEMENT_EXPIRY_ANSWER 32
#define FIBER_SETTLEMENT_EXPIRY_KNOWN 16 /* 1; 0 for no absolute timestamp, or one that passes 64 bits */
#define FIBER_SETTLEMENT_EXPIRY_MS 24 /* milliseconds, 0 if not known */

uint64_t fiber_settlement_expiry(uint64_t since, uint8_t *answer, size_t answer_len);

/* ---- What the host lends for a choice ---- */

/* A settlement TLC: an entry of the list that the host stored with the commitment, in the commitment's order. The list stays
 * whole in later settlements. Whose view received is in stands above: it is 1 exactly if the commitment's owner offered. */
#define FIBER_SETTLEMENT_TLC 124
#define FIBER_SETTLEMENT_TLC_RECEIVED 0 /* 1 byte: 0 or 1 */
#define FIBER_SETTLEMENT_TLC_ALGORITHM 1 /* 1 byte: 0 CKB's hash or 1 SHA-256 */
#define FIBER_SETTLEMENT_TLC_AMOUNT 2 /* 16 bytes, little-endian, as every number here */
#define FIBER_SETTLEMENT_TLC_HASH 18 /* 32, whole whatever h is */
#define FIBER_SETTLEMENT_TLC_EXPIRY 50 /* 8, milliseconds; a record keeps whole seconds of it */
#define FIBER_SETTLEMENT_TLC_LOCAL_KEY 58 /* 33, ours, whoever's the commitment is */
#define FIBER_SETTLEMENT_TLC_REMOTE_KEY 91 /* 33, theirs */

/* A tracked TLC: one that stands in the cell, with its whole hash. For a first settlement these are all settlement TLCs, each with
 * its record (fiber_settlement_tlc_record). For each unlock of a TLC that the chain shows, by whomever, its entry is taken out;
 * the others keep their order, and all places of one witness mean the list before it. Three things are the host's duty: the
 * hash begins with the record's h bytes, the algorithm is bit 1 of the record's type, and the order is that in which the TLCs
 * stand. Of these the choice tests the order alone (20). By a wrong hash or algorithm it misses a preimage, and once the TLC has
 * expired it takes our share and so gives the TLC up; or it puts in a preimage that the chain turns down, at every tip.
 * fiber_settlement_put_tracked and fiber_settlement_follow keep the list right. */
#define FIBER_SETTLEMENT_TRACKED(h) (98 + (h))
#define FIBER_SETTLEMENT_TRACKED_FIXED 98 /* what a tracked TLC has beside the h bytes of its record's hash */
#define FIBER_SETTLEMENT_TRACKED_HASH 0 /* 32 */
#define FIBER_SETTLEMENT_TRACKED_ALGORITHM 32 /* 1 */
#define FIBER_SETTLEMENT_TRACKED_RECORD 33 /* 65 + h, as in a witness */

/* A stored preimage: its whole hash (32), then the preimage (32). Of several with one hash the first alone is looked at, and it
 * counts only if it has that hash under the TLC's algorithm. One that does not count is as good as none: once the TLC has expired
 * our share is taken, and the TLC is given up. */
#define FIBER_SETTLEMENT_PAIR 64
#define FIBER_SETTLEMENT_PAIR_PREIMAGE 32 /* offset */

/* The answer of the next two: how many bytes were written to the front of out. */
#define FIBER_SETTLEMENT_WRITTEN_ANSWER 24
#define FIBER_SETTLEMENT_WRITTEN_LENGTH 16

/* The record of one settlement TLC (124 bytes), 65 + h bytes. Numbers: 14, 13. */
uint64_t fiber_settlement_tlc_record(uint64_t h, uint8_t for_remote, const uint8_t *tlc, size_t tlc_len, uint8_t *out,
                                     size_t out_len, uint8_t *answer, size_t answer_len);

/* Writes the tracked TLC of a settlement TLC, 98 + h bytes, to the front of entry. Numbers as of the record. */
static inline uint64_t fiber_settlement_put_tracked(uint64_t h, uint8_t for_remote, const uint8_t *tlc, size_t tlc_len,
                                                    uint8_t *entry, size_t entry_len)
{
    uint8_t answer[FIBER_SETTLEMENT_WRITTEN_ANSWER];
    uint64_t number;
    if (entry_len < FIBER_SETTLEMENT_TRACKED_RECORD)
        return FIBER_SETTLEMENT_OUTPUT_SHORT;
    number = fiber_settlement_tlc_record(h, for_remote, tlc, tlc_len, entry + FIBER_SETTLEMENT_TRACKED_RECORD,
                                         entry_len - FIBER_SETTLEMENT_TRACKED_RECORD, answer, sizeof answer);
    if (number == FIBER_SETTLEMENT_OK) {
        memcpy(entry + FIBER_SETTLEMENT_TRACKED_HASH, tlc + FIBER_SETTLEMENT_TLC_HASH, FIBER_SETTLEMENT_HASH);
        entry[FIBER_SETTLEMENT_TRACKED_ALGORITHM] = tlc[FIBER_SETTLEMENT_TLC_ALGORITHM];
    }
    return number;
}

/* Takes the TLCs that a witness settles out of the tracked list of the cell that its transaction spent, for the cell that it made.
 * Returns the list's new length; SIZE_MAX, with the list as it was, where the witness is not of that cell or unlocks what is not
 * there. The 16 bytes in front are cut off before. */
static inline size_t fiber_settlement_follow(uint64_t h, const uint8_t *witness, size_t witness_len, uint8_t *tracked,
                                             size_t tracked_len)
{
    uint8_t answer[FIBER_SETTLEMENT_READ_ANSWER], settled[256] = {0};
    size_t record, entry, n, at, i, left = 0;
    if (fiber_settlement_read(h, witness, witness_len, answer, sizeof answer) != FIBER_SETTLEMENT_OK)
        return SIZE_MAX;
    record = FIBER_SETTLEMENT_RECORD((size_t)h);
    entry = FIBER_SETTLEMENT_TRACKED((size_t)h);
    n = (size_t)fiber_settlement_field(answer, FIBER_SETTLEMENT_READ_TLCS);
    if (n * entry != tracked_len)
        return SIZE_MAX;
    for (i = 0; i < n; i++)
        if (memcmp(tracked + i * entry + FIBER_SETTLEMENT_TRACKED_RECORD, witness + FIBER_SETTLEMENT_WITNESS_TLCS + i * record,
                   record) != 0)
            return SIZE_MAX;
    for (at = (size_t)fiber_settlement_field(answer, FIBER_SETTLEMENT_READ_FIRST_UNLOCK); at < witness_len;
         at += witness[at + 1] == 1 ? FIBER_SETTLEMENT_UNLOCK_WITH_PREIMAGE : FIBER_SETTLEMENT_UNLOCK) {
        if (witness[at] >= FIBER_SETTLEMENT_UNLOCK_REMOTE)
            continue; /* a share */
        if (witness[at] >= n || settled[witness[at]]++)
            return SIZE_MAX;
    }
    for (i = 0; i < n; i++)
        if (!settled[i])
            memmove(tracked + left++ * entry, tracked + i * entry, entry);
    return left * entry;
}

/* The state of the commitment transaction's own cell, whose hash its args have. Amounts are two halves of 64 bits; local is
 * ours, remote theirs, with for_remote and without. Numbers: 14, 12, 13. */
uint64_t fiber_settlement_first_state(uint64_t h, uint8_t for_remote, uint64_t local_low, uint64_t local_high,
                                      uint64_t remote_low, uint64_t remote_high, const uint8_t *tlcs, size_t tlcs_len,
                                      const uint8_t *local_key, size_t local_key_len, const uint8_t *remote_key,
                                      size_t remote_key_len, uint8_t *out, size_t out_len, uint8_t *answer,
                                      size_t answer_len);

/* ---- The choice ---- */

/* Chooses what is unlocked next. With is_later the witness is updated first, and amounts and epochs do not count (14 looks at them
 * all the same); without, the witness is not looked at. To the front of out go, joined: the unlock with 65 zero bytes for its signature, the state before
 * it, and the new lock args. 99 + FIBER_SETTLEMENT_STATE(h, n) + 58 bytes are enough, 24,868 for the largest cell.
 *
 * What is chosen: the first TLC in order that is ours by preimage and whose preimage is lent, expired or not, or that is ours by
 * timeout with time > expiry; in a first settlement also with 1/3 of the delay due for a preimage, 2/3 for a timeout. Where there
 * is none, our share, but only if no TLC stands that we may still get: each one is ours by preimage, without a preimage, and
 * expired; in a first settlement also with the whole delay due. So our share ends what we can get of the cell. In a later settlement
 * a TLC is passed over, and keeps our share waiting, if its expiry is no absolute timestamp or if no settlement TLC has its hash
 * and our key. The expiry is the TLC's milliseconds in a first settlement, the whole seconds of its record in a later one.
 *
 * Where nothing is chosen, number and place tell the first TLC that is still pending: 23, 24 or 25, and where several fit that TLC,
 * the first of them. Never named is a TLC that is given up: ours by preimage, no preimage counts, and expired; in a first settlement
 * the whole delay must be due too. Without a TLC there is 22, in a first settlement alone.
 *
 * On chain the order is another: the 16 bytes, the byte 1, the state, the unlock with its signature. Unless it is the last
 * settlement, the first output is the successor cell: the same lock with the new args, which name the state after the unlock, and what
 * the cell had less the amount. The commitment input's since is the delay of the answer as a relative epoch
 * (fiber_settlement_since_of), and 0 in a later settlement. For a TLC by timeout the reference gives its other inputs, of which there is
 * at least one, the absolute timestamp 0x4000000000000000 with time / 1000.
 *
 * Numbers, in this order: 14; 10, 11; in a later settlement 1 to 4 front to back, then 5 and 6; in a first one 7; 12; 20;
 * in a later one 21; one of 22 to 25; 13. From 20 on they are waits. */
#define FIBER_SETTLEMENT_CHOOSE_ANSWER 152
#define FIBER_SETTLEMENT_CHOOSE_KIND 16 /* what is unlocked: */
#define FIBER_SETTLEMENT_SHARE 0 /* our share */
#define FIBER_SETTLEMENT_BY_TIMEOUT 1 /* a TLC, by timeout */
#define FIBER_SETTLEMENT_BY_PREIMAGE 2 /* a TLC, by a preimage */
#define FIBER_SETTLEMENT_CHOOSE_BYTE 24 /* the unlock's byte: 0xFE or 0xFF for our slot, or the TLC's place in the state */
#define FIBER_SETTLEMENT_CHOOSE_AMOUNT_LOW 32 /* the TLC's or the share's amount, low half */
#define FIBER_SETTLEMENT_CHOOSE_AMOUNT_HIGH 40 /* high half */
#define FIBER_SETTLEMENT_CHOOSE_KEY_KIND 48 /* which key signs: */
#define FIBER_SETTLEMENT_KEY_OURS 0 /* our settlement key */
#define FIBER_SETTLEMENT_KEY_OF_TLC 1 /* the local key of a settlement TLC */
#define FIBER_SETTLEMENT_CHOOSE_KEY_PLACE 56 /* that TLC's place in the settlement TLC list, counted in entries from 0; else 0 */
#define FIBER_SETTLEMENT_CHOOSE_DELAY_KIND 64 /* whether a delay goes with it: */
#define FIBER_SETTLEMENT_NO_DELAY_OUT 0 /* a later settlement: none */
#define FIBER_SETTLEMENT_DELAY_OUT 1 /* a first one: an epoch */
#define FIBER_SETTLEMENT_CHOOSE_DELAY_NUMBER 72 /* 0 without a delay, as the next two */
#define FIBER_SETTLEMENT_CHOOSE_DELAY_INDEX 80
#define FIBER_SETTLEMENT_CHOOSE_DELAY_LENGTH 88
#define FIBER_SETTLEMENT_CHOOSE_RECORD_PLACE 96 /* the TLC's record: its first byte in the witness, in a first one in tracked */
#define FIBER_SETTLEMENT_CHOOSE_RECORD_LENGTH 104 /* its length; both are 0 for a share */
#define FIBER_SETTLEMENT_CHOOSE_UNLOCK_LENGTH 112 /* the length of the unlock, at the front of out */
#define FIBER_SETTLEMENT_CHOOSE_STATE_LENGTH 120 /* of the state, behind it */
#define FIBER_SETTLEMENT_CHOOSE_ARGS_LENGTH 128 /* of the new args, behind that */
#define FIBER_SETTLEMENT_CHOOSE_PAIR_PLACE 136 /* the place of the preimage's pair, counted in pairs from 0; else 0 */
#define FIBER_SETTLEMENT_CHOOSE_LAST 144 /* 1 if this settlement is the last one, else 0 */

/* The last settlement: a later one in which the other slot's key hash is zeros, the other party having been paid. Our share is
 * chosen, whatever TLCs still stand. The reference then makes no successor cell, so that the new args are of no use, and pays
 * out the cell's whole capacity (of a UDT cell all its tokens as well), not the share's amount alone. */

uint64_t fiber_settlement_choose(uint64_t h, uint8_t for_remote, uint8_t is_later, uint64_t time,
                                 uint64_t header_number, uint64_t header_index, uint64_t header_length,
                                 uint64_t current_number, uint64_t current_index, uint64_t current_length,
                                 uint64_t local_low, uint64_t local_high, uint64_t remote_low, uint64_t remote_high,
                                 const uint8_t *args, size_t args_len, const uint8_t *tlcs, size_t tlcs_len,
                                 const uint8_t *local_key, size_t local_key_len, const uint8_t *remote_key,
                                 size_t remote_key_len, const uint8_t *tracked, size_t tracked_len,
                                 const uint8_t *preimages, size_t preimages_len, const uint8_t *witness,
                                 size_t witness_len, uint8_t *out, size_t out_len, uint8_t *answer, size_t answer_len);

/* The same with names instead of places, so that nothing is mistaken for another, and less can contradict: h, and first or later,
 * come from the args. Begin with zeros and set what is known. What is left out or cannot be is 14 at 0: the commitment, the args, a
 * key, a time that is not in milliseconds (from 2017 to 2286), an index that is not below its length, a tip before the cell's
 * block, a witness in a first settlement. A left-out epoch of a first settlement is 7, a left-out witness of a later one 1. Amounts
 * and lists that are left out are zero and empty: fiber_settlement_request_matches tells. */
enum fiber_settlement_commitment { /* no flag has these values */
    FIBER_SETTLEMENT_COMMITMENT_OURS = 0x4F, /* for_remote 0 */
    FIBER_SETTLEMENT_COMMITMENT_THEIRS = 0x54 /* for_remote 1 */
};

struct fiber_settlement_bytes {
    const uint8_t *bytes;
    size_t len;
};

struct fiber_settlement_epoch {
    uint64_t number;
    uint64_t index;
    uint64_t length;
};

struct fiber_settlement_amount {
    uint64_t low;
    uint64_t high;
};

struct fiber_settlement_request {
    enum fiber_settlement_commitment commitment; /* whose it is: args bytes 0 to 19 */
    uint64_t time; /* the tip's median block time, milliseconds */
    struct fiber_settlement_epoch header; /* of the block that holds the cell */
    struct fiber_settlement_epoch current; /* of the tip */
    struct fiber_settlement_amount local_amount; /* ours, as stored with the commitment */
    struct fiber_settlement_amount remote_amount; /* theirs */
    struct fiber_settlement_bytes args; /* of the cell */
    struct fiber_settlement_bytes tlcs; /* settlement TLCs, 124 bytes each */
    struct fiber_settlement_bytes local_key; /* our settlement key, 33 bytes */
    struct fiber_settlement_bytes remote_key; /* theirs */
    struct fiber_settlement_bytes tracked; /* tracked TLCs, 98 + h bytes each */
    struct fiber_settlement_bytes preimages; /* pairs, 64 bytes each */
    struct fiber_settlement_bytes witness; /* that made the cell, its 16 bytes cut off; none in a first one */
};

/* The epoch in what a block's header has: number in bits 0 to 23, index in 24 to 39, length in 40 to 55. */
static inline struct fiber_settlement_epoch fiber_settlement_epoch_of(uint64_t of_header)
{
    struct fiber_settlement_epoch epoch;
    epoch.number = of_header & 0xFFFFFF;
    epoch.index = of_header >> 24 & 0xFFFF;
    epoch.length = of_header >> 40 & 0xFFFF;
    return epoch;
}

/* The since of the commitment input of a first settlement: the delay that was handed out, as a relative epoch. */
static inline uint64_t fiber_settlement_since_of(struct fiber_settlement_epoch delay)
{
    return (uint64_t)0xA000 << 48 | delay.length << 40 | delay.index << 24 | delay.number;
}

/* 1 if nothing in the request contradicts what the args say, and no number is one that the chain cannot have. */
static inline int fiber_settlement_request_is_well(const struct fiber_settlement_request *r)
{
    const struct fiber_settlement_epoch *header = &r->header, *current = &r->current;
    const uint64_t h = fiber_settlement_hash_length(r->args.bytes, r->args.len);
    uint8_t answer[FIBER_SETTLEMENT_IS_DUE_ANSWER];
    if (r->commitment != FIBER_SETTLEMENT_COMMITMENT_OURS && r->commitment != FIBER_SETTLEMENT_COMMITMENT_THEIRS)
        return 0;
    if (h == 0 || r->args.bytes[FIBER_SETTLEMENT_ARGS_LATER] > 1)
        return 0;
    if (r->time < (uint64_t)1500000 * 1000000 || r->time >= (uint64_t)10000000 * 1000000)
        return 0;
    if (r->args.bytes[FIBER_SETTLEMENT_ARGS_LATER] == 1)
        return 1; /* the witness speaks for the rest */
    if (r->witness.len != 0 || (header->length != 0 && header->index >= header->length)
        || (current->length != 0 && current->index >= current->length))
        return 0;
    /* header + 0 at or before current; a length of 0 is left to the choice */
    return fiber_settlement_is_due(header->number, header->index, header->length, 0, 0, 1, current->number, current->index,
                                   current->length, answer, sizeof answer) != FIBER_SETTLEMENT_OK
           || fiber_settlement_field(answer, FIBER_SETTLEMENT_IS_DUE_DUE) == 1;
}

/* 1 if the args name the state of this request: in a first settlement the one that its TLCs, amounts and keys give, in a later one the one
 * that its witness leaves. To be asked before every choice, with the same struct: a list in the wrong view, amounts or keys of the wrong
 * side, or the witness of another cell are well formed, and by them a tower pays the other side. scratch has room for the state,
 * FIBER_SETTLEMENT_STATE(h, n) bytes; its content is of no use afterwards. */
static inline int fiber_settlement_request_matches(const struct fiber_settlement_request *request, uint8_t *scratch,
                                                   size_t scratch_len)
{
    const struct fiber_settlement_request *r = request;
    uint8_t answer[FIBER_SETTLEMENT_WRITTEN_ANSWER];
    const uint64_t h = fiber_settlement_hash_length(r->args.bytes, r->args.len);
    uint64_t number;
    if (!fiber_settlement_request_is_well(r))
        return 0;
    if (r->args.bytes[FIBER_SETTLEMENT_ARGS_LATER] == 1)
        number = fiber_settlement_update(h, r->witness.bytes, r->witness.len, scratch, scratch_len, answer, sizeof answer);
    else
        number = fiber_settlement_first_state(
            h, r->commitment == FIBER_SETTLEMENT_COMMITMENT_THEIRS, r->local_amount.low, r->local_amount.high,
            r->remote_amount.low, r->remote_amount.high, r->tlcs.bytes, r->tlcs.len, r->local_key.bytes, r->local_key.len,
            r->remote_key.bytes, r->remote_key.len, scratch, scratch_len, answer, sizeof answer);
    return number == FIBER_SETTLEMENT_OK
           && fiber_settlement_state_matches(r->args.bytes, r->args.len, scratch,
                                             (size_t)fiber_settlement_field(answer, FIBER_SETTLEMENT_WRITTEN_LENGTH));
}

static inline uint64_t fiber_settlement_choose_request(const struct fiber_settlement_request *request, uint8_t *out,
                                                       size_t out_len, uint8_t *answer, size_t answer_len)
{
    const struct fiber_settlement_request *r = request;
    const int is_well = fiber_settlement_request_is_well(r);
    /* What is not well goes on as the flag 2, which is none. */
    const uint8_t for_remote = (uint8_t)(is_well ? r->commitment == FIBER_SETTLEMENT_COMMITMENT_THEIRS : 2);
    const uint8_t is_later = (uint8_t)(is_well ? r->args.bytes[FIBER_SETTLEMENT_ARGS_LATER] : 2);
    return fiber_settlement_choose(
        fiber_settlement_hash_length(r->args.bytes, r->args.len), for_remote, is_later, r->time, r->header.number, r->header.index,
        r->header.length, r->current.number, r->current.index, r->current.length, r->local_amount.low, r->local_amount.high,
        r->remote_amount.low, r->remote_amount.high, r->args.bytes, r->args.len, r->tlcs.bytes, r->tlcs.len, r->local_key.bytes,
        r->local_key.len, r->remote_key.bytes, r->remote_key.len, r->tracked.bytes, r->tracked.len, r->preimages.bytes,
        r->preimages.len, r->witness.bytes, r->witness.len, out, out_len, answer, answer_len);
}

/* ---- The journal ---- */

/* A journal keeps unlocks on file. It is the first `length` bytes of a slice that the host lends and that may be longer: entries,
 * joined, the newest at the end. An entry:
 *
 *    0, 32 bytes  channel id, of the host's choosing, the same in all entries of a channel
 *   32,  1        unlock byte
 *   33,  1        flag
 *   34, 16        amount
 *   50,  8        the trailer begins: the place where the entry before starts, all ones where there is none
 *   58,  4        its own length, 62
 *
 * Numbers are little-endian, and places count from the slice's first byte. The journal is read from its end: the last four bytes
 * say how long the last entry is, the eight before them where the one before it starts. Every call tests the whole chain so,
 * newest first, in time that grows with the length: 65,535 entries are 4,063,170 bytes. The trailers are tested and nothing else:
 * a byte that has changed in another field goes unseen.
 *
 * THE LENGTH is kept by the host, with the bytes. An append answers the new one, and the next call has to be given that: with the old
 * one the next append writes over the entry, and no number says so. So do two appends at once. A refusal leaves length and bytes as
 * they were. The inline functions below keep the length in a struct, and move it on success alone.
 *
 * ON DISK. Write the 62 new bytes before the new length, or both as one; never the length first. Where a crash comes between, the
 * old length is still right, and what stands behind it does not count. A host that has only a file appends the 62 bytes to it and
 * takes the file's size for the length.
 *
 * 41 has these causes, told apart by its place:
 *
 *   the length is not the one of these bytes, but another journal's, or a count of entries. Look there first: nothing is lost.
 *   a write broke off, and the file's size is the length. The size is then no multiple of 62, or 41 is at the last trailer, at
 *     length - 12, where the file system left zeros. All bytes before the torn entry are still a journal. Keep a copy; take for
 *     the length the largest multiple of 62 that is not above the size, and 62 less for as long as 41 is at the last trailer; cut the
 *     file there before the next append. The entry is appended again.
 *   a place further to the front, at a length that is a multiple of 62: something wrote over the bytes, and the trailers behind the
 *     place are right. Do not cut, which would drop those entries: take the journal from a copy, and tell an operator.
 *
 * WHAT TO APPEND. An unlock when the chain has taken its transaction, once: no call looks whether an entry is there already, so
 * after a restart walk the journal first. Unlock byte and flag go in as given, and as each is one byte they are taken swapped as
 * well: read both from the unlock's own front (fiber_journal_append_chosen does). The byte is a place in the state before that
 * unlock, so that in two entries of a channel it can be of two TLCs. */
#define FIBER_JOURNAL_ENTRY 62
#define FIBER_JOURNAL_CHANNEL 32 /* a channel id, at the front of an entry */
#define FIBER_JOURNAL_UNLOCK 32 /* offset, 1 byte */
#define FIBER_JOURNAL_FLAG 33 /* offset, 1 byte */
#define FIBER_JOURNAL_AMOUNT 34 /* offset, 16 bytes, the low half first */
#define FIBER_JOURNAL_BEFORE 50 /* offset, 8 bytes: where the entry before starts. Here begins the trailer */
#define FIBER_JOURNAL_LENGTH 58 /* offset, 4 bytes: the entry's own length */
#define FIBER_JOURNAL_NO_ENTRY 0xFFFFFFFFFFFFFFFF /* in the place of the entry before, where there is none */
#define FIBER_JOURNAL_MOST_ENTRIES 65535 /* an append makes no more; a walk goes over any number */

/* The answer of both calls. */
#define FIBER_JOURNAL_ANSWER 24
#define FIBER_JOURNAL_ANSWER_LENGTH 16 /* of an append the journal's new length, of a walk the bytes written */

/* Appends one entry: writes its 62 bytes behind the journal, changes no other byte of the slice, and answers the new length. The
 * slice must not overlap the answer buffer, nor the channel id: an id that lies in an entry is copied out first. Numbers, in this
 * order: 14 for a length beyond journal_size, or a channel id that has not 32 bytes; 41; 40; 13 where the slice has no room. */
uint64_t fiber_journal_append(uint8_t *journal, size_t journal_size, uint64_t length, const uint8_t *channel,
                              size_t channel_len, uint8_t unlock, uint8_t flag, uint64_t amount_low, uint64_t amount_high,
                              uint8_t *answer, size_t answer_len);

/* Writes every entry, whole and once, newest first, to the front of out, and answers the bytes written: as many as the journal
 * has, none for length 0. out must not overlap the journal. Numbers, in this order: 14 for a length beyond journal_size; 41; 13.
 * With out NULL and out_len 0 it tests the chain and writes nothing: 13 says that the journal is one, as 0 does of an empty one. */
uint64_t fiber_journal_walk(const uint8_t *journal, size_t journal_size, uint64_t length, uint8_t *out, size_t out_len,
                            uint8_t *answer, size_t answer_len);

/* A journal, with what belongs to it in one place. A new one has length 0, one from a file the length that was kept. */
struct fiber_journal {
    uint8_t *bytes; /* the slice that is lent */
    size_t size; /* how many bytes it has */
    uint64_t length; /* how many of them, from the front, are the journal */
};

/* An entry, by names. */
struct fiber_journal_entry {
    struct fiber_settlement_bytes channel; /* 32 bytes */
    uint8_t unlock;
    uint8_t flag;
    struct fiber_settlement_amount amount;
};

/* Appends the entry, and moves the journal's length if it was taken: the 62 bytes before the length are then new, and go to the disk.
 * Numbers as of fiber_journal_append. */
static inline uint64_t fiber_journal_append_entry(struct fiber_journal *journal, const struct fiber_journal_entry *entry,
                                                  uint8_t *answer, size_t answer_len)
{
    const struct fiber_journal_entry *e = entry;
    const uint64_t number =
        fiber_journal_append(journal->bytes, journal->size, journal->length, e->channel.bytes, e->channel.len, e->unlock, e->flag,
                             e->amount.low, e->amount.high, answer, answer_len);
    if (number == FIBER_SETTLEMENT_OK)
        journal->length = fiber_settlement_field(answer, FIBER_JOURNAL_ANSWER_LENGTH);
    return number;
}

/* Appends what a choice has chosen: unlock byte and flag from the unlock at the front of its output; from its answer, of
 * FIBER_SETTLEMENT_CHOOSE_ANSWER bytes, the amount, which is the share's also where the last settlement pays out more. Numbers as of
 * fiber_journal_append; 14 at 0 also where the answer chooses nothing, or another unlock than the output begins with. */
static inline uint64_t fiber_journal_append_chosen(struct fiber_journal *journal, struct fiber_settlement_bytes channel,
                                                   const uint8_t *out, const uint8_t *choose_answer, uint8_t *answer,
                                                   size_t answer_len)
{
    const int is_chosen = fiber_settlement_field(choose_answer, FIBER_SETTLEMENT_NUMBER) == FIBER_SETTLEMENT_OK
                          && fiber_settlement_field(choose_answer, FIBER_SETTLEMENT_CHOOSE_BYTE) == out[0]
                          && fiber_settlement_field(choose_answer, FIBER_SETTLEMENT_CHOOSE_UNLOCK_LENGTH)
                                 == (out[1] == 1 ? FIBER_SETTLEMENT_UNLOCK_WITH_PREIMAGE : FIBER_SETTLEMENT_UNLOCK);
    struct fiber_journal_entry entry;
    memset(&entry, 0, sizeof entry);
    if (is_chosen) {
        entry.channel = channel; /* else there is none, which is 14 */
        entry.unlock = out[0];
        entry.flag = out[1];
        entry.amount.low = fiber_settlement_field(choose_answer, FIBER_SETTLEMENT_CHOOSE_AMOUNT_LOW);
        entry.amount.high = fiber_settlement_field(choose_answer, FIBER_SETTLEMENT_CHOOSE_AMOUNT_HIGH);
    }
    return fiber_journal_append_entry(journal, &entry, answer, answer_len);
}

/* Reads the entries of a walk one after the other, newest first: entries is its output, len the bytes that it answered, and *at begins
 * with 0. 1 with the entry, whose channel id lies in the output, and *at behind it; 0 where none is left. */
static inline int fiber_journal_next(const uint8_t *entries, size_t len, size_t *at, struct fiber_journal_entry *entry)
{
    const uint8_t *bytes;
    if (*at > len || len - *at < FIBER_JOURNAL_ENTRY)
        return 0;
    bytes = entries + *at;
    entry->channel.bytes = bytes;
    entry->channel.len = FIBER_JOURNAL_CHANNEL;
    entry->unlock = bytes[FIBER_JOURNAL_UNLOCK];
    entry->flag = bytes[FIBER_JOURNAL_FLAG];
    entry->amount.low = fiber_settlement_field(bytes, FIBER_JOURNAL_AMOUNT);
    entry->amount.high = fiber_settlement_field(bytes, FIBER_JOURNAL_AMOUNT + 8);
    *at += FIBER_JOURNAL_ENTRY;
    return 1;
}

#ifdef __cplusplus
}
#endif

#endif
