/* Calls every function of fiber_settlement.h and holds its answer against values that are known from elsewhere: the marked rows of
 * the scope's edges, published hash values, layouts byte by byte. Buffers have guards behind what a call may write. It is C99 and
 * C++11 alike, so that both see the header; tools/header builds and runs it. */
#include "fiber_settlement.h"

#include <stdio.h>
#include <string.h>

#define GUARD 0xAA
#define START ((uint64_t)1700000 * 1000000) /* milliseconds; the TLC expires 5,999 later, and by its record 5,000 */

static unsigned checks, failures;
static uint8_t answer[FIBER_SETTLEMENT_CHOOSE_ANSWER + 16], out[1024];

/* ---- checks ---- */

static void same(const char *what, uint64_t is, uint64_t wanted)
{
    checks++;
    if (is == wanted)
        return;
    failures++;
    printf("%s: %llu, wanted %llu\n", what, (unsigned long long)is, (unsigned long long)wanted);
}

static void same_bytes(const char *what, const uint8_t *is, const uint8_t *wanted, size_t len)
{
    same(what, (uint64_t)(memcmp(is, wanted, len) == 0), 1);
}

static void untouched(const char *what, const uint8_t *bytes, size_t from, size_t to)
{
    size_t i;
    for (i = from; i < to && bytes[i] == GUARD; i++) {
    }
    same(what, i, to);
}

static uint8_t *fresh(void)
{
    memset(answer, GUARD, sizeof answer);
    memset(out, GUARD, sizeof out);
    return answer;
}

static uint64_t at(size_t offset)
{
    return fiber_settlement_field(answer, offset);
}

/* Success: number and place are 0, and no byte behind the answer's size is written. */
static void done(const char *what, uint64_t returned, size_t size)
{
    same(what, returned, FIBER_SETTLEMENT_OK);
    same(what, at(FIBER_SETTLEMENT_NUMBER), 0);
    same(what, at(FIBER_SETTLEMENT_PLACE), 0);
    untouched(what, answer, size, sizeof answer);
}

/* Turned down or waiting: number and place, and no other byte. */
static void turned_down(const char *what, uint64_t returned, uint64_t number, uint64_t place)
{
    same(what, returned, number);
    same(what, at(FIBER_SETTLEMENT_NUMBER), number);
    same(what, at(FIBER_SETTLEMENT_PLACE), place);
    untouched(what, answer, 16, sizeof answer);
    untouched(what, out, 0, sizeof out);
}

/* A short answer buffer: the return value alone. */
static void unanswered(const char *what, uint64_t returned)
{
    same(what, returned, FIBER_SETTLEMENT_NOT_WELL);
    untouched(what, answer, 0, sizeof answer);
    untouched(what, out, 0, sizeof out);
}

static void put_le(uint8_t *to, uint64_t number)
{
    size_t i;
    for (i = 0; i < 8; i++)
        to[i] = (uint8_t)(number >> 8 * i);
}

/* ---- hashes ---- */

static void hash_is(const char *what, const uint8_t *hash, const char *hex)
{
    char text[2 * FIBER_SETTLEMENT_HASH + 1];
    size_t i;
    for (i = 0; i < FIBER_SETTLEMENT_HASH; i++)
        sprintf(text + 2 * i, "%02x", hash[i]);
    same(what, (uint64_t)(strcmp(text, hex) == 0), 1);
}

static void hashes(void)
{
    uint8_t hash[FIBER_SETTLEMENT_HASH], key[FIBER_SETTLEMENT_KEY];
    const uint8_t abc[3] = {'a', 'b', 'c'};
    size_t size = FIBER_SETTLEMENT_KEY_HASH_ANSWER;
    fiber_settlement_sha256(abc, sizeof abc, hash);
    hash_is("sha256 of abc", hash, "ba7816bf8f01cfea414140de5dae2223b00361a396177a9cb410ff61f20015ad");
    fiber_settlement_sha256(NULL, 0, hash);
    hash_is("sha256 of nothing", hash, "e3b0c44298fc1c149afbf4c8996fb92427ae41e4649b934ca495991b7852b855");
    fiber_settlement_ckb_hash(NULL, 0, hash);
    hash_is("ckb_hash of nothing", hash, "44f4c69744d5f8c55d642062949dcae49bc4e7ef43d388c5a12f42b5633d163e");

    memset(key, 2, sizeof key);
    fiber_settlement_ckb_hash(key, sizeof key, hash);
    done("key_hash", fiber_settlement_key_hash(key, sizeof key, fresh(), sizeof answer), size);
    same_bytes("key_hash's bytes", answer + FIBER_SETTLEMENT_KEY_HASH_BYTES, hash, FIBER_SETTLEMENT_KEY_HASH);
    done("key_hash, exact", fiber_settlement_key_hash(key, sizeof key, fresh(), size), size);
    turned_down("key_hash of 32 bytes", fiber_settlement_key_hash(key, 32, fresh(), size), 14, 0);
    turned_down("key_hash of NULL", fiber_settlement_key_hash(NULL, 0, fresh(), size), 14, 0);
    unanswered("key_hash, short", fiber_settlement_key_hash(key, sizeof key, fresh(), size - 1));
    fresh();
    unanswered("key_hash, NULL", fiber_settlement_key_hash(key, sizeof key, NULL, 0));
}

/* ---- epochs ---- */

static void scaled(uint64_t index, uint64_t numerator, uint64_t want_index, uint64_t want_length)
{
    const size_t size = FIBER_SETTLEMENT_SCALE_ANSWER;
    done("scale", fiber_settlement_scale(1, index, 601, numerator, 3, fresh(), size), size);
    same("scale's number", at(FIBER_SETTLEMENT_SCALE_NUMBER), 0);
    same("scale's index", at(FIBER_SETTLEMENT_SCALE_INDEX), want_index);
    same("scale's length", at(FIBER_SETTLEMENT_SCALE_LENGTH), want_length);
}

static void scaling(void)
{
    const size_t size = FIBER_SETTLEMENT_SCALE_ANSWER;
    scaled(0, 1, 300, 901);
    scaled(300, 2, 901, 901);
    turned_down("scale, 24 bits", fiber_settlement_scale(1 << 24, 0, 1, 1, 3, fresh(), size), 14, 0);
    turned_down("scale by 1/0", fiber_settlement_scale(1, 0, 1, 1, 0, fresh(), size), 7, 0);
    turned_down("scale by 2^24", fiber_settlement_scale(1, 0, 1, 1 << 24, 1, fresh(), size), 8, 0);
    turned_down("scale by 2^63", fiber_settlement_scale(2, 0, 1, (uint64_t)1 << 63, 1, fresh(), size), 8, 0);
    unanswered("scale, short", fiber_settlement_scale(1, 0, 601, 1, 3, fresh(), size - 1));
    fresh();
    unanswered("scale, NULL", fiber_settlement_scale(1, 0, 601, 1, 3, NULL, 0));
}

static void due(void)
{
    const size_t size = FIBER_SETTLEMENT_IS_DUE_ANSWER;
    done("due", fiber_settlement_is_due(100, 0, 1, 0, 1, 3, 100, 1, 3, fresh(), size), size);
    same("due", at(FIBER_SETTLEMENT_IS_DUE_DUE), 1);
    done("not due", fiber_settlement_is_due(100, 0, 1, 0, 1, 3, 100, 332, 1000, fresh(), size), size);
    same("not due", at(FIBER_SETTLEMENT_IS_DUE_DUE), 0);
    turned_down("due, length 0", fiber_settlement_is_due(100, 0, 0, 0, 1, 3, 100, 1, 3, fresh(), size), 7, 0);
    turned_down("due, 16 bits", fiber_settlement_is_due(100, 1 << 16, 1, 0, 1, 3, 100, 1, 3, fresh(), size), 14, 0);
    unanswered("due, short", fiber_settlement_is_due(100, 0, 1, 0, 1, 3, 100, 1, 3, fresh(), size - 1));
    fresh();
    unanswered("due, NULL", fiber_settlement_is_due(100, 0, 1, 0, 1, 3, 100, 1, 3, NULL, 0));
}

static void expires(uint64_t since, uint64_t known, uint64_t ms)
{
    const size_t size = FIBER_SETTLEMENT_EXPIRY_ANSWER;
    done("expiry", fiber_settlement_expiry(since, fresh(), size), size);
    same("expiry known", at(FIBER_SETTLEMENT_EXPIRY_KNOWN), known);
    same("expiry's time", at(FIBER_SETTLEMENT_EXPIRY_MS), ms);
}

static void expiry(void)
{
    const uint64_t timestamp = (uint64_t)1 << 62, most = 18446744073709551u;
    expires(timestamp + 5, 1, 5000);
    expires(timestamp + most, 1, most * 1000);
    expires(timestamp + most + 1, 0, 0);
    expires(5, 0, 0); /* a block number */
    unanswered("expiry, short", fiber_settlement_expiry(5, fresh(), FIBER_SETTLEMENT_EXPIRY_ANSWER - 1));
    fresh();
    unanswered("expiry, NULL", fiber_settlement_expiry(5, NULL, 0));
}

/* ---- witness ---- */

static void reading(void)
{
    const uint8_t zeros[74] = {0};
    const size_t size = FIBER_SETTLEMENT_READ_ANSWER;
    done("read", fiber_settlement_read(20, zeros, 74, fresh(), size), size);
    same("read's TLCs", at(FIBER_SETTLEMENT_READ_TLCS), 0);
    same("read's unlocks", at(FIBER_SETTLEMENT_READ_UNLOCK_COUNT), 0);
    same("read's shares", at(FIBER_SETTLEMENT_READ_SHARE_PLACE), 2);
    same("read's first unlock", at(FIBER_SETTLEMENT_READ_FIRST_UNLOCK), 74);
    turned_down("read, cut", fiber_settlement_read(32, zeros, 73, fresh(), size), 3, 2);
    turned_down("read, h 21", fiber_settlement_read(21, zeros, 74, fresh(), size), 14, 0);
    turned_down("read of NULL", fiber_settlement_read(20, NULL, 0, fresh(), size), 1, 0);
    unanswered("read, short", fiber_settlement_read(20, zeros, 74, fresh(), size - 1));
    fresh();
    unanswered("read, NULL", fiber_settlement_read(20, zeros, 74, NULL, 0));
}

/* The scope's own example: no TLC, shares 5 and 7, an unlock of the one in slot local. */
static void updating(void)
{
    uint8_t witness[2 + 2 * FIBER_SETTLEMENT_SHARE_LEN + FIBER_SETTLEMENT_UNLOCK] = {1, 0};
    uint8_t state[FIBER_SETTLEMENT_STATE(20, 0)];
    const size_t size = FIBER_SETTLEMENT_UPDATE_ANSWER;
    memset(witness + 2, 0x11, 20);
    witness[2 + FIBER_SETTLEMENT_SHARE_AMOUNT] = 5;
    memset(witness + 38, 0x22, 20);
    witness[38 + FIBER_SETTLEMENT_SHARE_AMOUNT] = 7;
    witness[74] = FIBER_SETTLEMENT_UNLOCK_LOCAL;
    memset(state, 0, sizeof state);
    memcpy(state, witness + FIBER_SETTLEMENT_WITNESS_COUNT, 37);

    fresh();
    done("update", fiber_settlement_update(20, witness, sizeof witness, out, 73, answer, size), size);
    same("update's length", at(FIBER_SETTLEMENT_UPDATE_LENGTH), sizeof state);
    same_bytes("update's state", out, state, sizeof state);
    untouched("update's output", out, sizeof state, sizeof out);
    fresh();
    turned_down("update, out", fiber_settlement_update(20, witness, sizeof witness, out, 72, answer, size), 13, 73);
    turned_down("update, out NULL", fiber_settlement_update(20, witness, sizeof witness, NULL, 0, fresh(), size), 13, 73);
    turned_down("update of NULL", fiber_settlement_update(20, NULL, 0, out, 73, fresh(), size), 1, 0);
    turned_down("update, h 0", fiber_settlement_update(0, witness, sizeof witness, out, 73, fresh(), size), 14, 0);
    witness[74] = 0;
    turned_down("update, TLC 0", fiber_settlement_update(20, witness, sizeof witness, out, 73, fresh(), size), 5, 74);
    unanswered("update, short", fiber_settlement_update(20, witness, sizeof witness, out, 73, fresh(), size - 1));
    fresh();
    unanswered("update, NULL", fiber_settlement_update(20, witness, sizeof witness, out, 73, NULL, 0));
}

/* ---- first records ---- */

static const uint8_t preimage[32] = {9, 9, 9};
static uint8_t our_key[FIBER_SETTLEMENT_KEY], their_key[FIBER_SETTLEMENT_KEY];
static uint8_t our_hash[FIBER_SETTLEMENT_HASH], their_hash[FIBER_SETTLEMENT_HASH];

/* A settlement TLC of amount 100 that expires at 5,999 ms, with a SHA-256 hash of the preimage. */
static void put_tlc(uint8_t *tlc, uint8_t received)
{
    memset(tlc, 0, FIBER_SETTLEMENT_TLC);
    tlc[FIBER_SETTLEMENT_TLC_RECEIVED] = received;
    tlc[FIBER_SETTLEMENT_TLC_ALGORITHM] = 1;
    tlc[FIBER_SETTLEMENT_TLC_AMOUNT] = 100;
    fiber_settlement_sha256(preimage, sizeof preimage, tlc + FIBER_SETTLEMENT_TLC_HASH);
    put_le(tlc + FIBER_SETTLEMENT_TLC_EXPIRY, START + 5999);
    memcpy(tlc + FIBER_SETTLEMENT_TLC_LOCAL_KEY, our_key, sizeof our_key);
    memcpy(tlc + FIBER_SETTLEMENT_TLC_REMOTE_KEY, their_key, sizeof their_key);
}

/* Its record, put together by the layout in the header. */
static void put_record(uint8_t *record, size_t h, uint8_t for_remote, const uint8_t *tlc)
{
    memset(record, 0, FIBER_SETTLEMENT_RECORD(h));
    record[FIBER_SETTLEMENT_RECORD_KIND] = (uint8_t)(2 + tlc[FIBER_SETTLEMENT_TLC_RECEIVED]);
    record[FIBER_SETTLEMENT_RECORD_AMOUNT] = 100;
    memcpy(record + FIBER_SETTLEMENT_RECORD_HASH, tlc + FIBER_SETTLEMENT_TLC_HASH, h);
    memcpy(record + 17 + h, for_remote ? their_hash : our_hash, FIBER_SETTLEMENT_KEY_HASH);
    memcpy(record + 37 + h, for_remote ? our_hash : their_hash, FIBER_SETTLEMENT_KEY_HASH);
    put_le(record + 57 + h, ((uint64_t)1 << 62) + START / 1000 + 5);
}

static void recording(size_t h, uint8_t for_remote)
{
    uint8_t tlc[FIBER_SETTLEMENT_TLC], wanted[FIBER_SETTLEMENT_RECORD(FIBER_SETTLEMENT_H_FULL)];
    const size_t size = FIBER_SETTLEMENT_WRITTEN_ANSWER, len = FIBER_SETTLEMENT_RECORD_FIXED + h, most = sizeof tlc;
    put_tlc(tlc, for_remote);
    put_record(wanted, h, for_remote, tlc);
    fresh();
    done("record", fiber_settlement_tlc_record(h, for_remote, tlc, most, out, len, answer, size), size);
    same("record's length", at(FIBER_SETTLEMENT_WRITTEN_LENGTH), len);
    same_bytes("record's bytes", out, wanted, len);
    untouched("record's output", out, len, sizeof out);
    fresh();
    turned_down("record, out", fiber_settlement_tlc_record(h, for_remote, tlc, most, out, len - 1, answer, size), 13, len);
    turned_down("record, out NULL", fiber_settlement_tlc_record(h, 0, tlc, most, NULL, 0, fresh(), size), 13, len);
    turned_down("record of NULL", fiber_settlement_tlc_record(h, 0, NULL, 0, out, len, fresh(), size), 14, 0);
    turned_down("record, flag 2", fiber_settlement_tlc_record(h, 2, tlc, most, out, len, fresh(), size), 14, 0);
    turned_down("record, flag 255", fiber_settlement_tlc_record(h, 255, tlc, most, out, len, fresh(), size), 14, 0);
    unanswered("record, short", fiber_settlement_tlc_record(h, 2, tlc, most, out, len, fresh(), size - 1));
    fresh();
    unanswered("record, NULL", fiber_settlement_tlc_record(h, for_remote, tlc, most, out, len, NULL, 0));
}

/* ---- the choice ---- */

static uint8_t tlcs[FIBER_SETTLEMENT_TLC], tracked[FIBER_SETTLEMENT_TRACKED(FIBER_SETTLEMENT_H_FULL)];
static uint8_t args[FIBER_SETTLEMENT_ARGS_FULL_LEN], pairs[2 * FIBER_SETTLEMENT_PAIR];
static uint8_t state[FIBER_SETTLEMENT_STATE(FIBER_SETTLEMENT_H_FULL, 1)], witness[512];

static uint64_t state_call(size_t h, uint8_t flag, const uint8_t *key, size_t key_len, uint8_t *to, size_t to_len)
{
    return fiber_settlement_first_state(h, flag, 5, 0, 7, 1, tlcs, sizeof tlcs, our_key, sizeof our_key, key, key_len, to, to_len,
                                        answer, FIBER_SETTLEMENT_WRITTEN_ANSWER);
}

/* The first state by the layout in the header: n, the record, the owner's share, the other party's. */
static void stating(size_t h, uint8_t for_remote)
{
    const size_t size = FIBER_SETTLEMENT_WRITTEN_ANSWER, len = FIBER_SETTLEMENT_STATE(h, 1), most = sizeof their_key;
    uint8_t *shares = state + len - 2 * FIBER_SETTLEMENT_SHARE_LEN;
    uint8_t *ours = shares + for_remote * FIBER_SETTLEMENT_SHARE_LEN, *theirs = shares + (1 - for_remote) * FIBER_SETTLEMENT_SHARE_LEN;
    put_tlc(tlcs, for_remote);
    memset(state, 0, sizeof state);
    state[0] = 1;
    put_record(state + 1, h, for_remote, tlcs);
    memcpy(ours, our_hash, FIBER_SETTLEMENT_KEY_HASH);
    ours[FIBER_SETTLEMENT_SHARE_AMOUNT] = 5;
    memcpy(theirs, their_hash, FIBER_SETTLEMENT_KEY_HASH);
    theirs[FIBER_SETTLEMENT_SHARE_AMOUNT] = 7;
    theirs[FIBER_SETTLEMENT_SHARE_AMOUNT + 8] = 1;
    fresh();
    done("state", state_call(h, for_remote, their_key, most, out, len), size);
    same("state's length", at(FIBER_SETTLEMENT_WRITTEN_LENGTH), len);
    same_bytes("state's bytes", out, state, len);
    untouched("state's output", out, len, sizeof out);
    fresh();
    turned_down("state, out", state_call(h, for_remote, their_key, most, out, len - 1), 13, len);
    fresh();
    turned_down("state, out NULL", state_call(h, for_remote, their_key, most, NULL, 0), 13, len);
    fresh();
    turned_down("state, key NULL", state_call(h, for_remote, NULL, 0, out, len), 14, 0);
    fresh();
    turned_down("state, flag 2", state_call(h, 2, their_key, most, out, len), 14, 0);
    fresh();
    turned_down("state, h 0", state_call(0, for_remote, their_key, most, out, len), 14, 0);
}

static void stating_nothing(void)
{
    const size_t size = FIBER_SETTLEMENT_WRITTEN_ANSWER;
    fresh();
    done("state, no TLCs", fiber_settlement_first_state(20, 0, 0, 0, 0, 0, NULL, 0, our_key, 33, their_key, 33, out, 73, answer, size), size);
    same("state, no TLCs", at(FIBER_SETTLEMENT_WRITTEN_LENGTH), 73);
    fresh();
    turned_down("state of NULL", fiber_settlement_first_state(20, 0, 0, 0, 0, 0, NULL, 0, NULL, 0, NULL, 0, NULL, 0, answer, size), 14, 0);
    fresh();
    unanswered("state, short", fiber_settlement_first_state(20, 2, 0, 0, 0, 0, NULL, 0, NULL, 0, NULL, 0, NULL, 0, answer, size - 1));
    unanswered("state, NULL", fiber_settlement_first_state(20, 0, 0, 0, 0, 0, NULL, 0, NULL, 0, NULL, 0, NULL, 0, NULL, 0));
}

static struct fiber_settlement_bytes lent(const uint8_t *bytes, size_t len)
{
    struct fiber_settlement_bytes found;
    found.bytes = bytes;
    found.len = len;
    return found;
}

/* A first settlement of a cell with that one TLC, at the tip of epoch 100 + epochs; the delay is 6 epochs. */
static struct fiber_settlement_request request_of(size_t h, uint8_t for_remote, uint64_t time, uint64_t epochs)
{
    struct fiber_settlement_request r;
    const size_t args_len = h == FIBER_SETTLEMENT_H_FULL ? FIBER_SETTLEMENT_ARGS_FULL_LEN : FIBER_SETTLEMENT_ARGS_SHORT_LEN;
    uint8_t hash[FIBER_SETTLEMENT_HASH], entry[160];
    memset(&r, 0, sizeof r);
    memset(args, 0x77, sizeof args);
    put_le(args + FIBER_SETTLEMENT_ARGS_DELAY, (uint64_t)0xA0 << 56 | (uint64_t)1 << 40 | 6);
    fiber_settlement_ckb_hash(state, FIBER_SETTLEMENT_STATE(h, 1), hash);
    memcpy(args + FIBER_SETTLEMENT_ARGS_STATE_HASH, hash, FIBER_SETTLEMENT_KEY_HASH);
    args[FIBER_SETTLEMENT_ARGS_LATER] = 0;
    args[FIBER_SETTLEMENT_ARGS_FEATURES] = 1;
    memcpy(tracked + FIBER_SETTLEMENT_TRACKED_HASH, tlcs + FIBER_SETTLEMENT_TLC_HASH, FIBER_SETTLEMENT_HASH);
    tracked[FIBER_SETTLEMENT_TRACKED_ALGORITHM] = 1;
    put_record(tracked + FIBER_SETTLEMENT_TRACKED_RECORD, h, for_remote, tlcs);
    memset(entry, GUARD, sizeof entry);
    same("put_tracked", fiber_settlement_put_tracked(h, for_remote, tlcs, sizeof tlcs, entry, FIBER_SETTLEMENT_TRACKED(h)), 0);
    same_bytes("put_tracked's bytes", entry, tracked, FIBER_SETTLEMENT_TRACKED(h));
    untouched("behind put_tracked", entry, FIBER_SETTLEMENT_TRACKED(h), sizeof entry);
    same("put_tracked, short", fiber_settlement_put_tracked(h, for_remote, tlcs, sizeof tlcs, entry, FIBER_SETTLEMENT_TRACKED(h) - 1), 13);
    same("put_tracked, shorter", fiber_settlement_put_tracked(h, for_remote, tlcs, sizeof tlcs, entry, 32), 13);
    same("put_tracked, flag", fiber_settlement_put_tracked(h, 2, tlcs, sizeof tlcs, entry, sizeof entry), 14);
    memset(pairs, 0, sizeof pairs);
    memcpy(pairs + FIBER_SETTLEMENT_PAIR, tlcs + FIBER_SETTLEMENT_TLC_HASH, FIBER_SETTLEMENT_HASH);
    memcpy(pairs + FIBER_SETTLEMENT_PAIR + FIBER_SETTLEMENT_HASH, preimage, sizeof preimage);
    r.commitment = for_remote ? FIBER_SETTLEMENT_COMMITMENT_THEIRS : FIBER_SETTLEMENT_COMMITMENT_OURS;
    r.time = time;
    r.header.number = 100;
    r.header.index = 3;
    r.header.length = 12;
    r.current.number = 100 + epochs;
    r.current.index = 2; /* a quarter, as the header's */
    r.current.length = 8;
    r.local_amount.low = 5;
    r.remote_amount.low = 7;
    r.remote_amount.high = 1;
    r.args = lent(args, args_len);
    r.tlcs = lent(tlcs, sizeof tlcs);
    r.local_key = lent(our_key, sizeof our_key);
    r.remote_key = lent(their_key, sizeof their_key);
    r.tracked = lent(tracked, FIBER_SETTLEMENT_TRACKED(h));
    return r;
}

static uint64_t ask(const struct fiber_settlement_request *r)
{
    fresh();
    return fiber_settlement_choose_request(r, out, sizeof out, answer, FIBER_SETTLEMENT_CHOOSE_ANSWER);
}

/* The fields of a choice: kind, byte, amount, whose key, delay (0 for none), length of the unlock, last. */
static void chosen(const struct fiber_settlement_request *r, uint64_t kind, uint64_t byte, uint64_t amount, uint64_t delay, uint64_t last)
{
    const int is_tlc = kind != FIBER_SETTLEMENT_SHARE;
    done("choice", ask(r), FIBER_SETTLEMENT_CHOOSE_ANSWER);
    same("kind", at(FIBER_SETTLEMENT_CHOOSE_KIND), kind);
    same("byte", at(FIBER_SETTLEMENT_CHOOSE_BYTE), byte);
    same("amount", at(FIBER_SETTLEMENT_CHOOSE_AMOUNT_LOW), amount);
    same("amount, high", at(FIBER_SETTLEMENT_CHOOSE_AMOUNT_HIGH), amount == 7);
    same("key", at(FIBER_SETTLEMENT_CHOOSE_KEY_KIND), is_tlc ? FIBER_SETTLEMENT_KEY_OF_TLC : FIBER_SETTLEMENT_KEY_OURS);
    same("key's place", at(FIBER_SETTLEMENT_CHOOSE_KEY_PLACE), 0);
    same("delay", at(FIBER_SETTLEMENT_CHOOSE_DELAY_KIND), delay ? FIBER_SETTLEMENT_DELAY_OUT : FIBER_SETTLEMENT_NO_DELAY_OUT);
    same("delay's number", at(FIBER_SETTLEMENT_CHOOSE_DELAY_NUMBER), delay);
    same("delay's index", at(FIBER_SETTLEMENT_CHOOSE_DELAY_INDEX), 0);
    same("record's length", at(FIBER_SETTLEMENT_CHOOSE_RECORD_LENGTH), is_tlc ? FIBER_SETTLEMENT_RECORD(fiber_settlement_hash_length(r->args.bytes, r->args.len)) : 0);
    same("unlock's length", at(FIBER_SETTLEMENT_CHOOSE_UNLOCK_LENGTH),
         kind == FIBER_SETTLEMENT_BY_PREIMAGE ? FIBER_SETTLEMENT_UNLOCK_WITH_PREIMAGE : FIBER_SETTLEMENT_UNLOCK);
    same("args' length", at(FIBER_SETTLEMENT_CHOOSE_ARGS_LENGTH), r->args.len);
    same("pair's place", at(FIBER_SETTLEMENT_CHOOSE_PAIR_PLACE), kind == FIBER_SETTLEMENT_BY_PREIMAGE);
    same("last", at(FIBER_SETTLEMENT_CHOOSE_LAST), last);
    same("unlock", out[0], byte);
    same("unlock's flag", out[1], kind == FIBER_SETTLEMENT_BY_PREIMAGE);
}

/* Puts what was chosen on chain and takes it from there, as the next settlement's witness and args. */
static void settle(struct fiber_settlement_request *r)
{
    const size_t unlock = at(FIBER_SETTLEMENT_CHOOSE_UNLOCK_LENGTH), len = at(FIBER_SETTLEMENT_CHOOSE_STATE_LENGTH);
    uint8_t *to = witness + FIBER_SETTLEMENT_CHAIN_PREFIX;
    const size_t whole = FIBER_SETTLEMENT_CHAIN_PREFIX + 1 + len + unlock;
    fiber_settlement_put_chain_prefix(witness);
    to[0] = 1;
    memcpy(to + FIBER_SETTLEMENT_WITNESS_COUNT, out + unlock, len);
    memcpy(to + 1 + len, out, unlock);
    memcpy(args, out + unlock + len, r->args.len);
    same("args' later byte", args[FIBER_SETTLEMENT_ARGS_LATER], 1);
    same("prefix", (uint64_t)fiber_settlement_has_chain_prefix(witness, whole), 1);
    same("no prefix", (uint64_t)fiber_settlement_has_chain_prefix(to, whole - FIBER_SETTLEMENT_CHAIN_PREFIX), 0);
    same("prefix, short", (uint64_t)fiber_settlement_has_chain_prefix(witness, 15), 0);
    r->witness = lent(to, whole - FIBER_SETTLEMENT_CHAIN_PREFIX);

    fresh();
    same("request matches", (uint64_t)fiber_settlement_request_matches(r, out, sizeof out), 1);
    same("request matches, short", (uint64_t)fiber_settlement_request_matches(r, out, 72), 0);
    fresh();
    done("update", fiber_settlement_update(fiber_settlement_hash_length(args, r->args.len), to, r->witness.len, out, sizeof out, answer, sizeof answer),
         FIBER_SETTLEMENT_UPDATE_ANSWER);
    same("state of the args", (uint64_t)fiber_settlement_state_matches(args, r->args.len, out, at(FIBER_SETTLEMENT_UPDATE_LENGTH)), 1);
    same("other state", (uint64_t)fiber_settlement_state_matches(args, r->args.len, NULL, 0), 0);
}

/* The other side's view of the same cell: commitment, keys and amounts change places, received does not. */
static void change_sides(struct fiber_settlement_request *r)
{
    const struct fiber_settlement_bytes key = r->local_key;
    r->local_key = r->remote_key;
    r->remote_key = key;
    r->commitment = r->commitment == FIBER_SETTLEMENT_COMMITMENT_OURS ? FIBER_SETTLEMENT_COMMITMENT_THEIRS : FIBER_SETTLEMENT_COMMITMENT_OURS;
}

/* The tracked list of one TLC behind the witness that settles it; what is not of that cell leaves the list as it was. */
static void following(size_t h, const struct fiber_settlement_request *r)
{
    uint8_t list[160], wrong[512];
    const size_t size = FIBER_SETTLEMENT_TRACKED(h);
    memcpy(list, tracked, size);
    same("follow, 16 bytes left", fiber_settlement_follow(h, witness, r->witness.len, list, size), SIZE_MAX);
    same("follow, another length", fiber_settlement_follow(h, r->witness.bytes, r->witness.len, list, size - 1), SIZE_MAX);
    same("follow, no witness", fiber_settlement_follow(h, NULL, 0, list, size), SIZE_MAX);
    memcpy(wrong, r->witness.bytes, r->witness.len);
    wrong[FIBER_SETTLEMENT_WITNESS_TLCS]++;
    same("follow, another record", fiber_settlement_follow(h, wrong, r->witness.len, list, size), SIZE_MAX);
    wrong[FIBER_SETTLEMENT_WITNESS_TLCS]--;
    wrong[1 + FIBER_SETTLEMENT_STATE(h, 1)] = 1;
    same("follow, no such TLC", fiber_settlement_follow(h, wrong, r->witness.len, list, size), SIZE_MAX);
    same_bytes("follow leaves the list", list, tracked, size);
    wrong[1 + FIBER_SETTLEMENT_STATE(h, 1)] = FIBER_SETTLEMENT_UNLOCK_LOCAL;
    same("follow, a share", fiber_settlement_follow(h, wrong, r->witness.len, list, size), size);
    same("follow", fiber_settlement_follow(h, r->witness.bytes, r->witness.len, list, size), 0);
}

/* From the first settlement to the last, on the state that `stating` left. The commitment's owner offered the TLC (received is 1), so that the
 * owner has it by timeout and the other party by preimage. */
static void choosing(size_t h, uint8_t for_remote)
{
    const uint64_t ours = for_remote ? FIBER_SETTLEMENT_UNLOCK_LOCAL : FIBER_SETTLEMENT_UNLOCK_REMOTE;
    const uint64_t theirs = for_remote ? FIBER_SETTLEMENT_UNLOCK_REMOTE : FIBER_SETTLEMENT_UNLOCK_LOCAL;
    struct fiber_settlement_request r;
    put_tlc(tlcs, 1);
    put_record(state + 1, h, for_remote, tlcs);

    r = request_of(h, for_remote, START + 6000, 6);
    same("first state of the args", (uint64_t)fiber_settlement_state_matches(args, r.args.len, state, FIBER_SETTLEMENT_STATE(h, 1)), 1);
    same("first state of short args", (uint64_t)fiber_settlement_state_matches(args, 55, state, FIBER_SETTLEMENT_STATE(h, 1)), 0);
    same("request matches, first", (uint64_t)fiber_settlement_request_matches(&r, out, sizeof out), 1);
    tlcs[FIBER_SETTLEMENT_TLC_RECEIVED] ^= 1;
    same("a list in the wrong view", (uint64_t)fiber_settlement_request_matches(&r, out, sizeof out), 0);
    tlcs[FIBER_SETTLEMENT_TLC_RECEIVED] ^= 1;
    if (for_remote) {
        chosen(&r, FIBER_SETTLEMENT_SHARE, ours, 5, 6, 0); /* their TLC expired, and we have no preimage */
        r.preimages = lent(pairs, sizeof pairs);
        r.current.number = 102;
        chosen(&r, FIBER_SETTLEMENT_BY_PREIMAGE, 0, 100, 2, 0);
        same_bytes("preimage", out + FIBER_SETTLEMENT_UNLOCK_SIGNATURE + FIBER_SETTLEMENT_SIGNATURE, preimage, sizeof preimage);
    } else {
        r.time = START + 5999;
        turned_down("expiry not past", ask(&r), FIBER_SETTLEMENT_TLC_NOT_DUE, 0);
        r.time = START + 6000;
        r.current.number = 104;
        r.current.index = 1;
        turned_down("two thirds not due", ask(&r), FIBER_SETTLEMENT_TLC_NOT_DUE, 0);
        r.current.index = 2;
        chosen(&r, FIBER_SETTLEMENT_BY_TIMEOUT, 0, 100, 4, 0);
    }
    same_bytes("state handed out", out + at(FIBER_SETTLEMENT_CHOOSE_UNLOCK_LENGTH), state, FIBER_SETTLEMENT_STATE(h, 1));
    settle(&r);
    turned_down("tracked stands no more", ask(&r), FIBER_SETTLEMENT_LIST_DIFFERS, 0);
    following(h, &r);
    r.tracked = lent(NULL, 0);
    chosen(&r, FIBER_SETTLEMENT_SHARE, ours, 5, 0, 0);
    settle(&r);
    turned_down("our share is paid", ask(&r), FIBER_SETTLEMENT_NOT_OUR_SHARE, 0);
    change_sides(&r);
    chosen(&r, FIBER_SETTLEMENT_SHARE, theirs, 7, 0, 1);
}

/* ---- the waits ---- */

/* Four TLCs with hashes of their own: ours by timeout, by preimage, by timeout, by preimage. They expire 1,999, 5,999, 20,999 and 30,999 ms
 * after START, by their records 1,000, 5,000, 20,000 and 30,000. */
enum { FOUR = 4, ENTRY = FIBER_SETTLEMENT_TLC, MOST_TRACKED = FIBER_SETTLEMENT_TRACKED(FIBER_SETTLEMENT_H_FULL) };
static uint8_t four[FOUR * ENTRY], four_tracked[FOUR * MOST_TRACKED];
static uint8_t four_witness[1 + FIBER_SETTLEMENT_STATE(FIBER_SETTLEMENT_H_FULL, FOUR) + FIBER_SETTLEMENT_UNLOCK];

static void put_four(size_t h, uint8_t for_remote)
{
    const uint64_t expiry[FOUR] = {1999, 5999, 20999, 30999};
    uint8_t shown[FIBER_SETTLEMENT_HASH] = {0};
    size_t i;
    for (i = 0; i < FOUR; i++) {
        uint8_t *tlc = four + i * ENTRY;
        put_tlc(tlc, (uint8_t)(i % 2 ? for_remote : !for_remote)); /* received: the owner offered it */
        shown[0] = (uint8_t)i;
        fiber_settlement_sha256(shown, sizeof shown, tlc + FIBER_SETTLEMENT_TLC_HASH);
        put_le(tlc + FIBER_SETTLEMENT_TLC_EXPIRY, START + expiry[i]);
        same("tracked of four", fiber_settlement_put_tracked(h, for_remote, tlc, ENTRY, four_tracked + i * FIBER_SETTLEMENT_TRACKED(h), FIBER_SETTLEMENT_TRACKED(h)), 0);
    }
    memset(pairs, 0, sizeof pairs);
    shown[0] = 1;
    memcpy(pairs, four + ENTRY + FIBER_SETTLEMENT_TLC_HASH, FIBER_SETTLEMENT_HASH);
    memcpy(pairs + FIBER_SETTLEMENT_PAIR_PREIMAGE, shown, sizeof shown); /* of the second */
}

/* A first settlement of these from the place `from` on. */
static struct fiber_settlement_request first_of_four(size_t h, uint8_t for_remote, size_t from)
{
    struct fiber_settlement_request r = request_of(h, for_remote, START, 0);
    put_four(h, for_remote);
    r.tlcs = lent(four + from * ENTRY, (FOUR - from) * ENTRY);
    r.tracked = lent(four_tracked + from * FIBER_SETTLEMENT_TRACKED(h), (FOUR - from) * FIBER_SETTLEMENT_TRACKED(h));
    return r;
}

/* A later settlement: an unlock of this byte has made the cell. */
static struct fiber_settlement_request later_of_four(size_t h, uint8_t for_remote, uint8_t byte)
{
    struct fiber_settlement_request r = first_of_four(h, for_remote, 0);
    const size_t len = FIBER_SETTLEMENT_STATE(h, FOUR);
    uint8_t written[FIBER_SETTLEMENT_WRITTEN_ANSWER];
    memset(four_witness, 0, sizeof four_witness);
    same("state of four", fiber_settlement_first_state(h, for_remote, 5, 0, 7, 1, four, sizeof four, our_key, sizeof our_key, their_key, sizeof their_key,
                                                       four_witness + FIBER_SETTLEMENT_WITNESS_COUNT, len, written, sizeof written), 0);
    four_witness[0] = 1;
    four_witness[1 + len] = byte;
    args[FIBER_SETTLEMENT_ARGS_LATER] = 1;
    r.witness = lent(four_witness, 1 + len + FIBER_SETTLEMENT_UNLOCK);
    r.tracked.len = fiber_settlement_follow(h, four_witness, r.witness.len, four_tracked, r.tracked.len);
    return r;
}

static void waits(const char *what, struct fiber_settlement_request *r, uint64_t time, uint64_t epochs, uint64_t number, uint64_t place)
{
    r->time = START + time;
    r->current.number = 100 + epochs;
    turned_down(what, ask(r), number, place);
    fresh();
    turned_down(what, fiber_settlement_choose_request(r, NULL, 0, answer, sizeof answer), number, place); /* before 13 */
}

/* The delay is 6 epochs. */
static void first_waits(size_t h, uint8_t for_remote)
{
    struct fiber_settlement_request r = first_of_four(h, for_remote, FOUR);
    waits("no TLC", &r, 0, 5, FIBER_SETTLEMENT_DELAY_NOT_DUE, 0);
    waits("no TLC, in the tip", &r, 99999, 0, FIBER_SETTLEMENT_DELAY_NOT_DUE, 0);

    r = first_of_four(h, for_remote, 0);
    waits("two thirds", &r, 99999, 3, FIBER_SETTLEMENT_TLC_NOT_DUE, 0);
    waits("first expiry", &r, 1999, 6, FIBER_SETTLEMENT_TLC_NOT_DUE, 0);

    r = first_of_four(h, for_remote, 1);
    r.preimages = lent(pairs, sizeof pairs);
    waits("a third, with a preimage", &r, 99999, 1, FIBER_SETTLEMENT_TLC_NOT_DUE, 0);
    r.preimages = lent(NULL, 0);
    waits("a third", &r, 0, 1, FIBER_SETTLEMENT_TLC_NOT_DUE, 0);
    waits("no preimage", &r, 0, 2, FIBER_SETTLEMENT_TLC_NO_PREIMAGE, 0);
    waits("no preimage, expired", &r, 99999, 3, FIBER_SETTLEMENT_TLC_NO_PREIMAGE, 0);
    waits("no preimage, all due", &r, 5999, 6, FIBER_SETTLEMENT_TLC_NO_PREIMAGE, 0);
    waits("one given up", &r, 6000, 6, FIBER_SETTLEMENT_TLC_NOT_DUE, 1);
    waits("one given up, second expiry", &r, 20999, 6, FIBER_SETTLEMENT_TLC_NOT_DUE, 1);

    /* The second and the fourth alone: both are ours by preimage. */
    memcpy(four + 2 * ENTRY, four + 3 * ENTRY, ENTRY);
    memcpy(four_tracked + 2 * FIBER_SETTLEMENT_TRACKED(h), four_tracked + 3 * FIBER_SETTLEMENT_TRACKED(h), FIBER_SETTLEMENT_TRACKED(h));
    r.tlcs.len = 2 * ENTRY;
    r.tracked.len = 2 * FIBER_SETTLEMENT_TRACKED(h);
    waits("both by preimage", &r, 6000, 6, FIBER_SETTLEMENT_TLC_NO_PREIMAGE, 1);
    waits("both by preimage, last expiry", &r, 30999, 6, FIBER_SETTLEMENT_TLC_NO_PREIMAGE, 1);
    r.time = START + 31000;
    chosen(&r, FIBER_SETTLEMENT_SHARE, for_remote ? FIBER_SETTLEMENT_UNLOCK_LOCAL : FIBER_SETTLEMENT_UNLOCK_REMOTE, 5, 6, 0);
}

/* With the first one settled the other three stand, at the places 0 to 2. Epochs are not looked at. */
static void later_waits(size_t h, uint8_t for_remote)
{
    struct fiber_settlement_request r = later_of_four(h, for_remote, 0);
    same("three stand", r.tracked.len, 3 * FIBER_SETTLEMENT_TRACKED(h));
    waits("no preimage", &r, 0, 0, FIBER_SETTLEMENT_TLC_NO_PREIMAGE, 0);
    waits("no preimage, first expiry", &r, 5000, 0, FIBER_SETTLEMENT_TLC_NO_PREIMAGE, 0);
    waits("one given up", &r, 5001, 0, FIBER_SETTLEMENT_TLC_NOT_DUE, 1);
    waits("one given up, second expiry", &r, 20000, 0, FIBER_SETTLEMENT_TLC_NOT_DUE, 1);

    /* Another key of ours than the third's record has: what is pending before it comes first, and no time ends it. */
    four[2 * ENTRY + FIBER_SETTLEMENT_TLC_LOCAL_KEY] ^= 1;
    waits("no key, and one before it", &r, 5000, 0, FIBER_SETTLEMENT_TLC_NO_PREIMAGE, 0);
    waits("no key", &r, 5001, 0, FIBER_SETTLEMENT_TLC_PASSED_OVER, 1);
    waits("no key, expired", &r, 99999, 0, FIBER_SETTLEMENT_TLC_PASSED_OVER, 1);
    /* Without a list, also with a preimage. */
    r.tlcs = lent(NULL, 0);
    r.preimages = lent(pairs, sizeof pairs);
    waits("no list", &r, 0, 0, FIBER_SETTLEMENT_TLC_PASSED_OVER, 0);
    waits("no list, expired", &r, 99999, 0, FIBER_SETTLEMENT_TLC_PASSED_OVER, 0);

    /* The second one's record has a block number for its expiry. */
    r = later_of_four(h, for_remote, 0);
    put_le(four_tracked + FIBER_SETTLEMENT_TRACKED_RECORD + 57 + h, 5);
    waits("records differ", &r, 0, 0, FIBER_SETTLEMENT_LIST_DIFFERS, 0);
    put_le(four_witness + FIBER_SETTLEMENT_WITNESS_TLCS + FIBER_SETTLEMENT_RECORD(h) + 57 + h, 5);
    waits("no expiry", &r, 0, 0, FIBER_SETTLEMENT_TLC_PASSED_OVER, 0);
    waits("no expiry, late", &r, 20000, 0, FIBER_SETTLEMENT_TLC_PASSED_OVER, 0);
    r.preimages = lent(pairs, sizeof pairs);
    waits("no expiry, with a preimage", &r, 20000, 0, FIBER_SETTLEMENT_TLC_PASSED_OVER, 0);

    /* The third one settled: the first, by timeout, stands in front of two by preimage. */
    r = later_of_four(h, for_remote, 2);
    waits("the first", &r, 1000, 0, FIBER_SETTLEMENT_TLC_NOT_DUE, 0);
    memcpy(four, four + ENTRY, ENTRY); /* its key is gone */
    waits("no key, not expired", &r, 1000, 0, FIBER_SETTLEMENT_TLC_PASSED_OVER, 0);
}

/* A share that was paid out is told before any TLC, and in the last settlement none is looked at. */
static void paid_waits(size_t h, uint8_t for_remote)
{
    const uint8_t ours = for_remote ? FIBER_SETTLEMENT_UNLOCK_LOCAL : FIBER_SETTLEMENT_UNLOCK_REMOTE;
    const uint8_t theirs = for_remote ? FIBER_SETTLEMENT_UNLOCK_REMOTE : FIBER_SETTLEMENT_UNLOCK_LOCAL;
    struct fiber_settlement_request r = later_of_four(h, for_remote, ours);
    waits("our share is paid, four stand", &r, 0, 0, FIBER_SETTLEMENT_NOT_OUR_SHARE, 0);
    r = later_of_four(h, for_remote, theirs);
    r.tlcs = lent(NULL, 0);
    chosen(&r, FIBER_SETTLEMENT_SHARE, ours, 5, 0, 1);
}

/* What is left out of a request is refused. */
static void without(const char *what, size_t offset, size_t len, uint64_t number)
{
    struct fiber_settlement_request r = request_of(20, 0, START + 6000, 6);
    memset((char *)&r + offset, 0, len);
    turned_down(what, ask(&r), number, 0);
}

#define WITHOUT(field, number) \
    without("no " #field, offsetof(struct fiber_settlement_request, field), sizeof(((struct fiber_settlement_request *)0)->field), number)

static void left_out(void)
{
    struct fiber_settlement_request r, zero;
    memset(&zero, 0, sizeof zero);
    turned_down("zeros", ask(&zero), 14, 0);
    WITHOUT(commitment, 14);
    WITHOUT(local_key, 14);
    WITHOUT(remote_key, 14);
    WITHOUT(args, 14);
    WITHOUT(header, 7);
    WITHOUT(current, 7);
    WITHOUT(time, 14);
    WITHOUT(tlcs, 20);
    WITHOUT(tracked, 20);
    r = request_of(20, 0, START + 6000, 6);
    args[FIBER_SETTLEMENT_ARGS_LATER] = 1;
    turned_down("no witness", ask(&r), 1, 0);
    args[FIBER_SETTLEMENT_ARGS_LATER] = 2;
    turned_down("neither first nor later", ask(&r), 14, 0);
    fresh();
    unanswered("zeros, no answer", fiber_settlement_choose_request(&zero, NULL, 0, NULL, 0));
}

/* What no chain has is refused. */
static void cannot_be(void)
{
    struct fiber_settlement_request r = request_of(20, 0, (START + 6000) / 1000, 6);
    turned_down("seconds", ask(&r), 14, 0);
    r.time = (START + 6000) * 1000;
    turned_down("microseconds", ask(&r), 14, 0);
    r = request_of(20, 0, START + 6000, 6);
    r.witness = lent(state, 74);
    turned_down("a witness in a first settlement", ask(&r), 14, 0);
    r = request_of(20, 0, START + 6000, 6);
    r.header.index = 12;
    turned_down("index not below length", ask(&r), 14, 0);
    r = request_of(20, 0, START + 6000, 6);
    r.current = r.header;
    r.header.number = 106;
    turned_down("tip before the cell's block", ask(&r), 14, 0);
    r = request_of(20, 0, START + 6000, 6);
    r.commitment = (enum fiber_settlement_commitment)1;
    turned_down("a flag for a commitment", ask(&r), 14, 0);
}

static void epochs_of_headers(void)
{
    const struct fiber_settlement_epoch epoch = fiber_settlement_epoch_of((uint64_t)1800 << 40 | (uint64_t)7 << 24 | 9001);
    same("epoch's number", epoch.number, 9001);
    same("epoch's index", epoch.index, 7);
    same("epoch's length", epoch.length, 1800);
    same("since", fiber_settlement_since_of(epoch), (uint64_t)0xA0 << 56 | (uint64_t)1800 << 40 | (uint64_t)7 << 24 | 9001);
}

/* A channel without TLCs: every list is NULL. */
static void no_lists(void)
{
    struct fiber_settlement_request r = request_of(20, 0, START + 6000, 6);
    r.tlcs = r.tracked = lent(NULL, 0);
    chosen(&r, FIBER_SETTLEMENT_SHARE, FIBER_SETTLEMENT_UNLOCK_REMOTE, 5, 6, 0);
    fresh();
    turned_down("no output", fiber_settlement_choose_request(&r, NULL, 0, answer, sizeof answer), 13, 67 + 73 + 57);
    fresh();
    turned_down("short output", fiber_settlement_choose_request(&r, out, 67 + 73 + 56, answer, sizeof answer), 13, 67 + 73 + 57);
    fresh();
    unanswered("short answer", fiber_settlement_choose_request(&r, out, sizeof out, answer, FIBER_SETTLEMENT_CHOOSE_ANSWER - 1));
    unanswered("no answer", fiber_settlement_choose_request(&r, out, sizeof out, NULL, 0));
}

static uint64_t flags(uint8_t for_remote, uint8_t is_later, size_t answer_len)
{
    fresh();
    return fiber_settlement_choose(20, for_remote, is_later, 6000, 100, 0, 1, 106, 0, 1, 5, 0, 7, 1, args, 57, NULL, 0, our_key, 33, their_key, 33,
                                   NULL, 0, NULL, 0, NULL, 0, out, sizeof out, answer, answer_len);
}

static void flagged(void)
{
    const size_t size = FIBER_SETTLEMENT_CHOOSE_ANSWER;
    done("flags 0 0", flags(0, 0, size), size);
    done("flags 1 0", flags(1, 0, size), size);
    turned_down("flags 0 1", flags(0, 1, size), 1, 0);
    turned_down("flags 2 0", flags(2, 0, size), 14, 0);
    turned_down("flags 0 2", flags(0, 2, size), 14, 0);
    turned_down("flags 255 255", flags(255, 255, size), 14, 0);
    unanswered("flags 2 2, short", flags(2, 2, size - 1));
}

static void lengths_of_args(void)
{
    uint8_t bytes[FIBER_SETTLEMENT_ARGS_FULL_LEN + 1] = {0};
    same("h of 57", fiber_settlement_hash_length(bytes, 57), 20);
    same("h of 58, features 0", fiber_settlement_hash_length(bytes, 58), 0);
    bytes[FIBER_SETTLEMENT_ARGS_FEATURES] = 1;
    same("h of 58", fiber_settlement_hash_length(bytes, 58), 32);
    same("h of 59", fiber_settlement_hash_length(bytes, 59), 0);
    same("h of nothing", fiber_settlement_hash_length(NULL, 0), 0);
}

/* ---- the journal ---- */

enum { ONE = FIBER_JOURNAL_ENTRY, MOST = FIBER_JOURNAL_MOST_ENTRIES };
static uint8_t slice[4 * ONE], channels[2][FIBER_JOURNAL_CHANNEL];

/* Two entries, put together by the layout in the header, and a third one like the second. */
static const uint8_t entries[3][ONE] = {
    {0xC0, 0xC0, 0xC0, 0xC0, 0xC0, 0xC0, 0xC0, 0xC0, 0xC0, 0xC0, 0xC0, 0xC0, 0xC0, 0xC0, 0xC0, 0xC0, /* channel id */
     0xC0, 0xC0, 0xC0, 0xC0, 0xC0, 0xC0, 0xC0, 0xC0, 0xC0, 0xC0, 0xC0, 0xC0, 0xC0, 0xC0, 0xC0, 0xC0,
     0xFE, 1, /* unlock, flag */
     0x08, 0x07, 0x06, 0x05, 0x04, 0x03, 0x02, 0x01, 0x18, 0x17, 0x16, 0x15, 0x14, 0x13, 0x12, 0x11, /* amount */
     0xFF, 0xFF, 0xFF, 0xFF, 0xFF, 0xFF, 0xFF, 0xFF, 62, 0, 0, 0}, /* no entry before, and its length */
    {0xC1, 0xC1, 0xC1, 0xC1, 0xC1, 0xC1, 0xC1, 0xC1, 0xC1, 0xC1, 0xC1, 0xC1, 0xC1, 0xC1, 0xC1, 0xC1,
     0xC1, 0xC1, 0xC1, 0xC1, 0xC1, 0xC1, 0xC1, 0xC1, 0xC1, 0xC1, 0xC1, 0xC1, 0xC1, 0xC1, 0xC1, 0xC1,
     7, 0xAB,
     5, 0, 0, 0, 0, 0, 0, 0, 0, 0, 0, 0, 0, 0, 0, 0,
     0, 0, 0, 0, 0, 0, 0, 0, 62, 0, 0, 0}, /* the one before starts at 0 */
    {0xC1, 0xC1, 0xC1, 0xC1, 0xC1, 0xC1, 0xC1, 0xC1, 0xC1, 0xC1, 0xC1, 0xC1, 0xC1, 0xC1, 0xC1, 0xC1,
     0xC1, 0xC1, 0xC1, 0xC1, 0xC1, 0xC1, 0xC1, 0xC1, 0xC1, 0xC1, 0xC1, 0xC1, 0xC1, 0xC1, 0xC1, 0xC1,
     7, 0xAB,
     5, 0, 0, 0, 0, 0, 0, 0, 0, 0, 0, 0, 0, 0, 0, 0,
     62, 0, 0, 0, 0, 0, 0, 0, 62, 0, 0, 0}, /* at 62 */
};

static uint64_t append_call(size_t i, size_t size, uint64_t length, size_t channel_len, size_t answer_len)
{
    fresh();
    return i == 0 ? fiber_journal_append(slice, size, length, channels[0], channel_len, 0xFE, 1, UINT64_C(0x0102030405060708),
                                         UINT64_C(0x1112131415161718), answer, answer_len)
                  : fiber_journal_append(slice, size, length, channels[1], channel_len, 7, 0xAB, 5, 0, answer, answer_len);
}

static uint64_t walk_call(uint64_t length, size_t out_len)
{
    fresh();
    return fiber_journal_walk(slice, sizeof slice, length, out, out_len, answer, sizeof answer);
}

static void appended(size_t count)
{
    const size_t size = FIBER_JOURNAL_ANSWER;
    size_t i;
    memset(slice, GUARD, sizeof slice);
    for (i = 0; i < count; i++) {
        done("append", append_call(i, sizeof slice, i * ONE, 32, size), size);
        same("append's length", at(FIBER_JOURNAL_ANSWER_LENGTH), (i + 1) * ONE);
        same_bytes("the journal", slice, entries[0], (i + 1) * ONE);
        untouched("behind the journal", slice, (i + 1) * ONE, sizeof slice);
    }
}

/* Turned down: number, place, and not a byte of the slice. */
static void not_appended(const char *what, uint64_t returned, uint64_t number, uint64_t place)
{
    uint8_t before[sizeof slice];
    memset(before, GUARD, sizeof before);
    memcpy(before, entries, 2 * ONE);
    turned_down(what, returned, number, place);
    same_bytes(what, slice, before, sizeof slice);
}

static void appending(void)
{
    const size_t size = FIBER_JOURNAL_ANSWER, two = 2 * ONE;
    memset(channels[0], 0xC0, sizeof channels[0]);
    memset(channels[1], 0xC1, sizeof channels[1]);
    appended(3);
    appended(2);
    not_appended("append, no room", append_call(2, 3 * ONE - 1, two, 32, size), FIBER_SETTLEMENT_OUTPUT_SHORT, 186);
    not_appended("append, none at all", append_call(2, two, two, 32, size), FIBER_SETTLEMENT_OUTPUT_SHORT, 186);
    not_appended("append, length beyond", append_call(2, two - 1, two, 32, size), FIBER_SETTLEMENT_NOT_WELL, 0);
    not_appended("append, length 2^64-1", append_call(2, sizeof slice, UINT64_MAX, 32, size), FIBER_SETTLEMENT_NOT_WELL, 0);
    not_appended("append, channel of 31", append_call(2, sizeof slice, two, 31, size), FIBER_SETTLEMENT_NOT_WELL, 0);
    not_appended("append, channel of 33", append_call(2, sizeof slice, two, 33, size), FIBER_SETTLEMENT_NOT_WELL, 0);
    not_appended("append, a length of 1", append_call(2, sizeof slice, 1, 32, size), FIBER_JOURNAL_BROKEN, 0);
    not_appended("append, a length of 61", append_call(2, sizeof slice, 61, 32, size), FIBER_JOURNAL_BROKEN, 0);
    not_appended("append, a length of 63", append_call(2, sizeof slice, 63, 32, size), FIBER_JOURNAL_BROKEN, 51);
    not_appended("append, a length of 123", append_call(2, 123, 123, 32, size), FIBER_JOURNAL_BROKEN, 111); /* before 13 */
    unanswered("append, short", append_call(2, sizeof slice, two, 32, size - 1));
    fresh();
    unanswered("append, NULL", fiber_journal_append(slice, sizeof slice, two, channels[1], 32, 7, 0xAB, 5, 0, NULL, 0));
    turned_down("append, channel NULL", fiber_journal_append(slice, sizeof slice, two, NULL, 0, 7, 0xAB, 5, 0, fresh(), size), 14, 0);
    turned_down("append to NULL", fiber_journal_append(NULL, 0, 0, channels[1], 32, 7, 0xAB, 5, 0, fresh(), size), 13, 62);
    same_bytes("the journal, turned down", slice, entries[0], two);
}

static void walking(void)
{
    const size_t size = FIBER_JOURNAL_ANSWER, two = 2 * ONE;
    appended(2);
    done("walk", walk_call(two, two), size);
    same("walk's bytes", at(FIBER_JOURNAL_ANSWER_LENGTH), two);
    same_bytes("the newest first", out, entries[1], ONE);
    same_bytes("then the one before", out + ONE, entries[0], ONE);
    untouched("behind the walk", out, two, sizeof out);
    done("walk of one", walk_call(ONE, sizeof out), size);
    same("bytes of one", at(FIBER_JOURNAL_ANSWER_LENGTH), ONE);
    same_bytes("one", out, entries[0], ONE);
    untouched("behind one", out, ONE, sizeof out);
    done("walk of none", walk_call(0, sizeof out), size);
    same("bytes of none", at(FIBER_JOURNAL_ANSWER_LENGTH), 0);
    untouched("none", out, 0, sizeof out);
    done("walk of NULL", fiber_journal_walk(NULL, 0, 0, NULL, 0, fresh(), size), size);
    same("bytes of NULL", at(FIBER_JOURNAL_ANSWER_LENGTH), 0);

    turned_down("walk, out", walk_call(two, two - 1), FIBER_SETTLEMENT_OUTPUT_SHORT, two);
    fresh();
    turned_down("walk, out NULL", fiber_journal_walk(slice, two, two, NULL, 0, answer, size), FIBER_SETTLEMENT_OUTPUT_SHORT, two);
    turned_down("walk, length beyond", walk_call(sizeof slice + 1, sizeof out), FIBER_SETTLEMENT_NOT_WELL, 0);
    turned_down("walk, length 2^64-1", walk_call(UINT64_MAX, sizeof out), FIBER_SETTLEMENT_NOT_WELL, 0);
    turned_down("walk, a length of 61", walk_call(61, sizeof out), FIBER_JOURNAL_BROKEN, 0);
    turned_down("walk, a length of 125", walk_call(125, 0), FIBER_JOURNAL_BROKEN, 113); /* before 13 */
    fresh();
    unanswered("walk, short", fiber_journal_walk(slice, two, two, out, sizeof out, answer, size - 1));
    unanswered("walk, NULL", fiber_journal_walk(slice, two, two, out, sizeof out, NULL, 0));
}

/* Any byte of a trailer that is not as it has to be is told, the newest trailer first; every other byte is any. */
static void damaged(void)
{
    const size_t three = 3 * ONE;
    size_t i;
    appended(3);
    for (i = 0; i < three; i++) {
        slice[i] ^= 1;
        if (i % ONE < FIBER_JOURNAL_BEFORE)
            done("another field", walk_call(three, sizeof out), FIBER_JOURNAL_ANSWER);
        else
            turned_down("a trailer's byte", walk_call(three, sizeof out), FIBER_JOURNAL_BROKEN, i / ONE * ONE + 50);
        slice[i] ^= 1;
    }
    slice[50] = slice[112] = 1;
    turned_down("the newest fault", walk_call(three, sizeof out), FIBER_JOURNAL_BROKEN, 112);
    turned_down("the newest fault, append", append_call(1, sizeof slice, three, 32, sizeof answer), FIBER_JOURNAL_BROKEN, 112);
    slice[112] = 0;
    turned_down("the fault before", walk_call(three, sizeof out), FIBER_JOURNAL_BROKEN, 50);
}

/* A journal of the most entries and one more, and room for one behind. */
static uint8_t large[(MOST + 2) * ONE], walked[(MOST + 2) * ONE];

static void grown(size_t count)
{
    size_t i;
    memset(large, GUARD, sizeof large);
    for (i = 0; i < count; i++) {
        put_le(large + i * ONE, i);
        put_le(large + i * ONE + 50, i == 0 ? UINT64_MAX : (i - 1) * ONE);
        memset(large + i * ONE + 58, 0, 4);
        large[i * ONE + 58] = 62;
    }
}

static uint64_t large_append(uint64_t length)
{
    fresh();
    return fiber_journal_append(large, sizeof large, length, channels[1], 32, 7, 0xAB, 5, 0, answer, FIBER_JOURNAL_ANSWER);
}

static void many_entries(void)
{
    const size_t size = FIBER_JOURNAL_ANSWER;
    grown(MOST - 1);
    done("append the last", large_append((uint64_t)(MOST - 1) * ONE), size);
    same("length of the most", at(FIBER_JOURNAL_ANSWER_LENGTH), 4063170);
    turned_down("append one more", large_append(4063170), FIBER_JOURNAL_FULL, 4063170);
    untouched("behind the most", large, 4063170, sizeof large);

    grown(MOST + 1);
    turned_down("append to more", large_append(4063232), FIBER_JOURNAL_FULL, 4063232);
    done("walk of more", fiber_journal_walk(large, sizeof large, 4063232, walked, sizeof walked, fresh(), size), size);
    same("bytes of more", at(FIBER_JOURNAL_ANSWER_LENGTH), 4063232);
    same_bytes("the newest of more", walked, large + 4063170, ONE);
    same_bytes("the oldest of more", walked + 4063170, large, ONE);
    large[50] = 0; /* the oldest trailer */
    turned_down("more, and damaged", large_append(4063232), FIBER_JOURNAL_BROKEN, 50); /* before 40 */
}

static void journal_by_names(void)
{
    struct fiber_journal journal;
    struct fiber_journal_entry entry;
    size_t place = 0;
    journal.bytes = slice;
    journal.size = 2 * ONE;
    journal.length = 0;
    memset(slice, GUARD, sizeof slice);
    entry.channel = lent(channels[0], sizeof channels[0]);
    entry.unlock = 0xFE;
    entry.flag = 1;
    entry.amount.low = UINT64_C(0x0102030405060708);
    entry.amount.high = UINT64_C(0x1112131415161718);
    done("append_entry", fiber_journal_append_entry(&journal, &entry, fresh(), sizeof answer), FIBER_JOURNAL_ANSWER);
    same("append_entry's length", journal.length, ONE);
    same_bytes("append_entry's bytes", slice, entries[0], ONE);
    unanswered("append_entry, NULL", (fresh(), fiber_journal_append_entry(&journal, &entry, NULL, 0)));
    same("length, NULL", journal.length, ONE);
    done("append_entry again", fiber_journal_append_entry(&journal, &entry, fresh(), sizeof answer), FIBER_JOURNAL_ANSWER);
    same("length of two", journal.length, 2 * ONE);
    turned_down("append_entry, no room", fiber_journal_append_entry(&journal, &entry, fresh(), sizeof answer), 13, 186);
    same("length, no room", journal.length, 2 * ONE);

    appended(2);
    walk_call(2 * ONE, sizeof out);
    same("the newest", (uint64_t)fiber_journal_next(out, 2 * ONE, &place, &entry), 1);
    same_bytes("its channel", entry.channel.bytes, channels[1], sizeof channels[1]);
    same("its channel's length", entry.channel.len, 32);
    same("its unlock", entry.unlock, 7);
    same("its flag", entry.flag, 0xAB);
    same("its amount", entry.amount.low, 5);
    same("the one before", (uint64_t)fiber_journal_next(out, 2 * ONE, &place, &entry), 1);
    same("its place", place, 2 * ONE);
    same_bytes("its channel, too", entry.channel.bytes, channels[0], sizeof channels[0]);
    same("its unlock, too", entry.unlock, 0xFE);
    same("its flag, too", entry.flag, 1);
    same("its amount, low", entry.amount.low, UINT64_C(0x0102030405060708));
    same("its amount, high", entry.amount.high, UINT64_C(0x1112131415161718));
    same("none left", (uint64_t)fiber_journal_next(out, 2 * ONE, &place, &entry), 0);
    place = SIZE_MAX;
    same("no such place", (uint64_t)fiber_journal_next(out, 2 * ONE, &place, &entry), 0);
    place = 0;
    same("none at all", (uint64_t)fiber_journal_next(NULL, 0, &place, &entry), 0);
}

/* What a choice has chosen, and nothing where it has not. */
static void journal_of_choices(size_t h, uint8_t for_remote)
{
    struct fiber_settlement_request r = request_of(h, for_remote, START + 6000, 6);
    const uint8_t byte = for_remote ? FIBER_SETTLEMENT_UNLOCK_LOCAL : FIBER_SETTLEMENT_UNLOCK_REMOTE;
    uint8_t told[FIBER_JOURNAL_ANSWER];
    struct fiber_journal journal;
    journal.bytes = slice;
    journal.size = sizeof slice;
    journal.length = 0;
    r.tlcs = r.tracked = lent(NULL, 0);
    chosen(&r, FIBER_SETTLEMENT_SHARE, byte, 5, 6, 0);
    same("append_chosen", fiber_journal_append_chosen(&journal, lent(channels[0], 32), out, answer, told, sizeof told), 0);
    same("length of one choice", journal.length, ONE);
    same_bytes("channel of the choice", slice, channels[0], 32);
    same("unlock of the choice", slice[32], byte);
    same("flag of the choice", slice[33], 0);
    same("amount of the choice", fiber_settlement_field(slice, 34), 5);
    same("its high half", fiber_settlement_field(slice, 42), 0);
    put_le(answer + FIBER_SETTLEMENT_CHOOSE_AMOUNT_HIGH, 9);
    same("append_chosen, high", fiber_journal_append_chosen(&journal, lent(channels[0], 32), out, answer, told, sizeof told), 0);
    same("the high half", fiber_settlement_field(slice, ONE + 42), 9);

    /* The other way round: unlock byte 0 and flag 1. */
    if (for_remote) {
        r = request_of(h, for_remote, START + 6000, 2);
        r.preimages = lent(pairs, sizeof pairs);
        chosen(&r, FIBER_SETTLEMENT_BY_PREIMAGE, 0, 100, 2, 0);
        journal.length = ONE;
        same("append_chosen, by preimage", fiber_journal_append_chosen(&journal, lent(channels[0], 32), out, answer, told, sizeof told), 0);
        same("unlock by preimage", slice[ONE + 32], 0);
        same("flag by preimage", slice[ONE + 33], 1);
        same("amount by preimage", fiber_settlement_field(slice, ONE + 34), 100);
        return;
    }
    same("append_chosen, channel of 31", fiber_journal_append_chosen(&journal, lent(channels[0], 31), out, answer, told, sizeof told), 14);
    out[1] = 1; /* the flag of a longer unlock */
    same("append_chosen, flag", fiber_journal_append_chosen(&journal, lent(channels[0], 32), out, answer, told, sizeof told), 14);
    out[1] = 0;
    out[0] ^= 1;
    same("append_chosen, another output", fiber_journal_append_chosen(&journal, lent(channels[0], 32), out, answer, told, sizeof told), 14);
    out[0] ^= 1;
    put_le(answer, 22); /* a wait, which has no output */
    same("append_chosen, no output", fiber_journal_append_chosen(&journal, lent(channels[0], 32), NULL, answer, told, sizeof told), 14);
    same("append_chosen, a wait", fiber_journal_append_chosen(&journal, lent(channels[0], 32), out, answer, told, sizeof told), 14);
    same("its number", fiber_settlement_field(told, FIBER_SETTLEMENT_NUMBER), 14);
    same("its place", fiber_settlement_field(told, FIBER_SETTLEMENT_PLACE), 0);
    same("length of two choices", journal.length, 2 * ONE);
}

int main(void)
{
    const size_t lengths[2] = {FIBER_SETTLEMENT_H_SHORT, FIBER_SETTLEMENT_H_FULL};
    size_t i;
    uint8_t for_remote;
    memset(our_key, 2, sizeof our_key);
    memset(their_key, 3, sizeof their_key);
    fiber_settlement_ckb_hash(our_key, sizeof our_key, our_hash);
    fiber_settlement_ckb_hash(their_key, sizeof their_key, their_hash);

    same("abi", fiber_settlement_abi(), FIBER_SETTLEMENT_ABI);
    hashes();
    scaling();
    due();
    expiry();
    reading();
    updating();
    stating_nothing();
    lengths_of_args();
    for (i = 0; i < 2; i++)
        for (for_remote = 0; for_remote < 2; for_remote++) {
            recording(lengths[i], for_remote);
            stating(lengths[i], for_remote);
            choosing(lengths[i], for_remote);
            first_waits(lengths[i], for_remote);
            later_waits(lengths[i], for_remote);
            paid_waits(lengths[i], for_remote);
        }
    appending();
    walking();
    damaged();
    many_entries();
    journal_by_names();
    left_out();
    cannot_be();
    epochs_of_headers();
    no_lists();
    flagged();
    journal_of_choices(lengths[0], 0);
    journal_of_choices(lengths[0], 1);
    printf("every function: %u checks, %u failed\n", checks, failures);
    return failures != 0;
}
