/* Two small towers on one made-up commitment cell, from the first settlement to the last.
 *
 * A and B have a channel with full payment hashes (h is 32) and three TLCs. Both keep a tower. The commitment is A's, and then, in a
 * second run, B's: what each party gets has to be the same. A tower here does what a daemon does, but for signatures, fees and
 * a chain: the "chain" is a struct, and a signature is 65 bytes of 0x5A.
 *
 *   export PKG_CONFIG_PATH=/where/the/package/is/lib/pkgconfig
 *   cc -std=c99 tower.c $(pkg-config --cflags --libs fiber_settlement) -o tower && ./tower
 *
 * It exits with 1 where anything is not as it has to be. */
#include <fiber_settlement.h>

#include <inttypes.h>
#include <stdio.h>
#include <stdlib.h>
#include <string.h>

enum { A, B, PARTIES };
enum { CKB, SHA256 };
enum { H = FIBER_SETTLEMENT_H_FULL, TLCS = 3, TRACKED = FIBER_SETTLEMENT_TRACKED(H) };
enum { STATE = FIBER_SETTLEMENT_STATE(H, TLCS), ARGS = FIBER_SETTLEMENT_ARGS_FULL_LEN, UNLOCK = FIBER_SETTLEMENT_UNLOCK_WITH_PREIMAGE };

#define START UINT64_C(1700000000000) /* milliseconds */
#define HOUR UINT64_C(3600000)

static const char *const names[PARTIES] = {"A", "B"};
static const uint64_t shares[PARTIES] = {1000, 2000};
static const uint64_t beside = 61; /* what the cell has beside shares and TLCs */

/* The channel's TLCs, in the commitment's order. known_by has the preimage; nobody has the last one's. */
static const struct payment {
    int offered_by, known_by;
    uint8_t algorithm;
    uint64_t amount, expiry;
} payments[TLCS] = {
    {A, B, CKB, 100, START + 30 * HOUR},
    {B, A, SHA256, 50, START + 30 * HOUR},
    {A, -1, CKB, 7, START + 18 * HOUR},
};

/* What stands on chain: the cell, the witness of the transaction that made it, and the tip. */
struct chain {
    int owner, gone;
    uint8_t args[ARGS], witness[FIBER_SETTLEMENT_CHAIN_PREFIX + 1 + STATE + UNLOCK];
    size_t witness_len;
    uint64_t capacity, cell_epoch, tip_epoch, tip_median_time, paid[PARTIES];
};

/* What one party has stored. */
struct tower {
    int party;
    uint8_t tlcs[TLCS * FIBER_SETTLEMENT_TLC], tracked[TLCS * TRACKED], pairs[TLCS * FIBER_SETTLEMENT_PAIR];
    size_t standing, known;
    uint8_t key[FIBER_SETTLEMENT_KEY], other_key[FIBER_SETTLEMENT_KEY];
};

static void must(int is_so, const char *what)
{
    if (is_so)
        return;
    fprintf(stderr, "tower: %s is not as it has to be\n", what);
    exit(1);
}

/* ---- what a tower stores ---- */

static void put_le(uint8_t *to, uint64_t number)
{
    for (int i = 0; i < 8; i++)
        to[i] = (uint8_t)(number >> 8 * i);
}

/* Made-up public keys: a party's settlement key (which = 0), and its key for each TLC. */
static void put_key(uint8_t *to, int party, int which)
{
    memset(to, 0, FIBER_SETTLEMENT_KEY);
    to[0] = 2;
    to[1] = (uint8_t)(party + 1);
    to[2] = (uint8_t)which;
}

static void put_preimage_and_hash(int i, uint8_t *preimage, uint8_t *hash)
{
    memset(preimage, 0x40 + i, FIBER_SETTLEMENT_HASH);
    if (payments[i].algorithm == SHA256)
        fiber_settlement_sha256(preimage, FIBER_SETTLEMENT_HASH, hash);
    else
        fiber_settlement_ckb_hash(preimage, FIBER_SETTLEMENT_HASH, hash);
}

/* One settlement TLC and, where the party knows it, its preimage. received is 1 if the commitment's owner offered it, whoever keeps the
 * list: here is where a host that keeps its own view turns it round. */
static void store_tlc(struct tower *tower, int owner, int i)
{
    const struct payment *payment = &payments[i];
    uint8_t *tlc = tower->tlcs + i * FIBER_SETTLEMENT_TLC, *pair = tower->pairs + tower->known * FIBER_SETTLEMENT_PAIR;
    uint8_t preimage[FIBER_SETTLEMENT_HASH];
    tlc[FIBER_SETTLEMENT_TLC_RECEIVED] = payment->offered_by == owner;
    tlc[FIBER_SETTLEMENT_TLC_ALGORITHM] = payment->algorithm;
    put_le(tlc + FIBER_SETTLEMENT_TLC_AMOUNT, payment->amount);
    put_preimage_and_hash(i, preimage, tlc + FIBER_SETTLEMENT_TLC_HASH);
    put_le(tlc + FIBER_SETTLEMENT_TLC_EXPIRY, payment->expiry);
    put_key(tlc + FIBER_SETTLEMENT_TLC_LOCAL_KEY, tower->party, i + 1);
    put_key(tlc + FIBER_SETTLEMENT_TLC_REMOTE_KEY, !tower->party, i + 1);
    if (payment->known_by == tower->party) {
        memcpy(pair, tlc + FIBER_SETTLEMENT_TLC_HASH, FIBER_SETTLEMENT_HASH);
        memcpy(pair + FIBER_SETTLEMENT_HASH, preimage, FIBER_SETTLEMENT_HASH);
        tower->known++;
    }
}

/* The tracked entry of a settlement TLC: whole hash, algorithm, and the record that stands in the cell. */
static void track_tlc(struct tower *tower, int owner, int i)
{
    must(fiber_settlement_put_tracked(H, owner != tower->party, tower->tlcs + i * FIBER_SETTLEMENT_TLC, FIBER_SETTLEMENT_TLC,
                                      tower->tracked + i * TRACKED, TRACKED) == FIBER_SETTLEMENT_OK,
         "a record");
}

static struct tower tower_of(int party, int owner)
{
    struct tower tower = {0};
    tower.party = party;
    tower.standing = TLCS;
    put_key(tower.key, party, 0);
    put_key(tower.other_key, !party, 0);
    for (int i = 0; i < TLCS; i++) {
        store_tlc(&tower, owner, i);
        track_tlc(&tower, owner, i);
    }
    return tower;
}

/* ---- the cell ---- */

static void first_state(const struct tower *tower, int owner, uint8_t *state)
{
    uint8_t answer[FIBER_SETTLEMENT_WRITTEN_ANSWER];
    must(fiber_settlement_first_state(H, owner != tower->party, shares[tower->party], 0, shares[!tower->party], 0, tower->tlcs,
                                      sizeof tower->tlcs, tower->key, sizeof tower->key, tower->other_key, sizeof tower->other_key,
                                      state, STATE, answer, sizeof answer) == FIBER_SETTLEMENT_OK,
         "the first state");
}

/* The commitment transaction's own cell. Its delay is 6 epochs. */
static struct chain chain_of(const struct tower *tower, int owner)
{
    struct chain chain = {0};
    uint8_t state[STATE], hash[FIBER_SETTLEMENT_HASH];
    chain.owner = owner;
    chain.capacity = shares[A] + shares[B] + beside;
    for (int i = 0; i < TLCS; i++)
        chain.capacity += payments[i].amount;
    chain.cell_epoch = chain.tip_epoch = 100;
    chain.tip_median_time = START;
    first_state(tower, owner, state);
    fiber_settlement_ckb_hash(state, sizeof state, hash);
    put_le(chain.args + FIBER_SETTLEMENT_ARGS_DELAY, UINT64_C(0xA000000000000000) | UINT64_C(1) << 40 | 6);
    memcpy(chain.args + FIBER_SETTLEMENT_ARGS_STATE_HASH, hash, FIBER_SETTLEMENT_KEY_HASH);
    chain.args[FIBER_SETTLEMENT_ARGS_FEATURES] = 1;
    return chain;
}

static struct fiber_settlement_bytes witness_of(const struct chain *chain)
{
    struct fiber_settlement_bytes witness = {0};
    if (chain->witness_len == 0)
        return witness; /* a first settlement has none */
    must(fiber_settlement_has_chain_prefix(chain->witness, chain->witness_len), "the front of the witness");
    witness.bytes = chain->witness + FIBER_SETTLEMENT_CHAIN_PREFIX;
    witness.len = chain->witness_len - FIBER_SETTLEMENT_CHAIN_PREFIX;
    return witness;
}

/* ---- choosing ---- */

static struct fiber_settlement_request request_of(const struct tower *tower, const struct chain *chain)
{
    struct fiber_settlement_request r = {0};
    r.commitment = chain->owner == tower->party ? FIBER_SETTLEMENT_COMMITMENT_OURS : FIBER_SETTLEMENT_COMMITMENT_THEIRS;
    r.time = chain->tip_median_time;
    r.header = (struct fiber_settlement_epoch){.number = chain->cell_epoch, .index = 0, .length = 1};
    r.current = (struct fiber_settlement_epoch){.number = chain->tip_epoch, .index = 0, .length = 1};
    r.local_amount.low = shares[tower->party];
    r.remote_amount.low = shares[!tower->party];
    r.args = (struct fiber_settlement_bytes){chain->args, sizeof chain->args};
    r.tlcs = (struct fiber_settlement_bytes){tower->tlcs, sizeof tower->tlcs};
    r.local_key = (struct fiber_settlement_bytes){tower->key, sizeof tower->key};
    r.remote_key = (struct fiber_settlement_bytes){tower->other_key, sizeof tower->other_key};
    r.tracked = (struct fiber_settlement_bytes){tower->tracked, tower->standing * TRACKED};
    r.preimages = (struct fiber_settlement_bytes){tower->pairs, tower->known * FIBER_SETTLEMENT_PAIR};
    r.witness = witness_of(chain);
    return r;
}

/* Is the state that this tower knows of the one that the cell's args name? Asked before every choice. */
static int knows_the_state(const struct tower *tower, const struct chain *chain)
{
    const struct fiber_settlement_request r = request_of(tower, chain);
    uint8_t state[STATE];
    return fiber_settlement_request_matches(&r, state, sizeof state);
}

/* A list in the wrong view is well formed, and the choice takes it. The args tell. */
static void wrong_view(const struct tower *tower, const struct chain *chain)
{
    struct tower wrong = *tower;
    for (int i = 0; i < TLCS; i++)
        wrong.tlcs[i * FIBER_SETTLEMENT_TLC + FIBER_SETTLEMENT_TLC_RECEIVED] ^= 1;
    must(knows_the_state(tower, chain), "the state of the args");
    must(!knows_the_state(&wrong, chain), "a list in the wrong view");
}

static void say(const struct tower *tower, const struct chain *chain, const uint8_t *answer)
{
    const uint64_t kind = fiber_settlement_field(answer, FIBER_SETTLEMENT_CHOOSE_KIND);
    const uint64_t amount = fiber_settlement_field(answer, FIBER_SETTLEMENT_CHOOSE_AMOUNT_LOW);
    printf("  epoch %" PRIu64 ": %s takes ", chain->tip_epoch, names[tower->party]);
    if (kind == FIBER_SETTLEMENT_SHARE)
        printf("its share, %" PRIu64, amount);
    else
        printf("the TLC at place %" PRIu64 " by %s, %" PRIu64, fiber_settlement_field(answer, FIBER_SETTLEMENT_CHOOSE_BYTE),
               kind == FIBER_SETTLEMENT_BY_TIMEOUT ? "timeout" : "preimage", amount);
    if (fiber_settlement_field(answer, FIBER_SETTLEMENT_CHOOSE_DELAY_KIND) == FIBER_SETTLEMENT_DELAY_OUT)
        printf("; it waited %" PRIu64 " epochs", fiber_settlement_field(answer, FIBER_SETTLEMENT_CHOOSE_DELAY_NUMBER));
    if (fiber_settlement_field(answer, FIBER_SETTLEMENT_CHOOSE_LAST))
        printf("; the last settlement pays out all that is left, %" PRIu64, chain->capacity);
    printf("\n");
}

/* The settlement transaction. Its witness is 16 bytes, the count, the state, the signed unlock; its first output has the new args. The
 * last settlement has no such output and takes the whole cell. */
static void put_on_chain(struct chain *chain, int party, uint8_t *out, const uint8_t *answer)
{
    const size_t unlock = (size_t)fiber_settlement_field(answer, FIBER_SETTLEMENT_CHOOSE_UNLOCK_LENGTH);
    const size_t state = (size_t)fiber_settlement_field(answer, FIBER_SETTLEMENT_CHOOSE_STATE_LENGTH);
    const int is_last = fiber_settlement_field(answer, FIBER_SETTLEMENT_CHOOSE_LAST) != 0;
    const uint64_t amount = is_last ? chain->capacity : fiber_settlement_field(answer, FIBER_SETTLEMENT_CHOOSE_AMOUNT_LOW);
    uint8_t *to = chain->witness + FIBER_SETTLEMENT_CHAIN_PREFIX;
    memset(out + FIBER_SETTLEMENT_UNLOCK_SIGNATURE, 0x5A, FIBER_SETTLEMENT_SIGNATURE);
    fiber_settlement_put_chain_prefix(chain->witness);
    to[0] = 1;
    memcpy(to + FIBER_SETTLEMENT_WITNESS_COUNT, out + unlock, state);
    memcpy(to + FIBER_SETTLEMENT_WITNESS_COUNT + state, out, unlock);
    chain->witness_len = FIBER_SETTLEMENT_CHAIN_PREFIX + FIBER_SETTLEMENT_WITNESS_COUNT + state + unlock;
    memcpy(chain->args, out + unlock + state, sizeof chain->args);
    chain->cell_epoch = chain->tip_epoch;
    chain->capacity -= amount;
    chain->paid[party] += amount;
    chain->gone = is_last;
}

/* A tower that sees a settlement, its own or the other's, takes the settled TLC out of what it tracks. */
static void follow(struct tower *tower, const struct chain *chain)
{
    const struct fiber_settlement_bytes witness = witness_of(chain);
    const size_t left = fiber_settlement_follow(H, witness.bytes, witness.len, tower->tracked, tower->standing * TRACKED);
    must(left != SIZE_MAX, "the witness");
    tower->standing = left / TRACKED;
}

/* A wait of the walk. With 23 to 25 goes the place, among the tracked TLCs, of the first that is still pending. */
static void say_wait(const struct tower *tower, const struct chain *chain, const uint8_t *answer)
{
    const uint64_t number = fiber_settlement_field(answer, FIBER_SETTLEMENT_NUMBER);
    const uint64_t place = fiber_settlement_field(answer, FIBER_SETTLEMENT_PLACE);
    printf("  epoch %" PRIu64 ": %s waits for ", chain->tip_epoch, names[tower->party]);
    if (number == FIBER_SETTLEMENT_DELAY_NOT_DUE) {
        printf("the delay\n");
        return;
    }
    must(place < tower->standing, "the TLC that is waited for");
    printf("the TLC at place %" PRIu64 ", which %s\n", place,
           number == FIBER_SETTLEMENT_TLC_PASSED_OVER ? "no time makes due: an operator has to look"
           : number == FIBER_SETTLEMENT_TLC_NOT_DUE   ? "is not due"
                                                      : "is without a preimage");
}

/* One look at the chain. 1 if the tower settled something; a wait is ordinary. */
static int look(struct tower *tower, struct chain *chain)
{
    const struct fiber_settlement_request r = request_of(tower, chain);
    uint8_t out[UNLOCK + STATE + ARGS], answer[FIBER_SETTLEMENT_CHOOSE_ANSWER];
    must(knows_the_state(tower, chain), "the state of the args");
    switch (fiber_settlement_choose_request(&r, out, sizeof out, answer, sizeof answer)) {
    case FIBER_SETTLEMENT_OK:
        say(tower, chain, answer);
        put_on_chain(chain, tower->party, out, answer);
        return 1;
    case FIBER_SETTLEMENT_DELAY_NOT_DUE:
    case FIBER_SETTLEMENT_TLC_PASSED_OVER:
    case FIBER_SETTLEMENT_TLC_NOT_DUE:
    case FIBER_SETTLEMENT_TLC_NO_PREIMAGE:
        say_wait(tower, chain, answer);
        return 0;
    case FIBER_SETTLEMENT_NOT_OUR_SHARE:
        printf("  epoch %" PRIu64 ": %s has been paid\n", chain->tip_epoch, names[tower->party]);
        return 0;
    default: /* 20: we did not follow the chain; all others: a wrong call or a wrong cell */
        must(0, "the choice");
        return 0;
    }
}

static void settle(int owner)
{
    struct tower towers[PARTIES] = {tower_of(A, owner), tower_of(B, owner)};
    struct chain chain = chain_of(&towers[owner], owner);
    printf("%s's commitment, a cell of %" PRIu64 ":\n", names[owner], chain.capacity);
    for (int party = 0; party < PARTIES; party++)
        wrong_view(&towers[party], &chain);
    for (int tip = 0; tip < 10 && !chain.gone; tip++) {
        for (int party = 0; party < PARTIES && !chain.gone; party++)
            if (look(&towers[party], &chain) && !chain.gone) {
                follow(&towers[A], &chain);
                follow(&towers[B], &chain);
            }
        chain.tip_epoch++;
        chain.tip_median_time += 4 * HOUR;
    }
    printf("  A has %" PRIu64 ", B has %" PRIu64 "\n", chain.paid[A], chain.paid[B]);
    must(chain.gone && chain.capacity == 0, "the end");
    must(chain.paid[A] == shares[A] + 50 + 7 + beside, "what A has"); /* B's TLC by preimage, its own by timeout, and the rest, being last */
    must(chain.paid[B] == shares[B] + 100, "what B has"); /* A's TLC by preimage */
}

int main(void)
{
    must(fiber_settlement_abi() == FIBER_SETTLEMENT_ABI, "the version of the archive");
    settle(A);
    settle(B);
    return 0;
}
