/* Measures two builds of the port in one process: reader, update and choice over C, and the journal's append and walk where both builds have
 * them, batch by batch in turn, so that what else the machine does falls on both. First both must give the same return value, output and answer bytes; but where the build before says 22, the other may say 22 to 25.
 *
 *   before BEFORE.so NOW.so [PART OF A ROW'S NAME]
 *
 * Both are settlement_c; the hashes and the first state of the latter make the inputs. An answer that grew is compared as far as both have it.
 * Prints a table, for both hash lengths (the journal has none: its two columns measure the same call twice): the least time of a
 * call now, in nanoseconds, and before divided by now, by the least and by the median. Exits with 1 where a row is below 0.95 by both. */
#define _GNU_SOURCE
#include <dlfcn.h>
#include <stdbool.h>
#include <stdint.h>
#include <stdio.h>
#include <stdlib.h>
#include <string.h>
#include <time.h>

typedef uint8_t u8;
typedef uint64_t u64;
typedef void Hash(const u8 *, size_t, u8 *);
typedef u64 Read(u64, const u8 *, size_t, u8 *, size_t);
typedef u64 Update(u64, const u8 *, size_t, u8 *, size_t, u8 *, size_t);
typedef u64 FirstState(u64, u8, u64, u64, u64, u64, const u8 *, size_t, const u8 *, size_t, const u8 *, size_t, u8 *, size_t, u8 *, size_t);
typedef u64 Choose(u64, u8, u8, u64, u64, u64, u64, u64, u64, u64, u64, u64, u64, u64, const u8 *, size_t, const u8 *, size_t, const u8 *, size_t,
                   const u8 *, size_t, const u8 *, size_t, const u8 *, size_t, const u8 *, size_t, u8 *, size_t, u8 *, size_t);
typedef u64 Append(u8 *, size_t, u64, const u8 *, size_t, u8, u8, u64, u64, u8 *, size_t);
typedef u64 Walk(const u8 *, size_t, u64, u8 *, size_t, u8 *, size_t);

enum { BEFORE, NOW, SIDES };
enum { BATCHES = 2001, BATCH_NS = 50000, MOST_NS = 1200000000, ANSWER = 152, KEY = 33, SETTLEMENT_TLC = 124, PAIR = 64, SHARES = 72, ENTRY = 62, CHANNEL = 32 };

static struct {
    Read *read;
    Update *update;
    Choose *choose;
    Append *append;
    Walk *walk;
} sides[SIDES];
static Hash *ckb_hash, *sha256;
static FirstState *first_state;
static const char *wanted;

enum { HASH_LENGTHS = 2, ROWS = 64 };
static struct {
    char name[120];
    u64 number;
    double now, least, median;
} rows[HASH_LENGTHS][ROWS];
static int found_rows[HASH_LENGTHS], below;

/* ---- what is lent */

typedef struct {
    u8 *bytes;
    size_t len;
} Bytes;

typedef struct {
    enum { READ, UPDATE, CHOOSE, APPEND, WALK } operation;
    u64 h, time, current; /* the current epoch's number; the cell's is 10 */
    bool later;
    u8 local_key[KEY], remote_key[KEY];
    Bytes args, tlcs, tracked, pairs, witness, out, answer;
    Bytes journal; /* with room for one more entry, which an append writes; out is then compared in its place */
} Call;

static u64 seed;

static u64 next_random(void) { /* splitmix64 */
    u64 x = seed += 0x9e3779b97f4a7c15u;
    x = (x ^ (x >> 30)) * 0xbf58476d1ce4e5b9u;
    x = (x ^ (x >> 27)) * 0x94d049bb133111ebu;
    return x ^ (x >> 31);
}

static void fill(u8 *at, size_t n) {
    for (size_t i = 0; i < n; i++)
        at[i] = (u8)next_random();
}

static Bytes zeros(size_t len) {
    Bytes b = {calloc(1, len + 1), len};
    if (!b.bytes)
        exit(2);
    return b;
}

static void put64(u8 *at, u64 x) { memcpy(at, &x, 8); }

static u64 call(int side, const Call *c) {
    if (c->operation == READ)
        return sides[side].read(c->h, c->witness.bytes, c->witness.len, c->answer.bytes, c->answer.len);
    if (c->operation == UPDATE)
        return sides[side].update(c->h, c->witness.bytes, c->witness.len, c->out.bytes, c->out.len, c->answer.bytes, c->answer.len);
    if (c->operation == APPEND)
        return sides[side].append(c->journal.bytes, c->journal.len, c->journal.len - ENTRY, c->local_key, CHANNEL, 3, 1, 7, 5, c->answer.bytes, c->answer.len);
    if (c->operation == WALK)
        return sides[side].walk(c->journal.bytes, c->journal.len, c->journal.len - ENTRY, c->out.bytes, c->out.len, c->answer.bytes, c->answer.len);
    return sides[side].choose(c->h, true, c->later, c->time, 10, 0, 1, c->current, 0, 1, 7, 0, 5, 0, c->args.bytes, c->args.len, c->tlcs.bytes, c->tlcs.len,
                              c->local_key, KEY, c->remote_key, KEY, c->tracked.bytes, c->tracked.len, c->pairs.bytes, c->pairs.len, c->witness.bytes,
                              c->witness.len, c->out.bytes, c->out.len, c->answer.bytes, c->answer.len);
}

/* ---- measuring */

static u64 now_ns(void) {
    struct timespec t;
    clock_gettime(CLOCK_MONOTONIC, &t);
    return (u64)t.tv_sec * 1000000000u + (u64)t.tv_nsec;
}

static u64 batch(int side, const Call *c, u64 calls, u64 want) {
    u64 began = now_ns();
    for (u64 i = 0; i < calls; i++) {
        if (call(side, c) != want)
            abort();
        __asm__ volatile("" ::: "memory");
    }
    return now_ns() - began;
}

static int ascending(const void *a, const void *b) {
    u64 x = *(const u64 *)a, y = *(const u64 *)b;
    return (x > y) - (x < y);
}

static bool waits_in_walk(u64 number) { return 22 <= number && number <= 25; }

static u8 *new_entry(const Call *c) { return c->journal.bytes + c->journal.len - ENTRY; }

/* Both builds leave the same, on buffers that hold the same before; gives the return values. */
static void agreed(const char *name, const Call *c, u64 *status) {
    Bytes out = zeros(c->out.len), answer = zeros(c->answer.len);
    for (int side = 0; side < SIDES; side++) {
        memset(c->out.bytes, 0xa5, c->out.len);
        memset(c->answer.bytes, 0xa5, c->answer.len);
        if (c->operation == APPEND)
            memset(new_entry(c), 0xa5, ENTRY);
        status[side] = call(side, c);
        if (c->operation == APPEND)
            memcpy(c->out.bytes, new_entry(c), ENTRY);
        if (side == BEFORE) {
            memcpy(out.bytes, c->out.bytes, out.len);
            memcpy(answer.bytes, c->answer.bytes, answer.len);
        }
    }
    size_t told = answer.len; /* what the build before wrote of its answer */
    while (told > 0 && answer.bytes[told - 1] == 0xa5)
        told--;
    bool wait = status[BEFORE] == 22 && waits_in_walk(status[NOW]) && told <= 16; /* before W1 every wait of the walk was 22 */
    bool alike = status[BEFORE] == status[NOW] && !memcmp(answer.bytes, c->answer.bytes, told);
    if ((!wait && !alike) || memcmp(out.bytes, c->out.bytes, out.len)) {
        fprintf(stderr, "before: the two builds differ at '%s'\n", name);
        exit(1);
    }
    free(out.bytes);
    free(answer.bytes);
}

static void row(const char *name, const Call *c) {
    static u64 times[SIDES][BATCHES];
    if (wanted && !strstr(name, wanted))
        return;
    u64 want[SIDES], calls = 1, one;
    agreed(name, c, want);
    while ((one = batch(BEFORE, c, calls, want[BEFORE])) < BATCH_NS)
        calls *= 2;
    int batches = one * SIDES * BATCHES > MOST_NS ? (int)(MOST_NS / (one * SIDES)) : BATCHES;
    if (batches < 9)
        batches = 9;
    for (int b = 0; b < batches; b++)
        for (int k = 0; k < SIDES; k++) {
            int side = b % 2 ? SIDES - 1 - k : k;
            times[side][b] = batch(side, c, calls, want[side]);
        }
    for (int side = 0; side < SIDES; side++)
        qsort(times[side], (size_t)batches, sizeof(u64), ascending);
    int which = c->h == 32, at = found_rows[which]++;
    if (at == ROWS)
        exit(2);
    snprintf(rows[which][at].name, sizeof rows[which][at].name, "%s", name);
    rows[which][at].number = want[NOW];
    rows[which][at].now = (double)times[NOW][0] / (double)calls;
    rows[which][at].least = (double)times[BEFORE][0] / (double)times[NOW][0];
    rows[which][at].median = (double)times[BEFORE][batches / 2] / (double)times[NOW][batches / 2];
    below += rows[which][at].least < 0.95 && rows[which][at].median < 0.95;
}

static void print_table(void) {
    puts("| | Number | h = 20: now, ns | before / now | median | h = 32: now, ns | before / now | median |\n|---|---|---|---|---|---|---|---|");
    for (int i = 0; i < found_rows[0]; i++) {
        printf("| %s | %lu |", rows[0][i].name, (unsigned long)rows[0][i].number);
        for (int which = 0; which < HASH_LENGTHS; which++)
            printf(" %.*f | %.2f | %.2f |", rows[which][i].now < 1000, rows[which][i].now, rows[which][i].least, rows[which][i].median);
        puts("");
    }
    if (below)
        printf("%d rows are below 0.95 by both\n", below);
}

/* ---- inputs */

/* A witness of n TLCs with unlocks, each second one with a preimage: places from 0 on, or the local share where there is no TLC. */
static Bytes witness(u64 h, int n, int unlocks) {
    size_t len = 2 + (size_t)n * (65 + h) + SHARES;
    Bytes w = zeros(len + (size_t)unlocks * 99);
    seed = (u64)n * 77 + 1;
    fill(w.bytes, len);
    w.bytes[0] = (u8)unlocks;
    w.bytes[1] = (u8)n;
    for (int i = 0; i < unlocks; i++) {
        size_t size = i % 2 ? 99 : 67;
        fill(w.bytes + len, size);
        w.bytes[len] = n ? (u8)i : 255;
        w.bytes[len + 1] = i % 2;
        len += size;
    }
    w.len = len;
    return w;
}

/* What a choice's TLCs and pairs are like. */
typedef struct {
    int tlcs, pairs; /* a pair for each TLC where pairs is -1; the TLCs' pairs are the last ones */
    bool found;      /* pairs with the TLCs' hashes; the last one's preimage counts, unless it is wrong */
    bool wrong;
    bool equal;      /* all TLCs have one hash */
    bool waits;      /* no TLC has expired */
    bool last_waits; /* the last has not */
    bool received;
    bool keyless;    /* no settlement TLC has a tracked TLC's hash */
    bool foreign;    /* all have it, and none has its key */
} Shape;

/* The preimage and the hash of each TLC go to secrets, 64 bytes each. */
static void settlement_tlcs(Call *c, const Shape *shape, u8 *secrets) {
    u8 same[32];
    fill(same, 32);
    c->tlcs = zeros((size_t)shape->tlcs * SETTLEMENT_TLC);
    for (int i = 0; i < shape->tlcs; i++) {
        u8 *t = c->tlcs.bytes + i * SETTLEMENT_TLC, *preimage = secrets + i * 64, *hash = preimage + 32;
        t[0] = shape->received;
        t[1] = shape->equal ? 0 : (u8)(i % 2);
        put64(t + 2, (u64)i + 1);
        fill(preimage, 32);
        if (shape->equal)
            memcpy(preimage, same, 32);
        (t[1] ? sha256 : ckb_hash)(preimage, 32, hash);
        memcpy(t + 18, hash, 32);
        put64(t + 50, shape->waits || (shape->last_waits && i == shape->tlcs - 1) ? 1000000 : 0);
        fill(t + 58, 2 * KEY);
    }
}

static void stored_pairs(Call *c, const Shape *shape, const u8 *secrets) {
    int pairs = shape->pairs < 0 ? shape->tlcs : shape->pairs;
    c->pairs = zeros((size_t)pairs * PAIR);
    for (int i = 0; i < pairs; i++) {
        u8 *p = c->pairs.bytes + i * PAIR;
        int tlc = i - (pairs - shape->tlcs);
        fill(p, PAIR);
        if (tlc >= 0 && shape->found)
            memcpy(p, secrets + tlc * 64 + 32, 32);
        if (tlc >= 0 && tlc == shape->tlcs - 1 && !shape->wrong)
            memcpy(p + 32, secrets + tlc * 64, 32);
    }
}

/* A choice with for_remote at time 6,000; the whole delay, three epochs, is due. */
static Call choice(u64 h, bool later, Shape shape) {
    Call c = {.operation = CHOOSE, .h = h, .time = 6000, .current = 13, .later = later};
    u8 *secrets = zeros((size_t)shape.tlcs * 64).bytes, answer[24];
    size_t record = 65 + h;
    seed = (u64)shape.tlcs * 131 + 7;
    memset(c.local_key, 4, KEY);
    memset(c.remote_key, 5, KEY);
    settlement_tlcs(&c, &shape, secrets);
    Bytes state = zeros(1 + (size_t)shape.tlcs * record + SHARES);
    if (first_state(h, true, 7, 0, 5, 0, c.tlcs.bytes, c.tlcs.len, c.local_key, KEY, c.remote_key, KEY, state.bytes, state.len, answer, 24))
        exit(2);
    c.tracked = zeros((size_t)shape.tlcs * (33 + record));
    for (int i = 0; i < shape.tlcs; i++) {
        u8 *t = c.tracked.bytes + (size_t)i * (33 + record);
        memcpy(t, secrets + i * 64 + 32, 32);
        t[32] = c.tlcs.bytes[i * SETTLEMENT_TLC + 1];
        memcpy(t + 33, state.bytes + 1 + (size_t)i * record, record);
    }
    stored_pairs(&c, &shape, secrets);
    for (int i = 0; (shape.keyless || shape.foreign) && i < shape.tlcs; i++)
        c.tlcs.bytes[i * SETTLEMENT_TLC + (shape.foreign ? 58 : 18)] ^= 1;
    c.args = zeros(57);
    put64(c.args.bytes + 20, 0xa000000000000000u | (u64)1 << 40 | 3);
    c.witness = zeros(later ? state.len + 1 : 0);
    if (later)
        memcpy(c.witness.bytes + 1, state.bytes, state.len);
    c.out = zeros(99 + state.len + 57);
    c.answer = zeros(ANSWER);
    return c;
}

/* ---- rows */

static void named(const char *operation, const char *what, const Call *c) {
    char name[160];
    snprintf(name, sizeof name, "%s, %s", operation, what);
    row(name, c);
}

static const char *more(int n) { return n == 1 ? "" : "s"; }

static void reader_and_update(u64 h) {
    static const int sizes[][2] = {{0, 0}, {0, 1}, {1, 0}, {1, 1}, {16, 0}, {16, 16}, {254, 0}, {254, 1}, {254, 254}};
    for (int operation = READ; operation <= UPDATE; operation++)
        for (size_t i = 0; i < sizeof sizes / sizeof *sizes; i++) {
            char what[80];
            Call c = {.operation = operation, .h = h, .witness = witness(h, sizes[i][0], sizes[i][1]), .answer = zeros(ANSWER)};
            c.out = zeros(73 + (size_t)sizes[i][0] * (65 + h));
            snprintf(what, sizeof what, "%d TLC%s, %d unlock%s", sizes[i][0], more(sizes[i][0]), sizes[i][1], more(sizes[i][1]));
            named(operation == READ ? "read" : "update", what, &c);
        }
}

static void choices(u64 h, bool later) {
    const char *operation = later ? "later choice" : "first choice";
    static const int sizes[] = {0, 1, 16, 254};
    char what[80];
    for (size_t i = 0; i < sizeof sizes / sizeof *sizes; i++) {
        Call found = choice(h, later, (Shape){.tlcs = sizes[i], .pairs = -1, .found = true, .received = true});
        Call keyless = choice(h, later, (Shape){.tlcs = sizes[i], .pairs = -1, .received = true, .keyless = later});
        snprintf(what, sizeof what, sizes[i] ? "%d TLC%s, the last by a preimage" : "%d TLC%s", sizes[i], more(sizes[i]));
        named(operation, what, &found);
        snprintf(what, sizeof what, later ? "%d TLC%s without a key" : "%d TLC%s without a preimage", sizes[i], more(sizes[i]));
        if (sizes[i])
            named(operation, what, &keyless);
    }
    Call many = choice(h, later, (Shape){.tlcs = 254, .pairs = 4096, .found = true, .received = true});
    named(operation, "254 TLCs, 4,096 pairs", &many);
    Call equal = choice(h, later, (Shape){.tlcs = 254, .pairs = -1, .equal = true, .received = true});
    named(operation, "254 TLCs of one hash", &equal);
}

static void waits(u64 h, bool later) {
    const char *operation = later ? "later wait" : "first wait";
    Call timeout = choice(h, later, (Shape){.tlcs = 254, .pairs = -1, .waits = true});
    named(operation, "254 TLCs, timeout kind", &timeout);
    Call preimage = choice(h, later, (Shape){.tlcs = 254, .pairs = -1, .waits = true, .received = true});
    named(operation, "254 TLCs, preimage kind", &preimage);
    Call equal = choice(h, later, (Shape){.tlcs = 254, .pairs = -1, .equal = true, .waits = true, .received = true});
    named(operation, "254 TLCs of one hash", &equal);
    Call wrong = choice(h, later, (Shape){.tlcs = 254, .pairs = -1, .found = true, .equal = true, .waits = true, .received = true});
    named(operation, "254 TLCs of one hash, no preimage counts", &wrong);
    Call fell = choice(h, later, (Shape){.tlcs = 254, .pairs = -1, .last_waits = true, .received = true, .wrong = true});
    named(operation, "254 TLCs, pending fell for all but the last", &fell);
    Call fell_wrong = choice(h, later, (Shape){.tlcs = 254, .pairs = -1, .found = true, .last_waits = true, .received = true, .wrong = true});
    named(operation, "254 TLCs, pending fell for all but the last, each with a wrong preimage", &fell_wrong);
    Call keyless = choice(h, later, (Shape){.tlcs = 254, .pairs = -1, .waits = true, .keyless = true});
    Call foreign = choice(h, later, (Shape){.tlcs = 254, .pairs = -1, .waits = true, .equal = true, .foreign = true});
    if (later) {
        named(operation, "254 TLCs, timeout kind, without a key", &keyless);
        named(operation, "254 TLCs of one hash, timeout kind, without a key", &foreign);
    }
    Call undue = choice(h, later, (Shape){.tlcs = 254, .pairs = -1, .found = true, .received = true});
    undue.current = 10;
    if (!later)
        named(operation, "254 TLCs, no part of the delay is due", &undue);
    Call differs = choice(h, later, (Shape){.tlcs = 254, .pairs = -1, .waits = true, .received = true});
    differs.tracked.bytes[40] ^= 1;
    named(operation, "254 TLCs, tracked list differs", &differs);
}

/* A journal of so many entries, each with its trailer: the start of the one before, all ones for none, and 62. */
static Bytes grown(size_t entries) {
    Bytes journal = zeros((entries + 1) * ENTRY);
    seed = entries;
    fill(journal.bytes, journal.len);
    for (size_t i = 0; i < entries; i++) {
        u8 *trailer = journal.bytes + i * ENTRY + 50;
        put64(trailer, i ? (u64)(i - 1) * ENTRY : UINT64_MAX);
        memcpy(trailer + 8, (u8[]){ENTRY, 0, 0, 0}, 4);
    }
    return journal;
}

static void journals(u64 h) {
    static const struct {
        size_t entries;
        const char *what;
    } sizes[] = {{1, "1 entry"}, {1000, "1,000 entries"}, {65534, "65,534 entries"}, {65535, "65,535 entries"}};
    for (size_t i = 0; i < sizeof sizes / sizeof *sizes; i++) {
        Call c = {.operation = APPEND, .h = h, .journal = grown(sizes[i].entries), .answer = zeros(ANSWER), .out = zeros(ENTRY)};
        named("journal append", sizes[i].what, &c);
        c.operation = WALK;
        c.out = zeros(sizes[i].entries * ENTRY);
        named("journal walk", sizes[i].what, &c);
    }
}

/* ---- loading */

static void *library(const char *path) {
    void *found = dlopen(path, RTLD_NOW | RTLD_LOCAL);
    if (!found) {
        fprintf(stderr, "before: %s\n", dlerror());
        exit(2);
    }
    return found;
}

static void *function(void *from, const char *name) {
    void *found = dlsym(from, name);
    if (!found) {
        fprintf(stderr, "before: %s\n", dlerror());
        exit(2);
    }
    return found;
}

int main(int count, char **args) {
    if (count < 3) {
        fprintf(stderr, "before BEFORE.so NOW.so [PART OF A ROW'S NAME]\n");
        return 2;
    }
    void *now = library(args[2]);
    ckb_hash = (Hash *)function(now, "fiber_settlement_ckb_hash");
    sha256 = (Hash *)function(now, "fiber_settlement_sha256");
    first_state = (FirstState *)function(now, "fiber_settlement_first_state");
    for (int side = 0; side < SIDES; side++) {
        void *from = library(args[1 + side]);
        sides[side].read = (Read *)function(from, "fiber_settlement_read");
        sides[side].update = (Update *)function(from, "fiber_settlement_update");
        sides[side].choose = (Choose *)function(from, "fiber_settlement_choose");
        sides[side].append = (Append *)dlsym(from, "fiber_journal_append");
        sides[side].walk = (Walk *)dlsym(from, "fiber_journal_walk");
    }
    wanted = count > 3 ? args[3] : NULL;
    for (u64 h = 20; h <= 32; h += 12) {
        reader_and_update(h);
        for (int later = 0; later < 2; later++) {
            choices(h, later);
            waits(h, later);
        }
        if (sides[BEFORE].append && sides[BEFORE].walk && sides[NOW].append && sides[NOW].walk)
            journals(h);
    }
    print_table();
    return below > 0;
}
