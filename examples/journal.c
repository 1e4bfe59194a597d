/* A journal of unlocks in a file: what was chosen is appended, the file is read again as after a restart, walked, and put right
 * where a write broke off.
 *
 *   export PKG_CONFIG_PATH=/where/the/package/is/lib/pkgconfig
 *   cc -std=c99 journal.c $(pkg-config --cflags --libs fiber_settlement) -o journal && ./journal
 *
 * It exits with 1 where anything is not as it has to be. How a tower comes to its choices is in tower.c. */
#include <fiber_settlement.h>

#include <inttypes.h>
#include <stdio.h>
#include <stdlib.h>
#include <string.h>

enum { ENTRY = FIBER_JOURNAL_ENTRY, ROOM = 8 * ENTRY };
enum { ARGS = FIBER_SETTLEMENT_ARGS_SHORT_LEN, OUT = FIBER_SETTLEMENT_UNLOCK + FIBER_SETTLEMENT_STATE_FIXED + ARGS };

/* Two channels; the amounts of three settlements, the first and the last of one channel. */
static const uint8_t ids[2][FIBER_JOURNAL_CHANNEL] = {"the channel with Bob", "the channel with Carol"};
static const struct {
    int channel;
    uint64_t amount;
} settlements[] = {{0, 1000}, {1, 70}, {0, 300}};
enum { COUNT = sizeof settlements / sizeof settlements[0] };

static void must(int is_so, const char *what)
{
    if (is_so)
        return;
    fprintf(stderr, "journal: %s is not as it has to be\n", what);
    exit(1);
}

/* Our share of a made-up cell without TLCs: our commitment, a delay of 6 epochs, and all of it over. */
static void choose(uint64_t amount, uint8_t *out, uint8_t *answer)
{
    const uint8_t key[FIBER_SETTLEMENT_KEY] = {2, 1}, other_key[FIBER_SETTLEMENT_KEY] = {2, 2};
    uint8_t args[ARGS] = {0};
    struct fiber_settlement_request r = {0};
    args[FIBER_SETTLEMENT_ARGS_DELAY] = 6;
    args[FIBER_SETTLEMENT_ARGS_DELAY + 5] = 1;
    args[FIBER_SETTLEMENT_ARGS_DELAY + 7] = 0xA0;
    r.commitment = FIBER_SETTLEMENT_COMMITMENT_OURS;
    r.time = UINT64_C(1700000000000);
    r.header = (struct fiber_settlement_epoch){.number = 100, .index = 0, .length = 1};
    r.current = (struct fiber_settlement_epoch){.number = 106, .index = 0, .length = 1};
    r.local_amount.low = amount;
    r.args = (struct fiber_settlement_bytes){args, sizeof args};
    r.local_key = (struct fiber_settlement_bytes){key, sizeof key};
    r.remote_key = (struct fiber_settlement_bytes){other_key, sizeof other_key};
    must(fiber_settlement_choose_request(&r, out, OUT, answer, FIBER_SETTLEMENT_CHOOSE_ANSWER) == FIBER_SETTLEMENT_OK, "the choice");
}

/* Appends a choice, once the chain has taken its transaction, and writes the new bytes to the end of the file. */
static void keep(struct fiber_journal *journal, FILE *file, int i)
{
    const struct fiber_settlement_bytes channel = {ids[settlements[i].channel], sizeof ids[0]};
    const uint64_t before = journal->length;
    uint8_t out[OUT], choose_answer[FIBER_SETTLEMENT_CHOOSE_ANSWER], answer[FIBER_JOURNAL_ANSWER];
    choose(settlements[i].amount, out, choose_answer);
    must(fiber_journal_append_chosen(journal, channel, out, choose_answer, answer, sizeof answer) == FIBER_SETTLEMENT_OK, "an append");
    must(fwrite(journal->bytes + before, 1, journal->length - before, file) == journal->length - before && fflush(file) == 0, "the file");
}

/* A journal from the file, whose size is the length. */
static struct fiber_journal read_again(FILE *file, uint8_t *bytes)
{
    struct fiber_journal journal = {bytes, ROOM, 0};
    rewind(file);
    journal.length = fread(bytes, 1, ROOM, file);
    return journal;
}

/* Walks the journal, and holds what comes out against what was settled, the newest first. */
static void show(const struct fiber_journal *journal)
{
    uint8_t out[ROOM], answer[FIBER_JOURNAL_ANSWER];
    struct fiber_journal_entry entry;
    size_t at = 0, left = COUNT;
    must(fiber_journal_walk(journal->bytes, journal->size, journal->length, out, sizeof out, answer, sizeof answer) == FIBER_SETTLEMENT_OK, "a walk");
    while (fiber_journal_next(out, (size_t)fiber_settlement_field(answer, FIBER_JOURNAL_ANSWER_LENGTH), &at, &entry)) {
        must(left > 0 && entry.amount.low == settlements[left - 1].amount && entry.unlock == FIBER_SETTLEMENT_UNLOCK_REMOTE, "an entry");
        must(memcmp(entry.channel.bytes, ids[settlements[--left].channel], entry.channel.len) == 0, "a channel");
        printf("  %s: unlock %02X, %" PRIu64 "\n", (const char *)entry.channel.bytes, entry.unlock, entry.amount.low);
    }
    must(left == 0, "the count of entries");
}

/* A write broke off in the middle of an entry: 41. The entries before it are still a journal. */
static void put_right(struct fiber_journal *journal)
{
    uint8_t answer[FIBER_JOURNAL_ANSWER];
    must(fiber_journal_walk(journal->bytes, journal->size, journal->length, NULL, 0, answer, sizeof answer) == FIBER_JOURNAL_BROKEN, "a torn journal");
    printf("a torn journal of %" PRIu64 " bytes: %" PRIu64 " at %" PRIu64 "\n", journal->length, fiber_settlement_field(answer, FIBER_SETTLEMENT_NUMBER),
           fiber_settlement_field(answer, FIBER_SETTLEMENT_PLACE));
    journal->length -= journal->length % ENTRY;
}

int main(void)
{
    uint8_t bytes[ROOM];
    struct fiber_journal journal = {bytes, sizeof bytes, 0};
    FILE *file = tmpfile();
    must(fiber_settlement_abi() == FIBER_SETTLEMENT_ABI, "the version of the archive");
    must(file != NULL, "a file");
    for (int i = 0; i < COUNT; i++)
        keep(&journal, file, i);
    journal = read_again(file, bytes);
    printf("after a restart, %" PRIu64 " bytes, the newest first:\n", journal.length);
    show(&journal);

    must(fseek(file, 0, SEEK_END) == 0 && fwrite(bytes, 1, 20, file) == 20, "the file");
    journal = read_again(file, bytes);
    put_right(&journal);
    show(&journal);
    printf("%d entries, as they were appended\n", COUNT);
    fclose(file);
    return 0;
}
