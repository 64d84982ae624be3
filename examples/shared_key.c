/* A chain of bakeries that has one key for all its registers. First the mistake: registers "A1" and "A", opened by ditgrux_open, hash the
 * same text at receipts 2 and 12, and whoever reads the two printed codes learns about the turnover without the key. Then how to do it
 * right: ditgrux_open_shared refuses "A1", and "1A" and "A" never hash the same text.
 *
 *     cc -Iinclude examples/shared_key.c crates/device/out/libdevice.a -o shared_key
 */
#include "ditgrux.h"

#include <stdio.h>
#include <string.h>

enum { WIDTH = 5, COUNTER_FIELD = 10 };

static const uint8_t key[DITGRUX_KEY] = "one key for the whole chain";
static uint8_t journal[4096], state[DITGRUX_STATE];

/* Opens a register with this ID, by ditgrux_open_shared or by ditgrux_open. */
static uint32_t open_register(int shared, const char *id)
{
    uint8_t settings[DITGRUX_SETTINGS];
    const uint32_t refused = ditgrux_settings((const uint8_t *)"AT0", 3, (const uint8_t *)id, strlen(id), (const uint8_t *)"1a2b", 4, WIDTH, key,
                                              sizeof key, settings, sizeof settings);
    if (refused)
        return refused;
    if (shared)
        return ditgrux_open_shared(settings, sizeof settings, journal, sizeof journal, state, sizeof state);
    return ditgrux_open(settings, sizeof settings, journal, sizeof journal, state, sizeof state);
}

/* Issues a receipt. The signature device is out of order, so there is no signature. */
static uint32_t issue(uint32_t number, int64_t cents)
{
    struct ditgrux_details details = {number, 2026, 11, 16, 6, 30, 0, DITGRUX_STANDARD, cents, 0, 0, 0, 0};
    return ditgrux_issue_details(state, sizeof state, &details, NULL, 0, journal, sizeof journal);
}

/* The encrypted counter in the code of the receipt whose entry starts at this place: what anybody reads from the paper. */
static uint32_t printed_counter(size_t entry, uint8_t counter[WIDTH])
{
    uint8_t code[DITGRUX_LONGEST_CODE];
    size_t from = 0, to, field, length;
    uint32_t refused = ditgrux_code(journal + entry + 2, ditgrux_journal_length(state, sizeof state) - entry - 2, code, sizeof code, &length);
    if (refused)
        return refused;
    for (field = 0; field < COUNTER_FIELD; field++)
        while (code[from++] != '_')
            ;
    for (to = from; code[to] != '_'; to++)
        ;
    return ditgrux_unbase64(0, code + from, to - from, counter, WIDTH, &length);
}

/* A register's start receipt and one sale under this number: the encrypted turnover counter that is printed on the sale. */
static int sell(int shared, const char *id, uint32_t number, int64_t cents, uint8_t counter[WIDTH])
{
    size_t entry;
    if (open_register(shared, id) || issue(1, 0))
        return 1;
    entry = ditgrux_journal_length(state, sizeof state);
    if (issue(number, cents) || printed_counter(entry, counter))
        return 1;
    printf("register %s, receipt %u: hashes \"%s%u\"; turnover counter %u, printed as", id, (unsigned)number, id, (unsigned)number, (unsigned)cents);
    for (entry = 0; entry < WIDTH; entry++)
        printf(" %02x", counter[entry]);
    printf("\n");
    return 0;
}

/* Two registers under the one key: the exclusive or of the printed counters beside that of the counters themselves. */
static int compare(int shared, const char *first, const char *second)
{
    uint8_t one[WIDTH], other[WIDTH];
    uint64_t printed = 0;
    int i;
    if (sell(shared, first, 2, 450, one) || sell(shared, second, 12, 1230, other))
        return 1;
    for (i = 0; i < WIDTH; i++)
        printed = printed << 8 | (uint64_t)(one[i] ^ other[i]);
    printf("exclusive or of what is printed %010llx, of the counters %010x: %s\n", (unsigned long long)printed, 450 ^ 1230,
           printed == (450 ^ 1230) ? "the same, and no key was needed" : "different");
    return 0;
}

int main(void)
{
    if (compare(0, "A1", "A"))
        return 1;
    if (open_register(1, "A1") != DITGRUX_ID_ENDS_IN_DIGIT)
        return 1;
    printf("ditgrux_open_shared refuses A1 with %u: its ID ends in a digit\n", (unsigned)DITGRUX_ID_ENDS_IN_DIGIT);
    return compare(1, "1A", "A");
}
