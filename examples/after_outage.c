/* A restaurant whose signature device was down for an evening. The orders of each table were keyed all the same, and one call now issues
 * them together. Two lists are not issued to the end at once: in one an order has a wrong number, in the other the buffer fills up.
 * `issued` says where to go on. The last field of each code is "Sicherheitseinrichtung ausgefallen" in BASE64, not a signature.
 *
 *     cc -Iinclude examples/after_outage.c crates/device/out/libdevice.a -o after_outage
 */
#include "ditgrux.h"

#include <stdio.h>
#include <string.h>

enum { WIDTH = 5, ORDERS = 4 /* of a table */ };

static uint8_t small[2200], large[8192], state[DITGRUX_STATE];
static uint8_t *journal = small; /* the buffer of the journal */
static size_t journal_size = sizeof small;

/* An order, keyed at this minute after eight: food at reduced rate 1, drinks at the standard rate. */
static struct ditgrux_details order(uint32_t number, uint32_t minute, int64_t food, int64_t drinks)
{
    struct ditgrux_details details = {number, 2026, 11, 14, 20, minute, 0, DITGRUX_STANDARD, drinks, food, 0, 0, 0};
    return details;
}

/* A signed receipt with five zeros: the start receipt, and the first one when the device works again. The bytes of the signature are
 * made up; a real device signs with ES256. */
static uint32_t signed_zero(uint32_t number, uint32_t minute)
{
    const struct ditgrux_details details = order(number, minute, 0, 0);
    uint8_t input[DITGRUX_LONGEST_INPUT], signature[DITGRUX_SIGNATURE];
    size_t length;
    uint32_t refused = ditgrux_prepare_details(state, sizeof state, &details, input, sizeof input, &length);
    if (refused)
        return refused;
    ditgrux_sha256(input, length, signature, DITGRUX_HASH);
    memcpy(signature + DITGRUX_HASH, signature, DITGRUX_HASH);
    return ditgrux_issue_details(state, sizeof state, &details, signature, sizeof signature, journal, journal_size);
}

/* Issues these orders in one call, and prints the codes of those that were issued. The new entries lie one after the other, from the old
 * length of the journal on. */
static uint32_t issue(const struct ditgrux_details *orders, size_t count, size_t *issued)
{
    uint8_t list[ORDERS * DITGRUX_DETAILS], code[DITGRUX_LONGEST_CODE];
    size_t i, length, form_length;
    size_t entry = ditgrux_journal_length(state, sizeof state); /* before the call: afterwards the state has the new length */
    uint32_t refused;
    for (i = 0; i < count; i++)
        ditgrux_pack_details(&orders[i], list + i * DITGRUX_DETAILS);
    refused = ditgrux_issue_list(state, sizeof state, list, count * DITGRUX_DETAILS, journal, journal_size, issued);
    /* Where *issued is not 0, a till stores journal and state here, even if a later order was refused. */
    printf("number %u, %u of %u issued, counter %lld cents\n", (unsigned)refused, (unsigned)*issued, (unsigned)count,
           (long long)ditgrux_counter(state, sizeof state));
    for (i = 0; i < *issued; i++) {
        form_length = (size_t)journal[entry] << 8 | journal[entry + 1];
        if (ditgrux_code(journal + entry + 2, form_length, code, sizeof code, &length) == DITGRUX_DONE)
            printf("  %.*s\n", (int)length, (const char *)code);
        entry += 2 + form_length;
    }
    return refused;
}

int main(void)
{
    struct ditgrux_details table_5[ORDERS] = {order(2, 5, 3780, 1240), order(3, 21, 0, 840), order(4, 40, 1350, 0), order(5, 52, 0, 690)};
    struct ditgrux_details table_6[ORDERS] = {order(6, 7, 2490, 420), order(7, 24, 0, 980), order(7, 31, 560, 0), order(9, 55, 0, 310)};
    struct ditgrux_details table_7[ORDERS] = {order(10, 11, 990, 0), order(11, 15, 0, 450), order(12, 28, 1580, 0), order(13, 58, 0, 450)};
    const uint8_t key[DITGRUX_KEY] = "a key of thirty-two plain bytes";
    uint8_t settings[DITGRUX_SETTINGS], again[DITGRUX_STATE];
    size_t issued, first;
    uint32_t refused, index;
    if (ditgrux_settings((const uint8_t *)"AT0", 3, (const uint8_t *)"TILL-1", 6, (const uint8_t *)"1a2b", 4, WIDTH, key, sizeof key,
                         settings, sizeof settings))
        return 1;
    if (ditgrux_open(settings, sizeof settings, journal, journal_size, state, sizeof state) || signed_zero(1, 0))
        return 1;

    printf("table 5: ");
    if (issue(table_5, ORDERS, &issued))
        return 1;

    printf("table 6, whose third order has the number of the second: ");
    if (issue(table_6, ORDERS, &issued) != DITGRUX_NUMBER_NOT_ABOVE)
        return 1;
    first = issued; /* the place of the refused one */
    table_6[first].number = 8;
    printf("from there on, corrected: ");
    if (issue(table_6 + first, ORDERS - first, &issued))
        return 1;

    printf("table 7, while the buffer fills up: ");
    if (issue(table_7, ORDERS, &issued) != DITGRUX_NO_ROOM)
        return 1;
    first = issued;
    memcpy(large, journal, ditgrux_journal_length(state, sizeof state)); /* the length after the call: the issued orders are in it */
    journal = large;
    journal_size = sizeof large;
    printf("from there on, in a larger buffer: ");
    if (issue(table_7 + first, ORDERS - first, &issued))
        return 1;

    if (signed_zero(14, 59)) /* the device works again */
        return 1;
    refused = ditgrux_take_over(journal, ditgrux_journal_length(state, sizeof state), key, sizeof key, WIDTH, again, sizeof again, &index);
    printf("taken over: number %u, %u receipts, counter %lld cents, %s state\n", (unsigned)refused,
           (unsigned)ditgrux_receipts(again, sizeof again), (long long)ditgrux_counter(again, sizeof again),
           memcmp(again, state, sizeof state) ? "another" : "the same");
    return 0;
}
