/* A till: opens a register, issues receipts, prints their codes, changes its certificate, and takes its journal over. The second receipt
 * is a sale, the third one takes 10,50 of it back: a cancellation has negative amounts. The fourth names the new certificate.
 *
 *     cc -Iinclude examples/till.c crates/device/out/libdevice.a -o till
 */
#include "ditgrux.h"

#include <stdio.h>
#include <string.h>

static uint8_t journal[4096];
static uint8_t state[DITGRUX_STATE];

/* Stands in for the signature device: returns how many bytes it wrote, 64, or 0 if it has failed. A real one signs with ES256. */
static size_t sign(const uint8_t *input, size_t length, int works, uint8_t signature[DITGRUX_SIGNATURE])
{
    if (!works)
        return 0;
    ditgrux_sha256(input, length, signature, DITGRUX_HASH);
    memcpy(signature + DITGRUX_HASH, signature, DITGRUX_HASH);
    return DITGRUX_SIGNATURE;
}

/* One receipt: what the device signs is prepared, the receipt is issued, its code is printed. */
static uint32_t sell(uint32_t number, uint32_t minute, int64_t standard, int64_t reduced, uint32_t kind, int device_works)
{
    uint8_t input[DITGRUX_LONGEST_INPUT], signature[DITGRUX_SIGNATURE], code[DITGRUX_LONGEST_CODE];
    size_t length, signed_bytes, start = ditgrux_journal_length(state, sizeof state) + 2;
    struct ditgrux_details details;
    uint32_t refused;

    memset(&details, 0, sizeof details);
    details.number = number;
    details.year = 2026;
    details.month = 11;
    details.day = 15;
    details.hour = 8;
    details.minute = minute;
    details.kind = kind;
    details.standard = standard;
    details.reduced_1 = reduced;

    refused = ditgrux_prepare_details(state, sizeof state, &details, input, sizeof input, &length);
    if (refused)
        return refused;
    signed_bytes = sign(input, length, device_works, signature);
    refused = ditgrux_issue_details(state, sizeof state, &details, signature, signed_bytes, journal, sizeof journal);
    if (refused)
        return refused;
    /* the compact form lies in the journal, after the two bytes of its length */
    refused = ditgrux_code(journal + start, ditgrux_journal_length(state, sizeof state) - start, code, sizeof code, &length);
    if (refused)
        return refused;
    printf("%.*s\n", (int)length, (const char *)code);
    return DITGRUX_DONE;
}

/* The signature device has a new certificate with this serial: the receipts from here on name it. */
static uint32_t change(const char *serial)
{
    return ditgrux_change(state, sizeof state, (const uint8_t *)serial, strlen(serial), journal, sizeof journal);
}

int main(void)
{
    const uint8_t key[DITGRUX_KEY] = "a key of thirty-two plain bytes";
    uint8_t settings[DITGRUX_SETTINGS];
    uint32_t refused, index;

    if (ditgrux_settings((const uint8_t *)"AT0", 3, (const uint8_t *)"TILL-1", 6, (const uint8_t *)"1a2b", 4, 5, key, sizeof key, settings,
                         sizeof settings))
        return 1;
    if (ditgrux_open(settings, sizeof settings, journal, sizeof journal, state, sizeof state))
        return 1;
    if (sell(1, 0, 0, 0, DITGRUX_STANDARD, 1) || sell(2, 5, 1050, 450, DITGRUX_STANDARD, 1) || sell(3, 9, -1050, 0, DITGRUX_CANCELLATION, 0))
        return 1;
    printf("number 3 again: refused %u\n", (unsigned)sell(3, 10, 100, 0, DITGRUX_STANDARD, 1));

    if (change("3c4d") || sell(4, 15, 2000, 0, DITGRUX_STANDARD, 1))
        return 1;
    printf("back to certificate 1a2b: refused %u\n", (unsigned)change("1a2b")); /* DITGRUX_SERIAL_USED */

    size_t length = ditgrux_journal_length(state, sizeof state);
    uint8_t again[DITGRUX_STATE];
    refused = ditgrux_take_over(journal, length, key, sizeof key, 5, again, sizeof again, &index);
    printf("taken over: number %u, %u receipts, %u serials, counter %lld cents, %s state\n", (unsigned)refused,
           (unsigned)ditgrux_receipts(again, sizeof again), (unsigned)ditgrux_serials(again, sizeof again),
           (long long)ditgrux_counter(again, sizeof again), memcmp(again, state, sizeof state) ? "another" : "the same");
    journal[length - 1] ^= 1;
    refused = ditgrux_take_over(journal, length, key, sizeof key, 5, again, sizeof again, &index);
    printf("one bit changed: refused %u at entry %u\n", (unsigned)refused, (unsigned)index);
    return 0;
}
