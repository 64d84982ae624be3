/* A till with real signatures: issues the receipts of a small day, signs each with ES256, prints their codes, and takes the journal
 * over. At noon its signature device fails and is replaced by another one, which has its own key and its own certificate. The till makes
 * both signing keys and writes the public keys to files, so that anyone can verify the signatures. OpenSSL 3 stands for the devices.
 *
 *     cc -Iinclude examples/signed_till.c crates/device/out/libdevice.a -lcrypto -o signed_till
 *     ./signed_till PUBLIC-1.pem PUBLIC-2.pem [JOURNAL]
 */
#include "ditgrux.h"

#include <openssl/bn.h>
#include <openssl/ec.h>
#include <openssl/ecdsa.h>
#include <openssl/evp.h>
#include <openssl/pem.h>

#include <stdio.h>
#include <string.h>

enum {
    WIDTH = 5,      /* bytes of the turnover counter */
    DEVICES = 2,
    CHANGE = 15,    /* the first receipt that the second device signs */
    DER_ROOM = 72,  /* the longest DER signature of the curve P-256 */
    HALF = DITGRUX_SIGNATURE / 2
};

struct receipt {
    uint32_t hour, minute;
    int64_t cents[5]; /* standard rate, reduced 1, reduced 2, zero, special */
    uint32_t kind;
    int device_works;
};

/* The day. The receipts are numbered from 1. The first is the start receipt: five zeros. */
static const struct receipt day[] = {
    {7, 45, {0, 0, 0, 0, 0}, DITGRUX_STANDARD, 1},
    {7, 50, {1000, 500, 0, 0, 0}, DITGRUX_TRAINING, 1},
    {8, 2, {1050, 450, 0, 0, 0}, DITGRUX_STANDARD, 1},
    {8, 9, {0, 320, 0, 0, 0}, DITGRUX_STANDARD, 1},
    {8, 10, {0, -320, 0, 0, 0}, DITGRUX_CANCELLATION, 1},
    {8, 31, {2490, 0, 1399, 0, 0}, DITGRUX_STANDARD, 1},
    {9, 15, {99, 1, 0, 0, 0}, DITGRUX_STANDARD, 1},
    {9, 47, {0, 0, 0, 5000, 0}, DITGRUX_STANDARD, 1},
    {10, 20, {123456, 78900, 4200, 700, 1900}, DITGRUX_STANDARD, 1},
    {10, 24, {-123456, -78900, -4200, -700, -1900}, DITGRUX_CANCELLATION, 1},
    {11, 5, {-250, 0, 0, 0, 0}, DITGRUX_STANDARD, 1}, /* a deposit paid back */
    {11, 38, {780, 1560, 0, 0, 0}, DITGRUX_STANDARD, 1},
    {12, 0, {1890, 0, 0, 0, 0}, DITGRUX_STANDARD, 0},
    {12, 3, {-1890, 0, 0, 0, 0}, DITGRUX_CANCELLATION, 0},
    {12, 10, {0, 0, 0, 0, 0}, DITGRUX_STANDARD, 1}, /* the second device */
    {13, 22, {0, 0, 0, 0, 1300}, DITGRUX_STANDARD, 1},
    {14, 40, {99999999999, 0, 0, 0, 0}, DITGRUX_STANDARD, 1},
    {14, 41, {-99999999999, 0, 0, 0, 0}, DITGRUX_CANCELLATION, 1},
    {16, 55, {-99999999999, -99999999999, -99999999999, -99999999999, -99999999999}, DITGRUX_TRAINING, 1},
    {18, 0, {640, 0, 275, 0, 0}, DITGRUX_STANDARD, 1}
};

enum { RECEIPTS = sizeof day / sizeof day[0] };

/* The serials of the devices' certificates. */
static const uint8_t serials[DEVICES][4] = {{'1', 'a', '2', 'b'}, {'3', 'c', '4', 'd'}};

static uint8_t journal[DITGRUX_LONGEST_HEAD + DITGRUX_LONGEST_CHANGE + RECEIPTS * DITGRUX_LONGEST_ENTRY];
static uint8_t state[DITGRUX_STATE];
static const uint8_t counter_key[DITGRUX_KEY] = "a key of thirty-two plain bytes";

/* ---- the signature devices */

/* Turns a DER signature into r and s, each 32 bytes, big-endian. Returns 1, or 0 where the DER is bad. */
static int r_and_s(const uint8_t *der, size_t length, uint8_t signature[DITGRUX_SIGNATURE])
{
    ECDSA_SIG *pair = d2i_ECDSA_SIG(NULL, &der, (long)length);
    int good = pair != NULL && BN_bn2binpad(ECDSA_SIG_get0_r(pair), signature, HALF) == HALF &&
               BN_bn2binpad(ECDSA_SIG_get0_s(pair), signature + HALF, HALF) == HALF;
    ECDSA_SIG_free(pair);
    return good;
}

/* Signs the text with ES256. Returns how many bytes of signature there are: 64, or 0 where the device has failed. */
static size_t sign(EVP_PKEY *key, const uint8_t *text, size_t length, uint8_t signature[DITGRUX_SIGNATURE])
{
    uint8_t der[DER_ROOM];
    size_t der_length = sizeof der;
    EVP_MD_CTX *context = EVP_MD_CTX_new();
    int good = context != NULL && EVP_DigestSignInit(context, NULL, EVP_sha256(), NULL, key) == 1 &&
               EVP_DigestSign(context, der, &der_length, text, length) == 1 && r_and_s(der, der_length, signature);
    EVP_MD_CTX_free(context);
    return good ? DITGRUX_SIGNATURE : 0;
}

/* Writes a public key to a file. Returns 1, or 0 where it cannot. */
static int write_public_key(EVP_PKEY *key, const char *path)
{
    FILE *file = fopen(path, "w");
    if (file == NULL)
        return 0;
    int written = PEM_write_PUBKEY(file, key) == 1;
    return fclose(file) == 0 && written;
}

/* ---- the till */

/* Says what was refused and why. Returns 0, so that the caller can hand the failure on. */
static int refused(const char *what, uint32_t number)
{
    fprintf(stderr, "%s: refused %u\n", what, (unsigned)number);
    return 0;
}

/* Opens the register with the first device. Returns 1, or 0 where a call is refused. */
static int open_register(void)
{
    static const uint8_t csp[] = {'A', 'T', '0'}, id[] = {'T', 'I', 'L', 'L', '-', '1'};
    uint8_t settings[DITGRUX_SETTINGS];
    uint32_t number = ditgrux_settings(csp, sizeof csp, id, sizeof id, serials[0], sizeof serials[0], WIDTH, counter_key,
                                       sizeof counter_key, settings, sizeof settings);
    if (number)
        return refused("settings", number);
    number = ditgrux_open(settings, sizeof settings, journal, sizeof journal, state, sizeof state);
    return number ? refused("open", number) : 1;
}

/* Goes on with the second device. Returns 1, or 0 where the call is refused. */
static int change_certificate(void)
{
    uint32_t number = ditgrux_change(state, sizeof state, serials[1], sizeof serials[1], journal, sizeof journal);
    return number ? refused("change", number) : 1;
}

/* The details of a receipt of the day. */
static struct ditgrux_details details_of(uint32_t number, const struct receipt *r)
{
    struct ditgrux_details details = {0};
    details.number = number;
    details.year = 2026;
    details.month = 11;
    details.day = 15;
    details.hour = r->hour;
    details.minute = r->minute;
    details.kind = r->kind;
    details.standard = r->cents[0];
    details.reduced_1 = r->cents[1];
    details.reduced_2 = r->cents[2];
    details.zero = r->cents[3];
    details.special = r->cents[4];
    return details;
}

/* Signs one receipt and appends it to the journal. Returns 1, or 0 where a call is refused. */
static int issue(EVP_PKEY *key, uint32_t number, const struct receipt *r)
{
    const struct ditgrux_details details = details_of(number, r);
    uint8_t text[DITGRUX_LONGEST_INPUT], signature[DITGRUX_SIGNATURE];
    size_t length, signed_bytes = 0; /* 0 where the device has failed */
    uint32_t answer = ditgrux_prepare_details(state, sizeof state, &details, text, sizeof text, &length);
    if (answer)
        return refused("prepare", answer);
    if (r->device_works)
        signed_bytes = sign(key, text, length, signature);
    answer = ditgrux_issue_details(state, sizeof state, &details, signature, signed_bytes, journal, sizeof journal);
    return answer ? refused("issue", answer) : 1;
}

/* Prints the code of the entry that starts at this place in the journal. Returns 1, or 0 where it cannot. */
static int print_code(size_t entry)
{
    uint8_t code[DITGRUX_LONGEST_CODE];
    size_t form_length = (size_t)journal[entry] << 8 | journal[entry + 1], length;
    uint32_t number = ditgrux_code(journal + entry + 2, form_length, code, sizeof code, &length);
    if (number)
        return refused("code", number);
    return printf("%.*s\n", (int)length, (const char *)code) > 0;
}

/* Issues every receipt of the day. A new entry starts where the journal ended before. Returns 1, or 0 where a call is refused. */
static int run_the_day(EVP_PKEY *keys[DEVICES])
{
    for (uint32_t number = 1; number <= RECEIPTS; number++) {
        if (number == CHANGE && !change_certificate())
            return 0;
        size_t entry = ditgrux_journal_length(state, sizeof state);
        if (!issue(keys[number >= CHANGE], number, &day[number - 1]) || !print_code(entry))
            return 0;
    }
    return 1;
}

/* Writes the journal to a file. Returns 1, or 0 where it cannot. */
static int write_journal(const char *path)
{
    size_t length = ditgrux_journal_length(state, sizeof state);
    FILE *file = fopen(path, "wb");
    if (file == NULL)
        return 0;
    int written = fwrite(journal, 1, length, file) == length;
    return fclose(file) == 0 && written;
}

/* Takes the journal over and says the result. Returns 1 where the journal gives the very state that the till has. */
static int take_over(void)
{
    uint8_t again[DITGRUX_STATE];
    uint32_t entry;
    uint32_t number = ditgrux_take_over(journal, ditgrux_journal_length(state, sizeof state), counter_key, sizeof counter_key,
                                        WIDTH, again, sizeof again, &entry);
    if (number) {
        fprintf(stderr, "take over: refused %u at entry %u\n", (unsigned)number, (unsigned)entry);
        return 0;
    }
    int same = memcmp(again, state, sizeof state) == 0;
    return printf("taken over: %u receipts, %u serials, counter %lld cents, %s state\n", (unsigned)ditgrux_receipts(again, sizeof again),
                  (unsigned)ditgrux_serials(again, sizeof again), (long long)ditgrux_counter(again, sizeof again),
                  same ? "the same" : "another") > 0 && same;
}

/* Makes the keys of the devices and writes the public keys to the files. Returns 1, or 0 where it cannot. */
static int make_keys(EVP_PKEY *keys[DEVICES], char **paths)
{
    for (int i = 0; i < DEVICES; i++) {
        keys[i] = EVP_EC_gen("P-256");
        if (keys[i] == NULL || !write_public_key(keys[i], paths[i])) {
            fprintf(stderr, "no key, or its public key cannot be written\n");
            return 0;
        }
    }
    return 1;
}

int main(int count, char **arguments)
{
    EVP_PKEY *keys[DEVICES] = {NULL, NULL};
    if (count < 3 || count > 4) {
        fprintf(stderr, "usage: signed_till PUBLIC-1.pem PUBLIC-2.pem [JOURNAL]\n");
        return 2;
    }
    int good = make_keys(keys, arguments + 1) && open_register() && run_the_day(keys) && take_over();
    for (int i = 0; i < DEVICES; i++)
        EVP_PKEY_free(keys[i]);
    if (good && count == 4 && !write_journal(arguments[3])) {
        fprintf(stderr, "the journal cannot be written\n");
        good = 0;
    }
    return good && fflush(stdout) == 0 ? 0 : 1;
}
