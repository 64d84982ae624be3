/* Prints the receipts of a journal again. It reads the journal, of any size, from a file, walks its pairs and their entries as the header
 * describes, and reads each receipt back with the serial of its pair. Each line has the number, date and time, kind, the five amounts in
 * cents, and whether the device had signed.
 *
 *     cc -Iinclude examples/reprint.c crates/device/out/libdevice.a -o reprint
 *     ./reprint JOURNAL WIDTH          WIDTH: bytes of the register's turnover counter, 5 to 8
 *
 * To find out whether the journal is good, take it over. This program only reads. Exit status: 0, or 1 if it came to something that it
 * could not read as a receipt ("refused", with a number of docs/QUESTIONS.md), or 2 if an argument is wrong or the file cannot be read.
 */
#include "ditgrux.h"

#include <errno.h>
#include <inttypes.h>
#include <stdio.h>
#include <stdlib.h>
#include <string.h>

/* What is left of the file: every number and text is taken from its front. */
struct reader {
    const uint8_t *bytes;
    size_t left;
    int good; /* 0 once something was not there */
};

static const uint8_t *take(struct reader *r, size_t count)
{
    const uint8_t *front = r->bytes;
    if (r->left < count) {
        r->good = 0;
        count = r->left;
    }
    r->bytes += count;
    r->left -= count;
    return front;
}

/* A big-endian number of so many bytes; 0 where it is not there. */
static size_t number(struct reader *r, size_t count)
{
    const uint8_t *bytes = take(r, count);
    size_t value = 0;
    while (r->good && count-- > 0)
        value = value << 8 | *bytes++;
    return value;
}

/* A section: a length of four bytes and so many bytes. */
struct section {
    const uint8_t *bytes;
    size_t length;
};

static struct section section(struct reader *r)
{
    struct section found;
    found.length = number(r, 4);
    found.bytes = take(r, found.length);
    return found;
}

static void print(const struct ditgrux_details *d, int signed_by_device)
{
    static const char *const kinds[] = {"standard", "cancellation", "training"};
    printf("%" PRIu32 " %04" PRIu32 "-%02" PRIu32 "-%02" PRIu32 " %02" PRIu32 ":%02" PRIu32 ":%02" PRIu32 " %s", d->number, d->year,
           d->month, d->day, d->hour, d->minute, d->second, kinds[d->kind]);
    printf(" %" PRId64 " %" PRId64 " %" PRId64 " %" PRId64 " %" PRId64 " %s\n", d->standard, d->reduced_1, d->reduced_2, d->zero,
           d->special, signed_by_device ? "signed" : "device failed");
}

/* Prints the next receipt. Returns 0, or the number of its refusal. */
static uint32_t reprint_entry(struct reader *r, const uint8_t settings[DITGRUX_SETTINGS])
{
    uint8_t signature[DITGRUX_SIGNATURE];
    struct ditgrux_details details;
    size_t form_length = number(r, 2), signed_bytes;
    const uint8_t *form = take(r, form_length);
    uint32_t refused;
    if (!r->good)
        return DITGRUX_ENTRY_CUT;
    refused = ditgrux_read_details(settings, DITGRUX_SETTINGS, form, form_length, &details, signature, &signed_bytes);
    if (!refused)
        print(&details, signed_bytes != 0);
    return refused;
}

/* Prints the receipts of the next pair, read with the pair's serial, and counts the entries on. Reading needs no key, so the key of the
 * settings is left at zeros. Returns 0, or the number of a refusal: `cut` if the serial or the number of receipts is not there. */
static uint32_t reprint_pair(struct reader *r, struct section csp, struct section id, size_t width, uint32_t cut, size_t *entry)
{
    static const uint8_t key[DITGRUX_KEY] = {0};
    const struct section serial = section(r);
    uint8_t settings[DITGRUX_SETTINGS];
    size_t receipts = number(r, 4);
    uint32_t refused;
    if (!r->good)
        return cut;
    refused = ditgrux_settings(csp.bytes, csp.length, id.bytes, id.length, serial.bytes, serial.length, width, key, sizeof key, settings,
                               sizeof settings);
    for (; receipts > 0 && !refused; receipts--) {
        refused = reprint_entry(r, settings);
        if (refused)
            fprintf(stderr, "entry %zu: ", *entry);
        else
            ++*entry;
    }
    return refused;
}

/* Prints the receipts up to the first that is refused, pair by pair: each certificate of the register has one. Returns 0, or the number
 * of the refusal. */
static uint32_t reprint(struct reader *r, size_t width)
{
    const struct section csp = section(r), id = section(r);
    size_t entry = 0;
    uint32_t refused = reprint_pair(r, csp, id, width, DITGRUX_BAD_HEAD, &entry);
    while (!refused && r->left > 0)
        refused = reprint_pair(r, csp, id, width, DITGRUX_BYTES_LEFT, &entry);
    return refused;
}

/* ---- the file */

/* All bytes of a file, in memory that the caller frees. NULL if they cannot be read or do not fit in memory. */
static uint8_t *contents(const char *path, size_t *length)
{
    FILE *file = fopen(path, "rb");
    uint8_t *bytes = NULL, *larger;
    size_t size = 0, got = 0;
    int why;
    if (file == NULL)
        return NULL;
    do {
        size = size ? 2 * size : 1 << 16; /* at each turn the memory is full */
        larger = (uint8_t *)realloc(bytes, size);
        if (larger == NULL)
            break;
        bytes = larger;
        got += fread(bytes + got, 1, size - got, file);
    } while (got == size);
    *length = got;
    if (larger == NULL || ferror(file)) {
        free(bytes);
        bytes = NULL;
    }
    why = errno; /* of the first that failed */
    fclose(file);
    errno = why;
    return bytes;
}

int main(int count, char **arguments)
{
    struct reader r = {NULL, 0, 1};
    uint8_t *journal;
    uint32_t refused;
    if (count != 3) {
        fprintf(stderr, "usage: reprint JOURNAL WIDTH\n");
        return 2;
    }
    errno = 0;
    journal = contents(arguments[1], &r.left);
    if (journal == NULL) {
        fprintf(stderr, "reprint: %s: %s\n", arguments[1], errno ? strerror(errno) : "cannot be read");
        return 2;
    }
    r.bytes = journal;
    refused = reprint(&r, strtoul(arguments[2], NULL, 10));
    free(journal);
    if (refused)
        fprintf(stderr, "refused %u\n", (unsigned)refused);
    return refused ? 1 : 0;
}
