/* Makes up the journal of a busy register, to try examples/check_in_parts.c on: 100,000 receipts, with two changes of the certificate
 * between them. It writes two new files and refuses a file that is there.
 *
 *     cc -std=c99 -Iinclude examples/make_journal.c crates/device/out/libdevice.a -o make_journal
 *     ./make_journal BUFFER STATE
 *
 * BUFFER is the buffer of the register's journal: the journal, and zeros up to the end. STATE is the register's state, 447 bytes.
 */
#ifndef _POSIX_C_SOURCE
#define _POSIX_C_SOURCE 200809L /* for open, ftruncate and mmap: before the first header */
#endif
#include "ditgrux.h"

#include <errno.h>
#include <fcntl.h>
#include <stdio.h>
#include <string.h>
#include <sys/mman.h>
#include <unistd.h>

enum {
    WIDTH = 5,
    RECEIPTS = 100000,
    CHANGES = 2,
    SIZE = DITGRUX_LONGEST_HEAD + CHANGES * DITGRUX_LONGEST_CHANGE + RECEIPTS * DITGRUX_LONGEST_ENTRY /* of the buffer */
};

/* ---- the register */

/* Receipt number 1 is the start receipt, then each hundredth one is a cancellation. The signature device has failed. */
static uint32_t issue(uint8_t *state, uint8_t *journal, uint32_t number)
{
    struct ditgrux_details details = {number, 2026, 1 + number % 12, 1 + number % 28, number % 24, number % 60, 0, DITGRUX_STANDARD,
                                      0, 0, 0, 0, 0};
    if (number % 100 == 0) {
        details.kind = DITGRUX_CANCELLATION;
        details.standard = -500;
    } else if (number > 1) {
        details.standard = 500 + number % 700;
        details.reduced_1 = number % 3 * 120;
    }
    return ditgrux_issue_details(state, DITGRUX_STATE, &details, NULL, 0, journal, SIZE);
}

static uint32_t change(uint8_t *state, uint8_t *journal, const char *serial)
{
    return ditgrux_change(state, DITGRUX_STATE, (const uint8_t *)serial, strlen(serial), journal, SIZE);
}

/* Opens the register and issues its receipts; after one third and after two thirds of them its certificate changes. */
static uint32_t fill(const uint8_t *key, uint8_t *state, uint8_t *journal)
{
    uint8_t settings[DITGRUX_SETTINGS];
    uint32_t number, refused = ditgrux_settings((const uint8_t *)"AT0", 3, (const uint8_t *)"TILL-1", 6, (const uint8_t *)"1a2b", 4, WIDTH,
                                                key, DITGRUX_KEY, settings, sizeof settings);
    if (!refused)
        refused = ditgrux_open(settings, sizeof settings, journal, SIZE, state, DITGRUX_STATE);
    for (number = 1; number <= RECEIPTS && !refused; number++) {
        refused = issue(state, journal, number);
        if (!refused && number == RECEIPTS / 3)
            refused = change(state, journal, "3c4d");
        if (!refused && number == RECEIPTS / 3 * 2)
            refused = change(state, journal, "5e6f");
    }
    return refused;
}

/* ---- the files */

static int complain(const char *path)
{
    fprintf(stderr, "make_journal: %s: %s\n", path, strerror(errno));
    return 1;
}

/* A new file, for its owner only; below 0 where one is there. */
static int create(const char *path)
{
    return open(path, O_RDWR | O_CREAT | O_EXCL, 0600);
}

/* Lets a new file be the buffer of the register's journal. (A till stores as docs/EMBEDDING.md says.) Returns 0 where that went well. */
static int make_journal(const char *path, const uint8_t *key, uint8_t *state)
{
    const int file = create(path);
    void *buffer;
    uint32_t refused;
    if (file < 0 || ftruncate(file, SIZE) != 0) /* the file is all zeros */
        return complain(path);
    buffer = mmap(NULL, SIZE, PROT_READ | PROT_WRITE, MAP_SHARED, file, 0);
    if (buffer == MAP_FAILED)
        return complain(path);
    refused = fill(key, state, (uint8_t *)buffer);
    if (munmap(buffer, SIZE) != 0 || close(file) != 0)
        return complain(path);
    if (refused)
        fprintf(stderr, "make_journal: a call was refused with %u\n", (unsigned)refused);
    return refused != DITGRUX_DONE;
}

static int write_state(const char *path, const uint8_t *state)
{
    const int file = create(path);
    if (file < 0 || write(file, state, DITGRUX_STATE) != DITGRUX_STATE || close(file) != 0)
        return complain(path);
    return 0;
}

int main(int count, char **arguments)
{
    uint8_t state[DITGRUX_STATE], key[DITGRUX_KEY];
    size_t i;
    if (count != 3) {
        fprintf(stderr, "usage: make_journal BUFFER STATE          both are new files\n");
        return 2;
    }
    for (i = 0; i < sizeof key; i++) /* made up, as all of it: 00 01 02 .. 1f */
        key[i] = (uint8_t)i;
    if (access(arguments[2], F_OK) == 0) { /* before the buffer is made */
        errno = EEXIST;
        return complain(arguments[2]);
    }
    if (make_journal(arguments[1], key, state) || write_state(arguments[2], state))
        return 1;
    printf("journal of %lu bytes in a buffer of %lu; width %d, key ", (unsigned long)ditgrux_journal_length(state, sizeof state),
           (unsigned long)SIZE, WIDTH);
    for (i = 0; i < sizeof key; i++)
        printf("%02x", key[i]);
    printf("\n");
    return 0;
}
