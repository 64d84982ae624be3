/* Checks a journal of any size in parts, and shows how far it is. It can also find the journal in a register's buffer when the
 * register has lost its state and the length of its journal. It reads its inputs and never writes to them.
 *
 *     cc -std=c99 -Iinclude examples/check_in_parts.c crates/device/out/libdevice.a -o check_in_parts
 *     ./check_in_parts JOURNAL WIDTH KEY
 *     ./check_in_parts --find BUFFER WIDTH KEY STATE
 *
 *     JOURNAL   a file with the journal, and nothing after it
 *     BUFFER    a file with the whole buffer of a register: the journal, then zeros or 0xFF
 *     WIDTH     bytes of the turnover counter, 5 to 8
 *     KEY       the AES-256 key: 64 hexadecimal digits, or a file of 32 bytes. Other users of the machine can see an argument, so
 *               keep a real key in a file
 *     STATE     a new file, to which the state that was found is written, 447 bytes. It holds the key. A file that is there is refused
 *
 * The last line begins with "accepted", "found" or "refused". A refusal has the number and the index that ditgrux_take_over gives;
 * docs/QUESTIONS.md explains them. Exit status: 0 if accepted or found, 1 if refused, 2 if there is no answer, because an argument is
 * wrong or a file cannot be read or written.
 *
 * "accepted" says that spelling, numbers, chain and turnover counters are right. Signatures are not verified.
 *
 * To try it, make up a journal with examples/make_journal.c.
 */
#ifndef _POSIX_C_SOURCE
#define _POSIX_C_SOURCE 200809L /* for open, fstat and mmap: before the first header */
#endif
#include "ditgrux.h"

#include <errno.h>
#include <fcntl.h>
#include <stdio.h>
#include <string.h>
#include <sys/mman.h>
#include <sys/stat.h>
#include <unistd.h>

enum {
    STEPS = 1000, /* in a call */
    REFUSED = 1,  /* exit status */
    NO_ANSWER = 2
};

static int complain(const char *what, const char *why)
{
    fprintf(stderr, "check_in_parts: %s: %s\n", what, why);
    return NO_ANSWER;
}

/* ---- the arguments */

/* What is checked, and under which key and width. */
struct input {
    const uint8_t *bytes;
    size_t length, width;
    uint8_t key[DITGRUX_KEY];
};

/* Maps a file into memory, only to be read. Returns 0 where that went well. */
static int map(const char *path, struct input *input)
{
    static const uint8_t none = 0;
    const int file = open(path, O_RDONLY);
    struct stat about;
    void *bytes;
    if (file < 0 || fstat(file, &about) != 0)
        return complain(path, strerror(errno));
    if (!S_ISREG(about.st_mode))
        return complain(path, "not a regular file");
    input->bytes = &none;
    input->length = (size_t)about.st_size;
    if (input->length == 0) /* cannot be mapped */
        return close(file);
    bytes = mmap(NULL, input->length, PROT_READ, MAP_PRIVATE, file, 0);
    if (bytes == MAP_FAILED || close(file) != 0)
        return complain(path, strerror(errno));
    input->bytes = (const uint8_t *)bytes;
    return 0;
}

/* The value of a hexadecimal digit; -1 if it is none. */
static int digit(char letter)
{
    static const char digits[] = "0123456789abcdef0123456789ABCDEF";
    const char *found = letter ? strchr(digits, letter) : NULL;
    return found ? (int)(found - digits) % 16 : -1;
}

static int hexadecimal(const char *text)
{
    while (digit(*text) >= 0)
        text++;
    return *text == 0;
}

/* Reads the 32 bytes of a key file, and sees that there are no more. The argument may be a mistyped key: do not print it. */
static int read_key(const char *path, uint8_t *key)
{
    FILE *file = fopen(path, "rb");
    int good = file != NULL && fread(key, 1, DITGRUX_KEY, file) == DITGRUX_KEY && fgetc(file) == EOF;
    if (file != NULL)
        fclose(file);
    return good ? 0 : complain("KEY", "neither 64 hexadecimal digits nor a file of exactly 32 bytes");
}

static int take_key(const char *argument, uint8_t *key)
{
    size_t i;
    if (strlen(argument) != 2 * DITGRUX_KEY || !hexadecimal(argument))
        return read_key(argument, key);
    for (i = 0; i < DITGRUX_KEY; i++)
        key[i] = (uint8_t)(digit(argument[2 * i]) * 16 + digit(argument[2 * i + 1]));
    return 0;
}

/* A file, a width and a key. Returns 0 where that went well. */
static int take(char **arguments, struct input *input)
{
    const char *width = arguments[1];
    if (width[0] < '5' || width[0] > '8' || width[1] != 0)
        return complain(width, "the width is 5, 6, 7 or 8");
    input->width = (size_t)(width[0] - '0');
    return take_key(arguments[2], input->key) || map(arguments[0], input) ? NO_ANSWER : 0;
}

/* ---- the check */

/* Prints a line where a tenth of the file more is checked than before. */
static void show_progress(const uint8_t *state, size_t before, size_t length)
{
    const unsigned long long tenths = (unsigned long long)ditgrux_journal_length(state, DITGRUX_STATE) * 10 / length;
    if (tenths > (unsigned long long)before * 10 / length)
        printf("%3u %%: %u receipts, counter %lld cents\n", (unsigned)tenths * 10, (unsigned)ditgrux_receipts(state, DITGRUX_STATE),
               (long long)ditgrux_counter(state, DITGRUX_STATE));
    fflush(stdout);
}

/* Goes on from the state with so many steps a call, up to the first call that is refused or that takes no step: then everything is
 * checked. */
static uint32_t go_on(const struct input *input, size_t steps, uint8_t *state, uint32_t *index)
{
    size_t before;
    uint32_t refused;
    do {
        before = ditgrux_journal_length(state, DITGRUX_STATE);
        refused = ditgrux_check_steps(state, DITGRUX_STATE, input->bytes, input->length, steps, index);
        show_progress(state, before, input->length);
    } while (!refused && before != ditgrux_journal_length(state, DITGRUX_STATE));
    return refused;
}

/* Gives what ditgrux_take_over gives. But where an entry or a pair is refused, the state is that before the call that met it. */
static uint32_t check(const struct input *input, uint8_t *state, uint32_t *index)
{
    const uint32_t refused =
        ditgrux_check_head(input->bytes, input->length, input->key, sizeof input->key, input->width, state, DITGRUX_STATE);
    *index = 0;
    return refused ? refused : go_on(input, STEPS, state, index);
}

static int say_refused(uint32_t refused, uint32_t index)
{
    printf("refused: number %u, index %u\n", (unsigned)refused, (unsigned)index);
    return REFUSED;
}

/* The file is the journal. */
static int check_journal(const struct input *input)
{
    uint8_t state[DITGRUX_STATE];
    uint32_t index;
    const uint32_t refused = check(input, state, &index);
    if (refused)
        return say_refused(refused, index);
    printf("accepted: %u receipts, %u serials, counter %lld cents; signatures are not verified\n",
           (unsigned)ditgrux_receipts(state, sizeof state), (unsigned)ditgrux_serials(state, sizeof state),
           (long long)ditgrux_counter(state, sizeof state));
    return 0;
}

/* ---- a lost state */

static int all(uint8_t value, const uint8_t *bytes, size_t count)
{
    while (count > 0)
        if (bytes[--count] != value)
            return 0;
    return 1;
}

/* Finds the state of the journal in a buffer. It is the state before the first step that is refused: so where a call of many steps is
 * refused, go on from its state step by step. Returns the number of that refusal, or 0 where the journal fills the buffer. */
static uint32_t find(const struct input *buffer, uint8_t *state, uint32_t *index)
{
    const uint32_t refused = check(buffer, state, index);
    return refused == DITGRUX_DONE || refused == DITGRUX_BAD_HEAD ? refused : go_on(buffer, 1, state, index);
}

static int write_state(const char *path, const uint8_t *state)
{
    const int file = open(path, O_WRONLY | O_CREAT | O_EXCL, 0600);
    int whole;
    if (file < 0)
        return complain(path, strerror(errno));
    whole = write(file, state, DITGRUX_STATE) == DITGRUX_STATE;
    if (close(file) != 0 || !whole) {
        unlink(path); /* a part of a state is of no use, and it holds the key */
        return complain(path, "the state could not be written");
    }
    return 0;
}

/* The file is the buffer. Where other bytes than zeros or 0xFF follow the journal, docs/EMBEDDING.md ("A lost state or a lost length")
 * says what to do; this program then finds nothing. */
static int find_journal(const struct input *buffer, const char *state_path)
{
    uint8_t state[DITGRUX_STATE];
    uint32_t index, refused = find(buffer, state, &index);
    const size_t length = ditgrux_journal_length(state, sizeof state), rest = buffer->length - length;
    if (refused == DITGRUX_BYTES_LEFT && (all(0, buffer->bytes + length, rest) || all(0xFF, buffer->bytes + length, rest)))
        refused = DITGRUX_DONE;
    if (refused) {
        printf("the check ends at byte %lu of %lu\n", (unsigned long)length, (unsigned long)buffer->length);
        return say_refused(refused, index);
    }
    if (write_state(state_path, state))
        return NO_ANSWER;
    printf("found: journal of %lu bytes, %u receipts, last number %u: compare it with the highest number on paper and in copies\n",
           (unsigned long)length, (unsigned)ditgrux_receipts(state, sizeof state), (unsigned)ditgrux_last_number(state, sizeof state));
    return 0;
}

int main(int count, char **arguments)
{
    const int finding = count > 1 && strcmp(arguments[1], "--find") == 0;
    struct input input;
    if (count != (finding ? 6 : 4)) {
        fprintf(stderr, "usage: check_in_parts JOURNAL WIDTH KEY\n"
                        "       check_in_parts --find BUFFER WIDTH KEY STATE\n"
                        "KEY: 64 hexadecimal digits or a file of 32 bytes; STATE: a new file\n");
        return NO_ANSWER;
    }
    if (take(arguments + (finding ? 2 : 1), &input))
        return NO_ANSWER;
    return finding ? find_journal(&input, arguments[5]) : check_journal(&input);
}
