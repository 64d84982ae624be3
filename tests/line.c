/* The calls of tests/optical-line and bench/ocr, one a line of standard input: the name of the call and the bytes that it is given, in
 * hexadecimal.
 *
 *     code FORM        line CODE        unline LINE        base32 DATA        unbase32 TEXT
 *
 * Prints for each the number and, in hexadecimal, the bytes that the call wrote. Each call is made with more room than it needs, with
 * exactly the room, and with one byte less. Nothing may be written after the text, nor anything by a refused call: where something is,
 * the program says so and ends with exit status 1.
 *
 *     line COUNT WIDTH
 *
 * issues as many receipts of a taximeter, with a turnover counter of so many bytes, and prints their compact forms, one a line. */
#include "ditgrux.h"

#include <stdio.h>
#include <stdlib.h>
#include <string.h>

enum { MOST = 1024, PATTERN = 0xA5, YEAR = 2026 };

typedef uint32_t (*call)(const uint8_t *, size_t, uint8_t *, size_t, size_t *);

static const struct {
    const char *name;
    call of;
} calls[] = {{"code", ditgrux_code},
             {"line", ditgrux_line},
             {"unline", ditgrux_unline},
             {"base32", ditgrux_base32},
             {"unbase32", ditgrux_unbase32}};

static void stop(const char *what, const char *why)
{
    fprintf(stderr, "line: %s: %s\n", what, why);
    exit(1);
}

static int untouched(const uint8_t *output, size_t from)
{
    while (from < MOST)
        if (output[from++] != PATTERN)
            return 0;
    return 1;
}

/* The call with so much room: its number and its length. */
static uint32_t with_room(size_t i, const uint8_t *data, size_t data_length, uint8_t output[MOST], size_t room, size_t *length)
{
    uint32_t number;
    memset(output, PATTERN, MOST);
    *length = MOST;
    number = calls[i].of(data, data_length, output, room, length);
    if (*length > room || (number && *length) || !untouched(output, *length))
        stop(calls[i].name, "writes bytes that are not the text's");
    return number;
}

/* Makes a call and prints what it gives. */
static void make(size_t i, const uint8_t *data, size_t data_length)
{
    uint8_t output[MOST], again[MOST];
    size_t length, same, at;
    const uint32_t number = with_room(i, data, data_length, output, MOST, &length);
    printf("%u ", (unsigned)number);
    for (at = 0; at < length; at++)
        printf("%02x", output[at]);
    printf("\n");
    if (number)
        return;
    if (with_room(i, data, data_length, again, length, &same) || same != length || memcmp(again, output, MOST))
        stop(calls[i].name, "gives something else with exactly the room");
    if (length && with_room(i, data, data_length, again, length - 1, &same) != DITGRUX_OUTPUT_SHORT)
        stop(calls[i].name, "is not refused with one byte less");
}

static size_t bytes_of(const char *hex, uint8_t *bytes)
{
    size_t length = 0;
    unsigned byte;
    for (; *hex; hex += 2) {
        if (length == MOST || sscanf(hex, "%2x", &byte) != 1 || !hex[1])
            stop(hex, "not so many bytes in hexadecimal");
        bytes[length++] = (uint8_t)byte;
    }
    return length;
}

static void make_calls(void)
{
    static char text[2 * MOST + 32];
    static uint8_t data[MOST];
    while (fgets(text, sizeof text, stdin)) {
        char *hex = strchr(text, ' ');
        size_t i = 0;
        if (!hex || text[strlen(text) - 1] != '\n')
            stop(text, "no call");
        text[strlen(text) - 1] = 0;
        *hex++ = 0;
        while (i < sizeof calls / sizeof *calls && strcmp(calls[i].name, text))
            i++;
        if (i == sizeof calls / sizeof *calls)
            stop(text, "no such call");
        make(i, data, bytes_of(hex, data));
    }
}

/* ---- receipts */

static uint8_t journal[1 << 20], state[DITGRUX_STATE];

/* The details of a receipt, by its number: the start receipt, then rides by day and night; each eleventh is a cancellation, each
 * thirteenth is for training. */
static struct ditgrux_details ride(uint32_t number)
{
    struct ditgrux_details d;
    memset(&d, 0, sizeof d);
    d.number = number;
    d.year = YEAR;
    d.month = 1 + number / 28 % 12;
    d.day = 1 + number % 28;
    d.hour = number * 7 % 24;
    d.minute = number * 17 % 60;
    d.second = number * 31 % 60;
    d.kind = number % 11 == 0 ? DITGRUX_CANCELLATION : number % 13 == 0 ? DITGRUX_TRAINING : DITGRUX_STANDARD;
    if (number > 1) {
        d.reduced_1 = 380 + number * 7919 % 9000;
        d.standard = number % 3 == 0 ? number * 104729 % 2000 : 0;
    }
    if (d.kind == DITGRUX_CANCELLATION) {
        d.reduced_1 = -d.reduced_1;
        d.standard = -d.standard;
    }
    return d;
}

/* Issues the receipt and prints its compact form. Two hashes stand in for the signature; each seventeenth has none. */
static uint32_t issue(uint32_t number)
{
    const struct ditgrux_details d = ride(number);
    uint8_t input[DITGRUX_LONGEST_INPUT], signature[DITGRUX_SIGNATURE];
    size_t length, start = ditgrux_journal_length(state, sizeof state) + 2;
    uint32_t refused = ditgrux_prepare_details(state, sizeof state, &d, input, sizeof input, &length);
    if (refused)
        return refused;
    ditgrux_sha256(input, length, signature, DITGRUX_HASH);
    ditgrux_sha256(signature, DITGRUX_HASH, signature + DITGRUX_HASH, DITGRUX_HASH);
    refused = ditgrux_issue_details(state, sizeof state, &d, signature, number % 17 ? sizeof signature : 0, journal, sizeof journal);
    if (!refused)
        printf("%.*s\n", (int)(ditgrux_journal_length(state, sizeof state) - start), (const char *)journal + start);
    return refused;
}

static int issue_all(uint32_t count, size_t width)
{
    static const uint8_t key[DITGRUX_KEY] = "a key of thirty-two plain bytes";
    uint8_t settings[DITGRUX_SETTINGS];
    uint32_t number;
    if (ditgrux_settings((const uint8_t *)"AT1", 3, (const uint8_t *)"TAXI-W4711", 10, (const uint8_t *)"20f2ed172daa09e5", 16, width, key,
                         sizeof key, settings, sizeof settings))
        return 1;
    if (ditgrux_open(settings, sizeof settings, journal, sizeof journal, state, sizeof state))
        return 1;
    for (number = 1; number <= count; number++)
        if (issue(number))
            return 1;
    return 0;
}

int main(int count, char **arguments)
{
    if (count == 3)
        return issue_all((uint32_t)strtoul(arguments[1], NULL, 10), strtoul(arguments[2], NULL, 10));
    make_calls();
    return 0;
}
