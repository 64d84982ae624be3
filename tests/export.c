/* The calls of tests/inspector, one a line of standard input: a word and what the call is given, with single blanks between them. Bytes
 * stand in hexadecimal, "-" for none. The first five commands are those of one register, which the program keeps.
 *
 *     open WIDTH KEY CSP ID SERIAL                       prints  NUMBER
 *     change SERIAL                                              NUMBER
 *     prepare NUMBER KIND CENTS CENTS CENTS CENTS CENTS          NUMBER TEXT
 *     issue SIGNATURE NUMBER KIND CENTS .. CENTS                 NUMBER
 *     journal                                                    JOURNAL STATE
 *     take WIDTH KEY JOURNAL                                     NUMBER INDEX STATE
 *     write WIDTH KEY JOURNAL CERTIFICATES                       NUMBER INDEX TEXT
 *     read WIDTH KEY TEXT                                        NUMBER INDEX ROOM JOURNAL STATE
 *
 * ROOM is the size of the smallest output with which ditgrux_read_export does not return 23.
 *
 * An export is written and read in outputs of several sizes: more than enough, exactly enough, one byte less, none. Beside each output
 * and each state lie other bytes. Nothing may be written after the length, nor anything by a refused call but the 447 zeros of the
 * header: where something is, the program says so and ends with exit status 1. */
#include "ditgrux.h"

#include <inttypes.h>
#include <stdio.h>
#include <stdlib.h>
#include <string.h>

enum { PATTERN = 0xA5, BESIDE = 8, MOST_WORDS = 16, YEAR = 2026 };

struct bytes {
    uint8_t *at;
    size_t length;
};

struct answer {
    uint32_t number, index;
    size_t length;
};

static void stop(const char *what, const char *why)
{
    fprintf(stderr, "export: %s: %s\n", what, why);
    exit(1);
}

static void *memory(size_t size)
{
    void *found = malloc(size);
    if (!found)
        stop("memory", "there is none left");
    return found;
}

static int is_all(uint8_t byte, const uint8_t *bytes, size_t length)
{
    while (length > 0)
        if (bytes[--length] != byte)
            return 0;
    return 1;
}

/* ---- what a line gives, and what is printed */

static int digit(char letter)
{
    static const char digits[] = "0123456789abcdef";
    const char *found = letter ? strchr(digits, letter) : NULL;
    if (!found)
        stop("a line", "not bytes in hexadecimal");
    return (int)(found - digits);
}

static struct bytes bytes_of(const char *hex)
{
    struct bytes given = {NULL, 0};
    if (strcmp(hex, "-") == 0)
        hex = "";
    given.at = (uint8_t *)memory(strlen(hex) / 2 + 1);
    for (; *hex; hex += 2)
        given.at[given.length++] = (uint8_t)(digit(hex[0]) << 4 | digit(hex[1]));
    return given;
}

static size_t size_of(const char *word)
{
    return (size_t)strtoull(word, NULL, 10);
}

static void print_bytes(const uint8_t *bytes, size_t length)
{
    size_t at;
    printf(length ? " " : " -");
    for (at = 0; at < length; at++)
        printf("%02x", bytes[at]);
}

/* ---- an output of this size, and a state, each between other bytes */

static struct bytes room_of(size_t size)
{
    struct bytes room = {(uint8_t *)memory(size + 2 * BESIDE), size};
    memset(room.at, PATTERN, size + 2 * BESIDE);
    return room;
}

static uint8_t *inside(struct bytes room)
{
    return room.at + BESIDE;
}

static void untouched(const char *what, struct bytes room, size_t length)
{
    if (length > room.length)
        stop(what, "more is written than there is room");
    if (!is_all(PATTERN, room.at, BESIDE) || !is_all(PATTERN, inside(room) + length, room.length + BESIDE - length))
        stop(what, "writes bytes that are not the output's");
}

/* ---- the calls */

static struct answer write_in(struct bytes room, const char *width, struct bytes key, struct bytes journal, struct bytes groups)
{
    struct answer a = {0, UINT32_MAX, SIZE_MAX};
    a.number = ditgrux_export(journal.at, journal.length, key.at, key.length, size_of(width), groups.at, groups.length, inside(room),
                              room.length, &a.length, &a.index);
    untouched("ditgrux_export", room, a.length);
    if (a.number && a.length)
        stop("ditgrux_export", "is refused and has a length");
    if (a.index && (a.number == 0 || a.number == DITGRUX_OUTPUT_SHORT || a.number == DITGRUX_BAD_EXPORT))
        stop("ditgrux_export", "has an index with 0, 23 or 28");
    return a;
}

/* The text is the same in exactly its room, and refused with 23 in one byte less and in none. A refusal does not look at the room. */
static void write_again(const struct answer *first, struct bytes text, const char *width, struct bytes key, struct bytes journal,
                        struct bytes groups)
{
    const size_t sizes[] = {first->length, first->length - 1, 0};
    size_t i;
    for (i = 0; i < 3; i++) {
        const struct bytes room = room_of(first->number ? i : sizes[i]);
        const struct answer a = write_in(room, width, key, journal, groups);
        const uint32_t expected = first->number || i == 0 ? first->number : (uint32_t)DITGRUX_OUTPUT_SHORT;
        if (a.number != expected || a.index != first->index || (!a.number && memcmp(inside(room), inside(text), a.length)))
            stop("ditgrux_export", "answers otherwise with another room");
        free(room.at);
    }
}

static void write_export(char **words)
{
    const struct bytes key = bytes_of(words[2]), journal = bytes_of(words[3]), groups = bytes_of(words[4]);
    const struct bytes text = room_of(2 * journal.length + 3 * groups.length + 1024);
    const struct answer a = write_in(text, words[1], key, journal, groups);
    write_again(&a, text, words[1], key, journal, groups);
    printf("%" PRIu32 " %" PRIu32, a.number, a.index);
    print_bytes(inside(text), a.length);
    free(text.at);
    free(groups.at);
    free(journal.at);
    free(key.at);
}

static struct answer read_in(struct bytes room, struct bytes state, const char *width, struct bytes key, struct bytes text)
{
    struct answer a = {0, UINT32_MAX, SIZE_MAX};
    memset(inside(state), PATTERN, state.length);
    a.number = ditgrux_read_export(text.at, text.length, key.at, key.length, size_of(width), inside(room), room.length, inside(state),
                                   state.length, &a.length, &a.index);
    untouched("ditgrux_read_export", room, a.length);
    untouched("ditgrux_read_export, state", state, state.length == DITGRUX_STATE ? DITGRUX_STATE : 0);
    if (a.number && (a.length || (state.length == DITGRUX_STATE && !is_all(0, inside(state), state.length))))
        stop("ditgrux_read_export", "is refused and leaves a length or a state");
    if (a.index && (a.number == 0 || (a.number >= DITGRUX_OUTPUT_SHORT && a.number <= DITGRUX_NO_RECEIPTS)))
        stop("ditgrux_read_export", "has an index with 0, 23, 28 or 29");
    return a;
}

/* The smallest room that is not refused with 23. */
static size_t least_room(size_t most, struct bytes state, const char *width, struct bytes key, struct bytes text)
{
    size_t low = 0, high = most;
    while (low < high) {
        const size_t middle = low + (high - low) / 2;
        const struct bytes room = room_of(middle);
        if (read_in(room, state, width, key, text).number == DITGRUX_OUTPUT_SHORT)
            low = middle + 1;
        else
            high = middle;
        free(room.at);
    }
    return high;
}

/* The answer is the same in the least room and in one byte more; in one byte less and in none it is 23. A state of another length: 6. */
static void read_again(const struct answer *first, size_t least, struct bytes journal, const char *width, struct bytes key,
                       struct bytes text)
{
    const size_t sizes[] = {least, least + 1, least ? least - 1 : 0, 0};
    const struct bytes state = room_of(DITGRUX_STATE), shorter = room_of(DITGRUX_STATE - 1), longer = room_of(DITGRUX_STATE + 1);
    size_t i;
    for (i = 0; i < 4; i++) {
        const struct bytes room = room_of(sizes[i]);
        const struct answer a = read_in(room, state, width, key, text);
        const int is_short = sizes[i] < least;
        if (a.number != (is_short ? (uint32_t)DITGRUX_OUTPUT_SHORT : first->number) || a.index != (is_short ? 0 : first->index) ||
            (!a.number && memcmp(inside(room), inside(journal), a.length)))
            stop("ditgrux_read_export", "answers otherwise with another room");
        memset(inside(room), PATTERN, room.length);
        if (read_in(room, shorter, width, key, text).number != DITGRUX_BAD_STATE ||
            read_in(room, longer, width, key, text).number != DITGRUX_BAD_STATE)
            stop("ditgrux_read_export", "takes a state of another length");
        free(room.at);
    }
    free(longer.at);
    free(shorter.at);
    free(state.at);
}

/* The header: text_length bytes are always enough. */
static void read_export(char **words)
{
    const struct bytes key = bytes_of(words[2]), text = bytes_of(words[3]);
    const struct bytes journal = room_of(text.length), state = room_of(DITGRUX_STATE), other = room_of(DITGRUX_STATE);
    const struct answer a = read_in(journal, state, words[1], key, text);
    const size_t least = least_room(text.length, other, words[1], key, text);
    if (a.number == DITGRUX_OUTPUT_SHORT)
        stop("ditgrux_read_export", "needs more room than the text has bytes");
    if (!a.number && a.length != least)
        stop("ditgrux_read_export", "needs another room than the journal's length");
    read_again(&a, least, journal, words[1], key, text);
    printf("%" PRIu32 " %" PRIu32 " %lu", a.number, a.index, (unsigned long)least);
    print_bytes(inside(journal), a.length);
    print_bytes(inside(state), a.number ? 0 : DITGRUX_STATE);
    free(other.at);
    free(state.at);
    free(journal.at);
    free(text.at);
    free(key.at);
}

static void take_over(char **words)
{
    const struct bytes key = bytes_of(words[2]), journal = bytes_of(words[3]);
    uint8_t state[DITGRUX_STATE];
    uint32_t index;
    const uint32_t number = ditgrux_take_over(journal.at, journal.length, key.at, key.length, size_of(words[1]), state, sizeof state, &index);
    printf("%" PRIu32 " %" PRIu32, number, index);
    print_bytes(state, number ? 0 : sizeof state);
    free(journal.at);
    free(key.at);
}

/* ---- a register */

static uint8_t kept_journal[1 << 20], kept_state[DITGRUX_STATE];

static void open_register(char **words)
{
    const struct bytes key = bytes_of(words[2]);
    uint8_t settings[DITGRUX_SETTINGS];
    uint32_t number = ditgrux_settings((const uint8_t *)words[3], strlen(words[3]), (const uint8_t *)words[4], strlen(words[4]),
                                       (const uint8_t *)words[5], strlen(words[5]), size_of(words[1]), key.at, key.length, settings,
                                       sizeof settings);
    if (!number)
        number = ditgrux_open(settings, sizeof settings, kept_journal, sizeof kept_journal, kept_state, sizeof kept_state);
    printf("%" PRIu32, number);
    free(key.at);
}

static void change(char **words)
{
    printf("%" PRIu32, ditgrux_change(kept_state, sizeof kept_state, (const uint8_t *)words[1], strlen(words[1]), kept_journal,
                                      sizeof kept_journal));
}

/* Number, kind and five amounts; the time follows from the number. */
static struct ditgrux_details details_of(char **words)
{
    struct ditgrux_details d;
    memset(&d, 0, sizeof d);
    d.number = (uint32_t)size_of(words[0]);
    d.year = YEAR;
    d.month = 11;
    d.day = 1 + d.number % 28;
    d.hour = d.number % 24;
    d.kind = (uint32_t)size_of(words[1]);
    d.standard = strtoll(words[2], NULL, 10);
    d.reduced_1 = strtoll(words[3], NULL, 10);
    d.reduced_2 = strtoll(words[4], NULL, 10);
    d.zero = strtoll(words[5], NULL, 10);
    d.special = strtoll(words[6], NULL, 10);
    return d;
}

static void prepare(char **words)
{
    const struct ditgrux_details d = details_of(words + 1);
    uint8_t text[DITGRUX_LONGEST_INPUT];
    size_t length;
    printf("%" PRIu32, ditgrux_prepare_details(kept_state, sizeof kept_state, &d, text, sizeof text, &length));
    print_bytes(text, length);
}

static void issue(char **words)
{
    const struct ditgrux_details d = details_of(words + 2);
    const struct bytes signature = bytes_of(words[1]);
    printf("%" PRIu32, ditgrux_issue_details(kept_state, sizeof kept_state, &d, signature.at, signature.length, kept_journal,
                                             sizeof kept_journal));
    free(signature.at);
}

static void print_journal(char **words)
{
    (void)words;
    printf("journal");
    print_bytes(kept_journal, ditgrux_journal_length(kept_state, sizeof kept_state));
    print_bytes(kept_state, sizeof kept_state);
}

/* ---- the lines */

static const struct {
    const char *name;
    int words;
    void (*of)(char **);
} commands[] = {{"open", 6, open_register}, {"change", 2, change},   {"prepare", 8, prepare},    {"issue", 9, issue},
                {"journal", 1, print_journal}, {"take", 4, take_over}, {"write", 5, write_export}, {"read", 4, read_export}};

/* A line of standard input without its end, however long; NULL after the last. */
static char *next_line(void)
{
    static char *line;
    static size_t size;
    size_t length = 0;
    int letter;
    while ((letter = getchar()) != EOF) {
        if (length == size && !(line = (char *)realloc(line, size = 2 * size + 4096)))
            stop("a line", "too long");
        line[length++] = (char)letter;
        if (letter == '\n') {
            line[length - 1] = 0;
            return line;
        }
    }
    return NULL;
}

static void make(char *line)
{
    char *words[MOST_WORDS];
    int count = 0;
    size_t i;
    for (words[0] = strtok(line, " "); words[count] && count + 1 < MOST_WORDS; words[count] = strtok(NULL, " "))
        count++;
    for (i = 0; i < sizeof commands / sizeof *commands; i++)
        if (count > 0 && strcmp(commands[i].name, words[0]) == 0 && commands[i].words == count) {
            commands[i].of(words);
            printf("\n");
            fflush(stdout);
            return;
        }
    stop("a line", "no such command");
}

int main(void)
{
    char *line;
    while ((line = next_line()) != NULL)
        make(line);
    return 0;
}
