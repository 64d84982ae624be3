/* What include/ditgrux.h says besides the contracts: the wrappers pass every detail to its place and back, an empty signature may be
 * NULL, the walk of the entries ends at the length of the journal, what is left after a refusal, what to do when the buffer is full,
 * where power fails, what every byte of state and journal is after a change of the certificate, what a damaged state says of its serials,
 * what becomes of a state of version 1,
 * which registers a shared key may have, what the optical line is of a code, what a list of receipts leaves, issued and refused, that
 * a journal that is checked in parts comes through the register's own states, up to where it is refused, and in which order an export
 * and its reader ask, what they leave, and how much room they need. Prints each line that fails; exit status 1 where one does. Compiles
 * as C99 and as C++11. */
#include "ditgrux.h"

#include <stdio.h>
#include <string.h>

static int failures;

#define CHECK(condition) ((condition) ? (void)0 : (void)(failures++, printf("header: line %d: %s\n", __LINE__, #condition)))

static const uint8_t key[DITGRUX_KEY] = "a key of thirty-two plain bytes";
static const uint8_t signature[DITGRUX_SIGNATURE] = "no signature of any device, only sixty-four bytes to be spelled";
static uint8_t settings[DITGRUX_SETTINGS], journal[4096], twin[4096], state[DITGRUX_STATE], other[DITGRUX_STATE];

static uint32_t make_settings(size_t key_length, size_t settings_length, uint8_t *out)
{
    return ditgrux_settings((const uint8_t *)"AT0", 3, (const uint8_t *)"TILL-1", 6, (const uint8_t *)"1a2b", 4, 8, key, key_length, out,
                            settings_length);
}

static struct ditgrux_details details_of(uint32_t number, uint32_t kind, int64_t factor)
{
    struct ditgrux_details d;
    d.number = number;
    d.year = 2031;
    d.month = 2;
    d.day = 3;
    d.hour = 4;
    d.minute = 5;
    d.second = 6;
    d.kind = kind;
    d.standard = 7 * factor;
    d.reduced_1 = 8 * factor;
    d.reduced_2 = 9 * factor;
    d.zero = 10 * factor;
    d.special = 11 * factor;
    return d;
}

/* The number and, below, the loop of the header. */
static size_t number_at(const uint8_t *bytes, int count)
{
    size_t number = 0;
    while (count-- > 0)
        number = number << 8 | *bytes++;
    return number;
}

/* The line of a code gives the code back. */
static int comes_back(const uint8_t *code, size_t length)
{
    uint8_t line[DITGRUX_LONGEST_LINE], again[DITGRUX_LONGEST_CODE];
    size_t line_length, back;
    return ditgrux_line(code, length, line, sizeof line, &line_length) == DITGRUX_DONE &&
           ditgrux_unline(line, line_length, again, sizeof again, &back) == DITGRUX_DONE && back == length &&
           memcmp(again, code, length) == 0;
}

static size_t walk(const uint8_t *bytes, size_t bytes_length, size_t *forms)
{
    uint8_t code[DITGRUX_LONGEST_CODE];
    size_t at = 0, receipts, entry, section, length, written;
    *forms = 0;
    for (section = 0; section < 2; section++)
        at += 4 + number_at(bytes + at, 4);
    while (at < bytes_length) {
        at += 4 + number_at(bytes + at, 4);
        receipts = number_at(bytes + at, 4);
        at += 4;
        for (entry = 0; entry < receipts; entry++) {
            length = number_at(bytes + at, 2);
            *forms += ditgrux_code(bytes + at + 2, length, code, sizeof code, &written) == DITGRUX_DONE && comes_back(code, written);
            at += 2 + length;
        }
    }
    return at;
}

static int is_all(uint8_t byte, const uint8_t *bytes, size_t length)
{
    while (length > 0)
        if (bytes[--length] != byte)
            return 0;
    return 1;
}

/* Details by name and details by place: the same text, the same journal, the same state. */
static void wrappers(void)
{
    static const char expected[] = "_R1-AT0_TILL-1_2_2031-02-03T04:05:06_0,07_0,08_0,09_0,10_0,11_";
    const struct ditgrux_details start = details_of(1, DITGRUX_STANDARD, 0), sale = details_of(2, DITGRUX_STANDARD, 1),
                                 back = details_of(3, DITGRUX_CANCELLATION, -1), training = details_of(4, DITGRUX_TRAINING, 1);
    uint8_t text[DITGRUX_LONGEST_INPUT], same[DITGRUX_LONGEST_INPUT], code[DITGRUX_LONGEST_CODE];
    size_t length, again, at, forms;

    CHECK(ditgrux_issue_details(state, sizeof state, &start, signature, sizeof signature, journal, sizeof journal) == DITGRUX_DONE);
    memcpy(other, state, sizeof state);
    memcpy(twin, journal, sizeof journal);

    CHECK(ditgrux_prepare_details(state, sizeof state, &sale, text, sizeof text, &length) == DITGRUX_DONE);
    CHECK(ditgrux_prepare(state, sizeof state, 2, 2031, 2, 3, 4, 5, 6, 7, 8, 9, 10, 11, DITGRUX_STANDARD, same, sizeof same, &again) == 0);
    CHECK(length == again && memcmp(text, same, length) == 0);

    at = ditgrux_journal_length(state, sizeof state) + 2;
    CHECK(ditgrux_issue_details(state, sizeof state, &sale, signature, sizeof signature, journal, sizeof journal) == DITGRUX_DONE);
    CHECK(ditgrux_issue(other, sizeof other, 2, 2031, 2, 3, 4, 5, 6, 7, 8, 9, 10, 11, DITGRUX_STANDARD, signature, sizeof signature, twin,
                        sizeof twin) == DITGRUX_DONE);
    CHECK(memcmp(journal, twin, sizeof journal) == 0 && memcmp(state, other, sizeof state) == 0);
    CHECK(memcmp(journal + at, text, length) == 0 && journal[at + length] == '.');
    CHECK(ditgrux_code(journal + at, ditgrux_journal_length(state, sizeof state) - at, code, sizeof code, &length) == DITGRUX_DONE);
    CHECK(memcmp(code, expected, sizeof expected - 1) == 0);
    CHECK(ditgrux_counter(state, sizeof state) == 45);

    /* a failed device: NULL and length 0, as any pointer and length 0 */
    CHECK(ditgrux_issue_details(state, sizeof state, &back, NULL, 0, journal, sizeof journal) == DITGRUX_DONE);
    CHECK(ditgrux_issue_details(other, sizeof other, &back, signature, 0, twin, sizeof twin) == DITGRUX_DONE);
    CHECK(memcmp(journal, twin, sizeof journal) == 0 && memcmp(state, other, sizeof state) == 0);
    CHECK(ditgrux_counter(state, sizeof state) == 0);
    CHECK(ditgrux_issue_details(state, sizeof state, &training, signature, sizeof signature, journal, sizeof journal) == DITGRUX_DONE);
    CHECK(ditgrux_counter(state, sizeof state) == 0);

    length = ditgrux_journal_length(state, sizeof state);
    CHECK(walk(journal, length, &forms) == length && forms == 4);
}

static int same_details(const struct ditgrux_details *a, const struct ditgrux_details *b)
{
    return a->number == b->number && a->year == b->year && a->month == b->month && a->day == b->day && a->hour == b->hour &&
           a->minute == b->minute && a->second == b->second && a->kind == b->kind && a->standard == b->standard &&
           a->reduced_1 == b->reduced_1 && a->reduced_2 == b->reduced_2 && a->zero == b->zero && a->special == b->special;
}

/* Issues these details, and reads them back from the journal by name, under these settings. */
static void reads_back(const uint8_t *under, const struct ditgrux_details *details, size_t signed_bytes)
{
    struct ditgrux_details found = details_of(0, 9, 1);
    uint8_t given[DITGRUX_SIGNATURE];
    size_t at = ditgrux_journal_length(state, sizeof state) + 2, length;
    memset(given, 0xA5, sizeof given);
    CHECK(ditgrux_issue_details(state, sizeof state, details, signature, signed_bytes, journal, sizeof journal) == DITGRUX_DONE);
    CHECK(ditgrux_read_details(under, DITGRUX_SETTINGS, journal + at, ditgrux_journal_length(state, sizeof state) - at, &found, given,
                               &length) == DITGRUX_DONE);
    CHECK(same_details(&found, details) && length == signed_bytes);
    CHECK(signed_bytes ? memcmp(given, signature, sizeof given) == 0 : is_all(0xA5, given, sizeof given));
}

/* Each kind, with the largest and the smallest amounts, signed and not; and what a refusal leaves. The register is one of its own. */
static void reading(void)
{
    static const int64_t most = 99999999999;
    struct ditgrux_details details = details_of(1, DITGRUX_STANDARD, 0), kept = details;
    uint8_t bytes[DITGRUX_DETAILS + 1], given[DITGRUX_SIGNATURE + 1], other_settings[DITGRUX_SETTINGS],
        under[DITGRUX_SETTINGS];
    size_t at, length, wrote;

    CHECK(ditgrux_version() == DITGRUX_VERSION);
    CHECK(ditgrux_open(settings, sizeof settings, journal, sizeof journal, state, sizeof state) == DITGRUX_DONE);
    reads_back(settings, &details, sizeof signature);
    details = details_of(4000000000u, DITGRUX_CANCELLATION, -1);
    details.standard = -most;
    details.special = most;
    CHECK(ditgrux_settings_in(state, sizeof state, 0, under, sizeof under) == DITGRUX_DONE);
    reads_back(under, &details, 0);
    at = ditgrux_journal_length(state, sizeof state) + 2;
    details = details_of(4294967295u, DITGRUX_TRAINING, 1000);
    reads_back(under, &details, sizeof signature);
    length = ditgrux_journal_length(state, sizeof state) - at;

    /* the layout: number at 0, kind at 28, the first amount at 32 */
    memset(bytes, 0xA5, sizeof bytes);
    CHECK(ditgrux_read(under, DITGRUX_SETTINGS, journal + at, length, bytes, DITGRUX_DETAILS, given, DITGRUX_SIGNATURE, &wrote) == 0);
    CHECK(is_all(0xFF, bytes, 4) && number_at(bytes + 28, 4) == DITGRUX_TRAINING && number_at(bytes + 32, 8) == 7000 && wrote == 64);
    CHECK(bytes[DITGRUX_DETAILS] == 0xA5);

    /* refused: nothing is changed */
    memset(bytes, 0xA5, sizeof bytes);
    memset(given, 0xA5, sizeof given);
    CHECK(ditgrux_read(state, DITGRUX_STATE, journal + at, length, bytes, 72, given, 64, &wrote) == DITGRUX_BAD_CSP && wrote == 0);
    CHECK(ditgrux_read(state, DITGRUX_SETTINGS, journal + at, length, bytes, 72, given, 64, &wrote) == DITGRUX_BAD_WIDTH && wrote == 0);
    CHECK(ditgrux_read(under, DITGRUX_SETTINGS, journal + at - 2, length + 2, bytes, 72, given, 64, &wrote) == DITGRUX_ENTRY_MISSPELLED);
    CHECK(ditgrux_read(under, DITGRUX_SETTINGS, journal + at, length, bytes, 73, given, 64, &wrote) == DITGRUX_OUTPUT_SHORT && wrote == 0);
    CHECK(ditgrux_read(under, DITGRUX_SETTINGS, journal + at, length, bytes, 72, given, 65, &wrote) == DITGRUX_OUTPUT_SHORT && wrote == 0);
    CHECK(is_all(0xA5, bytes, sizeof bytes) && is_all(0xA5, given, sizeof given));
    CHECK(ditgrux_settings((const uint8_t *)"AT0", 3, (const uint8_t *)"TILL-2", 6, (const uint8_t *)"1a2b", 4, 8, key, sizeof key,
                           other_settings, sizeof other_settings) == DITGRUX_DONE);
    details = kept;
    CHECK(ditgrux_read_details(other_settings, sizeof other_settings, journal + at, length, &details, given, &wrote) ==
          DITGRUX_ENTRY_MISSPELLED);
    CHECK(same_details(&details, &kept) && is_all(0xA5, given, sizeof given) && wrote == 0);
}

/* A cancellation with positive amounts is not refused and raises the counter. */
static void positive_cancellation(void)
{
    const struct ditgrux_details wrong = details_of(5, DITGRUX_CANCELLATION, 1);
    CHECK(ditgrux_issue_details(state, sizeof state, &wrong, signature, sizeof signature, journal, sizeof journal) == DITGRUX_DONE);
    CHECK(ditgrux_counter(state, sizeof state) == 45);
}

/* The buffer is full: nothing changes, and the same call passes with a longer buffer. Prepare does not see it. */
static void full(void)
{
    const struct ditgrux_details sale = details_of(6, DITGRUX_STANDARD, 1);
    uint8_t text[DITGRUX_LONGEST_INPUT];
    size_t length, used = ditgrux_journal_length(state, sizeof state);
    memcpy(other, state, sizeof state);
    memcpy(twin, journal, sizeof journal);
    CHECK(ditgrux_prepare_details(state, sizeof state, &sale, text, sizeof text, &length) == DITGRUX_DONE);
    CHECK(ditgrux_issue_details(state, sizeof state, &sale, signature, sizeof signature, journal, used + 100) == DITGRUX_NO_ROOM);
    CHECK(ditgrux_issue_details(state, sizeof state, &sale, signature, sizeof signature, journal, used - 1) == DITGRUX_BAD_STATE);
    CHECK(memcmp(journal, twin, sizeof journal) == 0 && memcmp(state, other, sizeof state) == 0);
    CHECK(ditgrux_issue_details(state, sizeof state, &sale, signature, sizeof signature, journal, used + DITGRUX_LONGEST_ENTRY) == 0);
    CHECK(memcmp(journal + used + 2, text, length) == 0);
}

/* The state comes back from exactly the bytes of the journal, and what a refusal leaves. */
static void refusals(void)
{
    const struct ditgrux_details sale = details_of(7, DITGRUX_STANDARD, 1);
    struct ditgrux_details unknown = sale;
    uint8_t text[DITGRUX_LONGEST_INPUT], bytes[DITGRUX_STATE], out[DITGRUX_SETTINGS + 1];
    size_t length = ditgrux_journal_length(state, sizeof state), wrote;
    uint32_t index;

    CHECK(ditgrux_take_over(journal, length, key, sizeof key, 8, other, sizeof other, &index) == DITGRUX_DONE && index == 0);
    CHECK(memcmp(other, state, sizeof state) == 0);
    CHECK(ditgrux_take_over(journal, sizeof journal, key, sizeof key, 8, other, sizeof other, &index) == DITGRUX_BYTES_LEFT);
    CHECK(index == ditgrux_receipts(state, sizeof state) && is_all(0, other, sizeof other));
    CHECK(ditgrux_take_over(journal, length, signature, sizeof key, 8, other, sizeof other, &index) == DITGRUX_ENTRY_COUNTER && index == 0);
    CHECK(ditgrux_take_over(journal, length, key, sizeof key, 7, other, sizeof other, &index) == DITGRUX_ENTRY_MISSPELLED && index == 0);
    memset(bytes, 0xA5, sizeof bytes);
    CHECK(ditgrux_take_over(journal, length, key, sizeof key - 1, 8, bytes, sizeof bytes, &index) == DITGRUX_BAD_WIDTH && index == 0);
    CHECK(is_all(0, bytes, sizeof bytes));
    memset(bytes, 0xA5, sizeof bytes);
    CHECK(ditgrux_take_over(journal, length, key, sizeof key, 8, bytes, sizeof bytes - 1, &index) == DITGRUX_BAD_STATE && index == 0);
    CHECK(is_all(0xA5, bytes, sizeof bytes));

    CHECK(ditgrux_open(settings, sizeof settings, twin, 28, bytes, sizeof bytes) == DITGRUX_HEAD_TOO_LONG);
    CHECK(is_all(0, bytes, sizeof bytes));
    CHECK(ditgrux_open(settings, sizeof settings - 1, twin, sizeof twin, bytes, sizeof bytes) == DITGRUX_BAD_CSP);
    memset(bytes, 0xA5, sizeof bytes);
    CHECK(ditgrux_open(settings, sizeof settings, twin, sizeof twin, bytes, sizeof bytes - 1) == DITGRUX_BAD_STATE);
    CHECK(is_all(0xA5, bytes, sizeof bytes));
    CHECK(ditgrux_issue_details(bytes, sizeof bytes, &sale, NULL, 0, journal, sizeof journal) == DITGRUX_BAD_STATE);
    CHECK(is_all(0xA5, bytes, sizeof bytes));

    unknown.kind = 3;
    CHECK(ditgrux_prepare_details(state, sizeof state, &unknown, text, sizeof text, &wrote) == DITGRUX_NUMBER_NOT_ABOVE && wrote == 0);
    CHECK(ditgrux_prepare_details(state, sizeof state, &sale, text, 10, &wrote) == DITGRUX_NO_ROOM && wrote == 0);
    CHECK(make_settings(sizeof key - 1, sizeof settings, out) == DITGRUX_BAD_WIDTH);
    CHECK(make_settings(sizeof key, sizeof settings + 1, out) == DITGRUX_OUTPUT_SHORT);
    CHECK(make_settings(sizeof key, sizeof settings - 1, out) == DITGRUX_OUTPUT_SHORT);
}

/* Where power fails between the journal and the state: what take over says of each half, and what an old state does. */
static void power_cut(void)
{
    const struct ditgrux_details sale = details_of(8, DITGRUX_STANDARD, 1), late = details_of(9, DITGRUX_STANDARD, 2);
    uint8_t old[DITGRUX_STATE];
    const size_t length = ditgrux_journal_length(state, sizeof state), count = 15 + 6 + 4;
    size_t forms;
    uint32_t index;

    memcpy(old, state, sizeof state);
    CHECK(ditgrux_issue_details(state, sizeof state, &sale, signature, sizeof signature, journal, sizeof journal) == DITGRUX_DONE);
    /* the entry is stored, the count is not: the old journal */
    memcpy(twin, journal, sizeof journal);
    twin[count + 3]--;
    CHECK(ditgrux_take_over(twin, length, key, sizeof key, 8, other, sizeof other, &index) == DITGRUX_DONE);
    CHECK(memcmp(other, old, sizeof old) == 0);
    /* the entry and the count are stored, the length is not: 15, and the walk finds the length */
    CHECK(ditgrux_take_over(journal, length, key, sizeof key, 8, other, sizeof other, &index) == DITGRUX_ENTRY_CUT);
    CHECK(index == ditgrux_receipts(old, sizeof old));
    CHECK(walk(journal, length, &forms) == ditgrux_journal_length(state, sizeof state));
    /* all but the state are stored: the new state */
    CHECK(ditgrux_take_over(journal, ditgrux_journal_length(state, sizeof state), key, sizeof key, 8, other, sizeof other, &index) == 0);
    CHECK(memcmp(other, state, sizeof state) == 0);
    /* an old state is sound, and writes over the last receipt */
    memcpy(twin, journal, sizeof journal);
    CHECK(ditgrux_issue_details(old, sizeof old, &late, signature, sizeof signature, twin, sizeof twin) == DITGRUX_DONE);
    CHECK(ditgrux_receipts(old, sizeof old) == ditgrux_receipts(state, sizeof state));
    CHECK(memcmp(twin + length, journal + length, DITGRUX_LONGEST_INPUT) != 0);
}

/* ---- the optical line */

typedef uint32_t (*writer)(const uint8_t *, size_t, uint8_t *, size_t, size_t *);

/* The number of a refused call; 0 where it has changed something. */
static uint32_t refused(writer call, const void *text, size_t length, size_t room)
{
    uint8_t out[512];
    size_t wrote = 1;
    uint32_t number;
    memset(out, 0xA5, sizeof out);
    number = call((const uint8_t *)text, length, out, room, &wrote);
    return wrote == 0 && is_all(0xA5, out, sizeof out) ? number : 0;
}

/* With so much room the call gives what is expected, and writes nothing after it. */
static int gives_in(size_t room, writer call, const void *text, size_t length, const void *expected, size_t expected_length)
{
    uint8_t out[512];
    size_t wrote = 0;
    memset(out, 0xA5, sizeof out);
    return call((const uint8_t *)text, length, out, room, &wrote) == DITGRUX_DONE && wrote == expected_length &&
           memcmp(out, expected, wrote) == 0 && is_all(0xA5, out + wrote, sizeof out - wrote);
}

/* With more room and with exactly the room the call gives what is expected; with one byte less it is refused. */
static int gives(writer call, const void *text, size_t length, const void *expected, size_t expected_length)
{
    return gives_in(512, call, text, length, expected, expected_length) &&
           gives_in(expected_length, call, text, length, expected, expected_length) &&
           (expected_length == 0 || refused(call, text, length, expected_length - 1) == DITGRUX_OUTPUT_SHORT);
}

#define FRONT "_R1-AT0_K-1_2_2026-11-15T08:00:00_-1,00_0,00_0,00_0,00_0,00_"
#define FAILED_64 "U2ljaGVyaGVpdHNlaW5yaWNodHVuZyBhdXNnZWZhbGxlbg=="
#define FAILED_32 "KNUWG2DFOJUGK2LUONSWS3TSNFRWQ5DVNZTSAYLVONTWKZTBNRWGK3Q="
#define CODE FRONT "U1RP_2a_hArhdCTSjbM=_" FAILED_64
#define LINE FRONT "KNKE6===_2a_QQFOC5BE2KG3G===_" FAILED_32
#define EMPTY "_R1-____________" /* twelve fields, counter and chain field empty, and the "_" before the signature */
#define TEXT(text) text, sizeof(text) - 1

static void lines(void)
{
    static const uint8_t eight[] = {0x84, 0x0A, 0xE1, 0x74, 0x24, 0xD2, 0x8D, 0xB3};
    CHECK(gives(ditgrux_line, TEXT(CODE), TEXT(LINE)) && gives(ditgrux_unline, TEXT(LINE), TEXT(CODE)));
    CHECK(gives(ditgrux_line, TEXT(EMPTY FAILED_64), TEXT(EMPTY FAILED_32)));
    CHECK(gives(ditgrux_unline, TEXT(EMPTY FAILED_32), TEXT(EMPTY FAILED_64)));

    /* 24, 26, 23: each before the next */
    CHECK(refused(ditgrux_line, "", 0, 0) == DITGRUX_BAD_CODE && refused(ditgrux_line, TEXT(LINE), 0) == DITGRUX_BAD_CODE);
    CHECK(refused(ditgrux_line, CODE, sizeof CODE, 0) == DITGRUX_BAD_CODE);
    CHECK(refused(ditgrux_line, TEXT(EMPTY "_" FAILED_64), 0) == DITGRUX_BAD_FIELDS);
    CHECK(refused(ditgrux_line, TEXT("_R1-___________" FAILED_64), 0) == DITGRUX_BAD_FIELDS);
    CHECK(refused(ditgrux_line, TEXT(FRONT "U1RP_2a_hArhdCTSjbN=_" FAILED_64), 0) == DITGRUX_BAD_FIELDS); /* an unused bit */
    CHECK(refused(ditgrux_line, TEXT(FRONT "U1R_2a_hArhdCTSjbM=_" FAILED_64), 0) == DITGRUX_BAD_FIELDS);
    CHECK(refused(ditgrux_line, TEXT(CODE), 0) == DITGRUX_OUTPUT_SHORT);

    /* 27 before 23, never 24 or 26 */
    CHECK(refused(ditgrux_unline, "", 0, 0) == DITGRUX_BAD_LINE && refused(ditgrux_unline, TEXT(CODE), 0) == DITGRUX_BAD_LINE);
    CHECK(refused(ditgrux_unline, LINE, sizeof LINE, 0) == DITGRUX_BAD_LINE);
    CHECK(refused(ditgrux_unline, TEXT(EMPTY "_" FAILED_32), 0) == DITGRUX_BAD_LINE);
    CHECK(refused(ditgrux_unline, TEXT("_R1-___________" FAILED_32), 0) == DITGRUX_BAD_LINE);
    CHECK(refused(ditgrux_unline, TEXT(FRONT "KNKE6===_2a_QQFOC5BE2KG3g===_" FAILED_32), 0) == DITGRUX_BAD_LINE); /* a small letter */
    CHECK(refused(ditgrux_unline, TEXT(FRONT "KNKE6===_2a_QQFOC5BE2KG3H===_" FAILED_32), 0) == DITGRUX_BAD_LINE); /* an unused bit */
    CHECK(refused(ditgrux_unline, TEXT(FRONT "KNKE6==_2a_QQFOC5BE2KG3G===_" FAILED_32), 0) == DITGRUX_BAD_LINE);
    CHECK(refused(ditgrux_unline, TEXT(FRONT "KNKE6===_2a_QQFOC5BE2KG3G===_" "KNUWG2DF"), 0) == DITGRUX_BAD_LINE); /* no signature */
    CHECK(refused(ditgrux_unline, TEXT(LINE), 0) == DITGRUX_OUTPUT_SHORT);

    CHECK(gives(ditgrux_base32, eight, sizeof eight, TEXT("QQFOC5BE2KG3G===")) && gives(ditgrux_base32, "", 0, "", 0));
    CHECK(gives(ditgrux_unbase32, TEXT("QQFOC5BE2KG3G==="), eight, sizeof eight) && gives(ditgrux_unbase32, "", 0, "", 0));
    CHECK(refused(ditgrux_base32, eight, sizeof eight, 0) == DITGRUX_OUTPUT_SHORT);
    CHECK(refused(ditgrux_unbase32, TEXT("QQFOC5BE2KG3G==="), 0) == DITGRUX_OUTPUT_SHORT);
    CHECK(refused(ditgrux_unbase32, TEXT("QQFOC5BE2KG3G=="), 0) == DITGRUX_BAD_FORM);
    CHECK(refused(ditgrux_unbase32, TEXT("QQFOC5BE2KG3H==="), 512) == DITGRUX_BAD_FORM);
    CHECK(refused(ditgrux_unbase32, TEXT("qqfoc5be2kg3g==="), 512) == DITGRUX_BAD_FORM);
}

/* Opens a register with the settings `bytes`, whose key is shared or not, into the journal `twin`; the state is `other`. */
static uint32_t opened(const uint8_t *bytes, int is_shared, size_t room)
{
    memset(twin, 0xA5, sizeof twin);
    memset(other, 0xA5, sizeof other);
    return is_shared ? ditgrux_open_shared(bytes, DITGRUX_SETTINGS, twin, room, other, sizeof other)
                     : ditgrux_open(bytes, DITGRUX_SETTINGS, twin, room, other, sizeof other);
}

/* The number of ditgrux_open_shared with this byte of the settings changed; a refused call leaves the journal and an unopened state. */
static uint32_t refused_with(const uint8_t *bytes, size_t at, uint8_t byte, size_t room)
{
    uint8_t changed[DITGRUX_SETTINGS];
    uint32_t number;
    memcpy(changed, bytes, sizeof changed);
    changed[at] = byte;
    number = opened(changed, 1, room);
    CHECK(is_all(0xA5, twin, sizeof twin) && is_all(0, other, sizeof other));
    return number;
}

/* A shared key: 32 for an ID that ends in a digit, between 2 and 3; for any other ID both functions leave the same bytes. */
static void shared(void)
{
    enum { CSP = 0, ID = 3, SERIAL = 43, WIDTH = 90 }; /* places in the settings; the width's last byte */
    uint8_t left[DITGRUX_STATE], head[DITGRUX_LONGEST_HEAD];
    uint8_t bytes[DITGRUX_SETTINGS];
    int last;

    CHECK(opened(settings, 0, sizeof twin) == DITGRUX_DONE); /* TILL-1 */
    CHECK(refused_with(settings, CSP, 'A', sizeof twin) == DITGRUX_ID_ENDS_IN_DIGIT);
    CHECK(refused_with(settings, CSP, 'a', 0) == DITGRUX_BAD_CSP);
    CHECK(refused_with(settings, ID, '_', 0) == DITGRUX_BAD_ID);
    CHECK(refused_with(settings, SERIAL, 'G', 0) == DITGRUX_ID_ENDS_IN_DIGIT);
    CHECK(refused_with(settings, WIDTH, 4, 0) == DITGRUX_ID_ENDS_IN_DIGIT);
    memcpy(bytes, settings, sizeof bytes);
    for (last = 33; last < 127; last++) {
        bytes[ID + 5] = (uint8_t)last;
        if (last == '_' || (last >= '0' && last <= '9')) {
            CHECK(refused_with(bytes, CSP, 'A', sizeof twin) == (uint32_t)(last == '_' ? DITGRUX_BAD_ID : DITGRUX_ID_ENDS_IN_DIGIT));
            continue;
        }
        CHECK(opened(bytes, 0, sizeof twin) == DITGRUX_DONE);
        memcpy(left, other, sizeof left);
        memcpy(head, twin, sizeof head);
        CHECK(opened(bytes, 1, sizeof twin) == DITGRUX_DONE);
        CHECK(memcmp(left, other, sizeof left) == 0 && memcmp(head, twin, sizeof head) == 0);
        CHECK(refused_with(bytes, SERIAL, 'G', 0) == DITGRUX_BAD_SERIAL);
        CHECK(refused_with(bytes, WIDTH, 4, 0) == DITGRUX_BAD_WIDTH);
        CHECK(refused_with(bytes, CSP, 'A', 28) == DITGRUX_HEAD_TOO_LONG);
    }
    memset(twin, 0xA5, sizeof twin);
    memset(other, 0xA5, sizeof other);
    CHECK(ditgrux_open_shared(settings, sizeof settings, twin, sizeof twin, other, sizeof other - 1) == DITGRUX_BAD_STATE);
    CHECK(is_all(0xA5, other, sizeof other) && is_all(0xA5, twin, sizeof twin));
    CHECK(ditgrux_open_shared(settings, sizeof settings - 1, twin, sizeof twin, other, sizeof other) == DITGRUX_BAD_CSP);
    CHECK(is_all(0, other, sizeof other) && is_all(0xA5, twin, sizeof twin));
}

/* ---- changing the certificate */

enum { SERIALS_AT = 43, SLOT = 40, WIDTH_AT = 363, LENGTH_AT = 427, OPEN_AT = 435, PLACE_AT = 439 }; /* places in the state */

static void put(uint8_t *bytes, int count, uint64_t number)
{
    while (count-- > 0) {
        bytes[count] = (uint8_t)number;
        number >>= 8;
    }
}

static const uint8_t *text_of(const char *text)
{
    return (const uint8_t *)text;
}

static size_t journal_length(void)
{
    return ditgrux_journal_length(state, sizeof state);
}

/* A register of its own, whose buffer is a pattern after the head. */
static void fresh(void)
{
    memset(journal, 0xA5, sizeof journal);
    CHECK(ditgrux_open(settings, sizeof settings, journal, sizeof journal, state, sizeof state) == DITGRUX_DONE);
}

static void keep(void)
{
    memcpy(other, state, sizeof state);
    memcpy(twin, journal, sizeof journal);
}

static int kept(void)
{
    return memcmp(state, other, sizeof state) == 0 && memcmp(journal, twin, sizeof journal) == 0;
}

/* A change with exactly the room that it needs is accepted: every byte of state and journal is as the header says. */
static void changes_to(const char *serial)
{
    const size_t length = journal_length(), letters = strlen(serial);
    uint8_t *slot = other + SERIALS_AT + SLOT * ditgrux_serials(state, sizeof state);
    keep();
    memcpy(slot, serial, letters);
    put(slot + 32, 8, letters);
    put(other + LENGTH_AT, 8, length + 8 + letters);
    put(other + OPEN_AT, 4, 0);
    put(other + PLACE_AT, 8, length + 4 + letters);
    put(twin + length, 4, letters);
    memcpy(twin + length + 4, serial, letters);
    put(twin + length + 4 + letters, 4, 0);
    CHECK(ditgrux_change(state, sizeof state, text_of(serial), letters, journal, length + 8 + letters) == DITGRUX_DONE);
    CHECK(kept());
}

/* The number of a refused change; 0 where it has changed a byte. */
static uint32_t no_change(const char *serial, size_t letters, size_t room)
{
    uint32_t number;
    keep();
    number = ditgrux_change(state, sizeof state, text_of(serial), letters, journal, room);
    return kept() ? number : 0;
}

/* Issues a receipt: besides its entry only the number of receipts of the last pair changes in the journal. */
static void issues(uint32_t number)
{
    const struct ditgrux_details details = details_of(number, DITGRUX_STANDARD, ditgrux_receipts(state, sizeof state) ? 1 : 0);
    const size_t length = journal_length(), place = number_at(state + PLACE_AT, 8), open = number_at(state + OPEN_AT, 4);
    keep();
    CHECK(number_at(journal + place, 4) == open);
    CHECK(ditgrux_issue_details(state, sizeof state, &details, signature, sizeof signature, journal, sizeof journal) == DITGRUX_DONE);
    put(twin + place, 4, open + 1);
    memcpy(twin + length, journal + length, journal_length() - length);
    CHECK(memcmp(journal, twin, sizeof journal) == 0);
    CHECK(number_at(state + OPEN_AT, 4) == open + 1 && number_at(state + PLACE_AT, 8) == place);
    CHECK(memcmp(state, other, 403) == 0); /* settings and serials */
}

/* Take over of so many bytes of a journal, with the width in the state: its number, and where. Where it is refused, the state that it
 * writes is all zero. */
static uint32_t taken_over(const uint8_t *bytes, size_t length, uint32_t *index)
{
    const uint32_t number = ditgrux_take_over(bytes, length, key, sizeof key, number_at(state + WIDTH_AT, 8), other, sizeof other, index);
    CHECK(number == DITGRUX_DONE || is_all(0, other, sizeof other));
    return number;
}

/* The journal gives the state back, byte for byte, and the walk ends at its length. */
static int gives_state(void)
{
    uint32_t index;
    size_t forms;
    return taken_over(journal, journal_length(), &index) == DITGRUX_DONE && index == 0 && memcmp(other, state, sizeof state) == 0 &&
           walk(journal, journal_length(), &forms) == journal_length() && forms == ditgrux_receipts(state, sizeof state);
}

/* The state's layout in a register with two serials and three receipts. */
static void layout(void)
{
    uint8_t hash[DITGRUX_HASH];
    size_t start;
    fresh();
    CHECK(gives_state());
    issues(1);
    issues(5);
    changes_to("3c4d5e");
    start = journal_length() + 2;
    issues(9);
    CHECK(memcmp(state, "AT0", 3) == 0 && memcmp(state + 3, "TILL-1", 6) == 0 && is_all(0, state + 9, 26));
    CHECK(number_at(state + 35, 8) == 6);
    CHECK(memcmp(state + 43, "1a2b", 4) == 0 && is_all(0, state + 47, 28) && number_at(state + 75, 8) == 4);
    CHECK(memcmp(state + 83, "3c4d5e", 6) == 0 && is_all(0, state + 89, 26) && number_at(state + 115, 8) == 6);
    CHECK(is_all(0, state + 123, 6 * SLOT));
    CHECK(number_at(state + 363, 8) == 8 && memcmp(state + 371, key, sizeof key) == 0);
    CHECK(number_at(state + 403, 8) == 90 && number_at(state + 411, 4) == 9 && number_at(state + 415, 4) == 3);
    CHECK(ditgrux_sha256(journal + start, journal_length() - start, hash, sizeof hash) == DITGRUX_DONE);
    CHECK(memcmp(state + 419, hash, 8) == 0);
    CHECK(number_at(state + 427, 8) == journal_length() && number_at(state + 435, 4) == 1);
    CHECK(number_at(state + 439, 8) == start - 6 && number_at(journal + start - 6, 4) == 1);
    CHECK(ditgrux_counter(state, sizeof state) == 90 && ditgrux_last_number(state, sizeof state) == 9);
    CHECK(ditgrux_receipts(state, sizeof state) == 3 && sizeof state == 447);
    CHECK(gives_state());
}

/* Changes before the first receipt and in a row, up to eight serials; the ninth. The longest serial appends DITGRUX_LONGEST_CHANGE. */
static void eight_serials(void)
{
    static const char *const serials[] = {"1a2b", "0", "0123456789abcdef0123456789abcdef", "00", "f", "1a2", "1a2b0", "fedcba9876543210"};
    const size_t most = sizeof journal;
    size_t length;
    uint32_t i;
    fresh();
    for (i = 1; i < DITGRUX_MOST_SERIALS; i++) {
        CHECK(ditgrux_serials(state, sizeof state) == i);
        length = journal_length();
        changes_to(serials[i]);
        CHECK(i != 2 || journal_length() - length == DITGRUX_LONGEST_CHANGE);
        CHECK(gives_state());
        if (i == 3 || i == 4 || i == 7) /* receipts in three of the pairs */
            issues(i);
        CHECK(i != 3 || no_change("1a2b", 4, most) == DITGRUX_SERIAL_USED);
    }
    CHECK(ditgrux_serials(state, sizeof state) == DITGRUX_MOST_SERIALS && gives_state());
    for (i = 0; i < DITGRUX_MOST_SERIALS; i++)
        CHECK(no_change(serials[i], strlen(serials[i]), journal_length()) == DITGRUX_SERIAL_USED); /* before 31 and 13 */
    CHECK(no_change("9", 1, most) == DITGRUX_SERIALS_FULL && no_change("9", 1, journal_length()) == DITGRUX_SERIALS_FULL);
    CHECK(no_change("9G", 2, journal_length()) == DITGRUX_BAD_SERIAL && no_change("9", 1, journal_length() - 1) == DITGRUX_BAD_STATE);
    issues(8);
    CHECK(gives_state());
}

/* What each refused change leaves: nothing but its number, and each number before the next. */
static void refused_changes(void)
{
    static const char *const longest = "0123456789abcdef0123456789abcdef0";
    const size_t most = sizeof journal;
    char letter;
    int byte;
    fresh();
    issues(1);
    /* 6 before all others: the buffer is shorter than the journal, or the state has another length */
    CHECK(no_change("9", 1, journal_length() - 1) == DITGRUX_BAD_STATE && no_change("", 0, 0) == DITGRUX_BAD_STATE);
    CHECK(ditgrux_change(state, sizeof state - 1, text_of("9"), 1, journal, most) == DITGRUX_BAD_STATE && kept());
    /* 3 before 13 */
    CHECK(no_change("", 0, journal_length()) == DITGRUX_BAD_SERIAL && no_change(longest, 33, most) == DITGRUX_BAD_SERIAL);
    for (byte = 0; byte < 256; byte++) {
        const int good = (byte >= '0' && byte <= '9') || (byte >= 'a' && byte <= 'f');
        letter = (char)byte;
        CHECK(no_change(&letter, 1, journal_length()) == (uint32_t)(good ? DITGRUX_NO_ROOM : DITGRUX_BAD_SERIAL));
    }
    /* 30 before 13: the newest, and an older one */
    CHECK(no_change("1a2b", 4, journal_length()) == DITGRUX_SERIAL_USED && no_change("1a2b", 4, most) == DITGRUX_SERIAL_USED);
    changes_to("1a2c");
    CHECK(no_change("1a2b", 4, most) == DITGRUX_SERIAL_USED && no_change("1a2c", 4, most) == DITGRUX_SERIAL_USED);
    /* 13, with one byte too few */
    CHECK(no_change("1a2", 3, journal_length()) == DITGRUX_NO_ROOM && no_change("1a2", 3, journal_length() + 10) == DITGRUX_NO_ROOM);
    CHECK(no_change(longest, 32, journal_length() + 39) == DITGRUX_NO_ROOM);
    changes_to("1a2");
    CHECK(gives_state());
}

/* A text prepared before a change is not that of the receipt after it: it names the old serial. */
static void prepared_before(void)
{
    const struct ditgrux_details start = details_of(1, DITGRUX_STANDARD, 0), sale = details_of(2, DITGRUX_STANDARD, 1);
    uint8_t before[DITGRUX_LONGEST_INPUT], after[DITGRUX_LONGEST_INPUT];
    size_t before_length, after_length, at;
    fresh();
    changes_to("1a2c");
    CHECK(ditgrux_prepare_details(state, sizeof state, &sale, after, sizeof after, &after_length) == DITGRUX_NO_START);
    CHECK(ditgrux_issue_details(state, sizeof state, &start, NULL, 0, journal, sizeof journal) == DITGRUX_DONE);
    CHECK(ditgrux_prepare_details(state, sizeof state, &sale, before, sizeof before, &before_length) == DITGRUX_DONE);
    changes_to("1a2d");
    CHECK(ditgrux_prepare_details(state, sizeof state, &sale, after, sizeof after, &after_length) == DITGRUX_DONE);
    CHECK(before_length == after_length && memcmp(before, after, after_length) != 0);
    at = journal_length() + 2;
    CHECK(ditgrux_issue_details(state, sizeof state, &sale, signature, sizeof signature, journal, sizeof journal) == DITGRUX_DONE);
    CHECK(memcmp(journal + at, after, after_length) == 0 && gives_state());
}

/* ---- the serials in a state */

/* The serial of this number is `expected`: with more room and with exactly the room. With one byte less it is refused. */
static int names(uint32_t which, const char *expected)
{
    const size_t letters = strlen(expected);
    uint8_t out[DITGRUX_LONGEST_NAME + 1];
    size_t room, length = 1;
    for (room = letters; room <= sizeof out; room++) {
        memset(out, 0xA5, sizeof out);
        if (ditgrux_serial(state, sizeof state, which, out, room, &length) != DITGRUX_DONE || length != letters ||
            memcmp(out, expected, letters) != 0 || !is_all(0xA5, out + letters, sizeof out - letters))
            return 0;
    }
    memset(out, 0xA5, sizeof out);
    return letters == 0 || (ditgrux_serial(state, sizeof state, which, out, letters - 1, &length) == DITGRUX_OUTPUT_SHORT && length == 0 &&
                            is_all(0xA5, out, sizeof out));
}

/* The settings in the state under this number are those with the serial; the output may be neither longer nor shorter. */
static int sets(uint32_t which, const char *serial)
{
    uint8_t expected[DITGRUX_SETTINGS], out[DITGRUX_SETTINGS + 1];
    memset(out, 0xA5, sizeof out);
    return ditgrux_settings(text_of("AT0"), 3, text_of("TILL-1"), 6, text_of(serial), strlen(serial), 8, key, sizeof key, expected,
                            sizeof expected) == DITGRUX_DONE &&
           ditgrux_settings_in(state, sizeof state, which, out, sizeof out) == DITGRUX_OUTPUT_SHORT &&
           ditgrux_settings_in(state, sizeof state, which, out, DITGRUX_SETTINGS - 1) == DITGRUX_OUTPUT_SHORT &&
           is_all(0xA5, out, sizeof out) &&
           ditgrux_settings_in(state, sizeof state, which, out, DITGRUX_SETTINGS) == DITGRUX_DONE &&
           memcmp(out, expected, sizeof expected) == 0 && out[DITGRUX_SETTINGS] == 0xA5;
}

/* A number that no serial of the register has: no letters, and settings that Read refuses. */
static int is_missing(uint32_t which)
{
    uint8_t under[DITGRUX_SETTINGS], bytes[DITGRUX_DETAILS], given[DITGRUX_SIGNATURE];
    size_t length;
    return names(which, "") && ditgrux_settings_in(state, sizeof state, which, under, sizeof under) == DITGRUX_DONE &&
           memcmp(under, state, SERIALS_AT) == 0 && is_all(0, under + SERIALS_AT, SLOT) && memcmp(under + 83, state + 363, 40) == 0 &&
           ditgrux_read(under, sizeof under, journal, 1, bytes, sizeof bytes, given, sizeof given, &length) == DITGRUX_BAD_SERIAL;
}

/* Each receipt is read with the settings of its pair, and with no others. */
static void serials(void)
{
    static const char longest[] = "0123456789abcdef0123456789abcdef";
    uint8_t under[DITGRUX_SETTINGS], given[DITGRUX_SIGNATURE];
    struct ditgrux_details found;
    size_t first, second, end, length;
    uint32_t which;
    fresh();
    CHECK(ditgrux_serials(state, sizeof state) == 1 && names(0, "1a2b") && sets(0, "1a2b") && is_missing(1));
    first = journal_length() + 2;
    issues(1);
    changes_to(longest);
    second = journal_length() + 2;
    issues(2);
    end = journal_length();
    CHECK(ditgrux_serials(state, sizeof state) == 2 && names(0, "1a2b") && sets(0, "1a2b") && names(1, longest) && sets(1, longest));
    CHECK(is_missing(2) && is_missing(7) && is_missing(8) && is_missing(UINT32_MAX));
    for (which = 0; which < 2; which++) {
        CHECK(ditgrux_settings_in(state, sizeof state, which, under, sizeof under) == DITGRUX_DONE);
        CHECK(ditgrux_read_details(under, sizeof under, journal + first, number_at(journal + first - 2, 2), &found, given, &length) ==
              (uint32_t)(which == 0 ? DITGRUX_DONE : DITGRUX_ENTRY_MISSPELLED));
        CHECK(ditgrux_read_details(under, sizeof under, journal + second, end - second, &found, given, &length) ==
              (uint32_t)(which == 1 ? DITGRUX_DONE : DITGRUX_ENTRY_MISSPELLED));
    }
    memset(state, 0, sizeof state); /* the unopened state */
    CHECK(ditgrux_serials(state, sizeof state) == 0 && names(0, ""));
    CHECK(ditgrux_settings_in(state, sizeof state, 0, under, sizeof under) == DITGRUX_DONE && is_all(0, under, sizeof under));
}

/* The settings in the state under this number: CSP, ID, width and key as the state has them, and this serial in 40 bytes. Read refuses
 * them with this number, whatever form it is given. */
static int holds(uint32_t which, const uint8_t *serial, uint32_t number)
{
    uint8_t under[DITGRUX_SETTINGS], bytes[DITGRUX_DETAILS], given[DITGRUX_SIGNATURE];
    size_t length = 1;
    return ditgrux_settings_in(state, sizeof state, which, under, sizeof under) == DITGRUX_DONE &&
           memcmp(under, state, SERIALS_AT) == 0 && memcmp(under + SERIALS_AT, serial, SLOT) == 0 &&
           memcmp(under + 83, state + 363, 40) == 0 &&
           ditgrux_read(under, sizeof under, journal, 1, bytes, sizeof bytes, given, sizeof given, &length) == number && length == 0;
}

/* What a damaged state says of its serials. */
static void damaged_serials(void)
{
    static const uint8_t zeros[SLOT] = {0}, lengths[] = {33, 34, 255};
    uint8_t *const first = state + SERIALS_AT, *const second = first + SLOT, *const third = second + SLOT;
    char letters[DITGRUX_LONGEST_NAME + 1];
    size_t i;
    fresh();
    CHECK(holds(0, first, DITGRUX_ENTRY_MISSPELLED) && holds(1, zeros, DITGRUX_BAD_SERIAL));
    memset(second, '7', DITGRUX_LONGEST_NAME); /* length 0, and bytes: no serial */
    memcpy(third, first, SLOT);                /* a good one after it: no serial either */
    CHECK(ditgrux_serials(state, sizeof state) == 1 && names(1, "") && names(2, ""));
    CHECK(holds(1, zeros, DITGRUX_BAD_SERIAL) && holds(2, zeros, DITGRUX_BAD_SERIAL) && holds(8, zeros, DITGRUX_BAD_SERIAL));
    second[SLOT - 1] = 32; /* now both are */
    CHECK(ditgrux_serials(state, sizeof state) == 3 && names(2, "1a2b") && holds(1, second, DITGRUX_ENTRY_MISSPELLED));
    CHECK(holds(2, first, DITGRUX_ENTRY_MISSPELLED) && holds(3, zeros, DITGRUX_BAD_SERIAL));
    memset(letters, '7', sizeof letters - 1);
    letters[sizeof letters - 1] = 0;
    for (i = 0; i < sizeof lengths; i++) { /* too long: as it is */
        second[SLOT - 1] = lengths[i];
        CHECK(ditgrux_serials(state, sizeof state) == 3 && names(1, letters) && holds(1, second, DITGRUX_BAD_SERIAL));
    }
    second[SLOT - 8] = 0x80; /* far too long, too */
    CHECK(ditgrux_serials(state, sizeof state) == 3 && names(1, letters) && holds(1, second, DITGRUX_BAD_SERIAL));
    first[31] = '0'; /* a byte after its end: as it is */
    CHECK(names(0, "1a2b") && holds(0, first, DITGRUX_BAD_SERIAL));
    memset(first + 32, 0, 8); /* the first is empty: the register has none */
    CHECK(ditgrux_serials(state, sizeof state) == 0 && names(0, "") && holds(0, zeros, DITGRUX_BAD_SERIAL) && holds(1, zeros, DITGRUX_BAD_SERIAL));
    state[3] = '_'; /* ID and CSP come before the serial */
    CHECK(holds(0, zeros, DITGRUX_BAD_ID));
    state[0] = 'a';
    CHECK(holds(0, zeros, DITGRUX_BAD_CSP));
}

/* A list of so many bytes, the first receipt of this kind, with this state: it issues none. The caller looks at state and journal. */
static uint32_t none_issued(uint8_t *bytes, size_t length, uint32_t kind, size_t list_length, size_t room)
{
    const struct ditgrux_details sale = details_of(30, kind, 1), late = details_of(31, DITGRUX_STANDARD, 1);
    uint8_t list[2 * DITGRUX_DETAILS];
    size_t issued = SIZE_MAX;
    uint32_t number;
    ditgrux_pack_details(&sale, list);
    ditgrux_pack_details(&late, list + DITGRUX_DETAILS);
    number = ditgrux_issue_list(bytes, length, list, list_length, journal, room, &issued);
    CHECK(issued == 0);
    return number;
}

/* With a bad state: 6 for a list, be it whole or cut and its kind known or not, and nothing to do for an empty one. */
static void lists_of_bad_state(uint8_t *bytes, size_t length, size_t room)
{
    size_t list_length;
    for (list_length = 1; list_length <= 2 * DITGRUX_DETAILS; list_length++)
        CHECK(none_issued(bytes, length, DITGRUX_STANDARD, list_length, room) == DITGRUX_BAD_STATE);
    CHECK(none_issued(bytes, length, 3, 2 * DITGRUX_DETAILS, room) == DITGRUX_BAD_STATE);
    CHECK(none_issued(bytes, length, 3, 0, room) == DITGRUX_DONE);
}

/* Check steps refuses the state, with no steps, with one and with more than there are. The caller looks at its bytes and at the journal. */
static void not_checked(uint8_t *bytes, size_t length, size_t room)
{
    static const size_t steps[] = {0, 1, SIZE_MAX};
    uint32_t index;
    int i;
    for (i = 0; i < 3; i++) {
        index = 1;
        CHECK(ditgrux_check_steps(bytes, length, journal, room, steps[i], &index) == DITGRUX_BAD_STATE && index == 0);
    }
}

/* A state of this length: every call refuses it and keeps its bytes, and the readers find nothing in it. An empty list is not refused. */
static void of_length(uint8_t *bytes, size_t length)
{
    const struct ditgrux_details sale = details_of(3, DITGRUX_STANDARD, 1);
    uint8_t before[DITGRUX_STATE + 1], out[DITGRUX_LONGEST_INPUT], details[DITGRUX_DETAILS], given[DITGRUX_SIGNATURE];
    size_t wrote = 1;
    uint32_t index = 1;
    memcpy(before, bytes, length);
    keep();
    CHECK(ditgrux_open(settings, sizeof settings, journal, sizeof journal, bytes, length) == DITGRUX_BAD_STATE);
    CHECK(ditgrux_open_shared(settings, sizeof settings, journal, sizeof journal, bytes, length) == DITGRUX_BAD_STATE);
    CHECK(ditgrux_prepare_details(bytes, length, &sale, out, sizeof out, &wrote) == DITGRUX_BAD_STATE && wrote == 0);
    CHECK(ditgrux_issue_details(bytes, length, &sale, NULL, 0, journal, sizeof journal) == DITGRUX_BAD_STATE);
    CHECK(ditgrux_change(bytes, length, text_of("9"), 1, journal, sizeof journal) == DITGRUX_BAD_STATE);
    lists_of_bad_state(bytes, length, sizeof journal);
    CHECK(ditgrux_take_over(journal, journal_length(), key, sizeof key, 8, bytes, length, &index) == DITGRUX_BAD_STATE && index == 0);
    CHECK(ditgrux_check_head(journal, journal_length(), key, sizeof key, 8, bytes, length) == DITGRUX_BAD_STATE);
    CHECK(ditgrux_check_head(journal, 0, key, 0, 4, bytes, length) == DITGRUX_BAD_STATE); /* before 4 and 14 */
    not_checked(bytes, length, sizeof journal);
    CHECK(ditgrux_counter(bytes, length) == 0 && ditgrux_last_number(bytes, length) == 0 && ditgrux_receipts(bytes, length) == 0);
    CHECK(ditgrux_journal_length(bytes, length) == 0 && ditgrux_serials(bytes, length) == 0);
    wrote = 1;
    CHECK(ditgrux_serial(bytes, length, 0, out, 0, &wrote) == DITGRUX_DONE && wrote == 0);
    memset(out, 0xA5, sizeof out);
    CHECK(ditgrux_settings_in(bytes, length, 0, out, DITGRUX_SETTINGS - 1) == DITGRUX_OUTPUT_SHORT && is_all(0xA5, out, sizeof out));
    CHECK(ditgrux_settings_in(bytes, length, 0, out, DITGRUX_SETTINGS) == DITGRUX_DONE && is_all(0, out, DITGRUX_SETTINGS));
    CHECK(ditgrux_read(out, DITGRUX_SETTINGS, journal, 1, details, sizeof details, given, sizeof given, &wrote) == DITGRUX_BAD_CSP);
    CHECK(is_all(0xA5, out + DITGRUX_SETTINGS, sizeof out - DITGRUX_SETTINGS));
    CHECK(memcmp(before, bytes, length) == 0 && kept());
}

/* States of other lengths. One of version 1 had 155 bytes: the settings, the counter, the last number, the number of receipts, the chain
 * value and the length of the journal. With the width, the key and the length in it, Take over makes the state anew. */
static void version_1(void)
{
    enum { BEFORE = 155 };
    uint8_t bytes[DITGRUX_STATE + 1];
    size_t length;
    uint32_t index;
    fresh();
    issues(1);
    issues(2);
    memset(bytes, 0, sizeof bytes);
    memcpy(bytes, settings, sizeof settings);
    memcpy(bytes + sizeof settings, state + 403, 32);
    of_length(bytes, BEFORE);
    length = number_at(bytes + BEFORE - 8, 8);
    CHECK(ditgrux_take_over(journal, length, bytes + 91, DITGRUX_KEY, bytes[90], other, sizeof other, &index) == DITGRUX_DONE);
    CHECK(memcmp(other, state, sizeof state) == 0 && memcmp(other + 403, bytes + 123, 32) == 0);
    memcpy(bytes, state, sizeof state);
    of_length(bytes, DITGRUX_STATE - 1);
    of_length(bytes, DITGRUX_STATE + 1);
    of_length(bytes, 0);
}

/* ---- what a state must be */

/* Prepare, Issue, Change, a list and Check steps refuse the state with this number at the place, and change nothing. */
static void is_unsound(size_t at, int count, uint64_t number)
{
    const struct ditgrux_details sale = details_of(20, DITGRUX_STANDARD, 1);
    uint8_t sound[DITGRUX_STATE], out[DITGRUX_LONGEST_INPUT];
    size_t wrote = 1;
    memcpy(sound, state, sizeof state);
    put(state + at, count, number);
    keep();
    CHECK(ditgrux_prepare_details(state, sizeof state, &sale, out, sizeof out, &wrote) == DITGRUX_BAD_STATE && wrote == 0);
    CHECK(ditgrux_issue_details(state, sizeof state, &sale, NULL, 0, journal, sizeof journal) == DITGRUX_BAD_STATE);
    CHECK(ditgrux_change(state, sizeof state, text_of("9"), 1, journal, sizeof journal) == DITGRUX_BAD_STATE);
    lists_of_bad_state(state, sizeof state, sizeof journal);
    not_checked(state, sizeof state, sizeof journal);
    CHECK(kept());
    memcpy(state, sound, sizeof state);
}

static void unsound_states(void)
{
    const struct ditgrux_details sale = details_of(20, DITGRUX_STANDARD, 1);
    uint8_t out[DITGRUX_LONGEST_INPUT];
    size_t slot, length, wrote, count_at;
    fresh();
    issues(1);
    changes_to("1a2c");
    issues(2);
    is_unsound(0, 1, 'a');
    is_unsound(3, 1, '_');
    is_unsound(35, 8, 0);
    is_unsound(35, 8, 33);
    is_unsound(363, 8, 4);
    is_unsound(363, 8, 9);
    for (slot = 0; slot < 2; slot++) { /* a serial that is used */
        is_unsound(SERIALS_AT + slot * SLOT, 1, 'G');
        is_unsound(SERIALS_AT + slot * SLOT + 32, 8, 0);
        is_unsound(SERIALS_AT + slot * SLOT + 32, 8, 33);
        is_unsound(SERIALS_AT + slot * SLOT + 32, 8, UINT64_MAX);
    }
    for (slot = 2; slot < DITGRUX_MOST_SERIALS; slot++) { /* one that is not */
        is_unsound(SERIALS_AT + slot * SLOT, 1, '1');
        is_unsound(SERIALS_AT + slot * SLOT + 32, 8, 1);
        is_unsound(SERIALS_AT + slot * SLOT + 31, 1, 1);
    }
    is_unsound(411, 4, 1);            /* last number below the number of receipts */
    is_unsound(OPEN_AT, 4, 3);        /* more in the last pair than in all */
    count_at = number_at(state + PLACE_AT, 8);
    put(state + PLACE_AT, 8, 0);
    is_unsound(LENGTH_AT, 8, 28);     /* shorter than the head, though the count ends within it */
    put(state + PLACE_AT, 8, count_at);
    is_unsound(LENGTH_AT, 8, number_at(state + PLACE_AT, 8) + 3);
    is_unsound(PLACE_AT, 8, journal_length() - 3);
    is_unsound(PLACE_AT, 8, UINT64_MAX);
    is_unsound(PLACE_AT, 8, UINT64_MAX - 3);
    state[370] = 5;                   /* width 5: the counter may reach 2^39 - 1 */
    is_unsound(403, 8, (uint64_t)1 << 39);
    CHECK(ditgrux_prepare_details(state, sizeof state, &sale, out, sizeof out, &wrote) == DITGRUX_DONE);
    /* longer than its buffer: Prepare does not see it */
    length = journal_length();
    CHECK(no_change("9", 1, length - 1) == DITGRUX_BAD_STATE);
    CHECK(ditgrux_issue_details(state, sizeof state, &sale, NULL, 0, journal, length - 1) == DITGRUX_BAD_STATE && kept());
    lists_of_bad_state(state, sizeof state, length - 1);
    lists_of_bad_state(state, sizeof state, 0);
    not_checked(state, sizeof state, length - 1);
    not_checked(state, sizeof state, 0);
    CHECK(kept());
    memset(state, 0, sizeof state); /* the unopened state */
    keep();
    lists_of_bad_state(state, sizeof state, sizeof journal);
    not_checked(state, sizeof state, sizeof journal);
    CHECK(kept());
}

/* ---- journals with several pairs */

/* Take over of the journal with these bytes after it. */
static uint32_t followed_by(const char *bytes, size_t count, uint32_t *index)
{
    memcpy(twin, journal, sizeof journal);
    memcpy(twin + journal_length(), bytes, count);
    return taken_over(twin, journal_length() + count, index);
}

/* Take over of the journal with one byte changed. */
static uint32_t with_byte(size_t at, int byte, uint32_t *index)
{
    memcpy(twin, journal, sizeof journal);
    twin[at] = (uint8_t)byte;
    return taken_over(twin, journal_length(), index);
}

#define PAIR(length, serial) "\0\0\0" length serial "\0\0\0\0"
#define AFTER(bytes, number, at) (followed_by(bytes, sizeof(bytes) - 1, &index) == (number) && index == (at))

/* Where bytes follow the last entry: 21 before 30 and 31, and the index counts the receipts of all pairs. */
static void pairs(void)
{
    size_t first, second, place;
    uint32_t index;
    int i;
    fresh();
    issues(1);
    issues(2);
    first = number_at(state + PLACE_AT, 8);
    second = journal_length() + 4;
    changes_to("1a2c");
    issues(3);
    place = number_at(state + PLACE_AT, 8);
    CHECK(gives_state());

    CHECK(AFTER(PAIR("\4", "1a2d"), DITGRUX_DONE, 0) && ditgrux_serials(other, sizeof other) == 3);
    for (i = 1; i < 12; i++) { /* a pair that is cut, be its serial new or used */
        CHECK(followed_by(PAIR("\4", "1a2d"), (size_t)i, &index) == DITGRUX_BYTES_LEFT && index == 3);
        CHECK(followed_by(PAIR("\4", "1a2b"), (size_t)i, &index) == DITGRUX_BYTES_LEFT && index == 3);
    }
    CHECK(AFTER("\0\0\0\0\0\0\0\0", DITGRUX_BYTES_LEFT, 3) && AFTER(PAIR("\4", "1A2D"), DITGRUX_BYTES_LEFT, 3));
    CHECK(AFTER(PAIR("\41", "0123456789abcdef0123456789abcdef0"), DITGRUX_BYTES_LEFT, 3));
    CHECK(AFTER(PAIR("\40", "0123456789abcdef0123456789abcdef"), DITGRUX_DONE, 0));
    CHECK(AFTER(PAIR("\4", "1a2b"), DITGRUX_SERIAL_USED, 3) && AFTER(PAIR("\4", "1a2c"), DITGRUX_SERIAL_USED, 3));
    CHECK(AFTER(PAIR("\4", "1a2d") "\0", DITGRUX_BYTES_LEFT, 3));
    CHECK(AFTER("\0\0\0\4" "1a2d" "\0\0\0\1", DITGRUX_ENTRY_CUT, 3));

    /* a serial and the two counts changed */
    CHECK(with_byte(second + 3, 'b', &index) == DITGRUX_SERIAL_USED && index == 2);
    CHECK(with_byte(second + 3, 'd', &index) == DITGRUX_ENTRY_MISSPELLED && index == 2);
    CHECK(with_byte(first + 3, 1, &index) == DITGRUX_BYTES_LEFT && index == 1);
    CHECK(with_byte(first + 3, 3, &index) == DITGRUX_ENTRY_MISSPELLED && index == 2);
    CHECK(with_byte(place + 3, 0, &index) == DITGRUX_BYTES_LEFT && index == 2);
    CHECK(with_byte(place + 3, 2, &index) == DITGRUX_ENTRY_CUT && index == 3);

    for (i = 3; i <= DITGRUX_MOST_SERIALS; i++) {
        const char serial[] = {'c', (char)('0' + i), 0};
        CHECK(AFTER(PAIR("\1", "9"), DITGRUX_DONE, 0));
        changes_to(serial);
    }
    issues(4);
    CHECK(AFTER(PAIR("\1", "9"), DITGRUX_SERIALS_FULL, 4) && AFTER(PAIR("\2", "c5"), DITGRUX_SERIAL_USED, 4));
    CHECK(AFTER("\0\0\0\1" "9" "\0\0\0", DITGRUX_BYTES_LEFT, 4) && gives_state());
}

/* Where power fails during a change: the journal is the old one until its length is stored, and the new one then. Where it fails during
 * the first receipt after the change, the walk finds the length. An old state is sound, and its next receipt writes over the pair. */
static void power_cut_in_change(void)
{
    uint8_t old[DITGRUX_STATE];
    const struct ditgrux_details sale = details_of(2, DITGRUX_STANDARD, 1);
    size_t length, forms;
    uint32_t index;
    fresh();
    issues(1);
    memcpy(old, state, sizeof state);
    length = journal_length();
    changes_to("1a2c");
    CHECK(taken_over(journal, length, &index) == DITGRUX_DONE && memcmp(other, old, sizeof old) == 0);
    CHECK(ditgrux_change(other, sizeof other, text_of("1a2c"), 4, journal, sizeof journal) == DITGRUX_DONE);
    CHECK(memcmp(other, state, sizeof state) == 0); /* the same change again, from the state without it */
    CHECK(gives_state() && memcmp(other, old, sizeof old) != 0);
    length = journal_length();
    issues(2);
    CHECK(taken_over(journal, length, &index) == DITGRUX_ENTRY_CUT && index == 1);
    CHECK(walk(journal, length, &forms) == journal_length() && forms == 2);
    CHECK(ditgrux_issue_details(old, sizeof old, &sale, NULL, 0, journal, sizeof journal) == DITGRUX_DONE);
    CHECK(taken_over(journal, ditgrux_journal_length(old, sizeof old), &index) == DITGRUX_DONE);
    CHECK(ditgrux_serials(other, sizeof other) == 1);
}

/* ---- a list of receipts */

enum { ORDERS = 5 };

static struct ditgrux_details orders[ORDERS];
static uint8_t states[ORDERS + 1][DITGRUX_STATE], journals[ORDERS + 1][sizeof journal]; /* after so many orders, issued one by one */

/* Goes to where so many orders were issued. */
static void go_to(size_t place)
{
    memcpy(state, states[place], sizeof state);
    memcpy(journal, journals[place], sizeof journal);
}

/* Every byte of the state and of the journal's whole buffer is what so many single calls left. */
static int is_at(size_t place)
{
    return memcmp(state, states[place], sizeof state) == 0 && memcmp(journal, journals[place], sizeof journal) == 0;
}

static size_t length_at(size_t place)
{
    return ditgrux_journal_length(states[place], DITGRUX_STATE);
}

/* Issues the orders one by one with a failed device, keeps what each leaves, and goes back. */
static void one_by_one(void)
{
    size_t i;
    for (i = 0; i <= ORDERS; i++) {
        memcpy(states[i], state, sizeof state);
        memcpy(journals[i], journal, sizeof journal);
        if (i < ORDERS)
            CHECK(ditgrux_issue_details(state, sizeof state, &orders[i], NULL, 0, journal, sizeof journal) == DITGRUX_DONE);
    }
    CHECK(gives_state());
    go_to(0);
}

/* The number of a list in a buffer with this room. The list lies between other bytes; none of all these changes. */
static uint32_t listed(const struct ditgrux_details *list, size_t count, size_t room, size_t *issued)
{
    uint8_t bytes[ORDERS * DITGRUX_DETAILS + 2], before[ORDERS * DITGRUX_DETAILS + 2];
    uint32_t number;
    size_t i;
    memset(bytes, 0xA5, sizeof bytes);
    for (i = 0; i < count; i++)
        ditgrux_pack_details(&list[i], bytes + 1 + i * DITGRUX_DETAILS);
    memcpy(before, bytes, sizeof bytes);
    *issued = SIZE_MAX;
    number = ditgrux_issue_list(state, sizeof state, bytes + 1, count * DITGRUX_DETAILS, journal, room, issued);
    CHECK(memcmp(bytes, before, sizeof bytes) == 0);
    return number;
}

/* Each part of the list, from each place on, leaves what the single calls leave; the parts of no orders change nothing. */
static void parts(void)
{
    size_t from, to, issued;
    for (from = 0; from <= ORDERS; from++)
        for (to = from; to <= ORDERS; to++) {
            go_to(from);
            CHECK(listed(orders + from, to - from, sizeof journal, &issued) == DITGRUX_DONE && issued == to - from && is_at(to));
        }
    CHECK(gives_state());
}

/* The new entries lie one after the other, from the old length on. Read finds in each the details as they were packed and no signature,
 * under the newest serial, and its code ends in the text of a failed device. */
static void entries(void)
{
    uint8_t under[DITGRUX_SETTINGS], packed[DITGRUX_DETAILS], found[DITGRUX_DETAILS], given[DITGRUX_SIGNATURE], code[DITGRUX_LONGEST_CODE];
    const size_t text = sizeof FAILED_64 - 1;
    size_t i, at = length_at(0), length, wrote;
    go_to(0);
    CHECK(listed(orders, ORDERS, sizeof journal, &wrote) == DITGRUX_DONE);
    CHECK(ditgrux_settings_in(state, sizeof state, ditgrux_serials(state, sizeof state) - 1, under, sizeof under) == DITGRUX_DONE);
    for (i = 0; i < ORDERS; i++) {
        length = number_at(journal + at, 2);
        at += 2;
        memset(found, 0xA5, sizeof found);
        ditgrux_pack_details(&orders[i], packed);
        CHECK(ditgrux_read(under, sizeof under, journal + at, length, found, sizeof found, given, sizeof given, &wrote) == DITGRUX_DONE);
        CHECK(wrote == 0 && memcmp(found, packed, sizeof found) == 0);
        CHECK(ditgrux_code(journal + at, length, code, sizeof code, &wrote) == DITGRUX_DONE);
        CHECK(wrote > text && memcmp(code + wrote - text, FAILED_64, text) == 0);
        at += length;
        CHECK(at == length_at(i + 1));
    }
    CHECK(at == journal_length());
}

/* The list with these details at the place is refused there. The orders before it are issued, and no other. The list from there on, with
 * the right details, issues the rest. */
static void refused_at(size_t place, const struct ditgrux_details *wrong, uint32_t number)
{
    struct ditgrux_details list[ORDERS];
    size_t issued;
    memcpy(list, orders, sizeof list);
    list[place] = *wrong;
    go_to(0);
    CHECK(listed(list, ORDERS, sizeof journal, &issued) == number);
    CHECK(issued == place && is_at(place));
    list[issued < ORDERS ? issued : 0] = orders[place];
    CHECK(listed(list + place, ORDERS - place, sizeof journal, &issued) == DITGRUX_DONE && issued == ORDERS - place && is_at(ORDERS));
}

/* The list with one detail of the order at the place changed. */
#define WRONG(field, value, number) (wrong = orders[place], wrong.field = (value), refused_at(place, &wrong, number))

static const int64_t largest = 99999999999, full_counter = 549755813887; /* the largest amount; 2^39 - 1, the most in five bytes */

/* Each way to be refused at this place. */
static void refused_ways(size_t place)
{
    static const uint32_t kinds[] = {3, 4, 256, 65536, 0x80000000, UINT32_MAX}, years[] = {0, 1999, 2100, 67567, UINT32_MAX};
    static const int64_t amounts[] = {100000000000, -100000000000, INT64_MAX, INT64_MIN};
    const uint32_t last = ditgrux_last_number(states[place], DITGRUX_STATE);
    struct ditgrux_details wrong;
    size_t i;
    WRONG(number, 0, DITGRUX_NUMBER_NOT_ABOVE);
    WRONG(number, last, DITGRUX_NUMBER_NOT_ABOVE);
    WRONG(number, last - 1, DITGRUX_NUMBER_NOT_ABOVE);
    for (i = 0; i < sizeof kinds / sizeof kinds[0]; i++)
        WRONG(kind, kinds[i], DITGRUX_NUMBER_NOT_ABOVE);
    for (i = 0; i < sizeof years / sizeof years[0]; i++)
        WRONG(year, years[i], DITGRUX_BAD_DATE);
    WRONG(month, 0, DITGRUX_BAD_DATE);
    WRONG(month, 13, DITGRUX_BAD_DATE);
    WRONG(day, 0, DITGRUX_BAD_DATE);
    WRONG(day, 32, DITGRUX_BAD_DATE);
    WRONG(hour, 24, DITGRUX_BAD_DATE);
    WRONG(minute, 60, DITGRUX_BAD_DATE);
    WRONG(second, 60, DITGRUX_BAD_DATE);
    for (i = 0; i < sizeof amounts / sizeof amounts[0]; i++) {
        WRONG(standard, amounts[i], DITGRUX_BAD_AMOUNT);
        WRONG(reduced_1, amounts[i], DITGRUX_BAD_AMOUNT);
        WRONG(reduced_2, amounts[i], DITGRUX_BAD_AMOUNT);
        WRONG(zero, amounts[i], DITGRUX_BAD_AMOUNT);
        WRONG(special, amounts[i], DITGRUX_BAD_AMOUNT);
    }
    wrong = details_of(orders[place].number, DITGRUX_STANDARD, 0);
    wrong.zero = full_counter - ditgrux_counter(states[place], DITGRUX_STATE) + 1; /* one cent too much */
    refused_at(place, &wrong, DITGRUX_COUNTER_FULL);
    wrong.kind = DITGRUX_CANCELLATION;
    refused_at(place, &wrong, DITGRUX_COUNTER_FULL);
}

/* Each number before the next: all is wrong at the place, and one thing after the other is put right. Each call goes on from the order
 * that the last one refused. */
static void one_after_the_other(size_t place)
{
    struct ditgrux_details list[ORDERS];
    const size_t room = length_at(place);
    size_t issued;
    memcpy(list, orders, sizeof list);
    list[place] = details_of(0, DITGRUX_STANDARD, 0);
    list[place].month = 13;
    list[place].standard = largest + 1;
    list[place].reduced_1 = list[place].reduced_2 = list[place].zero = list[place].special = largest;
    go_to(0);
    CHECK(listed(list, ORDERS, room, &issued) == DITGRUX_NUMBER_NOT_ABOVE && issued == place && is_at(place));
    list[place].number = orders[place].number;
    CHECK(listed(list + place, ORDERS - place, room, &issued) == DITGRUX_BAD_DATE && issued == 0 && is_at(place));
    list[place].month = 12;
    CHECK(listed(list + place, ORDERS - place, room, &issued) == DITGRUX_BAD_AMOUNT && issued == 0 && is_at(place));
    list[place].standard = largest;
    CHECK(listed(list + place, ORDERS - place, room, &issued) == DITGRUX_COUNTER_FULL && issued == 0 && is_at(place));
    list[place] = orders[place];
    CHECK(listed(list + place, ORDERS - place, room, &issued) == DITGRUX_NO_ROOM && issued == 0 && is_at(place));
    CHECK(listed(list + place, ORDERS - place, room - 1, &issued) == DITGRUX_BAD_STATE && issued == 0 && is_at(place));
    CHECK(listed(list + place, ORDERS - place, length_at(ORDERS), &issued) == DITGRUX_DONE && issued == ORDERS - place && is_at(ORDERS));
}

/* The list in a buffer of every size. It issues the orders that fit as a whole and refuses the next with 13; in a larger buffer the list
 * from there on issues the rest. 6 where the buffer is smaller than the journal was before. */
static void rooms(void)
{
    size_t room, place = 0, issued;
    go_to(0);
    CHECK(listed(orders, ORDERS, length_at(0) - 1, &issued) == DITGRUX_BAD_STATE && issued == 0 && is_at(0));
    CHECK(listed(orders, ORDERS, 0, &issued) == DITGRUX_BAD_STATE && issued == 0 && is_at(0));
    for (room = length_at(0); room < length_at(ORDERS); room++) {
        place += room == length_at(place + 1);
        go_to(0);
        CHECK(listed(orders, ORDERS, room, &issued) == DITGRUX_NO_ROOM && issued == place && is_at(place));
        CHECK(listed(orders + place, ORDERS - place, length_at(ORDERS), &issued) == DITGRUX_DONE && issued == ORDERS - place);
        CHECK(is_at(ORDERS));
    }
    CHECK(place == ORDERS - 1);
}

/* A list that is not a whole number of details issues none, not even those that are whole: 7, before 13. An empty one does nothing. */
static void cut_lists(void)
{
    uint8_t list[ORDERS * DITGRUX_DETAILS];
    size_t i, length, issued;
    for (i = 0; i < ORDERS; i++)
        ditgrux_pack_details(&orders[i], list + i * DITGRUX_DETAILS);
    go_to(0);
    for (length = 1; length < sizeof list; length++) {
        if (length % DITGRUX_DETAILS == 0)
            continue;
        issued = SIZE_MAX;
        CHECK(ditgrux_issue_list(state, sizeof state, list, length, journal, sizeof journal, &issued) == DITGRUX_NUMBER_NOT_ABOVE);
        CHECK(issued == 0 && is_at(0));
        issued = SIZE_MAX;
        CHECK(ditgrux_issue_list(state, sizeof state, list, length, journal, length_at(0), &issued) == DITGRUX_NUMBER_NOT_ABOVE);
        CHECK(issued == 0 && is_at(0));
        issued = SIZE_MAX;
        CHECK(ditgrux_issue_list(state, sizeof state, list, length, journal, length_at(0) - 1, &issued) == DITGRUX_BAD_STATE);
        CHECK(issued == 0 && is_at(0));
    }
    for (i = 0; i <= ORDERS; i++) {
        go_to(i);
        CHECK(listed(orders, 0, sizeof journal, &issued) == DITGRUX_DONE && issued == 0 && is_at(i));
        CHECK(listed(orders, 0, length_at(i), &issued) == DITGRUX_DONE && issued == 0 && is_at(i));
        CHECK(listed(orders, 0, 0, &issued) == DITGRUX_DONE && issued == 0 && is_at(i));
    }
}

/* Each kind, dates that go back, the last number that there is, and the largest amounts, in a register whose counter has five bytes and
 * little room left: the fourth order fills it to the cent. */
static void make_orders(void)
{
    uint8_t narrow[DITGRUX_SETTINGS];
    struct ditgrux_details sale = details_of(3, DITGRUX_STANDARD, 0);
    memcpy(narrow, settings, sizeof narrow);
    put(narrow + 83, 8, 5);
    memset(journal, 0xA5, sizeof journal);
    CHECK(ditgrux_open(narrow, sizeof narrow, journal, sizeof journal, state, sizeof state) == DITGRUX_DONE);
    issues(1);
    sale.standard = sale.reduced_1 = sale.reduced_2 = sale.zero = sale.special = largest;
    CHECK(ditgrux_issue_details(state, sizeof state, &sale, NULL, 0, journal, sizeof journal) == DITGRUX_DONE);

    orders[0] = details_of(10, DITGRUX_STANDARD, 1);
    orders[1] = details_of(11, DITGRUX_CANCELLATION, -1);
    orders[1].year = 2030;
    orders[2] = sale;
    orders[2].kind = DITGRUX_TRAINING;
    orders[2].number = 20;
    orders[3] = details_of(21, DITGRUX_STANDARD, 0);
    orders[3].special = full_counter - 5 * largest;
    orders[4] = details_of(UINT32_MAX, DITGRUX_CANCELLATION, 0);
    orders[4].standard = orders[4].reduced_1 = orders[4].reduced_2 = orders[4].zero = orders[4].special = -largest;
    one_by_one();
    CHECK(ditgrux_counter(states[0], DITGRUX_STATE) == 5 * largest && ditgrux_counter(states[4], DITGRUX_STATE) == full_counter);
    CHECK(ditgrux_counter(states[ORDERS], DITGRUX_STATE) == full_counter - 5 * largest);
    CHECK(ditgrux_receipts(states[ORDERS], DITGRUX_STATE) == 2 + ORDERS);
    CHECK(ditgrux_last_number(states[ORDERS], DITGRUX_STATE) == UINT32_MAX);
}

/* Two orders are wrong: the first of them decides, whichever number is the smaller. */
static void two_wrong(void)
{
    struct ditgrux_details list[ORDERS];
    size_t issued;
    memcpy(list, orders, sizeof list);
    list[1].zero = largest + 1;
    list[3].month = 13;
    go_to(0);
    CHECK(listed(list, ORDERS, sizeof journal, &issued) == DITGRUX_BAD_AMOUNT && issued == 1 && is_at(1));
    list[1] = orders[1];
    list[1].day = 32;
    list[3] = orders[3];
    list[3].special = -largest - 1;
    go_to(0);
    CHECK(listed(list, ORDERS, sizeof journal, &issued) == DITGRUX_BAD_DATE && issued == 1 && is_at(1));
}

static void lists(void)
{
    size_t place;
    make_orders();
    parts();
    entries();
    two_wrong();
    for (place = 0; place < ORDERS; place++) {
        refused_ways(place);
        one_after_the_other(place);
    }
    rooms();
    cut_lists();
}

/* Five orders, numbered from this one on; the fourth is a training receipt. */
static void numbered_from(uint32_t number)
{
    uint32_t i;
    for (i = 0; i < ORDERS; i++)
        orders[i] = details_of(number + i, i == 3 ? DITGRUX_TRAINING : DITGRUX_STANDARD, 1 + (int64_t)i);
}

/* Before the first receipt: the list must begin with the start receipt. 10 is asked of the first receipt of the register alone, and
 * after 7, 8 and 9. */
static void lists_before_start(void)
{
    static const uint32_t kinds[] = {DITGRUX_STANDARD, DITGRUX_CANCELLATION, DITGRUX_TRAINING};
    struct ditgrux_details wrong;
    const size_t place = 0;
    uint32_t i;
    fresh();
    numbered_from(1);
    orders[0] = details_of(1, DITGRUX_STANDARD, 0);
    for (i = 1; i < 4; i++) /* five zeros again, of each kind */
        orders[i] = details_of(1 + i, kinds[i - 1], 0);
    one_by_one();
    parts();
    entries();
    for (i = 0; i < 3; i++) {
        wrong = details_of(1, kinds[i], 1);
        refused_at(place, &wrong, DITGRUX_NO_START);
        wrong = details_of(1, kinds[i], 0);
        if (kinds[i] != DITGRUX_STANDARD)
            refused_at(place, &wrong, DITGRUX_NO_START);
        wrong.special = -1;
        refused_at(place, &wrong, DITGRUX_NO_START);
        wrong.special = largest + 1;
        refused_at(place, &wrong, DITGRUX_BAD_AMOUNT);
    }
    WRONG(number, 0, DITGRUX_NUMBER_NOT_ABOVE);
    WRONG(kind, 3, DITGRUX_NUMBER_NOT_ABOVE);
    WRONG(hour, 24, DITGRUX_BAD_DATE);
    rooms();
    cut_lists();
}

/* Right after a change: the receipts name the new serial, and the count of the last pair rises by theirs. The pair before is as it was.
 * A second list goes on counting. The change may come before the start receipt. */
static void lists_after_change(void)
{
    uint8_t under[DITGRUX_SETTINGS], given[DITGRUX_SIGNATURE];
    struct ditgrux_details found;
    size_t place, before, issued, wrote;
    fresh();
    issues(1);
    issues(2);
    changes_to("3c4d5e");
    place = number_at(state + PLACE_AT, 8);
    before = journal_length();
    numbered_from(3);
    one_by_one();
    parts();
    entries();
    go_to(0);
    keep();
    CHECK(listed(orders, 2, sizeof journal, &issued) == DITGRUX_DONE && issued == 2);
    CHECK(number_at(state + OPEN_AT, 4) == 2 && number_at(journal + place, 4) == 2 && number_at(state + PLACE_AT, 8) == place);
    CHECK(listed(orders + 2, 3, sizeof journal, &issued) == DITGRUX_DONE && issued == 3);
    CHECK(number_at(state + OPEN_AT, 4) == 5 && number_at(journal + place, 4) == 5 && number_at(state + PLACE_AT, 8) == place);
    CHECK(memcmp(journal, twin, place) == 0 && memcmp(state, other, 403) == 0 && ditgrux_receipts(state, sizeof state) == 7);
    CHECK(ditgrux_counter(state, sizeof state) == 45 * (1 + 1 + 2 + 3 + 5));
    CHECK(ditgrux_settings_in(state, sizeof state, 0, under, sizeof under) == DITGRUX_DONE); /* not under the old serial */
    CHECK(ditgrux_read_details(under, sizeof under, journal + before + 2, number_at(journal + before, 2), &found, given, &wrote) ==
          DITGRUX_ENTRY_MISSPELLED);
    CHECK(gives_state() && ditgrux_serials(other, sizeof other) == 2);

    fresh();
    changes_to("3c4d5e");
    numbered_from(1);
    orders[0] = details_of(1, DITGRUX_STANDARD, 0);
    one_by_one();
    parts();
    entries();
}

/* Three hundred receipts in one call: what three hundred calls leave, although the count no longer fits a byte. */
static void long_list(void)
{
    enum { MANY = 300 };
    static uint8_t list[MANY * DITGRUX_DETAILS], long_journal[MANY * DITGRUX_LONGEST_ENTRY], long_twin[MANY * DITGRUX_LONGEST_ENTRY];
    struct ditgrux_details details;
    size_t issued = SIZE_MAX, length;
    uint32_t i, index;
    memset(long_twin, 0xA5, sizeof long_twin);
    CHECK(ditgrux_open(settings, sizeof settings, long_twin, sizeof long_twin, state, sizeof state) == DITGRUX_DONE);
    memcpy(other, state, sizeof state);
    memcpy(long_journal, long_twin, sizeof long_journal);
    for (i = 0; i < MANY; i++) {
        details = details_of(1 + i * 1000, i % 3, i ? (int64_t)i - 100 : 0);
        ditgrux_pack_details(&details, list + i * DITGRUX_DETAILS);
        CHECK(ditgrux_issue_details(other, sizeof other, &details, NULL, 0, long_twin, sizeof long_twin) == DITGRUX_DONE);
    }
    CHECK(ditgrux_issue_list(state, sizeof state, list, sizeof list, long_journal, sizeof long_journal, &issued) == DITGRUX_DONE);
    CHECK(issued == MANY && memcmp(state, other, sizeof state) == 0 && memcmp(long_journal, long_twin, sizeof long_journal) == 0);
    length = journal_length();
    CHECK(taken_over(long_journal, length, &index) == DITGRUX_DONE && memcmp(state, other, sizeof state) == 0);
    CHECK(ditgrux_receipts(state, sizeof state) == MANY && number_at(long_journal + number_at(state + PLACE_AT, 8), 4) == MANY);
    CHECK(ditgrux_check_head(long_journal, length, key, sizeof key, 8, other, sizeof other) == DITGRUX_DONE);
    for (i = 0; i < MANY; i += 7) { /* the last call ends before its steps do */
        CHECK(ditgrux_receipts(other, sizeof other) == i);
        CHECK(ditgrux_check_steps(other, sizeof other, long_journal, length, 7, &index) == DITGRUX_DONE && index == 0);
    }
    CHECK(memcmp(state, other, sizeof state) == 0);
}

/* Where power fails after a list, be the pair of its receipts new or not. */
static void power_cut_in_list(int changed)
{
    uint32_t index, before;
    size_t stored, covered = 0, place, forms, issued;
    fresh();
    issues(1);
    if (changed)
        changes_to("1a2c");
    else
        issues(2);
    numbered_from(3);
    one_by_one();
    before = ditgrux_receipts(state, sizeof state);
    place = number_at(state + PLACE_AT, 8);
    CHECK(listed(orders, ORDERS, sizeof journal, &issued) == DITGRUX_DONE);
    /* the entries are stored, or a part of them, the count is not: the old journal */
    for (stored = length_at(0); stored <= length_at(ORDERS); stored++) {
        memcpy(twin, journals[0], sizeof journal);
        memcpy(twin + length_at(0), journal + length_at(0), stored - length_at(0));
        CHECK(taken_over(twin, length_at(0), &index) == DITGRUX_DONE && memcmp(other, states[0], sizeof other) == 0);
    }
    /* the same list again, from the state that this wrote, leaves the same bytes */
    memcpy(state, other, sizeof state);
    memcpy(journal, twin, sizeof journal);
    CHECK(listed(orders, ORDERS, sizeof journal, &issued) == DITGRUX_DONE && issued == ORDERS && is_at(ORDERS));
    /* the entries and the count are stored, the length is not: 15 at the first entry that the length does not cover */
    for (stored = length_at(0); stored < length_at(ORDERS); stored++) {
        covered += stored == length_at(covered + 1);
        CHECK(taken_over(journal, stored, &index) == DITGRUX_ENTRY_CUT && index == before + covered);
    }
    CHECK(covered == ORDERS - 1);
    /* the walk with the old length finds the new one, and with it the journal is accepted */
    CHECK(walk(journal, length_at(0), &forms) == length_at(ORDERS) && forms == before + ORDERS);
    /* all but the state are stored: the new state, with all receipts of the list */
    CHECK(taken_over(journal, length_at(ORDERS), &index) == DITGRUX_DONE && memcmp(other, states[ORDERS], sizeof other) == 0);
    /* the old state is sound, and its next receipt writes over the first of the list; the count says one */
    memcpy(state, states[0], sizeof state);
    CHECK(listed(orders + 1, 1, sizeof journal, &issued) == DITGRUX_DONE && issued == 1);
    CHECK(memcmp(journal + length_at(0), journals[ORDERS] + length_at(0), length_at(1) - length_at(0)) != 0);
    CHECK(number_at(journal + place, 4) == (changed ? 1 : before + 1) && gives_state());
}

/* Where power fails after a list of which the third order was refused, by its number or because the buffer is full: the two before it are
 * issued, and what is stored of them counts. */
static void power_cut_in_part(uint32_t number)
{
    struct ditgrux_details list[ORDERS];
    size_t issued, forms, room;
    uint32_t index;
    fresh();
    issues(1);
    numbered_from(2);
    one_by_one();
    memcpy(list, orders, sizeof list);
    room = number == DITGRUX_NO_ROOM ? length_at(3) - 1 : sizeof journal;
    if (number != DITGRUX_NO_ROOM)
        list[2].number = list[1].number;
    CHECK(listed(list, ORDERS, room, &issued) == number && issued == 2 && is_at(2));
    /* the entries are stored: the journal without them */
    memcpy(twin, journals[0], sizeof journal);
    memcpy(twin + length_at(0), journal + length_at(0), length_at(2) - length_at(0));
    CHECK(taken_over(twin, length_at(0), &index) == DITGRUX_DONE && memcmp(other, states[0], sizeof other) == 0);
    /* and the count: 15 at the first of them, and the walk finds the new length */
    CHECK(taken_over(journal, length_at(0), &index) == DITGRUX_ENTRY_CUT && index == 1);
    CHECK(walk(journal, length_at(0), &forms) == length_at(2) && forms == 3);
    /* and the length: the state after the two */
    CHECK(taken_over(journal, length_at(2), &index) == DITGRUX_DONE && memcmp(other, states[2], sizeof other) == 0);
    /* orders whose number is not above the last one of that state are issued; the list goes on with the first one above it */
    CHECK(ditgrux_last_number(other, sizeof other) == orders[1].number);
    CHECK(listed(orders + 2, ORDERS - 2, sizeof journal, &issued) == DITGRUX_DONE && issued == ORDERS - 2 && is_at(ORDERS));
}

/* A list with a state from before a change writes over the new serial. */
static void list_with_old_state(void)
{
    uint8_t old[DITGRUX_STATE];
    size_t issued, length;
    fresh();
    issues(1);
    memcpy(old, state, sizeof state);
    length = journal_length();
    changes_to("1a2c");
    memcpy(state, old, sizeof state);
    numbered_from(2);
    CHECK(listed(orders, 1, sizeof journal, &issued) == DITGRUX_DONE && issued == 1);
    CHECK(ditgrux_serials(state, sizeof state) == 1 && number_at(journal + length, 4) != 4 && gives_state());
}

/* The values of the fields in turn `i`: in as many turns as there are values each field has each of them. */
#define NUMBER(field) numbers[(i + (field)) % NUMBERS]
#define AMOUNT(field) amounts[(i + (field)) % AMOUNTS]

/* Packed details have the layout of the header, are 72 bytes and no more, and come back, whatever their values. */
static void packing(void)
{
    static const uint32_t numbers[] = {0, 1, 0x01020304, 0x7FFFFFFF, 0x80000000, UINT32_MAX};
    static const int64_t amounts[] = {0, 1, -1, 0x0102030405060708, INT64_MAX, INT64_MIN, -99999999999};
    enum { NUMBERS = sizeof numbers / sizeof numbers[0], AMOUNTS = sizeof amounts / sizeof amounts[0] };
    uint8_t bytes[DITGRUX_DETAILS + 2];
    struct ditgrux_details d, back;
    int i, j;
    for (i = 0; i < NUMBERS * AMOUNTS; i++) {
        d.number = NUMBER(0);
        d.year = NUMBER(1);
        d.month = NUMBER(2);
        d.day = NUMBER(3);
        d.hour = NUMBER(4);
        d.minute = NUMBER(5);
        d.second = NUMBER(6);
        d.kind = NUMBER(7);
        d.standard = AMOUNT(0);
        d.reduced_1 = AMOUNT(1);
        d.reduced_2 = AMOUNT(2);
        d.zero = AMOUNT(3);
        d.special = AMOUNT(4);
        memset(bytes, 0xA5, sizeof bytes);
        ditgrux_pack_details(&d, bytes + 1);
        CHECK(bytes[0] == 0xA5 && bytes[1 + DITGRUX_DETAILS] == 0xA5);
        for (j = 0; j < 8; j++)
            CHECK(number_at(bytes + 1 + 4 * j, 4) == NUMBER(j));
        for (j = 0; j < 5; j++)
            CHECK(number_at(bytes + 33 + 8 * j, 8) == (uint64_t)AMOUNT(j));
        back = ditgrux_details_in(bytes + 1);
        CHECK(same_details(&back, &d));
    }
}

/* ---- a journal checked in parts */

enum { MOST_CALLS = 15 };

/* The state of a register and its whole buffer after each of its calls. A step checks what one call wrote, so a check comes through these
 * states: the way. */
static uint8_t way[MOST_CALLS + 1][DITGRUX_STATE], stages[MOST_CALLS + 1][sizeof journal];
static size_t calls;

static size_t way_length(size_t place)
{
    return ditgrux_journal_length(way[place], DITGRUX_STATE);
}

static uint32_t way_receipts(size_t place)
{
    return ditgrux_receipts(way[place], DITGRUX_STATE);
}

/* The receipts of the last pair that the state at this place has, and where the journal counts them. */
static size_t way_open(size_t place)
{
    return number_at(way[place] + OPEN_AT, 4);
}

static size_t way_count_at(size_t place)
{
    return number_at(way[place] + PLACE_AT, 8);
}

static int is_on_way(size_t place)
{
    return memcmp(state, way[place], sizeof state) == 0;
}

/* A receipt for this letter: r, signed; u, an unsigned cancellation; t, training; m, the largest amounts. The numbers are 10, 20, 30. */
static struct ditgrux_details receipt_of(char letter)
{
    const uint32_t before = ditgrux_receipts(state, sizeof state);
    struct ditgrux_details details = details_of(10 * (before + 1), DITGRUX_STANDARD, before != 0);
    if (letter == 'u')
        details = details_of(details.number, DITGRUX_CANCELLATION, -3);
    if (letter == 't')
        details.kind = DITGRUX_TRAINING;
    if (letter == 'm')
        details.standard = details.reduced_1 = details.reduced_2 = details.zero = details.special = largest;
    return details;
}

/* A register of this width that makes these calls: a receipt for each letter above, a change of the certificate for each c. */
static void live(size_t width, const char *life)
{
    static const char *const serials[] = {"0", "0123456789abcdef0123456789abcdef", "00", "f", "1a2", "1a2b0", "fedcba9876543210"};
    uint8_t own[DITGRUX_SETTINGS];
    struct ditgrux_details details;
    memcpy(own, settings, sizeof own);
    put(own + 83, 8, width);
    memset(journal, 0xA5, sizeof journal);
    CHECK(ditgrux_open(own, sizeof own, journal, sizeof journal, state, sizeof state) == DITGRUX_DONE);
    for (calls = 0;; calls++) {
        memcpy(way[calls], state, sizeof state);
        memcpy(stages[calls], journal, sizeof journal);
        if (life[calls] == 0)
            break;
        details = receipt_of(life[calls]);
        if (life[calls] == 'c')
            changes_to(serials[ditgrux_serials(state, sizeof state) - 1]);
        else
            CHECK(ditgrux_issue_details(state, sizeof state, &details, signature, life[calls] == 'u' ? 0 : sizeof signature, journal,
                                        sizeof journal) == DITGRUX_DONE);
        CHECK(journal_length() > way_length(calls));
    }
}

/* The number of a check of so many steps from a state. It changes neither the journal's whole buffer nor a byte beside the state; the state
 * after it is `state`. */
static uint32_t checked(const uint8_t *from, const uint8_t *bytes, size_t length, size_t steps, uint32_t *index)
{
    static uint8_t before[sizeof journal];
    uint8_t beside[DITGRUX_STATE + 2];
    uint32_t number;
    memcpy(before, bytes, sizeof before);
    memset(beside, 0xA5, sizeof beside);
    memcpy(beside + 1, from, DITGRUX_STATE);
    *index = UINT32_MAX;
    number = ditgrux_check_steps(beside + 1, DITGRUX_STATE, bytes, length, steps, index);
    CHECK(memcmp(before, bytes, sizeof before) == 0 && beside[0] == 0xA5 && beside[DITGRUX_STATE + 1] == 0xA5);
    memcpy(state, beside + 1, sizeof state);
    return number;
}

/* So many steps from this place lead to that place. */
static int leads(size_t place, size_t steps, size_t to, const uint8_t *bytes, size_t length)
{
    uint32_t index;
    return checked(way[place], bytes, length, steps, &index) == DITGRUX_DONE && index == 0 && is_on_way(to);
}

/* So many steps from this place are refused with this number, after the receipts of the place `stop`; the state is as it was. */
static int stops(size_t place, size_t steps, size_t stop, const uint8_t *bytes, size_t length, uint32_t number)
{
    uint32_t index;
    return checked(way[place], bytes, length, steps, &index) == number && index == way_receipts(stop) && is_on_way(place);
}

static size_t smaller(size_t a, size_t b)
{
    return a < b ? a : b;
}

/* From this place on the journal is accepted, and ends at the place `end`, however many steps a call has left. */
static void ends_from(size_t place, size_t end, const uint8_t *bytes, size_t length)
{
    size_t steps;
    for (steps = 0; steps <= end - place + 2; steps++)
        CHECK(leads(place, steps, smaller(place + steps, end), bytes, length));
    CHECK(leads(place, SIZE_MAX / 2 + 1, end, bytes, length) && leads(place, SIZE_MAX, end, bytes, length));
}

/* The head of the journal gives the first state of the way, and Take over this answer. */
static void begins(const uint8_t *bytes, size_t length, uint32_t number, uint32_t receipts)
{
    uint32_t index;
    memcpy(state, way[0], sizeof state);
    CHECK(taken_over(bytes, length, &index) == number && index == receipts);
    memset(state, 0xA5, sizeof state);
    CHECK(ditgrux_check_head(bytes, length, key, sizeof key, number_at(way[0] + WIDTH_AT, 8), state, sizeof state) == DITGRUX_DONE);
    CHECK(is_on_way(0));
}

/* The journal is accepted, from each place on, and by Take over with the same state. */
static void ends_at(size_t end, const uint8_t *bytes, size_t length)
{
    size_t place;
    begins(bytes, length, DITGRUX_DONE, 0);
    CHECK(memcmp(other, way[end], sizeof other) == 0);
    for (place = 0; place <= end; place++)
        ends_from(place, end, bytes, length);
}

/* The journal is refused with this number at the place `stop`: by Take over, and by each call that comes to it, from each place before. A
 * call that does not come to it is accepted. */
static void stops_at(size_t stop, const uint8_t *bytes, size_t length, uint32_t number)
{
    size_t place, steps;
    begins(bytes, length, number, way_receipts(stop));
    for (place = 0; place <= stop; place++) {
        for (steps = 0; steps <= stop - place; steps++)
            CHECK(leads(place, steps, place + steps, bytes, length));
        for (; steps <= stop - place + 3; steps++)
            CHECK(stops(place, steps, stop, bytes, length, number));
        CHECK(stops(place, SIZE_MAX, stop, bytes, length, number));
    }
}

/* Every list of steps from this place on, with a call of no steps before each, leads through the way to its end. */
static void every_list(size_t place, const uint8_t *from)
{
    const size_t length = way_length(calls);
    uint8_t here[DITGRUX_STATE];
    size_t steps;
    uint32_t index;
    for (steps = 1; place + steps <= calls + 1; steps++) {
        CHECK(checked(from, stages[calls], length, 0, &index) == DITGRUX_DONE && index == 0 && is_on_way(place));
        memcpy(here, state, sizeof here);
        CHECK(checked(here, stages[calls], length, steps, &index) == DITGRUX_DONE && index == 0);
        CHECK(is_on_way(smaller(place + steps, calls)));
        memcpy(here, state, sizeof here);
        if (place + steps < calls)
            every_list(place + steps, here);
    }
}

/* The loop of the header: its number, and how often it called. */
static uint32_t loop(const uint8_t *bytes, size_t length, size_t steps, size_t *turns, uint32_t *index)
{
    size_t before;
    uint32_t number = ditgrux_check_head(bytes, length, key, sizeof key, number_at(way[0] + WIDTH_AT, 8), state, sizeof state);
    *turns = 0;
    for (before = 0; number == DITGRUX_DONE && before != ditgrux_journal_length(state, sizeof state);) {
        before = ditgrux_journal_length(state, sizeof state);
        ++*turns;
        number = ditgrux_check_steps(state, sizeof state, bytes, length, steps, index);
    }
    return number;
}

/* The loop ends with the first call that takes no step, whatever the steps of a call, or at the call that is refused. */
static void loops(void)
{
    size_t steps, turns;
    uint32_t index = 1;
    for (steps = 1; steps <= calls + 2; steps++) {
        CHECK(loop(stages[calls], way_length(calls), steps, &turns, &index) == DITGRUX_DONE && index == 0 && is_on_way(calls));
        CHECK(turns == calls / steps + (calls % steps != 0) + 1);
        CHECK(loop(stages[calls], way_length(calls) + 1, steps, &turns, &index) == DITGRUX_BYTES_LEFT && index == way_receipts(calls));
        CHECK(turns == calls / steps + 1 && is_on_way(calls - calls % steps));
    }
    CHECK(loop(stages[calls], way_length(calls), SIZE_MAX, &turns, &index) == DITGRUX_DONE && turns == 1 + (calls > 0) && is_on_way(calls));
}

/* The journal lacks the entries after this place, and its pair counts them. A loop that ends where the length in the state is that of the
 * journal does not notice if its calls come to that place: only the next step gets 15, as Take over does. */
static void ends_too_soon(size_t stop)
{
    const size_t length = way_length(stop);
    size_t steps;
    uint32_t index, number;
    for (steps = 1; steps <= stop; steps++) {
        memcpy(state, way[0], sizeof state);
        for (number = DITGRUX_DONE; number == DITGRUX_DONE && journal_length() < length;)
            number = ditgrux_check_steps(state, sizeof state, stages[calls], length, steps, &index);
        CHECK(number == (stop % steps == 0 ? DITGRUX_DONE : DITGRUX_ENTRY_CUT) && is_on_way(stop - stop % steps));
    }
    CHECK(stops(stop, 1, stop, stages[calls], length, DITGRUX_ENTRY_CUT));
    CHECK(taken_over(stages[calls], length, &index) == DITGRUX_ENTRY_CUT && index == way_receipts(stop));
}

/* Every length of the journal. 15 where the last pair counts an entry more, else 21 where a part of a pair follows; the bytes after that
 * length are there and are not read. */
static void cut(void)
{
    size_t length, stop = 0;
    for (length = way_length(0); length < way_length(calls); length++) {
        stop += length == way_length(stop + 1);
        if (number_at(stages[calls] + way_count_at(stop), 4) > way_open(stop)) {
            CHECK(stops(stop, 1, stop, stages[calls], length, DITGRUX_ENTRY_CUT));
            CHECK(stops(0, SIZE_MAX, stop, stages[calls], length, DITGRUX_ENTRY_CUT));
            if (length == way_length(stop))
                ends_too_soon(stop);
            if (length - way_length(stop) < 4 || length + 1 == way_length(stop + 1))
                stops_at(stop, stages[calls], length, DITGRUX_ENTRY_CUT);
        } else if (length == way_length(stop))
            ends_at(stop, stages[calls], length);
        else
            stops_at(stop, stages[calls], length, DITGRUX_BYTES_LEFT);
    }
    CHECK(calls == 0 || stop == calls - 1);
}

/* The journal at this place, in `twin`, with a receipt that was issued from a state with another number at `at`. Its length. */
static size_t forged(size_t place, size_t at, int count, uint64_t number, const struct ditgrux_details *details)
{
    uint8_t wrong[DITGRUX_STATE];
    memcpy(twin, stages[place], sizeof twin);
    memcpy(wrong, way[place], sizeof wrong);
    put(wrong + at, count, number);
    CHECK(ditgrux_issue_details(wrong, sizeof wrong, details, signature, sizeof signature, twin, sizeof twin) == DITGRUX_DONE);
    put(twin + way_count_at(place), 4, way_open(place) + 1);
    return ditgrux_journal_length(wrong, sizeof wrong);
}

#define FORGED(at, count, value, details, number) stops_at(place, twin, forged(place, at, count, value, details), number)

/* An entry at this place with one thing wrong in it: 16 to 20. */
static void wrong_entries(size_t place)
{
    enum { ID = 3, COUNTER = 403, LAST = 411, CHAIN = 419, KEY = 371 }; /* places in the state */
    const uint32_t last = ditgrux_last_number(way[place], DITGRUX_STATE), first = way_receipts(place) == 0;
    const size_t newest = SERIALS_AT + SLOT * (ditgrux_serials(way[place], DITGRUX_STATE) - 1), width = number_at(way[place] + WIDTH_AT, 8);
    const struct ditgrux_details good = details_of(last + 5, DITGRUX_STANDARD, !first);
    struct ditgrux_details details = good;
    FORGED(ID, 1, 'X', &good, DITGRUX_ENTRY_MISSPELLED);
    FORGED(newest, 1, 'e', &good, DITGRUX_ENTRY_MISSPELLED);
    FORGED(WIDTH_AT, 8, width == 8 ? 7 : 8, &good, DITGRUX_ENTRY_MISSPELLED);
    if (!first) {
        details.number = last;
        FORGED(LAST, 4, last - 1, &details, DITGRUX_ENTRY_NUMBER);
        details.number = last - 1;
        FORGED(LAST, 4, last - 2, &details, DITGRUX_ENTRY_NUMBER);
    } else {
        details = details_of(2, DITGRUX_STANDARD, 1);
        FORGED(LAST, 8, (uint64_t)1 << 32 | 1, &details, DITGRUX_ENTRY_NO_START);
        details = details_of(2, DITGRUX_CANCELLATION, 0);
        FORGED(LAST, 8, (uint64_t)1 << 32 | 1, &details, DITGRUX_ENTRY_NO_START);
        details.kind = DITGRUX_TRAINING;
        FORGED(LAST, 8, (uint64_t)1 << 32 | 1, &details, DITGRUX_ENTRY_NO_START);
    }
    FORGED(CHAIN, 1, way[place][CHAIN] ^ 1u, &good, DITGRUX_ENTRY_CHAIN);
    FORGED(CHAIN + 7, 1, way[place][CHAIN + 7] ^ 1u, &good, DITGRUX_ENTRY_CHAIN);
    FORGED(COUNTER, 8, (uint64_t)ditgrux_counter(way[place], DITGRUX_STATE) + 1, &good, DITGRUX_ENTRY_COUNTER);
    FORGED(KEY, 1, way[place][KEY] ^ 1u, &good, DITGRUX_ENTRY_COUNTER);
}

/* Check steps of the journal at this place with these bytes after it. */
#define THEN(bytes, number)                                                                                                                \
    (memcpy(twin, stages[place], sizeof twin), memcpy(twin + way_length(place), bytes, sizeof(bytes) - 1),                                 \
     stops_at(place, twin, way_length(place) + sizeof(bytes) - 1, number))

/* Bytes at this place that do not start a pair: 21, 30 and 31. And an entry that is counted and missing: 15. */
static void wrong_pairs(size_t place)
{
    const int full = ditgrux_serials(way[place], DITGRUX_STATE) == DITGRUX_MOST_SERIALS;
    size_t length;
    THEN("\0\0\0\0\0\0\0\0\0\0\0\0", DITGRUX_BYTES_LEFT);
    THEN("\xFF\xFF\xFF\xFF\xFF\xFF\xFF\xFF", DITGRUX_BYTES_LEFT);
    THEN(PAIR("\2", "1A"), DITGRUX_BYTES_LEFT);
    THEN(PAIR("\41", "0123456789abcdef0123456789abcdef0"), DITGRUX_BYTES_LEFT);
    THEN("\0\0\0\1" "9" "\0\0\0", DITGRUX_BYTES_LEFT);
    THEN("\0\0\0\4" "1a2b" "\0\0\0", DITGRUX_BYTES_LEFT); /* cut: before 30 */
    THEN(PAIR("\4", "1a2b"), DITGRUX_SERIAL_USED);        /* the first: before 31 */
    memcpy(twin, stages[place], sizeof twin);             /* the newest */
    length = number_at(way[place] + SERIALS_AT + SLOT * ditgrux_serials(way[place], DITGRUX_STATE) - 8, 8);
    memcpy(twin + way_length(place), twin + way_count_at(place) - length - 4, length + 4);
    put(twin + way_length(place) + length + 4, 4, 0);
    stops_at(place, twin, way_length(place) + length + 8, DITGRUX_SERIAL_USED);
    if (full)
        THEN(PAIR("\1", "9"), DITGRUX_SERIALS_FULL);
    memcpy(twin, stages[place], sizeof twin);
    put(twin + way_count_at(place), 4, way_open(place) + 1);
    stops_at(place, twin, way_length(place), DITGRUX_ENTRY_CUT);
    put(twin + way_count_at(place), 4, UINT32_MAX);
    stops_at(place, twin, way_length(place), DITGRUX_ENTRY_CUT);
}

/* 6 at this place: the journal is shorter than the state's, or counts fewer receipts in the last pair. Nothing changes. */
static void not_of_journal(size_t place)
{
    size_t length, count;
    memcpy(journal, stages[calls], sizeof journal);
    memcpy(state, way[place], sizeof state);
    keep();
    for (length = 0; length < way_length(place); length++)
        not_checked(state, sizeof state, length);
    CHECK(kept());
    for (count = 0; count < way_open(place); count++) {
        put(journal + way_count_at(place), 4, count);
        keep();
        not_checked(state, sizeof state, sizeof journal);
        not_checked(state, sizeof state, way_length(calls));
        not_checked(state, sizeof state, way_length(place));
        CHECK(kept());
    }
    memcpy(twin, journal, sizeof twin);
    for (; count < way_open(place) + 3; count++) { /* no steps: not 6, whatever comes */
        put(twin + way_count_at(place), 4, count);
        CHECK(leads(place, 0, place, twin, way_length(place)) && leads(place, 0, place, twin, sizeof twin));
    }
    put(twin + way_count_at(place), 4, UINT32_MAX);
    CHECK(leads(place, 0, place, twin, way_length(place)));
}

/* Before the length of the state at this place only the count of its last pair is read: all other bytes there are changed. */
static void not_read(size_t place)
{
    const size_t count_at = way_count_at(place);
    size_t i;
    memcpy(twin, stages[calls], sizeof twin);
    for (i = 0; i < way_length(place); i++)
        if (i < count_at || i >= count_at + 4)
            twin[i] ^= 0xFF;
    ends_from(place, calls, twin, way_length(calls));
    CHECK(stops(place, SIZE_MAX, calls, twin, way_length(calls) + 1, DITGRUX_BYTES_LEFT));
    put(twin + way_count_at(calls), 4, way_open(calls) + 1); /* and that count is read: one receipt more is missing */
    if (count_at == way_count_at(calls))
        CHECK(stops(place, SIZE_MAX, calls, twin, way_length(calls), DITGRUX_ENTRY_CUT));
}

/* The journal has grown between two checks, by any number of calls: the state from the shorter one leads to the end of the longer one. If
 * it has shrunk, 6. */
static void grown(void)
{
    size_t shorter, longer;
    for (shorter = 0; shorter <= calls; shorter++) {
        ends_at(shorter, stages[shorter], way_length(shorter));
        for (longer = shorter; longer <= calls; longer++)
            ends_from(shorter, longer, stages[longer], way_length(longer));
        for (longer = shorter + 1; longer <= calls; longer++) {
            memcpy(state, way[longer], sizeof state);
            memcpy(journal, stages[shorter], sizeof journal);
            keep();
            not_checked(state, sizeof state, way_length(shorter));
            CHECK(kept());
        }
    }
}

/* Key and width are those of the state: with another key the next standard receipt gets 20, with another width 16. */
static void key_and_width(size_t place, const char *life)
{
    uint8_t from[DITGRUX_STATE];
    uint32_t index;
    if (life[place] != 'r')
        return;
    memcpy(from, way[place], sizeof from);
    from[371 + 31] ^= 1;
    CHECK(checked(from, stages[calls], way_length(calls), 1, &index) == DITGRUX_ENTRY_COUNTER && index == way_receipts(place));
    CHECK(memcmp(state, from, sizeof from) == 0);
    memcpy(from, way[place], sizeof from);
    from[WIDTH_AT + 7] = from[WIDTH_AT + 7] == 8 ? 7 : 8;
    CHECK(checked(from, stages[calls], way_length(calls), 1, &index) == DITGRUX_ENTRY_MISSPELLED && index == way_receipts(place));
    CHECK(memcmp(state, from, sizeof from) == 0);
}

/* All of this for one register. */
static void checks(size_t width, const char *life)
{
    size_t place;
    live(width, life);
    ends_at(calls, stages[calls], way_length(calls));
    every_list(0, way[0]);
    loops();
    cut();
    grown();
    for (place = 0; place <= calls; place++) {
        wrong_entries(place);
        wrong_pairs(place);
        not_of_journal(place);
        not_read(place);
        key_and_width(place, life);
    }
}

/* The sum does not fit the width, in an entry that shows no counter: 20. */
static void too_large_sums(void)
{
    struct ditgrux_details details = details_of(30, DITGRUX_CANCELLATION, 0);
    const size_t place = 2;
    uint32_t index;
    live(5, "rm");
    details.zero = full_counter - ditgrux_counter(way[2], DITGRUX_STATE) + 1;
    FORGED(403, 8, 0, &details, DITGRUX_ENTRY_COUNTER);
    details.zero--; /* a cent less, and it fits */
    CHECK(checked(way[2], twin, forged(2, 403, 8, 0, &details), 1, &index) == DITGRUX_DONE && index == 0);
    CHECK(ditgrux_counter(state, sizeof state) == full_counter);
}

/* The number of a check of the head; its state is `state`. It changes neither the journal nor a byte beside the state. */
static uint32_t head(size_t length, size_t key_length, size_t width)
{
    uint8_t beside[DITGRUX_STATE + 2], longer[2 * DITGRUX_KEY] = {0};
    uint32_t number;
    memcpy(longer, key, sizeof key);
    memset(beside, 0xA5, sizeof beside);
    memcpy(twin, journal, sizeof twin);
    number = ditgrux_check_head(journal, length, longer, key_length, width, beside + 1, DITGRUX_STATE);
    CHECK(memcmp(twin, journal, sizeof twin) == 0 && beside[0] == 0xA5 && beside[DITGRUX_STATE + 1] == 0xA5);
    memcpy(state, beside + 1, sizeof state);
    return number;
}

/* The number of a refused check of the head, which leaves 447 zeros; 0 if it leaves anything else. */
static uint32_t no_head(size_t length, size_t key_length, size_t width)
{
    const uint32_t number = head(length, key_length, width);
    return is_all(0, state, sizeof state) ? number : 0;
}

/* A head with one byte changed, to every byte, gets the number of Take over, which here is given nothing but the head. If Take over refuses
 * what follows a shorter head, the head is good. */
static void changed_heads(void)
{
    uint8_t alone[15 + 6 + 4 + 4];
    uint32_t number, index;
    size_t at;
    int byte;
    for (at = 0; at < sizeof alone - 4; at++)
        for (byte = 0; byte < 256; byte++) {
            memcpy(journal, stages[calls], sizeof journal);
            journal[at] = (uint8_t)byte;
            memcpy(alone, journal, sizeof alone);
            put(alone + sizeof alone - 4, 4, 0);
            number = ditgrux_take_over(alone, sizeof alone, key, sizeof key, 8, other, sizeof other, &index);
            if (number == DITGRUX_DONE)
                CHECK(head(way_length(calls), sizeof key, 8) == DITGRUX_DONE && memcmp(state, other, sizeof state) == 0);
            else if (number == DITGRUX_BAD_HEAD)
                CHECK(no_head(sizeof alone, sizeof key, 8) == DITGRUX_BAD_HEAD);
            else
                CHECK(number > DITGRUX_BAD_HEAD && head(sizeof alone, sizeof key, 8) == DITGRUX_DONE);
        }
    memcpy(journal, stages[calls], sizeof journal);
}

/* The number for the head with this byte changed. */
static uint32_t head_with(size_t at, uint8_t byte)
{
    uint32_t number;
    memcpy(journal, stages[calls], sizeof journal);
    journal[at] = byte;
    number = no_head(way_length(calls), sizeof key, 8);
    memcpy(journal, stages[calls], sizeof journal);
    return number;
}

/* The check of the head: 4, then 14, then the state of a register without receipts, though the journal has two of them and goes on. */
static void heads(void)
{
    static const size_t widths[] = {0, 4, 9, 255, 256 + 8, (size_t)1 << 32 | 5, SIZE_MAX}, keys[] = {0, 16, 31, 33, 64};
    enum { CSP = 4, ID = 11, SERIAL = 15 + 6, COUNT = SERIAL + 4, HEAD = COUNT + 4 };
    size_t i, width;
    live(8, "rrcr");
    CHECK(number_at(journal + COUNT, 4) == 2);
    for (i = 0; i < HEAD; i++)
        CHECK(no_head(i, sizeof key, 8) == DITGRUX_BAD_HEAD);
    for (; i <= sizeof journal; i++)
        CHECK(head(i, sizeof key, 8) == DITGRUX_DONE && is_on_way(0));
    for (i = 0; i < sizeof widths / sizeof widths[0]; i++)
        CHECK(no_head(way_length(3), sizeof key, widths[i]) == DITGRUX_BAD_WIDTH && no_head(0, sizeof key, widths[i]) == DITGRUX_BAD_WIDTH);
    for (i = 0; i < sizeof keys / sizeof keys[0]; i++)
        CHECK(no_head(way_length(3), keys[i], 8) == DITGRUX_BAD_WIDTH && no_head(0, keys[i], 8) == DITGRUX_BAD_WIDTH);
    CHECK(head_with(3, 2) == DITGRUX_BAD_HEAD && head_with(3, 4) == DITGRUX_BAD_HEAD && head_with(0, 1) == DITGRUX_BAD_HEAD);
    CHECK(head_with(CSP, 'a') == DITGRUX_BAD_HEAD && head_with(CSP + 2, 'T') == DITGRUX_BAD_HEAD);
    CHECK(head_with(ID - 1, 0) == DITGRUX_BAD_HEAD && head_with(ID - 1, 33) == DITGRUX_BAD_HEAD);
    CHECK(head_with(ID, '_') == DITGRUX_BAD_HEAD && head_with(ID + 5, ' ') == DITGRUX_BAD_HEAD);
    CHECK(head_with(SERIAL - 1, 0) == DITGRUX_BAD_HEAD && head_with(SERIAL - 1, 33) == DITGRUX_BAD_HEAD);
    CHECK(head_with(SERIAL, 'G') == DITGRUX_BAD_HEAD && head_with(SERIAL + 3, 'A') == DITGRUX_BAD_HEAD);
    changed_heads();
    for (i = COUNT; i < sizeof journal; i++) /* neither the count nor what follows is read */
        journal[i] ^= 0xFF;
    CHECK(head(way_length(3), sizeof key, 8) == DITGRUX_DONE && is_on_way(0));
    for (width = 5; width <= 8; width++) { /* what Open gives */
        live(width, "rr");
        CHECK(head(way_length(2), sizeof key, width) == DITGRUX_DONE && is_on_way(0));
        CHECK(number_at(state + WIDTH_AT, 8) == width && ditgrux_receipts(state, sizeof state) == 0 && journal_length() == HEAD);
    }
}

/* ---- a state and a length that were lost */

/* Goes on from `state`, up to the end or to the first call that is refused. */
static uint32_t go_on(const uint8_t *bytes, size_t length, size_t steps, uint32_t *index)
{
    size_t before;
    uint32_t number;
    do {
        before = journal_length();
        number = ditgrux_check_steps(state, sizeof state, bytes, length, steps, index);
    } while (number == DITGRUX_DONE && before != journal_length());
    return number;
}

/* Finds the state in the buffer as docs/EMBEDDING.md has it, with so many steps a call and then one by one. The number of the step that is
 * refused, 0 where the journal fills the buffer. */
static uint32_t found(const uint8_t *buffer, size_t size, size_t steps, uint32_t *index)
{
    uint32_t number = ditgrux_check_head(buffer, size, key, sizeof key, number_at(way[0] + WIDTH_AT, 8), state, sizeof state);
    if (number == DITGRUX_DONE && go_on(buffer, size, steps, index) != DITGRUX_DONE)
        number = go_on(buffer, size, 1, index);
    return number;
}

/* The buffer at this place, in `twin`: after the journal first so many bytes of what the next call writes there, then these. */
static void filled(size_t place, size_t written, int byte)
{
    memcpy(twin, stages[place], sizeof twin);
    memset(twin + way_length(place), byte, sizeof twin - way_length(place));
    if (written > 0)
        memcpy(twin + way_length(place), stages[place + 1] + way_length(place), written);
}

/* In the buffer that `filled` made the state of this place is found, and the next step gets this number. */
static int finds(size_t place, uint32_t number)
{
    uint32_t index = UINT32_MAX;
    size_t steps;
    for (steps = 1; steps < 8; steps += 3)
        if (found(twin, sizeof twin, steps, &index) != number || index != way_receipts(place) || !is_on_way(place))
            return 0;
    return 1;
}

/* The journal ends at this place; the rest of the buffer is one byte, over and over. */
static void finds_end(size_t place, int byte)
{
    size_t size;
    uint32_t index = UINT32_MAX;
    filled(place, 0, byte);
    CHECK(finds(place, DITGRUX_BYTES_LEFT));
    for (size = way_length(place) + 1; size < way_length(place) + 9; size++)
        CHECK(found(twin, size, 4, &index) == DITGRUX_BYTES_LEFT && index == way_receipts(place) && is_on_way(place));
    CHECK(found(twin, way_length(place), 4, &index) == DITGRUX_DONE && index == 0 && is_on_way(place));
}

/* With the count of its last pair put right, as docs/EMBEDDING.md has it, the journal in `twin` is taken over up to this place. */
static int is_put_right(size_t place)
{
    uint32_t index;
    memcpy(twin + way_count_at(place), way[place] + OPEN_AT, 4);
    return taken_over(twin, way_length(place), &index) == DITGRUX_DONE && memcmp(other, way[place], sizeof other) == 0;
}

/* Power failed in the Issue after this place. The entry or a part of it is stored, the first or the last: the state without it.
 * Its count, too: the state with it. The count without the entry: the state without it, and 15 or 16. */
static void finds_entry(size_t place, int byte)
{
    const size_t entry = way_length(place + 1) - way_length(place);
    size_t written;
    for (written = 0; written <= entry; written++) {
        filled(place, 0, byte);
        memcpy(twin + way_length(place), stages[place + 1] + way_length(place + 1) - written, written);
        CHECK(finds(place, DITGRUX_BYTES_LEFT));
        filled(place, written, byte);
        CHECK(finds(place, DITGRUX_BYTES_LEFT));
    }
    put(twin + way_count_at(place), 4, way_open(place) + 1);
    CHECK(finds(place + 1, DITGRUX_BYTES_LEFT) && is_put_right(place + 1));
    filled(place, 0, byte);
    put(twin + way_count_at(place), 4, way_open(place) + 1);
    CHECK(finds(place, byte == 0 ? DITGRUX_ENTRY_MISSPELLED : DITGRUX_ENTRY_CUT) && is_put_right(place));
}

/* Power failed in the Change after this place. A part is stored: the state without the new serial. From the whole serial on, the state with
 * it; a count that is not whole gets 15 where the buffer was not all zeros. Take over without the pair gives the state before,
 * and from there the same change can be made again. */
static void finds_change(size_t place, int byte)
{
    const size_t pair = way_length(place + 1) - way_length(place);
    size_t written;
    uint32_t index;
    for (written = 0; written < pair - 4; written++) {
        filled(place, written, byte);
        CHECK(finds(place, DITGRUX_BYTES_LEFT));
    }
    for (; written <= pair; written++) {
        filled(place, written, byte);
        CHECK(finds(place + 1, byte == 0 || written == pair ? DITGRUX_BYTES_LEFT : DITGRUX_ENTRY_CUT) && is_put_right(place + 1));
    }
    CHECK(taken_over(twin, journal_length() - pair, &index) == DITGRUX_DONE && memcmp(other, way[place], sizeof other) == 0);
    memcpy(state, other, sizeof state);
    CHECK(ditgrux_change(state, sizeof state, way[place + 1] + SERIALS_AT + SLOT * ditgrux_serials(state, sizeof state), pair - 8, twin,
                         sizeof twin) == DITGRUX_DONE);
    CHECK(finds(place + 1, DITGRUX_BYTES_LEFT));
}

/* What is left of a longer entry after a shorter one that was written over it is not taken for a pair. */
static void finds_end_over_rest(size_t place)
{
    const struct ditgrux_details small = details_of(ditgrux_last_number(way[place], DITGRUX_STATE) + 1, DITGRUX_STANDARD, 0);
    uint8_t last[DITGRUX_STATE];
    uint32_t index;
    filled(place, way_length(place + 1) - way_length(place), 0);
    memcpy(last, way[place], sizeof last);
    CHECK(ditgrux_issue_details(last, sizeof last, &small, NULL, 0, twin, sizeof twin) == DITGRUX_DONE);
    CHECK(ditgrux_journal_length(last, sizeof last) < way_length(place + 1));
    CHECK(found(twin, sizeof twin, 4, &index) == DITGRUX_BYTES_LEFT && memcmp(state, last, sizeof last) == 0);
}

/* The whole journal, in `twin`, and then this byte, over and over. */
static void whole(int byte)
{
    filled(calls, 0, byte);
}

/* An entry is counted and not there: 15 or 16, after the state of this place. */
static int finds_missing(size_t place)
{
    return finds(place, DITGRUX_ENTRY_CUT) || finds(place, DITGRUX_ENTRY_MISSPELLED);
}

/* The count at the place that `state` names is 0xFFFFFFFF in a copy: every receipt of its pair is found, up to this place. With the count
 * put right the whole journal is found. */
static void finds_uncounted(size_t place, int byte)
{
    static uint8_t copy[sizeof twin];
    memset(twin + number_at(state + PLACE_AT, 8), 0xFF, 4);
    CHECK(finds_missing(place));
    memcpy(twin + number_at(state + PLACE_AT, 8), state + OPEN_AT, 4);
    CHECK(finds(calls, DITGRUX_BYTES_LEFT));
    memcpy(copy, twin, sizeof copy);
    whole(byte);
    CHECK(memcmp(twin, copy, sizeof copy) == 0);
}

/* Each count of the pair that ends at this place: one that is too low gets 21 where receipts follow that it does not count, and they can be
 * found. One that is too high gets 15 or 16 after the last receipt of the pair. Both can be put right. */
static void finds_torn(size_t place, int byte)
{
    static const uint32_t high[] = {1, 2, 0xFC, 0x1FC, 0xFFFF00, 0xFFFFFFF0};
    const size_t open = way_open(place);
    size_t count;
    for (count = 0; count < open; count++) {
        whole(byte);
        put(twin + way_count_at(place), 4, count);
        CHECK(finds(place - open + count, DITGRUX_BYTES_LEFT));
        CHECK(ditgrux_last_number(state, sizeof state) < ditgrux_last_number(way[place], DITGRUX_STATE));
        finds_uncounted(place, byte);
    }
    for (count = 0; count < sizeof high / sizeof *high; count++) {
        whole(byte);
        put(twin + way_count_at(place), 4, open + high[count]);
        CHECK(finds_missing(place) && is_put_right(place));
        CHECK(finds(calls, DITGRUX_BYTES_LEFT));
    }
}

/* The pair after this place is erased, with its receipts: 21, as if the journal ended there, though its last number is lower. An old state
 * with receipts in that pair gets 6 where its count reads 0, and no number where it reads 0xFFFFFFFF. */
static void finds_erased(size_t place, int byte)
{
    uint32_t index;
    filled(place, 0, byte);
    CHECK(finds(place, DITGRUX_BYTES_LEFT));
    if (way_open(calls) > 0) {
        CHECK(ditgrux_last_number(state, sizeof state) < ditgrux_last_number(way[calls], DITGRUX_STATE));
        CHECK(checked(way[calls], twin, sizeof twin, 0, &index) == (byte == 0 ? DITGRUX_BAD_STATE : DITGRUX_DONE));
    }
}

/* Power failed in a list of the last three receipts. Of its entries every part is stored. Without the count: the state before the list;
 * with 0xFFFFFFFF in place of the count, as with the whole count, the state after the last receipt that is whole. */
static void finds_list(int byte)
{
    static const char life[] = "rruuu";
    uint8_t list[3 * DITGRUX_DETAILS];
    struct ditgrux_details details;
    size_t written, issued, place = 2, i;
    live(8, life);
    for (i = 0; i < 3; i++) {
        memcpy(state, way[2 + i], sizeof state);
        details = receipt_of('u');
        ditgrux_pack_details(&details, list + i * DITGRUX_DETAILS);
    }
    filled(2, 0, 0xA5);
    memcpy(state, way[2], sizeof state);
    CHECK(ditgrux_issue_list(state, sizeof state, list, sizeof list, twin, sizeof twin, &issued) == DITGRUX_DONE && issued == 3);
    CHECK(is_on_way(5) && memcmp(twin, stages[5], sizeof twin) == 0);
    for (written = 0; written <= way_length(5) - way_length(2); written++) {
        place += place < 5 && way_length(2) + written == way_length(place + 1);
        filled(2, 0, byte);
        memcpy(twin + way_length(2), stages[5] + way_length(2), written);
        CHECK(finds(2, DITGRUX_BYTES_LEFT));
        put(twin + way_count_at(2), 4, 0xFFFFFFFF);
        CHECK(finds_missing(place));
        put(twin + way_count_at(2), 4, 5);
        CHECK(place == 5 ? finds(5, DITGRUX_BYTES_LEFT) : finds_missing(place));
        CHECK(is_put_right(place) && finds(place, DITGRUX_BYTES_LEFT));
    }
    CHECK(place == 5);
}

/* Power failed while the count of 256 receipts was written over that of 255: with a bit too many the state has all 256; with 0 it has none,
 * and with 0xFFFFFFFF in a copy they are found. */
static void finds_torn_carry(void)
{
    enum { MANY = 256 };
    static uint8_t buffer[(MANY + 1) * DITGRUX_LONGEST_ENTRY];
    static const uint32_t torn[] = {0x1FF, 0xFFFFFFFF, 0x100, 0xFF, 0, 0xFFFFFFFF};
    static const uint32_t receipts[] = {MANY, MANY, MANY, MANY - 1, 0, MANY};
    struct ditgrux_details details;
    uint32_t i, index = UINT32_MAX, number;
    memset(buffer, 0, sizeof buffer);
    CHECK(ditgrux_open(settings, sizeof settings, buffer, sizeof buffer, state, sizeof state) == DITGRUX_DONE);
    memcpy(way[0], state, sizeof state);
    for (i = 0; i < MANY; i++) {
        details = details_of(i + 1, DITGRUX_STANDARD, i != 0);
        CHECK(ditgrux_issue_details(state, sizeof state, &details, NULL, 0, buffer, sizeof buffer) == DITGRUX_DONE);
    }
    for (i = 0; i < sizeof torn / sizeof *torn; i++) {
        put(buffer + number_at(way[0] + PLACE_AT, 8), 4, torn[i]);
        number = found(buffer, sizeof buffer, 100, &index);
        CHECK(number == (torn[i] > MANY ? DITGRUX_ENTRY_MISSPELLED : DITGRUX_BYTES_LEFT) && index == receipts[i]);
        CHECK(ditgrux_receipts(state, sizeof state) == receipts[i] && ditgrux_last_number(state, sizeof state) == receipts[i]);
    }
}

static void lost(const char *life)
{
    static const int bytes[] = {0, 0xFF};
    size_t place, i;
    live(8, life);
    for (place = 0; place <= calls; place++)
        for (i = 0; i < 2; i++) {
            finds_end(place, bytes[i]);
            if (life[place] == 'c')
                finds_change(place, bytes[i]);
            else if (life[place] != 0)
                finds_entry(place, bytes[i]);
            if (life[place] == 'r')
                finds_end_over_rest(place);
            if (life[place] == 'c' || life[place] == 0)
                finds_torn(place, bytes[i]);
            if (life[place] == 'c' && place == calls - 1 - way_open(calls))
                finds_erased(place, bytes[i]);
        }
}

static void checks_in_parts(void)
{
    checks(8, "");
    checks(5, "r");
    checks(6, "c");
    checks(7, "rrutrr");
    checks(8, "crrccutcr");
    checks(5, "rcccccccr");
    checks(8, "rrcuccc");
    too_large_sums();
    heads();
    lost("rrurctrcccr");
    lost("ccrrc");
    finds_list(0);
    finds_list(0xFF);
    finds_torn_carry();
}

/* ---- the export for an inspector */

static char spelled[1 << 14], respelled[1 << 14]; /* an export, and one with something changed in it; a zero follows each */
static uint8_t groups[4096], restored[1 << 14];
static size_t groups_length;

static uint8_t *bytes_in(char *letters)
{
    return (uint8_t *)letters;
}

/* Appends a group with so many certificates. The first is two bytes long; they differ in length and in their bytes. */
static void add_group(size_t certificates, uint8_t byte)
{
    size_t i, length = 2;
    groups[groups_length++] = (uint8_t)certificates;
    for (i = 0; i < certificates; i++, length = (length + 5) % 13) {
        put(groups + groups_length, 2, length);
        memset(groups + groups_length + 2, byte++, length);
        groups_length += 2 + length;
    }
}

/* A group for each pair of the register, with one to four certificates. The first bytes of the groups are 0x10, 0x20, 0x30. */
static void make_groups(void)
{
    size_t i;
    groups_length = 0;
    for (i = 0; i < ditgrux_serials(state, sizeof state); i++)
        add_group(1 + i % 4, (uint8_t)(0x10 * (i + 1)));
}

/* The room of docs/EMBEDDING.md: enough for the export of the journal that belongs to a state. */
static size_t export_room(const uint8_t *bytes, const uint8_t *certificates, size_t length)
{
    size_t room = 8 + ditgrux_journal_length(bytes, DITGRUX_STATE) + ditgrux_receipts(bytes, DITGRUX_STATE) +
                  63 * (size_t)ditgrux_serials(bytes, DITGRUX_STATE);
    size_t at = 0, count, size;
    while (at < length)
        for (count = certificates[at++]; count > 0; count--) {
            size = (size_t)certificates[at] << 8 | certificates[at + 1];
            room += 3 + 4 * ((size + 2) / 3);
            at += 2 + size;
        }
    return room;
}

/* The number of an export, whose text is `spelled`. It writes nothing after the text, and nothing at all where it is refused. */
static uint32_t exported(const uint8_t *bytes, size_t length, size_t key_length, size_t width, size_t certificates, size_t room,
                         uint32_t *index)
{
    size_t wrote = SIZE_MAX;
    uint32_t number;
    *index = UINT32_MAX;
    memset(spelled, 0xA5, sizeof spelled);
    number = ditgrux_export(bytes, length, key, key_length, width, groups, certificates, bytes_in(spelled), room, &wrote, index);
    CHECK(number == DITGRUX_DONE ? wrote > 0 && wrote <= room : wrote == 0);
    CHECK(is_all(0xA5, bytes_in(spelled) + wrote, sizeof spelled - wrote));
    spelled[wrote] = 0;
    return number;
}

/* The number of a text that is read. Its journal is `restored`, its state `other`. Nothing is written after the journal, and where the text
 * is refused only the 447 zeros are. */
static uint32_t read_text(const char *letters, size_t key_length, size_t width, size_t room, uint32_t *index)
{
    uint8_t beside[DITGRUX_STATE + 2];
    size_t wrote = SIZE_MAX;
    uint32_t number;
    *index = UINT32_MAX;
    memset(restored, 0xA5, sizeof restored);
    memset(beside, 0xA5, sizeof beside);
    number = ditgrux_read_export(text_of(letters), strlen(letters), key, key_length, width, restored, room, beside + 1, DITGRUX_STATE, &wrote,
                                 index);
    memcpy(other, beside + 1, sizeof other);
    CHECK(beside[0] == 0xA5 && beside[DITGRUX_STATE + 1] == 0xA5 && is_all(0xA5, restored + wrote, sizeof restored - wrote));
    if (number == DITGRUX_DONE)
        CHECK(wrote == ditgrux_journal_length(other, sizeof other) && wrote <= room && *index == 0);
    else
        CHECK(wrote == 0 && is_all(0, other, sizeof other));
    CHECK(number != DITGRUX_BAD_HEAD && number != DITGRUX_ENTRY_CUT && number != DITGRUX_BYTES_LEFT);
    return number;
}

/* With as many bytes of output as the text has, which are always enough. */
static uint32_t read_all(const char *letters, size_t width, uint32_t *index)
{
    const uint32_t number = read_text(letters, sizeof key, width, strlen(letters), index);
    CHECK(number != DITGRUX_OUTPUT_SHORT);
    return number;
}

/* The text gives the journal and the state of the register. */
static int restores(const char *letters)
{
    uint32_t index;
    return read_all(letters, number_at(state + WIDTH_AT, 8), &index) == DITGRUX_DONE && memcmp(other, state, sizeof state) == 0 &&
           memcmp(restored, journal, journal_length()) == 0;
}

/* `respelled` is the text with the occurrence of `old` that has this number, from 0, replaced. */
static void respell(const char *letters, const char *old, size_t which, const char *by)
{
    static char before[sizeof respelled];
    char *at;
    strcpy(before, letters);
    for (at = strstr(before, old); which > 0 && at != NULL; which--)
        at = strstr(at + 1, old);
    CHECK(at != NULL);
    if (at == NULL)
        return;
    *at = 0;
    strcpy(respelled, before);
    strcat(respelled, by);
    strcat(respelled, at + strlen(old));
}

/* The text without the receipts of the element that has this number. */
static void without_receipts(const char *letters, size_t which)
{
    static const char name[] = "\"Belege-kompakt\":[";
    char *at;
    respell(letters, name, which, name);
    for (at = strstr(respelled, name); which > 0; which--)
        at = strstr(at + 1, name);
    at += strlen(name);
    memmove(at, strchr(at, ']'), strlen(strchr(at, ']')) + 1);
}

/* The export of a register that lived so, in outputs of every size around its length, and back. */
static void exports_and_back(size_t width, const char *life)
{
    const int readable = strstr(life, "cc") == NULL && life[0] != 'c' && life[strlen(life) - 1] != 'c';
    static char first[sizeof spelled];
    size_t bound, length, room;
    uint32_t index;
    live(width, life);
    make_groups();
    bound = export_room(state, groups, groups_length);
    CHECK(exported(journal, journal_length(), sizeof key, width, groups_length, bound, &index) == DITGRUX_DONE && index == 0);
    length = strlen(spelled);
    memcpy(first, spelled, sizeof first);
    CHECK(exported(journal, journal_length(), sizeof key, width, groups_length, length, &index) == DITGRUX_DONE && index == 0);
    CHECK(strcmp(first, spelled) == 0);
    for (room = 0; room < length; room += room + 40 < length && room > 40 ? 37 : 1)
        CHECK(exported(journal, journal_length(), sizeof key, width, groups_length, room, &index) == DITGRUX_OUTPUT_SHORT && index == 0);
    if (!readable) { /* a pair without receipts is written, and not read */
        CHECK(strstr(first, "\"Belege-kompakt\":[]}") != NULL && read_all(first, width, &index) == DITGRUX_NO_RECEIPTS && index == 0);
        return;
    }
    CHECK(restores(first));
    CHECK(read_text(first, sizeof key, width, journal_length(), &index) == DITGRUX_DONE && memcmp(restored, journal, journal_length()) == 0);
    for (room = 0; room < journal_length(); room += room + 40 < journal_length() && room > 40 ? 37 : 1)
        CHECK(read_text(first, sizeof key, width, room, &index) == DITGRUX_OUTPUT_SHORT && index == 0);
    CHECK(read_all(first, width, &index) == DITGRUX_DONE && memcmp(other, state, sizeof state) == 0);
    CHECK(exported(restored, journal_length(), sizeof key, width, groups_length, bound, &index) == DITGRUX_DONE);
    CHECK(strcmp(first, spelled) == 0);
}

/* How near the room of docs/EMBEDDING.md comes: with the shortest names and the fewest strings it has a byte for the text and one for each
 * pair too many. */
static void export_rooms(void)
{
    static const char *const letters[] = {"2", "3", "4", "5", "6", "7", "8"};
    uint8_t own[DITGRUX_SETTINGS];
    size_t pair, certificates;
    uint32_t index;
    CHECK(ditgrux_settings(text_of("AT0"), 3, text_of("K"), 1, text_of("1"), 1, 8, key, sizeof key, own, sizeof own) == DITGRUX_DONE);
    memset(journal, 0xA5, sizeof journal);
    CHECK(ditgrux_open(own, sizeof own, journal, sizeof journal, state, sizeof state) == DITGRUX_DONE);
    for (pair = 1;; pair++) {
        for (certificates = 1; certificates < 256; certificates += 127) {
            groups_length = 0;
            while (ditgrux_serials(state, sizeof state) > groups_length / (1 + 2 * certificates)) {
                groups[groups_length++] = (uint8_t)certificates; /* all of them empty */
                memset(groups + groups_length, 0, 2 * certificates);
                groups_length += 2 * certificates;
            }
            CHECK(exported(journal, journal_length(), sizeof key, 8, groups_length, sizeof spelled, &index) == DITGRUX_DONE);
            CHECK(strlen(spelled) + 1 + (certificates > 1 ? 2 : 1) * pair == export_room(state, groups, groups_length));
        }
        if (pair == DITGRUX_MOST_SERIALS)
            break;
        changes_to(letters[pair - 1]);
    }
}

/* The export asks 4, then what Take over asks, with its index, then 28, then 23. */
static void order_of_export(void)
{
    uint32_t index, number, expected, place;
    size_t i;
    live(8, "rrcurcrt");
    make_groups();
    memcpy(twin, journal, sizeof twin);
    twin[0] = 1;
    CHECK(exported(twin, 0, sizeof key, 9, 0, 0, &index) == DITGRUX_BAD_WIDTH && index == 0);
    CHECK(exported(twin, 0, sizeof key - 1, 8, 0, 0, &index) == DITGRUX_BAD_WIDTH && index == 0);
    CHECK(exported(twin, 0, 0, 8, 0, 0, &index) == DITGRUX_BAD_WIDTH && index == 0);
    CHECK(exported(journal, journal_length(), sizeof key - 1, 8, groups_length, sizeof spelled, &index) == DITGRUX_BAD_WIDTH && index == 0);
    CHECK(exported(twin, journal_length(), sizeof key, 8, 0, 0, &index) == DITGRUX_BAD_HEAD && index == 0);
    for (i = 0; i < journal_length(); i++) { /* cut there, and a bit of the byte there changed */
        expected = taken_over(journal, i, &place);
        number = exported(journal, i, sizeof key, 8, 0, 0, &index);
        CHECK(expected ? number == expected && index == place : number == DITGRUX_BAD_EXPORT && index == 0);
        memcpy(twin, journal, sizeof twin);
        twin[i] ^= 1;
        expected = taken_over(twin, journal_length(), &place);
        number = exported(twin, journal_length(), sizeof key, 8, 0, 0, &index);
        CHECK(expected ? number == expected && index == place : number == DITGRUX_BAD_EXPORT && index == 0);
    }
    CHECK(exported(journal, journal_length() + 1, sizeof key, 8, 0, 0, &index) == DITGRUX_BYTES_LEFT && index == 6);

    for (i = 0; i <= groups_length + 3; i++) /* the first group is 5 bytes long */
        CHECK(exported(journal, journal_length(), sizeof key, 8, i, 0, &index) ==
                  (uint32_t)(i == groups_length ? DITGRUX_OUTPUT_SHORT : DITGRUX_BAD_EXPORT) && index == 0);
    groups[0] = 0;
    CHECK(exported(journal, journal_length(), sizeof key, 8, groups_length, 0, &index) == DITGRUX_BAD_EXPORT && index == 0);
    groups[0] = 2;
    CHECK(exported(journal, journal_length(), sizeof key, 8, groups_length, 0, &index) == DITGRUX_BAD_EXPORT && index == 0);
    make_groups();
    memmove(groups, groups + 5, groups_length -= 5); /* a group too few */
    CHECK(exported(journal, journal_length(), sizeof key, 8, groups_length, 0, &index) == DITGRUX_BAD_EXPORT && index == 0);
    make_groups();
    add_group(1, 1); /* a group too many */
    CHECK(exported(journal, journal_length(), sizeof key, 8, groups_length, 0, &index) == DITGRUX_BAD_EXPORT && index == 0);
    make_groups();
    CHECK(exported(journal, journal_length(), sizeof key, 8, groups_length, sizeof spelled, &index) == DITGRUX_DONE && index == 0);
}

/* A state of another length: 6, and nothing is changed, whatever else is wrong. */
static void of_other_length(const char *letters)
{
    static const size_t lengths[] = {0, 155, DITGRUX_STATE - 1, DITGRUX_STATE + 1};
    uint8_t bytes[DITGRUX_STATE + 2];
    size_t i, wrote;
    uint32_t index;
    for (i = 0; i < sizeof lengths / sizeof *lengths; i++) {
        wrote = 1;
        index = 1;
        memset(bytes, 0xA5, sizeof bytes);
        memset(restored, 0xA5, sizeof restored);
        CHECK(ditgrux_read_export(text_of(letters), strlen(letters), key, sizeof key, 8, restored, sizeof restored, bytes, lengths[i], &wrote,
                                  &index) == DITGRUX_BAD_STATE);
        CHECK(wrote == 0 && index == 0 && is_all(0xA5, bytes, sizeof bytes) && is_all(0xA5, restored, sizeof restored));
        CHECK(ditgrux_read_export(text_of(letters), strlen(letters), key, 0, 9, restored, 0, bytes, lengths[i], &wrote, &index) ==
              DITGRUX_BAD_STATE);
    }
}

/* The number of a text: first with a wrong width, a wrong key and no room, then with all of them right. Questions before 23 do not see the
 * difference, nor their index. */
static uint32_t before_room(const char *letters)
{
    uint32_t index, again, number = read_text(letters, 0, 9, 0, &index);
    CHECK(index == 0);
    CHECK(read_all(letters, 8, &again) == number && again == 0);
    of_other_length(letters);
    return number;
}

/* The register's key with a byte after it: 4 from both calls, and nothing is written but the zeros. */
static int longer_key(const char *letters)
{
    uint8_t longer[DITGRUX_KEY + 1] = {0}, bytes[DITGRUX_STATE];
    size_t wrote = 1, read = 1;
    uint32_t index = 1, place = 1;
    memcpy(longer, key, sizeof key);
    memset(restored, 0xA5, sizeof restored);
    return ditgrux_export(journal, journal_length(), longer, sizeof longer, 8, groups, groups_length, restored, sizeof restored, &wrote,
                          &index) == DITGRUX_BAD_WIDTH && wrote == 0 && index == 0 &&
           ditgrux_read_export(text_of(letters), strlen(letters), longer, sizeof longer, 8, restored, sizeof restored, bytes, sizeof bytes,
                               &read, &place) == DITGRUX_BAD_WIDTH && read == 0 && place == 0 &&
           is_all(0xA5, restored, sizeof restored) && is_all(0, bytes, sizeof bytes);
}

/* Reading asks 6, then 28 of all elements, 29 of all, 28 of the first receipts of all, 23, and at last what Take over asks, 4 at first. */
static void order_of_reading(void)
{
    static char good[sizeof spelled];
    static const char *const certificates[] = {"\"EBA=\"", "\"ICA=\"", "\"MDA=\""};
    uint32_t index;
    size_t one, another;
    live(8, "rrcurcrt");
    make_groups();
    CHECK(exported(journal, journal_length(), sizeof key, 8, groups_length, sizeof spelled, &index) == DITGRUX_DONE);
    memcpy(good, spelled, sizeof good);
    of_other_length(good);
    CHECK(restores(good));
    for (one = 0; one < 3; one++)
        for (another = 0; another < 3; another++) {
            without_receipts(good, one);
            CHECK(before_room(respelled) == DITGRUX_NO_RECEIPTS);
            respell(respelled, certificates[another], 0, "\"AB==\""); /* 28 before 29, whichever element comes first */
            CHECK(before_room(respelled) == DITGRUX_BAD_EXPORT);
            respell(good, "[\"eyJ", another, "[\"e.J"); /* a first receipt of four parts */
            CHECK(before_room(respelled) == DITGRUX_BAD_EXPORT);
            if (one != another) {
                without_receipts(respelled, one); /* 29 before it */
                CHECK(before_room(respelled) == DITGRUX_NO_RECEIPTS);
            }
        }
    /* 23 before 4, and 4 before the rest */
    CHECK(read_text(good, sizeof key, 9, journal_length() - 1, &index) == DITGRUX_OUTPUT_SHORT && index == 0);
    CHECK(read_text(good, sizeof key, 9, journal_length(), &index) == DITGRUX_BAD_WIDTH && index == 0);
    CHECK(read_text(good, sizeof key - 1, 8, journal_length() - 1, &index) == DITGRUX_OUTPUT_SHORT && index == 0);
    CHECK(read_text(good, sizeof key - 1, 8, journal_length(), &index) == DITGRUX_BAD_WIDTH && index == 0);
    CHECK(longer_key(good));
    respell(good, "[\"eyJ", 1, "[\"eyK"); /* another first part is left to Take over: 16 */
    CHECK(read_text(respelled, sizeof key, 8, journal_length() - 1, &index) == DITGRUX_OUTPUT_SHORT && index == 0);
    CHECK(read_text(respelled, sizeof key, 4, journal_length(), &index) == DITGRUX_BAD_WIDTH && index == 0);
    CHECK(read_text(respelled, sizeof key, 8, journal_length(), &index) == DITGRUX_ENTRY_MISSPELLED && index == 2);
    CHECK(read_all(good, 7, &index) == DITGRUX_ENTRY_MISSPELLED && index == 0);
}

/* Every letter of every receipt but the first of an element, with a bit changed in the text: what Take over says of the journal with the
 * same bit changed. */
static void as_taken_over(void)
{
    size_t at, entry, receipts, length, form, i;
    uint32_t index, place, expected;
    const char *letters = spelled;
    for (at = 4 + 3 + 4 + 6; at < journal_length();) {
        at += 4 + number_at(journal + at, 4);
        receipts = number_at(journal + at, 4);
        at += 4;
        for (entry = 0; entry < receipts; entry++) {
            length = number_at(journal + at, 2);
            form = at + 2;
            at = form + length;
            memcpy(twin, journal + form, length);
            twin[length] = 0;
            letters = strstr(letters, (const char *)twin);
            CHECK(letters != NULL);
            for (i = 0; entry > 0 && letters != NULL && i < length; i++) {
                strcpy(respelled, spelled);
                respelled[(size_t)(letters - spelled) + i] ^= 1;
                memcpy(twin, journal, sizeof twin);
                twin[form + i] ^= 1;
                expected = taken_over(twin, journal_length(), &place);
                CHECK(read_all(respelled, 8, &index) == expected && index == place);
                CHECK(expected != DITGRUX_DONE || memcmp(restored, twin, journal_length()) == 0);
            }
        }
    }
    CHECK(at == journal_length());
}

/* Every byte of a short export, changed to every other: what is accepted is a journal that Take over accepts, with that state, and spells an
 * export again. */
static void changed_exports(void)
{
    static char good[sizeof spelled];
    uint8_t left[DITGRUX_STATE];
    uint32_t index;
    size_t i, accepted = 0, length;
    int byte;
    live(8, "r");
    make_groups();
    CHECK(exported(journal, journal_length(), sizeof key, 8, groups_length, sizeof spelled, &index) == DITGRUX_DONE);
    strcpy(good, spelled);
    for (i = 0; good[i] != 0; i++)
        for (byte = 1; byte < 256; byte++) {
            strcpy(respelled, good);
            respelled[i] = (char)byte;
            if (respelled[i] == good[i] || read_all(respelled, 8, &index) != DITGRUX_DONE)
                continue;
            accepted++;
            memcpy(left, other, sizeof left);
            length = ditgrux_journal_length(left, sizeof left);
            CHECK(taken_over(restored, length, &index) == DITGRUX_DONE && memcmp(left, other, sizeof left) == 0);
            CHECK(exported(restored, length, sizeof key, 8, groups_length, sizeof spelled, &index) == DITGRUX_DONE);
        }
    CHECK(accepted > 0);
}

/* The words on blanks, names and the escape. */
static void spellings(void)
{
    static const char *const blanks[] = {" ", "\t", "\n", "\r", " \t\r\n"}, *const others[] = {"\f", "\v", "\b", "\xC2\xA0", "\xEF\xBB\xBF"};
    static char good[sizeof spelled];
    char between[32];
    uint32_t index;
    size_t i;
    live(8, "rcr");
    make_groups();
    CHECK(exported(journal, journal_length(), sizeof key, 8, groups_length, sizeof spelled, &index) == DITGRUX_DONE);
    strcpy(good, spelled);
    CHECK(strncmp(good, TEXT("{\"Belege-Gruppe\":[{\"Signaturzertifikat\":\"EBA=\",\"Zertifizierungsstellen\":[],\"Belege-kompakt\":[\"eyJ")) == 0);
    CHECK(strstr(good, "\"]},{\"Signaturzertifikat\":\"ICA=\",\"Zertifizierungsstellen\":[\"ISEhISEhIQ==\"],\"Belege-kompakt\":[\"eyJ") != NULL);
    CHECK(strcmp(good + strlen(good) - 5, "\"]}]}") == 0);
    for (i = 0; i < sizeof blanks / sizeof *blanks; i++) {
        sprintf(respelled, "%s%s%s", blanks[i], good, blanks[i]);
        CHECK(restores(respelled));
        sprintf(between, "\"%s:%s[%s", blanks[i], blanks[i], blanks[i]);
        respell(good, "\":[", 0, between);
        CHECK(restores(respelled));
        sprintf(between, "]%s}%s", blanks[i], blanks[i]);
        respell(good, "]}", 0, between);
        CHECK(restores(respelled));
        sprintf(between, "Bel%sege", blanks[i]);
        respell(good, "Belege", 1, between);
        CHECK(read_all(respelled, 8, &index) == DITGRUX_BAD_EXPORT && index == 0);
    }
    for (i = 0; i < sizeof others / sizeof *others; i++) {
        sprintf(respelled, "%s%s", others[i], good);
        CHECK(read_all(respelled, 8, &index) == DITGRUX_BAD_EXPORT && index == 0);
        sprintf(respelled, "%s%s", good, others[i]);
        CHECK(read_all(respelled, 8, &index) == DITGRUX_BAD_EXPORT && index == 0);
    }
    respell(good, "\"Signaturzertifikat\":\"EBA=\",\"Zertifizierungsstellen\":[],", 0, "");
    respell(respelled, "\"]}", 0, "\"],\"Zertifizierungsstellen\":[],\"Signaturzertifikat\":\"EBA=\"}");
    CHECK(restores(respelled));
    respell(good, "=", 0, "\\u003d");
    CHECK(restores(respelled));
    respell(respelled, "==", 0, "\\u003d=");
    CHECK(restores(respelled));
    respell(good, "=", 0, "\\u003D");
    CHECK(read_all(respelled, 8, &index) == DITGRUX_BAD_EXPORT);
    respell(good, "=", 0, "\\u03d");
    CHECK(read_all(respelled, 8, &index) == DITGRUX_BAD_EXPORT);
    respell(good, "EBA=", 0, ""); /* an empty certificate, and no escape in a name */
    CHECK(restores(respelled));
    respell(good, "Belege-Gruppe", 0, "\\u0042elege-Gruppe");
    CHECK(read_all(respelled, 8, &index) == DITGRUX_BAD_EXPORT);
    respell(good, "\"Zertifizierungsstellen\":[],", 0, "");
    CHECK(read_all(respelled, 8, &index) == DITGRUX_BAD_EXPORT);
    respell(good, "\"Zertifizierungsstellen\":[],", 0, "\"Zertifizierungsstellen\":[],\"Zertifizierungsstellen\":[],");
    CHECK(read_all(respelled, 8, &index) == DITGRUX_BAD_EXPORT);
    respell(good, "\"Zertifizierungsstellen\":[],", 0, "\"Zertifizierungsstellen\":[],\"Notiz\":\"\",");
    CHECK(read_all(respelled, 8, &index) == DITGRUX_BAD_EXPORT);
    CHECK(read_all("{\"Belege-Gruppe\":[]}", 8, &index) == DITGRUX_BAD_EXPORT && read_all("", 8, &index) == DITGRUX_BAD_EXPORT);
}

static void inspection(void)
{
    exports_and_back(8, "r");
    exports_and_back(5, "rrut");
    exports_and_back(6, "rucrtcrm");
    exports_and_back(7, "rcrcrcrcrcrcrcr");
    exports_and_back(8, "c");
    exports_and_back(8, "rcccr");
    exports_and_back(5, "crcrc");
    export_rooms();
    order_of_export();
    order_of_reading();
    as_taken_over();
    changed_exports();
    spellings();
}

int main(void)
{
    CHECK(make_settings(sizeof key, sizeof settings, settings) == DITGRUX_DONE);
    CHECK(ditgrux_open(settings, sizeof settings, journal, sizeof journal, state, sizeof state) == DITGRUX_DONE);
    CHECK(ditgrux_journal_length(state, sizeof state) == 19 + 6 + 4);
    wrappers();
    positive_cancellation();
    full();
    refusals();
    power_cut();
    reading();
    layout();
    eight_serials();
    refused_changes();
    prepared_before();
    serials();
    damaged_serials();
    version_1();
    unsound_states();
    pairs();
    power_cut_in_change();
    shared();
    lines();
    packing();
    lists();
    lists_before_start();
    lists_after_change();
    long_list();
    power_cut_in_list(0);
    power_cut_in_list(1);
    power_cut_in_part(DITGRUX_NUMBER_NOT_ABOVE);
    power_cut_in_part(DITGRUX_NO_ROOM);
    list_with_old_state();
    checks_in_parts();
    inspection();
    return failures ? 1 : 0;
}
