/* The longest receipt that there is: the header's sizes are those of its texts, exactly; the code with the longest optical line; a
 * register with as many serials as there can be, each of the longest; and its export. And how many bytes of stack each exported call uses on them,
 * answered and refused: the call runs on a stack of its own that was filled with a pattern, and what is no longer the pattern was used.
 * Prints a line for each; exit status 1 where a size or an answer is another or a call goes past the limit that the README names. */
#include "ditgrux.h"

#include <stdio.h>
#include <stdlib.h>
#include <string.h>
#include <ucontext.h>

enum { STACK = 1 << 18, LIMIT = 9400, PATTERN = 0xA5, RECEIPTS = 20, ID_END = 3 + 31 /* the last byte of the ID in the settings */ };

static uint8_t stack[STACK], journal[1 << 16], state[DITGRUX_STATE], again[DITGRUX_STATE], settings[DITGRUX_SETTINGS], output[512];
static uint8_t checked[DITGRUX_STATE];
static uint8_t optical[DITGRUX_LONGEST_ANY_LINE];
static const uint8_t key[DITGRUX_KEY] = "a key of thirty-two plain bytes";
static const uint8_t signature[DITGRUX_SIGNATURE] = "no signature of any device, only sixty-four bytes to be spelled";
static const uint8_t name[DITGRUX_LONGEST_NAME + 1] = "0123456789abcdef0123456789abcdef";
static ucontext_t home, away;
static uint32_t number, answer, index_;
static size_t length, start, form_start, form_length, code_length, line_length, list_length, issued, room, cut, more, steps;
static uint8_t serial[DITGRUX_LONGEST_NAME], list[RECEIPTS * DITGRUX_DETAILS];
static uint8_t hash[DITGRUX_HASH], given[DITGRUX_SIGNATURE], form[DITGRUX_LONGEST_COMPACT], text[1024];
static uint8_t groups[1 << 15], inspected[1 << 17], restored[1 << 17];
static size_t groups_length, inspected_length, state_cut, width = 8;

static void nothing(void) {}

static void make_settings(void)
{
    answer = ditgrux_settings((const uint8_t *)"AT0", 3, name, 32, name, 32, 8, key, sizeof key, settings, sizeof settings - cut);
}

static void open_register(void)
{
    answer = ditgrux_open(settings, sizeof settings, journal, room, again, sizeof again);
}

static void open_shared(void)
{
    answer = ditgrux_open_shared(settings, sizeof settings, journal, room, again, sizeof again);
}

static int64_t cents(void)
{
    return number == 1 ? 0 : -99999999999;
}

static void prepare(void)
{
    answer = ditgrux_prepare(state, sizeof state, number, 2099, 12, 31, 23, 59, 59, cents(), cents(), cents(), cents(), cents(), DITGRUX_STANDARD,
                             output, sizeof output - cut, &length);
}

static void issue(void)
{
    answer = ditgrux_issue(state, sizeof state, number, 2099, 12, 31, 23, 59, 59, cents(), cents(), cents(), cents(), cents(), DITGRUX_STANDARD,
                           signature, sizeof signature, journal, room);
}

static void issue_list(void)
{
    answer = ditgrux_issue_list(state, sizeof state, list, list_length - cut, journal, room, &issued);
}

static void take_over(void)
{
    answer = ditgrux_take_over(journal, ditgrux_journal_length(state, sizeof state) + more - cut, key, sizeof key, 8, again, sizeof again, &index_);
}

static void check_head(void)
{
    answer = ditgrux_check_head(journal, ditgrux_journal_length(state, sizeof state) + more - cut, key, sizeof key, 8, checked, sizeof checked);
}

static void check_steps(void)
{
    answer = ditgrux_check_steps(checked, sizeof checked, journal, ditgrux_journal_length(state, sizeof state) + more - cut, steps, &index_);
}

static void change(void)
{
    answer = ditgrux_change(state, sizeof state, serial, sizeof serial, journal, room);
}

static void newest_serial(void)
{
    answer = ditgrux_serial(state, sizeof state, ditgrux_serials(state, sizeof state) - 1, text, room, &length);
}

static void newest_settings(void)
{
    answer = ditgrux_settings_in(state, sizeof state, ditgrux_serials(state, sizeof state) - 1, text, room);
}

static void code(void)
{
    answer = ditgrux_code(journal + form_start, form_length - cut, text, room, &length);
}

static void uncode(void)
{
    answer = ditgrux_uncode(output, code_length - cut, form, sizeof form, &length);
}

static void fields(void)
{
    answer = ditgrux_fields(output, code_length - cut, &start, &length);
}

static void line(void)
{
    answer = ditgrux_line(output, code_length - cut, text, room, &length);
}

static void unline(void)
{
    answer = ditgrux_unline(optical, line_length - cut, text, room, &length);
}

static void read_back(void)
{
    answer = ditgrux_read(settings, sizeof settings, journal + form_start, form_length - cut, text, room, given, sizeof given,
                          &length);
}

static void figures(void)
{
    ditgrux_version();
    ditgrux_counter(state, sizeof state);
    ditgrux_last_number(state, sizeof state);
    ditgrux_receipts(state, sizeof state);
    ditgrux_journal_length(state, sizeof state);
    ditgrux_serials(state, sizeof state);
    answer = 0;
}

static void export_journal(void)
{
    answer = ditgrux_export(journal, ditgrux_journal_length(state, sizeof state) + more - cut, key, sizeof key, width, groups, groups_length,
                            inspected, room, &length, &index_);
}

static void read_export(void)
{
    answer = ditgrux_read_export(inspected, inspected_length - cut, key, sizeof key, width, restored, room, again, sizeof again - state_cut,
                                 &length, &index_);
}

static void sha256(void)
{
    answer = ditgrux_sha256(journal, form_start, hash, sizeof hash - cut);
}

static void base64(void)
{
    answer = ditgrux_base64(0, journal, 300, text, room, &length);
}

static void unbase64(void)
{
    answer = ditgrux_unbase64(0, text, 400 - cut, output, sizeof output, &length);
}

static void base32(void)
{
    answer = ditgrux_base32(journal, 300, text, room, &length);
}

static void unbase32(void)
{
    answer = ditgrux_unbase32(text, 480 - cut, output, sizeof output, &length);
}

/* Runs a call on the other stack; the bytes that it used, without those of an empty call. */
static size_t used(void (*call)(void))
{
    size_t untouched = 0;
    memset(stack, PATTERN, sizeof stack);
    getcontext(&away);
    away.uc_stack.ss_sp = stack;
    away.uc_stack.ss_size = sizeof stack;
    away.uc_link = &home;
    makecontext(&away, call, 0);
    swapcontext(&home, &away);
    while (untouched < sizeof stack && stack[untouched] == PATTERN)
        untouched++;
    return sizeof stack - untouched;
}

static int exactly(const char *title, size_t bytes, size_t size)
{
    printf("longest: %-13s %4zu bytes\n", title, bytes);
    return bytes != size;
}

static size_t last_used; /* by the last call that was measured */

/* A call that must give this number, 0 where it is not refused. */
static int measure(const char *title, void (*call)(void), uint32_t expected)
{
    size_t bytes = last_used = used(call) - used(nothing);
    printf("stack: %-11s %6zu bytes, number %u\n", title, bytes, (unsigned)answer);
    return (bytes > LIMIT) + (answer != expected);
}

/* Take over of the journal, and the same check in parts: the head, then all steps in one call. */
static int check(uint32_t expected)
{
    int bad = measure("take over", take_over, expected);
    if (expected == DITGRUX_BAD_HEAD)
        return bad + measure("check head", check_head, expected);
    steps = SIZE_MAX;
    return bad + measure("check head", check_head, 0) + measure("check steps", check_steps, expected);
}

/* The check of the journal with one byte changed at the place. */
static int damaged(size_t at, uint32_t expected)
{
    int bad;
    journal[at] ^= 1;
    bad = check(expected);
    journal[at] ^= 1;
    return bad;
}

/* Check steps with so many steps. */
static int measure_steps(size_t count, uint32_t expected)
{
    steps = count;
    return measure("check steps", check_steps, expected);
}

/* The check in parts: one entry, all that are left, none, and those after the end use the same stack, or less. A state that is all zero. */
static int parts(void)
{
    size_t single;
    int bad = measure("check head", check_head, 0) + measure_steps(0, 0) + measure_steps(1, 0);
    single = last_used;
    bad += (ditgrux_receipts(checked, sizeof checked) != 1) + measure_steps(RECEIPTS, 0) + (last_used != single);
    bad += memcmp(checked, state, sizeof state) != 0;
    bad += measure_steps(SIZE_MAX, 0) + (last_used > single) + (memcmp(checked, state, sizeof state) != 0);
    memset(checked, 0, sizeof checked);
    return bad + measure_steps(0, DITGRUX_BAD_STATE) + measure_steps(1, DITGRUX_BAD_STATE);
}

/* The longest register, and its longest receipts. */
static int longest(void)
{
    int bad = measure("settings", make_settings, 0) + measure("shared", open_shared, 0) + measure("open", open_register, 0);
    memcpy(state, again, sizeof state);
    bad += exactly("head", ditgrux_journal_length(state, sizeof state), DITGRUX_LONGEST_HEAD);
    for (number = 1; number < RECEIPTS; number++)
        issue();
    number = UINT32_MAX;
    bad += measure("prepare", prepare, 0) + exactly("signing input", length, DITGRUX_LONGEST_INPUT);
    form_start = ditgrux_journal_length(state, sizeof state) + 2;
    room = form_start;
    bad += measure("issue", issue, DITGRUX_NO_ROOM);
    room = sizeof journal;
    bad += measure("issue", issue, 0);
    form_length = ditgrux_journal_length(state, sizeof state) - form_start;
    bad += exactly("compact form", form_length, DITGRUX_LONGEST_COMPACT) + exactly("entry", form_length + 2, DITGRUX_LONGEST_ENTRY);
    return bad;
}

static int texts(void)
{
    int bad;
    room = sizeof text;
    bad = measure("code", code, 0) + exactly("code", length, DITGRUX_LONGEST_CODE);
    code_length = length;
    memcpy(output, text, code_length);
    bad += exactly("payload", code_length - 89, DITGRUX_LONGEST_PAYLOAD) + measure("uncode", uncode, 0);
    bad += measure("fields", fields, 0) + exactly("name", length, DITGRUX_LONGEST_NAME);
    room = DITGRUX_DETAILS;
    bad += measure("read", read_back, 0);
    cut = 1;
    bad += measure("read", read_back, DITGRUX_ENTRY_MISSPELLED);
    cut = 0;
    room = sizeof text;
    bad += measure("read", read_back, DITGRUX_OUTPUT_SHORT) + measure("figures", figures, 0) + measure("sha256", sha256, 0);
    cut = 1;
    bad += measure("code", code, DITGRUX_BAD_FORM) + measure("uncode", uncode, DITGRUX_BAD_CODE) + measure("fields", fields, DITGRUX_BAD_CODE);
    bad += measure("sha256", sha256, DITGRUX_OUTPUT_SHORT);
    cut = 0;
    bad += measure("base64", base64, 0) + measure("unbase64", unbase64, 0);
    cut = 1;
    bad += measure("unbase64", unbase64, DITGRUX_BAD_FORM);
    cut = 0;
    room = 100;
    return bad + measure("code", code, DITGRUX_OUTPUT_SHORT) + measure("base64", base64, DITGRUX_OUTPUT_SHORT);
}

/* A call whose text has this length: refused without room and with one byte less, answered with exactly the room. */
static int in_rooms(const char *title, void (*call)(void), size_t exact)
{
    int bad;
    room = 0;
    bad = measure(title, call, DITGRUX_OUTPUT_SHORT) + (length != 0);
    room = exact - 1;
    bad += measure(title, call, DITGRUX_OUTPUT_SHORT) + (length != 0);
    room = exact;
    return bad + measure(title, call, 0) + (length != exact);
}

/* The line of the code in `output`, which has this length, and back. */
static int line_and_back(const char *title, size_t longest)
{
    int bad;
    room = sizeof text;
    bad = measure("line", line, 0) + exactly(title, length, longest);
    line_length = length <= sizeof optical ? length : 0;
    memcpy(optical, text, line_length);
    bad += measure("unline", unline, 0) + (length != code_length || memcmp(text, output, code_length));
    bad += in_rooms("line", line, line_length) + in_rooms("unline", unline, code_length);
    cut = 1;
    bad += measure("line", line, DITGRUX_BAD_CODE) + measure("unline", unline, DITGRUX_BAD_LINE);
    cut = line_length;
    bad += measure("unline", unline, DITGRUX_BAD_LINE);
    cut = 0;
    output[4] = '_';
    bad += measure("line", line, DITGRUX_BAD_FIELDS);
    return bad;
}

/* The code with the longest line: a payload of the longest length, six bytes of counter and 126 of chain, nothing else in its fields but
 * what fills it up. */
static void make_longest_line(void)
{
    /* places of the "_" before these fields; from the ID's on there are eleven "_", 8 letters of counter and 168 of chain */
    enum { ID = DITGRUX_LONGEST_PAYLOAD - 187, COUNTER = ID + 8, SERIAL = COUNTER + 1 + 8, CHAIN = SERIAL + 1 };
    static const uint8_t fields[] = {0, ID, ID + 1, ID + 2, ID + 3, ID + 4, ID + 5, ID + 6, ID + 7, COUNTER, SERIAL, CHAIN,
                                     DITGRUX_LONGEST_PAYLOAD};
    size_t i;
    code_length = DITGRUX_LONGEST_CODE;
    memset(output, 'A', code_length);
    memcpy(output + 1, "R1-", 3);
    for (i = 0; i < sizeof fields; i++)
        output[fields[i]] = '_';
    memset(output + code_length - 2, '=', 2);
}

static int lines(void)
{
    int bad;
    room = sizeof text;
    code();
    code_length = length;
    memcpy(output, text, code_length);
    bad = line_and_back("line", DITGRUX_LONGEST_LINE);
    make_longest_line();
    bad += line_and_back("any line", DITGRUX_LONGEST_ANY_LINE);
    room = sizeof text;
    bad += measure("base32", base32, 0) + (length != 480) + measure("unbase32", unbase32, 0) + (length != 300);
    cut = 1;
    bad += measure("unbase32", unbase32, DITGRUX_BAD_FORM);
    cut = 0;
    return bad + in_rooms("base32", base32, 480);
}

/* What is left of the refused calls on a whole journal: each stops at another question. */
static int refusals(void)
{
    int bad = check(0) + parts() + damaged(0, DITGRUX_BAD_HEAD) + damaged(form_start, DITGRUX_ENTRY_MISSPELLED);
    cut = 1;
    bad += check(DITGRUX_ENTRY_CUT) + measure("settings", make_settings, DITGRUX_OUTPUT_SHORT);
    cut = sizeof output;
    number = UINT32_MAX;
    bad += measure("prepare", prepare, DITGRUX_NUMBER_NOT_ABOVE) + measure("issue", issue, DITGRUX_NUMBER_NOT_ABOVE);
    cut = 0;
    room = 10;
    bad += measure("open", open_register, DITGRUX_HEAD_TOO_LONG) + measure("shared", open_shared, DITGRUX_HEAD_TOO_LONG);
    settings[ID_END] = '9';
    bad += measure("shared", open_shared, DITGRUX_ID_ENDS_IN_DIGIT);
    settings[ID_END] = name[31];
    return bad + measure("issue", issue, DITGRUX_BAD_STATE);
}

/* A register with its start receipt, and a list of the longest receipts that can be issued without a signature. */
static void make_list(void)
{
    struct ditgrux_details details = {0, 2099, 12, 31, 23, 59, 59, DITGRUX_STANDARD, 0, 0, 0, 0, 0};
    uint32_t i;
    room = sizeof journal;
    open_register();
    memcpy(state, again, sizeof state);
    number = 1;
    issue();
    details.standard = details.reduced_1 = details.reduced_2 = details.zero = details.special = -99999999999;
    for (i = 0; i < RECEIPTS; i++) {
        details.number = UINT32_MAX - RECEIPTS + 1 + i;
        ditgrux_pack_details(&details, list + i * DITGRUX_DETAILS);
    }
    list_length = sizeof list;
}

/* A list call that must give this number and issue so many. */
static int measure_list(uint32_t expected, size_t count)
{
    issued = SIZE_MAX;
    return measure("list", issue_list, expected) + (issued != count);
}

/* Lists: refused at the first receipt, cut, empty, issued in part, and issued to the end, a single receipt and many. */
static int lists(void)
{
    enum { UNSIGNED = DITGRUX_LONGEST_ENTRY - 40 }; /* the text of a failed device is 40 letters shorter than a signature */
    size_t before, single;
    int bad = 0;
    make_list();
    before = ditgrux_journal_length(state, sizeof state);
    room = before - 1;
    bad += measure_list(DITGRUX_BAD_STATE, 0);
    cut = 1;
    bad += measure_list(DITGRUX_BAD_STATE, 0);
    room = sizeof journal;
    bad += measure_list(DITGRUX_NUMBER_NOT_ABOVE, 0);
    cut = list_length;
    bad += measure_list(0, 0);
    cut = 0;
    room = before;
    bad += measure_list(DITGRUX_NO_ROOM, 0);
    room = before + 2 * UNSIGNED + UNSIGNED - 1;
    bad += measure_list(DITGRUX_NO_ROOM, 2) + (ditgrux_journal_length(state, sizeof state) != before + 2 * UNSIGNED);
    room = sizeof journal;
    bad += measure_list(DITGRUX_NUMBER_NOT_ABOVE, 0); /* from its first receipt on, again */
    make_list();
    cut = list_length - DITGRUX_DETAILS;
    bad += measure_list(0, 1) + exactly("unsigned", ditgrux_journal_length(state, sizeof state) - before, UNSIGNED);
    single = last_used;
    cut = 0;
    make_list();
    bad += measure_list(0, RECEIPTS) + (last_used != single) + (ditgrux_journal_length(state, sizeof state) != before + RECEIPTS * UNSIGNED);
    return bad + check(0);
}

/* A change to a serial with this first letter. */
static int change_to(uint8_t letter, uint32_t expected)
{
    memcpy(serial, name, sizeof serial);
    serial[0] = letter;
    return measure("change", change, expected);
}

/* A register with eight serials and a receipt under each. */
static int eight_serials(void)
{
    int bad = 0;
    size_t before;
    room = sizeof journal;
    open_register();
    memcpy(state, again, sizeof state);
    for (number = 1; number <= DITGRUX_MOST_SERIALS; number++) {
        before = ditgrux_journal_length(state, sizeof state);
        if (number > 1)
            bad += change_to((uint8_t)('0' + number), 0) +
                   exactly("change", ditgrux_journal_length(state, sizeof state) - before, DITGRUX_LONGEST_CHANGE);
        bad += measure("prepare", prepare, 0) + measure("issue", issue, 0);
    }
    return bad;
}

/* The readers of the newest serial, answered and refused. */
static int readers(void)
{
    int bad = measure("figures", figures, 0) + in_rooms("serial", newest_serial, DITGRUX_LONGEST_NAME);
    room = DITGRUX_SETTINGS;
    bad += measure("settings in", newest_settings, 0);
    room = 0;
    return bad + measure("settings in", newest_settings, DITGRUX_OUTPUT_SHORT);
}

/* Changes of the certificate, answered and refused, and the check of several pairs. */
static int changes(void)
{
    size_t end;
    int bad = eight_serials();
    end = ditgrux_journal_length(state, sizeof state);
    bad += check(0) + readers();
    room = sizeof journal;
    bad += change_to('G', DITGRUX_BAD_SERIAL) + change_to('0', DITGRUX_SERIAL_USED) + change_to('9', DITGRUX_SERIALS_FULL);
    room = end - 1;
    bad += change_to('9', DITGRUX_BAD_STATE);
    memcpy(journal + end, "\0\0\0\1" "a" "\0\0\0\0", 9); /* a ninth pair */
    more = 8;
    bad += check(DITGRUX_BYTES_LEFT);
    more = 9;
    bad += check(DITGRUX_SERIALS_FULL);
    memcpy(journal + end, "\0\0\0\40", 4); /* the first serial again */
    memcpy(journal + end + 4, name, 32);
    memset(journal + end + 36, 0, 4);
    more = DITGRUX_LONGEST_CHANGE;
    bad += check(DITGRUX_SERIAL_USED);
    more = 0;
    memcpy(state, again, sizeof state); /* all zero */
    bad += change_to('9', DITGRUX_BAD_STATE);
    room = DITGRUX_LONGEST_HEAD + DITGRUX_LONGEST_CHANGE - 1;
    open_register();
    memcpy(state, again, sizeof state);
    return bad + change_to('9', DITGRUX_NO_ROOM);
}

/* A group for each serial, with so many certificates of this length. */
static void make_groups(size_t certificates, size_t size)
{
    size_t i, j;
    groups_length = 0;
    for (i = 0; i < ditgrux_serials(state, sizeof state); i++) {
        groups[groups_length++] = (uint8_t)certificates;
        for (j = 0; j < certificates; j++) {
            groups[groups_length++] = (uint8_t)(size >> 8);
            groups[groups_length++] = (uint8_t)size;
            memset(groups + groups_length, 0xD7, size);
            groups_length += size;
        }
    }
}

/* The journal with one byte changed at the place. */
static int export_damaged(size_t at, uint32_t expected)
{
    int bad;
    journal[at] ^= 1;
    bad = measure("export", export_journal, expected);
    journal[at] ^= 1;
    return bad;
}

/* The text with these bytes in place of those at the place. */
static int read_damaged(size_t at, const char *bytes, uint32_t expected)
{
    uint8_t kept[64];
    const size_t count = strlen(bytes);
    int bad;
    memcpy(kept, inspected + at, count);
    memcpy(inspected + at, bytes, count);
    bad = measure("read export", read_export, expected);
    memcpy(inspected + at, kept, count);
    return bad;
}

/* Where these letters stand in the export, for the last time. */
static size_t last_of(const char *letters)
{
    size_t at = inspected_length - strlen(letters);
    while (memcmp(inspected + at, letters, strlen(letters)) != 0)
        at--;
    return at;
}

/* The export of the journal and back: the answers, and each refusal of the reader before it takes the journal over. */
static int export_and_back(void)
{
    size_t names;
    int bad;
    room = sizeof inspected;
    bad = measure("export", export_journal, 0);
    inspected_length = length;
    bad += in_rooms("export", export_journal, inspected_length);
    room = inspected_length; /* as many bytes as the text has are always enough */
    bad += measure("read export", read_export, 0);
    bad += in_rooms("read export", read_export, ditgrux_journal_length(state, sizeof state));
    bad += (memcmp(restored, journal, length) != 0) + (memcmp(again, state, sizeof state) != 0);
    names = last_of("\"Belege-kompakt\":[") + 18;
    bad += read_damaged(0, "[", DITGRUX_BAD_EXPORT) + read_damaged(inspected_length - 1, ",", DITGRUX_BAD_EXPORT);
    bad += read_damaged(names + 25, ".", DITGRUX_BAD_EXPORT) + read_damaged(names + 1, "E", DITGRUX_ENTRY_MISSPELLED);
    cut = 1;
    bad += measure("read export", read_export, DITGRUX_BAD_EXPORT);
    cut = 0;
    state_cut = 1;
    bad += measure("read export", read_export, DITGRUX_BAD_STATE);
    state_cut = 0;
    width = 9;
    bad += measure("export", export_journal, DITGRUX_BAD_WIDTH) + measure("read export", read_export, DITGRUX_BAD_WIDTH);
    width = 7;
    bad += measure("read export", read_export, DITGRUX_ENTRY_MISSPELLED);
    width = 8;
    memset(inspected + names, ' ', inspected_length - names);
    memcpy(inspected + names, "]}]}", 4);
    return bad + measure("read export", read_export, DITGRUX_NO_RECEIPTS);
}

/* The export of the longest register: eight pairs, many certificates, refused at each question; and of one pair with one receipt and with
 * many, which use the same stack. */
static int exports(void)
{
    int bad = eight_serials();
    size_t single, read;
    make_groups(5, 300);
    bad += export_and_back();
    bad += export_damaged(0, DITGRUX_BAD_HEAD) + export_damaged(DITGRUX_LONGEST_HEAD + 2, DITGRUX_ENTRY_MISSPELLED);
    cut = 1;
    bad += measure("export", export_journal, DITGRUX_ENTRY_CUT);
    cut = 0;
    more = 1;
    bad += measure("export", export_journal, DITGRUX_BYTES_LEFT);
    more = 0;
    make_groups(255, 1);
    room = sizeof inspected;
    bad += measure("export", export_journal, 0);
    groups_length--;
    bad += measure("export", export_journal, DITGRUX_BAD_EXPORT);
    room = sizeof journal;
    open_register();
    memcpy(state, again, sizeof state);
    make_groups(1, 0);
    room = sizeof inspected;
    bad += measure("export", export_journal, 0);
    room = sizeof journal;
    number = 1;
    issue();
    bad += export_and_back();
    room = sizeof inspected;
    bad += measure("export", export_journal, 0);
    single = last_used;
    inspected_length = length;
    bad += measure("read export", read_export, 0);
    read = last_used;
    for (number = 2; number < RECEIPTS; number++)
        issue();
    room = sizeof inspected;
    bad += measure("export", export_journal, 0);
    bad += last_used != single;
    inspected_length = length;
    bad += measure("read export", read_export, 0);
    bad += last_used != read;
    return bad + export_and_back();
}

int main(void)
{
    int bad;
    room = sizeof journal;
    bad = longest();
    bad += refusals() + texts() + lines() + lists() + changes() + exports();
    return bad ? EXIT_FAILURE : EXIT_SUCCESS;
}
