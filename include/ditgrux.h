/*
 * Ditgrux: the receipt journal of a cash register under the Austrian ordinance RKSV.
 *
 * These are the functions of libdevice.a. Each of them is proved, for every input, to return what this header says and to write
 * nothing else. They allocate nothing, keep nothing between calls, and need nothing from outside but memcpy and memset.
 * docs/QUESTIONS.md explains every number that they return; docs/EMBEDDING.md shows how to link, size and store.
 *
 * How a register works:
 *
 *     ditgrux_settings, once: checks CSP, register ID, serial, width and key, and packs them into 123 bytes
 *     ditgrux_open, once: starts the journal and the state; ditgrux_open_shared if other registers have the same key
 *     for each receipt, the first of them a standard receipt with five zeros:
 *         ditgrux_prepare_details: writes the text to be signed
 *         the signature device signs that text with ES256 (64 bytes: r, then s)
 *         ditgrux_issue_details: appends the receipt to the journal
 *         ditgrux_code: writes the machine-readable code that is printed
 *         ditgrux_line: writes the code as a line of text, for a printer that cannot draw a square code
 *     ditgrux_issue_list, for receipts that were keyed while the signature device was down: appends them all in one call
 *     ditgrux_change, when the signature device gets a new certificate: the receipts after it name the new serial
 *     ditgrux_take_over, after each start and whenever you like: checks the whole journal and gives the state back
 *     ditgrux_check_head and then ditgrux_check_steps, again and again: the same check in parts, for a long journal
 *     ditgrux_read_details, to print a receipt again: gives its details and its signature back
 *     ditgrux_export, for an inspector: writes the journal and the certificates as the JSON text of the ordinance's annex
 *     ditgrux_read_export: checks such a text, writes the journal that it spells and gives the state back
 *
 * CSP stands for certification service provider, which issued the certificate of the signature device. It is written as two
 * letters A-Z and a digit, such as AT0. The serial is that of the certificate, in lowercase hexadecimal.
 *
 * Return values. A function returns DITGRUX_DONE (0), or the number of the first check that failed (enum ditgrux_number). The
 * checks run in the order in which the function lists them. A refused call changes no byte of a journal, a text or an output. It
 * sets every out parameter: lengths and indexes are 0 unless the function says otherwise. What happens to the state differs, so
 * each function says it. One exception: a number from ditgrux_issue_list does not say that nothing changed. Look at *issued.
 *
 * Pointers. These rules are not checked; a call that breaks them is undefined, as with memcpy.
 *   - No pointer is NULL, not even where its length is 0: pass any valid address. (The wrapper ditgrux_issue_details is the one
 *     exception.)
 *   - A pointer points to at least as many bytes as its length says.
 *   - The out pointers `length`, `start`, `index` and `issued` are not NULL and are aligned like any size_t or uint32_t. A NULL
 *     `index` or `issued` crashes.
 *   - No buffer that a call writes overlaps another buffer or out parameter of that call. So do not pass the settings, the serial
 *     or the key as a part of a state that the same call writes, nor a list that lies in the journal's buffer.
 *
 * Threads. The functions share no data. Calls on different buffers may run at the same time. Make one call at a time for a state
 * and its journal.
 */
#ifndef DITGRUX_H
#define DITGRUX_H

#include <stddef.h>
#include <stdint.h>

/* The version of the layouts below: settings, state and details as bytes. It rises when one of them changes, so a header with the
 * same number reads the states that you have stored. The archive has its own: see ditgrux_version. */
#define DITGRUX_VERSION 2

#ifdef __cplusplus
extern "C" {
#endif

/* ---- sizes, in bytes */

enum {
    DITGRUX_KEY = 32,             /* the AES-256 key of the turnover counter */
    DITGRUX_SETTINGS = 123,       /* the settings of a register, see below */
    DITGRUX_STATE = 447,          /* the state of a register, see below */
    DITGRUX_DETAILS = 72,         /* the details of a receipt, see below */
    DITGRUX_SIGNATURE = 64,       /* a signature of the device: r and s of ES256, 32 bytes each, not DER */
    DITGRUX_HASH = 32,            /* a SHA-256 value */
    DITGRUX_MOST_SERIALS = 8,     /* the most serials that a register can have, one after the other (a number, not bytes) */
    DITGRUX_LONGEST_NAME = 32,    /* a register ID, or a serial */
    DITGRUX_LONGEST_HEAD = 83,    /* the head of a journal: 19 bytes, the ID and the serial */
    DITGRUX_LONGEST_CHANGE = 40,  /* what a change of the certificate appends to the journal: 8 bytes and the serial */
    DITGRUX_LONGEST_PAYLOAD = 200,
    DITGRUX_LONGEST_INPUT = 288,  /* the text that the device signs */
    DITGRUX_LONGEST_COMPACT = 375,
    DITGRUX_LONGEST_ENTRY = 377,  /* an entry of the journal: two bytes of length and a compact form */
    DITGRUX_LONGEST_CODE = 289,
    DITGRUX_LONGEST_LINE = 313,   /* the optical line of a receipt */
    DITGRUX_LONGEST_ANY_LINE = 353 /* the optical line of any code, whose fields may be longer than those of a receipt */
};

/* ---- kinds of receipt */

enum ditgrux_kind {
    DITGRUX_STANDARD = 0,         /* adds its amounts to the turnover counter and shows the counter, encrypted */
    DITGRUX_CANCELLATION = 1,     /* adds its amounts, too: give them with a minus sign */
    DITGRUX_TRAINING = 2          /* adds nothing */
};

/* ---- why a call is refused; docs/QUESTIONS.md has the usual causes */

enum ditgrux_number {
    DITGRUX_DONE = 0,             /* not refused */
    DITGRUX_BAD_CSP = 1,          /* CSP is not two letters A-Z and a digit; ALSO: the settings are not 123 bytes long */
    DITGRUX_BAD_ID = 2,           /* register ID is not 1 to 32 bytes, each from 33 to 126 and none of them '_' */
    DITGRUX_BAD_SERIAL = 3,       /* serial is not 1 to 32 characters of 0-9 a-f */
    DITGRUX_BAD_WIDTH = 4,        /* width is not 5 to 8; ALSO: the key is not 32 bytes long */
    DITGRUX_HEAD_TOO_LONG = 5,    /* the journal's buffer is too small for the head */
    DITGRUX_BAD_STATE = 6,        /* state is not 447 bytes long, holds bad settings, or contradicts itself or the buffer's size;
                                   * check_steps: or counts more receipts in its last pair than the journal does */
    DITGRUX_NUMBER_NOT_ABOVE = 7, /* receipt number is not above the last one (0 never is); ALSO: the kind is not 0, 1 or 2;
                                   * issue_list: the list is not a whole number of details */
    DITGRUX_BAD_DATE = 8,         /* no date of the years 2000 to 2099, or no time from 0:00:00 to 23:59:59 */
    DITGRUX_BAD_AMOUNT = 9,       /* an amount is not within -99,999,999,999 to 99,999,999,999 cents */
    DITGRUX_NO_START = 10,        /* the first receipt is not a standard one with five zeros */
    DITGRUX_COUNTER_FULL = 11,    /* the turnover counter would not fit its width */
    DITGRUX_BAD_SIGNATURE = 12,   /* signature is neither 64 bytes long nor empty */
    DITGRUX_NO_ROOM = 13,         /* issue, issue_list, change: no room in the journal's buffer; prepare: none in the output */
    DITGRUX_BAD_HEAD = 14,        /* the head of the journal is cut off, or its CSP, ID or serial is bad */
    DITGRUX_ENTRY_CUT = 15,       /* the entry is cut off, or missing though its section counts it */
    DITGRUX_ENTRY_MISSPELLED = 16, /* the entry is not a receipt of this register and serial, spelled as the ordinance has it */
    DITGRUX_ENTRY_NUMBER = 17,    /* the entry's receipt number is not above that of the entry before */
    DITGRUX_ENTRY_NO_START = 18,  /* the first entry is not a standard receipt with five zeros */
    DITGRUX_ENTRY_CHAIN = 19,     /* the entry's chain field does not match the entry before */
    DITGRUX_ENTRY_COUNTER = 20,   /* the sum does not fit the width, or is not the counter that the entry holds encrypted */
    DITGRUX_BYTES_LEFT = 21,      /* bytes follow the last receipt of a pair and are not a good serial and a whole count */
    DITGRUX_BAD_FORM = 22,        /* not a compact form; unbase64, unbase32: not canonical BASE64 or BASE32 */
    DITGRUX_OUTPUT_SHORT = 23,    /* the output is too short; ALSO: that of settings, settings_in or read is longer than it must be */
    DITGRUX_BAD_CODE = 24,        /* not a machine-readable code; fields: or one without a register ID */
    DITGRUX_BAD_FIELDS = 26,      /* a code without twelve fields, or whose counter or chain field is not canonical BASE64 */
    DITGRUX_BAD_LINE = 27,        /* not the optical line of a machine-readable code */
    DITGRUX_BAD_EXPORT = 28,      /* export: certificates not one group for each pair; read_export: the text is not an export */
    DITGRUX_NO_RECEIPTS = 29,     /* read_export: an element of the export has no receipt */
    DITGRUX_SERIAL_USED = 30,     /* change and all that take over: the register has had this serial; asked after 3 and 21 */
    DITGRUX_SERIALS_FULL = 31,    /* change and all that take over: a ninth serial */
    DITGRUX_ID_ENDS_IN_DIGIT = 32 /* open_shared: the register ID ends in a digit; asked between DITGRUX_BAD_ID and DITGRUX_BAD_SERIAL */
};

/* ---- the journal, as bytes
 *
 * A journal is the sections of CSP and ID and then one to eight pairs: the section of a serial, and a section of the receipts that
 * name it. Every section begins with a count of four bytes, big-endian. With a register ID of I bytes and a first serial of S bytes:
 *
 *     at               bytes
 *     0                    4  3, the length of the CSP
 *     4                    3  CSP
 *     7                    4  I, the length of the ID
 *     11                   I  register ID
 *     11 + I               4  S, the length of the serial          the first pair
 *     15 + I               S  serial
 *     15 + I + S           4  the number of receipts in this pair
 *     19 + I + S              their entries
 *                             the next pair: length of the serial, serial, number of receipts, entries; and so on
 *
 * The bytes before the first entry are the head. An entry is a length of two bytes, big-endian, and a compact form of that length.
 *
 * ditgrux_open writes the head. ditgrux_issue appends an entry and rewrites the number of receipts of the last pair;
 * ditgrux_issue_list does so for each receipt that it issues. ditgrux_change appends a pair without receipts. Nothing else in the
 * journal ever changes.
 *
 * This is how to walk the entries of a journal that ditgrux_take_over has accepted or that the functions here have written. (In any
 * other journal, compare each place with the number of bytes that there are before you read.)
 *
 *     static size_t number_at(const uint8_t *bytes, int count)
 *     {
 *         size_t number = 0;
 *         while (count-- > 0)
 *             number = number << 8 | *bytes++;
 *         return number;
 *     }
 *
 *     size_t at = 0, receipts, entry, section, length;
 *     for (section = 0; section < 2; section++)               // CSP, ID
 *         at += 4 + number_at(journal + at, 4);
 *     while (at < journal_length) {                           // a pair
 *         at += 4 + number_at(journal + at, 4);               // its serial
 *         receipts = number_at(journal + at, 4);
 *         at += 4;
 *         for (entry = 0; entry < receipts; entry++) {
 *             length = number_at(journal + at, 2);
 *             use(journal + at + 2, length);                  // the compact form: see ditgrux_read_details and ditgrux_code
 *             at += 2 + length;
 *         }
 *     }
 *
 * `journal_length` is what ditgrux_journal_length says of the state. The journal does not say how long it is: nothing tells the
 * bytes of a next pair from other bytes that lie after the last one in the buffer.
 */

/* ---- settings and state, as bytes
 *
 * Numbers are big-endian. The settings, which ditgrux_settings writes:
 *
 *     at  bytes
 *      0      3  CSP
 *      3     32  register ID, then zeros
 *     35      8  length of the ID
 *     43     32  serial, then zeros
 *     75      8  length of the serial
 *     83      8  width of the turnover counter in bytes
 *     91     32  key
 *
 * The state:
 *
 *     at  bytes
 *      0      3  CSP
 *      3     32  register ID, then zeros
 *     35      8  length of the ID
 *     43    320  eight serials, 40 bytes each, as in the settings: those used, the newest last, then zeros
 *    363      8  width of the turnover counter in bytes
 *    371     32  key
 *    403      8  turnover counter in cents, two's complement
 *    411      4  last receipt number
 *    415      4  number of receipts issued, in all pairs
 *    419      8  chain value for the next receipt
 *    427      8  length of the journal
 *    435      4  number of receipts in the last pair
 *    439      8  place of their count in the journal
 *
 * Any 447 bytes decode to a state; each state has exactly one encoding. Keep the state in flash, and keep it secret: it holds the
 * key. It is not trusted. Prepare, Issue, Issue list, Change and Check steps check it first (an empty list does not) and return
 * DITGRUX_BAD_STATE if it is inconsistent: bad CSP, ID or width; not one to eight good serials with zeros after them; a counter
 * that does not fit the width; more receipts than the last number, or more in the last pair than in all; a journal shorter than
 * its head, or than the end of the last pair's count, or, except in Prepare, longer than its buffer (Check steps: than the journal
 * that is passed). Check steps also asks for the journal's count, see there. Prepare, Issue, Issue list and Change cannot see that a
 * bit of the key, the counter or the chain value has changed, nor that a state is old: with a state from before the last receipt or
 * change, Issue, Issue list and Change write over what came after it, for they read nothing of the journal. A state that Check
 * steps gives before the end of the journal is such an old state. Check steps finds a changed chain value in the next receipt, and a
 * changed counter or (almost always) key by the next standard receipt; where none follows, it does not. Compare the state with what
 * ditgrux_take_over gives when the device starts.
 *
 * After DITGRUX_BAD_STATE the state's bytes are as they were before the call, in every function.
 *
 * The unopened state is 447 zeros. A refused ditgrux_open, ditgrux_open_shared, ditgrux_take_over, ditgrux_check_head or
 * ditgrux_read_export writes it, so do not pass the live state to these five: pass a second array, and copy it when the call has
 * returned DITGRUX_DONE (after ditgrux_check_head, when the whole journal is checked). The state of ditgrux_read_export is that of
 * the journal when it was exported: if the register has issued since, it is an old state, and nobody may issue with it.
 *
 * A lost state comes back by ditgrux_take_over, byte for byte, from the journal, the key and the width. It needs exactly the bytes
 * of the journal, and not its whole buffer, so store the length beside the journal as well. If the length is lost, too,
 * ditgrux_check_head and ditgrux_check_steps find both in the whole buffer, where the bytes after the journal are all 0 or all 0xFF:
 * docs/EMBEDDING.md, "A lost state or a lost length".
 *
 * States of version 1 were 155 bytes long. No function takes them: a device that kept one calls ditgrux_take_over with the journal,
 * whose length stands in the last eight of those 155 bytes, and stores the 447 bytes that it writes.
 */

/* ---- the details of a receipt, as bytes
 *
 * Numbers are big-endian:
 *
 *     at  bytes
 *      0      4  receipt number
 *      4      4  year
 *      8      4  month
 *     12      4  day
 *     16      4  hour
 *     20      4  minute
 *     24      4  second
 *     28      4  kind: 0, 1 or 2 (enum ditgrux_kind)
 *     32      8  amount at the standard rate, in cents, two's complement
 *     40      8  amount at reduced rate 1
 *     48      8  amount at reduced rate 2
 *     56      8  amount at rate zero
 *     64      8  amount at the special rate
 *
 * Different details have different bytes.
 */

/* ---- version */

/* Returns the DITGRUX_VERSION of the archive. If it is not the header's, do not go on: the two belong to different versions. */
uint32_t ditgrux_version(void);

/* ---- settings */

/* Checks the settings of a register and writes them as 123 bytes.
 *
 *     csp, csp_length             two letters A-Z and a digit
 *     id, id_length               the register ID
 *     serial, serial_length       the serial of the certificate
 *     width                       bytes of the turnover counter, 5 to 8
 *     key, key_length             the AES-256 key, 32 bytes
 *     settings, settings_length   output: exactly 123 bytes
 *
 * Returns DITGRUX_DONE, DITGRUX_BAD_CSP, DITGRUX_BAD_ID, DITGRUX_BAD_SERIAL, DITGRUX_BAD_WIDTH (the width, or the key is not 32
 * bytes long), or DITGRUX_OUTPUT_SHORT (settings_length is not 123, be it less or more).
 * Refused: `settings` is unchanged. */
uint32_t ditgrux_settings(const uint8_t *csp, size_t csp_length, const uint8_t *id, size_t id_length, const uint8_t *serial,
                          size_t serial_length, size_t width, const uint8_t *key, size_t key_length, uint8_t *settings,
                          size_t settings_length);

/* ---- what a state says
 *
 * The turnover counter in cents, the last receipt number, the number of receipts issued and the length of the journal. All four
 * return 0 if the state is not 447 bytes long. They read one number and do not check the state. */
int64_t ditgrux_counter(const uint8_t *state, size_t state_length);
uint32_t ditgrux_last_number(const uint8_t *state, size_t state_length);
uint32_t ditgrux_receipts(const uint8_t *state, size_t state_length);
size_t ditgrux_journal_length(const uint8_t *state, size_t state_length);

/* How many serials the register has had: those before the first whose length is 0, at most 8. The newest is number
 * ditgrux_serials - 1. 0 if the state has none or is not 447 bytes long. */
uint32_t ditgrux_serials(const uint8_t *state, size_t state_length);

/* Writes one of the register's serials, as text: number 0 is the first, ditgrux_serials - 1 the newest, which the next receipt names.
 * DITGRUX_LONGEST_NAME bytes of output are always enough.
 *
 *     state, state_length         447 bytes; they are not changed, and not checked either
 *     which                       the number of the serial, from 0
 *     output, output_length       output
 *     length                      output: the length of the serial; 0 if there is no such serial, or if the state is not 447
 *                                 bytes long: then nothing is written, and DITGRUX_DONE is returned; 32 if a damaged state
 *                                 says more, and then all 32 bytes of the serial's place are written
 *
 * Returns DITGRUX_DONE, or DITGRUX_OUTPUT_SHORT. Refused: `output` is unchanged and *length is 0. */
uint32_t ditgrux_serial(const uint8_t *state, size_t state_length, uint32_t which, uint8_t *output, size_t output_length,
                        size_t *length);

/* Writes the settings with which the receipts under one of the register's serials are spelled: CSP, ID, that serial, width and key.
 * ditgrux_read takes them.
 *
 *     state, state_length         447 bytes; they are not changed, and not checked either
 *     which                       the number of the serial, from 0, as for ditgrux_serial
 *     settings, settings_length   output: exactly 123 bytes; they hold the key
 *
 * What the state holds is copied, good or bad: CSP, ID, width, key, and all 40 bytes of a serial that the register has had (`which` is
 * below ditgrux_serials), also if its length is over 32 or bytes after its end are not zero. If the register has had no such serial,
 * the 40 bytes are zeros, whatever the state holds in that place: so also for a serial of length 0 with other bytes than zeros, and for
 * one that comes after a serial of length 0. Settings with a bad serial, or with zeros in its place, ditgrux_read refuses with
 * DITGRUX_BAD_SERIAL, if CSP and ID are good.
 * With a state that is not 447 bytes long the settings are all zero, and ditgrux_read refuses them with DITGRUX_BAD_CSP.
 *
 * Returns DITGRUX_DONE, or DITGRUX_OUTPUT_SHORT (settings_length is not 123, be it less or more). Refused: `settings` is unchanged. */
uint32_t ditgrux_settings_in(const uint8_t *state, size_t state_length, uint32_t which, uint8_t *settings, size_t settings_length);

/* ---- a register */

/* Opens a register: writes the head of a journal without receipts to the start of the buffer, and the state that goes with it. If
 * other registers have the same key, call ditgrux_open_shared instead.
 *
 *     settings, settings_length   from ditgrux_settings, 123 bytes
 *     journal, journal_size       the buffer of the journal, and its whole size
 *     state, state_length         output: exactly 447 bytes
 *
 * Returns DITGRUX_DONE, DITGRUX_BAD_STATE (state_length is not 447), DITGRUX_BAD_CSP (also if settings_length is not 123),
 * DITGRUX_BAD_ID, DITGRUX_BAD_SERIAL, DITGRUX_BAD_WIDTH, or DITGRUX_HEAD_TOO_LONG (journal_size is below 19 + ID + serial).
 * Refused: `journal` is unchanged. With DITGRUX_BAD_STATE `state` is unchanged, too; with any other number it is 447 zeros. */
uint32_t ditgrux_open(const uint8_t *settings, size_t settings_length, uint8_t *journal, size_t journal_size, uint8_t *state,
                      size_t state_length);

/* Opens a register that shares its key with other registers. It is ditgrux_open with one check more: the register ID must not end in
 * a digit. Open every register that shares a key by this function.
 *
 * Why: the initialization vector (IV) that encrypts the turnover counter is a hash of the register ID and the receipt number, written
 * one after the other. Register "A1" at number 2 and register "A" at number 12 both hash "A12", and one IV must not come twice under
 * a key. If no ID ends in a digit, registers with different IDs never hash the same text. "A1" could be called "1A" or "A1-".
 *
 * The function sees one register, so three things are up to you. Open all registers under the key by it: a register "A1" that was
 * opened by ditgrux_open can hash the same text as "A". Give no two of them the same ID. And do not open a register a second time
 * under its old ID and key. (ditgrux_settings does not ask what the ID ends in.)
 *
 * If the ID does not end in a digit, both functions write the same bytes: state and journal do not show which one opened the register.
 * All other functions work alike for both, and ditgrux_take_over accepts a journal whatever its ID ends in.
 *
 *     settings, settings_length   from ditgrux_settings, 123 bytes
 *     journal, journal_size       the buffer of the journal, and its whole size
 *     state, state_length         output: exactly 447 bytes
 *
 * Returns DITGRUX_DONE, DITGRUX_BAD_STATE (state_length is not 447), DITGRUX_BAD_CSP (also if settings_length is not 123),
 * DITGRUX_BAD_ID, DITGRUX_ID_ENDS_IN_DIGIT, DITGRUX_BAD_SERIAL, DITGRUX_BAD_WIDTH, or DITGRUX_HEAD_TOO_LONG (journal_size is below
 * 19 + ID + serial).
 * Refused: `journal` is unchanged. With DITGRUX_BAD_STATE `state` is unchanged, too; with any other number it is 447 zeros. */
uint32_t ditgrux_open_shared(const uint8_t *settings, size_t settings_length, uint8_t *journal, size_t journal_size, uint8_t *state,
                             size_t state_length);

/* Writes the text that the device signs: the compact form of the receipt up to its second '.', without it. You will want
 * ditgrux_prepare_details below, which takes the thirteen details by name.
 *
 *     state, state_length         447 bytes; they are not changed
 *     number                      receipt number, above the last one, up to 4,294,967,295
 *     year .. second              date and time of the receipt; they may lie before those of the last one
 *     standard, reduced_1, reduced_2, zero, special
 *                                 the amounts in cents, by rate of VAT
 *     kind                        enum ditgrux_kind
 *     output, output_length       output; DITGRUX_LONGEST_INPUT bytes are always enough
 *     length                      output: the length of the text
 *
 * The library adds the amounts as they are given. A cancellation must therefore carry negative amounts: positive ones are not
 * refused, and would raise the turnover counter.
 *
 * Returns DITGRUX_DONE, DITGRUX_BAD_STATE, DITGRUX_NUMBER_NOT_ABOVE (also if the kind is unknown), DITGRUX_BAD_DATE,
 * DITGRUX_BAD_AMOUNT, DITGRUX_NO_START, DITGRUX_COUNTER_FULL, or DITGRUX_NO_ROOM (output_length is too small).
 * Refused: `output` is unchanged and *length is 0.
 *
 * Prepare is not given the journal's buffer. It can pass where Issue then returns DITGRUX_BAD_STATE, because the state's journal is
 * longer than the buffer, or DITGRUX_NO_ROOM, because the entry does not fit. */
uint32_t ditgrux_prepare(const uint8_t *state, size_t state_length, uint32_t number, uint32_t year, uint32_t month, uint32_t day,
                         uint32_t hour, uint32_t minute, uint32_t second, int64_t standard, int64_t reduced_1, int64_t reduced_2,
                         int64_t zero, int64_t special, uint32_t kind, uint8_t *output, size_t output_length, size_t *length);

/* Issues a receipt: appends its entry to the journal, rewrites the number of receipts of the last pair, and writes the new state. You
 * will want ditgrux_issue_details below.
 *
 *     state, state_length         447 bytes, in and out
 *     number .. kind              the same state and the same details as in ditgrux_prepare: otherwise the signature is over
 *                                 another text
 *     signature, signature_length the 64 bytes of the device; length 0 says that the device has failed
 *     journal, journal_size       the buffer of the journal, and its whole size
 *
 * Issue does not verify the signature: any 64 bytes are taken.
 *
 * After the call the compact form lies in the journal from two bytes after the old length of the journal up to the new length.
 *
 * Returns DITGRUX_DONE, DITGRUX_BAD_STATE (also if the state's journal is longer than journal_size), DITGRUX_NUMBER_NOT_ABOVE (also
 * if the kind is unknown), DITGRUX_BAD_DATE, DITGRUX_BAD_AMOUNT, DITGRUX_NO_START, DITGRUX_COUNTER_FULL, DITGRUX_BAD_SIGNATURE, or
 * DITGRUX_NO_ROOM (the entry does not fit after the journal).
 * Refused: `state` and `journal` are unchanged. */
uint32_t ditgrux_issue(uint8_t *state, size_t state_length, uint32_t number, uint32_t year, uint32_t month, uint32_t day, uint32_t hour,
                       uint32_t minute, uint32_t second, int64_t standard, int64_t reduced_1, int64_t reduced_2, int64_t zero,
                       int64_t special, uint32_t kind, const uint8_t *signature, size_t signature_length, uint8_t *journal,
                       size_t journal_size);

/* Issues the receipts of a list, in order, all with a failed device: for orders that were keyed while the signature device was down.
 *
 *     state, state_length         447 bytes, in and out
 *     list, list_length           the details of the receipts, 72 bytes each, one after the other (ditgrux_pack_details packs them);
 *                                 list_length is in bytes, so 72 times the number of receipts
 *     journal, journal_size       the buffer of the journal, and its whole size
 *     issued                      output: how many were issued
 *
 * It does what ditgrux_issue does with each of the details and a signature of length 0, up to the first that is refused. That one and
 * those after it are not issued. An empty list issues nothing and returns DITGRUX_DONE, whatever the state is.
 *
 * *issued is the number of receipts issued, whatever the call returns. `state` and `journal` are as the last issued one left them; where
 * none was issued, they are unchanged. The new entries lie in the journal one after the other, from its old length up to the new one:
 * read ditgrux_journal_length before the call to know where they begin.
 *
 * Whenever *issued is not 0, store the journal and the state. Where a receipt was refused, it is the one at place *issued of the list,
 * from 0: correct it or leave it out (or, if there was no room, pass a larger buffer), and call again with the rest of the list, that is
 * from list + 72 * *issued on, with 72 * *issued bytes less. Never issue the receipts before it again under new numbers.
 *
 * Returns DITGRUX_DONE (all were issued), or the number with which ditgrux_issue refuses the first one that it refuses:
 * DITGRUX_BAD_STATE (then none was issued), DITGRUX_NUMBER_NOT_ABOVE (also if the kind is unknown), DITGRUX_BAD_DATE,
 * DITGRUX_BAD_AMOUNT, DITGRUX_NO_START, DITGRUX_COUNTER_FULL, or DITGRUX_NO_ROOM (the entry does not fit after the journal).
 * If list_length is not a multiple of 72, none is issued: it returns DITGRUX_BAD_STATE if ditgrux_issue would, otherwise
 * DITGRUX_NUMBER_NOT_ABOVE.
 * Refused, with none issued: `state` and `journal` are unchanged and *issued is 0. */
uint32_t ditgrux_issue_list(uint8_t *state, size_t state_length, const uint8_t *list, size_t list_length, uint8_t *journal,
                            size_t journal_size, size_t *issued);

/* Changes the certificate: appends the new serial and an empty section of receipts to the journal, and writes the new state. Counter,
 * receipt numbers and chain run on. From then on receipts are prepared, issued and checked with the new serial; the old one cannot
 * come back.
 *
 *     state, state_length         447 bytes, in and out
 *     serial, serial_length       the serial of the new certificate, 1 to 32 characters of 0-9 a-f
 *     journal, journal_size       the buffer of the journal, and its whole size
 *
 * A change may come before the first receipt, and several may follow each other without a receipt between them. Prepare a receipt after
 * the change, not before: the text to be signed names the serial.
 *
 * Returns DITGRUX_DONE, DITGRUX_BAD_STATE (also if the state's journal is longer than journal_size), DITGRUX_BAD_SERIAL,
 * DITGRUX_SERIAL_USED (the register has had this serial, be it the newest or an older one), DITGRUX_SERIALS_FULL (it has had
 * eight), or DITGRUX_NO_ROOM (8 bytes and the serial do not fit after the journal).
 * Refused: `state` and `journal` are unchanged. */
uint32_t ditgrux_change(uint8_t *state, size_t state_length, const uint8_t *serial, size_t serial_length, uint8_t *journal,
                        size_t journal_size);

/* Checks a whole journal, pair by pair and entry by entry, and writes the state that it leads to. It does not verify signatures.
 *
 *     journal, journal_length     the journal, and its exact length (not the size of its buffer)
 *     key, key_length             the AES-256 key, 32 bytes
 *     width                       bytes of the turnover counter, 5 to 8
 *     state, state_length         output: exactly 447 bytes
 *     index                       output: where the journal is refused, see below
 *
 * Returns DITGRUX_DONE, DITGRUX_BAD_STATE (state_length is not 447), DITGRUX_BAD_WIDTH (the width, or the key is not 32 bytes long),
 * DITGRUX_BAD_HEAD, then for each entry DITGRUX_ENTRY_CUT, DITGRUX_ENTRY_MISSPELLED, DITGRUX_ENTRY_NUMBER, DITGRUX_ENTRY_NO_START,
 * DITGRUX_ENTRY_CHAIN or DITGRUX_ENTRY_COUNTER, and where bytes follow the last entry of a pair DITGRUX_BYTES_LEFT,
 * DITGRUX_SERIAL_USED or DITGRUX_SERIALS_FULL.
 * *index is the number of receipts before the place where the journal is refused, in all pairs: with DITGRUX_ENTRY_.. the index of
 * that entry, from 0; with the last three, the receipts up to there. It is 0 with every other result.
 * Refused: with DITGRUX_BAD_STATE `state` is unchanged; with any other number it is 447 zeros. The journal is only read. */
uint32_t ditgrux_take_over(const uint8_t *journal, size_t journal_length, const uint8_t *key, size_t key_length, size_t width,
                           uint8_t *state, size_t state_length, uint32_t *index);

/* Checks the head of a journal and nothing after it, and writes the state that the first ditgrux_check_steps starts from: that of a
 * register without receipts, as ditgrux_open gives it, however many receipts the journal counts.
 *
 *     journal, journal_length     the journal, and its exact length; or its whole buffer, to find a length that was lost
 *     key, key_length             the AES-256 key, 32 bytes
 *     width                       bytes of the turnover counter, 5 to 8
 *     state, state_length         output: exactly 447 bytes
 *
 * Returns DITGRUX_DONE, DITGRUX_BAD_STATE (state_length is not 447), DITGRUX_BAD_WIDTH (the width, or the key is not 32 bytes long),
 * or DITGRUX_BAD_HEAD.
 * Refused: with DITGRUX_BAD_STATE `state` is unchanged; with the other two it is 447 zeros. The journal is only read. */
uint32_t ditgrux_check_head(const uint8_t *journal, size_t journal_length, const uint8_t *key, size_t key_length, size_t width,
                            uint8_t *state, size_t state_length);

/* Checks the next part of a journal: goes on where the state ends, takes the given number of steps, and writes the state after them.
 *
 *     state, state_length         447 bytes, in and out: from ditgrux_check_head, or from the ditgrux_check_steps before
 *     journal, journal_length     the whole journal from its first byte, and its length, as in ditgrux_check_head
 *     steps                       how many steps to take; any number
 *     index                       output: where the journal is refused, see below
 *
 * A step checks one entry, or the start of a pair after the first. It asks what ditgrux_take_over asks there, under the key and the
 * width of the state. Where the last pair has all its entries and no byte follows, a step changes nothing. So the call returns at the
 * end of the journal, however many steps are left. A call with 0 steps only asks DITGRUX_BAD_STATE.
 *
 * ditgrux_check_head and then ditgrux_check_steps, up to the first call that is refused, give what ditgrux_take_over gives: the same
 * state, or the same number and index (0 where ditgrux_check_head is refused: set it before). This holds for every list of steps,
 * with or without 0 among them, that adds up to at least journal_length. To see the end sooner: the whole journal is accepted as
 * soon as a call with 1 or more steps has returned DITGRUX_DONE and left ditgrux_journal_length as it was. Do not stop where
 * ditgrux_journal_length reaches journal_length: a journal that lacks its last entries gets DITGRUX_ENTRY_CUT only in the next step.
 *
 *     index = 0;                // ditgrux_check_head has none: it is 0 with its numbers
 *     number = ditgrux_check_head(journal, journal_length, key, sizeof key, width, state, sizeof state);
 *     for (before = 0; number == DITGRUX_DONE && before != ditgrux_journal_length(state, sizeof state);) {
 *         before = ditgrux_journal_length(state, sizeof state);
 *         show_progress(before, journal_length);
 *         number = ditgrux_check_steps(state, sizeof state, journal, journal_length, 1000, &index);    // never 0 steps here
 *     }
 *
 * Of the journal before the state's length the call reads only the four bytes of the last pair's count. So it trusts what was checked
 * before, and the state: let nobody change either between the calls. The journal may grow in between by receipts and changes that a
 * register appends: pass its new length then.
 *
 * Until the end is reached, the state is that of a shorter journal. Never pass it to Issue, Issue list or Change: they would write over
 * the receipts after it.
 *
 * Returns DITGRUX_DONE, DITGRUX_BAD_STATE (the state is bad, its journal is longer than journal_length, or the journal counts fewer
 * receipts in the state's last pair than the state does), or what ditgrux_take_over returns for an entry or the start of a pair:
 * DITGRUX_ENTRY_CUT, DITGRUX_ENTRY_MISSPELLED, DITGRUX_ENTRY_NUMBER, DITGRUX_ENTRY_NO_START, DITGRUX_ENTRY_CHAIN,
 * DITGRUX_ENTRY_COUNTER, DITGRUX_BYTES_LEFT, DITGRUX_SERIAL_USED or DITGRUX_SERIALS_FULL.
 * *index is that of ditgrux_take_over: the number of receipts before the place where the journal is refused, in all pairs, and not in
 * this call alone. It is 0 with DITGRUX_DONE and DITGRUX_BAD_STATE.
 * Refused: `state` is unchanged, so it is the state before the steps of this call. The journal is only read. */
uint32_t ditgrux_check_steps(uint8_t *state, size_t state_length, const uint8_t *journal, size_t journal_length, size_t steps,
                             uint32_t *index);

/* Reads a receipt back: gives the details and the signature of one compact form. You will want ditgrux_read_details below, which
 * gives the details by name.
 *
 *     settings, settings_length   the settings of the register, 123 bytes, with the serial of the receipt: from ditgrux_settings, or
 *                                 from ditgrux_settings_in, which takes them from a state
 *     form, form_length           the compact form, without the two bytes of its length in the journal
 *     details, details_length     output: exactly 72 bytes
 *     signature, signature_size   output: exactly 64 bytes
 *     length                      output: the length of the signature: 64, or 0 if the device had failed; then `signature`, which
 *                                 must still be 64 bytes long, is unchanged
 *
 * What it gives is what ditgrux_issue was given. It asks of the form what ditgrux_take_over asks of an entry by itself: that it is
 * spelled exactly as a receipt of this register, with a counter of the settings' width. (A cancellation or a training receipt shows
 * no counter and is read under any width.) It looks neither at the chain nor at the counter, does not use the key, and does not
 * verify the signature.
 *
 * Returns DITGRUX_DONE, DITGRUX_BAD_CSP (also if settings_length is not 123), DITGRUX_BAD_ID, DITGRUX_BAD_SERIAL, DITGRUX_BAD_WIDTH,
 * DITGRUX_ENTRY_MISSPELLED, or DITGRUX_OUTPUT_SHORT (details_length is not 72, or signature_size is not 64, be it less or more).
 * Refused: `details` and `signature` are unchanged and *length is 0. */
uint32_t ditgrux_read(const uint8_t *settings, size_t settings_length, const uint8_t *form, size_t form_length, uint8_t *details,
                      size_t details_length, uint8_t *signature, size_t signature_size, size_t *length);

/* ---- the machine-readable code */

/* Writes the machine-readable code of a compact form. DITGRUX_LONGEST_CODE bytes of output are always enough. It asks for the frame
 * of a compact form (three elements of BASE64-URL, a payload that begins with "_R1-", a signature or the text of a failed device)
 * and not for the fields in it.
 *
 * Returns DITGRUX_DONE, DITGRUX_BAD_FORM, or DITGRUX_OUTPUT_SHORT. Refused: `output` is unchanged and *length is 0. */
uint32_t ditgrux_code(const uint8_t *form, size_t form_length, uint8_t *output, size_t output_length, size_t *length);

/* Writes the compact form of a machine-readable code. DITGRUX_LONGEST_COMPACT bytes of output are always enough.
 *
 * Returns DITGRUX_DONE, DITGRUX_BAD_CODE, or DITGRUX_OUTPUT_SHORT. Refused: `output` is unchanged and *length is 0. */
uint32_t ditgrux_uncode(const uint8_t *code, size_t code_length, uint8_t *output, size_t output_length, size_t *length);

/* Finds the register ID in a machine-readable code: where it starts, and its length.
 *
 * Returns DITGRUX_DONE, or DITGRUX_BAD_CODE (also if the code has no ID, or an empty one). Refused: *start and *length are 0. */
uint32_t ditgrux_fields(const uint8_t *code, size_t code_length, size_t *start, size_t *length);

/* ---- the export for an inspector
 *
 * The ordinance's annex (3) gives the text that an inspector loads. It is JSON, with one element for each pair of the journal:
 *
 *     {"Belege-Gruppe":[{"Signaturzertifikat":"..","Zertifizierungsstellen":["..",".."],"Belege-kompakt":["..",".."]}]}
 *
 * "Signaturzertifikat" is the certificate of the signature device, and "Zertifizierungsstellen" are the certificates of its issuers,
 * all of them in BASE64 (padded). "Belege-kompakt" are the compact forms of the pair's receipts, in order.
 *
 * The certificates come as groups, one for each pair and in the same order, with no byte between or after them. A group is one byte
 * with the number of certificates, 1 to 255, and then each certificate after its length in two bytes, big-endian: first that of the
 * signature device, then those of its issuers. A certificate is copied as it is, as a rule DER; it may be 0 to 65,535 bytes long.
 * Group i belongs to serial i of ditgrux_serial. The library does not look into certificates: it takes groups in the wrong order.
 */

/* Checks a journal as ditgrux_take_over does and writes it, with its certificates, as the text above, without blanks. A pair without
 * receipts is written, too, with an empty list.
 *
 *     journal, journal_length     the journal, and its exact length (not the size of its buffer)
 *     key, key_length             the AES-256 key, 32 bytes
 *     width                       bytes of the turnover counter, 5 to 8
 *     certificates, certificates_length
 *                                 one group for each pair of the journal, see above
 *     output, output_length       output: the text; nothing is written after it. docs/EMBEDDING.md says how many bytes are enough
 *     length                      output: the length of the text
 *     index                       output: where the journal is refused, as in ditgrux_take_over
 *
 * Returns DITGRUX_DONE, or what ditgrux_take_over returns for this journal, key and width: DITGRUX_BAD_WIDTH (the width, or the key
 * is not 32 bytes long), DITGRUX_BAD_HEAD, DITGRUX_ENTRY_CUT, DITGRUX_ENTRY_MISSPELLED, DITGRUX_ENTRY_NUMBER, DITGRUX_ENTRY_NO_START,
 * DITGRUX_ENTRY_CHAIN, DITGRUX_ENTRY_COUNTER, DITGRUX_BYTES_LEFT, DITGRUX_SERIAL_USED or DITGRUX_SERIALS_FULL; then
 * DITGRUX_BAD_EXPORT (the certificates are not exactly one group for each pair), or DITGRUX_OUTPUT_SHORT.
 * *index is that of ditgrux_take_over with its numbers, and 0 with every other result.
 * Refused: `output` is unchanged and *length is 0. */
uint32_t ditgrux_export(const uint8_t *journal, size_t journal_length, const uint8_t *key, size_t key_length, size_t width,
                        const uint8_t *certificates, size_t certificates_length, uint8_t *output, size_t output_length,
                        size_t *length, uint32_t *index);

/* Reads an export: checks the text, checks the journal that it spells as ditgrux_take_over does, writes that journal and the state
 * that it leads to. The certificates are checked for their spelling and are not kept.
 *
 * The text may have JSON blanks (space, tab, line feed, return) where JSON has them, the three inner names of an element in any order,
 * and the escape \u003d, with a small d, for '='. A string holds the bytes 32 to 126 without quote and backslash, or that escape.
 * Anything else, though JSON has it, is refused: another name, a name twice or missing, another escape, a byte order mark.
 *
 * The journal gets CSP and register ID from the first receipt of the first element, and the serial of each pair from the first
 * receipt of its element. All other receipts must name the same: one that does not gets DITGRUX_ENTRY_MISSPELLED.
 *
 *     text, text_length           the export
 *     key, key_length             the AES-256 key, 32 bytes
 *     width                       bytes of the turnover counter, 5 to 8
 *     output, output_length       output: the journal; nothing is written after it. text_length bytes are always enough;
 *                                 it must not overlap the text
 *     state, state_length         output: exactly 447 bytes
 *     length                      output: the length of the journal
 *     index                       output: where the journal is refused, as in ditgrux_take_over
 *
 * Returns DITGRUX_DONE, or DITGRUX_BAD_STATE (state_length is not 447); then, each asked of all elements before the next one is
 * asked, DITGRUX_BAD_EXPORT (the text is not of the shape above or has no element, a certificate is not in canonical BASE64, a
 * receipt is over 65,535 bytes long, or an element has over 4,294,967,295 receipts), DITGRUX_NO_RECEIPTS (an element has none),
 * DITGRUX_BAD_EXPORT (the first receipt of an element is not three parts with '.' between them, the middle one canonical BASE64-URL
 * of "_" and twelve fields joined by '_', with a good CSP after "R1-" in the first, a good ID in the second and a good serial in the
 * eleventh), and DITGRUX_OUTPUT_SHORT; last, what ditgrux_take_over returns for the journal that the text spells: DITGRUX_BAD_WIDTH
 * (the width, or the key is not 32 bytes long), DITGRUX_ENTRY_MISSPELLED, DITGRUX_ENTRY_NUMBER, DITGRUX_ENTRY_NO_START,
 * DITGRUX_ENTRY_CHAIN, DITGRUX_ENTRY_COUNTER, DITGRUX_SERIAL_USED or DITGRUX_SERIALS_FULL. (Its other numbers cannot come, since that
 * journal is whole.) So a wrong width or key length does not hide what is wrong with the text.
 * *index is that of ditgrux_take_over with its numbers, and 0 with every other result.
 * Refused: `output` is unchanged and *length is 0. With DITGRUX_BAD_STATE `state` is unchanged, too; with any other number it is 447
 * zeros. */
uint32_t ditgrux_read_export(const uint8_t *text, size_t text_length, const uint8_t *key, size_t key_length, size_t width,
                             uint8_t *output, size_t output_length, uint8_t *state, size_t state_length, size_t *length,
                             uint32_t *index);

/* ---- the optical line
 *
 * A printer that cannot draw a square code prints a line of text, which is read by OCR. The line is the code with three fields in
 * BASE32 (RFC 4648, padded) in place of BASE64: the counter field, which is the tenth of the payload's twelve; the chain field, which
 * is the twelfth; and the signature after them. BASE32 has A-Z, 2-7 and '=': no small letters, and neither 0, 1, 8 nor 9.
 */

/* Writes the optical line of a machine-readable code. DITGRUX_LONGEST_LINE bytes of output are enough for the code of every receipt
 * that a register issues, DITGRUX_LONGEST_ANY_LINE for every code. It asks what ditgrux_uncode asks of a code, then for twelve fields
 * with a counter and a chain field in canonical BASE64, of any length or empty; it copies the other fields as they are.
 *
 * Returns DITGRUX_DONE, DITGRUX_BAD_CODE, DITGRUX_BAD_FIELDS, or DITGRUX_OUTPUT_SHORT. Refused: `output` is unchanged and *length
 * is 0. */
uint32_t ditgrux_line(const uint8_t *code, size_t code_length, uint8_t *output, size_t output_length, size_t *length);

/* Writes the machine-readable code of an optical line. DITGRUX_LONGEST_CODE bytes of output are always enough. It takes exactly the
 * lines that ditgrux_line writes: a small letter in BASE32, a missing '=' or a field too many is refused.
 *
 * Returns DITGRUX_DONE, DITGRUX_BAD_LINE, or DITGRUX_OUTPUT_SHORT. Refused: `output` is unchanged and *length is 0. */
uint32_t ditgrux_unline(const uint8_t *line, size_t line_length, uint8_t *output, size_t output_length, size_t *length);

/* ---- for tests */

/* Writes the SHA-256 value of the data to the first 32 bytes of the output.
 *
 * Returns DITGRUX_DONE, or DITGRUX_OUTPUT_SHORT (output_length is below 32). Refused: `output` is unchanged. */
uint32_t ditgrux_sha256(const uint8_t *data, size_t data_length, uint8_t *output, size_t output_length);

/* Writes the data as BASE64 with padding (url is 0) or as BASE64-URL without padding (any other url).
 *
 * Returns DITGRUX_DONE, or DITGRUX_OUTPUT_SHORT. Refused: `output` is unchanged and *length is 0. */
uint32_t ditgrux_base64(uint32_t url, const uint8_t *data, size_t data_length, uint8_t *output, size_t output_length, size_t *length);

/* Writes the bytes that such a text stands for.
 *
 * Returns DITGRUX_DONE, DITGRUX_BAD_FORM (wrong padding, foreign letters, or unused bits that are not zero), or
 * DITGRUX_OUTPUT_SHORT. Refused: `output` is unchanged and *length is 0. */
uint32_t ditgrux_unbase64(uint32_t url, const uint8_t *text, size_t text_length, uint8_t *output, size_t output_length, size_t *length);

/* Writes the data as BASE32 with padding.
 *
 * Returns DITGRUX_DONE, or DITGRUX_OUTPUT_SHORT. Refused: `output` is unchanged and *length is 0. */
uint32_t ditgrux_base32(const uint8_t *data, size_t data_length, uint8_t *output, size_t output_length, size_t *length);

/* Writes the bytes that such a text stands for.
 *
 * Returns DITGRUX_DONE, DITGRUX_BAD_FORM (wrong padding, foreign letters, or unused bits that are not zero), or
 * DITGRUX_OUTPUT_SHORT. Refused: `output` is unchanged and *length is 0. */
uint32_t ditgrux_unbase32(const uint8_t *text, size_t text_length, uint8_t *output, size_t output_length, size_t *length);

/* ---- the details of a receipt by name
 *
 * What follows is plain C in this header and not in the archive: it is tested (tests/header.c) and not proved. To issue a receipt, set
 * the struct to zeros first, then set what the receipt has, and pass the same struct to ditgrux_prepare_details and
 * ditgrux_issue_details. */

struct ditgrux_details {
    uint32_t number;                                /* receipt number, above the last one */
    uint32_t year, month, day, hour, minute, second;
    uint32_t kind;                                  /* enum ditgrux_kind */
    int64_t standard, reduced_1, reduced_2, zero, special; /* cents by rate of VAT; negative in a cancellation */
};

/* ditgrux_prepare with these details. Same numbers, same buffers. */
static inline uint32_t ditgrux_prepare_details(const uint8_t *state, size_t state_length, const struct ditgrux_details *details,
                                               uint8_t *output, size_t output_length, size_t *length)
{
    return ditgrux_prepare(state, state_length, details->number, details->year, details->month, details->day, details->hour,
                           details->minute, details->second, details->standard, details->reduced_1, details->reduced_2, details->zero,
                           details->special, details->kind, output, output_length, length);
}

/* ditgrux_issue with these details. Same numbers, same buffers. Where signature_length is 0 (the device has failed), `signature` is
 * not used and may be NULL. */
static inline uint32_t ditgrux_issue_details(uint8_t *state, size_t state_length, const struct ditgrux_details *details,
                                             const uint8_t *signature, size_t signature_length, uint8_t *journal, size_t journal_size)
{
    const uint8_t none = 0;
    return ditgrux_issue(state, state_length, details->number, details->year, details->month, details->day, details->hour,
                         details->minute, details->second, details->standard, details->reduced_1, details->reduced_2, details->zero,
                         details->special, details->kind, signature_length != 0 ? signature : &none, signature_length, journal,
                         journal_size);
}

/* The number of four bytes, and the amount of eight, in the details as bytes. */
static inline uint32_t ditgrux_number_in(const uint8_t *bytes)
{
    return (uint32_t)bytes[0] << 24 | (uint32_t)bytes[1] << 16 | (uint32_t)bytes[2] << 8 | (uint32_t)bytes[3];
}

static inline int64_t ditgrux_amount_in(const uint8_t *bytes)
{
    const uint64_t bits = (uint64_t)ditgrux_number_in(bytes) << 32 | ditgrux_number_in(bytes + 4);
    return bits >> 63 ? -(int64_t)~bits - 1 : (int64_t)bits;
}

/* The details that 72 bytes spell. */
static inline struct ditgrux_details ditgrux_details_in(const uint8_t *bytes)
{
    struct ditgrux_details details;
    details.number = ditgrux_number_in(bytes);
    details.year = ditgrux_number_in(bytes + 4);
    details.month = ditgrux_number_in(bytes + 8);
    details.day = ditgrux_number_in(bytes + 12);
    details.hour = ditgrux_number_in(bytes + 16);
    details.minute = ditgrux_number_in(bytes + 20);
    details.second = ditgrux_number_in(bytes + 24);
    details.kind = ditgrux_number_in(bytes + 28);
    details.standard = ditgrux_amount_in(bytes + 32);
    details.reduced_1 = ditgrux_amount_in(bytes + 40);
    details.reduced_2 = ditgrux_amount_in(bytes + 48);
    details.zero = ditgrux_amount_in(bytes + 56);
    details.special = ditgrux_amount_in(bytes + 64);
    return details;
}

/* Writes a number as four bytes, and an amount as eight, as in the details as bytes. */
static inline void ditgrux_put_number(uint8_t *bytes, uint32_t number)
{
    bytes[0] = (uint8_t)(number >> 24);
    bytes[1] = (uint8_t)(number >> 16);
    bytes[2] = (uint8_t)(number >> 8);
    bytes[3] = (uint8_t)number;
}

static inline void ditgrux_put_amount(uint8_t *bytes, int64_t amount)
{
    ditgrux_put_number(bytes, (uint32_t)((uint64_t)amount >> 32));
    ditgrux_put_number(bytes + 4, (uint32_t)(uint64_t)amount);
}

/* Packs details into DITGRUX_DETAILS bytes, for a list that ditgrux_issue_list takes: the details at place i, from 0, start at byte
 * i * DITGRUX_DETAILS. ditgrux_details_in gives them back. */
static inline void ditgrux_pack_details(const struct ditgrux_details *details, uint8_t *bytes)
{
    ditgrux_put_number(bytes, details->number);
    ditgrux_put_number(bytes + 4, details->year);
    ditgrux_put_number(bytes + 8, details->month);
    ditgrux_put_number(bytes + 12, details->day);
    ditgrux_put_number(bytes + 16, details->hour);
    ditgrux_put_number(bytes + 20, details->minute);
    ditgrux_put_number(bytes + 24, details->second);
    ditgrux_put_number(bytes + 28, details->kind);
    ditgrux_put_amount(bytes + 32, details->standard);
    ditgrux_put_amount(bytes + 40, details->reduced_1);
    ditgrux_put_amount(bytes + 48, details->reduced_2);
    ditgrux_put_amount(bytes + 56, details->zero);
    ditgrux_put_amount(bytes + 64, details->special);
}

/* ditgrux_read with the details by name. Same numbers. `signature` points to DITGRUX_SIGNATURE bytes. Refused: *details is unchanged,
 * too. */
static inline uint32_t ditgrux_read_details(const uint8_t *settings, size_t settings_length, const uint8_t *form, size_t form_length,
                                            struct ditgrux_details *details, uint8_t *signature, size_t *length)
{
    uint8_t bytes[DITGRUX_DETAILS];
    const uint32_t refused =
        ditgrux_read(settings, settings_length, form, form_length, bytes, sizeof bytes, signature, DITGRUX_SIGNATURE, length);
    if (refused == DITGRUX_DONE)
        *details = ditgrux_details_in(bytes);
    return refused;
}

#ifdef __cplusplus
}
#endif

#endif
