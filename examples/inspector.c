/* An inspector comes to the shop. The till, whose certificate has changed once, exports its journal with the certificates as JSON; on the
 * inspector's side the export is read back into the journal. Then two exports that are refused: one without the start receipt, and one
 * with a certificate that lost a '='. The certificates are made up: the library does not look into them.
 *
 *     cc -Iinclude examples/inspector.c crates/device/out/libdevice.a -o inspector
 */
#include "ditgrux.h"

#include <stdio.h>
#include <string.h>

enum { WIDTH = 5, MOST_RECEIPTS = 10, CHANGES = 1 };

static const uint8_t key[DITGRUX_KEY] = "a key of thirty-two plain bytes";
static uint8_t journal[DITGRUX_LONGEST_HEAD + CHANGES * DITGRUX_LONGEST_CHANGE + MOST_RECEIPTS * DITGRUX_LONGEST_ENTRY];
static uint8_t state[DITGRUX_STATE], groups[1024], text[8192], restored[8192];

/* ---- the till */

/* Issues a receipt. The signature device is out of order, so there is no signature. */
static uint32_t issue(uint32_t number, int64_t cents)
{
    struct ditgrux_details details = {number, 2026, 11, 17, 9, 30, 0, DITGRUX_STANDARD, cents, 0, 0, 0, 0};
    return ditgrux_issue_details(state, sizeof state, &details, NULL, 0, journal, sizeof journal);
}

/* Opens a register and issues two receipts under its first certificate and one under the second. Returns 0 where that went well. */
static uint32_t make_journal(void)
{
    uint8_t settings[DITGRUX_SETTINGS];
    uint32_t refused = ditgrux_settings((const uint8_t *)"AT0", 3, (const uint8_t *)"TILL-1", 6, (const uint8_t *)"1a2b", 4, WIDTH, key,
                                        sizeof key, settings, sizeof settings);
    if (!refused)
        refused = ditgrux_open(settings, sizeof settings, journal, sizeof journal, state, sizeof state);
    if (!refused)
        refused = issue(1, 0);
    if (!refused)
        refused = issue(2, 1250);
    if (!refused)
        refused = ditgrux_change(state, sizeof state, (const uint8_t *)"3c4d", 4, journal, sizeof journal);
    if (!refused)
        refused = issue(3, 480);
    return refused;
}

/* ---- the certificates */

/* Appends a certificate to the group that was begun last: its length in two bytes, then its bytes. Returns the place after it. */
static size_t add_certificate(size_t at, const char *der)
{
    const size_t length = strlen(der);
    groups[at] = (uint8_t)(length >> 8);
    groups[at + 1] = (uint8_t)length;
    memcpy(groups + at + 2, der, length);
    return at + 2 + length;
}

/* One group for each pair, that is for each serial. A group begins with its number of certificates; that of the signature device comes
 * first, then those of its issuers. Returns the length of both groups. */
static size_t make_groups(void)
{
    size_t at = 0;
    groups[at++] = 2;
    at = add_certificate(at, "certificate 1a2b");
    at = add_certificate(at, "its issuer");
    groups[at++] = 3;
    at = add_certificate(at, "certificate 3c4d");
    at = add_certificate(at, "its issuer");
    return add_certificate(at, "the issuer of the issuer");
}

/* How many bytes are enough for the export: see docs/EMBEDDING.md. */
static size_t export_room(const uint8_t *certificates, size_t length)
{
    size_t room = 8 + ditgrux_journal_length(state, sizeof state) + ditgrux_receipts(state, sizeof state) +
                  63 * (size_t)ditgrux_serials(state, sizeof state);
    size_t at = 0, count, size;
    while (at < length)
        for (count = certificates[at++]; count > 0; count--) {
            size = (size_t)certificates[at] << 8 | certificates[at + 1];
            room += 3 + 4 * ((size + 2) / 3);
            at += 2 + size;
        }
    return room;
}

/* ---- the inspector */

/* Reads an export. As many bytes of output as the text has are always enough. */
static void inspect(const char *title, const uint8_t *bytes, size_t bytes_length)
{
    uint8_t found[DITGRUX_STATE];
    size_t length;
    uint32_t index;
    const uint32_t refused = ditgrux_read_export(bytes, bytes_length, key, sizeof key, WIDTH, restored, sizeof restored, found, sizeof found,
                                                 &length, &index);
    if (refused) {
        printf("%s: refused %u, index %u\n", title, (unsigned)refused, (unsigned)index);
        return;
    }
    printf("%s: %u receipts, %u serials, counter %ld cents; %s journal, %s state\n", title, (unsigned)ditgrux_receipts(found, sizeof found),
           (unsigned)ditgrux_serials(found, sizeof found), (long)ditgrux_counter(found, sizeof found),
           length == ditgrux_journal_length(state, sizeof state) && memcmp(restored, journal, length) == 0 ? "the till's" : "another",
           memcmp(found, state, sizeof found) == 0 ? "its" : "another");
}

/* The place of these letters in the export, from a place on. They are there. */
static size_t place_of(const char *letters, size_t from)
{
    while (memcmp(text + from, letters, strlen(letters)) != 0)
        from++;
    return from;
}

/* The same export without the bytes from one place up to another. */
static void inspect_without(const char *title, size_t length, size_t from, size_t to)
{
    static uint8_t shorter[sizeof text];
    memcpy(shorter, text, from);
    memcpy(shorter + from, text + to, length - to);
    inspect(title, shorter, length - (to - from));
}

int main(void)
{
    size_t length, room, receipt, padding, groups_length = make_groups();
    uint32_t index;
    if (make_journal())
        return 1;
    room = export_room(groups, groups_length);
    if (room > sizeof text)
        return 1;
    if (ditgrux_export(journal, ditgrux_journal_length(state, sizeof state), key, sizeof key, WIDTH, groups, groups_length, text, room, &length,
                       &index))
        return 1;
    printf("%.*s\n", (int)length, (const char *)text);
    printf("%u bytes; there was room for %u\n", (unsigned)length, (unsigned)room);
    inspect("read back", text, length);
    receipt = place_of("\"eyJ", 0);
    inspect_without("without the start receipt", length, receipt, place_of("\"eyJ", receipt + 1));
    padding = place_of("==", 0);
    inspect_without("with a certificate that lost a '='", length, padding, padding + 1);
    return 0;
}
