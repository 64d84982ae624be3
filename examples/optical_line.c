/* A taximeter whose printer cannot draw a square code: opens a register, issues a start receipt, a ride and its cancellation, and prints
 * for each the machine-readable code and the optical line. The line is what goes to the printer. Then the reader's side: the line gives
 * the code back, and a line that OCR has misread is refused.
 *
 *     cc -Iinclude examples/optical_line.c crates/device/out/libdevice.a -o optical_line
 */
#include "ditgrux.h"

#include <stdio.h>
#include <string.h>

static uint8_t journal[4096], state[DITGRUX_STATE], line[DITGRUX_LONGEST_LINE];
static size_t line_length;

/* Stands in for the signature device: returns how many bytes it wrote, 64, or 0 if it has failed. A real one signs with ES256. */
static size_t sign(const uint8_t *input, size_t length, int works, uint8_t signature[DITGRUX_SIGNATURE])
{
    if (!works)
        return 0;
    ditgrux_sha256(input, length, signature, DITGRUX_HASH);
    ditgrux_sha256(signature, DITGRUX_HASH, signature + DITGRUX_HASH, DITGRUX_HASH);
    return DITGRUX_SIGNATURE;
}

/* Prints the code and the line of a compact form, and turns the line back. A receipt printer breaks the line where its paper ends; the
 * reader joins the rows again. */
static uint32_t print(const uint8_t *form, size_t form_length)
{
    uint8_t code[DITGRUX_LONGEST_CODE], again[DITGRUX_LONGEST_CODE];
    size_t code_length, length;
    uint32_t refused = ditgrux_code(form, form_length, code, sizeof code, &code_length);
    if (refused)
        return refused;
    refused = ditgrux_line(code, code_length, line, sizeof line, &line_length);
    if (refused)
        return refused;
    printf("code %.*s\n", (int)code_length, (const char *)code);
    printf("line %.*s\n", (int)line_length, (const char *)line);

    refused = ditgrux_unline(line, line_length, again, sizeof again, &length);
    if (refused)
        return refused;
    printf("from the line: %s code\n", length == code_length && memcmp(again, code, length) == 0 ? "the same" : "another");
    return DITGRUX_DONE;
}

/* One receipt of 10 percent VAT: what the device signs is prepared, the receipt is issued, its line is printed. */
static uint32_t ride(uint32_t number, uint32_t minute, int64_t cents, uint32_t kind, int device_works)
{
    struct ditgrux_details details = {number, 2026, 11, 15, 22, minute, 30, kind, 0, cents, 0, 0, 0};
    uint8_t input[DITGRUX_LONGEST_INPUT], signature[DITGRUX_SIGNATURE];
    size_t length, signed_bytes, start = ditgrux_journal_length(state, sizeof state) + 2;
    uint32_t refused = ditgrux_prepare_details(state, sizeof state, &details, input, sizeof input, &length);
    if (refused)
        return refused;
    signed_bytes = sign(input, length, device_works, signature);
    refused = ditgrux_issue_details(state, sizeof state, &details, signature, signed_bytes, journal, sizeof journal);
    if (refused)
        return refused;
    /* the compact form lies in the journal, after the two bytes of its length */
    return print(journal + start, ditgrux_journal_length(state, sizeof state) - start);
}

/* The last line with the first capital of its signature as a small letter, as OCR may read it. */
static void misread(void)
{
    uint8_t code[DITGRUX_LONGEST_CODE];
    size_t at = line_length, length;
    uint32_t refused;
    while (line[at - 1] != '_')
        at--;
    while (line[at] < 'A' || line[at] > 'Z')
        at++;
    line[at] = (uint8_t)(line[at] - 'A' + 'a');
    refused = ditgrux_unline(line, line_length, code, sizeof code, &length);
    printf("line %.*s\nwith a small %c: refused %u\n", (int)line_length, (const char *)line, line[at], (unsigned)refused);
}

int main(void)
{
    const uint8_t key[DITGRUX_KEY] = "a key of thirty-two plain bytes";
    uint8_t settings[DITGRUX_SETTINGS];
    if (ditgrux_settings((const uint8_t *)"AT0", 3, (const uint8_t *)"TAXI-7", 6, (const uint8_t *)"1a2b", 4, 5, key, sizeof key, settings,
                         sizeof settings))
        return 1;
    if (ditgrux_open(settings, sizeof settings, journal, sizeof journal, state, sizeof state))
        return 1;
    if (ride(1, 0, 0, DITGRUX_STANDARD, 1) || ride(2, 24, 2380, DITGRUX_STANDARD, 1) || ride(3, 26, -2380, DITGRUX_CANCELLATION, 0))
        return 1;
    misread();
    return 0;
}
