/* A first program: opens a register, issues the start receipt while the signature device is out of order, and prints its code. */
#include "ditgrux.h"

#include <stdio.h>

static uint8_t settings[DITGRUX_SETTINGS], state[DITGRUX_STATE], journal[4096], code[DITGRUX_LONGEST_CODE];
static const uint8_t csp[] = {'A', 'T', '0'}, id[] = {'T', '1'}, serial[] = {'1', 'a', '2', 'b'}, key[DITGRUX_KEY] = {1, 2, 3};

int main(void)
{
    struct ditgrux_details start = {1, 2026, 11, 15, 8, 0, 0, DITGRUX_STANDARD, 0, 0, 0, 0, 0};
    size_t at, length;
    if (ditgrux_settings(csp, sizeof csp, id, sizeof id, serial, sizeof serial, 5, key, sizeof key, settings, sizeof settings))
        return 1;
    if (ditgrux_open(settings, sizeof settings, journal, sizeof journal, state, sizeof state))
        return 1;
    at = ditgrux_journal_length(state, sizeof state) + 2;
    if (ditgrux_issue_details(state, sizeof state, &start, NULL, 0, journal, sizeof journal))
        return 1;
    if (ditgrux_code(journal + at, ditgrux_journal_length(state, sizeof state) - at, code, sizeof code, &length))
        return 1;
    printf("%.*s\n", (int)length, (const char *)code);
    return 0;
}
