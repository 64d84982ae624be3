/* The program takeover once more, over the static library and in parts: ditgrux_check_head, and then ditgrux_check_steps with 1, 0, 2 and
 * 3 steps in turn, up to the first refusal or to the end. It reads what takeover reads and must print what takeover prints, so
 * tests/takeover runs it on the same journals. */
#include "ditgrux.h"

#include <inttypes.h>
#include <stdio.h>
#include <unistd.h>

enum { LONGEST = 65536, BEFORE = 1 + DITGRUX_KEY };

static uint8_t input[LONGEST + 1];

/* The bytes of standard input; more than LONGEST if it is too long or cannot be read to its end. */
static size_t read_input(void)
{
    size_t length = 0;
    while (length < sizeof input) {
        const ssize_t got = read(STDIN_FILENO, input + length, sizeof input - length);
        if (got < 0)
            return sizeof input;
        if (got == 0)
            return length;
        length += (size_t)got;
    }
    return length;
}

/* The number of the check, with its index and the state after it. */
static uint32_t check(const uint8_t *journal, size_t length, uint8_t *state, uint32_t *index)
{
    static const size_t steps[] = {1, 0, 2, 3};
    size_t turn, before = 0;
    uint32_t refused = ditgrux_check_head(journal, length, input + 1, DITGRUX_KEY, input[0], state, DITGRUX_STATE);
    *index = 0;
    for (turn = 0; refused == DITGRUX_DONE; turn = (turn + 1) % 4) {
        before = ditgrux_journal_length(state, DITGRUX_STATE);
        refused = ditgrux_check_steps(state, DITGRUX_STATE, journal, length, steps[turn], index);
        if (steps[turn] != 0 && before == ditgrux_journal_length(state, DITGRUX_STATE))
            break;
    }
    return refused;
}

int main(void)
{
    const size_t length = read_input();
    uint8_t state[DITGRUX_STATE];
    uint32_t index, refused;
    if (length < BEFORE || length > LONGEST) {
        puts("refused 25 0");
        return 0;
    }
    refused = check(input + BEFORE, length - BEFORE, state, &index);
    if (refused != DITGRUX_DONE)
        printf("refused %" PRIu32 " %" PRIu32 "\n", refused, index);
    else
        printf("accepted %" PRIu32 " %" PRId64 "\n", ditgrux_receipts(state, sizeof state), ditgrux_counter(state, sizeof state));
    return 0;
}
