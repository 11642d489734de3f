/* 01's demonstration run (settings 8 8 1 1 100, X 1011, Y 101) through the C interface. */
#include <inttypes.h>
#include <stdio.h>

#include "lunetteorris.h"

static const uint8_t x[] = {0xb0}, y[] = {0xa0};
static uint8_t holder[LO_HOLDER_BYTES], rebuilder[LO_REBUILDER_BYTES];
static uint8_t question[LO_QUESTION_BYTES], reply[LO_REPLY_BYTES];
static uint8_t string[LO_STRING_BYTES(4)], sheet[LO_SHEET_BYTES(4, 8)];

static uint32_t number(const uint8_t *bytes) {
    return bytes[0] | (uint32_t)bytes[1] << 8 | (uint32_t)bytes[2] << 16 | (uint32_t)bytes[3] << 24;
}

static void print_message(char who, const uint8_t *bytes, size_t length) {
    printf("%c ", who);
    for (size_t i = 0; i < length; i++) printf("%02x", bytes[i]);
    printf("\n");
}

/* The value of a result; a refusal ends the program. */
static size_t value(uint64_t result, int *refused) {
    if (LO_REFUSAL(result) != 0) {
        printf("R %u\n", LO_REFUSAL(result));
        *refused = 1;
    }
    return (size_t)LO_VALUE(result);
}

int main(void) {
    int refused = 0;
    value(lo_holder_fresh(holder, sizeof holder), &refused);
    size_t length = value(lo_rebuilder_start(8, 8, 1, 1, 100, y, sizeof y, 3, rebuilder,
                                             sizeof rebuilder, question, sizeof question),
                          &refused);
    while (length > 0 && !refused) {
        print_message('Q', question, length);
        size_t replied = value(lo_holder_answer(holder, sizeof holder, x, sizeof x, 4, question,
                                                length, reply, sizeof reply),
                               &refused);
        if (refused) break;
        print_message('A', reply, replied);
        length = value(lo_rebuilder_call(rebuilder, sizeof rebuilder, y, sizeof y, 3, string,
                                         sizeof string, sheet, sizeof sheet, reply, replied,
                                         question, sizeof question),
                       &refused);
    }
    if (refused) return 1;
    for (uint32_t i = 0; i < number(rebuilder + LO_REBUILDER_ROWS); i++) {
        const uint8_t *row = sheet + LO_ROW_BYTES * i;
        printf("P %" PRIu32 " %" PRIu32 " %" PRIu32 "\n", number(row + LO_ROW_START),
               number(row + LO_ROW_LENGTH), number(row + LO_ROW_HOW));
    }
    printf("X ");
    for (uint32_t i = 0; i < number(rebuilder + LO_REBUILDER_N); i++)
        printf("%d", string[i / 8] >> (7 - i % 8) & 1);
    printf(" %" PRIu32 " %" PRIu32 "\n", number(rebuilder + LO_REBUILDER_ANSWERED) - 1,
           number(rebuilder + LO_REBUILDER_COUNTED));
    return 0;
}
