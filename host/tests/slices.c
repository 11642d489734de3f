/* Slices as the header allows them: (NULL, 0) for an empty one, and addresses of every alignment.
 * Prints the calls that come out otherwise. */
#include <stdio.h>
#include <string.h>

#include "lunetteorris.h"

static int failed = 0;

static void check(int line, uint64_t result, uint64_t value, unsigned refusal) {
    if (LO_VALUE(result) == value && LO_REFUSAL(result) == refusal) return;
    printf("line %d: value %llu, refusal %u\n", line, (unsigned long long)LO_VALUE(result),
           LO_REFUSAL(result));
    failed = 1;
}

#define GIVES(call, value) check(__LINE__, call, value, 0)
#define REFUSES(call, refusal) check(__LINE__, call, 0, refusal)

static void empty_slices(void) {
    static const uint8_t one[] = {0x80}, open[] = {0, 1, 8, 1}, size_0[] = {0, 0};
    static const uint8_t burst_1[] = {4, 0, 1, 1}, burst_2[] = {4, 0, 1, 2}, ones[] = {0xc0};
    uint8_t out[1], holder[LO_HOLDER_BYTES], rebuilder[LO_REBUILDER_BYTES];
    uint32_t list[1];
    uint8_t question[LO_QUESTION_BYTES], reply[2], sheet[LO_SHEET_BYTES(0, 8)];

    GIVES(lo_syndrome(NULL, 0, 0), 0);
    GIVES(lo_hash(NULL, 0, 0, 8, 1), 0);
    GIVES(lo_repair(NULL, 0, 0, 1, 1, out, sizeof out), 1);
    GIVES(lo_repair(one, 1, 1, 0, 0, NULL, 0), 1);
    REFUSES(lo_repair(one, 1, 1, 2, 0, NULL, 0), LO_BUFFER_TOO_SHORT);
    REFUSES(lo_list(LO_MAX_LIST_BITS + 1, 0, NULL, 0), LO_OUT_OF_RANGE);
    REFUSES(lo_list(0, 0, NULL, 0), LO_LIST_TOO_SHORT);
    GIVES(lo_list(0, 0, list, 1), 1);
    REFUSES(lo_marker_build(NULL, 0, 1, 0, 0, NULL, 0), LO_BAD_STRING);
    REFUSES(lo_marker_build(NULL, 0, 0, 0, 0, NULL, 0), LO_OUT_OF_RANGE);
    REFUSES(lo_marker_build(NULL, 0, 0, LO_MAX_MARKER_BITS + 1, 0, NULL, 0), LO_OUT_OF_RANGE);
    REFUSES(lo_marker_build(NULL, 0, 0, LO_MAX_MARKER_BITS, 0, NULL, 0), LO_MESSAGE_LENGTH);
    REFUSES(lo_marker_build(NULL, 0, 0, 2, 1, NULL, 0), LO_BUFFER_TOO_SHORT);
    GIVES(lo_marker_build(NULL, 0, 0, 2, 1, out, sizeof out), 1);
    REFUSES(lo_marker_read(NULL, 0, 0, 0, 0, NULL, 0), LO_OUT_OF_RANGE);
    REFUSES(lo_marker_read(one, 1, 1, 3, 0, NULL, 0), LO_OUT_OF_RANGE);
    REFUSES(lo_marker_read(one, 1, 2, 3, 0, NULL, 0), LO_BUFFER_TOO_SHORT);
    GIVES(lo_marker_read(NULL, 0, 0, 1, 1, NULL, 0), 1);
    GIVES(lo_marker_read(one, 1, 2, 2, 1, NULL, 0), 1);
    GIVES(lo_marker_read(ones, 1, 2, 2, 0, NULL, 0), 0);
    GIVES(lo_anchor(NULL, 0, 0, 0, 0, 8, 0, 8, 1, one, 1), 0);

    REFUSES(lo_holder_fresh(NULL, 0), LO_BUFFER_TOO_SHORT);
    GIVES(lo_holder_fresh(holder, sizeof holder), 0);
    REFUSES(lo_holder_answer(NULL, 0, NULL, 0, 0, NULL, 0, NULL, 0), LO_OUT_OF_TURN);
    REFUSES(lo_holder_answer(holder, sizeof holder, NULL, 0, 0, NULL, 0, NULL, 0), LO_TRUNCATED);
    REFUSES(lo_holder_answer(holder, sizeof holder, NULL, 0, 0, open, sizeof open, NULL, 0),
            LO_BUFFER_TOO_SHORT);
    GIVES(lo_holder_answer(holder, sizeof holder, NULL, 0, 0, open, sizeof open, reply,
                           sizeof reply),
          sizeof size_0);
    REFUSES(lo_holder_answer(holder, sizeof holder, NULL, 0, 0, burst_1, sizeof burst_1, NULL, 0),
            LO_BAD_BURST);
    REFUSES(lo_holder_answer(holder, sizeof holder, NULL, 0, 0, burst_2, sizeof burst_2, NULL, 0),
            LO_OUT_OF_RANGE);

    REFUSES(lo_rebuilder_start(8, 8, 1, 1, 100, NULL, 0, 0, NULL, 0, question, sizeof question),
            LO_BUFFER_TOO_SHORT);
    REFUSES(lo_rebuilder_start(8, 8, 1, 1, 100, NULL, 0, 0, rebuilder, sizeof rebuilder, NULL, 0),
            LO_BUFFER_TOO_SHORT);
    GIVES(lo_rebuilder_start(8, 8, 1, 1, 100, NULL, 0, 0, rebuilder, sizeof rebuilder, question,
                             sizeof question),
          sizeof open);
    REFUSES(lo_rebuilder_call(NULL, 0, NULL, 0, 0, NULL, 0, NULL, 0, NULL, 0, NULL, 0),
            LO_OUT_OF_TURN);
    REFUSES(lo_rebuilder_call(rebuilder, sizeof rebuilder, NULL, 0, 0, NULL, 0, NULL, 0, NULL, 0,
                              NULL, 0),
            LO_TRUNCATED);
    REFUSES(lo_rebuilder_call(rebuilder, sizeof rebuilder, NULL, 0, 0, NULL, 0, NULL, 0, size_0,
                              sizeof size_0, question, sizeof question),
            LO_BUFFER_TOO_SHORT);
    GIVES(lo_rebuilder_call(rebuilder, sizeof rebuilder, NULL, 0, 0, NULL, 0, sheet, sizeof sheet,
                            size_0, sizeof size_0, question, sizeof question),
          0);
}

/* 01's run with every slice at `shift` bytes behind an address of its own. The string and the sheet
 * are too short at first. */
static void shifted_run(size_t shift) {
    static uint8_t xs[8 + 1], ys[8 + 1], holders[8 + LO_HOLDER_BYTES];
    static uint8_t rebuilders[8 + LO_REBUILDER_BYTES], questions[8 + LO_QUESTION_BYTES];
    static uint8_t replies[8 + LO_REPLY_BYTES], strings[8 + LO_STRING_BYTES(4)];
    static uint8_t sheets[8 + LO_SHEET_BYTES(4, 8)];
    uint8_t *x = xs + shift, *y = ys + shift, *holder = holders + shift;
    uint8_t *rebuilder = rebuilders + shift, *question = questions + shift;
    uint8_t *reply = replies + shift, *string = strings + shift, *sheet = sheets + shift;
    const uint8_t row[LO_ROW_BYTES] = {0, 0, 0, 0, 4, 0, 0, 0, LO_HOW_PUT_IN, 0, 0, 0};

    x[0] = 0xb0;
    y[0] = 0xa0;
    GIVES(lo_holder_fresh(holder, LO_HOLDER_BYTES), 0);
    GIVES(lo_rebuilder_start(8, 8, 1, 1, 100, y, 1, 3, rebuilder, LO_REBUILDER_BYTES, question,
                             LO_QUESTION_BYTES),
          4);
    GIVES(lo_holder_answer(holder, LO_HOLDER_BYTES, x, 1, 4, question, 4, reply, LO_REPLY_BYTES),
          2);
    REFUSES(lo_rebuilder_call(rebuilder, LO_REBUILDER_BYTES, y, 1, 3, NULL, 0, NULL, 0, reply, 2,
                              question, LO_QUESTION_BYTES),
            LO_BUFFER_TOO_SHORT);
    GIVES(lo_rebuilder_call(rebuilder, LO_REBUILDER_BYTES, y, 1, 3, string, LO_STRING_BYTES(4),
                            sheet, LO_SHEET_BYTES(4, 8), reply, 2, question, LO_QUESTION_BYTES),
          3);
    GIVES(lo_holder_answer(holder, LO_HOLDER_BYTES, x, 1, 4, question, 3, reply, LO_REPLY_BYTES),
          4);
    GIVES(lo_rebuilder_call(rebuilder, LO_REBUILDER_BYTES, y, 1, 3, string, LO_STRING_BYTES(4),
                            sheet, LO_SHEET_BYTES(4, 8), reply, 4, question, LO_QUESTION_BYTES),
          0);
    if (string[0] != x[0] || memcmp(sheet, row, sizeof row) != 0) {
        printf("shift %zu: another string or row\n", shift);
        failed = 1;
    }
}

/* A marker word of 12 bits and syndrome 5, built and read at such addresses: whole, with its last
 * bit lost, with a bit added behind it. For another syndrome it is none. */
static void shifted_marker(size_t shift) {
    static uint8_t messages[8 + 2], words[8 + 3], reads[8 + 2];
    uint8_t *message = messages + shift, *word = words + shift, *out = reads + shift;

    message[0] = 0xb2;
    word[2] = out[1] = 0x77;
    GIVES(lo_marker_build(message, 1, 8, 12, 5, word, 3), 1);
    /* The message's ones are at places 3, 6, 7 and 11; 5 - 27 is 4 modulo 13: a 1 at place 4. */
    if (word[0] != 0x36 || word[1] != 0x20 || word[2] != 0x77) {
        printf("shift %zu: another word\n", shift);
        failed = 1;
    }
    for (size_t bits = 11; bits <= 13; bits++) {
        out[0] = 0;
        GIVES(lo_marker_read(word, 2, bits, 12, 5, out, 2), 1);
        if (out[0] != message[0] || out[1] != 0x77) {
            printf("shift %zu: another message of %zu bits\n", shift, bits);
            failed = 1;
        }
    }
    out[0] = 0x66;
    GIVES(lo_marker_read(word, 2, 12, 12, 6, out, 2), 0);
    if (out[0] != 0x66 || out[1] != 0x77) {
        printf("shift %zu: written though there is none\n", shift);
        failed = 1;
    }
}

int main(void) {
    empty_slices();
    for (size_t shift = 0; shift < 8; shift++) {
        shifted_run(shift);
        shifted_marker(shift);
    }
    return failed;
}
