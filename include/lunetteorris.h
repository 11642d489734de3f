/* Lunetteorris: synchronising a copy of a bit string with its reference.
 *
 * A holder has the reference X of n bits, a rebuilder the copy Y. The rebuilder asks questions,
 * the holder answers, the host carries the messages. Link crates/cabi/out/libcabi.a, made by
 * `rt lib` in crates/cabi.
 *
 * Strings. Each has 0 to LO_MAX_BITS bits in exactly ceil(bits/8) bytes, first bit in the most
 * significant place, spare bits zero.
 *
 * Slices. Each is a pointer, then its length in bytes; lo_list's out is an array of uint32_t, and
 * its length counts entries. (NULL, 0) is an empty slice. Bytes need no alignment. A written slice
 * overlaps no other. The library keeps no pointer after it returned and allocates nothing.
 *
 * States. The buffer has at least LO_HOLDER_BYTES or LO_REBUILDER_BYTES bytes. Each function reads
 * and writes the first LO_HOLDER_BYTES or LO_REBUILDER_BYTES of them and leaves later bytes as they
 * were. A shorter buffer gets 9 from lo_holder_fresh and lo_rebuilder_start, which make a state,
 * and 3 from the two calls. These also give 3 for bytes that no state has: those with a number for
 * opened, phase or stage that is none of those listed below.
 *
 * Threads. The library has no global state. Calls on different states may run at the same time;
 * slices that are only read (X, Y, messages) may be lent to several of them.
 *
 * Results. Each is value * 256 + refusal: LO_REFUSAL(r) is 0 where the call was not turned down,
 * and LO_VALUE(r) is then the answer. Otherwise LO_REFUSAL(r) is 1 to 10, 14 or 15, and the
 * call changed nothing. Where several refusals apply, the order given with a function decides.
 *
 * Messages. The host carries them as they are. A question is open (kind 0: version, h, key), hash
 * (1: start, length), syndrome (2: start, length), bits (3: start, length) or burst (4: start,
 * length, B); docs/LAYOUT.md has their bytes and the answers'.
 */
#ifndef LUNETTEORRIS_H
#define LUNETTEORRIS_H

#include <stddef.h>
#include <stdint.h>

#ifdef __cplusplus
extern "C" {
#endif

#define LO_VALUE(result) ((uint64_t)(result) >> 8)
#define LO_REFUSAL(result) ((unsigned)((result) & 255))

/* Refusals */
#define LO_BAD_SETTING 1      /* a setting handed in is outside its limits */
#define LO_BAD_STRING 2       /* a string breaks the string rule, or has another bit count than at
                                 the holder's opening or the rebuilder's start */
#define LO_OUT_OF_TURN 3      /* finished; answers spent; an opening wanted, or not wanted; or the
                                 state is unsound, its bytes are no state's or too few for one */
#define LO_TRUNCATED 4        /* the message ends inside its kind, a field or its bits */
#define LO_BAD_NUMBER 5       /* a number with a zero last byte after another byte, or a fifth byte
                                 above 0x0f */
#define LO_BAD_KIND 6         /* the kind is unknown, or not the one that a rebuilder awaits */
#define LO_TRAILING_BYTES 7   /* bytes follow the last field or its bits */
#define LO_OUT_OF_RANGE 8     /* a value is outside its range */
#define LO_BUFFER_TOO_SHORT 9 /* a lent buffer or sheet is too short */
#define LO_BAD_BURST 10       /* a question of kind 4 with a B outside 2 to 32 */
#define LO_LIST_TOO_SHORT 14  /* a list buffer has fewer entries than there are strings */
#define LO_MESSAGE_LENGTH 15  /* a marker's message has another bit count than n - t */

/* Sizes */
#define LO_MAX_BITS 65536
#define LO_MAX_LIST_BITS 20     /* the most bits of the strings that lo_list lists */
#define LO_MAX_MARKER_BITS 4096 /* the most bits of a marker word */
#define LO_HOLDER_BYTES 20      /* a holder's state */
#define LO_REBUILDER_BYTES 564  /* a rebuilder's state */
#define LO_ROW_BYTES 12         /* a row of the sheet */
#define LO_QUESTION_BYTES 8     /* each question buffer, at least */
#define LO_REPLY_BYTES 8193     /* the longest reply; no reply on n bits is longer than the larger
                                   of 102 and 1 + ceil(n/8) bytes */
#define LO_STRING_BYTES(n) (((n) + 7) / 8)
#define LO_SHEET_ROWS(n, m) (2 * ((n) / (m)) + 1)
#define LO_SHEET_BYTES(n, m) (LO_ROW_BYTES * LO_SHEET_ROWS(n, m))

/* The house settings */
#define LO_HOUSE_M 16
#define LO_HOUSE_H 16
#define LO_HOUSE_K 2
#define LO_HOUSE_KEY 1
#define LO_HOUSE_CEILING 4096

/* Layouts: 32-bit numbers, little-endian, at these offsets. Only the library writes a state.
 *
 * Holder: */
#define LO_HOLDER_OPENED 0   /* 0 or 1 */
#define LO_HOLDER_BITS 4     /* bits of X at opening */
#define LO_HOLDER_H 8
#define LO_HOLDER_KEY 12
#define LO_HOLDER_ANSWERS 16 /* answers given, the opening's among them */

/* Rebuilder: */
#define LO_REBUILDER_M 0
#define LO_REBUILDER_H 4
#define LO_REBUILDER_K 8
#define LO_REBUILDER_KEY 12
#define LO_REBUILDER_CEILING 16
#define LO_REBUILDER_Y_BITS 20
#define LO_REBUILDER_PHASE 24    /* 0 opening awaited, 1 pieces or finished, 2 whole string asked */
#define LO_REBUILDER_N 28        /* bits of X, 0 before the opening's answer */
#define LO_REBUILDER_ANSWERED 32 /* questions answered, the opening among them */
#define LO_REBUILDER_COUNTED 36  /* bytes of the answers, the opening's not counted */
#define LO_REBUILDER_ROWS 40     /* rows in use */
#define LO_REBUILDER_STAGE 44    /* leftmost piece: 0 hash asked, 1 syndrome to put a bit in, 2 to
                                    take one out, 3 to 5 the first, second, third anchor, 6 all its
                                    bits, 7 its columns' syndromes (kind 4); 0 if none waits; in
                                    phase 2 as the last answer left it */
#define LO_REBUILDER_WAITING 48  /* waiting pieces */
#define LO_REBUILDER_PIECES 52   /* 32 pieces of x, p, y, q, the leftmost waiting one last; unused
                                    ones zero */

/* Row: */
#define LO_ROW_START 0
#define LO_ROW_LENGTH 4
#define LO_ROW_HOW 8 /* one of: */
#define LO_HOW_HASH 1
#define LO_HOW_PUT_IN 2
#define LO_HOW_TAKE_OUT 3
#define LO_HOW_ANCHOR 4
#define LO_HOW_BITS 5
#define LO_HOW_BURST 6 /* a bit put in or taken out in each column */

/* The syndrome of the string s of `bits` bits: the sum of i * b_i, i from 1, modulo bits + 1.
 * Refusal 2. */
uint64_t lo_syndrome(const uint8_t *s, size_t s_len, size_t bits);

/* The hash of s, h bits wide (8 to 32), under a key of 1 or more.
 * Refusals 1 (h, key), 2. */
uint64_t lo_hash(const uint8_t *s, size_t s_len, size_t bits, uint32_t h, uint32_t key);

/* The n-bit string with syndrome a that comes from s by putting one bit in (bits is n - 1) or
 * taking one out (bits is n + 1). Value 1: the first ceil(n/8) bytes of out are that string, later
 * bytes are as they were. Value 0: there is none, and nothing is written; never for a put-in.
 * Refusals 2; 8 (bits and n not one apart, n above LO_MAX_BITS, a above n); 9 (out shorter than
 * ceil(n/8)). */
uint64_t lo_repair(const uint8_t *s, size_t s_len, size_t bits, size_t n, size_t a,
                   uint8_t *out, size_t out_len);

/* All strings of n bits with syndrome a, each once, as numbers with the first bit highest, rising.
 * Value: their count; they are the first entries of out, later entries are as they were. out_len
 * counts entries; 2^n are always enough. The string of no bits is 0.
 * Refusals 8 (n above LO_MAX_LIST_BITS, a above n); 14 (fewer entries than there are strings). */
uint64_t lo_list(size_t n, size_t a, uint32_t *out, size_t out_len);

/* The marker word of n bits for a message and the syndrome a. With t = ceil(log2(n + 1)), which is
 * the count of n's binary digits, the message has n - t bits. They stand in order at the places,
 * counted from 1, that are not powers of two. The places 1, 2, 4, .. hold a number of t digits, the
 * place 2^j its digit of 2^j: a less the sum of the places of the message's ones, modulo n + 1. So
 * the word has syndrome a. Value 1: the first ceil(n/8) bytes of out are the word, later bytes are
 * as they were.
 * Refusals 2; 8 (n not 1 to LO_MAX_MARKER_BITS, a above n); 15 (bits is not n - t); 9 (out shorter
 * than ceil(n/8)). */
uint64_t lo_marker_build(const uint8_t *message, size_t message_len, size_t bits, size_t n,
                         size_t a, uint8_t *out, size_t out_len);

/* The message of the marker word of n bits and syndrome a that was received whole (bits is n), with
 * one bit lost (n - 1) or with one bit added (n + 1). Value 1: the first ceil((n - t)/8) bytes of
 * out are the message's n - t bits, later bytes are as they were. Value 0: none, and nothing is
 * written; exactly if no word that lo_marker_build makes for this n and a is the received string or
 * one lost or added bit away from it. Not every string of syndrome a is such a word: the number at
 * the places 1, 2, 4, .. must not be above n.
 * Refusals 2; 8 (n not 1 to LO_MAX_MARKER_BITS, a above n, bits not n - 1, n or n + 1); 9 (out
 * shorter than ceil((n - t)/8), whether there is a message or not). */
uint64_t lo_marker_read(const uint8_t *received, size_t received_len, size_t bits, size_t n,
                        size_t a, uint8_t *out, size_t out_len);

/* Where the anchor a of m bits, at offset s of a piece of p bits, is placed in the piece's copy,
 * the q bits of y from start on: at r, counted from start, 0 to q - m, where the copy's m bits
 * equal a and |2r - (2s + q - p)| <= 2 * k * floor(sqrt(q)). The smallest such distance wins, on a
 * tie the smaller r. Value r + 1, or 0 for no place.
 * Refusals 1 (m not 8 to 64, k not 1 to 8); 2 (y of `bits` bits or a of m bits breaks the string
 * rule); 8 (start + q above bits, p above LO_MAX_BITS, s + m above p). */
uint64_t lo_anchor(const uint8_t *y, size_t y_len, size_t bits, size_t start, size_t q, size_t p,
                   size_t s, uint32_t m, uint32_t k, const uint8_t *a, size_t a_len);

/* Writes the state of a holder that has answered nothing to the first LO_HOLDER_BYTES bytes of
 * state. Value 0. Refusal 9 (state is shorter). */
uint64_t lo_holder_fresh(uint8_t *state, size_t state_len);

/* The holder's call: answers the question msg on X. Value: the reply's length; the reply is in the
 * first bytes of reply, later bytes are as they were, and the first LO_HOLDER_BYTES bytes of state
 * hold the next state.
 * Refusals 2 (x breaks the string rule); 3 (state shorter than LO_HOLDER_BYTES, bytes that no state
 * has); 2 (another bit count than at the opening); 3 (state unsound, answers spent); then as the
 * message is read from left to right 4, 5, 6, or 3 for a known kind out of turn; 7; 10; 8; 9
 * (reply_len below the reply's length). */
uint64_t lo_holder_answer(uint8_t *state, size_t state_len,
                          const uint8_t *x, size_t x_len, size_t bits,
                          const uint8_t *msg, size_t msg_len,
                          uint8_t *reply, size_t reply_len);

/* The rebuilder's start under the settings m, h, k, key, ceiling. Value: the first question's
 * length; the question is in the first bytes of question, later bytes are as they were, and the
 * first LO_REBUILDER_BYTES bytes of state hold the state.
 * Refusals 1 (m not 8 to 64, h not 8 to 32, k not 1 to 8, key 0, ceiling above 16,384); 2; 9
 * (question shorter than LO_QUESTION_BYTES, state shorter than LO_REBUILDER_BYTES). */
uint64_t lo_rebuilder_start(uint32_t m, uint32_t h, uint32_t k, uint32_t key, uint32_t ceiling,
                            const uint8_t *y, size_t y_len, size_t bits,
                            uint8_t *state, size_t state_len,
                            uint8_t *question, size_t question_len);

/* The rebuilder's call: takes the answer msg to the question that waits. Value: the next
 * question's length, or 0 when finished: the first ceil(n/8) bytes of string are then the rebuilt
 * string (X, but for pieces whose hash agreed on other bits), and the rows in use cover each bit of
 * X once. The first LO_REBUILDER_BYTES bytes of state hold the next state. Unused rows, and bytes
 * behind the string and the question, are as they were.
 * Lend the start's y in each call, and the same string and sheet, unaltered, in each call from the
 * one with the opening's answer on, which zeroes the first ceil(n/8) bytes of string. Before it n
 * is not known: make string and sheet for LO_MAX_BITS bits, or enlarge them on refusal 9 and call
 * again with the same message, since a refused call changed nothing. sheet_len counts bytes; a rest
 * below LO_ROW_BYTES is no row.
 * Refusals 2 (y breaks the string rule); 3 (state shorter than LO_REBUILDER_BYTES, bytes that no
 * state has); 2 (another bit count than at the start); 3 (state unsound, finished); then as the
 * message is read from left to right 4, 5, 6; 7; 8; 9 (question shorter than LO_QUESTION_BYTES,
 * string shorter than LO_STRING_BYTES(n), sheet of fewer than LO_SHEET_ROWS(n, m) rows). */
uint64_t lo_rebuilder_call(uint8_t *state, size_t state_len,
                           const uint8_t *y, size_t y_len, size_t bits,
                           uint8_t *string, size_t string_len,
                           uint8_t *sheet, size_t sheet_len,
                           const uint8_t *msg, size_t msg_len,
                           uint8_t *question, size_t question_len);

#ifdef __cplusplus
}
#endif

#endif
