/*
 * turbo.h: the turbo frame receiver for C.
 *
 * Link with libcapi.a, which `scripts/library` writes to target/staticlib. The functions behind these declarations are proved: for every call
 * the number returned and all that is left in the lists are those that the definitions give (crates/capi/src/lib.rt). Nothing checks this file
 * against that one, nor the rules below, which are the caller's part.
 *
 * Lists. A list is a pointer to its first entry, followed by its number of entries.
 *   - The pointer is not NULL and is aligned for its entries, also where the list is empty.
 *   - It has at least as many entries as told. A wrong number is refused only where it is not the number asked for below.
 *   - A list that is written overlaps no other list of the call.
 * `index`, the last argument of both decoders, points to one number and has no length. It is not NULL, is aligned, and overlaps no list.
 * The calls keep nothing and use no static data, so several threads may call at once, each with lists of its own.
 *
 * Stack. Measured on x86-64 in a thread that makes one call, whatever the lists' lengths, in bytes and rounded up: turbo_sheet 153,000,
 * turbo_decode 101,000, turbo_polynomial_pattern 25,000, turbo_encode 18,000, turbo_lone_decode 7,600, the others 6,100; some 4,500 of each
 * are the thread's own. A stack must have room for that; the proofs take it to be large enough.
 *
 * Table. S states (1..16) and n outputs (1..4). The branch of state s and input bit b stands at 2*s + b of `next` (the next state, below S) and
 * of `words` (below 2^n; output l, counted from 1, is bit l-1). A table is systematic when output 1 of every branch is its input bit.
 *
 * End. The paths of a pass, and of a coder, are those that its end admits: zero from state 0 to state 0, open from state 0 to any state, ring from any
 * state back to the same one. A ring's best metric is over all the states that a path may start in.
 *
 * Signs. A value above 0 speaks for bit 1. Channel values are -1023..1023, a-priori values -8191..8191.
 *
 * Floats. `float` is the 32-bit format of IEEE 754. The calls for samples multiply in the mode in which a C program starts: rounded to nearest, with
 * subnormals. A caller that has left it (by fesetround, or by gcc's -ffast-math at the link) restores it for such a call.
 */
#ifndef TURBO_FRAME_RECEIVER_H
#define TURBO_FRAME_RECEIVER_H

#include <stddef.h>
#include <stdint.h>

#ifdef __cplusplus
extern "C" {
#endif

/*
 * The number that a call returns; turbo_sheet returns a length instead. Of the numbers that apply, the first in the order 2, 15, 3, 4, 5, 17, 18,
 * 6, 16, 7, .. 14 is returned, which is the order below; each call tests only what it is lent. The numbers that each call
 * returns are told with it, in its order. They, and what a refusal leaves, are proved: EveryCallFromC in crates/demands/specs/CalledFromC.antt.
 *
 * TURBO_VALUE and TURBO_APRIORI say which value: `index` is that of the first one out of range in its list, counted from 0. No other number
 * tells an index.
 *
 * After every refusal the result lists are as they were. The working list is all zeros after TURBO_DONE, TURBO_NO_PATH and
 * TURBO_FORCED_POSITION, and as it was after every other number.
 */
enum turbo_reply {
    TURBO_DONE = 0,
    TURBO_TEXT = 1,             /* the text of a sheet; only in the answer of turbo_sheet, and returned by no call */
    TURBO_SHAPE = 2,            /* an end other than 0, 1 or 2, whatever else applies; states outside 1..16, outputs outside 1..4, or a table list
                                   without two entries a state */
    TURBO_POLYNOMIAL = 15,      /* stands after 2: memory outside 1..4, taps not below 2^(memory+1), even feedback; or f1 or f2 not below bits */
    TURBO_BRANCH = 3,           /* a next state not below the number of states, or a word not below 2^outputs */
    TURBO_LENGTH = 4,           /* sections outside 1..4096; bits 0, tail above 4, or bits + tail above 4096; or a polynomial's bits above 4096 */
    TURBO_LISTS = 5,            /* another list without its exact number of entries; the frame's own only where TURBO_MASK does not apply */
    TURBO_SETTING = 17,         /* stands after 5: amplitude, ratio or scale infinite, not a number, or outside 0..1024; samples only */
    TURBO_SAMPLE = 18,          /* stands after 17: a sample that is infinite or not a number; samples only */
    TURBO_VALUE = 6,            /* a channel value outside -1023..1023; told with its index, on a sheet with its line */
    TURBO_APRIORI = 16,         /* stands after 6: an a-priori value outside -8191..8191; told with its index; lone decoder only */
    TURBO_BIT = 7,              /* a message bit other than 0 or 1 */
    TURBO_PATTERN = 8,          /* the pattern has not each of 0..bits-1 exactly once */
    TURBO_MASK = 9,             /* no mask, more than 16, or one above 7 */
    TURBO_ITERATIONS = 10,      /* iterations outside 1..32 */
    TURBO_CODER = 11,           /* the table of a frame is not systematic, or has not two outputs */
    TURBO_NO_PATH = 12,         /* decoders: the end admits no path of that many sections; of a frame, that of either coder */
    TURBO_FORCED_POSITION = 13, /* frame decoder: all paths of either coder have the same bit at some message position */
    TURBO_NO_TAIL = 14          /* coder: no inputs of the tail lead a coder that ends at zero back to state 0, or no state is one that the inputs of a ring
                                   return to itself */
    /* Of a coder that ends at zero, more tail sections may help against 12, 13 and 14. An open one gives none of them. */
};

/* How a coder, or the paths of a lone pass, end. */
enum turbo_end {
    TURBO_ZERO = 0,
    TURBO_OPEN = 1,
    TURBO_RING = 2
};

/*
 * The lone decoder: one pass over any table.
 *
 *   end             an enum turbo_end. A ring costs as many sweeps, forwards and back, as there are states, the others one
 *   sections        N, 1..4096
 *   channel         n*N values; output l of section k, counted from 0, at n*k + l-1
 *   apriori         N values
 *   marks           N entries written: 2 for a free position, else the bit to which it is forced
 *   margins         N entries written: half of (best metric with bit 1 minus best with bit 0); 0 at a forced position
 *   extrinsics      N entries written: margin minus a-priori, and minus the channel value of output 1 if the table is systematic; 0 at a
 *                   forced position
 *   work            (N+1)*S entries, for the decoder's own use; zero afterwards
 *   index           always written: for 6 the index in `channel` of its first value out of range, for 16 the same in `apriori`; else 0
 *
 * Returns 0, 2, 3, 4, 5, 6, 16 or 12.
 */
uint32_t turbo_lone_decode(size_t states, size_t outputs,
                           const uint8_t *next, size_t next_len,
                           const uint8_t *words, size_t words_len,
                           uint32_t end,
                           size_t sections,
                           const int16_t *channel, size_t channel_len,
                           const int16_t *apriori, size_t apriori_len,
                           uint8_t *marks, size_t marks_len,
                           int32_t *margins, size_t margins_len,
                           int32_t *extrinsics, size_t extrinsics_len,
                           int32_t *work, size_t work_len,
                           uint64_t *index);

/*
 * A frame, for the two calls below.
 *
 *   states, outputs, next, words    a systematic table with two outputs
 *   end1, end2      an enum turbo_end for each coder
 *   bits            K message bits, at least 1; K + T is at most 4096
 *   tail            T, 0..4: the tail sections of each coder that ends at zero. An open one and a ring have none
 *   pattern         K entries, each of 0..K-1 once: the second coder's input i is message bit pattern[i]
 *   masks           1..16 entries, repeated over the K positions: 4 for the systematic bit, 2 for parity 1 and 1 for parity 2, added, say
 *                   which are sent
 *
 * A ring coder starts in the lowest state that its own K inputs return to itself; those of the second coder are the interleaved ones.
 *
 * The frame's list has, position by position, what its mask sends, in the order systematic, parity 1, parity 2; then tail 1 and tail 2, each
 * systematic then parity, section by section, where that coder ends at zero. Its length is the number of ones in the masks of the K positions, plus 2*T
 * for each coder that ends at zero.
 */

/*
 * The coder.
 *
 *   message         K entries, each 0 or 1
 *   sent            the frame's list, written: a bit an entry
 *
 * Returns 0, 2, 3, 4, 5, 7, 8, 9, 11 or 14.
 */
uint32_t turbo_encode(size_t states, size_t outputs,
                      const uint8_t *next, size_t next_len,
                      const uint8_t *words, size_t words_len,
                      uint32_t end1, uint32_t end2,
                      size_t bits, size_t tail,
                      const uint8_t *message, size_t message_len,
                      const uint32_t *pattern, size_t pattern_len,
                      const uint8_t *masks, size_t masks_len,
                      uint8_t *sent, size_t sent_len);

/*
 * The frame decoder.
 *
 *   received        the frame's list as channel values; what was not sent counts as 0
 *   iterations      1..32; each is a pass over the first coder, then one over the second. Each pass but the very first takes from the one
 *                   before it three quarters of every extrinsic, rounded towards zero and limited to -8191..8191
 *   decided         K entries written: 1 where the margin is 0 or more, else 0
 *   margins         K entries written, from the last pass, in message order
 *   extrinsics      the same; whole, neither scaled nor limited
 *   work            (K+T+1)*S entries where a coder ends at zero, else (K+1)*S, for the decoder's own use; zero afterwards
 *   index           always written: for 6 the index in `received` of its first value out of range; else 0
 *
 * Returns 0, 2, 3, 4, 5, 6, 8, 9, 10, 11, 12 or 13. Whether it is 12 or 13 depends on the table, the ends, K and T alone, never on the values.
 */
uint32_t turbo_decode(size_t states, size_t outputs,
                      const uint8_t *next, size_t next_len,
                      const uint8_t *words, size_t words_len,
                      uint32_t end1, uint32_t end2,
                      size_t bits, size_t tail,
                      const uint32_t *pattern, size_t pattern_len,
                      const uint8_t *masks, size_t masks_len,
                      const int16_t *received, size_t received_len,
                      size_t iterations,
                      uint8_t *decided, size_t decided_len,
                      int32_t *margins, size_t margins_len,
                      int32_t *extrinsics, size_t extrinsics_len,
                      int32_t *work, size_t work_len,
                      uint64_t *index);

/*
 * The sheet: a frame of the house code as text, both of whose coders end at zero with two tail sections, decoded in eight iterations.
 *
 *   sheet           any bytes. A sheet has at most 16384: the line `at to sys par par2 sys2`, K rows, 1..512, and two tail rows, each ended by
 *                   a line feed
 *   answer          written from its start: `at bit margin extrinsic` and a line for each message position; or `refused line` and, on the next
 *                   line, the number (1, 6 or 8), a space and a line of the sheet, the header being 1: for 1 the first faulty line, for 6 that
 *                   of the first value out of range, row by row. It is 0 for 8, and for a sheet too long or with too few or too many rows.
 *                   Each line is ended by a line feed, and no zero byte follows. Entries after the answer are as they were
 *
 * Returns the answer's length, or 0 where `answer` has no room for it; the list is then as it was. Every answer has at least one byte and at most
 * TURBO_ANSWER_ROOM (proved: the clause FitsPage of turbo_sheet in crates/capi/src/lib.rt), so a list of that many entries is never answered by 0.
 */
#define TURBO_ANSWER_ROOM 24600
size_t turbo_sheet(const uint8_t *sheet, size_t sheet_len, uint8_t *answer, size_t answer_len);

/*
 * What is easy to see of a text that is no sheet, for words beside a refusal by 1. Of these the first that is so is returned; it decides nothing.
 *
 *   sheet           any bytes
 *   line            always written: the line in which it is seen, the header being 1; 0 for 0 to 3 and 9. It is not NULL, is aligned, and
 *                   overlaps no list
 */
enum turbo_hint_kind {
    TURBO_HINT_NOTHING = 0,
    TURBO_HINT_EMPTY = 1,           /* no byte at all */
    TURBO_HINT_UTF16 = 2,           /* two bytes a character: a zero byte among the first two, or FF FE or FE FF */
    TURBO_HINT_BYTE_ORDER_MARK = 3, /* EF BB BF at the start */
    TURBO_HINT_TOO_LONG = 9,        /* stands after 3: more than 16384 bytes */
    TURBO_HINT_CARRIAGE_RETURN = 4, /* the first line with a carriage return */
    TURBO_HINT_TAB = 5,             /* the first line with a tab */
    TURBO_HINT_LAST_SPACE = 6,      /* the first line that ends in a space */
    TURBO_HINT_EMPTY_LINE = 7,      /* the last line, which is empty and so counts as a row */
    TURBO_HINT_NO_LINE_FEED = 8     /* the last line, which no line feed ends */
};
uint32_t turbo_hint(const uint8_t *sheet, size_t sheet_len, uint64_t *line);

/*
 * The house code's table: 4 states, 2 outputs. Each call writes 8 entries to a list of 8 and returns 0; a list of any other length is as it was,
 * and 5 is returned.
 */
uint32_t turbo_house_next(uint8_t *list, size_t list_len);
uint32_t turbo_house_words(uint8_t *list, size_t list_len);

/*
 * The table of a recursive systematic code named by its taps: 2^m states, 2 outputs. In a tap number bit i is the coefficient of D^i.
 *
 *   memory          m, 1..4: the register's bits. State bit i is the register bit i+1 steps old
 *   feedback        below 2^(m+1) and odd: the new register bit is the sum modulo 2 of the input and of the register bits under its taps; bit 0
 *                   stands for the new bit itself
 *   parity          below 2^(m+1): the parity is the sum modulo 2 of the register bits under its taps, bit 0 again being the new one
 *   next, words     2*2^m entries each, written: a table's lists
 *
 * Memory 2 with taps 7 and 5 is the house code; memory 3 with 13 and 11 is the eight-state code of 3GPP TS 36.212. With m tail sections a frame
 * over such a table, both of whose coders end at zero, is never answered 12, 13 or 14.
 *
 * Returns 0, 2 or 15. The lists are measured only where m is in range.
 */
uint32_t turbo_taps_table(size_t memory, uint32_t feedback, uint32_t parity,
                          uint8_t *next, size_t next_len,
                          uint8_t *words, size_t words_len);

/*
 * The pattern of an interleaver given by a quadratic polynomial: entry i is (f1*i + f2*i*i) mod K.
 *
 *   bits            K, 1..4096
 *   f1, f2          below K. K, f1, f2 = 40, 3, 10 starts 0 13 6 19 12
 *   pattern         K entries, written
 *
 * Returns 0, 15, 4, 5 or 8; with K = 0 it is 15.
 */
uint32_t turbo_polynomial_pattern(size_t bits, size_t f1, size_t f2,
                                  uint32_t *pattern, size_t pattern_len);

/*
 * A radio's samples as channel values: a call for each kind of channel, which is steady, fading or silent.
 *
 *   amplitude       0..1024: what was sent arrives times this
 *   ratio           0..1024: Ec/N0, the energy of a sent bit to the noise; where -1 and 1 are sent and the noise has variance v, it is 1/(2*v)
 *   scale           0..1024: the value of a sample of 1 where the reliability is 1. The silent channel's is tested too
 *   samples         any number of them, 0 included, and none infinite or not a number; a sample above 0 speaks for bit 1
 *   values          as many entries as samples, written: the channel value of each
 *
 * Reliability is 4*ratio on the steady channel and (4*amplitude)*ratio on the fading one. The value is (reliability*scale)*sample: each
 * multiplication, in this order, is rounded once to a float. The product becomes the nearest whole number, halves to even, and is then limited to
 * -1023..1023; an infinite one is limited by its sign. On the silent channel every value is 0. So the opposite sample gives the opposite value, and
 * every value is in the range of channel values: a frame received so is never refused by 6.
 *
 * -0.0 is within 0..1024. The samples are all tested before a value is written: after a refusal `values` is as it was, however late the bad sample.
 *
 * Each returns 0, 5, 17 or 18.
 */
uint32_t turbo_steady_values(float ratio, float scale,
                             const float *samples, size_t samples_len,
                             int16_t *values, size_t values_len);
uint32_t turbo_fading_values(float amplitude, float ratio, float scale,
                             const float *samples, size_t samples_len,
                             int16_t *values, size_t values_len);
uint32_t turbo_silent_values(float scale,
                             const float *samples, size_t samples_len,
                             int16_t *values, size_t values_len);

#ifdef __cplusplus
}
#endif

#endif
