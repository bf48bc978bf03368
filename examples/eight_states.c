/*
 * Codes a message of five letters with the eight-state code of 3GPP TS 36.212 and its interleaver for 40 bits, lets the channel turn every ninth
 * bit, and decodes the frame.
 *
 *     scripts/library
 *     cc -std=c99 -Iinclude examples/eight_states.c target/staticlib/libcapi.a -o target/eight_states && target/eight_states
 */
#include <stdio.h>
#include "turbo.h"

/* the interleaver is (3*i + 10*i*i) mod 40 */
#define K 40
#define F1 3
#define F2 10

/* feedback 1 + D^2 + D^3 and parity 1 + D + D^3; as many tail sections as register bits always lead back to state 0 */
#define MEMORY 3
#define FEEDBACK 13
#define PARITY 11
#define T MEMORY
#define STATES (1 << MEMORY)

/* everything is sent: three bits a position, and four a tail section */
#define FRAME (3 * K + 4 * T)

#define LEN(list) (sizeof(list) / sizeof((list)[0]))

static int refused(const char *call, uint32_t number)
{
    if (number == TURBO_DONE) return 0;
    fprintf(stderr, "%s refused %u: look it up at turbo_reply in turbo.h\n", call, (unsigned)number);
    return 1;
}

int main(void)
{
    static const char text[] = "LIFT5";
    static const uint8_t masks[1] = {7};
    uint8_t next[2 * STATES], words[2 * STATES], message[K], sent[FRAME], bits[K];
    uint32_t pattern[K];
    int16_t received[FRAME];
    int32_t margins[K], extrinsics[K], work[(K + T + 1) * STATES];
    uint64_t index;
    size_t i;
    int wrong = 0;

    if (refused("turbo_taps_table", turbo_taps_table(MEMORY, FEEDBACK, PARITY, next, LEN(next), words, LEN(words)))) return 1;
    if (refused("turbo_polynomial_pattern", turbo_polynomial_pattern(K, F1, F2, pattern, LEN(pattern)))) return 1;

    for (i = 0; i < K; i++) message[i] = text[i / 8] >> (7 - i % 8) & 1;
    if (refused("turbo_encode", turbo_encode(STATES, 2, next, LEN(next), words, LEN(words), TURBO_ZERO, TURBO_ZERO, K, T, message, LEN(message),
                                             pattern, LEN(pattern), masks, LEN(masks), sent, LEN(sent))))
        return 1;

    for (i = 0; i < FRAME; i++) received[i] = sent[i] ? 40 : -40;
    for (i = 0; i < FRAME; i += 9) received[i] = (int16_t)(-received[i] / 2);

    if (refused("turbo_decode", turbo_decode(STATES, 2, next, LEN(next), words, LEN(words), TURBO_ZERO, TURBO_ZERO, K, T, pattern, LEN(pattern),
                                             masks, LEN(masks), received, LEN(received), 8, bits, LEN(bits), margins, LEN(margins), extrinsics,
                                             LEN(extrinsics), work, LEN(work), &index)))
        return 1;

    printf("at bit margin extrinsic\n");
    for (i = 0; i < K; i++) {
        printf("%u %u %ld %ld\n", (unsigned)i, (unsigned)bits[i], (long)margins[i], (long)extrinsics[i]);
        wrong += bits[i] != message[i];
    }
    return wrong != 0;
}
