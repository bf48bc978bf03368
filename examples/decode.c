/*
 * Codes a message of eight bits with the house code, lets the channel turn one bit and weaken another, and decodes the frame; then shows how a
 * value out of range is told.
 *
 *     scripts/library
 *     cc -std=c99 -Iinclude examples/decode.c target/staticlib/libcapi.a -o target/decode && target/decode
 */
#include <stdio.h>
#include "turbo.h"

#define K 8
#define T 2
#define STATES 4

/* everything is sent: three bits a position, and four a tail section */
#define FRAME (3 * K + 4 * T)

#define LEN(list) (sizeof(list) / sizeof((list)[0]))

static const char *what_to_look_at(uint32_t number)
{
    switch (number) {
    case TURBO_SHAPE: return "the numbers of states and outputs, the lengths of the table's lists, and the ends";
    case TURBO_BRANCH: return "the table's next states and words";
    case TURBO_LENGTH: return "the number of sections, or of message bits and tail sections";
    case TURBO_LISTS: return "the lengths of the lists";
    case TURBO_VALUE: return "the value received at the index told";
    case TURBO_BIT: return "the message bits";
    case TURBO_PATTERN: return "the pattern";
    case TURBO_MASK: return "the masks";
    case TURBO_ITERATIONS: return "the number of iterations";
    case TURBO_CODER: return "the table: systematic, with two outputs";
    case TURBO_NO_PATH:
    case TURBO_FORCED_POSITION:
    case TURBO_NO_TAIL: return "the number of tail sections";
    default: return "nothing known";
    }
}

static int refused(const char *call, uint32_t number)
{
    if (number == TURBO_DONE) return 0;
    fprintf(stderr, "%s refused %u: look at %s\n", call, (unsigned)number, what_to_look_at(number));
    return 1;
}

static const uint32_t pattern[K] = {3, 0, 6, 1, 4, 7, 2, 5};
static const uint8_t masks[1] = {7};
static uint8_t next[8], words[8], bits[K];
static int32_t margins[K], extrinsics[K];

static uint32_t decode(const int16_t *received, uint64_t *index)
{
    int32_t work[(K + T + 1) * STATES];
    return turbo_decode(STATES, 2, next, LEN(next), words, LEN(words), TURBO_ZERO, TURBO_ZERO, K, T, pattern, LEN(pattern), masks, LEN(masks),
                        received, FRAME, 8, bits, LEN(bits), margins, LEN(margins), extrinsics, LEN(extrinsics), work, LEN(work), index);
}

int main(void)
{
    static const uint8_t message[K] = {1, 0, 1, 1, 0, 0, 1, 0};
    uint8_t sent[FRAME];
    int16_t received[FRAME];
    uint32_t number;
    uint64_t index;
    size_t i;
    int wrong = 0;

    if (refused("turbo_house_next", turbo_house_next(next, LEN(next)))) return 1;
    if (refused("turbo_house_words", turbo_house_words(words, LEN(words)))) return 1;
    if (refused("turbo_encode", turbo_encode(STATES, 2, next, LEN(next), words, LEN(words), TURBO_ZERO, TURBO_ZERO, K, T, message, LEN(message),
                                             pattern, LEN(pattern), masks, LEN(masks), sent, LEN(sent))))
        return 1;

    for (i = 0; i < FRAME; i++) received[i] = sent[i] ? 40 : -40;
    received[3] = (int16_t)-received[3];
    received[6] = 0;

    if (refused("turbo_decode", decode(received, &index))) return 1;

    printf("at bit margin extrinsic\n");
    for (i = 0; i < K; i++) {
        printf("%u %u %ld %ld\n", (unsigned)i, (unsigned)bits[i], (long)margins[i], (long)extrinsics[i]);
        wrong += bits[i] != message[i];
    }

    received[5] = 2000;
    received[9] = -2000;
    number = decode(received, &index);
    printf("two values out of range: refused %u, the first at index %lu, counted from 0\n", (unsigned)number, (unsigned long)index);
    return wrong != 0 || number != TURBO_VALUE || index != 5;
}
