/*
 * Codes a message of eight bits with the house code, both coders closing a ring, lets the channel turn one bit, and decodes the frame; then shows a
 * message that closes no ring.
 *
 *     scripts/library
 *     cc -std=c99 -Iinclude examples/ring.c target/staticlib/libcapi.a -o target/ring && target/ring
 */
#include <stdio.h>
#include "turbo.h"

/* where the number of bits is no multiple of three, every message brings one state of the house code back to itself */
#define K 8
#define STATES 4

/* a ring has no tail: everything sent is three bits a position */
#define T 0
#define FRAME (3 * K)

#define LEN(list) (sizeof(list) / sizeof((list)[0]))

static const char *what_to_look_at(uint32_t number)
{
    switch (number) {
    case TURBO_SHAPE: return "the numbers of states and outputs, the lengths of the table's lists, and the ends";
    case TURBO_LISTS: return "the lengths of the lists, the frame's and the working list's by the ends";
    case TURBO_VALUE: return "the value received at the index told";
    case TURBO_NO_PATH:
    case TURBO_FORCED_POSITION: return "the number of message bits";
    case TURBO_NO_TAIL: return "the message: no state comes back to itself; one more bit may help";
    default: return "its number at turbo_reply in turbo.h";
    }
}

static int refused(const char *call, uint32_t number)
{
    if (number == TURBO_DONE) return 0;
    fprintf(stderr, "%s refused %u: look at %s\n", call, (unsigned)number, what_to_look_at(number));
    return 1;
}

static const uint32_t pattern[K] = {3, 0, 6, 1, 4, 7, 2, 5};
static const uint8_t masks[1] = {7};
static uint8_t next[8], words[8], bits[K];
static int32_t margins[K], extrinsics[K];

static uint32_t encode(const uint8_t *message, size_t length, const uint32_t *order, uint8_t *sent)
{
    return turbo_encode(STATES, 2, next, LEN(next), words, LEN(words), TURBO_RING, TURBO_RING, length, T, message, length, order, length, masks,
                        LEN(masks), sent, 3 * length);
}

static uint32_t decode(const int16_t *received, uint64_t *index)
{
    int32_t work[(K + 1) * STATES];
    return turbo_decode(STATES, 2, next, LEN(next), words, LEN(words), TURBO_RING, TURBO_RING, K, T, pattern, LEN(pattern), masks, LEN(masks),
                        received, FRAME, 8, bits, LEN(bits), margins, LEN(margins), extrinsics, LEN(extrinsics), work, LEN(work), index);
}

int main(void)
{
    static const uint8_t message[K] = {1, 0, 1, 1, 0, 0, 1, 0}, three[3] = {1, 0, 0};
    static const uint32_t as_it_is[3] = {0, 1, 2};
    uint8_t sent[FRAME];
    int16_t received[FRAME];
    uint32_t number;
    uint64_t index;
    size_t i;
    int wrong = 0;

    if (refused("turbo_house_next", turbo_house_next(next, LEN(next)))) return 1;
    if (refused("turbo_house_words", turbo_house_words(words, LEN(words)))) return 1;
    if (refused("turbo_encode", encode(message, K, pattern, sent))) return 1;

    for (i = 0; i < FRAME; i++) received[i] = sent[i] ? 40 : -40;
    received[3] = (int16_t)-received[3];

    if (refused("turbo_decode", decode(received, &index))) return 1;

    printf("at bit margin extrinsic\n");
    for (i = 0; i < K; i++) {
        printf("%u %u %ld %ld\n", (unsigned)i, (unsigned)bits[i], (long)margins[i], (long)extrinsics[i]);
        wrong += bits[i] != message[i];
    }

    number = encode(three, LEN(three), as_it_is, sent);
    printf("the message 1 0 0 closes no ring: refused %u\n", (unsigned)number);
    return wrong != 0 || number != TURBO_NO_TAIL;
}
