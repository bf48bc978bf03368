/*
 * Codes a message of three bits with the house code, makes a radio's samples of the frame, of which noise turns one, and goes from the samples to
 * channel values and from these to bits and margins; then shows the two other channels, and how a sample that is infinite is told.
 *
 *     scripts/library
 *     cc -std=c99 -Iinclude examples/samples.c target/staticlib/libcapi.a -o target/samples && target/samples
 */
#include <math.h>
#include <stdio.h>
#include "turbo.h"

#define K 3
#define T 2
#define STATES 4

/* everything is sent: three bits a position, and four a tail section */
#define FRAME (3 * K + 4 * T)

/* noise of a variance of 1/4, so that Ec/N0 is 2; a sample of 1 becomes the value 4 * 2 * 8 = 64 */
#define RATIO 2.0f
#define SCALE 8.0f

#define LEN(list) (sizeof(list) / sizeof((list)[0]))

static const char *what_to_look_at(uint32_t number)
{
    switch (number) {
    case TURBO_LISTS: return "the lengths of the lists";
    case TURBO_SETTING: return "amplitude, ratio and scale";
    case TURBO_SAMPLE: return "the samples: one is infinite or not a number";
    default: return "its number at turbo_reply in turbo.h";
    }
}

static int refused(const char *call, uint32_t number)
{
    if (number == TURBO_DONE) return 0;
    fprintf(stderr, "%s refused %u: look at %s\n", call, (unsigned)number, what_to_look_at(number));
    return 1;
}

static const uint8_t message[K] = {1, 0, 1};
static const uint32_t pattern[K] = {2, 0, 1};
static const uint8_t masks[1] = {7};
/* the fourth is that of the second message bit, a 0, whose sample comes out above 0 */
static const float noise[FRAME] = {0.31f, -0.22f, 0.47f, 1.18f, 0.08f, -0.35f, -0.41f, 0.26f, -0.13f,
                                   0.19f, -0.52f, 0.37f, -0.06f, 0.44f, -0.28f, 0.15f, -0.33f};
static uint8_t next[8], words[8], sent[FRAME], bits[K];
static float samples[FRAME];
static int16_t values[FRAME], others[FRAME];
static int32_t margins[K], extrinsics[K];

static uint32_t encode(void)
{
    return turbo_encode(STATES, 2, next, LEN(next), words, LEN(words), TURBO_ZERO, TURBO_ZERO, K, T, message, LEN(message), pattern, LEN(pattern),
                        masks, LEN(masks), sent, LEN(sent));
}

static uint32_t decode(void)
{
    int32_t work[(K + T + 1) * STATES];
    uint64_t index;
    return turbo_decode(STATES, 2, next, LEN(next), words, LEN(words), TURBO_ZERO, TURBO_ZERO, K, T, pattern, LEN(pattern), masks, LEN(masks),
                        values, LEN(values), 8, bits, LEN(bits), margins, LEN(margins), extrinsics, LEN(extrinsics), work, LEN(work), &index);
}

int main(void)
{
    uint32_t number;
    size_t i;
    int wrong = 0;

    if (refused("turbo_house_next", turbo_house_next(next, LEN(next)))) return 1;
    if (refused("turbo_house_words", turbo_house_words(words, LEN(words)))) return 1;
    if (refused("turbo_encode", encode())) return 1;

    for (i = 0; i < FRAME; i++) samples[i] = (sent[i] ? 1.0f : -1.0f) + noise[i];

    if (refused("turbo_steady_values", turbo_steady_values(RATIO, SCALE, samples, LEN(samples), values, LEN(values)))) return 1;
    if (refused("turbo_decode", decode())) return 1;

    printf("at sample value bit margin\n");
    for (i = 0; i < K; i++) {
        printf("%u %.2f %d %u %ld\n", (unsigned)i, samples[3 * i], (int)values[3 * i], (unsigned)bits[i], (long)margins[i]);
        wrong += bits[i] != message[i];
    }

    /* half the amplitude halves the reliability; a silent channel says nothing */
    if (refused("turbo_fading_values", turbo_fading_values(0.5f, RATIO, SCALE, samples, LEN(samples), others, LEN(others)))) return 1;
    printf("the first value on a channel that fades to 0.5: %d\n", (int)others[0]);
    if (refused("turbo_silent_values", turbo_silent_values(SCALE, samples, LEN(samples), others, LEN(others)))) return 1;
    printf("on a silent one: %d\n", (int)others[0]);

    samples[FRAME - 1] = INFINITY;
    number = turbo_steady_values(RATIO, SCALE, samples, LEN(samples), others, LEN(others));
    printf("the last sample is infinite: refused %u, and the first value is still %d\n", (unsigned)number, (int)others[0]);
    return wrong != 0 || number != TURBO_SAMPLE || others[0] != 0;
}
