/* Times of the proved SHA-256, AES-128 and streams over those of the second implementation, in one run: CPU time, the best of many
 * rounds, the two in turn. */
#define _POSIX_C_SOURCE 199309L
#include "primitives.h"

#include "aes128.h"
#include "layers.h"
#include "sha256.h"

#include <stdio.h>
#include <string.h>
#include <time.h>

enum { LONG = 65536, BLOCKS = 192, NUMBERS = 384 };

static uint8_t data[LONG], digest[32], schedule[176], blocks[16 * BLOCKS], lanes[256], crypted[256];
static uint32_t numbers[NUMBERS];
static struct aes128 key;
static const uint8_t seed[16] = {1, 2, 3, 4, 5, 6, 7, 8, 9, 10, 11, 12, 13, 14, 15, 16};

static void our_long(void) { badge_sha256(data, LONG, digest); }
static void their_long(void) { sha256(data, LONG, digest); }
static void our_short(void) { badge_sha256(data, 32, digest); }
static void their_short(void) { sha256(data, 32, digest); }
static void our_schedule(void) { badge_schedule(seed, schedule); }
static void their_schedule(void) { aes128_expand(&key, seed); }
static void our_blocks(void)
{
    for (int b = 0; b < BLOCKS / 16; b++)
        badge_sixteen(schedule, lanes, crypted);
}
static void their_blocks(void) { aes128_counters(&key, 2, blocks, BLOCKS); }
static void our_numbers(void) { badge_numbers(seed, 16, 2, 2147483647, numbers, NUMBERS); }
static void their_numbers(void)
{
    aes128_expand(&key, seed);
    stream_numbers(&key, 2, 2147483647, numbers, NUMBERS);
}

static double seconds(void)
{
    struct timespec t;
    clock_gettime(CLOCK_PROCESS_CPUTIME_ID, &t);
    return t.tv_sec + 1e-9 * t.tv_nsec;
}

static double once(void (*f)(void), int calls)
{
    double t = seconds();
    for (int i = 0; i < calls; i++)
        f();
    return (seconds() - t) / calls;
}

static void row(const char *what, void (*ours)(void), void (*theirs)(void), int calls, double per, const char *unit)
{
    double a = 1e9, b = 1e9;
    for (int r = 0; r < 60; r++) {
        double x = once(ours, calls), y = once(theirs, calls);
        a = x < a ? x : a;
        b = y < b ? y : b;
    }
    printf("%-34s %9.1f %9.1f %-10s %5.2f\n", what, 1e9 * a / per, 1e9 * b / per, unit, a / b);
}

int main(void)
{
    badge_schedule(seed, schedule);
    aes128_expand(&key, seed);
    printf("%-34s %9s %9s %-10s %5s\n", "", "ours", "C", "", "ratio");
    row("SHA-256, 64 KiB", our_long, their_long, 4, LONG, "ns/byte");
    row("SHA-256, 32 bytes", our_short, their_short, 500, 1, "ns");
    row("AES-128 key schedule", our_schedule, their_schedule, 500, 1, "ns");
    row("AES-128 blocks, one schedule", our_blocks, their_blocks, 20, BLOCKS, "ns/block");
    row("numbers of a stream, with schedule", our_numbers, their_numbers, 20, NUMBERS, "ns/number");
    return 0;
}
