/* Recordings compacted by the archive, as the oracle's `compact` prints them: the new length or the refusal's line, and every
 * byte of the buffer.
 *     compact < RECORDING
 *     compact --many < RECORDINGS     each after its length, four bytes, low byte first
 *     compact --time N < RECORDING    nanoseconds a call: compacting it N times, and one pass of nuthkolla_run over its calls */
#include "nuthkolla.h"

#include <stdio.h>
#include <stdlib.h>
#include <string.h>
#include <time.h>

static uint8_t input[1 << 27];
static uint8_t buffer[1 << 20];

static void print_compacted(uint8_t *bytes, size_t length)
{
    static const char digits[] = "0123456789abcdef";
    nuthkolla_compaction c = nuthkolla_compact(bytes, length);
    if (c.refusal == 0)
        printf("length %zu\n", c.length);
    else if (c.refusal == 1)
        printf("config refused %u\n", c.field);
    else if (c.call == 0)
        printf("config stopped %u\n", c.refusal);
    else
        printf("%u stopped %u\n", c.call, c.refusal);
    for (size_t i = 0; i < length; i++) {
        putchar(digits[bytes[i] >> 4]);
        putchar(digits[bytes[i] & 15]);
    }
    putchar('\n');
}

static void print_many(uint8_t *bytes, size_t length)
{
    for (size_t at = 0, n = 1; at < length; n++) {
        size_t size = bytes[at] | bytes[at + 1] << 8 | bytes[at + 2] << 16 | (size_t)bytes[at + 3] << 24;
        printf("input %zu\n", n);
        print_compacted(bytes + at + 4, size);
        at += 4 + size;
    }
}

static double now(void)
{
    struct timespec t;
    timespec_get(&t, TIME_UTC);
    return t.tv_sec * 1e9 + t.tv_nsec;
}

/* A pass without text: every record read and its call carried out. */
static unsigned pass(const uint8_t *bytes, size_t length)
{
    static nuthkolla_guidance g;
    nuthkolla_answer a = nuthkolla_run(&g, NUTHKOLLA_SKIPPER, NUTHKOLLA_NEW, bytes, length);
    unsigned calls = 0;
    for (size_t at = a.next; at < length; calls++)
        at += nuthkolla_run(&g, NUTHKOLLA_SKIPPER, NUTHKOLLA_CALL, bytes + at, length - at).next;
    return calls;
}

static void print_times(size_t length, int turns)
{
    double compacting = 1e18, passing = 1e18;
    unsigned calls = 1;
    for (int i = 0; i < turns; i++) {
        memcpy(buffer, input, length);
        double start = now();
        nuthkolla_compact(buffer, length);
        double middle = now();
        calls = pass(input, length);
        double end = now();
        compacting = middle - start < compacting ? middle - start : compacting;
        passing = end - middle < passing ? end - middle : passing;
    }
    printf("compact %.1f ns a call, a pass %.1f ns a call, ratio %.2f (%u calls, the best of %d turns)\n", compacting / calls,
           passing / calls, compacting / passing, calls, turns);
}

int main(int count, char **words)
{
    size_t length = fread(input, 1, sizeof input, stdin);
    if (count == 3 && strcmp(words[1], "--time") == 0)
        print_times(length, atoi(words[2]));
    else if (count == 2 && strcmp(words[1], "--many") == 0)
        print_many(input, length);
    else
        print_compacted(input, length);
    return 0;
}
