/* Pairs of recordings held together by the archive, as the oracle's `agree` prints them.
 *     agree < PAIRS            the box's recording, then the display's, each after its length, four bytes, low byte first
 *     agree --time N < PAIR    nanoseconds a call: holding the pair together N times, and one pass of nuthkolla_run over the box's calls */
#include "nuthkolla.h"

#include <stdio.h>
#include <stdlib.h>
#include <string.h>
#include <time.h>

static uint8_t input[1 << 27];

typedef struct recording {
    const uint8_t *bytes;
    size_t length;
} recording;

static recording recording_at(size_t *at)
{
    const uint8_t *p = input + *at;
    recording r = {p + 4, p[0] | p[1] << 8 | p[2] << 16 | (size_t)p[3] << 24};
    *at += 4 + r.length;
    return r;
}

static void print_agreed(nuthkolla_agreed a)
{
    const char *whose = a.whose == NUTHKOLLA_BOX ? "box" : "display";
    if (a.agree)
        printf("agree\n");
    else if (a.whose == 0)
        printf("part %u %u\n", a.box_call, a.display_call);
    else if (a.refusal == 1)
        printf("%s config refused %u\n", whose, a.field);
    else if (a.call == 0)
        printf("%s config stopped %u\n", whose, a.refusal);
    else
        printf("%s %u stopped %u\n", whose, a.call, a.refusal);
}

static double now(void)
{
    struct timespec t;
    timespec_get(&t, TIME_UTC);
    return t.tv_sec * 1e9 + t.tv_nsec;
}

/* A pass without text: every record read and its call carried out. */
static unsigned pass(recording r)
{
    static nuthkolla_guidance g;
    nuthkolla_answer a = nuthkolla_run(&g, NUTHKOLLA_SKIPPER, NUTHKOLLA_NEW, r.bytes, r.length);
    unsigned calls = 0;
    for (size_t at = a.next; at < r.length; calls++)
        at += nuthkolla_run(&g, NUTHKOLLA_SKIPPER, NUTHKOLLA_CALL, r.bytes + at, r.length - at).next;
    return calls;
}

static void print_times(recording b, recording d, int turns)
{
    double holding = 1e18, passing = 1e18;
    unsigned calls = 1;
    for (int i = 0; i < turns; i++) {
        double start = now();
        nuthkolla_agreed a = nuthkolla_agree(b.bytes, b.length, d.bytes, d.length);
        double middle = now();
        calls = pass(b);
        double end = now();
        if (!a.agree)
            print_agreed(a);
        holding = middle - start < holding ? middle - start : holding;
        passing = end - middle < passing ? end - middle : passing;
    }
    printf("agree %.1f ns a call of one, a pass %.1f ns a call, ratio %.2f (%u calls each, the best of %d turns)\n", holding / calls,
           passing / calls, holding / passing, calls, turns);
}

int main(int count, char **words)
{
    size_t length = fread(input, 1, sizeof input, stdin);
    for (size_t at = 0; at < length;) {
        recording b = recording_at(&at), d = recording_at(&at);
        if (count == 3 && strcmp(words[1], "--time") == 0)
            print_times(b, d, atoi(words[2]));
        else
            print_agreed(nuthkolla_agree(b.bytes, b.length, d.bytes, d.length));
    }
    return 0;
}
