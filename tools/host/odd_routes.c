/* Routes of arbitrary maps, numbers and records on guidances of arbitrary bytes: each refusal is the one that the header lists for what
 * the host holds, a refusal keeps guidance, number, lent numbers and bytes, the whole answer is a function of these, and what is written
 * is read again.
 *     odd_routes SEED CALLS */
#define PROGRAM "odd_routes"
#include "nuthkolla.h"
#include "odd.h"

#include <math.h>
#include <stdio.h>
#include <stdlib.h>
#include <string.h>

static void fill(void *to, size_t words)
{
    for (size_t i = 0; i < words; i++) {
        float small = (float)(any() % 64) - 16;
        uint32_t bits = any();
        memcpy((char *)to + 4 * i, any() % 4 == 0 ? (void *)&bits : (void *)&small, 4);
    }
}

/* Few bits or many; bits 62 and 63 in some. */
static uint64_t any_map(void)
{
    uint64_t map = (uint64_t)any() << 32 | any();
    switch (any() % 6) {
    case 0: return map;
    case 1: return map >> 2;
    case 2: return map >> 2 & 0x7fffffff;
    case 3: return 1ull << any() % 64;
    case 4: return 0;
    default: return map & 0x2000000180000101;
    }
}

static int bits_of(uint64_t map)
{
    int n = 0;
    for (; map != 0; map >>= 1)
        n += (int)(map & 1);
    return n;
}

/* What a route that the host holds is refused with, before the guide call; 0 where it is not. */
static uint32_t refusal_of(uint64_t map, size_t count)
{
    return map >> 62 != 0 ? 6 : map == 0 ? 10 : count < 4 * (size_t)bits_of(map) ? 5 : 0;
}

static void fly(uint64_t map, const float *numbers, size_t count)
{
    nuthkolla_guidance g;
    nuthkolla_route_call c;
    fill(&g, sizeof g / 4);
    fill(&c, sizeof c / 4);
    c.map = map;
    c.number = any() % 4 == 0 ? any() : any() % 66;
    c.regime = any() % 3;
    nuthkolla_guidance before = g, again = g;
    nuthkolla_route_answer a = nuthkolla_run_route(&g, NUTHKOLLA_SKIPPER, c, numbers, count);
    nuthkolla_route_answer b = nuthkolla_run_route(&again, NUTHKOLLA_SKIPPER, c, numbers, count);
    expect(memcmp(&g, &again, sizeof g) == 0, "same guidance from same call");
    expect(memcmp(&a.answer, &b.answer, sizeof a.answer) == 0 && a.number == b.number, "same answer from same call");
    expect(a.answer.next == 0, "a route call reads no record");
    uint32_t early = c.regime > 1 ? 7 : refusal_of(map, count), refusal = a.answer.refusal;
    expect(early != 0 ? refusal == early : refusal == 0 || (refusal >= 2 && refusal <= 4), "refusal of a route call");
    if (refusal != 0) {
        expect(memcmp(&g, &before, sizeof g) == 0 && a.number == c.number, "a refusal keeps guidance and number");
        return;
    }
    uint32_t last = (uint32_t)bits_of(map) + 1, from = c.number == 0 ? 1 : c.number > last ? last : c.number;
    expect((a.number == from || a.number == from + 1) && a.number <= last, "it moves on by at most one, and not past the end");
}

/* 1 where the record was written. */
static int write_and_read(uint64_t map, const float *numbers, size_t count)
{
    size_t points = (size_t)bits_of(map), size = (map >> 31 != 0 ? 8 : 4) + 16 * points;
    size_t length = any() % 1200, at = any() % 100, kept = 0;
    uint8_t *out = malloc(length + 1), *before = malloc(length + 1);
    for (size_t i = 0; i < length; i++)
        out[i] = before[i] = (uint8_t)any();
    nuthkolla_place p = nuthkolla_write_route(NUTHKOLLA_SKIPPER, out, length, at, map, numbers, count);
    uint32_t early = refusal_of(map, count);
    expect(p.refusal == (early != 0 ? early : at > length || length - at < size ? 8 : 0), "refusal of the writer");
    for (size_t i = 0; i < length; i++)
        kept += out[i] == before[i] || (p.refusal == 0 && i >= at && i < p.next);
    expect(kept == length, "bytes outside the record are kept");
    if (p.refusal == 0) {
        int finite = 1;
        for (size_t i = 0; i < 4 * points; i++)
            finite = finite && isfinite(numbers[i]);
        size_t room = any() % 2 != 0 ? 4 * points : any() % (NUTHKOLLA_ROUTE_NUMBERS + 1);
        float *again = malloc(4 * room + 1), *same = malloc(4 * room + 1);
        fill(again, room);
        memcpy(same, again, 4 * room);
        nuthkolla_route_loaded l = nuthkolla_load_route(NUTHKOLLA_SKIPPER, out, p.next, at, again, room);
        expect(p.next == at + size && l.refusal == (!finite ? 11 : room < 4 * points ? 8 : 0), "refusal of what was written");
        size_t given = l.refusal == 0 ? 16 * points : 0;
        expect(memcmp(again, numbers, given) == 0, "the numbers come back");
        expect(memcmp((char *)again + given, (char *)same + given, 4 * room - given) == 0, "the others are kept");
        expect(l.refusal != 0 || (l.map == map && l.number == 1 && l.next == p.next), "map, number and place come back");
        free(again);
        free(same);
    }
    free(out);
    free(before);
    return p.refusal == 0;
}

int main(int words_count, char **words)
{
    seed = words_count > 1 ? strtoull(words[1], 0, 10) : 1;
    unsigned long calls = words_count > 2 ? strtoul(words[2], 0, 10) : 100000, written = 0, two = 0;
    for (unsigned long n = 0; n < calls; n++) {
        uint64_t map = any_map();
        size_t needed = 4 * (size_t)bits_of(map), count = any() % 4 == 0 ? any() % 260 : needed;
        /* exactly as many as are lent, so that a read past them is seen */
        float *numbers = malloc(4 * count + 1);
        if (any() % 2 != 0)
            fill(numbers, count);
        else
            for (size_t i = 0; i < count; i++)
                numbers[i] = (float)(any() % 4096) - 2048;
        fly(map, numbers, count);
        int done = write_and_read(map, numbers, count);
        written += (unsigned long)done;
        two += done && map >> 31 != 0;
        free(numbers);
    }
    printf("%lu routes of arbitrary maps and numbers: %lu written, %lu of them with a second map\n", calls, written, two);
    return 0;
}
