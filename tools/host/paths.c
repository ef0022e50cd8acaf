/* Paths drawn at the waypoint calls of a list, each before its call is made, as the oracle's `paths` prints them: what the answer
 * says, and every number of the buffer, which held 0, 1, .. as bits.
 *     paths MOST < LIST
 *     paths at CALL STEPS [ROOM] < RECORDING      the path at one call of a recording, a line for each point
 * The guidance is passed by value; that the caller's stays as it was is checked all the same. At each of these calls it is held too
 * that another kind is refused with 255 and a regime above 1 with 7. */
#include "nuthkolla.h"
#include "records.h"

#include <stdio.h>
#include <stdlib.h>

/* BACK: a list's byte for a taking back. */
enum { ROOM = 3 * 601 + 3, BACK = 2 };

static uint8_t input[1 << 26];

static uint32_t bits_of(float number)
{
    uint32_t word;
    memcpy(&word, &number, 4);
    return number != number ? 0x7fc00000 : word;
}

/* The oracle's sizes(). */
static void sizes(unsigned long n, size_t most, size_t *steps, size_t *room)
{
    *steps = n % 101 == 0 ? most : n % 103 == 0 ? 601 : n % 107 == 0 ? 0 : 1 + n % 17;
    *room = n % 13 == 5 && *steps > 0 ? 3 * *steps - 1 : 3 * *steps + n % 3;
}

/* From a place on the buffer holds what it held. */
static int kept(const float *buffer, size_t from)
{
    for (uint32_t i = (uint32_t)from; i < ROOM; i++)
        if (memcmp(&buffer[i], &i, 4) != 0) {
            printf("number %u of the buffer is changed\n", i);
            return 0;
        }
    return 1;
}

static void print_told(const nuthkolla_path *p)
{
    if (p->refusal != 0)
        printf("refused %u", p->refusal);
    else if (p->stopped == 0)
        printf("drawn %zu whole", p->drawn);
    else if (p->reason == 0)
        printf("drawn %zu stopped %zu not-finite", p->drawn, p->stopped);
    else
        printf("drawn %zu stopped %zu refused %u", p->drawn, p->stopped, p->reason);
}

static void fill(float *buffer)
{
    for (uint32_t i = 0; i < ROOM; i++)
        memcpy(&buffer[i], &i, 4);
}

/* Refused with this number, whatever the steps and the room, and the buffer kept. */
static void must_refuse(uint32_t number, const nuthkolla_guidance *g, nuthkolla_call call, size_t steps, float *buffer, size_t room)
{
    nuthkolla_path p = nuthkolla_draw_path(*g, call, steps, buffer, room);
    if (p.refusal != number || p.reason != 0 || p.drawn != 0 || p.stopped != 0 || !kept(buffer, 0)) {
        printf("kind %u, regime %u: refusal %u in place of %u\n", call.kind, call.regime, p.refusal, number);
        exit(1);
    }
}

/* 7 for a regime above 1, and before it 255 for a kind other than a waypoint: one of 0 to 7 by the call's number. */
static void refuse_others(unsigned long n, const nuthkolla_guidance *g, nuthkolla_call call, size_t steps, float *buffer, size_t room)
{
    call.regime = 2;
    must_refuse(7, g, call, steps, buffer, room);
    call.kind = (uint32_t)(NUTHKOLLA_WAYPOINT + 1 + n % 7) % 8;
    must_refuse(NUTHKOLLA_UNKNOWN, g, call, steps, buffer, room);
}

static void print_path(unsigned long n, const nuthkolla_guidance *g, nuthkolla_call call, size_t most)
{
    size_t steps, room;
    sizes(n, most, &steps, &room);
    float buffer[ROOM];
    fill(buffer);
    nuthkolla_guidance before = *g;
    refuse_others(n, g, call, steps, buffer, room);
    nuthkolla_path p = nuthkolla_draw_path(*g, call, steps, buffer, room);
    if (memcmp(&before, g, sizeof before) != 0) {
        printf("the guidance is changed\n");
        exit(1);
    }
    printf("%lu ", n);
    print_told(&p);
    for (size_t i = 0; i < room; i++)
        printf(" %08x", bits_of(buffer[i]));
    printf("\n");
    if (!kept(buffer, room))
        exit(1);
}

static int at_call(unsigned long call, size_t steps, size_t room, size_t length)
{
    static float buffer[ROOM];
    fill(buffer);
    nuthkolla_guidance g = {0};
    nuthkolla_answer a = nuthkolla_run(&g, NUTHKOLLA_SKIPPER, NUTHKOLLA_NEW, input, length);
    size_t place = a.next;
    for (unsigned long n = 1; a.refusal != 1 && a.next != 0 && n <= call; n++) {
        nuthkolla_guidance before = g;
        a = nuthkolla_run(&g, NUTHKOLLA_SKIPPER, NUTHKOLLA_CALL, input + place, length - place);
        if (a.next != 0 && n == call && input[place + 4] == NUTHKOLLA_WAYPOINT) {
            room = room < ROOM ? room : ROOM;
            refuse_others(n, &before, call_of(input + place), steps, buffer, room);
            nuthkolla_path p = nuthkolla_draw_path(before, call_of(input + place), steps, buffer, room);
            printf("path %u %zu %zu %u\n", p.refusal, p.drawn, p.stopped, p.reason);
            for (size_t i = 0; i < p.drawn; i++)
                printf("%08x %08x %08x\n", bits_of(buffer[3 * i]), bits_of(buffer[3 * i + 1]), bits_of(buffer[3 * i + 2]));
            return kept(buffer, 3 * p.drawn) ? 0 : 1;
        }
        place += a.next;
    }
    fprintf(stderr, "paths: the recording has no such waypoint call\n");
    return 1;
}

int main(int count, char **words)
{
    size_t length = fread(input, 1, sizeof input, stdin);
    if (count >= 4) {
        size_t steps = strtoul(words[3], 0, 10);
        return at_call(strtoul(words[2], 0, 10), steps, count > 4 ? strtoul(words[4], 0, 10) : 3 * steps, length);
    }
    size_t most = count > 1 ? strtoul(words[1], 0, 10) : 600;
    nuthkolla_guidance g = {0};
    nuthkolla_answer a = nuthkolla_run(&g, NUTHKOLLA_SKIPPER, NUTHKOLLA_NEW, input, length);
    if (a.refusal != 0)
        return 0;
    size_t place = a.next;
    for (unsigned long n = 1; place < length && input[place] <= BACK; n++) {
        uint32_t what = input[place] == BACK ? NUTHKOLLA_TAKE_BACK : input[place];
        place++;
        nuthkolla_guidance before = g;
        a = nuthkolla_run(&g, NUTHKOLLA_SKIPPER, what, input + place, length - place);
        if (a.next == 0 && what != NUTHKOLLA_TAKE_BACK)
            break;
        if (what == NUTHKOLLA_CALL && input[place + 4] == NUTHKOLLA_WAYPOINT)
            print_path(n, &before, call_of(input + place), most);
        place += a.next;
    }
    return 0;
}
