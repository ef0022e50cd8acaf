/* Answers as the desk program prints them, for the C programs of this folder and of examples/. */
#ifndef LINES_H
#define LINES_H

#include "nuthkolla.h"

#include <stdio.h>
#include <string.h>

/* The bits of a number, any NaN as 7fc00000. */
static uint32_t bits(float x)
{
    uint32_t n;
    memcpy(&n, &x, 4);
    return x == x ? n : 0x7fc00000u;
}

static void print_answer(FILE *to, unsigned long number, const nuthkolla_answer *a)
{
    static const char *const lateral[] = {"", "track", "loiter", "idle"};
    static const char *const vertical[] = {"", "energy", "hold", "fallback"};
    if (a->refusal != 0)
        fprintf(to, "%lu refused %u\n", number, a->refusal);
    else if (a->setpoint == NUTHKOLLA_NO_SETPOINT)
        fprintf(to, "%lu prime\n", number);
    else if (a->setpoint == NUTHKOLLA_PLANE_RATE)
        fprintf(to, "%lu rate %08x %08x %08x %08x\n", number, bits(a->roll), bits(a->pitch), bits(a->yaw), bits(a->thrust));
    else if (a->lateral != 0)
        fprintf(to, "%lu %s %s %08x %08x %08x %08x\n", number, lateral[a->lateral], vertical[a->vertical], bits(a->roll),
                bits(a->pitch), bits(a->thrust), bits(a->cross_track_m));
    else
        fprintf(to, "%lu plane %08x %08x %08x\n", number, bits(a->roll), bits(a->pitch), bits(a->thrust));
}

#endif
