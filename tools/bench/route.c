/* A route call beside the guide call that it makes, both through the archive: ns a call, medians of rounds that take turns. A
   guide call reads its record, which a route call does not: the reading is timed by records that are refused next, with 2. */
#define _POSIX_C_SOURCE 199309L
#include "nuthkolla.h"

#include <stdio.h>
#include <stdlib.h>
#include <string.h>
#include <time.h>

enum { ROUNDS = 41, CALLS = 200000, STATES = 256 };

static double now(void)
{
    struct timespec t;
    clock_gettime(CLOCK_MONOTONIC, &t);
    return (double)t.tv_sec * 1e9 + (double)t.tv_nsec;
}

static int by_size(const void *a, const void *b) { return (*(const double *)a > *(const double *)b) - (*(const double *)a < *(const double *)b); }

static double median(double *v)
{
    qsort(v, ROUNDS, sizeof *v, by_size);
    return v[ROUNDS / 2];
}

static nuthkolla_route route = {.map = 0x3fffffffffffffff};
static nuthkolla_route_call calls[STATES];
static uint8_t records[2][STATES][NUTHKOLLA_CALL_BYTES];
static size_t lengths[2][STATES];

/* The calls at a point, before which the plane is, so that the test is worked out and is not met; and the guide calls made by them,
   with a time step and with none. */
static void prepare(unsigned number)
{
    const float *to = route.numbers + 4 * (number - 1);
    for (int i = 0; i < STATES; i++) {
        float off = (float)(i % 37) - 18.0f, airspeed = 15.5f + 0.01f * (float)(i % 200);
        nuthkolla_vec3 position = {to[0] - 95.0f + (float)(i % 30), off, 78.0f + (float)(i % 5)}, velocity = {15.0f, 0.1f * off, 0.3f};
        calls[i] = (nuthkolla_route_call){.map = route.map, .number = number, .regime = 1, .dt = 0.1f, .position_m = position,
            .velocity_mps = velocity, .roll_rad = 0.02f * off, .has_airspeed = 1, .airspeed_mps = airspeed};
        nuthkolla_call made = {.kind = NUTHKOLLA_WAYPOINT, .regime = 1, .waypoint_north_m = to[0], .waypoint_east_m = to[1],
            .altitude_m = to[2], .cruise_speed_mps = to[3], .position_m = position, .velocity_mps = velocity, .roll_rad = 0.02f * off,
            .has_airspeed = 1, .airspeed_mps = airspeed};
        if (number > 1) {
            made.has_leg = 1;
            made.leg_north_mps = to[0] - to[-4];
            made.leg_east_mps = to[1] - to[-3];
        }
        for (int refused = 0; refused < 2; refused++) {
            made.dt = refused ? -0.1f : 0.1f;
            lengths[refused][i] = nuthkolla_write_call(records[refused][i], NUTHKOLLA_CALL_BYTES, 0, made).next;
        }
    }
}

static unsigned fly(nuthkolla_guidance *g)
{
    unsigned differ = 0;
    for (int i = 0; i < CALLS; i++) {
        nuthkolla_route_call call = calls[i % STATES];
        nuthkolla_route_answer r = nuthkolla_run_route(g, NUTHKOLLA_SKIPPER, call, route.numbers, NUTHKOLLA_ROUTE_NUMBERS);
        differ += r.number != call.number;
    }
    return differ;
}

static unsigned guide(nuthkolla_guidance *g, int refused)
{
    unsigned differ = 0;
    for (int i = 0; i < CALLS; i++) {
        int n = i % STATES;
        nuthkolla_answer r = nuthkolla_run(g, NUTHKOLLA_SKIPPER, NUTHKOLLA_CALL, records[refused][n], lengths[refused][n]);
        differ += r.refusal != (refused ? 2 : 0);
    }
    return differ;
}

static unsigned compare(unsigned number)
{
    static double route_ns[ROUNDS], guide_ns[ROUNDS], reading_ns[ROUNDS];
    static const uint8_t defaults[5];
    nuthkolla_guidance a = {0}, b = {0};
    unsigned differ = 0;
    prepare(number);
    nuthkolla_run(&a, NUTHKOLLA_SKIPPER, NUTHKOLLA_NEW, defaults, sizeof defaults);
    nuthkolla_run(&b, NUTHKOLLA_SKIPPER, NUTHKOLLA_NEW, defaults, sizeof defaults);
    for (int round = 0; round < ROUNDS; round++) {
        double t0 = now();
        differ += fly(&a);
        double t1 = now();
        differ += guide(&b, 0);
        double t2 = now();
        differ += guide(&b, 1);
        route_ns[round] = (t1 - t0) / CALLS;
        guide_ns[round] = (t2 - t1) / CALLS;
        reading_ns[round] = (now() - t2) / CALLS;
    }
    differ += memcmp(&a, &b, sizeof a) != 0;
    double r = median(route_ns), g = median(guide_ns), reading = median(reading_ns);
    printf("point %2u: route call %.1f ns, guide call %.1f ns, ratio %.3f; without the reading, %.1f ns, ratio %.3f\n", number, r, g, r / g,
        g - reading, r / (g - reading));
    if (differ != 0)
        printf("the two differ\n");
    return differ;
}

/* 62 points along a line to the north. The first is loitered at, and its test takes a root; the others are flown along a leg. */
int main(void)
{
    for (int i = 0; i < 62; i++) {
        float point[4] = {100.0f * (float)i, 10.0f * (float)(i % 2), 80.0f, 17.0f};
        memcpy(route.numbers + 4 * i, point, sizeof point);
    }
    unsigned differ = compare(1);
    differ += compare(48);
    return differ != 0;
}
