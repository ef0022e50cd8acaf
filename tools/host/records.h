/* A plain reader of call records, from document 01 and apart from the archive's: what the programs of this folder need to know of
 * a call that they run. It takes records that the archive has read. */
#ifndef RECORDS_H
#define RECORDS_H

#include "nuthkolla.h"

#include <string.h>

enum { BIT_KIND, BIT_REGIME, BIT_STEP, BIT_COMMAND, BIT_POINT = 7, BIT_LEG = 9, BIT_ALTITUDE = 11, BIT_CRUISE, BIT_POSITION,
    BIT_VELOCITY = 16, BIT_ROLL = 19, BIT_AIRSPEED, BIT_CAP, NAMED_BITS };

static float number_at(const uint8_t *bytes)
{
    uint32_t word = bytes[0] | (uint32_t)bytes[1] << 8 | (uint32_t)bytes[2] << 16 | (uint32_t)bytes[3] << 24;
    float number;
    memcpy(&number, &word, 4);
    return number;
}

/* The fields of a record by bit; 0 where one is missing. */
typedef struct fields {
    uint32_t map;
    uint8_t kind, regime;
    float numbers[NAMED_BITS];
} fields;

static fields read_fields(const uint8_t *record)
{
    fields f = {.regime = 1};
    f.map = record[0] | (uint32_t)record[1] << 8 | (uint32_t)record[2] << 16 | (uint32_t)record[3] << 24;
    const uint8_t *at = record + 4;
    f.kind = *at++;
    if (f.map >> BIT_REGIME & 1)
        f.regime = *at++;
    for (int bit = BIT_STEP; bit < NAMED_BITS; bit++)
        if (f.map >> bit & 1) {
            f.numbers[bit] = number_at(at);
            at += 4;
        }
    return f;
}

static nuthkolla_vec3 three(const float *numbers)
{
    nuthkolla_vec3 v = {numbers[0], numbers[1], numbers[2]};
    return v;
}

static nuthkolla_call call_of(const uint8_t *record)
{
    fields f = read_fields(record);
    const float *n = f.numbers;
    nuthkolla_call c = {.kind = f.kind, .regime = f.regime, .dt = n[BIT_STEP], .first = n[BIT_COMMAND], .second = n[BIT_COMMAND + 1],
        .third = n[BIT_COMMAND + 2], .fourth = n[BIT_COMMAND + 3], .waypoint_north_m = n[BIT_POINT],
        .waypoint_east_m = n[BIT_POINT + 1], .has_leg = f.map >> BIT_LEG & 1, .leg_north_mps = n[BIT_LEG],
        .leg_east_mps = n[BIT_LEG + 1], .altitude_m = n[BIT_ALTITUDE], .cruise_speed_mps = n[BIT_CRUISE],
        .position_m = three(n + BIT_POSITION), .velocity_mps = three(n + BIT_VELOCITY), .roll_rad = n[BIT_ROLL],
        .has_airspeed = f.map >> BIT_AIRSPEED & 1, .airspeed_mps = n[BIT_AIRSPEED], .has_cap = f.map >> BIT_CAP & 1,
        .pitch_cap_rad = n[BIT_CAP]};
    return c;
}

#endif
