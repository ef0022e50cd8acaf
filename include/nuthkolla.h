/* Nuthkolla: guidance of small unmanned planes, for a host in C.
 *
 * The host holds a guidance, a plain struct of 312 bytes, and runs calls on it. Every function answers every
 * value of its arguments. What a caller owes is C's own, and no proof covers it:
 *   - a pointer points to as many initialised bytes as its length says, and is not null even where that is 0;
 *   - a pointer to a guidance points to an initialised one, before NUTHKOLLA_NEW too (zeros will do);
 *   - what two pointers of one call point to does not overlap;
 *   - the stack has room, 2 kB, for nuthkolla_compact 3 kB and for nuthkolla_agree 6 kB (docs/HOST.md has the figures), and for
 *     what the C library takes to bind memcpy and memset where that is left to their first call (not with -z now);
 *   - one guidance is used from one thread at a time; two guidances can be used from two threads at once.
 * Nothing is allocated, no file or clock is read, no other memory is kept or changed. docs/ARCHITECTURE.md,
 * "What is proved and what is trusted", says the rest.
 *
 * Angles are radians, lengths metres, times seconds. North is x, east y, up z; right and nose up are
 * positive. Numbers are IEEE 754 binary32. Any NaN may come back as another NaN.
 *
 * Refusals, and 0 for none, in checking order:
 *  13  the caller lacks the right (the table of rights is below), before every other check, of a record's bytes too
 * 255  nuthkolla_run or nuthkolla_report was asked for something that it does not know
 * of a record, which is read whole before its call or configuration is judged:
 *   5  its map is cut short, or the place is past the end
 *   6  its map has an unnamed bit, lacks the kind bit, or has half a leg; a route's second map is empty
 *   5  it has fewer bytes than its map demands
 *   7  its kind is above 6, or its regime above 1
 * of a configuration:
 *   1  a field fails; `field` has its number
 * of a guide call:
 *   2  the time step is not finite or not above 0
 *   3  a waypoint's pitch cap is below 0 (-0 passes, NaN means no cap)
 *   4  a waypoint's pitch, thrust or a number it would store would not be finite
 * of a recording, after those of its records and its configuration:
 *   9  it has more than 4,096 calls
 * of a record that is converted, 15 after its 6 and before its 5, 8 at the end:
 * 255  the wanted edition is neither 1 nor 2
 *  15  the record is already of the wanted edition
 * of a drawn path:
 * 255  its call is no waypoint
 *   7  its regime is above 1
 *  12  the step count is 0 or above 600
 *   8  the buffer has fewer than 3 numbers a step
 * of a writer:
 *   7  a kind is above 6, or a regime above 1
 *   8  a buffer has too few bytes from the named place, or the place is past its end
 * of a route, each after the refusals of its record's map and before those of a guide call:
 *  10  its map is empty
 *  11  a number of its record is not finite
 * of a taking back:
 *  14  no change is left to take back
 * A refused call changes no guidance and no buffer.
 */
#ifndef NUTHKOLLA_H
#define NUTHKOLLA_H

#include <stddef.h>
#include <stdint.h>

#ifdef __cplusplus
extern "C" {
#endif

/* ---- configuration: 33 numbers, fields 1 to 33 in this order, each judged by itself; then two pairs: a least airspeed above the
 * greatest fails as field 34, a least thrust above the greatest as field 35. Equal ones pass. */

typedef struct nuthkolla_vec3 {
    float x, y, z;
} nuthkolla_vec3;

/* Fields 15 to 30: total energy control. */
typedef struct nuthkolla_tecs_config {
    float time_constant_s;               /* 15, above 0, finite */
    float max_climb_mps;                 /* 16, above 0, finite */
    float min_sink_mps;                  /* 17, above 0, finite */
    float max_sink_mps;                  /* 18, 0 or above, finite */
    float thrust_damping;                /* 19, 0 or above, finite */
    float integrator_gain;               /* 20, 0 or above, finite */
    float pitch_damping;                 /* 21, 0 or above, finite */
    float pitch_integrator_gain;         /* 22, 0 or above, finite */
    float speed_weight;                  /* 23, 0 to 2 */
    float roll_compensation;             /* 24, 0 or above, finite, m^2/s^3 */
    float min_airspeed_mps;              /* 25, above 0, finite */
    float max_airspeed_mps;              /* 26, above 0, finite; below the least: 34 */
    float underspeed_share;              /* 27, above 0, up to 1 */
    float height_demand_time_constant_s; /* 28, above 0, finite */
    float airspeed_rate_time_constant_s; /* 29, above 0, finite */
    float kinetic_rate_high_pass_s;      /* 30, above 0, finite */
} nuthkolla_tecs_config;

typedef struct nuthkolla_config {
    float max_bank_rad;            /* 1, 0 to pi/2 */
    float max_pitch_up_rad;        /* 2, 0 to pi/2 */
    float max_pitch_down_rad;      /* 3, 0 to pi/2, downward */
    nuthkolla_vec3 max_rate_radps; /* 4 to 6: roll, pitch, yaw; each 0 or above, finite */
    float trim_pitch_rad;          /* 7, -pi/2 to pi/2 */
    float cruise_thrust;           /* 8, 0 to 1 */
    float l1_period_s;             /* 9, above 0, finite */
    float l1_damping;              /* 10, above 0, finite */
    float loiter_radius_m;         /* 11, above 0, finite */
    float altitude_p;              /* 12, 0 or above, finite, rad/m */
    float altitude_i;              /* 13, 0 or above, finite, rad/(m s) */
    float altitude_max_integral;   /* 14, 0 or above, finite, m s */
    nuthkolla_tecs_config tecs;    /* 15 to 30 */
    float min_thrust;              /* 31, 0 to 1 */
    float max_thrust;              /* 32, 0 to 1; below the least: 35 */
    float climb_thrust_per_rad;    /* 33, 0 or above, finite */
} nuthkolla_config;

/* ---- guidance */

/* The energy state. Flags are 0 or not 0. Where `seeded` is 0 the demand, the filtered airspeed and the
 * steady acceleration are absent, whatever numbers stand there. */
typedef struct nuthkolla_tecs {
    uint32_t seeded;
    struct {
        float slewed_height_m, height_m, airspeed_mps;
    } demand;
    float pitch_integral_rad;
    float thrust_integral;
    uint32_t underspeed;
    float filtered_airspeed_mps;
    float steady_accel_mps2;
} nuthkolla_tecs;

/* A guidance is made by nuthkolla_run(.., NUTHKOLLA_NEW, ..) and changed by nuthkolla_run and nuthkolla_run_route
 * alone. It can be copied, stored and sent as bytes. Other initialised bytes in its place get defined answers too,
 * but none of what is proved about lists of calls holds for them. */
typedef struct nuthkolla_guidance {
    nuthkolla_config config;
    uint32_t requested; /* the regime of the last accepted guide call: 0 copter, not 0 plane */
    struct {
        float integral; /* m s */
    } altitude;
    nuthkolla_tecs tecs;
    struct {
        uint32_t kept;           /* 0: no change is left to take back */
        nuthkolla_config config; /* before the last accepted change; the default configuration where none is kept */
    } former;
} nuthkolla_guidance;

/* ---- callers */

/* Each call on a guidance or its route comes from one of these. A number above 2 has no right at all.
 *
 *                                   skipper  deckhand  watcher
 *   NUTHKOLLA_NEW                   yes      -         -
 *   NUTHKOLLA_CALL, guide or prime  yes      yes       -
 *   NUTHKOLLA_SET_CONFIG            yes      -         -
 *   NUTHKOLLA_TAKE_BACK             yes      -         -
 *   nuthkolla_load_route            yes      -         -
 *   nuthkolla_write_route           yes      -         -
 *   nuthkolla_run_route             yes      yes       -
 *   NUTHKOLLA_MODE                  yes      yes       yes
 *   NUTHKOLLA_STALL_GUARD           yes      yes       yes
 *   any other number                yes      -         -      (the skipper is then refused with 255)
 *
 * A call without the right is refused with 13 and changes no guidance, route, number or buffer. What is proved: of every list of
 * calls by any callers, the others answer as if the refused ones, or all that watchers sent, were not there. Whatever replays
 * records or draws a path acts as the skipper and takes no caller: nuthkolla_compact, nuthkolla_agree, nuthkolla_draw_path, the
 * desk program and the tools over it. The rest has neither guidance nor route, and so no right to ask for: nuthkolla_write_call,
 * nuthkolla_write_config, nuthkolla_read_config, nuthkolla_convert_record, nuthkolla_default_config, nuthkolla_validate. */
enum { NUTHKOLLA_SKIPPER = 0, NUTHKOLLA_DECKHAND = 1, NUTHKOLLA_WATCHER = 2 };

/* ---- calls on a guidance */

enum {
    NUTHKOLLA_CALL = 0,       /* bytes: a call record, a guide or prime call */
    NUTHKOLLA_SET_CONFIG = 1, /* bytes: a configuration record, which becomes the configuration */
    NUTHKOLLA_NEW = 2,        /* bytes: a configuration record, from which a fresh guidance is made */
    NUTHKOLLA_TAKE_BACK = 3   /* no bytes: the configuration before the last accepted change is in force again */
};

enum { NUTHKOLLA_NO_SETPOINT = 0, NUTHKOLLA_PLANE = 1, NUTHKOLLA_PLANE_RATE = 2 };
enum { NUTHKOLLA_TRACK = 1, NUTHKOLLA_LOITER = 2, NUTHKOLLA_IDLE = 3 };
enum { NUTHKOLLA_ENERGY = 1, NUTHKOLLA_HOLD = 2, NUTHKOLLA_FALLBACK = 3 };
enum { NUTHKOLLA_UNKNOWN = 255 };

typedef struct nuthkolla_answer {
    uint32_t refusal;  /* 0, or the refusal's number */
    uint32_t field;    /* of refusal 1 the failing field's number, 1 to 35, else 0 */
    uint32_t setpoint; /* 0 none, 1 plane setpoint, 2 plane rate setpoint */
    uint32_t lateral;  /* of a waypoint 1 track, 2 loiter, 3 idle (a leg of length up to 1e-6, or a ground speed below 1.0 or NaN);
                          else 0 */
    uint32_t vertical; /* of a waypoint 1 energy, 2 hold, 3 fallback; else 0 */
    float roll;        /* rad; of a plane rate setpoint rad/s */
    float pitch;       /* rad; of a plane rate setpoint rad/s */
    float yaw;         /* 0; of a plane rate setpoint rad/s */
    float thrust;      /* 0 to 1 */
    float cross_track_m; /* of a waypoint the distance off its line, the leg or the loiter's tangent: m, right positive; may be
                            infinite or NaN; +0 where it is idle or within 1e-3 m of a loiter's centre; with a finite offset from the
                            waypoint a zero too where the leg's or, of a loiter, the offset's length overflows; else 0 */
    size_t next;       /* the place after the record; 0 where no record was read (refusals 13, 5, 6, 7, 255; a taking back) */
} nuthkolla_answer;

/* Runs one call on the host's guidance, by a caller: refusal 13 first. `bytes` is one record, read from its first byte; bytes behind it are
 * not read, and `next` says where it ended.
 *   NUTHKOLLA_CALL        refusals 5, 6, 7 of the record; then 2, 3, 4 of a guide call. A prime answers without
 *                         a setpoint. A guide call answers a setpoint, a waypoint its two laws too.
 *   NUTHKOLLA_SET_CONFIG  refusals 5, 6 of the record; then 1 with its field. Integrals and demands are kept, and
 *                         the configuration that was in force, to be taken back.
 *   NUTHKOLLA_NEW         the same refusals; otherwise the guidance becomes a fresh one, whatever it was. It is
 *                         read before, and kept where it is refused, so it has to be initialised:
 *                         nuthkolla_guidance guidance = {0};
 *   NUTHKOLLA_TAKE_BACK   no byte is read. Refusal 14 where no change is left to take back; otherwise the
 *                         configuration before the last accepted change is in force again and is forgotten;
 *                         integrals and demands are kept.
 *   any other number      refusal 255
 * What is proved: the answer and the whole guidance afterwards, for every input, equal the definitions that
 * docs/HOST.md names; and of every list of callers, numbers and bytes that is run on a guidance from an accepted
 * NUTHKOLLA_NEW up to the next one, the owner's demand 3. */
nuthkolla_answer nuthkolla_run(nuthkolla_guidance *guidance, uint32_t caller, uint32_t what, const uint8_t *bytes, size_t length);

/* ---- reports of a guidance */

enum {
    NUTHKOLLA_MODE = 0,       /* the mode, which is always plane: 0, or 1 where the requested regime, copter, is unsupported */
    NUTHKOLLA_STALL_GUARD = 1 /* 1 where the stall guard stands, else 0. It is why thrust is at its top: while it stands after an
                                 energy step, that step's thrust equals the top of its span */
};

typedef struct nuthkolla_reported {
    uint32_t refusal; /* 0, or 13, then 255 */
    uint32_t value;   /* what the report says; 0 where it is refused */
} nuthkolla_reported;

/* Reads a report. The guidance is passed by value, so that the caller's is not changed. */
nuthkolla_reported nuthkolla_report(nuthkolla_guidance guidance, uint32_t caller, uint32_t what);

/* ---- records */

/* The greatest length of a record. */
enum { NUTHKOLLA_CALL_BYTES = 86, NUTHKOLLA_CONFIG_BYTES = 137 };

/* Kinds of a call. */
enum {
    NUTHKOLLA_PRIME = 0,
    NUTHKOLLA_ATTITUDE = 1,          /* sticks: first roll, second pitch (-1 to 1), third throttle (0 to 1) */
    NUTHKOLLA_RATE = 2,              /* sticks: first roll, second pitch, third yaw rate (-1 to 1), fourth throttle */
    NUTHKOLLA_WAYPOINT = 3,          /* the fields from waypoint_north_m on */
    NUTHKOLLA_ABSOLUTE_ATTITUDE = 4, /* first roll rad, second pitch rad, third thrust */
    NUTHKOLLA_LAND = 5,
    NUTHKOLLA_ABSOLUTE_RATE = 6      /* first roll, second pitch, third yaw rad/s, fourth thrust */
};

/* A call as numbers. What the kind does not use is not read. Flags are 0 or not 0. */
typedef struct nuthkolla_call {
    uint32_t kind;   /* 0 to 6 */
    uint32_t regime; /* 0 copter, 1 plane; unused by a prime, but above 1 refused */
    float dt;        /* time step, s */
    float first, second, third, fourth;
    float waypoint_north_m, waypoint_east_m;
    uint32_t has_leg; /* with a leg the line through the waypoint is flown, without one a loiter around it */
    float leg_north_mps, leg_east_mps;
    float altitude_m;
    float cruise_speed_mps; /* the airspeed to hold; 0 or below for none */
    nuthkolla_vec3 position_m, velocity_mps;
    float roll_rad;
    uint32_t has_airspeed;
    float airspeed_mps;
    uint32_t has_cap;
    float pitch_cap_rad; /* pitch is held within it either way */
} nuthkolla_call;

typedef struct nuthkolla_place {
    uint32_t refusal; /* 0, or the refusal's number */
    size_t next;      /* the place after the record; 0 where it was refused */
} nuthkolla_place;

typedef struct nuthkolla_config_read {
    uint32_t refusal;
    size_t next;
    nuthkolla_config config; /* the default configuration where it was refused */
} nuthkolla_config_read;

/* Writes a call's record into `out` from the place `at` on; other bytes are kept. Refusal 7 for a kind above 6
 * or a regime above 1, then 8. */
nuthkolla_place nuthkolla_write_call(uint8_t *out, size_t length, size_t at, nuthkolla_call call);

/* Writes a configuration's record likewise, whether its numbers pass or not. Refusal 8. */
nuthkolla_place nuthkolla_write_config(uint8_t *out, size_t length, size_t at, nuthkolla_config config);

/* Reads a configuration's record from the place `at` on, without judging its numbers. Refusals 5, 6. */
nuthkolla_config_read nuthkolla_read_config(const uint8_t *bytes, size_t length, size_t at);

/* ---- routes */

/* A route has up to 62 points. Its record is a 4-byte map, bits 0 to 30, whose bit 31 says that a second 4-byte map follows it, for 31
 * more points; then 16 bytes for each standing point: north, east, altitude, cruise speed. Standing points are numbered from 1 in bit
 * order, those of the second map after those of the first. The host holds the two maps as one, bits 31 to 61 of it being bits 0 to 30
 * of the second, and the number, and lends the points' numbers, four a point, so that a call copies none of them. */
enum { NUTHKOLLA_ROUTE_BYTES = 1000, NUTHKOLLA_ROUTE_NUMBERS = 248 };

typedef struct nuthkolla_route {
    uint64_t map;    /* 0: no route is loaded */
    uint32_t number; /* of the point that is flown to, from 1 to one past the last; 0 counts as 1, more than that as that */
    float numbers[NUTHKOLLA_ROUTE_NUMBERS];
} nuthkolla_route;

typedef struct nuthkolla_route_loaded {
    uint32_t refusal; /* 0, or the refusal's number; then all else is 0 */
    uint32_t number;  /* 1 */
    uint64_t map;
    size_t next; /* the place after the record */
} nuthkolla_route_loaded;

/* A route call as numbers: the route's map and number, and what comes with the call. Flags are 0 or not 0. */
typedef struct nuthkolla_route_call {
    uint64_t map;
    uint32_t number;
    uint32_t regime; /* 0 copter, 1 plane */
    float dt;        /* time step, s */
    nuthkolla_vec3 position_m, velocity_mps;
    float roll_rad;
    uint32_t has_airspeed;
    float airspeed_mps;
    uint32_t has_cap;
    float pitch_cap_rad;
} nuthkolla_route_call;

typedef struct nuthkolla_route_answer {
    nuthkolla_answer answer; /* its `next` is 0 */
    uint32_t number;         /* the route's number after the call, which the host keeps */
} nuthkolla_route_answer;

/* Loads a route's record from the place `at` on: its numbers go to the front of `numbers`, the others are kept. Refusals, in this
 * order: 13; 5 for a map cut short; 6 for a second map with bit 31 or with no bit, 10 where there is no second map and the first is empty;
 * 5 for fewer bytes than the maps demand, 11, 8 for too few `numbers`. A refused loading changes none of them. */
nuthkolla_route_loaded nuthkolla_load_route(
    uint32_t caller, const uint8_t *bytes, size_t length, size_t at, float *numbers, size_t count);

/* One route call on the host's guidance: moves on by one point where the point is passed, then flies to the point reached.
 * Refusals: 13; 7 for a regime above 1, 6 for bit 62 or 63 of the map, 10, 5 for fewer `numbers` than the map demands; then 2, 3, 4 of
 * the guide call. A refused call keeps guidance and number. What is proved of lists of calls is in docs/HOST.md. */
nuthkolla_route_answer nuthkolla_run_route(
    nuthkolla_guidance *guidance, uint32_t caller, nuthkolla_route_call call, const float *numbers, size_t count);

/* Writes a route's record into `out` from the place `at` on; other bytes are kept. Refusals 13, 6, 10, 5, then 8. There is a second map
 * only where one of its bits stands. Of a route that was loaded these are the bytes that were read. */
nuthkolla_place nuthkolla_write_route(
    uint32_t caller, uint8_t *out, size_t length, size_t at, uint64_t map, const float *numbers, size_t count);

/* ---- recordings: a configuration's record and the records of up to 4,096 calls */

typedef struct nuthkolla_compaction {
    uint32_t refusal; /* 0, or the refusal's number: 5, 6, 7 of a record, 1 of the configuration, 9 for more than 4,096 calls */
    uint32_t field;   /* of refusal 1 the failing field's number, else 0 */
    uint32_t call;    /* the number, from 1, of the call whose record was refused; 0 for the configuration's */
    size_t length;    /* the new length; 0 where the recording was refused */
} nuthkolla_compaction;

/* Compacts a recording, all `length` bytes, in place: drops every refused call, and every hold unless the last
 * accepted guide or prime call before it was a fallback, closes the gaps and clears the bytes past the new length.
 * Records that stay keep their bytes, and replaying them gives each call its answer again. A recording that is
 * refused is kept: the refusal is the first that the desk program would meet. */
nuthkolla_compaction nuthkolla_compact(uint8_t *bytes, size_t length);

/* Whose recording was refused. */
enum { NUTHKOLLA_BOX = 1, NUTHKOLLA_DISPLAY = 2 };

typedef struct nuthkolla_agreed {
    uint32_t agree;        /* 1: they tell one story; else 0 */
    uint32_t box_call;     /* where they part: the number, from 1, of the first remaining call at which call values part, in the box's */
    uint32_t display_call; /* and in the display's; 0 in both: the configurations part; 0 in one: no such call is left in it */
    uint32_t whose;        /* 0, or whose recording was refused; all above is then 0 */
    uint32_t refusal;      /* what refused it: refusal, field and call as nuthkolla_compact would give them */
    uint32_t field;
    uint32_t call;
} nuthkolla_agreed;

/* Holds the box's recording and the display's together, each without the calls that nuthkolla_compact would drop. Configurations and
 * call values are held equal as bits, every NaN alike, whatever map spelled them. Where both are refused, the box's refusal is given.
 * Of recordings that agree the remaining calls have equal answers in both replays. */
nuthkolla_agreed nuthkolla_agree(const uint8_t *box_bytes, size_t box_length, const uint8_t *display_bytes, size_t display_length);

/* ---- editions: in the second edition of the call record bit 22 stands with no field, and altitude, position z and velocity z,
 * where they stand, have their sign bit flipped: down is positive. No other function knows that bit: it is refused with 6. */

typedef struct nuthkolla_conversion {
    uint32_t refusal; /* 0, or the refusal's number: 255, 5, 6, 15, 5, 7, 8 in checking order */
    size_t read;      /* the place after the record that was read; 0 where there is a refusal */
    size_t written;   /* the place after the record that was written; 0 where there is a refusal */
} nuthkolla_conversion;

/* Converts the call record at place `at` of `bytes` to the wanted edition, 1 or 2, and writes it by the writer's rules at place
 * `place` of `out`, whose other bytes are kept. It has at most NUTHKOLLA_CALL_BYTES in either edition. Going and coming back gives
 * the same call, bit for bit, every NaN as one. */
nuthkolla_conversion nuthkolla_convert_record(
    const uint8_t *bytes, size_t length, size_t at, uint32_t edition, uint8_t *out, size_t out_length, size_t place);

/* ---- the turn to come */

enum { NUTHKOLLA_PATH_STEPS = 600 };

typedef struct nuthkolla_path {
    uint32_t refusal; /* 0, or the refusal's number: nothing is drawn */
    uint32_t reason;  /* of the step that stopped: its refusal (2, 3, 4), 0 for a number that is not finite */
    size_t drawn;     /* how many points were drawn */
    size_t stopped;   /* 0, or the step at which the path stopped, counted from 1 */
} nuthkolla_path;

/* Draws the path of a waypoint call: the guidance repeated over a simple plane, a point for each of `steps` steps (1 to 600).
 * A point is three numbers, north, east and height in metres, one after the other in `out`; `length` counts its floats. The path
 * stops at the first step that is refused, or whose position or velocity is not finite: nothing is drawn for it. Numbers of
 * `out` behind the last point are kept, and so are all where the path is refused (255, 7, 12, 8, in this order). The guidance is
 * passed by value, so that the caller's is not changed; it can be the one that nuthkolla_run is about to get this call on, and
 * the first point then starts from that call's own answer. */
nuthkolla_path nuthkolla_draw_path(nuthkolla_guidance guidance, nuthkolla_call call, size_t steps, float *out, size_t length);

/* ---- without a guidance or a record */

nuthkolla_config nuthkolla_default_config(void);

/* 0, or the number of the first field that fails, 1 to 35. */
uint32_t nuthkolla_validate(nuthkolla_config config);

#ifdef __cplusplus
}
#endif

#endif
