/* The greatest stack use of every function of the header over a recording, held to the bound that the header names: each call runs on
 * a stack of its own whose bytes were set before, and the bytes that changed are counted, less those of a call that does nothing.
 *     stack < RECORDING
 * Linked with -z now, so that no symbol is bound on that stack. Prints a line for each function, its name first; fails where one
 * passes its bound, or was refused at every call. */
#define _GNU_SOURCE
#include "nuthkolla.h"
#include "records.h"

#include <stdio.h>
#include <stdlib.h>
#include <ucontext.h>

enum { ROOM = 1 << 15, MARK = 0x5a, STEPS = 20 };

/* The header's bounds: 2 kB, and more for two functions. */
enum { REST = 2048, OF_COMPACT = 3072, OF_AGREE = 6144 };

/* What is passed and what comes back, apart from the stack that is measured. */
static uint8_t input[1 << 22], copy[sizeof input], out[NUTHKOLLA_ROUTE_BYTES];
static const uint8_t *from;
static size_t length, count;
static uint32_t what, refusal;
static nuthkolla_guidance guidance, flies;
static nuthkolla_config config;
static nuthkolla_call call;
static nuthkolla_answer answer;
static nuthkolla_compaction compaction;
static nuthkolla_route route;
static nuthkolla_route_call route_call;
static float points[3 * STEPS];

static void nothing(void) {}
static void run(void) { answer = nuthkolla_run(&guidance, NUTHKOLLA_SKIPPER, what, from, count), refusal = answer.refusal; }
static void report(void) { refusal = nuthkolla_report(guidance, NUTHKOLLA_SKIPPER, what).refusal; }
static void write_call(void) { refusal = nuthkolla_write_call(out, sizeof out, 0, call).refusal; }
static void write_config(void) { refusal = nuthkolla_write_config(out, sizeof out, 0, config).refusal; }
static void read_config(void) { refusal = nuthkolla_read_config(from, count, 0).refusal; }
static void validate(void) { refusal = nuthkolla_validate(config); }
static void default_config(void) { config = nuthkolla_default_config(), refusal = 0; }
static void convert(void) { refusal = nuthkolla_convert_record(from, count, 0, what, out, sizeof out, 0).refusal; }
static void draw(void) { refusal = nuthkolla_draw_path(guidance, call, STEPS, points, 3 * STEPS).refusal; }
static void compact(void) { compaction = nuthkolla_compact(copy, length), refusal = compaction.refusal; }
static void agree(void) { refusal = nuthkolla_agree(input, length, copy, count).refusal; }

static void load_route(void)
{
    refusal = nuthkolla_load_route(NUTHKOLLA_SKIPPER, out, sizeof out, 0, route.numbers, NUTHKOLLA_ROUTE_NUMBERS).refusal;
}

static void run_route(void)
{
    refusal = nuthkolla_run_route(&flies, NUTHKOLLA_SKIPPER, route_call, route.numbers, NUTHKOLLA_ROUTE_NUMBERS).answer.refusal;
}

static void write_route(void)
{
    refusal =
        nuthkolla_write_route(NUTHKOLLA_SKIPPER, out, sizeof out, 0, route.map, route.numbers, NUTHKOLLA_ROUTE_NUMBERS).refusal;
}

/* A row for each function; of nuthkolla_run one for each number that it takes, from RUN on. */
enum { RUN, REPORT = RUN + NUTHKOLLA_TAKE_BACK + 1, WRITE_CALL, WRITE_CONFIG, READ_CONFIG, LOAD_ROUTE, RUN_ROUTE, WRITE_ROUTE, COMPACT,
    AGREE, CONVERT, DRAW, DEFAULT, VALIDATE, ROWS };

static struct {
    const char *name;
    void (*runs)(void);
    size_t bound, most;
    unsigned long accepted;
} rows[ROWS] = {
    [RUN + NUTHKOLLA_CALL] = {"nuthkolla_run (NUTHKOLLA_CALL)", run, REST, 0, 0},
    [RUN + NUTHKOLLA_SET_CONFIG] = {"nuthkolla_run (NUTHKOLLA_SET_CONFIG)", run, REST, 0, 0},
    [RUN + NUTHKOLLA_NEW] = {"nuthkolla_run (NUTHKOLLA_NEW)", run, REST, 0, 0},
    [RUN + NUTHKOLLA_TAKE_BACK] = {"nuthkolla_run (NUTHKOLLA_TAKE_BACK)", run, REST, 0, 0},
    [REPORT] = {"nuthkolla_report", report, REST, 0, 0},
    [WRITE_CALL] = {"nuthkolla_write_call", write_call, REST, 0, 0},
    [WRITE_CONFIG] = {"nuthkolla_write_config", write_config, REST, 0, 0},
    [READ_CONFIG] = {"nuthkolla_read_config", read_config, REST, 0, 0},
    [LOAD_ROUTE] = {"nuthkolla_load_route", load_route, REST, 0, 0},
    [RUN_ROUTE] = {"nuthkolla_run_route", run_route, REST, 0, 0},
    [WRITE_ROUTE] = {"nuthkolla_write_route", write_route, REST, 0, 0},
    [COMPACT] = {"nuthkolla_compact", compact, OF_COMPACT, 0, 0},
    [AGREE] = {"nuthkolla_agree", agree, OF_AGREE, 0, 0},
    [CONVERT] = {"nuthkolla_convert_record", convert, REST, 0, 0},
    [DRAW] = {"nuthkolla_draw_path", draw, REST, 0, 0},
    [DEFAULT] = {"nuthkolla_default_config", default_config, REST, 0, 0},
    [VALIDATE] = {"nuthkolla_validate", validate, REST, 0, 0},
};

static size_t used(void (*runs)(void))
{
    static uint8_t stack[ROOM];
    static ucontext_t back, there;
    memset(stack, MARK, ROOM);
    getcontext(&there);
    there.uc_stack.ss_sp = stack;
    there.uc_stack.ss_size = ROOM;
    there.uc_link = &back;
    makecontext(&there, runs, 0);
    swapcontext(&back, &there);
    size_t free_bytes = 0;
    while (free_bytes < ROOM && stack[free_bytes] == MARK)
        free_bytes++;
    return ROOM - free_bytes;
}

static void measure(int row)
{
    size_t n = used(rows[row].runs) - used(nothing);
    rows[row].most = n > rows[row].most ? n : rows[row].most;
    rows[row].accepted += refusal == 0;
}

static void measure_run(uint32_t number)
{
    what = number;
    measure(RUN + (int)number);
}

/* A change of the configuration by the recording's own record, its taking back, and what takes a configuration or its record. */
static void measure_configuration(void)
{
    from = input;
    count = length;
    measure_run(NUTHKOLLA_SET_CONFIG);
    measure_run(NUTHKOLLA_TAKE_BACK);
    measure(READ_CONFIG);
    measure(DEFAULT);
    config = guidance.config;
    measure(WRITE_CONFIG);
    measure(VALIDATE);
}

/* A route of 62 points, written, loaded and flown with the sensors of each call. */
static void make_route(void)
{
    route.map = ((uint64_t)1 << NUTHKOLLA_ROUTE_NUMBERS / 4) - 1;
    for (int i = 0; i < NUTHKOLLA_ROUTE_NUMBERS; i++)
        route.numbers[i] = i % 4 == 3 ? 18 : (float)(i % 7 * 50);
    measure(WRITE_ROUTE);
    measure(LOAD_ROUTE);
}

static void measure_route_call(uint32_t number)
{
    nuthkolla_route_call c = {.map = route.map, .number = number, .regime = 1, .dt = 0.1f, .position_m = call.position_m,
        .velocity_mps = call.velocity_mps, .roll_rad = call.roll_rad, .has_airspeed = call.has_airspeed,
        .airspeed_mps = call.airspeed_mps, .has_cap = call.has_cap, .pitch_cap_rad = call.pitch_cap_rad};
    route_call = c;
    flies = guidance;
    measure(RUN_ROUTE);
}

/* A call of the recording, and what takes a call or its record. */
static size_t measure_call(uint32_t number)
{
    measure_run(NUTHKOLLA_CALL);
    if (answer.next == 0)
        return 0;
    size_t next = answer.next;
    call = call_of(from);
    measure(WRITE_CALL);
    if (call.kind == NUTHKOLLA_WAYPOINT)
        measure(DRAW);
    measure_route_call(1 + number % 63);
    what = number % 2 ? NUTHKOLLA_MODE : NUTHKOLLA_STALL_GUARD;
    measure(REPORT);
    what = 2;
    measure(CONVERT);
    return next;
}

static int print_rows(void)
{
    int wrong = 0;
    for (int i = 0; i < ROWS; i++) {
        printf("%s: %zu bytes of stack, of %zu\n", rows[i].name, rows[i].most, rows[i].bound);
        if (rows[i].most > rows[i].bound || rows[i].accepted == 0) {
            printf("%s: passes its bound, or was refused at every call\n", rows[i].name);
            wrong = 1;
        }
    }
    return wrong;
}

int main(void)
{
    length = fread(input, 1, sizeof input, stdin);
    from = input;
    count = length;
    measure_run(NUTHKOLLA_NEW);
    make_route();
    size_t next = answer.next;
    for (uint32_t number = 1; next != 0 && count > next; number++) {
        from += next;
        count -= next;
        next = measure_call(number);
    }
    measure_configuration();
    memcpy(copy, input, length);
    measure(AGREE);
    measure(COMPACT);
    count = compaction.length;
    measure(AGREE);
    return print_rows();
}
