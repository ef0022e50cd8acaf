/* Runs a list of tools/oracle with routes through the archive, and prints the oracle's lines.
 *     route < INPUT             all by the skipper
 *     route callers < INPUT     a list of calls by callers */
#include "lines.h"

#include <stdlib.h>

static uint8_t input[1 << 26];
static nuthkolla_route route;
static nuthkolla_guidance guidance;
static uint32_t caller = NUTHKOLLA_SKIPPER;

static uint32_t half(const uint8_t *p) { return p[0] | (uint32_t)p[1] << 8; }
static uint32_t word(const uint8_t *p) { return half(p) | half(p + 2) << 16; }

static float number(const uint8_t *p)
{
    uint32_t n = word(p);
    float x;
    memcpy(&x, &n, 4);
    return x;
}

static void print_state(unsigned long n)
{
    const nuthkolla_tecs *t = &guidance.tecs;
    printf("%lu point %u state %u %08x %u %08x %08x %08x %08x %08x %08x %08x %u", n, route.number, guidance.requested != 0,
        bits(guidance.altitude.integral), t->seeded != 0, bits(t->demand.slewed_height_m), bits(t->demand.height_m),
        bits(t->demand.airspeed_mps), bits(t->filtered_airspeed_mps), bits(t->steady_accel_mps2), bits(t->pitch_integral_rad),
        bits(t->thrust_integral), t->underspeed != 0);
}

/* A sum of numbers' bits, so that a line shows whether they changed. */
static uint32_t sum(const void *numbers, size_t count)
{
    uint32_t found = 0;
    for (size_t i = 0; i < count; i++)
        found = found * 16777619u + word((const uint8_t *)numbers + 4 * i);
    return found;
}

/* What else a call by a caller must keep: the settings and the route. */
static void print_held(void)
{
    size_t fields = sizeof(nuthkolla_config) / 4, points = (size_t)__builtin_popcountll(route.map);
    printf(" %u %08x %08x %llx %08x", guidance.former.kept != 0, sum(&guidance.config, fields), sum(&guidance.former.config, fields),
        (unsigned long long)route.map, sum(route.numbers, 4 * points));
}

/* A number of nuthkolla_run; the bytes that its record has. */
static size_t run(unsigned long n, uint32_t what, const uint8_t *p, size_t length)
{
    static const char *const done[] = {"", "set", "new", "back"};
    nuthkolla_answer a = nuthkolla_run(&guidance, caller, what, p, length);
    if (what == NUTHKOLLA_CALL)
        print_answer(stdout, n, &a);
    else if (a.refusal == 1)
        printf("%lu refused 1 %u\n", n, a.field);
    else if (a.refusal != 0)
        printf("%lu refused %u\n", n, a.refusal);
    else
        printf("%lu %s\n", n, done[what]);
    return a.next;
}

static void report(unsigned long n, uint32_t what, const char *name)
{
    nuthkolla_reported r = nuthkolla_report(guidance, caller, what);
    printf("%lu %s %u\n", n, r.refusal == 0 ? name : "refused", r.refusal == 0 ? r.value : r.refusal);
}

static void load(unsigned long n, const uint8_t *p, size_t length)
{
    nuthkolla_route_loaded l = nuthkolla_load_route(caller, p, length, 0, route.numbers, NUTHKOLLA_ROUTE_NUMBERS);
    if (l.refusal != 0) {
        printf("%lu refused %u\n", n, l.refusal);
        return;
    }
    route.map = l.map;
    route.number = l.number;
    printf("%lu loaded %016llx %zu\n", n, (unsigned long long)l.map, l.next);
}

static void fly(unsigned long n, const uint8_t *p)
{
    nuthkolla_route_call c = {.map = route.map, .number = route.number, .regime = word(p), .dt = number(p + 4)};
    c.position_m = (nuthkolla_vec3){number(p + 8), number(p + 12), number(p + 16)};
    c.velocity_mps = (nuthkolla_vec3){number(p + 20), number(p + 24), number(p + 28)};
    c.roll_rad = number(p + 32);
    c.has_airspeed = word(p + 36);
    c.airspeed_mps = number(p + 40);
    c.has_cap = word(p + 44);
    c.pitch_cap_rad = number(p + 48);
    nuthkolla_route_answer a = nuthkolla_run_route(&guidance, caller, c, route.numbers, NUTHKOLLA_ROUTE_NUMBERS);
    route.number = a.number;
    print_answer(stdout, n, &a.answer);
}

static void write_out(unsigned long n, size_t length, size_t at)
{
    static uint8_t out[1 << 16];
    memset(out, 0xa5, sizeof out);
    nuthkolla_place done = nuthkolla_write_route(caller, out, length, at, route.map, route.numbers, NUTHKOLLA_ROUTE_NUMBERS);
    if (done.refusal == 0)
        printf("%lu written %zu ", n, done.next);
    else
        printf("%lu refused %u ", n, done.refusal);
    for (size_t i = 0; i < length; i++)
        printf("%02x", out[i]);
    printf("\n");
}

/* An entry, from its tag on; the bytes behind the tag that belong to it. */
static size_t entry(unsigned long n, const uint8_t *p, size_t left)
{
    switch (p[-1]) {
    case 0:
        return run(n, NUTHKOLLA_CALL, p, left);
    case 1:
        return run(n, NUTHKOLLA_SET_CONFIG, p, left);
    case 2:
        return run(n, NUTHKOLLA_TAKE_BACK, p, 0);
    case 3:
        load(n, p + 2, half(p));
        return 2 + half(p);
    case 4:
        fly(n, p);
        return 52;
    case 5:
        write_out(n, half(p), half(p + 2));
        return 4;
    case 6:
        report(n, NUTHKOLLA_MODE, "mode");
        return 0;
    case 7:
        report(n, NUTHKOLLA_STALL_GUARD, "guard");
        return 0;
    case 8:
        return run(n, NUTHKOLLA_NEW, p, left);
    default:
        return run(n, 4, p, left);
    }
}

/* Each entry after its caller and its length. */
static void run_callers(size_t length)
{
    nuthkolla_run(&guidance, NUTHKOLLA_SKIPPER, NUTHKOLLA_NEW, input + 2, half(input));
    size_t place = 2 + half(input);
    for (unsigned long n = 1; place < length; n++) {
        size_t size = half(input + place + 1);
        caller = input[place];
        entry(n, input + place + 4, size - 1);
        place += 3 + size;
        print_state(n);
        print_held();
        printf("\n");
    }
}

int main(int count, char **words)
{
    size_t length = fread(input, 1, sizeof input, stdin);
    if (count > 1 && strcmp(words[1], "callers") == 0) {
        run_callers(length);
        return 0;
    }
    nuthkolla_answer made = nuthkolla_run(&guidance, NUTHKOLLA_SKIPPER, NUTHKOLLA_NEW, input, length);
    if (made.refusal != 0) {
        printf("config %s\n", made.refusal == 1 ? "refused" : "stopped");
        return 0;
    }
    size_t place = made.next;
    for (unsigned long n = 1; place < length; n++) {
        place += 1;
        place += entry(n, input + place, length - place);
        print_state(n);
        printf("\n");
    }
    return 0;
}
