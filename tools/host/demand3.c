/* Demand 3 run on the archive: document 01, "Guidance", checked on lists of guide, prime, set-configuration and take-back calls.
 *     demand3 [--plant FAULT] < LISTS
 * LISTS: `oracle generate-many KIND SEED INPUTS CALLS list`. Of each list are checked
 *   struck    without the struck calls, each remaining call gives its whole first answer again
 *   fresh     after each prime and each accepted command other than a waypoint, every call that follows is answered as by a fresh
 *             guidance with the configuration in force and the kept one, refusal numbers too
 *   limits    each accepted waypoint answer, by the configuration in force and underspeed worked out from the calls
 *   guard     the stall guard's report after each call, by the latest energy step that tells (document 02, K12)
 * bit for bit, every NaN alike. A pass is a list of which all of this holds. A planted fault must make lists fail: see `plants`. */
#include "lines.h"
#include "records.h"

#include <math.h>
#include <stdlib.h>

enum { MOST_CALLS = 4096 };

typedef struct entry {
    uint32_t what;
    const uint8_t *bytes;
    size_t length;
    nuthkolla_call call;     /* of a guide or prime call */
    nuthkolla_answer answer; /* in the list as first run */
    uint32_t law;            /* of a waypoint the vertical law that its numbers make it, else 0 */
    nuthkolla_config config; /* in force after the call */
    int kept;                /* whether a change can be taken back after it, and the configuration before that change */
    nuthkolla_config former;
    int underspeed, struck;
    uint32_t report;         /* the stall guard's, after the call */
} entry;

static uint8_t input[1 << 20]; /* a list of MOST_CALLS calls has fewer bytes */
static entry entries[MOST_CALLS];
static unsigned long list_number;
static unsigned long calls, struck, repeated, starts, beside_fresh, checked[4], full_thrust, guarded;

/* Faults of the guidance (trace, prime, full, forget, guard) and of this program (strike, narrow). */
static const char *const plants[] = {"none", "trace", "prime", "full", "forget", "guard", "strike", "narrow"};
enum { NONE, TRACE, PRIME, FULL, FORGET, GUARD, STRIKE, NARROW, PLANTS };

/* A list's byte for a taking back, which has no record. */
enum { BACK = 2 };
static int plant;

static int failed(size_t at, const char *what)
{
    static int told;
    if (told++ < 3) {
        printf("list %lu, call %zu: %s; first answer: ", list_number, at + 1, what);
        print_answer(stdout, at + 1, &entries[at].answer);
    }
    return 0;
}

static nuthkolla_answer perform(nuthkolla_guidance *g, const entry *e)
{
    float integral = g->tecs.thrust_integral;
    nuthkolla_answer a = nuthkolla_run(g, NUTHKOLLA_SKIPPER, e->what, e->bytes, e->length);
    if (plant == TRACE && a.refusal != 0)
        g->tecs.thrust_integral += 0.125f;
    if (plant == PRIME && e->what == NUTHKOLLA_CALL && e->bytes[4] == NUTHKOLLA_PRIME)
        g->tecs.thrust_integral = integral;
    if (plant == FORGET && e->what == NUTHKOLLA_CALL && e->bytes[4] == NUTHKOLLA_PRIME)
        g->former.kept = 0;
    if (plant == FULL && a.vertical == NUTHKOLLA_ENERGY && g->tecs.underspeed != 0)
        a.thrust *= 0.75f;
    return a;
}

static int same(const nuthkolla_answer *a, const nuthkolla_answer *b)
{
    return a->refusal == b->refusal && a->field == b->field && a->setpoint == b->setpoint && a->lateral == b->lateral
        && a->vertical == b->vertical && bits(a->roll) == bits(b->roll) && bits(a->pitch) == bits(b->pitch)
        && bits(a->yaw) == bits(b->yaw) && bits(a->thrust) == bits(b->thrust)
        && bits(a->cross_track_m) == bits(b->cross_track_m);
}

/* ---- what a call is, by its own numbers */

static int accepted(const entry *e) { return e->answer.refusal == 0; }
static int is_call(const entry *e) { return e->what == NUTHKOLLA_CALL; }
static int is_waypoint(const entry *e) { return is_call(e) && e->call.kind == NUTHKOLLA_WAYPOINT; }

static uint32_t vertical_law(const nuthkolla_call *c)
{
    if (!(c->cruise_speed_mps > 0 && c->has_airspeed && c->airspeed_mps >= 0))
        return NUTHKOLLA_FALLBACK;
    int finite = isfinite(c->altitude_m) && isfinite(c->cruise_speed_mps) && isfinite(c->airspeed_mps)
        && isfinite(c->position_m.z) && isfinite(c->velocity_mps.z);
    return finite ? NUTHKOLLA_ENERGY : NUTHKOLLA_HOLD;
}

static float length(float x, float y) { return sqrtf(x * x + y * y); }

/* Idle by document 02's words, else track with a finite leg. */
static uint32_t lateral_law(const nuthkolla_call *c)
{
    int leg = c->has_leg && isfinite(c->leg_north_mps) && isfinite(c->leg_east_mps);
    float speed = length(c->velocity_mps.x, c->velocity_mps.y);
    if ((leg && length(c->leg_north_mps, c->leg_east_mps) <= 1e-6f) || speed < 1 || isnan(speed))
        return NUTHKOLLA_IDLE;
    return leg ? NUTHKOLLA_TRACK : NUTHKOLLA_LOITER;
}

/* Underspeed after an accepted call. */
static int underspeed_after(const entry *e, int before)
{
    if (!is_call(e) || e->law == NUTHKOLLA_HOLD)
        return before;
    if (e->law != NUTHKOLLA_ENERGY)
        return 0;
    const nuthkolla_tecs_config *t = &e->config.tecs;
    if (e->call.airspeed_mps < t->underspeed_share * t->min_airspeed_mps)
        return 1;
    return e->call.airspeed_mps >= t->min_airspeed_mps ? 0 : before;
}

/* ---- the list as first run */

/* Reads the list and runs it; the number of its calls, or 0 if its configuration is refused, a record cannot be read or it is too
 * long. */
static size_t first_run(const uint8_t *list, size_t length)
{
    nuthkolla_guidance g = {0};
    nuthkolla_answer made = nuthkolla_run(&g, NUTHKOLLA_SKIPPER, NUTHKOLLA_NEW, list, length);
    nuthkolla_config config = nuthkolla_read_config(list, length, 0).config, former = config;
    int underspeed = 0, kept = 0;
    size_t n = 0, place = made.next;
    if (made.refusal != 0)
        return 0;
    for (; place < length && n < MOST_CALLS; n++) {
        entry *e = &entries[n];
        memset(e, 0, sizeof *e);
        e->what = list[place++];
        e->bytes = list + place;
        e->length = length - place;
        if (e->what == BACK) {
            e->what = NUTHKOLLA_TAKE_BACK;
            e->length = 0;
        }
        e->answer = perform(&g, e);
        if (e->answer.next == 0 && e->what != NUTHKOLLA_TAKE_BACK)
            return 0;
        e->length = e->answer.next;
        place += e->length;
        if (is_call(e)) {
            e->call = call_of(e->bytes);
            e->law = is_waypoint(e) ? vertical_law(&e->call) : 0;
        }
        if (accepted(e) && e->what == NUTHKOLLA_SET_CONFIG) {
            former = config;
            kept = 1;
            config = nuthkolla_read_config(e->bytes, e->length, 0).config;
        }
        if (accepted(e) && e->what == NUTHKOLLA_TAKE_BACK) {
            config = former;
            kept = 0;
        }
        e->config = config;
        e->kept = kept;
        e->former = former;
        e->underspeed = underspeed = accepted(e) ? underspeed_after(e, underspeed) : underspeed;
        e->report = plant == GUARD && e->law == NUTHKOLLA_HOLD ? 0 : nuthkolla_report(g, NUTHKOLLA_WATCHER, NUTHKOLLA_STALL_GUARD).value;
    }
    return place < length ? 0 : n;
}

static void configure(nuthkolla_guidance *g, uint32_t what, nuthkolla_config config)
{
    uint8_t record[NUTHKOLLA_CONFIG_BYTES];
    nuthkolla_place p = nuthkolla_write_config(record, sizeof record, 0, config);
    if (nuthkolla_run(g, NUTHKOLLA_SKIPPER, what, record, p.next).refusal != 0) {
        printf("a configuration in force is refused\n");
        exit(1);
    }
}

/* A fresh guidance with the configuration in force after a call, and with the one kept that was kept then. */
static nuthkolla_guidance fresh_after(const entry *e)
{
    nuthkolla_guidance g = {0};
    configure(&g, NUTHKOLLA_NEW, e->kept ? e->former : e->config);
    if (e->kept)
        configure(&g, NUTHKOLLA_SET_CONFIG, e->config);
    return g;
}

/* ---- struck calls */

/* Every refused call, and every hold unless the last accepted guide or prime call before it was a fallback. */
static void mark(size_t n)
{
    int fell_back = 0;
    for (size_t i = 0; i < n; i++) {
        entry *e = &entries[i];
        e->struck = !accepted(e) || (e->law == NUTHKOLLA_HOLD && !fell_back);
        if (plant == STRIKE && i % 7 == 0 && e->law == NUTHKOLLA_ENERGY)
            e->struck = 1;
        if (accepted(e) && is_call(e))
            fell_back = e->law == NUTHKOLLA_FALLBACK;
        struck += e->struck;
    }
}

static int check_struck(const uint8_t *list, size_t length, size_t n)
{
    nuthkolla_guidance g = {0};
    nuthkolla_run(&g, NUTHKOLLA_SKIPPER, NUTHKOLLA_NEW, list, length);
    mark(n);
    for (size_t i = 0; i < n; i++) {
        if (entries[i].struck)
            continue;
        nuthkolla_answer a = perform(&g, &entries[i]);
        if (!same(&a, &entries[i].answer))
            return failed(i, "another answer without the struck calls");
        repeated++;
    }
    return 1;
}

/* ---- fresh starts */

static int starts_fresh(const entry *e) { return accepted(e) && is_call(e) && e->call.kind != NUTHKOLLA_WAYPOINT; }

static int check_fresh(size_t n)
{
    for (size_t i = 0; i < n; i++) {
        if (!starts_fresh(&entries[i]))
            continue;
        nuthkolla_guidance g = fresh_after(&entries[i]);
        starts++;
        for (size_t j = i + 1; j < n; j++) {
            nuthkolla_answer a = perform(&g, &entries[j]);
            if (!same(&a, &entries[j].answer))
                return failed(j, "another answer than from a fresh guidance");
            beside_fresh++;
        }
    }
    return 1;
}

/* ---- limits */

static float least(float a, float b) { return isnan(a) ? b : isnan(b) || a < b ? a : b; }
static float greatest(float a, float b) { return isnan(a) ? b : isnan(b) || a > b ? a : b; }
static int within(float low, float x, float high) { return low <= x && x <= high; }

/* Whether some correction between low and high gives this pitch: trim plus it, rounded once. */
static int corrected(float pitch, float trim, float low, float high)
{
    float middle = pitch - trim;
    float candidates[] = {low, high, middle, nextafterf(middle, INFINITY), nextafterf(middle, -INFINITY), -0.0f};
    for (size_t i = 0; i < sizeof candidates / sizeof *candidates; i++)
        if (within(low, candidates[i], high) && bits(trim + candidates[i]) == bits(pitch))
            return 1;
    return 0;
}

static int fallback_pitch(const entry *e, float up, float down)
{
    float trim = e->config.trim_pitch_rad;
    if (!isfinite(e->call.altitude_m - e->call.position_m.z))
        return bits(e->answer.pitch) == bits(trim + 0.0f);
    return corrected(e->answer.pitch, trim, -down - trim, up - trim);
}

static int vertical_limits(const entry *e)
{
    const nuthkolla_config *c = &e->config;
    const nuthkolla_answer *a = &e->answer;
    float cap = e->call.has_cap ? e->call.pitch_cap_rad : NAN;
    float up = least(c->max_pitch_up_rad, cap), down = least(c->max_pitch_down_rad, cap);
    float top = greatest(c->max_thrust, c->min_thrust);
    if (plant == NARROW)
        up *= 0.9375f;
    checked[e->law]++;
    if (e->law == NUTHKOLLA_HOLD)
        return bits(a->pitch) == bits(c->trim_pitch_rad) && bits(a->thrust) == bits(c->cruise_thrust);
    if (!within(c->min_thrust, a->thrust, top))
        return 0;
    if (e->law == NUTHKOLLA_FALLBACK)
        return fallback_pitch(e, up, down);
    full_thrust += e->underspeed;
    return within(-down, a->pitch, up) && (!e->underspeed || a->thrust == top);
}

static int check_limits(size_t n)
{
    for (size_t i = 0; i < n; i++) {
        const entry *e = &entries[i];
        if (!is_waypoint(e) || !accepted(e))
            continue;
        if (e->answer.lateral != lateral_law(&e->call) || e->answer.vertical != e->law)
            return failed(i, "another law's name");
        if (!within(-e->config.max_bank_rad, e->answer.roll, e->config.max_bank_rad))
            return failed(i, "roll past its limit");
        if (!vertical_limits(e))
            return failed(i, "pitch or thrust past its limits");
    }
    return 1;
}

/* ---- the stall guard */

/* Of the energy steps since the last accepted prime, command other than a waypoint or fallback, the latest that was below share times
 * least airspeed, or at or above least airspeed, by its own configuration, was below. */
static uint32_t guard_stands(size_t at)
{
    for (size_t i = at + 1; i-- > 0;) {
        const entry *e = &entries[i];
        const nuthkolla_tecs_config *t = &e->config.tecs;
        if (!accepted(e) || !is_call(e) || e->law == NUTHKOLLA_HOLD)
            continue;
        if (e->law != NUTHKOLLA_ENERGY)
            return 0;
        if (e->call.airspeed_mps < t->underspeed_share * t->min_airspeed_mps)
            return 1;
        if (e->call.airspeed_mps >= t->min_airspeed_mps)
            return 0;
    }
    return 0;
}

static int check_guard(size_t n)
{
    for (size_t i = 0; i < n; i++) {
        if (entries[i].report != guard_stands(i))
            return failed(i, "another report of the stall guard");
        guarded += entries[i].report;
    }
    return 1;
}

/* ---- many lists */

/* 1 if demand 3 holds of the list, 0 if not. */
static int check_list(const uint8_t *list, size_t length)
{
    size_t n = first_run(list, length);
    if (n == 0)
        return failed(0, "no list that can be run");
    calls += n;
    return check_struck(list, length, n) & check_fresh(n) & check_limits(n) & check_guard(n);
}

static int plant_named(const char *name)
{
    for (int i = 0; i < PLANTS; i++)
        if (strcmp(plants[i], name) == 0)
            return i;
    printf("no fault %s\n", name);
    exit(2);
}

int main(int count, char **words)
{
    plant = count > 2 && strcmp(words[1], "--plant") == 0 ? plant_named(words[2]) : NONE;
    unsigned long passed = 0, failures = 0;
    for (uint8_t head[4]; fread(head, 1, 4, stdin) == 4;) {
        size_t length = head[0] | (size_t)head[1] << 8 | (size_t)head[2] << 16 | (size_t)head[3] << 24;
        if (length > sizeof input || fread(input, 1, length, stdin) != length) {
            printf("a list is cut short or too long\n");
            return 1;
        }
        list_number++;
        *(check_list(input, length) ? &passed : &failures) += 1;
    }
    printf("%lu calls in %lu lists; %lu struck, %lu answers repeated without them; %lu fresh starts, %lu answers beside them\n", calls,
        list_number, struck, repeated, starts, beside_fresh);
    printf("limits of %lu energy steps (%lu at full thrust by underspeed), %lu holds, %lu fallbacks\n", checked[NUTHKOLLA_ENERGY],
        full_thrust, checked[NUTHKOLLA_HOLD], checked[NUTHKOLLA_FALLBACK]);
    printf("the stall guard's report after each call; it stands after %lu\n", guarded);
    printf("%lu passed, %lu failed\n", passed, failures);
    int every = struck && repeated && beside_fresh && full_thrust && guarded && checked[NUTHKOLLA_HOLD] && checked[NUTHKOLLA_FALLBACK];
    if (!every)
        printf("the lists do not reach every check\n");
    return failures != 0 || !every;
}
